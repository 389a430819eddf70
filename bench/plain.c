/* not proved: for comparison only */

/* Radio-telex logic after ITU-R M.625, as papers 01 and 02 have it: see plain.h. */

#include "plain.h"

#include <string.h>

#if defined(__GNUC__)
#define UNLIKELY(x) __builtin_expect(!!(x), 0)
#define COLD __attribute__((cold, noinline))
#define APART __attribute__((noinline))
#else
#define UNLIKELY(x) (x)
#define COLD
#define APART
#endif

/* --- The code --- */

enum {
    WORD_RETURN = 120, WORD_LINE_FEED = 108, WORD_LETTERS = 90,
    WORD_BLANK = WORD_CS2, WORD_WHO = 83        /* D, "who are you" in figures */
};

/* The traffic signals but the shifts and blank, by sort: those with a letter and
 * a figure; F, G and H, which have no figure; those that need no case.  Every
 * table below is made from these lists. */
#define SHIFTED_SIGNALS(SHIFTED) \
    SHIFTED(1, 71, 'A', '-')    SHIFTED(2, 114, 'B', '?') \
    SHIFTED(3, 29, 'C', ':')    SHIFTED(4, 83, 'D', 5) \
    SHIFTED(5, 86, 'E', '3')    SHIFTED(9, 77, 'I', '8') \
    SHIFTED(10, 23, 'J', 7)     SHIFTED(11, 30, 'K', '(') \
    SHIFTED(12, 101, 'L', ')')  SHIFTED(13, 57, 'M', '.') \
    SHIFTED(14, 89, 'N', ',')   SHIFTED(15, 113, 'O', '9') \
    SHIFTED(16, 45, 'P', '0')   SHIFTED(17, 46, 'Q', '1') \
    SHIFTED(18, 85, 'R', '4')   SHIFTED(19, 75, 'S', '\'') \
    SHIFTED(20, 116, 'T', '5')  SHIFTED(21, 78, 'U', '7') \
    SHIFTED(22, 60, 'V', '=')   SHIFTED(23, 39, 'W', '2') \
    SHIFTED(24, 58, 'X', '/')   SHIFTED(25, 43, 'Y', '6') \
    SHIFTED(26, 99, 'Z', '+')

#define LETTER_SIGNALS(LETTER) \
    LETTER(6, 27, 'F') LETTER(7, 53, 'G') LETTER(8, 105, 'H')

#define PLAIN_SIGNALS(PLAIN) \
    PLAIN(27, WORD_RETURN, 13) PLAIN(28, WORD_LINE_FEED, 10) PLAIN(31, 92, 32)

#define SHIFTED(number, word, letter, figure) [word] = number,
#define LETTER(number, word, letter) [word] = number,
#define PLAIN(number, word, character) [word] = number,
static const uint8_t MEANING[256] = {
    SHIFTED_SIGNALS(SHIFTED) LETTER_SIGNALS(LETTER) PLAIN_SIGNALS(PLAIN)
    [WORD_LETTERS] = 29, [WORD_FIGURES] = 30, [WORD_BLANK] = 32,
    [WORD_ALPHA] = 33, [WORD_BETA] = 34, [WORD_RQ] = 35
};
#undef SHIFTED
#undef LETTER
#undef PLAIN

uint8_t plain_meaning(uint8_t word)
{
    return MEANING[word];
}

unsigned plain_intact(uint8_t word)
{
    unsigned ones = 0;

    for (unsigned unit = 0; unit < 7; unit++)
        ones += word >> unit & 1u;
    return word < 128 && ones == 4;
}

/* --- Text --- */

/* In the tables of encode and print, the top bit marks an entry of the ordinary
 * way: the sign of several entries put together tells whether all are. */
#define ORDINARY (UINT32_C(1) << 31)

static inline unsigned all_ordinary(uint32_t entries)
{
    return entries >> 31;
}

static inline answer refused(unsigned number, size_t value)
{
    return (answer)number << 32 | (uint32_t)value;
}

/* What is to be written is known only at the end, and a refusal may write
 * nothing: one pass into a room of our own and one copy cost less than a pass to
 * judge and a pass to write, and no store can spoil a byte behind the last. */
static inline answer hand_over(const uint8_t *own, size_t count, unsigned ends_in,
                               uint8_t *room, size_t room_length)
{
    if (UNLIKELY(count > room_length))
        return refused(2, count);
    if (count != 0)
        memcpy(room, own, count);
    return (answer)ends_in << 40 | count;
}

/* Of a character: its word; the shift it needs; in bit 16 whether it leaves the
 * case as it is; in bit 24 whether it needs figures.  0 for a byte without a
 * signal.  A small letter has the entry of its capital (02, T-01). */
#define IN_CASE(word, shift) (ORDINARY | (uint32_t)(shift) << 8 | (word))
#define SMALL(letter) ((letter) + 32)
#define SHIFTED(number, word, letter, figure) \
    LETTER(number, word, letter) \
    [figure] = IN_CASE(word, WORD_FIGURES) | UINT32_C(1) << 24,
#define LETTER(number, word, letter) \
    [letter] = IN_CASE(word, WORD_LETTERS), \
    [SMALL(letter)] = IN_CASE(word, WORD_LETTERS),
#define PLAIN(number, word, character) \
    [character] = IN_CASE(word, 0) | UINT32_C(1) << 16,
static const uint32_t SIGNAL[256] = {
    SHIFTED_SIGNALS(SHIFTED) LETTER_SIGNALS(LETTER) PLAIN_SIGNALS(PLAIN)
};
#undef SHIFTED
#undef LETTER
#undef PLAIN

/* The case while encoding: bit 0, with the ORDINARY bit of the entries in bit 7. */
enum { ENCODING = 0x80 };

/* The shift is always written; where it is not needed the word goes over it. */
static inline unsigned put_signal(uint8_t *own, size_t *count, unsigned now,
                                  uint32_t entry)
{
    unsigned next = (now & entry >> 16) | entry >> 24;

    own[*count] = (uint8_t)(entry >> 8);
    *count += now ^ next;
    own[*count] = (uint8_t)entry;
    *count += 1;
    return next;
}

COLD static answer without_signal(const uint8_t *text)
{
    size_t index = 0;

    while (SIGNAL[text[index]] != 0)
        index++;
    return refused(1, index);
}

answer plain_encode(const uint8_t *text, size_t length, unsigned start_case,
                    uint8_t *room, size_t room_length)
{
    uint8_t own[2 * MOST_CHARACTERS];
    unsigned now = ENCODING | (start_case != LETTERS_CASE);
    size_t count = 0;
    size_t i = 0;

    if (UNLIKELY(length > MOST_CHARACTERS))
        return refused(5, MOST_CHARACTERS);
    for (; length - i >= 4; i += 4) {
        uint32_t e0 = SIGNAL[text[i]], e1 = SIGNAL[text[i + 1]];
        uint32_t e2 = SIGNAL[text[i + 2]], e3 = SIGNAL[text[i + 3]];

        if (UNLIKELY(!all_ordinary(e0 & e1 & e2 & e3)))
            return without_signal(text);
        now = put_signal(own, &count, now, e0);
        now = put_signal(own, &count, now, e1);
        now = put_signal(own, &count, now, e2);
        now = put_signal(own, &count, now, e3);
    }
    for (; i < length; i++) {
        uint32_t entry = SIGNAL[text[i]];

        if (UNLIKELY(entry == 0))
            return refused(1, i);
        now = put_signal(own, &count, now, entry);
    }
    return hand_over(own, count, now & 1, room, room_length);
}

/* Of a word, in each case: the byte it prints, and in bit 8 whether it prints
 * one.  OTHER_CASE hands on to the other table.  0 for a word that may not be
 * printed. */
#define PRINTS(byte) (ORDINARY | UINT32_C(1) << 8 | (byte))
#define PRINTS_NOTHING ORDINARY
#define OTHER_CASE UINT32_C(1)

#define SHIFTED(number, word, letter, figure) [word] = PRINTS(letter),
#define LETTER(number, word, letter) [word] = PRINTS(letter),
#define PLAIN(number, word, character) [word] = PRINTS(character),
static const uint32_t IN_LETTERS[256] = {
    SHIFTED_SIGNALS(SHIFTED) LETTER_SIGNALS(LETTER) PLAIN_SIGNALS(PLAIN)
    [WORD_LETTERS] = PRINTS_NOTHING, [WORD_FIGURES] = OTHER_CASE,
    [WORD_BLANK] = PRINTS_NOTHING, [WORD_ERROR] = PRINTS('*')
};
#undef SHIFTED
#undef LETTER

#define SHIFTED(number, word, letter, figure) [word] = PRINTS(figure),
#define LETTER(number, word, letter) [word] = PRINTS('#'),
static const uint32_t IN_FIGURES[256] = {
    SHIFTED_SIGNALS(SHIFTED) LETTER_SIGNALS(LETTER) PLAIN_SIGNALS(PLAIN)
    [WORD_LETTERS] = OTHER_CASE, [WORD_FIGURES] = PRINTS_NOTHING,
    [WORD_BLANK] = PRINTS_NOTHING, [WORD_ERROR] = PRINTS('*')
};
#undef SHIFTED
#undef LETTER
#undef PLAIN

static inline void put_byte(uint8_t *own, size_t *count, uint32_t entry)
{
    own[*count] = (uint8_t)entry;
    *count += entry >> 8 & 0xFF;
}

/* One case: prints on from word i up to a shift to the other case, and steps
 * over that, or to the end.  Answers the last entry met. */
static inline uint32_t print_in(const uint32_t *table, const uint8_t *words,
                                size_t length, size_t *i, uint8_t *own,
                                size_t *count)
{
    uint32_t entry = ORDINARY;

    for (; length - *i >= 4; *i += 4) {
        uint32_t e0 = table[words[*i]], e1 = table[words[*i + 1]];
        uint32_t e2 = table[words[*i + 2]], e3 = table[words[*i + 3]];

        if (!all_ordinary(e0 & e1 & e2 & e3))
            break;
        put_byte(own, count, e0);
        put_byte(own, count, e1);
        put_byte(own, count, e2);
        put_byte(own, count, e3);
    }
    for (; *i < length; *i += 1) {
        entry = table[words[*i]];
        if (!all_ordinary(entry))
            break;
        put_byte(own, count, entry);
    }
    return entry;
}

answer plain_print(const uint8_t *words, size_t length, unsigned start_case,
                   uint8_t *room, size_t room_length)
{
    uint8_t own[MOST_SIGNALS];
    size_t count = 0;
    size_t i = 0;
    uint32_t entry;

    if (UNLIKELY(length > MOST_SIGNALS))
        return refused(7, MOST_SIGNALS);
    if (start_case != LETTERS_CASE)
        goto figures;

letters:
    entry = print_in(IN_LETTERS, words, length, &i, own, &count);
    if (all_ordinary(entry))
        return hand_over(own, count, LETTERS_CASE, room, room_length);
    if (UNLIKELY(entry == 0))
        return refused(3, i);
    i++;

figures:
    entry = print_in(IN_FIGURES, words, length, &i, own, &count);
    if (all_ordinary(entry))
        return hand_over(own, count, FIGURES_CASE, room, room_length);
    if (UNLIKELY(entry == 0))
        return refused(3, i);
    i++;
    goto letters;
}

/* --- Mode A --- */

#define THREE(a, b, c) \
    ((uint32_t)(a) | (uint32_t)(b) << 8 | (uint32_t)(c) << 16)

#define ALPHAS THREE(WORD_ALPHA, WORD_ALPHA, WORD_ALPHA)
#define BETAS THREE(WORD_BETA, WORD_BETA, WORD_BETA)
#define RQS THREE(WORD_RQ, WORD_RQ, WORD_RQ)
#define TURN THREE(WORD_BETA, WORD_ALPHA, WORD_BETA)
#define OVER THREE(WORD_FIGURES, WORD_PLUS, WORD_QUERY)

enum { MOST_COUNT = 31, MOST_ENDS = 4, MOST_CALLS = 128, CALL_WAIT = 128, MOST_WRONG = 4 };

/* What a word of an accepted block does to what was heard.  HEARD_FIGURES,
 * HEARD_PLUS and HEARD_OVER make eight states; byte s of a word's entry holds the
 * state after state s, times eight, so that it is the shift into the next word's
 * entry.  The top bit marks the words that may stand in a block (traffic, beta),
 * the one below it marks beta; both are outside STATE, in every byte.  The lowest bit
 * of a byte, ASKED, marks D where the state is one of figures: "who are you" (02,
 * T-06).  0 for the rest. */
enum { HEARD_OVER = 4, STATE = 0x38, ASKED = 1 };

#define AFTER(s0, s1, s2, s3, s4, s5, s6, s7) \
    (UINT64_C(0x8080808080808080) \
     | (uint64_t)(s0) << 3 | (uint64_t)(s1) << 11 | (uint64_t)(s2) << 19 \
     | (uint64_t)(s3) << 27 | (uint64_t)(s4) << 35 | (uint64_t)(s5) << 43 \
     | (uint64_t)(s6) << 51 | (uint64_t)(s7) << 59)
#define AFTER_ANY_OTHER AFTER(0, 1, 0, 1, 4, 5, 4, 5)
#define ASKED_IN_FIGURES UINT64_C(0x0100010001000100)

#define SHIFTED(number, word, letter, figure) \
    [word] = (word) == WORD_PLUS ? AFTER(0, 3, 0, 3, 4, 7, 4, 7) \
             : (word) == WORD_QUERY ? AFTER(0, 1, 0, 5, 4, 5, 4, 5) \
             : (word) == WORD_WHO ? AFTER_ANY_OTHER | ASKED_IN_FIGURES \
             : AFTER_ANY_OTHER,
#define LETTER(number, word, letter) [word] = AFTER_ANY_OTHER,
#define PLAIN(number, word, character) [word] = AFTER_ANY_OTHER,
static const uint64_t HEAR[256] = {
    SHIFTED_SIGNALS(SHIFTED) LETTER_SIGNALS(LETTER) PLAIN_SIGNALS(PLAIN)
    [WORD_LETTERS] = AFTER(0, 0, 0, 0, 4, 4, 4, 4),
    [WORD_FIGURES] = AFTER(1, 1, 1, 1, 5, 5, 5, 5),
    [WORD_BLANK] = AFTER_ANY_OTHER,
    [WORD_BETA] = AFTER(0, 1, 2, 3, 4, 5, 6, 7) | UINT64_C(0x4040404040404040)
};
#undef SHIFTED
#undef LETTER
#undef PLAIN

static inline uint64_t entry_of(uint32_t burst, unsigned index)
{
    return HEAR[burst >> 8 * index & 0xFF];
}

/* Whether all three words may stand in a block. */
static inline unsigned is_block(uint32_t burst)
{
    return (unsigned)((entry_of(burst, 0) & entry_of(burst, 1)
                       & entry_of(burst, 2)) >> 63);
}

/* What an accepted block does to what was heard, by the entries of its words: the state
 * after it, and ASKED where D stood in figures in it. */
static inline unsigned listened(unsigned heard, uint64_t e0, uint64_t e1, uint64_t e2)
{
    unsigned after0 = (unsigned)(e0 >> ((heard & 3u) << 3));
    unsigned after1 = (unsigned)(e1 >> (after0 & STATE));
    unsigned after2 = (unsigned)(e2 >> (after1 & STATE));

    return (after2 & STATE) | ((after0 | after1 | after2) & ASKED);
}

static inline uint32_t control(unsigned second)
{
    return WORD_CS1 + (WORD_CS2 - WORD_CS1) * second;
}

/* 001, tables 3a and 3b: the identity signals by their numbers. */
#define IDENTITY_SIGNALS(NUMBERED) \
    NUMBERED(0, 60)     NUMBERED(1, 58)     NUMBERED(2, 46)     NUMBERED(3, 30) \
    NUMBERED(4, 57)     NUMBERED(5, 45)     NUMBERED(6, 29)     NUMBERED(7, 43) \
    NUMBERED(8, 27)     NUMBERED(9, 75)     NUMBERED(10, 116)   NUMBERED(11, 114) \
    NUMBERED(12, 78)    NUMBERED(13, 86)    NUMBERED(14, 113)   NUMBERED(15, 77) \
    NUMBERED(16, 85)    NUMBERED(17, 99)    NUMBERED(18, 83)    NUMBERED(19, 71)

/* An identity signal's number, with IDENTITY above it; 0 for another word. */
enum { IDENTITY = 32, ITS_NUMBER = 31 };

#define NUMBERED(number, word) [word] = IDENTITY | (number),
static const uint8_t IDENTIFIES[256] = { IDENTITY_SIGNALS(NUMBERED) };
#undef NUMBERED

#define NUMBERED(number, word) [number] = word,
static const uint8_t CHECK_SUMS[20] = { IDENTITY_SIGNALS(NUMBERED) };
#undef NUMBERED

static inline unsigned signal_of(uint64_t identity, unsigned index)
{
    return identity >> 8 * index & 0xFF;
}

/* The index of the first of so many signals that is no identity signal; `length`
 * where all are. */
static inline unsigned first_outside(uint64_t identity, unsigned length)
{
    unsigned index = 0;

    while (index < length && IDENTIFIES[signal_of(identity, index)])
        index++;
    return index;
}

/* The same of two identities, one behind the other. */
static inline unsigned first_outside_both(uint64_t one, unsigned length, uint64_t two)
{
    unsigned index = first_outside(one, length);

    return index < length ? index : length + first_outside(two, 7);
}

static inline unsigned number_of(uint64_t identity, unsigned index)
{
    return IDENTIFIES[signal_of(identity, index)] & ITS_NUMBER;
}

/* 001, 2.5: check-sum 0 is of the signals 0 to 2, 1 of 2 to 4, 2 of 4 to 6.  A word
 * that is no identity signal counts 0. */
static inline unsigned check_sum(uint64_t seven, unsigned which)
{
    unsigned from = 2 * which;
    unsigned sum = number_of(seven, from) + number_of(seven, from + 1)
                   + number_of(seven, from + 2);

    return CHECK_SUMS[sum % 20];
}

static inline uint32_t call_block_1(uint32_t identity)
{
    return THREE(identity & 0xFF, WORD_RQ, identity >> 8 & 0xFF);
}

static inline uint32_t call_block_2(uint32_t identity)
{
    return THREE(identity >> 16 & 0xFF, identity >> 24, WORD_RQ);
}

/* Block 0, 1 or 2 of seven signals: with RQ for the mark a call block, with alpha an
 * identification block. */
static inline uint32_t block_of(uint64_t seven, unsigned mark, unsigned block)
{
    if (block == 0)
        return THREE(signal_of(seven, 0), mark, signal_of(seven, 1));
    if (block == 1)
        return THREE(mark, signal_of(seven, 2), signal_of(seven, 3));
    return seven >> 32 & 0xFFFFFF;
}

/* Which call block of its own a station hears: 0 none, 1 or 2.  An identity that
 * is none has none. */
static inline unsigned own_call(uint32_t own, uint32_t burst)
{
    if (first_outside(own, 4) < 4)
        return 0;
    return burst == call_block_1(own) ? 1 : burst == call_block_2(own) ? 2 : 0;
}

/* The same of seven signals: 1, 2 or 3. */
static inline unsigned own_call3(uint64_t own7, uint32_t burst)
{
    unsigned block = 3;

    if (first_outside(own7, 7) < 7)
        return 0;
    while (block != 0 && burst != block_of(own7, WORD_RQ, block - 1))
        block--;
    return block;
}

struct station plain_fresh_master(void)
{
    return (struct station){ .place = PLACE_OPENING };
}

struct station plain_fresh_slave(void)
{
    return (struct station){ .place = PLACE_RECEIVING, .slave = 1 };
}

answer plain_standing_by(struct station *station, uint32_t identity)
{
    unsigned outside = first_outside(identity, 4);

    if (outside < 4)
        return refused(8, outside);
    *station = (struct station){ .place = PLACE_STANDBY, .slave = 1, .own = identity };
    return 0;
}

answer plain_standing_by_both(struct station *station, uint32_t identity,
                              uint64_t seven)
{
    unsigned outside = first_outside_both(identity, 4, seven);

    if (outside < 11)
        return refused(8, outside);
    plain_standing_by(station, identity);
    station->own7 = seven;
    return 0;
}

/* Whether a station may have the code: at most 20 signals, all traffic, and neither
 * D in figures nor an over among them, from letters or from figures. */
APART static unsigned passes(const struct code *code)
{
    unsigned letters = 0;
    unsigned figures = HEARD_FIGURES << 3;
    unsigned heard = 0;

    if (code->length > MOST_CODE)
        return 0;
    for (unsigned i = 0; i < code->length; i++) {
        uint64_t entry = HEAR[code->words[i]];

        if (entry >> 62 != 2)       /* it may stand in a block, and is not beta */
            return 0;
        letters = (unsigned)(entry >> (letters & STATE));
        figures = (unsigned)(entry >> (figures & STATE));
        heard |= letters | figures;
    }
    return (heard & (ASKED | HEARD_OVER << 3)) == 0;
}

answer plain_with_code(struct station *station, const struct code *code)
{
    if (!passes(code))
        return refused(9, 0);
    station->code = *code;
    station->owed = OWED_NOTHING;
    return 0;
}

/* How many blocks the answer has: those of the code, beta beta beta twice, and where
 * the direction is turned back the over. */
static inline unsigned answer_blocks(const struct station *station)
{
    return (station->code.length + 2u) / 3 + (station->owed == OWED_BACK ? 3 : 2);
}

/* Whether a block is owed that the answer does not have. */
static inline unsigned owes_past(const struct station *station)
{
    return station->owed != OWED_NOTHING && station->index >= answer_blocks(station);
}

/* Where the call offered has a word that is no identity signal: a call of four
 * signals in these, one of seven in these and then in the own seven, which
 * identification tells.  ALL_INSIDE where there is none. */
enum { ALL_INSIDE = 14 };

static inline unsigned call_outside(const struct station *station, uint64_t offer)
{
    unsigned index;

    if (offer >> 56 == OFFER_CALL3)
        return first_outside_both(offer, 7, station->own7);
    index = first_outside(offer, 4);
    return index < 4 ? index : ALL_INSIDE;
}

/* Which refusal it is, in the order of 01 and 02. */
COLD static step_answer step_refused(const struct station *station, uint64_t offer)
{
    unsigned index = 0;

    if (offer >> 56 >= OFFER_CALL && call_outside(station, offer) < ALL_INSIDE)
        return (step_answer)call_outside(station, offer) << 56 | (step_answer)8 << 24;
    if (station->count > MOST_COUNT
        || (station->place == PLACE_SENDING && !is_block((uint32_t)station->held))
        || (station->place == PLACE_ENDING
            && (station->total < 1 || station->total > MOST_ENDS))
        || owes_past(station))
        return (step_answer)4 << 24;
    if (!passes(&station->code))
        return (step_answer)9 << 24;
    while (index < 2 && entry_of((uint32_t)offer, index) != 0)
        index++;
    return (step_answer)index << 56 | (step_answer)3 << 24;
}

/* Whether a step is refused, but for what Sending and Ending carry, which is judged where
 * it is read. */
static inline unsigned is_refused(const struct station *station, uint64_t offer)
{
    if (UNLIKELY((station->count > MOST_COUNT)
                 | ((offer >> 56 == OFFER_TEXT) & !is_block((uint32_t)offer))))
        return 1;
    if (UNLIKELY(offer >> 56 >= OFFER_CALL && call_outside(station, offer) < ALL_INSIDE))
        return 1;
    return UNLIKELY(station->owed | station->code.length)
           && UNLIKELY(owes_past(station) || !passes(&station->code));
}

/* At the same place, nothing confirmed or accepted: the 32nd is Lost. */
static inline step_answer again(struct station *station, uint32_t burst)
{
    unsigned count = station->count + 1u;

    if (UNLIKELY(count > MOST_COUNT)) {
        station->place = PLACE_LOST;
        count = 0;
        burst = 0;
    }
    station->count = (uint8_t)count;
    return burst;
}

static inline step_answer moves(struct station *station, unsigned place,
                                uint32_t burst)
{
    station->place = (uint8_t)place;
    station->count = 0;
    return burst;
}

/* To Stand-by, where it may place no call for so many steps.  A call that is barred
 * stays so, and waits from here on. */
static inline step_answer rests(struct station *station, unsigned wait,
                                uint32_t burst)
{
    if (station->known == OTHER_BARRED)
        wait = CALL_WAIT;
    else
        station->known = OTHER_NOBODY;
    station->cycles = (uint8_t)wait;
    station->last = 0;
    station->heard3 = HEARD_NONE;
    station->owed = OWED_NOTHING;
    return moves(station, PLACE_STANDBY, burst);
}

/* A call is answered or placed. */
static inline step_answer begins(struct station *station, unsigned slave,
                                 unsigned place, uint32_t burst)
{
    station->slave = (uint8_t)slave;
    station->owed = OWED_NOTHING;
    station->heard = 0;
    station->known = OTHER_NOBODY;
    return moves(station, place, burst);
}

/* Who is at the other end: the identity that is held. */
static inline void knows(struct station *station, unsigned as)
{
    station->other = station->held;
    station->known = (uint8_t)as;
}

/* The end of a three-block call: CS1 confirms it. */
static inline step_answer ends(struct station *station)
{
    station->second = 1;
    station->total = 1;
    return moves(station, PLACE_ENDING, ALPHAS);
}

/* A repetition in identification: the 32nd leads to Stand-by. */
static inline step_answer identifies_again(struct station *station, uint32_t burst)
{
    if (UNLIKELY(station->count >= MOST_COUNT))
        return rests(station, 0, 0);
    station->count++;
    return burst;
}

/* The block of the answer that is owed: what the code has left for it, filled with
 * beta, or where the direction is turned back the over for the last.  The offer,
 * whatever it is, is not taken. */
APART static step_answer takes_owed(struct station *station, unsigned second)
{
    unsigned from = 3u * station->index;
    uint32_t block = BETAS;

    for (unsigned i = 0; i < 3 && from + i < station->code.length; i++)
        block ^= (uint32_t)(WORD_BETA ^ station->code.words[from + i]) << 8 * i;
    station->index++;
    if (station->index == answer_blocks(station)) {
        if (station->owed == OWED_BACK)
            block = OVER;
        station->owed = OWED_NOTHING;
    }
    station->held = block;
    station->second = (uint8_t)second;
    return moves(station, PLACE_SENDING, block);
}

/* Text gives that block, nothing beta beta beta, over figures + ?, end alpha
 * alpha alpha and Ending.  A call gives beta beta beta and is not taken.  All of them
 * wait while an answer is owed. */
static inline step_answer takes(struct station *station, uint64_t offer,
                                unsigned second)
{
    static const uint32_t GIVEN[6] = { BETAS, 0, OVER, ALPHAS, BETAS, BETAS };
    static const uint32_t WORDS[6] = { 0, 0xFFFFFF, 0, 0, 0, 0 };
    unsigned kind = (unsigned)(offer >> 56);
    uint32_t block = GIVEN[kind] | ((uint32_t)offer & WORDS[kind]);

    if (UNLIKELY(station->owed != OWED_NOTHING))
        return takes_owed(station, second);
    station->held = block;
    station->place = kind == OFFER_END ? PLACE_ENDING : PLACE_SENDING;
    station->second = (uint8_t)second;
    station->total = 1;
    station->count = 0;
    return (step_answer)(kind < OFFER_CALL) << 56 | block;
}

/* The words of an accepted block but beta, moved up. */
COLD static uint32_t without_beta(uint32_t burst)
{
    uint32_t words = 0;

    for (int shift = 16; shift >= 0; shift -= 8) {
        uint32_t word = burst >> shift & 0xFF;

        if (word != WORD_BETA)
            words = words << 8 | word;
    }
    return words;
}

/* What is heard in succession behind what was, by the block of its own that the burst
 * is: 0 none, 1, 2 or 3. */
static const uint8_t IN_SUCCESSION[HEARD_WHOLE][4] = {
    [HEARD_NONE] = { HEARD_NONE, HEARD_1, HEARD_2, HEARD_NONE },
    [HEARD_1] = { HEARD_NONE, HEARD_1, HEARD_1_2, HEARD_NONE },
    [HEARD_1_2] = { HEARD_NONE, HEARD_1, HEARD_2, HEARD_WHOLE },
    [HEARD_2] = { HEARD_NONE, HEARD_1, HEARD_2, HEARD_2_3 },
    [HEARD_2_3] = { HEARD_NONE, HEARD_WHOLE, HEARD_2, HEARD_NONE }
};

/* Stand-by: both call blocks in succession are answered, and so are three; a call is
 * placed where none is left to wait, one of seven signals unless that one waits. */
APART static step_answer stands_by(struct station *station, uint32_t burst, uint64_t offer)
{
    unsigned call = own_call(station->own, burst);
    uint64_t called = offer & UINT64_C(0xFFFFFFFFFFFFFF);
    unsigned heard3;

    if (call + station->last == 3) {
        station->second = 0;
        return begins(station, 1, PLACE_RECEIVING, control(0));
    }
    heard3 = IN_SUCCESSION[station->heard3][own_call3(station->own7, burst)];
    if (heard3 == HEARD_WHOLE) {
        station->stage = 0;
        station->held = 0;
        return begins(station, 1, PLACE_ANSWERING, WORD_CS4);
    }
    if (offer >> 56 == OFFER_CALL && station->cycles == 0) {
        station->held = called;
        station->cycles = 1;
        station->last = 0;
        return (step_answer)1 << 56
               | begins(station, 0, PLACE_CALLING, call_block_1((uint32_t)called));
    }
    if (offer >> 56 == OFFER_CALL3
        && (station->cycles == 0 || station->known != OTHER_BARRED
            || station->other != called)) {
        station->held = called;
        station->cycles = 1;
        return (step_answer)1 << 56
               | begins(station, 0, PLACE_CALLING3, block_of(called, WORD_RQ, 0));
    }
    station->cycles -= station->cycles != 0;
    station->last = (uint8_t)call;
    station->heard3 = (uint8_t)heard3;
    return moves(station, PLACE_STANDBY, 0);
}

/* Calling: the same control signal twice in succession, CS3, or the next block. */
APART static step_answer calls_on(struct station *station, uint32_t burst, uint64_t offer)
{
    unsigned first = burst & 0xFF;
    unsigned heard = first == WORD_CS1 ? 1 : first == WORD_CS2 ? 2 : 0;

    if (heard != 0 && heard == station->last) {
        knows(station, OTHER_FOUR);
        return takes(station, offer, heard - 1);
    }
    if (first == WORD_CS3 || station->cycles >= MOST_CALLS)
        return rests(station, CALL_WAIT, 0);
    burst = station->cycles % 2 == 0 ? call_block_1((uint32_t)station->held)
                                     : call_block_2((uint32_t)station->held);
    station->cycles++;
    station->last = (uint8_t)heard;
    return moves(station, PLACE_CALLING, burst);
}

/* Calling with three blocks: one CS4 begins identification; CS1 and CS2 answer calls
 * of four signals alone. */
APART static step_answer calls_on_3(struct station *station, uint32_t burst)
{
    unsigned first = burst & 0xFF;

    if (first == WORD_CS4) {
        station->stage = 0;
        station->wrong = 0;
        station->last = 0;
        return moves(station, PLACE_IDENTIFYING, block_of(station->own7, WORD_ALPHA, 0));
    }
    if (first == WORD_CS5) {
        knows(station, OTHER_BARRED);
        return ends(station);
    }
    if (first == WORD_CS3 || station->cycles >= MOST_CALLS) {
        knows(station, OTHER_BARRED);
        return rests(station, 0, 0);
    }
    burst = block_of(station->held, WORD_RQ, station->cycles % 3);
    station->cycles++;
    return moves(station, PLACE_CALLING3, burst);
}

/* Identifying: the check-sums of the identity called, in answer to the blocks of the
 * own one.  RQ RQ RQ is sent at the last stage. */
APART static step_answer identifies(struct station *station, uint32_t burst, uint64_t offer)
{
    unsigned first = burst & 0xFF;
    unsigned stage = station->stage;
    uint32_t block = stage == 3 ? RQS : block_of(station->own7, WORD_ALPHA, stage);

    if (stage == 3) {
        if (first == WORD_CS1) {
            knows(station, OTHER_SEVEN);
            return takes(station, offer, 0);
        }
        if (first == WORD_CS3) {
            knows(station, OTHER_SEVEN);
            station->second = 1;
            return moves(station, PLACE_TURNING, TURN);
        }
    } else if (first == check_sum(station->held, stage)) {
        station->stage++;
        station->wrong = 0;
        station->last = 0;
        block = stage == 2 ? RQS : block_of(station->own7, WORD_ALPHA, stage + 1);
        return moves(station, PLACE_IDENTIFYING, block);
    } else if (IDENTIFIES[first]) {
        if (station->wrong != 0 && first == station->last)
            return ends(station);
        if (station->wrong >= MOST_WRONG)
            return rests(station, 0, 0);
        station->wrong++;
        station->last = (uint8_t)first;
    }
    return identifies_again(station, block);
}

/* Which identification block the burst is, 0, 1 or 2; NO_BLOCK for none. */
enum { NO_BLOCK = 4 };

static inline unsigned identification_block(uint32_t burst)
{
    unsigned first = burst & 0xFF;
    unsigned middle = burst >> 8 & 0xFF;

    if (!IDENTIFIES[burst >> 16 & 0xFF])
        return NO_BLOCK;
    if (IDENTIFIES[first])
        return middle == WORD_ALPHA ? 0 : IDENTIFIES[middle] ? 2 : NO_BLOCK;
    return first == WORD_ALPHA && IDENTIFIES[middle] ? 1 : NO_BLOCK;
}

/* The signals with those of the block in their places. */
static inline uint64_t gathered(uint64_t signals, uint32_t burst, unsigned block)
{
    if (block == 0)
        return (signals & ~UINT64_C(0xFFFF)) | (burst & 0xFF) | (burst >> 8 & 0xFF00);
    if (block == 1)
        return (signals & ~UINT64_C(0xFFFF0000)) | (burst & 0xFFFF00) << 8;
    return seven_of((uint32_t)signals, burst);
}

/* Answering: a check-sum of the own identity to each block of the master's.  The
 * block before the one awaited is judged by the letters that were gathered. */
APART static step_answer answers(struct station *station, uint32_t burst, uint64_t offer)
{
    unsigned stage = station->stage;
    unsigned block = identification_block(burst);
    uint64_t had = station->held;

    if (burst == ALPHAS)
        return rests(station, 0, control(0));
    if (burst == RQS && stage == 3) {
        unsigned over = offer >> 56 == OFFER_OVER;

        knows(station, OTHER_SEVEN);
        station->second = 0;
        return (step_answer)over << 56
               | (over ? moves(station, PLACE_ASKING, WORD_CS3)
                       : moves(station, PLACE_RECEIVING, control(0)));
    }
    if (block == stage) {
        station->held = gathered(had, burst, block);
        station->stage++;
        return moves(station, PLACE_ANSWERING, check_sum(station->own7, block));
    }
    if (block + 1 == stage) {
        station->held = gathered(had, burst, block);
        return identifies_again(station, station->held == had ? check_sum(station->own7, block)
                                                              : WORD_RQ);
    }
    return identifies_again(station, stage == 0 ? WORD_CS4 : WORD_RQ);
}

step_answer plain_step(struct station *station, uint32_t burst, uint64_t offer)
{
    unsigned first = burst & 0xFF;
    unsigned second = station->second;
    unsigned other = second ^ 1;

    if (UNLIKELY(is_refused(station, offer)))
        return step_refused(station, offer);

    switch (station->place) {
    case PLACE_SENDING:
        if (UNLIKELY(!is_block((uint32_t)station->held)))
            return step_refused(station, offer);
        if (first == control(other))
            return takes(station, offer, other);
        if (first == control(second))
            return again(station, (uint32_t)station->held);
        if (first == WORD_CS3) {
            station->owed = OWED_NOTHING;
            return moves(station, PLACE_TURNING, TURN);
        }
        return again(station, RQS);

    case PLACE_TURNING:
        if (station->slave ? first == WORD_RQ : burst == RQS) {
            station->second = (uint8_t)other;
            station->heard &= HEARD_FIGURES;
            return moves(station, PLACE_RECEIVING, control(other));
        }
        return again(station, first == WORD_CS3 ? TURN : RQS);

    case PLACE_OPENING:
        if (first == WORD_CS1 || first == WORD_CS2)
            return takes(station, offer, first == WORD_CS2);
        if (first == WORD_CS3)
            return rests(station, 0, 0);
        return again(station, station->slave ? RQS : WORD_RQ);

    case PLACE_ENDING:
        if (UNLIKELY(station->total - 1u >= MOST_ENDS))
            return step_refused(station, offer);
        if (first == control(other) || station->total == MOST_ENDS)
            return rests(station, 0, 0);
        station->total++;
        return moves(station, PLACE_ENDING, ALPHAS);

    case PLACE_RECEIVING: {
        uint64_t e0 = entry_of(burst, 0);
        uint64_t e1 = entry_of(burst, 1);
        uint64_t e2 = entry_of(burst, 2);

        if ((e0 & e1 & e2) >> 63) {
            unsigned over = offer >> 56 == OFFER_OVER;
            uint32_t printed = burst == BETAS ? 0 : burst;
            unsigned after = listened(station->heard, e0, e1, e2);
            unsigned state = after & STATE;
            unsigned asked = after & ASKED;
            unsigned turns;

            if (UNLIKELY(((e0 | e1 | e2) >> 62 & 1) & (printed != 0)))
                printed = without_beta(burst);
            if (UNLIKELY(asked)) {
                station->owed = state >> 5 ? OWED_KEEP : OWED_BACK;
                station->index = 0;
                over = 0;
            }
            turns = over | state >> 5 | asked;
            station->heard = state >> 3 & 3;
            station->second = (uint8_t)other;
            station->count = 0;
            station->place = (uint8_t)(PLACE_RECEIVING + turns);    /* or Asking */
            return (step_answer)over << 56 | (step_answer)printed << 32
                   | (turns ? WORD_CS3 : control(other));
        }
        if (burst == ALPHAS)
            return rests(station, 0, control(other));
        return again(station, control(second));
    }

    case PLACE_ASKING:
        if (burst == TURN) {
            station->heard &= HEARD_FIGURES;
            return moves(station, PLACE_OPENING, station->slave ? RQS : WORD_RQ);
        }
        return again(station, WORD_CS3);

    case PLACE_STANDBY:
        return stands_by(station, burst, offer);

    case PLACE_CALLING:
        return calls_on(station, burst, offer);

    case PLACE_CALLING3:
        return calls_on_3(station, burst);

    case PLACE_IDENTIFYING:
        return identifies(station, burst, offer);

    case PLACE_ANSWERING:
        return answers(station, burst, offer);

    default:
        station->count = 0;
        return 0;
    }
}

/* --- The reason for a step's answer (02, T-08) --- */

/* The question is refused as the step is. */
COLD static why_answer why_refused(const struct station *station, uint64_t offer)
{
    step_answer given = step_refused(station, offer);

    return (why_answer)step_refusal(given) << 24 | (why_answer)step_value(given) << 8;
}

/* What the row does not name, by the words that the place reads, one or all three: the
 * earliest that is mutilated, then the earliest RQ.  The zeros behind a single signal are
 * mutilated words. */
static inline why_answer why_else(uint32_t burst, unsigned words)
{
    for (unsigned index = 0; index < words; index++) {
        unsigned word = burst >> 8 * index & 0xFF;

        if (MEANING[word] == 0)
            return WHY_BAD | index << 8 | word << 16;
    }
    for (unsigned index = 0; index < words; index++) {
        if ((burst >> 8 * index & 0xFF) == WORD_RQ)
            return WHY_REPEAT | index << 8;
    }
    return WHY_UNEXPECTED;
}

/* The same where the step repeats: the 32nd repetition is the time-out. */
static inline why_answer why_again(const struct station *station, why_answer reason)
{
    return UNLIKELY(station->count == MOST_COUNT) ? WHY_TIME_OUT : reason;
}

/* Stand-by: called, by both blocks of four signals or all three of seven, before a call
 * that is offered.  One that has to wait is no reason. */
APART static why_answer why_standing_by(const struct station *station, uint32_t burst,
                                        uint64_t offer)
{
    unsigned waits = station->cycles != 0;

    if (own_call(station->own, burst) + station->last == 3)
        return WHY_CALLED;
    if (IN_SUCCESSION[station->heard3][own_call3(station->own7, burst)] == HEARD_WHOLE)
        return WHY_CALLED;
    switch (offer >> 56) {
    case OFFER_CALL:
        return waits ? WHY_SILENT : WHY_CALL_OFFERED;
    case OFFER_CALL3:
        return waits && station->known == OTHER_BARRED
               && offer_of(OFFER_CALL3, station->other) == offer
               ? WHY_SILENT : WHY_CALL_OFFERED;
    default:
        return WHY_SILENT;
    }
}

/* Calling of either kind: where 128 bursts are sent, what neither completes the call nor
 * stops it lets it run out, a first CS1 or CS2 too. */
APART static why_answer why_calling(const struct station *station, unsigned first)
{
    unsigned heard = first == WORD_CS1 ? 1 : first == WORD_CS2 ? 2 : 0;

    if (first == WORD_CS3)
        return WHY_CS3;
    if (station->cycles >= MOST_CALLS && (heard == 0 || heard != station->last))
        return WHY_RUN_OUT;
    return heard != 0 ? WHY_EITHER : why_else(first, 1);
}

APART static why_answer why_calling_3(const struct station *station, unsigned first)
{
    if (first == WORD_CS3)
        return WHY_CS3;
    if (first == WORD_CS4)
        return WHY_CS4;
    if (first == WORD_CS5)
        return WHY_CS5;
    return station->cycles >= MOST_CALLS ? WHY_RUN_OUT : why_else(first, 1);
}

/* Identifying: a wrong check-sum that ends identification is no repetition. */
APART static why_answer why_identifying(const struct station *station, unsigned first)
{
    if (station->stage == 3) {
        if (first == WORD_CS1)
            return WHY_CS1;
        if (first == WORD_CS3)
            return WHY_CS3;
    } else if (IDENTIFIES[first]) {
        if (first == check_sum(station->held, station->stage))
            return WHY_RIGHT_SUM;
        if (station->wrong >= MOST_WRONG
            || (station->wrong != 0 && first == station->last))
            return WHY_WRONG_SUM;
        return why_again(station, WHY_WRONG_SUM);
    }
    return why_again(station, why_else(first, 1));
}

APART static why_answer why_answering(const struct station *station, uint32_t burst)
{
    unsigned block = identification_block(burst);

    if (burst == ALPHAS)
        return WHY_ALPHAS;
    if (burst == RQS && station->stage == 3)
        return WHY_RQ;
    if (block == station->stage)
        return WHY_TOLD;
    if (block + 1 == station->stage)
        return why_again(station, WHY_TOLD_AGAIN);
    return why_again(station, why_else(burst, 3));
}

why_answer plain_why(const struct station *station, uint32_t burst, uint64_t offer)
{
    unsigned first = burst & 0xFF;
    unsigned second = station->second;

    if (UNLIKELY(is_refused(station, offer)))
        return why_refused(station, offer);

    switch (station->place) {
    case PLACE_SENDING:
        if (UNLIKELY(!is_block((uint32_t)station->held)))
            return why_refused(station, offer);
        if (first == control(second ^ 1))
            return WHY_OTHER;
        if (first == WORD_CS3)
            return WHY_CS3;
        return why_again(station, first == control(second) ? WHY_OWN : why_else(first, 1));

    case PLACE_TURNING:
        if (station->slave ? first == WORD_RQ : burst == RQS)
            return WHY_RQ;
        return why_again(station, first == WORD_CS3 ? WHY_CS3
                                  : why_else(burst, station->slave ? 1 : 3));

    case PLACE_OPENING:
        if (first == WORD_CS1 || first == WORD_CS2)
            return WHY_EITHER;
        if (first == WORD_CS3)
            return WHY_CS3;
        return why_again(station, why_else(first, 1));

    case PLACE_ENDING:      /* its own number, and CS3, are not named here */
        if (UNLIKELY(station->total - 1u >= MOST_ENDS))
            return why_refused(station, offer);
        return first == control(second ^ 1) ? WHY_OTHER : why_else(first, 1);

    case PLACE_RECEIVING: {
        uint64_t e0 = entry_of(burst, 0);
        uint64_t e1 = entry_of(burst, 1);
        uint64_t e2 = entry_of(burst, 2);

        if ((e0 & e1 & e2) >> 63) {
            unsigned after = listened(station->heard, e0, e1, e2);

            if (after & HEARD_OVER << 3)
                return WHY_OVER_HEARD;
            if (after & ASKED)
                return WHY_WHO_ARE_YOU;
            return offer >> 56 == OFFER_OVER ? WHY_OVER_OFFERED : WHY_ACCEPTED;
        }
        if (burst == ALPHAS)
            return WHY_ALPHAS;
        return why_again(station, why_else(burst, 3));
    }

    case PLACE_ASKING:
        if (burst == TURN)
            return WHY_TURN;
        return why_again(station, why_else(burst, 3));

    case PLACE_STANDBY:
        return why_standing_by(station, burst, offer);

    case PLACE_CALLING:
        return why_calling(station, first);

    case PLACE_CALLING3:
        return why_calling_3(station, first);

    case PLACE_IDENTIFYING:
        return why_identifying(station, first);

    case PLACE_ANSWERING:
        return why_answering(station, burst);

    default:
        return WHY_SILENT;
    }
}

/* --- A passage --- */

enum { MASTERS_BURST = 1, SLAVES_BURST, MASTERS_TEXT, SLAVES_TEXT, SLAVES_END = 8 };

/* By the kind of an entry: how long it is, and what it offers. */
static const uint8_t ENTRY_LENGTH[SLAVES_END + 1] = { 0, 2, 2, 4, 4, 1, 1, 1, 1 };
static const uint8_t ENTRY_OFFERS[SLAVES_END + 1] = {
    0, 0, 0, OFFER_TEXT, OFFER_TEXT, OFFER_OVER, OFFER_OVER, OFFER_END, OFFER_END
};

/* By the damage byte: what is heard of a burst.  Bit 0 is the first word. */
static const uint32_t IS_HEARD[8] = {
    0xFFFFFF, 0xFFFF00, 0xFF00FF, 0xFF0000, 0x00FFFF, 0x00FF00, 0x0000FF, 0
};

/* Kinds 3, 5 and 7 are the master's, station 0; kinds 4, 6 and 8 the slave's. */
static inline unsigned offered_to(unsigned kind)
{
    return (kind + 1) & 1;
}

/* A burst is heard by the other station. */
static inline unsigned hearer_of(unsigned kind)
{
    return SLAVES_BURST - kind;
}

/* What is wrong with an entry that is whole, by whose burst is next and by what stands
 * offered: its refusal, 0 for none. */
static inline unsigned fault_of(const uint8_t *entry, unsigned next, const uint64_t *offers)
{
    unsigned kind = entry[0];

    if (kind <= SLAVES_BURST)
        return kind != next || entry[1] > 7 ? 12 : 0;
    if (offers[offered_to(kind)] != 0)
        return 13;
    if (kind <= SLAVES_TEXT && !is_block(burst_of(entry[1], entry[2], entry[3])))
        return 3;
    return 0;
}

/* How many bytes the words print, the same in either case. */
static inline uint32_t printed_by(uint32_t words)
{
    uint32_t count = 0;

    for (; words != 0; words >>= 8)
        count += IN_LETTERS[words & 0xFF] >> 8 & 1;
    return count;
}

/* Prints the words, and answers the case that they end in.  No byte behind the last is
 * touched. */
static inline unsigned print_words(uint32_t words, unsigned in_case, uint8_t *room,
                                   uint32_t *count)
{
    for (; words != 0; words >>= 8) {
        uint32_t entry = (in_case ? IN_FIGURES : IN_LETTERS)[words & 0xFF];

        if (!all_ordinary(entry))
            in_case ^= 1;
        else if (entry >> 8 & 1)
            room[(*count)++] = (uint8_t)entry;
    }
    return in_case;
}

/* The run of two fresh stations.  Without rooms it judges each entry and counts what is
 * printed; with rooms it prints, over a record that was judged. */
static inline struct passed walk(const uint8_t *record, size_t length,
                                 uint8_t *const *rooms)
{
    struct station stations[2] = { plain_fresh_master(), plain_fresh_slave() };
    uint64_t offers[2] = { 0, 0 };
    unsigned cases[2] = { LETTERS_CASE, LETTERS_CASE };
    uint32_t on_the_way = control(0);
    unsigned next = SLAVES_BURST;
    struct passed passed = { 0 };
    size_t at = 0;

    while (at < length) {
        const uint8_t *entry = record + at;
        unsigned kind = entry[0];
        size_t left = length - at;

        if (rooms == NULL) {
            unsigned fault = kind - 1u >= SLAVES_END ? 10
                             : left < ENTRY_LENGTH[kind] ? 11
                             : fault_of(entry, next, offers);

            if (UNLIKELY(fault))
                return (struct passed){ .refusal = fault, .value = (uint32_t)at };
        }
        at += ENTRY_LENGTH[kind];
        if (kind <= SLAVES_BURST) {
            unsigned hearer = hearer_of(kind);
            step_answer given = plain_step(&stations[hearer],
                                           on_the_way & IS_HEARD[entry[1]], offers[hearer]);
            uint32_t words = step_printed(given);

            on_the_way = step_sent(given);
            next = MASTERS_BURST + hearer;
            if (step_taken(given))
                offers[hearer] = 0;
            if (rooms == NULL)
                passed.printed[hearer] += printed_by(words);
            else
                cases[hearer] = print_words(words, cases[hearer], rooms[hearer],
                                            &passed.printed[hearer]);
        } else {
            offers[offered_to(kind)] = offer_of(ENTRY_OFFERS[kind],
                kind <= SLAVES_TEXT ? burst_of(entry[1], entry[2], entry[3]) : 0);
        }
    }
    return passed;
}

/* The record is walked twice: refusal 13 depends on the run, and nothing may be printed
 * before the last entry is judged. */
struct passed plain_passage(const uint8_t *record, size_t length,
                            uint8_t *master, size_t master_length,
                            uint8_t *slave, size_t slave_length)
{
    uint8_t *const rooms[2] = { master, slave };
    struct passed judged = walk(record, length, NULL);

    if (judged.refusal != 0)
        return judged;
    if (UNLIKELY(judged.printed[0] > master_length))
        return (struct passed){ .refusal = 2, .value = judged.printed[0] };
    if (UNLIKELY(judged.printed[1] > slave_length))
        return (struct passed){ .refusal = 2, .value = judged.printed[1] };
    return walk(record, length, rooms);
}

/* --- Mode B, the sender --- */

/* 16 phasing positions; stretches of 96 traffic and 4 phasing positions, the last
 * one short; 17 alpha positions. */
enum { LEAD = 16, TRAFFIC = 96, BREAK = 4, STRETCH = TRAFFIC + BREAK, TAIL = 17 };

/* Nonzero where one of the words is no traffic signal.  The first loop is plain
 * arithmetic on bytes, alike for every word, for the compiler to do sixteen at a
 * time: with the lowest one taken away three times a single one must be left,
 * and not in bit 7. */
static inline unsigned judge(const uint8_t *text, size_t length)
{
    size_t whole = length & ~(size_t)15;
    uint8_t bad = 0;
    unsigned bad_behind = 0;

    for (size_t i = 0; i < whole; i++) {
        uint8_t word = text[i];
        uint8_t less1 = word & (uint8_t)(word - 1);
        uint8_t less2 = less1 & (uint8_t)(less1 - 1);
        uint8_t less3 = less2 & (uint8_t)(less2 - 1);

        bad |= less3 & (uint8_t)(less3 - 1);
        bad |= (less3 == 0) | (less3 > 127) | (word == WORD_ALPHA)
               | (word == WORD_BETA) | (word == WORD_RQ) ? 255 : 0;
    }
    for (size_t i = whole; i < length; i++)
        bad_behind |= MEANING[text[i]] - 1u;
    return bad | bad_behind >> 5;
}

COLD static answer no_traffic(const uint8_t *text)
{
    size_t index = 0;

    while (MEANING[text[index]] - 1u < 32)
        index++;
    return refused(3, index);
}

answer plain_slot(const uint8_t *text, size_t length, uint32_t number)
{
    uint32_t traffic, positions, slots, position, stretch;

    if (UNLIKELY(length > MOST_SIGNALS))
        return refused(7, MOST_SIGNALS);
    if (UNLIKELY(judge(text, length)))
        return no_traffic(text);

    /* From return to the last traffic position, breaks included. */
    traffic = (uint32_t)length + 2;
    positions = traffic + (traffic - 1) / TRAFFIC * BREAK;
    slots = 2 * (LEAD + positions + TAIL);
    if (UNLIKELY(number >= slots))
        return refused(6, slots);

    /* RX is two positions behind DX.  Counted from return, the lead wraps round,
     * and so do slots 1 and 3, which carry what a phasing position does. */
    position = number / 2 - 2 * (number & 1) - LEAD;
    stretch = position / STRETCH;
    if (position >= positions)
        return number % 2 == 0 && number < 2 * LEAD ? WORD_RQ : WORD_ALPHA;
    if (position - stretch * STRETCH >= TRAFFIC)
        return number % 2 == 0 ? WORD_RQ : WORD_ALPHA;
    position -= stretch * BREAK;
    if (position < 2)
        return position == 0 ? WORD_RETURN : WORD_LINE_FEED;
    return text[position - 2];
}

/* --- Mode B, the receiver --- */

/* The word where it is intact, otherwise 0. */
#define SHIFTED(number, word, letter, figure) [word] = word,
#define LETTER(number, word, letter) [word] = word,
#define PLAIN(number, word, character) [word] = word,
static const uint8_t INTACT[256] = {
    SHIFTED_SIGNALS(SHIFTED) LETTER_SIGNALS(LETTER) PLAIN_SIGNALS(PLAIN)
    [WORD_LETTERS] = WORD_LETTERS, [WORD_FIGURES] = WORD_FIGURES,
    [WORD_BLANK] = WORD_BLANK,
    [WORD_ALPHA] = WORD_ALPHA, [WORD_BETA] = WORD_BETA, [WORD_RQ] = WORD_RQ
};
#undef SHIFTED
#undef LETTER
#undef PLAIN

/* Of a settled signal, 0 for an error: what it prints once printing has begun,
 * and above that 255 where printing begins with it.  The service signals print
 * nothing, and RQ stands for phasing too. */
enum { SETTLED_ERROR = 0, SETTLED_PHASING = WORD_RQ };

#define SHIFTED(number, word, letter, figure) [word] = word,
#define LETTER(number, word, letter) [word] = word,
static const uint16_t SETTLED[256] = {
    SHIFTED_SIGNALS(SHIFTED) LETTER_SIGNALS(LETTER)
    [WORD_RETURN] = 0xFF00 | WORD_RETURN, [WORD_LINE_FEED] = 0xFF00 | WORD_LINE_FEED,
    [92] = 92, [WORD_LETTERS] = WORD_LETTERS, [WORD_FIGURES] = WORD_FIGURES,
    [WORD_BLANK] = WORD_BLANK, [SETTLED_ERROR] = WORD_ERROR
};
#undef SHIFTED
#undef LETTER

struct receiver plain_fresh_receiver(void)
{
    return (struct receiver){ 0, PHASE_SEARCHING, 0, 0, 0, 0 };
}

static inline unsigned prints(struct receiver *receiver, unsigned settled)
{
    unsigned entry = SETTLED[settled];
    unsigned printing = receiver->printing | entry >> 8;

    receiver->printing = (uint8_t)printing;
    return entry & printing;
}

static inline unsigned searches(struct receiver *receiver, unsigned word)
{
    unsigned run = 0;

    if (UNLIKELY(receiver->run > 3))
        return RECEIVE_REFUSED;
    if (word == WORD_ALPHA || word == WORD_RQ) {
        run = receiver->run != 0 && word != receiver->last ? receiver->run + 1u : 1;
        if (run == 4) {
            receiver->waiting = RQS;
            receiver->phase = word == WORD_RQ ? PHASE_RX : PHASE_DX;
            receiver->printing = 0;
            return 0;
        }
    }
    receiver->run = (uint8_t)run;
    receiver->last = (uint8_t)word;
    return 0;
}

/* The oldest waiting position is settled by its DX and this word. */
static inline unsigned settles(struct receiver *receiver, unsigned word)
{
    unsigned first = INTACT[receiver->waiting >> 16 & 0xFF];
    unsigned heard = INTACT[word];
    unsigned both = first & heard;
    unsigned settled = first | heard;

    /* Two intact words have a one in common, being four of seven each: they
     * differ where `both` is neither nothing nor all. */
    if (both - 1 < settled - 1)
        settled = first == WORD_RQ && heard == WORD_ALPHA
                  ? SETTLED_PHASING : SETTLED_ERROR;
    return prints(receiver, settled);
}

/* One of the three words behind the second alpha. */
static unsigned waits(struct receiver *receiver, unsigned word)
{
    if (receiver->wait > 3)
        return RECEIVE_REFUSED;
    receiver->wait--;
    if (receiver->wait == 2)
        return settles(receiver, word);
    if (receiver->wait == 0) {
        receiver->phase = PHASE_SEARCHING;
        receiver->run = 0;
    }
    return 0;
}

unsigned plain_receive(struct receiver *receiver, uint8_t word)
{
    if (receiver->phase == PHASE_RX) {
        receiver->phase = PHASE_DX;
        return settles(receiver, word);
    }
    if (receiver->phase == PHASE_DX) {
        uint32_t waiting = receiver->waiting << 8 | word;

        receiver->waiting = waiting;
        receiver->phase = PHASE_RX;
        if (UNLIKELY((waiting & 0xFFFF) == (WORD_ALPHA << 8 | WORD_ALPHA))) {
            receiver->phase = PHASE_WAITING;
            receiver->wait = 3;
        }
        return 0;
    }
    if (UNLIKELY(receiver->phase == PHASE_WAITING))
        return waits(receiver, word);
    return searches(receiver, word);
}

/* The position that is settled by this word, if one is, is the oldest that waits, and an
 * error is printed once printing has begun.  RQ then alpha is phasing, and no error. */
star_answer plain_star(const struct receiver *receiver, uint8_t word)
{
    unsigned settles = receiver->phase == PHASE_RX;
    unsigned dx = receiver->waiting >> 16 & 0xFF;
    unsigned first = INTACT[dx];
    unsigned heard = INTACT[word];

    if (UNLIKELY(receiver->phase == PHASE_SEARCHING && receiver->run > 3))
        return STAR_REFUSED;
    if (UNLIKELY(receiver->phase == PHASE_WAITING)) {
        if (receiver->wait > 3)
            return STAR_REFUSED;
        settles = receiver->wait == 3;
    }
    if (!settles || receiver->printing == 0)
        return STAR_NONE;
    if ((first | heard) == 0)
        return STAR_BAD | dx << 8 | (unsigned)word << 16;
    if (first == 0 || heard == 0 || first == heard
        || (first == WORD_RQ && heard == WORD_ALPHA))
        return STAR_NONE;
    return STAR_UNLIKE | dx << 8 | (unsigned)word << 16;
}
