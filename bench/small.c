/* not proved: for comparison only */

/* meaning, encode and print of plain.h in little flash: the 35 rows of the code are
 * the only table, and there is no room beside the one that is lent.  A text is
 * judged and measured whole before its first byte is written, so that a refusal
 * writes nothing. */

#include "small.h"

enum { WORD_LETTERS = 90, WORD_BLANK = WORD_CS2 };

/* A signal's word and what it prints in letters and in figures, 0 for nothing; its
 * number is its place, counted from 1.  Two things in the figure column have no
 * signal and must not be looked for there: 0, and the 35 of F, G and H. */
#define ROWS(ROW) \
    ROW(71, 'A', '-') ROW(114, 'B', '?') ROW(29, 'C', ':') ROW(83, 'D', 5) \
    ROW(86, 'E', '3') ROW(27, 'F', '#') ROW(53, 'G', '#') ROW(105, 'H', '#') \
    ROW(77, 'I', '8') ROW(23, 'J', 7) ROW(30, 'K', '(') ROW(101, 'L', ')') \
    ROW(57, 'M', '.') ROW(89, 'N', ',') ROW(113, 'O', '9') ROW(45, 'P', '0') \
    ROW(46, 'Q', '1') ROW(85, 'R', '4') ROW(75, 'S', '\'') ROW(116, 'T', '5') \
    ROW(78, 'U', '7') ROW(60, 'V', '=') ROW(39, 'W', '2') ROW(58, 'X', '/') \
    ROW(43, 'Y', '6') ROW(99, 'Z', '+') ROW(120, 13, 13) ROW(108, 10, 10) \
    ROW(WORD_LETTERS, 0, 0) ROW(WORD_FIGURES, 0, 0) ROW(92, ' ', ' ') \
    ROW(WORD_BLANK, 0, 0) ROW(WORD_ALPHA, 0, 0) ROW(WORD_BETA, 0, 0) ROW(WORD_RQ, 0, 0)

/* Kept by columns: a search steps by one byte, and a place needs no division. */
#define WORD(word, letter, figure) word,
#define LETTER(word, letter, figure) letter,
#define FIGURE(word, letter, figure) figure,
static const struct {
    uint8_t word[35], letter[35], figure[35];
} CODE = { { ROWS(WORD) }, { ROWS(LETTER) }, { ROWS(FIGURE) } };

static inline answer refused(unsigned number, size_t value)
{
    return (answer)number << 32 | (uint32_t)value;
}

/* --- The code --- */

/* Three ones are taken away, the lowest first.  Of four there is then one left, and
 * it is the highest: 128 there is a word that is over 127. */
static inline unsigned is_intact(unsigned word)
{
    word &= word - 1;
    word &= word - 1;
    word &= word - 1;
    return word - 1 < 127 && (word & (word - 1)) == 0;
}

/* The place of a byte that stands in the column: the search has no other end. */
static inline size_t place_in(const uint8_t *column, uint8_t byte)
{
    size_t place = 0;

    while (column[place] != byte)
        place++;
    return place;
}

uint8_t small_meaning(uint8_t word)
{
    return is_intact(word) ? (uint8_t)(place_in(CODE.word, word) + 1) : 0;
}

/* --- Text --- */

#define BIT(character) (UINT64_C(1) << (character))

/* Of the characters below 64: those that are the same in either case, and all that
 * have a signal (5, 7, ' to : but *, = and ?). */
#define IN_EITHER (BIT(10) | BIT(13) | BIT(' '))
#define HAS_SIGNAL (IN_EITHER | BIT(5) | BIT(7) | ((BIT(':' + 1) - BIT('\'')) & ~BIT('*')) \
                    | BIT('=') | BIT('?'))

/* Of a character that has a signal: the others stand below the letters. */
static inline unsigned is_letter(uint8_t character)
{
    return character >= 'A';
}

static inline unsigned has_signal(uint8_t byte)
{
    return (byte | 32u) - 'a' < 26 || (byte < 64 && (HAS_SIGNAL >> byte & 1) != 0);
}

static inline unsigned case_after(uint8_t character, unsigned now)
{
    if (is_letter(character))
        return LETTERS_CASE;
    return (IN_EITHER >> character & 1) != 0 ? now : FIGURES_CASE;
}

/* The letters are signals 1 to 26, and a small letter differs from its capital in
 * a bit above the five that count them. */
static inline uint8_t word_of(uint8_t character)
{
    return CODE.word[is_letter(character) ? (size_t)(character & 31) - 1
                                          : place_in(CODE.figure, character)];
}

answer small_encode(const uint8_t *text, size_t length, unsigned start_case,
                    uint8_t *room, size_t room_length)
{
    unsigned now = start_case != LETTERS_CASE;
    size_t needed = length;

    if (length > MOST_CHARACTERS)
        return refused(5, MOST_CHARACTERS);
    for (size_t i = 0; i < length; i++) {
        unsigned next;

        if (!has_signal(text[i]))
            return refused(1, i);
        next = case_after(text[i], now);
        needed += now ^ next;
        now = next;
    }
    if (needed > room_length)
        return refused(2, needed);

    now = start_case != LETTERS_CASE;
    for (size_t i = 0; i < length; i++) {
        unsigned next = case_after(text[i], now);

        if (next != now)
            *room++ = next == LETTERS_CASE ? WORD_LETTERS : WORD_FIGURES;
        *room++ = word_of(text[i]);
        now = next;
    }
    return (answer)now << 40 | needed;
}

static inline unsigned is_traffic(uint8_t word)
{
    return is_intact(word) && word != WORD_ALPHA && word != WORD_BETA && word != WORD_RQ;
}

static inline unsigned prints_nothing(uint8_t word)
{
    return word == WORD_LETTERS || word == WORD_FIGURES || word == WORD_BLANK;
}

answer small_print(const uint8_t *words, size_t length, unsigned start_case,
                   uint8_t *room, size_t room_length)
{
    unsigned now = start_case != LETTERS_CASE;
    size_t needed = length;

    if (length > MOST_SIGNALS)
        return refused(7, MOST_SIGNALS);
    for (size_t i = 0; i < length; i++) {
        if (!is_traffic(words[i]) && words[i] != WORD_ERROR)
            return refused(3, i);
        needed -= prints_nothing(words[i]);
    }
    if (needed > room_length)
        return refused(2, needed);

    for (size_t i = 0; i < length; i++) {
        uint8_t word = words[i];

        if (word == WORD_LETTERS)
            now = LETTERS_CASE;
        else if (word == WORD_FIGURES)
            now = FIGURES_CASE;
        else if (word == WORD_ERROR)
            *room++ = '*';
        else if (word != WORD_BLANK) {
            size_t place = place_in(CODE.word, word);

            *room++ = now == LETTERS_CASE ? CODE.letter[place] : CODE.figure[place];
        }
    }
    return (answer)now << 40 | needed;
}
