/* not proved: for comparison only */

/* The programs hear, receive, passage, steps, why, stars and calls over the calls of
 * plain.h: NAME as the argument, standard input, output and error and the status as
 * docs/FORMATS.md gives them.  bench/run --check compares them with the proved
 * programs.
 *
 *     gcc -std=c11 -O2 -Wall -Wextra -Wpedantic plain.c plain_programs.c -o programs
 *     ./programs steps < input
 *
 * hear, receive and stars are filters written to be quick, by the block as the proved
 * ones are, and bench/run --filters measures the first two.  The others read all of their
 * input first.
 *
 * Where a refused call changed a station or a receiver, or a call wrote beyond its
 * room, the record's line says so, which no line of FORMATS.md does. */

#define _POSIX_C_SOURCE 200809L

#include "plain.h"
#include "small.h"

#include <errno.h>
#include <signal.h>
#include <stdarg.h>
#include <stdio.h>
#include <stdlib.h>
#include <string.h>
#include <unistd.h>

#ifndef BLOCK
#define BLOCK 4096
#endif

#if defined(__GNUC__)
#define INLINE __attribute__((always_inline)) static inline
#else
#define INLINE static inline
#endif

enum { FILLED_WITH = 170, MOST_ROOM = 8192, MOST_LENGTH = 8193, BEHIND = 64 };

enum { LONGEST_LINE = 2 * MOST_ROOM + 100 };

static const char *name;

/* --- Standard output: written when a block of it is there, and before more is
 * read or something is told --- */

static uint8_t output[BLOCK + LONGEST_LINE];
static uint8_t *out = output;

/* The last thing a program does where it does not end well. */
static _Noreturn void stop(const char *told)
{
    fprintf(stderr, "%s: %s\n", name, told);
    exit(1);
}

static void flush(void)
{
    const uint8_t *from = output;

    while (from != out) {
        ssize_t done = write(STDOUT_FILENO, from, (size_t)(out - from));

        if (done < 0 && errno == EINTR)
            continue;
        if (done <= 0)
            stop("cannot write standard output");
        from += done;
    }
    out = output;
}

static inline void end_of_line(void)
{
    if (out >= output + BLOCK)
        flush();
}

static void tell(const char *format, ...)
{
    char told[100];
    va_list values;

    va_start(values, format);
    vsnprintf(told, sizeof told, format, values);
    va_end(values);
    flush();
    stop(told);
}

static void put(const char *format, ...)
{
    va_list values;

    va_start(values, format);
    out += vsnprintf((char *)out, LONGEST_LINE, format, values);
    va_end(values);
    end_of_line();
}

/* --- Standard input --- */

static size_t read_some(uint8_t *into, size_t most)
{
    ssize_t got;

    flush();
    do
        got = read(STDIN_FILENO, into, most);
    while (got < 0 && errno == EINTR);
    if (got < 0)
        stop("cannot read standard input");
    return (size_t)got;
}

static uint8_t *input;
static size_t size;

static void read_input(void)
{
    size_t most = 0;
    size_t got;

    do {
        if (size == most) {
            most = 2 * most + 65536;
            input = realloc(input, most);
            if (input == NULL)
                exit(2);
        }
        got = read_some(input + size, most - size);
        size += got;
    } while (got != 0);
}

static uint64_t low_first(const uint8_t *bytes, unsigned count)
{
    uint64_t value = 0;

    while (count-- > 0)
        value = value << 8 | bytes[count];
    return value;
}

static unsigned word_of(uint64_t words, unsigned index)
{
    return words >> 8 * index & 0xFF;
}

static const char *const CASES[2] = { "letters", "figures" };

/* --- steps --- */

enum { RECORD = 84 };

static int same_code(const struct code *one, const struct code *two)
{
    return one->length == two->length && memcmp(one->words, two->words, CODE_WORDS) == 0;
}

static int same_station(const struct station *one, const struct station *two)
{
    return one->held == two->held && one->own7 == two->own7 && one->other == two->other
           && one->own == two->own && one->known == two->known
           && one->place == two->place && one->second == two->second
           && one->total == two->total && one->count == two->count
           && one->heard == two->heard && one->slave == two->slave
           && one->cycles == two->cycles && one->last == two->last
           && one->heard3 == two->heard3 && one->stage == two->stage
           && one->wrong == two->wrong && one->owed == two->owed
           && one->index == two->index && same_code(&one->code, &two->code);
}

/* Seven signals of a record, the last three of which stand apart. */
static uint64_t seven_at(const uint8_t *four, const uint8_t *three)
{
    return seven_of((uint32_t)low_first(four, 4), (uint32_t)low_first(three, 3));
}

/* A record has the length of a code and its first 20 words. */
static struct code code_at(const uint8_t *bytes)
{
    struct code code = { .length = bytes[0] };

    memcpy(code.words, bytes + 1, 20);
    return code;
}

static struct station station_of(const uint8_t *r)
{
    struct station s = {
        .held = low_first(r + 49, 7), .own7 = low_first(r + 32, 7),
        .other = seven_at(r + 24, r + 39), .own = (uint32_t)low_first(r + 19, 4),
        .known = r[23] % 4, .place = r[1] % 12, .second = r[2] % 2 == 0,
        .total = r[6], .count = r[7],
        .heard = (r[8] % 2 ? HEARD_FIGURES : 0) | (r[9] % 2 ? HEARD_PLUS : 0),
        .slave = r[0] % 2, .cycles = r[17], .last = r[18] % 3,
        .heard3 = r[45] % 5, .stage = r[46] % 4, .wrong = r[47],
        .owed = r[81] % 3, .index = r[82], .code = code_at(r + 60)
    };

    if (s.place == PLACE_SENDING)
        s.held = low_first(r + 3, 3);
    if (s.place == PLACE_CALLING)
        s.held = low_first(r + 3, 4);
    if (s.place == PLACE_IDENTIFYING)
        s.last = r[48];
    return s;
}

static uint64_t offer_in(const uint8_t *r)
{
    unsigned kind = r[13] % 6;

    return offer_of(kind, kind == OFFER_CALL ? low_first(r + 28, 4)
                          : kind == OFFER_CALL3 ? seven_at(r + 28, r + 42)
                          : low_first(r + 14, 3));
}

static void put_words(const char *before, uint64_t words, unsigned from, unsigned count)
{
    put("%s", before);
    for (unsigned index = from; index < from + count; index++)
        put(" %u", word_of(words, index));
}

/* A field that the place does not carry is written as 0. */
static void put_step(const struct station *s, step_answer given)
{
    static const char *const PLACES[12] = {
        "sending", "turning", "opening", "ending", "receiving", "asking", "standby",
        "lost", "calling", "calling3", "identifying", "answering"
    };
    static const char *const OTHERS[4] = { " nobody", " four", " seven", " barred" };
    static const char *const OWED[3] = { "none", "back", "keep" };
    int numbered = s->place == PLACE_SENDING || s->place == PLACE_TURNING
                   || s->place == PLACE_ENDING || s->place == PLACE_RECEIVING;
    int calls = s->place == PLACE_STANDBY || s->place == PLACE_CALLING;
    int identifying = s->place == PLACE_IDENTIFYING;
    int staged = identifying || s->place == PLACE_ANSWERING;
    uint64_t other = s->known == OTHER_NOBODY ? 0 : s->other;

    put("%s %d", PLACES[s->place % 12], numbered ? s->second + 1 : 0);
    put_words("", s->place == PLACE_SENDING ? s->held : 0, 0, 3);
    put(" %d %d %s %d |", s->place == PLACE_ENDING ? s->total : 0, s->count,
        CASES[s->heard & HEARD_FIGURES ? 1 : 0], s->heard & HEARD_PLUS ? 1 : 0);
    put_words("", step_sent(given), 0, 3);
    put_words(" |", step_printed(given), 0, 3);
    put(" | %u | %s %d %d", step_taken(given), s->slave ? "slave" : "master",
        calls || s->place == PLACE_CALLING3 ? s->cycles : 0, calls ? s->last : 0);
    put_words("", s->place == PLACE_CALLING ? s->held : 0, 0, 4);
    put_words(OTHERS[s->known % 4], other, 0, 4);
    put(" | %d %d %d %d", s->place == PLACE_STANDBY ? s->heard3 : 0,
        staged ? s->stage + 1 : 0, identifying ? s->wrong : 0, identifying ? s->last : 0);
    put_words("", staged || s->place == PLACE_CALLING3 ? s->held : 0, 0, 7);
    put_words("", s->known == OTHER_FOUR ? 0 : other, 4, 3);
    put(" | %s %d", OWED[s->owed % 3], s->owed == OWED_NOTHING ? 0 : s->index);
}

static void steps(void)
{
    read_input();
    for (size_t at = 0; size - at >= RECORD; at += RECORD) {
        const uint8_t *r = input + at;
        struct station s = station_of(r);
        const struct station was = s;
        step_answer given = plain_step(&s, (uint32_t)low_first(r + 10, 3), offer_in(r));

        if (step_refusal(given) != 0) {
            put("refused %u %u%s\n", step_refusal(given), step_value(given),
                   same_station(&s, &was) ? "" : " and changed");
            continue;
        }
        put_step(&s, given);
        put("%s\n", s.own == was.own && s.own7 == was.own7 && same_code(&s.code, &was.code)
                    ? "" : " and an own identity or the code changed");
    }
}

/* --- why --- */

enum { WHY_RECORD = 17 };

static void put_why(why_answer given)
{
    static const char *const REASONS[] = {
        "silent", "time-out", "run-out", "called", "call-offered", "own", "other",
        "either", "cs1", "cs3", "cs4", "cs5", "rq", "turn", "alphas", "right-sum",
        "wrong-sum", "told", "told-again", "bad", "repeat", "unexpected", "over-heard",
        "who-are-you", "over-offered", "accepted"
    };
    unsigned reason = why_reason(given);

    if (why_refusal(given) != 0) {
        put("refused %u %u\n", why_refusal(given), why_value(given));
        return;
    }
    put("%s", REASONS[reason]);
    if (reason == WHY_BAD || reason == WHY_REPEAT)
        put(" %u", why_index(given));
    if (reason == WHY_BAD)
        put(" %u", why_word(given));
    put("\n");
}

/* Of a record of steps. */
static void put_why_of(const uint8_t *r)
{
    struct station s = station_of(r);

    put_why(plain_why(&s, (uint32_t)low_first(r + 10, 3), offer_in(r)));
}

/* A record is the beginning of one of steps, of which the rest is 0, with a place and an
 * offer of the base alone. */
static void why(void)
{
    read_input();
    for (size_t at = 0; size - at >= WHY_RECORD; at += WHY_RECORD) {
        uint8_t r[RECORD] = { 0 };

        memcpy(r, input + at, WHY_RECORD);
        r[1] %= 8;
        r[13] %= 4;
        put_why_of(r);
    }
}

/* --- receive and stars --- */

static inline int is_white(uint8_t byte)
{
    return byte <= 32
           && (UINT64_C(1) << 32 | 1u << 9 | 1u << 13 | 1u << 10) >> byte & 1;
}

struct decimal {
    uint8_t digits[3];
    uint8_t length;
};

static struct decimal DECIMALS[256];

static void make_decimals(void)
{
    for (unsigned value = 0; value < 256; value++) {
        char digits[4];

        DECIMALS[value].length = (uint8_t)snprintf(digits, sizeof digits, "%u", value);
        memcpy(DECIMALS[value].digits, digits, 3);
    }
}

/* Sixteen words to a line. */
static inline unsigned put_word(unsigned word, unsigned on_line)
{
    *out = ' ';
    out += on_line != 0;
    memcpy(out, DECIMALS[word].digits, 3);
    out += DECIMALS[word].length;
    if (++on_line < 16)
        return on_line;
    *out++ = '\n';
    end_of_line();
    return 0;
}

/* What receive does with a word; answers how many stand on the line that is begun. */
static inline unsigned print_word(struct receiver *receiver, unsigned word, unsigned on_line)
{
    unsigned printed = plain_receive(receiver, (uint8_t)word);

    return printed != 0 ? put_word(printed, on_line) : on_line;
}

/* What stars does with a word: it asks before it takes the step.  No line is left begun. */
static inline unsigned tell_star(struct receiver *receiver, unsigned word, unsigned on_line)
{
    static size_t slot;
    star_answer given = plain_star(receiver, (uint8_t)word);

    plain_receive(receiver, (uint8_t)word);
    if (star_reason(given) != STAR_NONE)
        put("%zu %s %u %u\n", slot, star_reason(given) == STAR_BAD ? "bad" : "unlike",
            star_dx(given), star_rx(given));
    slot++;
    return on_line;
}

INLINE void hear_words(unsigned (*hear_word)(struct receiver *, unsigned, unsigned))
{
    static uint8_t block[BLOCK + 1];
    struct receiver receiver = plain_fresh_receiver();
    const char *fault = NULL;
    size_t before = 0;          /* bytes in the blocks before this one */
    size_t first = 0;           /* where a number begins, or the next would */
    unsigned value = 0;         /* of the digits since then */
    unsigned digits = 0;        /* whether there are any */
    unsigned on_line = 0;
    size_t got;

    while (fault == NULL && (got = read_some(block, BLOCK)) != 0) {
        const uint8_t *at = block;

        /* A byte that is neither digit nor white space ends the loops. */
        block[got] = 0;
        for (;;) {
            unsigned digit;

            while ((digit = *at - (unsigned)'0') < 10 && value <= 255) {
                value = 10 * value + digit;
                digits = 1;
                at++;
            }
            if (value > 255) {
                fault = "over 255";
                break;
            }
            if (at == block + got)
                break;
            if (!is_white(*at)) {
                fault = "a byte that is no digit";
                break;
            }
            if (digits) {
                on_line = hear_word(&receiver, value, on_line);
                value = 0;
                digits = 0;
            }
            at++;
            first = before + (size_t)(at - block);
        }
        before += got;
    }
    if (fault == NULL && digits)
        on_line = hear_word(&receiver, value, on_line);
    if (on_line != 0)
        *out++ = '\n';
    if (fault != NULL)
        tell("not a number at %zu: %s", first, fault);
}

static void receive(void)
{
    make_decimals();
    hear_words(print_word);
}

static void stars(void)
{
    hear_words(tell_star);
}

/* --- hear --- */

/* A text of up to seven bytes, copied whole. */
struct short_text {
    char text[7];
    uint8_t length;
};

static const struct short_text NAMES[256] = {
    [WORD_CS1] = { "CS1", 3 }, [WORD_CS2] = { "CS2", 3 }, [WORD_CS3] = { "CS3", 3 },
    [WORD_RQ] = { "RQ", 2 }, [WORD_ALPHA] = { "alpha", 5 }, [WORD_BETA] = { "beta", 4 },
    [WORD_FIGURES] = { "figures", 7 }, [WORD_PLUS] = { "Z", 1 }, [WORD_QUERY] = { "B", 1 }
};

static inline void put_short(struct short_text text)
{
    memcpy(out, text.text, sizeof text.text);
    out += text.length;
}

/* The number of the step, in decimal: it is counted up as it is written. */
static uint8_t number[20] = "00000000000000000000";
static unsigned number_from = sizeof number - 1;

static inline void put_next_number(void)
{
    unsigned index = sizeof number - 1;

    while (number[index] == '9')
        number[index--] = '0';
    number[index]++;
    if (index < number_from)
        number_from = index;
    memcpy(out, number + number_from, sizeof number - number_from);
    out += sizeof number - number_from;
}

static void put_burst(uint32_t burst)
{
    put_short(NAMES[burst & 0xFF]);
    while ((burst >>= 8) != 0) {
        *out++ = '.';
        put_short(NAMES[burst & 0xFF]);
    }
}

static unsigned put_printed(uint32_t printed, unsigned in_case)
{
    static const char DIGITS[16] = "0123456789ABCDEF";
    uint8_t words[3] = { (uint8_t)printed, (uint8_t)(printed >> 8), (uint8_t)(printed >> 16) };
    size_t length = (words[0] != 0) + (words[1] != 0) + (words[2] != 0);
    uint8_t room[3];
    answer given = plain_print(words, length, in_case, room, sizeof room);

    for (uint32_t i = 0; i < answer_value(given); i++) {
        *out++ = (uint8_t)DIGITS[room[i] >> 4];
        *out++ = (uint8_t)DIGITS[room[i] & 15];
    }
    if (answer_value(given) == 0)
        put_short((struct short_text){ "none", 4 });
    return answer_case(given);
}

static void hear_burst(struct station *slave, unsigned *in_case, uint32_t burst)
{
    step_answer given = plain_step(slave, burst, offer_of(OFFER_NOTHING, 0));

    put_next_number();
    *out++ = ' ';
    if (step_sent(given) == 0)
        put_short((struct short_text){ "silent", 6 });
    else
        put_burst(step_sent(given));
    *out++ = ' ';
    if (step_printed(given) == 0)
        put_short((struct short_text){ "none", 4 });
    else
        *in_case = put_printed(step_printed(given), *in_case);
    *out++ = '\n';
    end_of_line();
}

static void hear(void)
{
    static uint8_t block[2 + BLOCK];    /* before what is read, a burst begun */
    struct station slave = plain_fresh_slave();
    unsigned in_case = LETTERS_CASE;
    size_t begun = 0;
    size_t got;

    put("step answer printed\n");
    while ((got = read_some(block + begun, BLOCK)) != 0) {
        size_t at = 0;

        got += begun;
        for (; got - at >= 3; at += 3)
            hear_burst(&slave, &in_case, burst_of(block[at], block[at + 1], block[at + 2]));
        begun = got - at;
        memmove(block, block + at, begun);
    }
    if (begun != 0)
        hear_burst(&slave, &in_case, burst_of(block[0], begun > 1 ? block[1] : 0, 0));
}

/* --- passage --- */

enum { MOST_RECORD = 262144 };

/* However many bytes, as they are. */
static void put_bytes(const uint8_t *bytes, size_t length)
{
    while (length != 0) {
        size_t part = length < BLOCK ? length : BLOCK;

        memcpy(out, bytes, part);
        out += part;
        bytes += part;
        length -= part;
        end_of_line();
    }
}

static void put_station(const char *station, const uint8_t *printed, uint32_t length)
{
    put("%s %u\n", station, length);
    put_bytes(printed, length);
    put("\n");
}

static const char *fault_told(uint32_t refusal)
{
    switch (refusal) {
    case 10: return "no such kind";
    case 11: return "the body is cut short";
    case 12: return "a burst out of turn, or bits 3 to 7 set";
    case 13: return "the last offer is not taken yet";
    default: return "a word that is neither traffic nor beta";
    }
}

static void passage(void)
{
    static uint8_t master[MOST_RECORD];
    static uint8_t slave[MOST_RECORD];
    struct passed given;

    read_input();
    if (size > MOST_RECORD)
        tell("too long: over %d bytes", MOST_RECORD);
    given = plain_passage(input, size, master, sizeof master, slave, sizeof slave);
    if (given.refusal != 0)
        tell("refused %u %u: %s", given.refusal, given.value, fault_told(given.refusal));
    put_station("master", master, given.printed[0]);
    put_station("slave", slave, given.printed[1]);
}

/* --- calls --- */

/* The length of a record's head, its kind counted; 0 for no kind. */
static size_t head_of(uint8_t kind)
{
    switch (kind) {
    case 'E':
    case 'P': return 6;
    case 'S':
    case 'V': return 7;
    case 'M': return 2;
    case 'R':
    case 'Y': return 11;
    case 'W': return 1 + RECORD;
    case 'I': return 5;
    case 'J': return 12;
    case 'C': return 22;
    default: return 0;
    }
}

/* The lent rooms: one, or the master's and the slave's. */
static uint8_t lent[2][MOST_ROOM + BEHIND];

/* The whole of a room. */
static void put_room(const uint8_t *room, size_t length)
{
    static const char DIGITS[] = "0123456789ABCDEF";
    static char shown[2 * MOST_ROOM + 2];
    int beyond = 0;

    for (size_t i = 0; i < length; i++) {
        shown[2 * i] = DIGITS[room[i] >> 4];
        shown[2 * i + 1] = DIGITS[room[i] & 15];
    }
    shown[2 * length] = 0;
    if (length == 0)
        strcpy(shown, "-");
    for (size_t i = length; i < MOST_ROOM + BEHIND; i++)
        beyond |= room[i] != FILLED_WITH;
    put(" %s%s", shown, beyond ? " and beyond" : "");
}

static void call_text(const uint8_t *r, size_t room_length, size_t length)
{
    uint8_t *room = lent[0];
    answer given;

    memset(lent, FILLED_WITH, sizeof lent);
    given = r[0] == 'E' ? plain_encode(r + 6, length, r[1] % 2, room, room_length)
                        : plain_print(r + 6, length, r[1] % 2, room, room_length);
    if (answer_refusal(given) != 0)
        put("refused %u %u", answer_refusal(given), answer_value(given));
    else
        put("ok %u %s", answer_value(given), CASES[answer_case(given) % 2]);
    put_room(room, room_length);
    put("\n");
}

static void call_passage(const uint8_t *r, const size_t *rooms, size_t length)
{
    struct passed given;

    memset(lent, FILLED_WITH, sizeof lent);
    given = plain_passage(r + 7, length, lent[0], rooms[0], lent[1], rooms[1]);
    if (given.refusal != 0)
        put("refused %u %u", given.refusal, given.value);
    else
        put("ok %u %u", given.printed[0], given.printed[1]);
    put_room(lent[0], rooms[0]);
    put_room(lent[1], rooms[1]);
    put("\n");
}

static void call_slot(const uint8_t *r, size_t length)
{
    answer given = plain_slot(r + 7, length, (uint32_t)low_first(r + 1, 4));

    if (answer_refusal(given) != 0)
        put("refused %u %u\n", answer_refusal(given), answer_value(given));
    else
        put("ok %u\n", answer_value(given));
}

/* Of kind I with the identity of four signals, of kind J with both. */
static void call_standing_by(const uint8_t *r)
{
    uint32_t four = (uint32_t)low_first(r + 1, 4);
    uint64_t seven = r[0] == 'J' ? low_first(r + 5, 7) : 0;
    struct station s = plain_fresh_master();
    const struct station was = s;
    const struct station wanted = {
        .place = PLACE_STANDBY, .slave = 1, .own = four, .own7 = seven
    };
    answer given = r[0] == 'J' ? plain_standing_by_both(&s, four, seven)
                               : plain_standing_by(&s, four);

    if (answer_refusal(given) != 0)
        put("refused %u %u%s\n", answer_refusal(given), answer_value(given),
               same_station(&s, &was) ? "" : " and changed");
    else
        put("ok%s\n", same_station(&s, &wanted) ? "" : " and another station");
}

/* Of a fresh slave but for what it owes, so that what it owes is seen to be dropped. */
static void call_with_code(const uint8_t *r)
{
    struct code code = code_at(r + 1);
    struct station s = plain_fresh_slave();
    struct station wanted = s;
    struct station was;
    answer given;

    wanted.code = code;
    s.owed = OWED_BACK;
    was = s;
    given = plain_with_code(&s, &code);
    if (answer_refusal(given) != 0)
        put("refused %u %u%s\n", answer_refusal(given), answer_value(given),
               same_station(&s, &was) ? "" : " and changed");
    else
        put("ok%s\n", same_station(&s, &wanted) ? "" : " and another station");
}

static struct receiver receiver_of(const uint8_t *r)
{
    struct receiver receiver = plain_fresh_receiver();

    if (r[1] % 2 == 0) {
        receiver.run = r[2];
        receiver.last = r[3] % 2 == 0 ? WORD_ALPHA : WORD_RQ;
    } else {
        receiver.waiting = burst_of(r[6], r[5], r[4]);
        receiver.phase = r[9] != 0 ? PHASE_WAITING : r[7] % 2 == 0 ? PHASE_DX : PHASE_RX;
        receiver.printing = r[8] % 2 == 0 ? 0 : 255;
        receiver.wait = r[9];
    }
    return receiver;
}

static void call_star(const uint8_t *r)
{
    struct receiver receiver = receiver_of(r);
    star_answer given = plain_star(&receiver, r[10]);

    switch (star_reason(given)) {
    case STAR_NONE: put("none\n"); break;
    case STAR_BAD: put("bad %u %u\n", star_dx(given), star_rx(given)); break;
    case STAR_UNLIKE: put("unlike %u %u\n", star_dx(given), star_rx(given)); break;
    default: put("refused 4 0\n"); break;
    }
}

static void call_receive(const uint8_t *r)
{
    struct receiver receiver = receiver_of(r);
    const struct receiver was = receiver;
    unsigned printed = plain_receive(&receiver, r[10]);

    if (printed == RECEIVE_REFUSED) {
        int changed = receiver.waiting != was.waiting || receiver.phase != was.phase
                      || receiver.run != was.run || receiver.last != was.last
                      || receiver.printing != was.printing || receiver.wait != was.wait;

        put("refused 4 0%s\n", changed ? " and changed" : "");
    } else if (receiver.phase == PHASE_SEARCHING) {
        put("searching %u %s | %u\n", receiver.run,
               receiver.run == 0 ? "none" : receiver.last == WORD_ALPHA ? "alpha"
               : receiver.last == WORD_RQ ? "RQ" : "another", printed);
    } else if (receiver.phase == PHASE_WAITING) {
        /* what can no longer matter is 0: at 3 one position waits, and then none */
        put("phase %u 0 0 %s %u %u | %u\n",
               receiver.wait == 3 ? word_of(receiver.waiting, 2) : 0,
               receiver.wait == 2 ? "dx" : "rx",
               receiver.wait == 3 && receiver.printing != 0 ? 1u : 0u, receiver.wait, printed);
    } else {
        int next_is_dx = receiver.phase == PHASE_DX;

        put("phase %u %u %u %s %u 0 | %u\n",
               next_is_dx ? 0 : word_of(receiver.waiting, 2),
               word_of(receiver.waiting, 1), word_of(receiver.waiting, 0),
               next_is_dx ? "dx" : "rx", receiver.printing == 0 ? 0u : 1u, printed);
    }
}

static void calls(void)
{
    size_t at = 0;

    read_input();
    while (at < size) {
        const uint8_t *r = input + at;
        size_t head = head_of(r[0]);
        size_t rooms[2] = { 0, 0 };
        size_t length = 0;
        int is_text = r[0] == 'E' || r[0] == 'P';
        int good = head != 0 && size - at >= head;
        const char *bad;

        if (good && is_text)
            rooms[0] = low_first(r + 2, 2);
        if (good && r[0] == 'V') {
            rooms[0] = low_first(r + 1, 2);
            rooms[1] = low_first(r + 3, 2);
        }
        if (good && (is_text || r[0] == 'S' || r[0] == 'V'))
            length = low_first(r + head - 2, 2);
        bad = head == 0 ? "no such kind"
              : !good ? "cut short"
              : rooms[0] > MOST_ROOM || rooms[1] > MOST_ROOM ? "a room over 8192"
              : length > MOST_LENGTH ? "a length over 8193"
              : size - at - head < length ? "cut short" : NULL;
        if (bad != NULL)
            tell("bad record at %zu: %s", at, bad);
        switch (r[0]) {
        case 'S': call_slot(r, length); break;
        case 'V': call_passage(r, rooms, length); break;
        case 'M': put("%u %u\n", plain_meaning(r[1]), plain_intact(r[1])); break;
        case 'R': call_receive(r); break;
        case 'W': put_why_of(r + 1); break;
        case 'Y': call_star(r); break;
        case 'I':
        case 'J': call_standing_by(r); break;
        case 'C': call_with_code(r); break;
        default: call_text(r, rooms[0], length); break;
        }
        at += head + length;
    }
}

int main(int count, char **words)
{
    static const struct {
        const char *name;
        void (*run)(void);
    } PROGRAMS[] = {
        { "hear", hear }, { "receive", receive }, { "passage", passage },
        { "steps", steps }, { "why", why }, { "stars", stars }, { "calls", calls }
    };

    signal(SIGPIPE, SIG_IGN);
    for (size_t i = 0; count > 1 && i < sizeof PROGRAMS / sizeof PROGRAMS[0]; i++) {
        name = PROGRAMS[i].name;
        if (strcmp(words[1], name) != 0)
            continue;
        if (count > 2) {
            fprintf(stderr, "%s: usage: ./telex %s < input\n", name, name);
            return 2;
        }
        PROGRAMS[i].run();
        flush();
        return 0;
    }
    fputs("usage: hear, receive, passage, steps, why, stars or calls as the argument\n",
          stderr);
    return 2;
}
