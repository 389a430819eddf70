/* not proved: for comparison only */

/* The harness: standard input holds CALL N L, standard output gets one line, the
 * call's name and its check-sum.
 *
 *     gcc -std=c11 -O3 -march=x86-64 -Wall -Wextra -Wpedantic plain.c plain_bench.c -o bench
 *     echo 2 1000 64 | ./bench
 */

#include "plain.h"
#include "small.h"

#include <inttypes.h>
#include <stdio.h>
#include <string.h>

#if defined(__GNUC__)
#define INLINE __attribute__((always_inline)) static inline
#else
#define INLINE static inline
#endif

enum { SIZE = 8192, SCHEDULE = 4096, LETTERS = 90 };

/* --- The generator and the check-sum --- */

static uint64_t generator = 625;

static uint32_t below(uint32_t limit)
{
    generator = (generator * 1664525 + 1013904223) & UINT32_MAX;
    return (uint32_t)(generator / 65536) % limit;
}

static inline uint32_t mix(uint32_t sum, uint32_t value)
{
    return sum * 31 + value;
}

static uint32_t mix_refusal(uint32_t sum, answer given)
{
    return mix(mix(sum, answer_refusal(given)), answer_value(given));
}

/* --- What is drawn from --- */

/* Every byte that encode accepts but small letters, ascending: 52, which are 5, 7,
 * 10, 13, space, ' ( ) + , - . / 0 1 2 3 4 5 6 7 8 9 : = ? and A to Z. */
static const uint8_t ALPHABET[52] = {
    5, 7, 10, 13, 32, 39, 40, 41, 43, 44, 45, 46, 47,
    48, 49, 50, 51, 52, 53, 54, 55, 56, 57, 58, 61, 63,
    65, 66, 67, 68, 69, 70, 71, 72, 73, 74, 75, 76, 77,
    78, 79, 80, 81, 82, 83, 84, 85, 86, 87, 88, 89, 90
};

/* The 32 traffic words, ascending. */
static const uint8_t TRAFFIC[32] = {
    23, 27, 29, 30, 39, 43, 45, 46, 53, 54, 57, 58, 60, 71, 75, 77,
    78, 83, 85, 86, 89, 90, 92, 99, 101, 105, 106, 108, 113, 114, 116, 120
};

static uint8_t text[SIZE + 1];
static uint8_t room[SIZE];

static void draw_traffic(size_t length)
{
    for (size_t j = 0; j < length; j++)
        text[j] = TRAFFIC[below(32)];
}

/* --- The nine runs --- */

static uint32_t run_meaning(uint64_t times)
{
    static uint8_t in[4096];
    uint32_t sum = 0;

    for (size_t j = 0; j < 4096; j++)
        in[j] = (uint8_t)below(256);
    for (uint64_t i = 0; i < times; i++)
        sum = mix(sum, plain_meaning(in[i % 4096]));
    return sum;
}

static inline uint32_t mix_text(uint32_t sum, answer given)
{
    uint32_t count = answer_value(given);

    if (answer_refusal(given) != 0)
        return mix_refusal(sum, given);
    sum = mix(mix(sum, count), answer_case(given));
    return count > 0 ? mix(sum, room[count - 1]) : sum;
}

static uint32_t run_encode(uint64_t times, size_t length)
{
    static const uint8_t none[1] = { 0 };
    static const uint8_t three[3] = { 'A', '1', 'A' };
    uint32_t sum = 0;

    memset(text, 'A', MOST_CHARACTERS + 1);
    sum = mix_text(sum, plain_encode(text, MOST_CHARACTERS + 1, LETTERS_CASE, room, SIZE));
    sum = mix_text(sum, plain_encode(none, 1, LETTERS_CASE, room, SIZE));
    sum = mix_text(sum, plain_encode(three, 3, LETTERS_CASE, room, 2));

    for (size_t j = 0; j < length; j++)
        text[j] = ALPHABET[below(sizeof ALPHABET)];
    for (uint64_t i = 0; i < times; i++)
        sum = mix_text(sum, plain_encode(text, length, i % 2, room, SIZE));
    return sum;
}

static uint32_t run_print(uint64_t times, size_t length)
{
    static const uint8_t none[1] = { 0 };
    static const uint8_t two[2] = { 71, 71 };
    uint32_t sum = 0;

    memset(text, 71, MOST_SIGNALS + 1);
    sum = mix_text(sum, plain_print(text, MOST_SIGNALS + 1, LETTERS_CASE, room, SIZE));
    sum = mix_text(sum, plain_print(none, 1, LETTERS_CASE, room, SIZE));
    sum = mix_text(sum, plain_print(two, 2, LETTERS_CASE, room, 1));

    for (size_t j = 0; j < length; j++) {
        uint32_t b = below(33);

        text[j] = b < 32 ? TRAFFIC[b] : WORD_ERROR;
    }
    for (uint64_t i = 0; i < times; i++)
        sum = mix_text(sum, plain_print(text, length, i % 2, room, SIZE));
    return sum;
}

static uint32_t keeps[SCHEDULE];    /* the burst on the way is masked by it */
static uint64_t offers[SCHEDULE];

static void draw_schedule(void)
{
    static const uint32_t DAMAGED[3] = { 0xFFFF00, 0xFF00FF, 0x00FFFF };

    for (size_t j = 0; j < SCHEDULE; j++) {
        uint32_t damage = below(16);
        uint32_t kind = below(8);
        uint8_t w0 = TRAFFIC[below(32)];
        uint8_t w1 = TRAFFIC[below(32)];
        uint8_t w2 = TRAFFIC[below(32)];

        keeps[j] = damage < 3 ? DAMAGED[damage] : 0xFFFFFF;
        if (j % 256 >= 240)
            offers[j] = offer_of(OFFER_END, 0);
        else if (kind == 0)
            offers[j] = offer_of(OFFER_OVER, 0);
        else if (kind <= 5)
            offers[j] = offer_of(OFFER_TEXT, burst_of(w0, w1, w2));
        else
            offers[j] = offer_of(OFFER_NOTHING, 0);
    }
}

/* Two stations in turn, the first to begin with; after `anew` steps they are as at
 * the beginning.  Where it asks why, that is mixed before what the step answers. */
INLINE uint32_t run_pair(uint64_t times, size_t anew, const struct station *first,
                         uint32_t first_burst, uint32_t sum, int asks_why)
{
    struct station stations[2];
    uint32_t on_the_way = 0;

    for (uint64_t i = 0; i < times; i++) {
        size_t j = i % SCHEDULE;
        struct station *hearer = &stations[j % 2];
        step_answer given;

        if (j % anew == 0) {
            stations[0] = first[0];
            stations[1] = first[1];
            on_the_way = first_burst;
        }
        if (asks_why)
            sum = mix(sum, plain_why(hearer, on_the_way & keeps[j], offers[j]));
        given = plain_step(hearer, on_the_way & keeps[j], offers[j]);
        on_the_way = step_sent(given);
        sum = mix(sum, on_the_way);
        sum = mix(sum, step_printed(given)
                       + (step_taken(given) + 2u * hearer->place) * 16777216);
    }
    return sum;
}

static uint32_t mix_step_refused(uint32_t sum, step_answer given)
{
    return mix(mix(sum, step_refusal(given)), step_value(given));
}

static uint32_t run_step(uint64_t times)
{
    struct station stations[2] = { plain_fresh_master(), plain_fresh_slave() };
    struct station unsound = plain_fresh_master();
    uint32_t sum = 0;

    draw_schedule();
    unsound.count = 32;
    sum = mix_step_refused(sum, plain_step(&unsound, 0, offer_of(OFFER_NOTHING, 0)));
    sum = mix_step_refused(sum, plain_step(&stations[0], 0,
                                           offer_of(OFFER_TEXT, burst_of(0, 71, 71))));
    return run_pair(times, 256, stations, burst_of(WORD_CS1, 0, 0), sum, 0);
}

static uint32_t mix_why_refused(uint32_t sum, why_answer given)
{
    return mix(mix(sum, why_refusal(given)), why_value(given));
}

/* The draws and the steps of run_step, and before each step it asks why of the same
 * station, burst and offer: what this run takes more than that one is what the question
 * takes.  Mixed are two refusals of it and that of plain_star, which has no run of its own;
 * and of each question the number of its reason (plain.h has them in order, from 0), 256
 * times the index and 65536 times the word beside it, 0 where there is none; then the step
 * as ever. */
static uint32_t run_why(uint64_t times)
{
    struct station stations[2] = { plain_fresh_master(), plain_fresh_slave() };
    struct station unsound = plain_fresh_master();
    struct receiver receiver = plain_fresh_receiver();
    uint32_t sum = 0;

    draw_schedule();
    unsound.count = 32;
    sum = mix_why_refused(sum, plain_why(&unsound, 0, offer_of(OFFER_NOTHING, 0)));
    sum = mix_why_refused(sum, plain_why(&stations[0], 0,
                                         offer_of(OFFER_TEXT, burst_of(0, 71, 71))));
    receiver.run = 4;
    if (star_reason(plain_star(&receiver, 0)) == STAR_REFUSED)
        sum = mix(mix(sum, 4), 0);
    return run_pair(times, 256, stations, burst_of(WORD_CS1, 0, 0), sum, 1);
}

/* The first station, D O C K, calls the second, V X Q Z, anew every eight steps. */
static uint32_t run_call(uint64_t times)
{
    struct station stations[2];
    struct station master = plain_fresh_master();
    uint32_t called = identity_of(60, 58, 46, 99);
    uint32_t sum = 0;

    draw_schedule();
    for (size_t j = 0; j < SCHEDULE; j += 8)
        offers[j] = offer_of(OFFER_CALL, called);
    sum = mix_refusal(sum, plain_standing_by(&stations[0], identity_of(60, 101, 46, 99)));
    sum = mix_step_refused(sum, plain_step(&master, 0,
                                           offer_of(OFFER_CALL, identity_of(60, 58, 101, 99))));
    plain_standing_by(&stations[0], identity_of(83, 113, 29, 30));
    plain_standing_by(&stations[1], called);
    return run_pair(times, 8, stations, 0, sum, 0);
}

static uint32_t run_slot(uint64_t times, size_t length)
{
    static const uint8_t none[1] = { 0 };
    answer given;
    uint32_t slots;
    uint32_t number = 0;
    uint32_t sum = 0;

    memset(text, 71, MOST_SIGNALS + 1);
    sum = mix_refusal(sum, plain_slot(text, MOST_SIGNALS + 1, 0));
    sum = mix_refusal(sum, plain_slot(none, 1, 0));
    draw_traffic(length);
    given = plain_slot(text, length, UINT32_MAX);
    sum = mix_refusal(sum, given);
    slots = answer_value(given);

    for (uint64_t i = 0; i < times; i++) {
        sum = mix(sum, answer_value(plain_slot(text, length, number)));
        if (++number == slots)
            number = 0;
    }
    return sum;
}

static uint32_t run_receive(uint64_t times)
{
    static uint8_t stream[256];
    struct receiver receiver = plain_fresh_receiver();
    uint32_t slots;
    uint32_t index = 0;
    unsigned printed;
    uint32_t sum = 0;

    draw_traffic(40);
    slots = answer_value(plain_slot(text, 40, UINT32_MAX));     /* 150 */
    for (uint32_t k = 0; k < slots; k++) {
        stream[k] = (uint8_t)answer_value(plain_slot(text, 40, k));
        if (below(16) == 0)
            stream[k] = 0;
    }

    receiver.run = 4;
    printed = plain_receive(&receiver, 0);
    sum = mix(mix(sum, printed >> 8), printed & 0xFF);

    receiver = plain_fresh_receiver();
    for (uint64_t i = 0; i < times; i++) {
        sum = mix(sum, plain_receive(&receiver, stream[index]));
        if (++index == slots)
            index = 0;
    }
    return sum;
}

/* Byte j of a record that has no fault: halves of 61 bytes, the master's and the slave's
 * in turn.  A half has fifteen groups of four bytes, and then the station that has the
 * turn offers over.  Every fifth group is a text of that station, and the others are a
 * burst of the slave and one of the master.  Damaged are some of those behind the second
 * and the third text: of four exchanges the three that are left see to it that the text
 * is taken.  Behind the first text none is, since the turn takes all four.  No text has D
 * or + in it. */
static uint8_t entry_byte(size_t j)
{
    unsigned slave = j / 61 % 2;
    unsigned place = j % 61;
    unsigned group = place / 4;
    uint32_t drawn = below(16);

    if (place == 60)
        return (uint8_t)(5 + slave);
    if (group % 5 == 0) {
        if (place % 4 == 0)
            return (uint8_t)(3 + slave);
        return place % 4 == 1 ? LETTERS : TRAFFIC[drawn];
    }
    if (place % 4 == 0)
        return 2;
    if (place % 4 == 2)
        return 1;
    return group % 5 == 1 && group != 1 && drawn < 8 ? (uint8_t)drawn : 0;
}

static uint8_t slaves_room[SIZE];

static inline uint32_t mix_passed(uint32_t sum, struct passed given)
{
    uint32_t by_master = given.printed[0];
    uint32_t by_slave = given.printed[1];

    if (given.refusal != 0)
        return mix(mix(sum, given.refusal), given.value);
    sum = mix(sum, by_master);
    if (by_master > 0)
        sum = mix(sum, room[by_master - 1]);
    sum = mix(sum, by_slave);
    return by_slave > 0 ? mix(sum, slaves_room[by_slave - 1]) : sum;
}

static uint32_t run_passage(uint64_t times, size_t length)
{
    static const uint8_t one_block[8] = { 3, 71, 71, 71, 2, 0, 1, 0 };
    static const uint8_t faulty[5][4] = { { 0 }, { 2 }, { 1, 0 }, { 5, 5 }, { 3 } };
    static const size_t lengths[5] = { 1, 1, 2, 2, 4 };
    uint32_t sum = 0;

    for (size_t j = 0; j < 5; j++)
        sum = mix_passed(sum, plain_passage(faulty[j], lengths[j], room, SIZE,
                                            slaves_room, SIZE));
    sum = mix_passed(sum, plain_passage(one_block, 8, room, SIZE, slaves_room, 2));

    for (size_t j = 0; j < length; j++)
        text[j] = entry_byte(j);
    for (uint64_t i = 0; i < times; i++)
        sum = mix_passed(sum, plain_passage(text, length, room, SIZE, slaves_room, SIZE));
    return sum;
}

int main(void)
{
    static const char *const NAMES[10] = {
        "", "meaning", "encode", "print", "step", "slot", "receive", "call", "passage",
        "why"
    };
    unsigned call;
    uint64_t times;
    uint64_t length;
    uint32_t sum;

    if (scanf("%u %" SCNu64 " %" SCNu64, &call, &times, &length) != 3
        || call < 1 || call > 9) {
        fputs("usage: CALL N L on standard input, CALL 1 to 9\n", stderr);
        return 2;
    }
    if (length > SIZE)
        length = SIZE;
    switch (call) {
    case 1: sum = run_meaning(times); break;
    case 2: sum = run_encode(times, (size_t)length); break;
    case 3: sum = run_print(times, (size_t)length); break;
    case 4: sum = run_step(times); break;
    case 5: sum = run_slot(times, (size_t)length); break;
    case 6: sum = run_receive(times); break;
    case 7: sum = run_call(times); break;
    case 8: sum = run_passage(times, (size_t)length); break;
    default: sum = run_why(times); break;
    }
    printf("%s %" PRIu32 "\n", NAMES[call], sum);
    return 0;
}
