/* not proved: for comparison only */

/* Radio-telex logic after ITU-R M.625 (SITOR), as narrowed by paper 01 and changed
 * by 02 (T-01, T-02, T-05, T-06, T-07, T-08).  The proved calls are in crates/;
 * docs/COST.md says what this C is compared for.
 *
 * A word is a byte, the unit sent first in bit 0.  A burst is three words in a
 * uint32_t, the first word in the low byte, the top byte zero.
 *
 * A call that can refuse answers 01's number (0: not refused) and the value
 * beside it.  A refusal changes nothing: no byte of a lent room, no field of a
 * station or receiver.  Answers are packed into 64 bits, so that they come back
 * in a register; the functions beside each call take them apart. */
#ifndef PLAIN_H
#define PLAIN_H

#include <stddef.h>
#include <stdint.h>

enum {
    WORD_ALPHA = 15, WORD_BETA = 51, WORD_RQ = 102,
    WORD_CS1 = 101, WORD_CS2 = 106, WORD_CS3 = 89, WORD_CS4 = 53, WORD_CS5 = 105,
    WORD_FIGURES = 54, WORD_PLUS = 99, WORD_QUERY = 114,    /* an over */
    WORD_ERROR = 255                    /* the error mark in a list of signals */
};

enum { LETTERS_CASE = 0, FIGURES_CASE = 1 };

enum { MOST_CHARACTERS = 4096, MOST_SIGNALS = 8192 };

static inline uint32_t burst_of(uint8_t first, uint8_t second, uint8_t third)
{
    return (uint32_t)first | (uint32_t)second << 8 | (uint32_t)third << 16;
}

/* --- The code --- */

/* The number of the signal, 1 to 35; 0 for a mutilated word. */
uint8_t plain_meaning(uint8_t word);

/* Whether the word is below 128 and has exactly four ones. */
unsigned plain_intact(uint8_t word);

/* --- Text, and the slots of mode B --- */

/* Bits 0 to 31: how many bytes were written, or the word of the slot; where
 * refused, the value.  Bits 32 to 39: the refusal.  Bit 40: the case it ends in. */
typedef uint64_t answer;

static inline uint32_t answer_value(answer given) { return (uint32_t)given; }
static inline unsigned answer_refusal(answer given) { return (uint8_t)(given >> 32); }
static inline unsigned answer_case(answer given) { return (unsigned)(given >> 40); }

/* Refusals 5, 1, 2. */
answer plain_encode(const uint8_t *text, size_t length, unsigned start_case,
                    uint8_t *room, size_t room_length);

/* Refusals 7, 3, 2. */
answer plain_print(const uint8_t *words, size_t length, unsigned start_case,
                   uint8_t *room, size_t room_length);

/* Refusals 7, 3, 6. */
answer plain_slot(const uint8_t *text, size_t length, uint32_t number);

/* --- Mode A --- */

enum {
    PLACE_SENDING, PLACE_TURNING, PLACE_OPENING, PLACE_ENDING,
    PLACE_RECEIVING, PLACE_ASKING, PLACE_STANDBY, PLACE_LOST, PLACE_CALLING,
    PLACE_CALLING3, PLACE_IDENTIFYING, PLACE_ANSWERING
};

enum { HEARD_FIGURES = 1, HEARD_PLUS = 2 };

/* Of its own call blocks of seven signals, those heard in succession. */
enum { HEARD_NONE, HEARD_1, HEARD_1_2, HEARD_2, HEARD_2_3, HEARD_WHOLE };

/* Who is at the other end: BARRED is nobody, and that call is not to be placed again
 * at once. */
enum { OTHER_NOBODY, OTHER_FOUR, OTHER_SEVEN, OTHER_BARRED };

/* Four identity signals, the first in the low byte. */
static inline uint32_t identity_of(uint8_t first, uint8_t second, uint8_t third,
                                   uint8_t fourth)
{
    return burst_of(first, second, third) | (uint32_t)fourth << 24;
}

/* Seven identity signals: the first four, and the last three behind them. */
static inline uint64_t seven_of(uint32_t four, uint32_t three)
{
    return four | (uint64_t)three << 32;
}

/* An answer-back code: the words below the length count, and no others. */
enum { MOST_CODE = 20, CODE_WORDS = 21 };

struct code {
    uint8_t length;
    uint8_t words[CODE_WORDS];
};

/* What is owed of an answer-back: BACK where the direction is turned back behind it,
 * KEEP where it is kept. */
enum { OWED_NOTHING, OWED_BACK, OWED_KEEP };

/* A field that the place does not carry has no meaning and is not cleared; nor has
 * `index` where nothing is owed. */
struct station {
    uint64_t held;      /* Sending: the block; Calling of either kind, Identifying: the
                           identity called; Answering: the signals gathered */
    uint64_t own7;      /* the own identity of seven signals; 0 for none */
    uint64_t other;     /* the identity at the other end, where `known` has one */
    uint32_t own;       /* the own identity of four signals; 0 for none */
    uint8_t known;      /* who is at the other end: OTHER_NOBODY to OTHER_BARRED */
    uint8_t place;
    uint8_t second;     /* Sending, Turning, Ending, Receiving: 0 number 1, 1 number 2 */
    uint8_t total;      /* Ending: how often alpha alpha alpha was sent */
    uint8_t count;      /* the repetition count */
    uint8_t heard;      /* of what is received: HEARD_FIGURES, HEARD_PLUS */
    uint8_t slave;      /* 0 master, 1 slave */
    uint8_t cycles;     /* Stand-by: steps left to wait; Calling of either kind: call
                           bursts sent */
    uint8_t last;       /* Stand-by: the own call block of four signals that the last
                           step heard; Calling: the control signal; 0 none, 1 or 2.
                           Identifying: the last wrong check-sum */
    uint8_t heard3;     /* Stand-by: HEARD_NONE to HEARD_2_3 */
    uint8_t stage;      /* Identifying, Answering: 0 stage 1, 3 stage 4 */
    uint8_t wrong;      /* Identifying: the wrong check-sums counted at this stage */
    uint8_t owed;       /* OWED_NOTHING to OWED_KEEP */
    uint8_t index;      /* of the block owed, from 0 */
    struct code code;   /* the own answer-back code */
};

/* An offer: its kind in bits 56 to 63, the words of a text or the identity of a
 * call below. */
enum { OFFER_NOTHING, OFFER_TEXT, OFFER_OVER, OFFER_END, OFFER_CALL, OFFER_CALL3 };

static inline uint64_t offer_of(unsigned kind, uint64_t words)
{
    return (uint64_t)kind << 56 | words;
}

/* Bits 0 to 23: the burst to send.  Bits 24 to 31: the refusal.  Bits 32 to 55:
 * up to three printed words in order, then 0.  Bits 56 to 63: whether the offer
 * was taken; where refused, the value. */
typedef uint64_t step_answer;

static inline uint32_t step_sent(step_answer given) { return (uint32_t)given & 0xFFFFFF; }
static inline unsigned step_refusal(step_answer given) { return (uint32_t)given >> 24; }
static inline uint32_t step_printed(step_answer given) { return given >> 32 & 0xFFFFFF; }
static inline unsigned step_taken(step_answer given) { return (unsigned)(given >> 56); }
static inline unsigned step_value(step_answer given) { return (unsigned)(given >> 56); }

struct station plain_fresh_master(void);
struct station plain_fresh_slave(void);     /* its first burst is CS1 */

/* A station at Stand-by with that identity, or with both.  Refusal 8: then the
 * station is left as it is. */
answer plain_standing_by(struct station *station, uint32_t identity);
answer plain_standing_by_both(struct station *station, uint32_t identity,
                              uint64_t seven);

/* The station with that code, owing nothing.  Refusal 9: then the station is left as
 * it is. */
answer plain_with_code(struct station *station, const struct code *code);

/* Refusals 8, 4, 9, 3. */
step_answer plain_step(struct station *station, uint32_t burst, uint64_t offer);

/* The reasons for what a step answers, in the order of 02's list (T-08): of those that
 * hold the first is given. */
enum {
    WHY_SILENT, WHY_TIME_OUT, WHY_RUN_OUT,
    /* what the place's row names */
    WHY_CALLED, WHY_CALL_OFFERED, WHY_OWN, WHY_OTHER, WHY_EITHER, WHY_CS1, WHY_CS3,
    WHY_CS4, WHY_CS5, WHY_RQ, WHY_TURN, WHY_ALPHAS, WHY_RIGHT_SUM, WHY_WRONG_SUM,
    WHY_TOLD, WHY_TOLD_AGAIN,
    /* the earliest mutilated word of those read; the earliest RQ; any other burst */
    WHY_BAD, WHY_REPEAT, WHY_UNEXPECTED,
    /* an accepted block */
    WHY_OVER_HEARD, WHY_WHO_ARE_YOU, WHY_OVER_OFFERED, WHY_ACCEPTED
};

/* Bits 0 to 7: the reason.  Bits 8 to 15: beside WHY_BAD and WHY_REPEAT the index of the
 * word, from 0; where refused, the value.  Bits 16 to 23: beside WHY_BAD the word as it
 * was heard.  Bits 24 to 31: the refusal.  What is not there is 0. */
typedef uint32_t why_answer;

static inline unsigned why_reason(why_answer given) { return given & 0xFF; }
static inline unsigned why_index(why_answer given) { return given >> 8 & 0xFF; }
static inline unsigned why_word(why_answer given) { return given >> 16 & 0xFF; }
static inline unsigned why_refusal(why_answer given) { return given >> 24; }
static inline unsigned why_value(why_answer given) { return given >> 8 & 0xFF; }

/* Why a step of that station, burst and offer answers as it does.  Refused where the step
 * is, with the same number and value. */
why_answer plain_why(const struct station *station, uint32_t burst, uint64_t offer);

/* --- A passage --- */

/* The refusal, 0 for none, and the value beside it; where none, how many bytes each
 * station printed. */
struct passed {
    uint32_t refusal;
    uint32_t value;
    uint32_t printed[2];    /* by the master, by the slave */
};

/* A fresh master and a fresh slave run over a record.  Refusals 10, 11, 12, 13 and 3
 * of the first entry that has a fault, with its place; then 2, the master's room first. */
struct passed plain_passage(const uint8_t *record, size_t length,
                            uint8_t *master, size_t master_length,
                            uint8_t *slave, size_t slave_length);

/* --- The receiver of mode B --- */

enum { PHASE_SEARCHING, PHASE_DX, PHASE_RX, PHASE_WAITING };

struct receiver {
    uint32_t waiting;   /* in phase, waiting: the last DX words as heard, the
                           latest in the low byte */
    uint8_t phase;      /* searching, what the next slot is, or waiting: behind two
                           successive alpha in DX */
    uint8_t run;        /* searching: how many in a row alternate, 0 to 3 */
    uint8_t last;       /* searching, run over 0: the last of them, alpha or RQ */
    uint8_t printing;   /* in phase, waiting: 255 once printing has begun, else 0 */
    uint8_t wait;       /* waiting: how many words are still to be heard, 3 to 1 */
};

/* What plain_receive answers for refusal 4 0. */
enum { RECEIVE_REFUSED = 0x400 };

struct receiver plain_fresh_receiver(void);

/* The signal printed, 255 for an error mark, 0 for none; or RECEIVE_REFUSED. */
unsigned plain_receive(struct receiver *receiver, uint8_t word);

/* Why a step of a receiver prints an error mark: both copies mutilated, or both intact and
 * unlike. */
enum { STAR_NONE, STAR_BAD, STAR_UNLIKE, STAR_REFUSED };

/* Bits 0 to 7: STAR_NONE where none is printed, its reason, or STAR_REFUSED for refusal
 * 4 0.  Bits 8 to 15 and 16 to 23: the DX and the RX word as they were heard, beside a
 * reason. */
typedef uint32_t star_answer;

static inline unsigned star_reason(star_answer given) { return given & 0xFF; }
static inline unsigned star_dx(star_answer given) { return given >> 8 & 0xFF; }
static inline unsigned star_rx(star_answer given) { return given >> 16 & 0xFF; }

star_answer plain_star(const struct receiver *receiver, uint8_t word);

#endif
