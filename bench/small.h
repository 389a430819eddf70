/* not proved: for comparison only */

/* The calls of plain.h that read the code, from one table of 35 rows (small.c).
 * Where SMALL_CALLS is defined they stand for those of plain.c. */
#ifndef SMALL_H
#define SMALL_H

#include "plain.h"

uint8_t small_meaning(uint8_t word);

answer small_encode(const uint8_t *text, size_t length, unsigned start_case,
                    uint8_t *room, size_t room_length);

answer small_print(const uint8_t *words, size_t length, unsigned start_case,
                   uint8_t *room, size_t room_length);

#ifdef SMALL_CALLS
#define plain_meaning small_meaning
#define plain_encode small_encode
#define plain_print small_print
#endif

#endif
