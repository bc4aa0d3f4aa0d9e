/* plan.h: a second reading of how an inclining plan becomes a program, written from the documents alone, to compare the proved one with. */
#ifndef INDEPENDENT_PLAN_H
#define INDEPENDENT_PLAN_H

#include <stddef.h>
#include <stdint.h>

enum {
    PLAN_MOVES_MOST = 16,
    PLAN_TIME_MOST = 600000 /* ticks of one settling or reading */
};

enum { PLAN_WORD_OF_MOVE, PLAN_SETTLING, PLAN_WORD_OF_READING, PLAN_READING, PLAN_NUMBERS }; /* the numbers of a move, in their order */

/*
 * Writes the 1,600 bytes of the program that carries the plan out, and answers 0; or answers the first refusal that applies, and no byte
 * is written: 30 an area not of 1,600 bytes, 70 no moves, more than 16 or a part of one, 71 a time of 0 or above 600,000. The numbers may
 * be any, and any number of them.
 */
uint8_t plan_program(const uint32_t *plan, size_t count, uint8_t *program, size_t length);

#endif
