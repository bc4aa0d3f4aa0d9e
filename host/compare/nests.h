/* nests.h: programs made up for the report of how long a program takes: loops well nested before an end mark, and programs with
 * something broken. */
#ifndef COMPARE_NESTS_H
#define COMPARE_NESTS_H

#include "chance.h"
#include "line.h"

#include <stddef.h>

enum { NEST_LINES = 200, NEST_BYTES = NEST_LINES * LINE_BYTES, NEST_ROOM = 2 * NEST_BYTES };

struct nest {
    uint8_t bytes[NEST_ROOM]; /* behind the 1,600 stand others, for a length that is too great */
    size_t length;            /* that is lent: 1,600 but in a program that is to be refused for it */
    unsigned end;             /* the line of its end mark, as made; what is done to it later may put one above */
};

static inline uint8_t *nest_line(struct nest *nest, unsigned line)
{
    return nest->bytes + line * LINE_BYTES;
}

/* ---- nests.c: each has a number of ticks, or too many */

void nest_make(struct nest *nest, struct chance *chance);       /* of any size, any times and counts */
void nest_make_small(struct nest *nest, struct chance *chance); /* of few ticks */
/* The ticks are a number near one at which something ends: the most, 32 bits, 64 bits and so on. */
void nest_make_big(struct nest *nest, struct chance *chance);

/* ---- spoils.c */

/* Breaks one thing. What it is refused for then is often, and not always, what was aimed at. */
void nest_spoil(struct nest *nest, struct chance *chance);
/* Lines in no order. */
void nest_make_soup(struct nest *nest, struct chance *chance);

/* ---- printing */

/* A line to a line, in the wire's form, Bad ones by their bytes; equal neighbours are told once. */
void nest_print(const struct nest *nest);

#endif
