/* stops.h: questions made up for the report of why a program stops. */
#ifndef COMPARE_STOPS_H
#define COMPARE_STOPS_H

#include "nests.h"

enum { STOPS_LIMIT_MOST = 100000 };

struct question {
    struct nest nest;
    uint64_t start;
    uint64_t limit;
};

/* ---- stops.c */

/* A program that runs for a while, for the most part, and stops for any reason there is. Answers where it is meant to be started. */
unsigned stops_make(struct nest *nest, struct chance *chance);

/* ---- questions.c */

/* A program and a start line, often another than it is meant for, or none. The limit is the greatest. */
void question_make(struct question *question, struct chance *chance);

/* Another limit: often at the tick where the program stops, if it does, or one beside it; now and then one that is too large. */
void question_limit(struct question *question, struct chance *chance, bool stops, uint64_t tick);

void question_print(const struct question *question);

#endif
