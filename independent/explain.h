/* explain.h: a second reading of why a program stops, written from the documents alone, to compare the proved one with. */
#ifndef INDEPENDENT_EXPLAIN_H
#define INDEPENDENT_EXPLAIN_H

#include <stddef.h>
#include <stdint.h>

enum { EXPLAIN_NO_CAUSE = 255 };

struct explained {
    uint32_t tick;   /* of the event; the start is tick 0 */
    uint8_t refusal; /* 0, or the first that applies: 30 not of 1,600 bytes, 60 the start is above 199, 61 the limit above 100,000 */
    uint8_t event;   /* 0 where the program is refused, and where it is still running after the limit's own tick */
    uint8_t line;    /* where it stopped: what 211 shows */
    uint8_t cause;   /* 006: the line of the For that holds the counter. 007: the counter sought. 008: 1 if some For of the counter stands
                      * above, else 0. 013: the State line last held, none in the start. With all else none. */
};

/* What ends a run from this line on, within so many ticks. Any number of bytes, of any value. Without an event tick and line are 0. */
struct explained explain_stop(const uint8_t *program, size_t length, uint64_t start, uint64_t limit);

#endif
