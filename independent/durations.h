/* durations.h: a second reading of how long a program takes, written from the documents alone, to compare the proved one with. */
#ifndef INDEPENDENT_DURATIONS_H
#define INDEPENDENT_DURATIONS_H

#include <stddef.h>
#include <stdint.h>

#define DURATION_MOST 9999999999u             /* ticks of one program */
#define DURATION_TOTAL_MOST (10 * DURATION_MOST) /* ticks of all programs of a file */

enum { DURATION_TOO_LONG = 43 }; /* the refusal of a program, and of a total */

struct duration {
    uint8_t refusal; /* 0 where the program has a duration */
    uint64_t ticks;  /* 0 where it is refused */
};

/* The unpaused ticks from a start at line 000 to event 011, or the first refusal that applies. Any number of bytes, of any value. */
struct duration program_duration(const uint8_t *program, size_t length);

#endif
