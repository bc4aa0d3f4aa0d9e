/* totals.h: a second reading of the switching totals per channel, written from the documents alone, to compare the proved one with. */
#ifndef INDEPENDENT_TOTALS_H
#define INDEPENDENT_TOTALS_H

#include <stdbool.h>
#include <stddef.h>
#include <stdint.h>

enum { TOTALS_CHANNELS = 32 };

struct totals_channel { /* channel n, in place n-1, is bit n-1 of the output word */
    uint64_t closings;
    uint64_t openings;
    uint64_t ticks;     /* spent closed, up to the last record read */
};

struct totals_beside { /* beside the totals; all 0 where all channels are open at tick 0 */
    uint32_t tick;      /* of the last record read */
    uint32_t word;      /* after it */
    uint64_t unknown;   /* changes that gaps have lost */
    bool more;          /* than that: a gap was at its cap */
};

/*
 * Brings the totals forward by a log, and answers 0; or answers the first refusal that applies, and nothing is changed: 75 other than 32
 * records, the reader's own, 51 a log of 12-byte records, 72 a first tick earlier than the last one read, 73 a first earlier word that is
 * not the last one read, 74 a total or the number unknown that would not fit. The totals, what is beside them and the log may be any.
 */
uint8_t totals_bring_forward(struct totals_channel *channels, size_t count, const uint8_t *log, size_t length,
                             struct totals_beside *beside);

#endif
