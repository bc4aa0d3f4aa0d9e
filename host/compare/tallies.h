/* tallies.h: what a comparison of switching totals has met. */
#ifndef COMPARE_TALLIES_H
#define COMPARE_TALLIES_H

#include "accounts.h"

enum tally {
    /* every answer is one of these */
    TALLY_CHANGES,
    TALLY_GAP,
    TALLY_NONE,
    TALLY_E075,
    TALLY_E056,
    TALLY_E050,
    TALLY_E053,
    TALLY_E051,
    TALLY_OLDER,
    TALLY_E052,
    TALLY_E072,
    TALLY_E073,
    TALLY_E074,
    /* what is met besides */
    TALLY_31_RECORDS,
    TALLY_33_RECORDS,
    TALLY_E075_AND_MORE,
    TALLY_OLDER_REFUSED,
    TALLY_SAME_TICK,
    TALLY_TICK_BEFORE,
    TALLY_E072_AND_WORD,
    TALLY_E073_AT_START,
    TALLY_FULL,
    TALLY_CAP,
    TALLY_MORE_STAYS,
    TALLY_END_CLOSINGS,
    TALLY_END_OPENINGS,
    TALLY_END_TICKS,
    TALLY_END_UNKNOWN,
    TALLY_END_CHANNEL_32,
    TALLY_PAST_CLOSINGS,
    TALLY_PAST_OPENINGS,
    TALLY_PAST_TICKS,
    TALLY_PAST_UNKNOWN,
    TALLY_PAST_CHANNEL_1,
    TALLY_PAST_CHANNEL_32,
    TALLIES
};

struct tallies {
    uint64_t met[TALLIES];
    uint64_t other; /* an answer that is none of these */
};

/* A log, and what the proved library has made of it. */
void tallies_count(struct tallies *tallies, const struct account *account, const struct brought *proved);

/* Prints the rows. False where there were enough logs and a row was seldom met, or an answer was none of these. */
bool tallies_print(const struct tallies *tallies, uint64_t logs);

#endif
