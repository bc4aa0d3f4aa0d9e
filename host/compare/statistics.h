/* statistics.h: what a run has met, as the proved box shows it; loops of none, which it does not show, as the independent one does. */
#ifndef COMPARE_STATISTICS_H
#define COMPARE_STATISTICS_H

#include "both.h"
#include "line.h"
#include "listed.h"

enum { REFUSALS = 7, ERRORS = 25, CODES = 9, EVENTS = 15, ADDRESSES = 217, STATES = 3, REACHES = 2 };

/* where Bad lines were met */
enum bad {
    BAD_READ_BY_DIGITS, /* E024 */
    BAD_READ_BY_I,
    BAD_READ_BY_D,
    BAD_READ_TOO_LONG, /* E002: characters left over */
    BAD_RUN_AT_START,  /* 014 */
    BAD_RUN_AT_TICK,
    BAD_RUN_AFTER_400,
    BAD_RUN_IN_LOOP, /* a counter was busy before the call */
    BAD_RUN_AT_199,
    BAD_EXECUTED, /* by 006 */
    BAD_POWERED,  /* copied by power-on, 007 and 008 */
    BAD_LOADED,
    BAD_SAVED,
    BAD_IN_LOOP_TAKEN, /* passed by the search of a For that then took its counter */
    BAD_IN_NONE,       /* passed with a loop of none */
    BADS
};

/* what is done with a Bad line */
enum use { USE_READ, USE_RUN, USE_EXECUTED, USE_PASSED, USES };

/* I and D where nothing was read, or written, since power-on */
enum first { FIRST_READ_BY_I, FIRST_READ_BY_D, FIRST_WRITE_BY_I, FIRST_WRITE_BY_D, FIRSTS };

/* lengths of the log area at a power-on that is right in all else: the bounds, and lengths between two numbers of whole records */
enum lent { LENT_31, LENT_32, LENT_33, LENT_47, LENT_48, LENT_65536, LENT_65537, LENTS };

/* what the log met */
enum logged {
    LOGGED_CHANGE,       /* that has its record */
    LOGGED_CHANGE_BEHIND_ALTERED, /* the same, where the caller had altered the record before */
    LOGGED_LOSS_FIRST,   /* a gap begins */
    LOGGED_LOSS_LATER,   /* a change lost in a later tick than the first */
    LOGGED_LOSS_BACK,    /* to the word that stood before the gap */
    LOGGED_LOSS_ALTERED, /* where the caller had altered the gap */
    LOGGED_LOSS_ALTERED_LATER, /* the same, in a later tick than the first */
    LOGGED_EMPTIED_GAP_OF_1,
    LOGGED_EMPTIED_GAP_BACK, /* of 2, and its word is the word before it */
    LOGGED_EMPTIED_ALTERED,  /* a gap that the caller had altered */
    LOGGED
};

struct statistics {
    /* counts */
    uint64_t calls; /* of the box; alterations are none */
    uint64_t episodes;
    uint64_t met[KINDS][REFUSALS]; /* accepted, 030 to 035; alterations count as accepted */
    uint64_t errors[ERRORS]; /* by number */
    uint64_t accepted_writes;
    uint64_t data;
    uint64_t first[FIRSTS]; /* by I answered without an error, by D with E004 */
    /* special commands answered as is due: the code, when stopped, paused, running, with the parameter in and out of reach */
    uint64_t special[CODES][STATES][REACHES];
    uint64_t astray; /* what both boxes did and neither paper has: calls.c names it */
    uint64_t ticks[STATES]; /* accepted when stopped, paused, running */
    uint64_t events[EVENTS];
    uint64_t lent[LENTS]; /* 31 and 65,537 refused, the others accepted */
    uint64_t logged[LOGGED];
    uint64_t full_runs; /* calls that ran 400 For and Next lines */
    uint64_t nones;         /* loops of none passed */
    uint64_t nones_past_199; /* those whose Next is line 199 */
    uint64_t nones_of_400;  /* those in calls that ran 400 lines */
    uint64_t most_nones;    /* in one call */
    uint64_t none_events[EVENTS]; /* seen where the line shown is a For with count 0000: 006, 007 and 013 stopped the program on it */
    uint64_t bad[BADS];
    uint64_t faults[FAULTS][USES]; /* of the Bad lines met, what makes them so */
    uint32_t most_lost;
    unsigned most_lines;
    size_t most_written; /* bytes of an emptying */
    uint64_t reads[ADDRESSES];
    uint64_t writes[ADDRESSES];
    uint64_t listed[LISTED];
    uint64_t marks[FORMS + 1]; /* logs read, by the first mark; the last are of an unknown one, or of none */

    /* what the counting keeps between calls */
    uint8_t characters[33]; /* of the command being collected */
    unsigned count;
    int last_read, last_write; /* addresses; -1 is before 000 */
    struct box_nones nones_before;
    struct nizhalepu_record before;
    uint32_t first_lost;   /* the tick of the first change lost since emptying */
    uint32_t word_before;  /* the output word before it */
    bool altered;          /* the record written last, by the caller since */
};

/* What is due to a special command in a state: the error, 0 for OK. */
unsigned statistics_due(unsigned code, unsigned state, unsigned out_of_reach);

/* Before the first call of an episode. */
void statistics_begin(struct statistics *statistics);

/* After a step that found no difference. */
void statistics_count(struct statistics *statistics, const struct step *step, const struct both *both);

/* ---- logged.c: the part of it about the log */

void statistics_lent(struct statistics *statistics, const struct step *step, unsigned refusal);
void statistics_altered(struct statistics *statistics, const struct step *step, const struct both *both);
/* Before `before` moves on. */
void statistics_logged(struct statistics *statistics, const struct step *step, const struct both *both);

/* The report. True if every class was met. */
bool statistics_print(const struct statistics *statistics);

#endif
