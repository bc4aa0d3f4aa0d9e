/* listed.h: what the readers of the log make of one, in classes that a run has to meet. */
#ifndef COMPARE_LISTED_H
#define COMPARE_LISTED_H

#include "logs.h"

enum listed {
    LISTED_NONE,
    /* accepted, of the mark 1E E2 */
    LISTED_CHANGES,
    LISTED_GAP,          /* changes and a gap */
    LISTED_GAP_OF_1,
    LISTED_GAP_BACK,     /* of 2, and its word is the word before it */
    LISTED_MOST_CHANGES, /* 4,095 changes */
    LISTED_FULL,         /* 4,095 changes and a gap */
    /* accepted, of the older mark */
    LISTED_OLDER_CHANGES,
    LISTED_OLDER_GAP,
    LISTED_OLDER_MOST_CHANGES, /* 5,460 changes */
    LISTED_OLDER_FULL,         /* 5,460 changes and a gap */
    /* refused. An unknown first mark has the sizes of 1E E2: what the other sizes would make of the file is told. */
    LISTED_E050,
    LISTED_OLDER_E050,
    LISTED_UNKNOWN_E050, /* a multiple of 12 */
    LISTED_E051,         /* behind the first record */
    LISTED_OLDER_E051,
    LISTED_UNKNOWN_E051,      /* no multiple of 12 */
    LISTED_UNKNOWN_E051_MOST, /* 65,536 bytes: 056 by the older sizes */
    LISTED_E052,
    LISTED_E052_SAME_WORDS, /* of the first record */
    LISTED_E052_GAP_OF_1,   /* whose word is the word before it */
    LISTED_E052_OVER,       /* 4,096 records, of which the last is no gap */
    LISTED_OLDER_E052,
    LISTED_OLDER_E052_OVER, /* 5,461 records, likewise */
    LISTED_E053,
    LISTED_OLDER_E053,
    LISTED_E056,
    LISTED_OLDER_E056,
    LISTED_OLDER_E056_NEAR, /* 65,533 to 65,536 bytes */
    LISTED_UNKNOWN_E056,
    LISTED_NO_ROOM, /* for the text */
    LISTED
};

extern const char *const listed_names[LISTED];

/* By what stands in the log and by the text that the proved reader gave it. */
enum listed listed_as(const struct log *log, const uint8_t *text, size_t written);

#endif
