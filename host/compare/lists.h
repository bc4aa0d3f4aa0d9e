/* lists.h: the proved reader of the log and the independent one, on the same logs, of both marks and of none. */
#ifndef COMPARE_LISTS_H
#define COMPARE_LISTS_H

#include "logs.h"
#include "statistics.h"

#include <stdio.h>

struct lists {
    struct chance chance; /* of its own, so that a seed has the same calls whatever is done with the logs */
    struct log log;       /* that is read */
    struct log whole;     /* that is spoiled in many ways */
    size_t room;          /* of the text area, as lent */
    uint8_t *text[BOXES];
    size_t written[BOXES];
    struct statistics *statistics;
    uint64_t read;    /* logs */
    bool own_refused; /* a log that the box wrote and nobody altered was refused: that ends the run */
    FILE *file;       /* gets every log and its text, or NULL */
};

/* `path` is that of the file, or NULL. False if it cannot be written. */
bool lists_begin(struct lists *lists, struct statistics *statistics, uint64_t seed, const char *path);
/* False if the file could not be written to its end. */
bool lists_end(struct lists *lists);

/* What an emptying gave, and spoiled copies of it. `altered` says that not only the box wrote to the log. True if both readers agree,
 * and accept what only the box wrote. */
bool lists_emptied(struct lists *lists, const uint8_t *bytes, size_t length, bool altered);

/* A log made up, now and then as long as can be, and spoiled copies of it. True if both readers agree. */
bool lists_made_up(struct lists *lists);

/* After a difference: the shortest log found that shows it, and what the readers say to it. */
void lists_print_difference(struct lists *lists);

#endif
