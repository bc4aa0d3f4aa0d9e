/* boxes.h: why a program stops, as both boxes show it that run it tick by tick. */
#ifndef COMPARE_BOXES_H
#define COMPARE_BOXES_H

#include "nizhalepu.h"
#include "stops.h"

enum { BOXES_TICKS_MOST = 3000 }; /* programs that are told to run longer are not run */

/* True if the answer is one that the boxes can be held to: neither a refusal nor after too many ticks. */
bool boxes_take(const struct question *question, const struct nizhalepu_stop *told);

/* Powers both boxes on with the program as saved copy, starts it and takes its ticks. Answers NULL if each shows over the wire what was
 * told, at that tick and not before; else what one of them shows. */
const char *boxes_run(const struct question *question, const struct nizhalepu_stop *told);

/* The loops of none that the last program passed. */
unsigned boxes_nones(void);

#endif
