/* prepare.h: known calls with right lengths, for the measurements. */
#ifndef COMPARE_PREPARE_H
#define COMPARE_PREPARE_H

#include "both.h"

/* The call with a log of that length; a reply of 16 bytes, a destination as long as the log. */
struct step prepare_step(enum kind kind, uint8_t value, uint32_t log);

/* Says the command to one box. Answers what the call of the 13 said. */
struct said prepare_say(struct both *both, int which, uint32_t log, const char *text);

/* The program with the dearest tick, the one after a start at 000; `between` is S, F, N or B for Bad, the lines that each search passes. */
void prepare_dearest(uint8_t *program, char between);

/* The same without a loop of none. */
void prepare_far(uint8_t *program, char between);

#endif
