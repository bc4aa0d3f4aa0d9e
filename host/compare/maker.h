/* maker.h: makes up the steps of a history. Scripts put steps in a row; the row is taken step by step. */
#ifndef COMPARE_MAKER_H
#define COMPARE_MAKER_H

#include "both.h"
#include "chance.h"
#include "line.h"
#include "step.h"

struct maker {
    struct chance chance;
    const struct both *both; /* looked at to aim: for the records held, so that a destination can just suffice, and for Bad lines */
    struct steps row;
    size_t next;   /* the step of the row that is taken next */
    uint32_t log;  /* the length given at the last accepted power-on */
    uint32_t room; /* of the log */
    unsigned near; /* lines that belong together stand near this one */
};

/* ---- maker.c: single steps. Now and then a call has wrong lengths, or one with wrong lengths goes before it. */

void make_power_on(struct maker *maker);
void make_refused_power_on(struct maker *maker);
void make_byte(struct maker *maker, uint8_t byte);
void make_ticks(struct maker *maker, unsigned count);
void make_press(struct maker *maker, uint32_t button);
/* Only where the row is used up: the destination fits the records held now. */
void make_empty(struct maker *maker);
void make_whole_empty(struct maker *maker); /* the destination fits any log */

void alter_whole(struct maker *maker, enum area area, enum way way);
void alter_line(struct maker *maker, enum area area, unsigned line, const uint8_t bytes[LINE_BYTES]);
void alter_somewhere(struct maker *maker);
/* In a place of the log, whatever stands there: a field of a record, some bytes of it, or one bit. */
void alter_record(struct maker *maker, uint32_t place);
void alter_gap(struct maker *maker); /* in the gap's place */
/* Only where the row is used up: the record written last, from which the box must take nothing. */
void alter_written(struct maker *maker);

/* ---- commands.c: whole commands */

/* The text as bytes and a 13, in capitals or not and with spaces now and then; one in `damaged` is damaged. */
void say(struct maker *maker, unsigned damaged, const char *format, ...) __attribute__((format(printf, 3, 4)));
void say_any(struct maker *maker);  /* any command */
void say_read(struct maker *maker); /* a read of what changes as a program runs */
void say_steps(struct maker *maker); /* reads and writes of lines by I and D, mixed */
void say_walk(struct maker *maker); /* reads, or writes of lines, of addresses one after the other, by I or D */
void say_bad(struct maker *maker);  /* a read of a Bad line, by digits, I or D, or its execution */
void say_special(struct maker *maker);
void say_single(struct maker *maker); /* line 200 or another, and its execution */
void say_losses(struct maker *maker); /* writes that fill a small log and lose few changes, and its emptying */
void say_behind_altered(struct maker *maker); /* the record written last altered, and a write that makes the next one */
void say_noise(struct maker *maker);

/* ---- programs.c: a program, its start and what happens while it runs */

void run_recipe(struct maker *maker);
void run_on(struct maker *maker);   /* a while of a program that runs or is paused */
void run_fill(struct maker *maker); /* changes the outputs in every tick, so that any log gets full and changes are lost */

/* ---- episodes.c */

/* Begins an episode from its sub-seed: the room of the log and where the areas stand, then the row of its first steps.
 * Answers the number of calls that the episode is to have. */
size_t episode_begin(struct maker *maker, struct both *both, uint64_t seed);
/* The next step. */
const struct step *episode_next(struct maker *maker);

#endif
