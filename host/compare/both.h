/* both.h: the proved box and the independent one, each with areas of its own, driven by the same steps. */
#ifndef COMPARE_BOTH_H
#define COMPARE_BOTH_H

#include "box.h"
#include "nizhalepu.h"
#include "step.h"

#include <stdbool.h>

enum { PROVED, INDEPENDENT, BOXES };

enum {
    PROGRAM_ROOM = 2000, /* behind the 1,600 bytes lent stand 400 that must stay */
    REPLY_ROOM = 64,
    DESTINATION_MORE = 100 /* the destination has this much more room than the log */
};

struct said {
    uint8_t refusal;
    uint16_t lines;
    size_t written;
};

struct both {
    struct nizhalepu_record *record;
    struct box *box;
    size_t room[AREAS];
    uint8_t *area[BOXES][AREAS];
    uint8_t *memory[BOXES]; /* all areas of one box, with bytes between them that belong to none */
    size_t size;            /* of either memory */
    uint8_t *state[BOXES];  /* the record or the box, with guards on both sides */
    size_t state_size[BOXES];
    struct said said[BOXES]; /* of the last call */
};

/* What differs first. `area` is AREAS for bytes that belong to no area. */
struct difference {
    enum { EQUAL, IN_RETURN, IN_AREA, IN_GUARD } where;
    unsigned area;
    size_t at;
    uint8_t bytes[BOXES];
};

/* `log_room` bytes of log; the areas begin `shift` bytes off an even address. All areas are zero. */
void both_make(struct both *both, size_t log_room, size_t shift);
void both_free(struct both *both);

/* As both_make left it. */
void both_clear(struct both *both);

/* One step on both. True if all return values and every byte of every area are then equal. */
bool both_do(struct both *both, const struct step *step);

/* What the last step made differ. */
struct difference both_difference(const struct both *both);
void both_print_difference(const struct both *both);

/* The calls alone, for measuring: the same step on one of the two. */
struct said both_call(struct both *both, int which, const struct step *step);

/* True if every byte of every area is equal. */
bool both_areas_equal(const struct both *both);

#endif
