/* step.h: one step of a history: a call on both boxes, or an alteration of an area between calls. */
#ifndef COMPARE_STEP_H
#define COMPARE_STEP_H

#include <stddef.h>
#include <stdint.h>

enum kind { POWER_ON, BYTE, TICK, PRESS, EMPTY, ALTER, KINDS };

enum area { PROGRAM, SAVED, LOG, DESTINATION, REPLY, AREAS };

/* how the bytes of an alteration come about */
enum way {
    ZEROS,
    NOISE,  /* random bytes from a sub-seed */
    LINES,  /* random lines of a program from a sub-seed, each valid */
    GIVEN,  /* at most eight bytes that stand in the step */
    FLIPPED /* the bits of one byte that the step names */
};

struct lengths { /* of the areas lent; an area that the call does not take has no meaning here */
    uint32_t program;
    uint32_t saved;
    uint32_t log;
    uint32_t other; /* the reply area of a byte, the destination of an emptying */
};

struct alteration {
    uint32_t at;
    uint32_t count;
    uint8_t bytes[8]; /* the bytes given, or the sub-seed */
};

struct step {
    uint8_t kind;
    uint8_t way;    /* of an alteration only */
    uint32_t value; /* the byte or the button; of an alteration the area */
    union {
        struct lengths lent;
        struct alteration alter;
    };
};

/* A growing row of steps. */
struct steps {
    struct step *step;
    size_t count;
    size_t room;
};

void steps_add(struct steps *steps, const struct step *step);
void steps_free(struct steps *steps);

/* Prints the steps in readable form, runs of bytes and of ticks on one line each. */
void steps_print(const struct steps *steps);

extern const char *const area_names[AREAS];

#endif
