/* plans.h: inclining plans made up, each with an area for its program, and programs of plans held to the box that runs them. */
#ifndef COMPARE_PLANS_H
#define COMPARE_PLANS_H

#include "chance.h"
#include "nizhalepu.h"

enum {
    MOVE_NUMBERS = 4,        /* numbers of a move */
    ORDER_NUMBERS_MOST = 72, /* of a plan here: two moves more than it may have */
    ORDER_AREA_MOST = 2000   /* bytes of the area */
};

struct order { /* what is asked of a planner */
    uint32_t numbers[ORDER_NUMBERS_MOST];
    size_t count;
    uint8_t area[ORDER_AREA_MOST]; /* what stands there before; all of it is looked at afterwards */
    size_t length;                /* that is lent */
};

struct made { /* by a planner */
    uint8_t refusal;
    uint8_t area[ORDER_AREA_MOST];
};

/* ---- plans.c */

/* What the proved library and what the independent reading make of it. */
void order_proved(const struct order *order, struct made *made);
void order_independent(const struct order *order, struct made *made);

/* Any plan: most are in order and have times at an edge, some are refused, for one reason or for several. */
void order_make(struct order *order, struct chance *chance);

/* A plan that is not refused, for the most part of few ticks. */
void order_make_short(struct order *order, struct chance *chance);

/* The sum of the times. */
uint64_t order_ticks(const struct order *order);

/* Takes a move out. */
void order_take_out(struct order *order, size_t move);

/* The moves as the program `plan` reads them. */
void order_print(const struct order *order);

/* ---- carried.c */

enum { CARRIED_SHORT = 2000 }; /* up to so many ticks there is traffic, and there are pauses */

/*
 * Has the proved box run a program from line 000 on and holds its outputs after every unpaused tick to the word that the plan has then:
 * it runs until the sum of the times, and there it stops with event 011 and all outputs off. Answers NULL, or what the box shows instead.
 */
const char *carried_out(const struct order *order, const uint8_t program[NIZHALEPU_PROGRAM], struct chance *chance);

/* Pauses since the start of the comparison. */
uint64_t carried_pauses(void);

#endif
