#include "stops.h"

#include <string.h>

enum { LAST = NEST_LINES - 1, ROOM = 16 }; /* a part is begun where there is room for so many lines more */

struct making {
    struct nest *nest;
    struct chance *chance;
    unsigned at;         /* the line that is made next */
    unsigned counters;   /* 1 up to this one are used: where they are few, each is freed and taken again */
    unsigned time_most;  /* of a State */
    unsigned count_most; /* of a For */
};

/* Where the program is full, its last line becomes another. */
static uint8_t *more(struct making *making)
{
    return nest_line(making->nest, making->at < NEST_LINES ? making->at++ : LAST);
}

static bool has_room(const struct making *making)
{
    return making->at + ROOM < NEST_LINES;
}

static unsigned any_counter(struct making *making)
{
    return chance_between(making->chance, 1, making->counters);
}

static unsigned other_counter(unsigned counter)
{
    return counter % 4 + 1;
}

static unsigned any_count(struct making *making)
{
    return chance_between(making->chance, 1, making->count_most);
}

static void add_time(struct making *making, unsigned time)
{
    line_state(more(making), line_outputs(making->chance), time);
}

static void add_state(struct making *making)
{
    add_time(making, chance_between(making->chance, 1, making->time_most));
}

static void maybe_add_state(struct making *making)
{
    if (chance_one_in(making->chance, 2)) add_state(making);
}

static void add_for(struct making *making, unsigned counter, unsigned count)
{
    line_for(more(making), counter, count);
}

static void add_next(struct making *making, unsigned counter)
{
    line_next(more(making), counter);
}

/* ---- parts that a run comes through, for the most part */

/* Loops one inside the other and one behind the other, of the counters whose bits are set. */
static void add_loops(struct making *making, unsigned free)
{
    struct chance *chance = making->chance;
    for (unsigned n = chance_between(chance, 1, 3); n > 0 && has_room(making); n--) {
        unsigned counter = any_counter(making);
        if ((free >> counter & 1) == 0 || chance_one_in(chance, 3)) {
            add_state(making);
            continue;
        }
        add_for(making, counter, chance_one_in(chance, 8) ? 0 : any_count(making));
        add_loops(making, free & ~(1u << counter));
        add_next(making, counter);
    }
}

/* A loop of none over lines of any kind. */
static void add_none(struct making *making, unsigned counter)
{
    struct chance *chance = making->chance;
    add_for(making, counter, 0);
    for (unsigned n = chance_below(chance, 4); n > 0; n--) {
        uint8_t *line = more(making);
        if (chance_one_in(chance, 4))
            line_bad(line, chance);
        else
            line_any(line, chance);
    }
    add_next(making, counter);
}

/* About so many For and Next lines, and no State: one loop, or a loop or loops of none in another. */
static void add_stateless(struct making *making, unsigned counter, unsigned lines)
{
    struct chance *chance = making->chance;
    unsigned inner = other_counter(counter), turns;
    switch (chance_below(chance, 4)) {
    case 0:
    case 1:
        add_for(making, counter, lines - 1);
        break;
    case 2:
        turns = chance_between(chance, 2, lines / 4);
        add_for(making, counter, turns);
        add_for(making, inner, (lines - 1) / turns - 2);
        add_next(making, inner);
        break;
    default:
        turns = chance_between(chance, 1, 4);
        add_for(making, counter, (lines - 1) / (turns + 1));
        while (turns-- > 0) add_none(making, inner);
        break;
    }
    add_next(making, counter);
}

/* A loop with a State and many For and Next lines on both sides of it: from the second turn on the lines of both sides make one tick. */
static void add_split(struct making *making)
{
    struct chance *chance = making->chance;
    unsigned counter = any_counter(making);
    add_for(making, counter, chance_one_in(chance, 600) ? 9999 : chance_between(chance, 2, 9));
    add_stateless(making, other_counter(counter), chance_between(chance, 60, 300));
    add_state(making);
    add_stateless(making, other_counter(counter), chance_between(chance, 60, 300));
    add_next(making, counter);
}

static void add_part(struct making *making)
{
    struct chance *chance = making->chance;
    switch (chance_below(chance, 16)) {
    case 0:
        maybe_add_state(making);
        add_stateless(making, any_counter(making), chance_between(chance, 20, 400));
        break;
    case 1:
        add_split(making);
        break;
    case 2:
    case 3:
        add_none(making, any_counter(making));
        break;
    case 4:
        add_time(making, chance_one_in(chance, 4) ? 9999 : chance_between(chance, 1, 9999));
        break;
    case 5:
        add_time(making, chance_between(chance, 255, 257));
        break;
    default:
        add_loops(making, 30);
        break;
    }
}

/* 99,999 to 100,001 ticks: the greatest limit, or one tick more or less. */
static void add_most(struct making *making)
{
    unsigned counter = any_counter(making);
    add_for(making, counter, 10);
    add_time(making, 9999);
    add_next(making, counter);
    add_time(making, chance_between(making->chance, 9, 11));
}

/* ---- parts that stop it */

/* A For finds its counter busy: by a For above, with another between them that is passed over; by itself, a turn before; by one below. */
static void add_busy(struct making *making)
{
    struct chance *chance = making->chance;
    unsigned a = any_counter(making), b = other_counter(a);
    switch (chance_below(chance, 4)) {
    case 0:
        add_for(making, a, any_count(making));
        break;
    case 1:
        add_for(making, a, any_count(making));
        add_for(making, b, 0);
        add_for(making, a, any_count(making));
        add_next(making, b);
        break;
    case 2:
        add_for(making, b, chance_between(chance, 2, 9));
        break;
    default:
        add_for(making, b, chance_between(chance, 2, 9));
        add_for(making, a, 1);
        maybe_add_state(making);
        add_next(making, a);
        break;
    }
    maybe_add_state(making);
    add_for(making, a, chance_below(chance, 4));
    maybe_add_state(making);
    add_next(making, b);
    add_next(making, a);
}

/* A Next of a counter that is free: after its loop, where its For is passed over, or of a counter that is not used above. */
static void add_stray(struct making *making)
{
    unsigned a = any_counter(making), b = other_counter(a);
    switch (chance_below(making->chance, 3)) {
    case 0:
        add_for(making, a, any_count(making));
        add_state(making);
        add_next(making, a);
        break;
    case 1:
        add_for(making, b, 0);
        add_for(making, a, any_count(making));
        add_next(making, b);
        break;
    default:
        a = 4;
        break;
    }
    maybe_add_state(making);
    add_next(making, a);
}

/* 396 to 404 For and Next lines or about as many, and behind them what is due then. */
static void add_edge(struct making *making)
{
    struct chance *chance = making->chance;
    maybe_add_state(making);
    add_stateless(making, any_counter(making), chance_between(chance, 396, 404));
    if (chance_one_in(chance, 2)) line_any(more(making), chance);
    if (chance_one_in(chance, 4)) line_bad(more(making), chance);
}

static void add_stop(struct making *making)
{
    struct chance *chance = making->chance;
    switch (chance_below(chance, 12)) {
    case 0:
    case 1:
        add_busy(making);
        break;
    case 2:
    case 3:
        add_stray(making);
        break;
    case 4:
    case 5:
        add_edge(making);
        break;
    case 6:
        line_bad(more(making), chance);
        break;
    case 7:
    case 8:
        add_for(making, any_counter(making), chance_below(chance, 4)); /* perhaps with a Next below */
        break;
    case 9:
        add_time(making, 0);
        break;
    default: /* it goes on into what follows */
        break;
    }
}

/* ---- whole programs */

/* What stands below, down to line 199. */
static void add_rest(struct making *making)
{
    struct chance *chance = making->chance;
    unsigned sort = chance_below(chance, 8);
    making->nest->end = making->at < NEST_LINES ? making->at : LAST;
    while (making->at < NEST_LINES) {
        uint8_t *line = more(making);
        if (sort == 0)
            memset(line, 0, LINE_BYTES);
        else if (sort == 1)
            line_any(line, chance);
        else if (sort == 2)
            line_state(line, 0, chance_between(chance, 1, making->time_most));
        else if (sort == 3)
            line_next(line, chance_between(chance, 1, 4));
        else
            line_state(line, 0, 0);
    }
}

/* The lines that were made come to the bottom, and what stood below them comes above. Answers the line of the first. */
static unsigned move_down(struct nest *nest)
{
    uint8_t lines[NEST_BYTES];
    unsigned first = NEST_LINES - nest->end;
    memcpy(lines, nest->bytes, NEST_BYTES);
    memcpy(nest_line(nest, first), lines, nest->end * LINE_BYTES);
    memcpy(nest->bytes, lines + nest->end * LINE_BYTES, first * LINE_BYTES);
    nest->end = LAST;
    return first;
}

enum { PACES = 12 }; /* the most that a time and a count can be: few ticks, many, and so many that the limit is met first */

/* Parts one behind the other. Answers the line of the first. */
static unsigned make_parts(struct nest *nest, struct chance *chance)
{
    static const unsigned mosts[PACES][2] = {{1, 2},  {1, 4},   {3, 3},    {3, 3},    {3, 20},     {20, 3},
                                             {20, 20}, {300, 3}, {300, 20}, {9999, 3}, {9999, 300}, {2, 9999}};
    const unsigned *most = mosts[chance_one_in(chance, 40) ? PACES - 1 : chance_below(chance, PACES - 1)]; /* the last runs many lines */
    struct making making = {.nest = nest, .chance = chance, .time_most = most[0], .count_most = most[1]};
    making.counters = chance_between(chance, 2, 4);
    unsigned parts = chance_one_in(chance, 12) ? 0 : chance_between(chance, 1, 7);
    if (chance_one_in(chance, 16)) add_edge(&making);
    if (parts == 0) add_most(&making);
    for (; parts > 0 && has_room(&making); parts--) add_part(&making);
    add_stop(&making);
    add_rest(&making);
    nest->length = NEST_BYTES;
    return nest->end > 0 && chance_one_in(chance, 5) ? move_down(nest) : 0;
}

static void make_noise(struct nest *nest, struct chance *chance)
{
    bool lines = !chance_one_in(chance, 4);
    nest->length = NEST_BYTES;
    nest->end = LAST;
    for (unsigned i = 0; i < NEST_LINES; i++)
        if (lines)
            line_any(nest_line(nest, i), chance);
        else
            for (unsigned k = 0; k < LINE_BYTES; k++) nest_line(nest, i)[k] = (uint8_t)chance_next(chance);
}

unsigned stops_make(struct nest *nest, struct chance *chance)
{
    unsigned luck = chance_below(chance, 20), first = 0;
    if (luck < 14)
        first = make_parts(nest, chance);
    else if (luck < 16)
        nest_make_small(nest, chance);
    else if (luck < 17)
        nest_make(nest, chance);
    else if (luck < 18)
        nest_make_big(nest, chance);
    else if (luck < 19)
        nest_make_soup(nest, chance);
    else
        make_noise(nest, chance);
    memcpy(nest->bytes + NEST_BYTES, nest->bytes, NEST_BYTES);
    for (unsigned n = chance_one_in(chance, 3) ? chance_between(chance, 1, 3) : 0; n > 0; n--) nest_spoil(nest, chance);
    return first;
}
