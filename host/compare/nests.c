#include "nests.h"

#include "durations.h"

#include <stdio.h>
#include <string.h>

static const uint64_t most = DURATION_MOST;

/* What sort of program it becomes. */
struct knobs {
    unsigned loops;      /* of lines that can be a For one in so many is */
    unsigned nones;      /* of loops one in so many is a loop of none */
    unsigned time_most;  /* of a State */
    unsigned count_most; /* of a For */
};

struct making {
    struct nest *nest;
    struct chance *chance;
    struct knobs knobs;
    unsigned at; /* the line that is made next */
};

static uint8_t *more(struct making *making)
{
    return nest_line(making->nest, making->at++);
}

/* Numbers at which a byte is full, and the least and the most, are as frequent as all others together. */
static unsigned any_number(struct chance *chance, unsigned number_most)
{
    static const unsigned few[] = {1, 2, 255, 256, 257, 9998, 9999};
    unsigned number = few[chance_below(chance, 7)];
    if (chance_one_in(chance, 2) && number <= number_most) return number;
    return chance_between(chance, 1, number_most);
}

static void add_state(struct making *making, unsigned time)
{
    line_state(more(making), line_outputs(making->chance), time);
}

/* One of the counters whose bits are set, 1-4. */
static unsigned any_counter(struct chance *chance, unsigned counters)
{
    unsigned counter;
    do
        counter = chance_between(chance, 1, 4);
    while ((counters >> counter & 1) == 0);
    return counter;
}

/* ---- runs of lines and loops */

/* So many lines, loops of the counters that are free among them. Answers whether they take ticks. */
static bool add_run(struct making *making, unsigned free, unsigned lines)
{
    struct chance *chance = making->chance;
    bool takes = false;
    while (lines > 0) {
        if (free == 0 || lines < 2 || !chance_one_in(chance, making->knobs.loops)) {
            add_state(making, any_number(chance, making->knobs.time_most));
            takes = true;
            lines--;
            continue;
        }
        unsigned inside = chance_one_in(chance, 4) ? 0 : chance_below(chance, lines - 1);
        if (inside > 12 && !chance_one_in(chance, 4)) inside %= 12;
        unsigned counter = any_counter(chance, free), line = making->at++;
        bool none = !add_run(making, free & ~(1u << counter), inside) || chance_one_in(chance, making->knobs.nones);
        line_for(nest_line(making->nest, line), counter, none ? 0 : any_number(chance, making->knobs.count_most));
        line_next(more(making), counter);
        takes = takes || !none;
        lines -= inside + 2;
    }
    return takes;
}

enum { ALL = 30, ROOM = 160 }; /* the bits of counters 1 to 4; from this line on there is room for two towers, what is left and an end */

/* What stands behind the end is of no account, but for the Nexts of loops that are open there. */
static void add_rest(struct making *making)
{
    struct chance *chance = making->chance;
    unsigned sort = chance_below(chance, 5);
    making->nest->end = making->at;
    line_state(more(making), line_outputs(chance), 0);
    while (making->at < NEST_LINES) {
        uint8_t *line = more(making);
        if (sort == 0)
            line_state(line, 0, 0);
        else if (sort == 1)
            memset(line, 0, LINE_BYTES);
        else if (sort == 2)
            line_next(line, chance_between(chance, 1, 4));
        else if (sort == 3 && chance_one_in(chance, 4))
            line_bad(line, chance);
        else
            line_any(line, chance);
    }
    making->nest->length = NEST_BYTES;
    for (unsigned i = NEST_BYTES; i < NEST_ROOM; i++) making->nest->bytes[i] = making->nest->bytes[i - NEST_BYTES];
}

static unsigned any_end(struct chance *chance)
{
    switch (chance_below(chance, 10)) {
    case 0:
        return NEST_LINES - 1;
    case 1:
    case 2:
    case 3:
        return chance_below(chance, 12);
    case 4:
    case 5:
    case 6:
        return chance_below(chance, 60);
    default:
        return chance_below(chance, NEST_LINES);
    }
}

void nest_make(struct nest *nest, struct chance *chance)
{
    static const unsigned mosts[] = {1, 3, 20, 300, 9999};
    struct making making = {.nest = nest, .chance = chance};
    making.knobs.loops = chance_between(chance, 1, 8);
    making.knobs.nones = chance_between(chance, 2, 20);
    making.knobs.time_most = mosts[chance_below(chance, 5)];
    making.knobs.count_most = mosts[chance_below(chance, 5)];
    add_run(&making, ALL, any_end(chance));
    add_rest(&making);
}

/* So many loops of none in a row, with nothing in them. */
static void add_nones(struct making *making, unsigned free, unsigned count)
{
    for (; count > 0; count--) {
        unsigned counter = any_counter(making->chance, free);
        line_for(more(making), counter, 0);
        line_next(more(making), counter);
    }
}

/* Loops around one State, and rows of loops of none above and below each: one call runs many For and Next lines. */
static void add_wide(struct making *making, unsigned free, unsigned depth, unsigned nones)
{
    struct chance *chance = making->chance;
    unsigned above = chance_below(chance, nones + 1), below = chance_below(chance, nones - above + 1);
    add_nones(making, free, above);
    if (depth == 0) {
        add_state(making, chance_between(chance, 1, 3));
    } else {
        unsigned counter = any_counter(chance, free);
        line_for(more(making), counter, chance_between(chance, 1, 4));
        add_wide(making, free & ~(1u << counter), depth - 1, nones - above - below);
        line_next(more(making), counter);
    }
    add_nones(making, free, below);
}

/* Loops of few turns, or many lines that are loops of none for the most part. */
void nest_make_small(struct nest *nest, struct chance *chance)
{
    struct making making = {.nest = nest, .chance = chance, .knobs = {3, 4, 3, 4}};
    if (chance_one_in(chance, 8)) {
        add_wide(&making, ALL, chance_below(chance, 4), chance_below(chance, 96));
    } else if (chance_one_in(chance, 4)) {
        making.knobs = (struct knobs){1, 2, 2, 2};
        add_run(&making, ALL, chance_below(chance, NEST_LINES));
    } else {
        add_run(&making, ALL, chance_below(chance, 60));
    }
    add_rest(&making);
}

/* ---- big numbers */

/* Loops one in the other, of these counts, around one State. */
static void add_tower(struct making *making, unsigned free, const unsigned *counts, unsigned depth, unsigned time)
{
    unsigned counters[4];
    for (unsigned i = 0; i < depth; i++) {
        counters[i] = any_counter(making->chance, free);
        free &= ~(1u << counters[i]);
        line_for(more(making), counters[i], counts[i]);
    }
    add_state(making, time);
    while (depth-- > 0) line_next(more(making), counters[depth]);
}

static uint64_t at_most(uint64_t value, uint64_t limit)
{
    return value < limit ? value : limit;
}

/* A tower that takes no more than the rest. Answers its ticks. */
static uint64_t add_part(struct making *making, uint64_t rest)
{
    struct chance *chance = making->chance;
    unsigned counts[4], depth = chance_below(chance, 5);
    unsigned time = any_number(chance, (unsigned)at_most(rest, 9999));
    uint64_t ticks = time;
    for (unsigned i = 0; i < depth; i++) {
        unsigned limit = (unsigned)at_most(rest / ticks, 9999);
        counts[i] = chance_one_in(chance, 2) ? limit : chance_between(chance, 1, limit);
        ticks *= counts[i];
    }
    add_tower(making, ALL, counts, depth, time);
    return ticks;
}

/* The rest, by whole squares of 9,999, whole 9,999s and what is left: nine lines. */
static void add_exactly(struct making *making, uint64_t rest)
{
    const unsigned square = 9999 * 9999, counts[] = {(unsigned)(rest / square), 9999};
    const unsigned rows = (unsigned)(rest % square / 9999), left = (unsigned)(rest % 9999);
    if (counts[0] > 0) add_tower(making, ALL, counts, 2, 9999);
    if (rows > 0) add_tower(making, ALL, &rows, 1, 9999);
    if (left > 0) add_state(making, left);
}

/* A loop of none around more ticks than are counted. */
static void add_big_none(struct making *making)
{
    static const unsigned counts[] = {9999, 9999, 9999};
    unsigned counter = any_counter(making->chance, ALL);
    line_for(more(making), counter, 0);
    add_tower(making, ALL & ~(1u << counter), counts, 3, 9999);
    line_next(more(making), counter);
}

/* Four deep: 9,999 each, or powers of two, with which a number of 64 bits comes round to 0 or to little more. */
static void add_deepest(struct making *making)
{
    struct chance *chance = making->chance;
    unsigned counts[4], power = chance_one_in(chance, 2) ? 8192 : 9999;
    for (unsigned i = 0; i < 4; i++) counts[i] = chance_one_in(chance, 8) ? any_number(chance, 9999) : power;
    add_tower(making, ALL, counts, 4, power == 8192 ? 1024u << chance_below(chance, 4) : any_number(chance, 9999));
}

static uint64_t any_sum(struct chance *chance)
{
    static const uint64_t ends[] = {1ull << 16, 1ull << 31, 1ull << 32, 1ull << 33, 9999 * 9999, 1000000000, 4294967295u};
    switch (chance_below(chance, 4)) {
    case 0:
        return ends[chance_below(chance, 7)] - 1 + chance_below(chance, 3);
    case 1:
        return chance_next(chance) % (2 * most);
    default:
        return most - 1 + chance_below(chance, 3);
    }
}

void nest_make_big(struct nest *nest, struct chance *chance)
{
    struct making making = {.nest = nest, .chance = chance};
    uint64_t rest = any_sum(chance);
    if (chance_one_in(chance, 5)) {
        add_deepest(&making);
        rest = chance_below(chance, 2) * rest;
    }
    for (unsigned parts = chance_below(chance, 12); parts > 0 && rest > 0 && making.at < ROOM; parts--) {
        if (chance_one_in(chance, 8)) add_big_none(&making);
        rest -= add_part(&making, rest);
    }
    add_exactly(&making, rest);
    add_rest(&making);
}

/* ---- printing */

static void print_line(const uint8_t line[LINE_BYTES])
{
    char text[LINE_TEXT];
    line_text(text, line);
    if (!line_is_bad(line)) {
        puts(text);
        return;
    }
    printf("Bad");
    for (unsigned i = 0; i < LINE_BYTES; i++) printf(" %02X", line[i]);
    putchar('\n');
}

void nest_print(const struct nest *nest)
{
    unsigned last;
    for (unsigned first = 0; first < NEST_LINES; first = last + 1) {
        const uint8_t *line = nest->bytes + first * LINE_BYTES;
        for (last = first; last + 1 < NEST_LINES; last++)
            if (memcmp(line, nest->bytes + (last + 1) * LINE_BYTES, LINE_BYTES) != 0) break;
        if (last == first)
            printf("  %03u      ", first);
        else
            printf("  %03u-%03u  ", first, last);
        print_line(line);
    }
    if (nest->length != NEST_BYTES) printf("  lent with a length of %zu\n", nest->length);
}
