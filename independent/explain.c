/*
 * explain.c: why a program stops (02, "Explain a stop"). It runs by 01, "Running", with the loops of none of 02, item 2, and the Bad
 * lines of item 4.
 *
 * The run is walked from its start. A line is read when it falls due, and a State that is held is one step, whatever its time: so the
 * cost goes by the lines that are run. Of what was run no more is kept than the counters need.
 */
#include "explain.h"

#include <string.h>

#include "internal.h"

enum { REFUSED_START = 60, REFUSED_LIMIT = 61 };

enum { LIMIT_MOST = 100000 };

struct walk {
    const uint8_t *program;
    uint32_t tick;             /* since the start */
    unsigned line;             /* that falls due; LINES behind the last */
    unsigned time;             /* of the State on this line, once it is set */
    uint8_t held;              /* the State line that was held when this tick came; none in the start */
    uint16_t left[COUNTERS];   /* turns that are left; 0 where the counter is free */
    uint8_t holder[COUNTERS];  /* the line of the For that took it, if it is busy */
#if DAMAGE == 48
    bool was_run[LINES];
#endif
};

/* No event: the program runs on. */
static const struct explained runs_on = {.cause = EXPLAIN_NO_CAUSE};

static struct explained refused(uint8_t refusal)
{
    return (struct explained){.refusal = refusal, .cause = EXPLAIN_NO_CAUSE};
}

static struct explained stops(const struct walk *walk, uint8_t event, unsigned cause)
{
    uint32_t tick = walk->tick;

#if DAMAGE == 50
    tick++;
#endif
    return (struct explained){.tick = tick, .event = event, .line = (uint8_t)walk->line, .cause = (uint8_t)cause};
}

/* ---- lines */

/* State: 53 00 X4 X3 X2 X1 time. For: 46 counter count and four zeros. Next: 4E counter and six zeros. Outputs are nothing to the run. */
static struct line read_line(const uint8_t *program, unsigned at)
{
    const uint8_t *bytes = program + at * LINE_BYTES;
    const unsigned counter = bytes[1] - 1u, count = two_bytes(bytes + 2), time = two_bytes(bytes + 6);

    switch (bytes[0]) {
    case 'S':
        if (bytes[1] == 0 && time <= NUMBER_MOST)
            return (struct line){.kind = LINE_STATE, .number = (uint16_t)time};
        break;
    case 'F':
        if (counter < COUNTERS && count <= NUMBER_MOST && four_bytes(bytes + 4) == 0)
            return (struct line){.kind = LINE_FOR, .counter = (uint8_t)counter, .number = (uint16_t)count};
        break;
    case 'N':
        if (counter < COUNTERS && count == 0 && four_bytes(bytes + 4) == 0)
            return (struct line){.kind = LINE_NEXT, .counter = (uint8_t)counter};
        break;
    default:
        break;
    }
    return (struct line){.kind = LINE_BAD};
}

/*
 * The first Next of this counter on a later line, or LINES. Its eight bytes are fixed, so they are compared as one number, in whatever
 * order this machine has them; all else is passed, a Bad line too. Four lines a turn: a turn of one takes twice the time where it happens
 * to lie across two lines of the processor's cache.
 */
static unsigned next_below(const struct walk *walk, unsigned counter)
{
    const uint8_t bytes[LINE_BYTES] = {'N', (uint8_t)(counter + 1)};
    uint64_t next, word;

    memcpy(&next, bytes, LINE_BYTES);
#pragma clang loop unroll_count(4)
    for (size_t line = walk->line + 1; line < LINES; line++) {
        memcpy(&word, walk->program + line * LINE_BYTES, LINE_BYTES);
        if (word == next)
            return (unsigned)line;
    }
    return LINES;
}

/* The nearest For of this counter on a line above, of any count, run or not; or LINES. */
static unsigned for_above(const struct walk *walk, unsigned counter)
{
    for (unsigned line = walk->line; line-- > 0;) {
        const struct line above = read_line(walk->program, line);

        if (above.kind != LINE_FOR || above.counter != counter)
            continue;
#if DAMAGE == 48
        if (!walk->was_run[line])
            continue;
#endif
        return line;
    }
    return LINES;
}

/* ---- causes */

/* 006. The text does not tell it: the run may have passed over the nearest For above, or have come back from one below. */
static unsigned cause_of_busy(const struct walk *walk, unsigned counter)
{
#if DAMAGE == 47
    return for_above(walk, counter);
#endif
    return walk->holder[counter];
}

/* 013 */
static unsigned cause_of_too_long(const struct walk *walk)
{
#if DAMAGE == 49
    for (unsigned line = walk->line; line-- > 0;)
        if (read_line(walk->program, line).kind == LINE_STATE)
            return line;
    return EXPLAIN_NO_CAUSE;
#endif
    return walk->held;
}

/* ---- running. Each function answers the event that stops the program, or that it runs on. */

static struct explained run_for(struct walk *walk, const struct line *line)
{
    const unsigned counter = line->counter;
    unsigned next;

#if DAMAGE == 48
    walk->was_run[walk->line] = true;
#endif
    if (walk->left[counter] != 0)
        return stops(walk, EVENT_COUNTER_BUSY, cause_of_busy(walk, counter));
    next = next_below(walk, counter);
    if (next == LINES)
        return stops(walk, EVENT_NO_NEXT, counter + 1);
    if (line->number == 0) { /* a loop of none takes no counter */
        walk->line = next + 1;
        return runs_on;
    }
    walk->left[counter] = line->number;
    walk->holder[counter] = (uint8_t)walk->line;
    walk->line++;
    return runs_on;
}

static struct explained run_next(struct walk *walk, const struct line *line)
{
    const unsigned counter = line->counter;

    if (walk->left[counter] == 0)
        return stops(walk, EVENT_NO_FOR, for_above(walk, counter) != LINES);
    walk->left[counter]--;
    walk->line = (walk->left[counter] > 0 ? walk->holder[counter] : walk->line) + 1;
    return runs_on;
}

/* The lines that fall due in one call, the start or a tick, until a State is set that is held. */
static struct explained run_due(struct walk *walk)
{
    struct explained said = runs_on;

    for (unsigned run = 0; said.event == 0; run++) {
        if (walk->line == LINES) {
            walk->line--; /* "line stays 199" */
            return stops(walk, EVENT_PAST_LAST, EXPLAIN_NO_CAUSE);
        }
        const struct line line = read_line(walk->program, walk->line);

        if (line.kind == LINE_STATE) {
            walk->time = line.number;
            return line.number == 0 ? stops(walk, EVENT_END, EXPLAIN_NO_CAUSE) : runs_on;
        }
        if (line.kind == LINE_BAD) /* due after 400 lines it is no 401st: those are For and Next lines alone */
            return stops(walk, EVENT_BAD_LINE, EXPLAIN_NO_CAUSE);
        if (run == RUN_MOST)
            return stops(walk, EVENT_TOO_LONG, cause_of_too_long(walk));
        said = line.kind == LINE_FOR ? run_for(walk, &line) : run_next(walk, &line);
    }
    return said;
}

struct explained explain_stop(const uint8_t *program, size_t length, uint64_t start, uint64_t limit)
{
    struct walk walk = {.program = program, .held = EXPLAIN_NO_CAUSE};

    if (length != PROGRAM_BYTES)
        return refused(REFUSED_PROGRAM);
    if (start >= LINES)
        return refused(REFUSED_START);
    if (limit > LIMIT_MOST)
        return refused(REFUSED_LIMIT);
    walk.line = (unsigned)start;
    for (;;) {
        const struct explained said = run_due(&walk);

#if DAMAGE == 51
        if (walk.tick == limit)
            return runs_on;
#endif
        if (said.event != 0 || walk.time > limit - walk.tick) /* what falls due behind the limit is not looked at */
            return said;
        walk.tick += walk.time;
        walk.held = (uint8_t)walk.line;
        walk.line++;
    }
}
