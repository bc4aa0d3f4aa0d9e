/*
 * durations.c: how long a program takes (02, "How long will it take?"; lines are those of 01, "Variables", Bad ones those of 02, item 4,
 * and a loop of none is item 2's).
 *
 * The lines are read once, down to the first State with time 0, the end. Where no two loops cross and none starts inside another of its
 * counter, the loops that are open at a line are four at most, and the next Next of any of their counters is that of the one opened last.
 * So each Next is held against that one alone, and the first that does not fit is a refusal, whatever follows: its loop crosses that
 * one, or that one has no Next, or the Next has no For.
 */
#include "durations.h"

#include "internal.h"

enum { /* refusals of a duration, besides that of the length; 043 stands in the header */
    REFUSED_BAD_LINE = 14,
    REFUSED_LOOPS = 40,
    REFUSED_END_IN_LOOP = 41,
    REFUSED_NO_END = 42,
    REFUSED_LOOP_OF_NO_TICKS = 44
};

enum { HEAD_STATE = 0x5300, HEAD_FOR = 0x4601, HEAD_NEXT = 0x4E01 }; /* the first two bytes; of For and Next those of counter 1 */

struct open_loop {
    unsigned counter; /* 0-3 for counters 1-4 */
    unsigned count;
    uint64_t before; /* ticks of the run of lines that the For stands in, up to it */
};

struct walk {
    uint64_t ticks;               /* of the run of lines since the last For that is open, or since line 000 */
    unsigned depth;               /* loops that are open */
    unsigned taken;               /* their counters, a bit each */
    bool empty_loop;              /* 044 is due */
    bool bad_line;                /* 014 is due */
    struct open_loop open[COUNTERS];
};

static struct duration refused(uint8_t refusal)
{
    return (struct duration){refusal, 0};
}

/* ---- the eight bytes of a line as one number, high byte first */

static uint64_t read_word(const uint8_t *program, unsigned line)
{
    const uint8_t *bytes = program + line * LINE_BYTES;

    return (uint64_t)four_bytes(bytes) << 32 | four_bytes(bytes + 4);
}

static bool is_end(uint64_t word)
{
    return word >> 48 == HEAD_STATE && (word & 0xFFFF) == 0;
}

/* The counter of a For or of a Next, 0-3; any other number says that it is none. */
static unsigned counter_after(uint64_t word, unsigned head)
{
    return (unsigned)(word >> 48) - head;
}

static bool is_next(uint64_t word)
{
    return counter_after(word, HEAD_NEXT) < COUNTERS && word << 16 == 0;
}

static bool is_for(uint64_t word)
{
    return counter_after(word, HEAD_FOR) < COUNTERS && (word >> 32 & 0xFFFF) <= NUMBER_MOST && word << 32 == 0;
}

/* ---- loops. Each function answers false where 040 is due. */

static bool enter_loop(struct walk *walk, unsigned counter, unsigned count)
{
    if (walk->taken >> counter & 1)
        return false; /* it starts inside another of its counter */
    walk->taken |= 1u << counter;
    walk->open[walk->depth++] = (struct open_loop){counter, count, walk->ticks};
    walk->ticks = 0;
    return true;
}

/* Takes the loop that was opened last from the open ones, if this Next is its own. */
static bool leave_loop(struct walk *walk, unsigned counter)
{
#if DAMAGE == 34
    if ((walk->taken >> counter & 1) == 0)
        return false;
    counter = walk->open[walk->depth - 1].counter;
#endif
    if (walk->depth == 0 || walk->open[walk->depth - 1].counter != counter)
        return false;
    walk->depth--;
    walk->taken &= ~(1u << counter);
    return true;
}

/* A number above the most stays the least above it: more is not told, and a loop of none around it makes 0 of it. */
static bool close_loop(struct walk *walk, unsigned counter)
{
    const struct open_loop *loop;
    unsigned count;

    if (!leave_loop(walk, counter))
        return false;
    loop = &walk->open[walk->depth];
    count = loop->count;
    walk->empty_loop |= count > 0 && walk->ticks == 0;
#if DAMAGE == 33
    count += count == 0;
#endif
    walk->ticks = loop->before + count * walk->ticks;
    if (walk->ticks > DURATION_MOST)
        walk->ticks = DURATION_MOST + 1;
    return true;
}

/* Takes a line before the end. A Bad one takes no ticks where the body of a loop is summed. */
static bool take_line(struct walk *walk, uint64_t word)
{
    if (word >> 48 == HEAD_STATE && (word & 0xFFFF) <= NUMBER_MOST)
        walk->ticks += word & 0xFFFF;
    else if (is_next(word))
        return close_loop(walk, counter_after(word, HEAD_NEXT));
    else if (is_for(word))
        return enter_loop(walk, counter_after(word, HEAD_FOR), word >> 32 & 0xFFFF);
    else
        walk->bad_line = true;
    return true;
}

/* ---- the end */

static bool end_follows(const uint8_t *program, unsigned line)
{
    for (; line < LINES; line++)
        if (is_end(read_word(program, line)))
            return true;
    return false;
}

/*
 * Do the Nexts of the loops that are open at the end stand behind it, that of the last opened first? A second Next of such a counter and
 * one of any other are nothing to these loops.
 */
static bool close_behind(struct walk *walk, const uint8_t *program, unsigned line)
{
    for (; walk->depth > 0 && line < LINES; line++) {
        const uint64_t word = read_word(program, line);
        const unsigned counter = counter_after(word, HEAD_NEXT);

        if (is_next(word) && walk->taken >> counter & 1 && !leave_loop(walk, counter))
            return false;
    }
    return walk->depth == 0;
}

static struct duration at_end(struct walk *walk, const uint8_t *program, unsigned end)
{
    if (walk->depth > 0)
        return refused(close_behind(walk, program, end + 1) ? REFUSED_END_IN_LOOP : REFUSED_LOOPS);
    if (walk->empty_loop)
        return refused(REFUSED_LOOP_OF_NO_TICKS);
    if (walk->bad_line)
        return refused(REFUSED_BAD_LINE);
    if (walk->ticks > DURATION_MOST)
        return refused(DURATION_TOO_LONG);
    return (struct duration){0, walk->ticks};
}

struct duration program_duration(const uint8_t *program, size_t length)
{
    struct walk walk = {.depth = 0};

    if (length != PROGRAM_BYTES)
        return refused(REFUSED_PROGRAM);
    for (unsigned line = 0; line < LINES; line++) {
        const uint64_t word = read_word(program, line);

        if (is_end(word))
            return at_end(&walk, program, line);
        if (!take_line(&walk, word)) /* 042 stands before 040, and without an end no loop is one before it */
            return refused(end_follows(program, line + 1) ? REFUSED_LOOPS : REFUSED_NO_END);
    }
    return refused(REFUSED_NO_END);
}
