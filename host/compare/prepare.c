#include "prepare.h"

#include "line.h"

struct step prepare_step(enum kind kind, uint8_t value, uint32_t log)
{
    uint32_t other = kind == EMPTY ? log : 16;
    struct lengths lent = {.program = 1600, .saved = 1600, .log = log, .other = other};
    return (struct step){.kind = (uint8_t)kind, .value = value, .lent = lent};
}

struct said prepare_say(struct both *both, int which, uint32_t log, const char *text)
{
    struct step step = prepare_step(BYTE, 0, log);
    while (*text != 0) {
        step.value = (uint8_t)*text++;
        both_call(both, which, &step);
    }
    step.value = 13;
    return both_call(both, which, &step);
}

/* A Bad line is the Next that a loop of none of the dearest tick looks for, but for its last byte: a search has to look at all of it. */
static void fill(uint8_t *program, unsigned from, unsigned to, char between)
{
    for (unsigned i = from; i < to; i++) {
        uint8_t *line = program + 8 * i;
        if (between == 'S')
            line_state(line, i, 1);
        else if (between == 'F')
            line_for(line, i % 4 + 1, i);
        else
            line_next(line, between == 'B' ? 2 : 1);
        if (between == 'B') line[7] = 1;
    }
}

/* A loop of none whose Next is line 198, in a loop whose Next is line 199: of two lines run one looks far, 200 times in the 400
 * lines of a call, at 39,398 lines over States. No program looks much farther: but for the first For of each counter, lines are looked
 * at again only after a Next, which goes back over what a loop of none passed or frees the counter that a For took; and none of the
 * 200 pairs of lines looks at more than 198. The State line of 000 stands for one tick. */
void prepare_dearest(uint8_t *program, char between)
{
    line_state(program, 1, 1);
    line_for(program + 8 * 1, 1, 9999);
    line_for(program + 8 * 2, 2, 0);
    fill(program, 3, 198, between);
    line_next(program + 8 * 198, 2);
    line_next(program + 8 * 199, 1);
}

/* The dearest without a loop of none. A For looks for its Next down to line 197 and beyond; but a counter must be freed before its
 * next For, and there are four. So the Nexts that free the counters 2, 3 and 4 stand above their Fors, and counter 1 leads back to
 * them: of seven lines run three look far, which makes 171 searches in the 400 lines of a call. */
void prepare_far(uint8_t *program, char between)
{
    unsigned i = 0;
    line_state(program + 8 * i++, 1, 1);
    for (unsigned c = 2; c <= 4; c++) line_for(program + 8 * i++, c, 1);
    line_for(program + 8 * i++, 1, 9999);
    for (unsigned c = 2; c <= 4; c++) line_next(program + 8 * i++, c);
    for (unsigned c = 2; c <= 4; c++) line_for(program + 8 * i++, c, 1);
    line_next(program + 8 * i++, 1);
    fill(program, i, 197, between);
    for (unsigned c = 2; c <= 4; c++) line_next(program + 8 * (195 + c), c);
}
