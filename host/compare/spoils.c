#include "nests.h"

#include <string.h>

enum { STATE = 0x53, FOR = 0x46, NEXT = 0x4E };

/* ---- looking at a program */

static bool is_end(const uint8_t *line)
{
    return line[0] == STATE && line[1] == 0 && line[6] == 0 && line[7] == 0;
}

/* A line before the end that begins with this byte, each as likely as another; NEST_LINES where there is none. */
static unsigned pick(struct nest *nest, struct chance *chance, uint8_t first)
{
    unsigned picked = NEST_LINES, met = 0;
    for (unsigned i = 0; i < nest->end; i++)
        if (nest_line(nest, i)[0] == first && chance_one_in(chance, ++met)) picked = i;
    return picked;
}

/* The line of the Next with which a For pairs, or NEST_LINES. */
static unsigned partner(struct nest *nest, unsigned line)
{
    uint8_t next[LINE_BYTES];
    line_next(next, nest_line(nest, line)[1]);
    do
        line++;
    while (line < NEST_LINES && memcmp(nest_line(nest, line), next, LINE_BYTES) != 0);
    return line;
}

/* A counter whose loops are all closed at this line, or 0. */
static unsigned free_counter(struct nest *nest, unsigned line)
{
    bool taken[256] = {false};
    for (unsigned i = 0; i < line; i++) {
        const uint8_t *above = nest_line(nest, i);
        if (above[0] != STATE) taken[above[1]] = above[0] == FOR;
    }
    for (unsigned counter = 1; counter <= 4; counter++)
        if (!taken[counter]) return counter;
    return 0;
}

static void put_state(uint8_t *line, struct chance *chance)
{
    line_state(line, line_outputs(chance), chance_between(chance, 1, 20));
}

static void put_end(uint8_t *line, struct chance *chance)
{
    line_state(line, line_outputs(chance), 0);
}

/* ---- 030 and 042 */

static void spoil_length(struct nest *nest, struct chance *chance)
{
    static const unsigned usual[] = {0, 1, 8, 1592, 1599, 1601, 1608, 3200};
    do
        nest->length = chance_one_in(chance, 2) ? usual[chance_below(chance, 8)] : chance_below(chance, NEST_ROOM);
    while (nest->length == NEST_BYTES);
}

/* In the place of each end another line, or eight bytes that are nearly an end. */
static void spoil_ends(struct nest *nest, struct chance *chance)
{
    for (unsigned i = 0; i < NEST_LINES; i++) {
        uint8_t *line = nest_line(nest, i);
        if (!is_end(line)) continue;
        switch (chance_below(chance, 4)) {
        case 0:
            line[1] = (uint8_t)chance_between(chance, 1, 255);
            break;
        case 1: /* a time of 256 or more, whose low byte is 0; from 10,000 on the line is Bad */
            line[6] = (uint8_t)chance_between(chance, 1, 255);
            break;
        case 2:
            line_bad(line, chance);
            break;
        default:
            put_state(line, chance);
            break;
        }
    }
}

/* ---- 040 and 041 */

static void swap_lines(struct nest *nest, unsigned a, unsigned b)
{
    uint8_t line[LINE_BYTES];
    if (a == NEST_LINES || b == NEST_LINES) return;
    memcpy(line, nest_line(nest, a), LINE_BYTES);
    memmove(nest_line(nest, a), nest_line(nest, b), LINE_BYTES);
    memcpy(nest_line(nest, b), line, LINE_BYTES);
}

/* Something is done to one For or one Next, or to two. */
static void spoil_pair(struct nest *nest, struct chance *chance)
{
    uint8_t first = chance_one_in(chance, 2) ? FOR : NEXT;
    unsigned line = pick(nest, chance, first), other = pick(nest, chance, chance_one_in(chance, 2) ? first : STATE);
    if (line == NEST_LINES) return;
    switch (chance_below(chance, 4)) {
    case 0:
        put_state(nest_line(nest, line), chance);
        break;
    case 1:
        nest_line(nest, line)[1] = (uint8_t)chance_between(chance, 1, 4);
        break;
    case 2:
        if (other != NEST_LINES) memcpy(nest_line(nest, other), nest_line(nest, line), LINE_BYTES);
        break;
    default:
        swap_lines(nest, line, other);
        break;
    }
}

/* An end between a For and its Next, or anywhere above the end. */
static void spoil_by_end(struct nest *nest, struct chance *chance)
{
    unsigned line = pick(nest, chance, FOR), last;
    if (line == NEST_LINES || chance_one_in(chance, 6)) {
        if (nest->end > 0) put_end(nest_line(nest, chance_below(chance, nest->end)), chance);
        return;
    }
    last = partner(nest, line);
    if (last > line + 1) put_end(nest_line(nest, chance_between(chance, line + 1, last - 1)), chance);
}

/* The counters 1 to 4 in any order. */
static void shuffle(uint8_t counters[4], struct chance *chance)
{
    for (unsigned i = 0; i < 4; i++) {
        unsigned at = chance_below(chance, i + 1);
        counters[i] = counters[at];
        counters[at] = (uint8_t)(i + 1);
    }
}

/* Loops that are open at the end. Their Nexts stand behind it with States between them, in the order that nests them or in any; below
 * them stands what stood there, another Next of these counters perhaps. */
static void spoil_across(struct nest *nest, struct chance *chance)
{
    uint8_t counters[4], order[4];
    unsigned depth = chance_between(chance, 1, 4), line = nest->end;
    if (depth > nest->end || nest->end + depth >= NEST_LINES) return;
    shuffle(counters, chance);
    memcpy(order, counters, 4);
    for (unsigned i = 0; i < depth; i++) line_for(nest_line(nest, nest->end - depth + i), counters[i], chance_below(chance, 5));
    if (chance_one_in(chance, 3)) shuffle(order, chance);
    for (unsigned i = 0; i < depth; i++) {
        unsigned left = NEST_LINES - line - (depth - i);
        for (unsigned skip = chance_below(chance, left < 30 ? left : 30); skip > 0; skip--) put_state(nest_line(nest, ++line), chance);
        line_next(nest_line(nest, ++line), order[depth - 1 - i]);
    }
    if (chance_one_in(chance, 4)) /* one goes, or more: its loop has a Next further down, or none */
        for (unsigned i = nest->end + 1; i <= line; i++)
            if (nest_line(nest, i)[0] == NEXT && chance_one_in(chance, depth)) put_state(nest_line(nest, i), chance);
}

/* ---- 044 and 014 */

/* Every State inside a loop becomes Bad. */
static void blank_body(struct nest *nest, struct chance *chance, unsigned line)
{
    unsigned last = partner(nest, line);
    for (line++; line < last; line++)
        if (nest_line(nest, line)[0] == STATE) line_bad(nest_line(nest, line), chance);
}

/* A loop without a State, one that had a count of 0, or one of which every State is Bad. */
static void spoil_body(struct nest *nest, struct chance *chance)
{
    unsigned line, counter, count = chance_one_in(chance, 4) ? chance_below(chance, 10000) : chance_below(chance, 4);
    if (chance_one_in(chance, 2)) {
        line = pick(nest, chance, FOR);
        if (line == NEST_LINES) return;
        line_for(nest_line(nest, line), nest_line(nest, line)[1], count);
        if (chance_one_in(chance, 2)) blank_body(nest, chance, line);
        return;
    }
    line = pick(nest, chance, STATE);
    if (line + 1 >= nest->end || nest_line(nest, line + 1)[0] != STATE) return;
    counter = free_counter(nest, line);
    if (counter == 0) return;
    line_for(nest_line(nest, line), counter, count);
    line_next(nest_line(nest, line + 1), counter);
}

static void spoil_line(struct nest *nest, struct chance *chance)
{
    unsigned line = pick(nest, chance, STATE);
    if (line == NEST_LINES || chance_one_in(chance, 6)) line = chance_below(chance, NEST_LINES);
    if (chance_one_in(chance, 8))
        line_any(nest_line(nest, line), chance);
    else if (chance_one_in(chance, 6)) /* nearly an end */
        line_state(nest_line(nest, line), 0, chance_one_in(chance, 2) ? 10000 : 65280);
    else
        line_bad(nest_line(nest, line), chance);
}

void nest_spoil(struct nest *nest, struct chance *chance)
{
    switch (chance_below(chance, 20)) {
    case 0:
        spoil_length(nest, chance);
        break;
    case 1:
    case 2:
        spoil_ends(nest, chance);
        break;
    case 3:
    case 4:
    case 5:
    case 6:
        spoil_pair(nest, chance);
        break;
    case 7:
    case 8:
    case 9:
        spoil_by_end(nest, chance);
        break;
    case 10:
    case 11:
    case 12:
        spoil_across(nest, chance);
        break;
    case 13:
    case 14:
    case 15:
    case 16:
        spoil_body(nest, chance);
        break;
    default:
        spoil_line(nest, chance);
        break;
    }
}

void nest_make_soup(struct nest *nest, struct chance *chance)
{
    unsigned lines = chance_between(chance, 1, 12);
    nest->length = NEST_BYTES;
    nest->end = lines;
    for (unsigned i = 0; i < NEST_LINES; i++) {
        uint8_t *line = nest_line(nest, i);
        if (i >= lines)
            put_end(line, chance);
        else if (chance_one_in(chance, 12))
            line_damaged(line, chance);
        else
            line_any(line, chance);
    }
    if (chance_one_in(chance, 8)) spoil_ends(nest, chance);
}
