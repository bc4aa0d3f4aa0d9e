#include "maker.h"

#include <string.h>

enum { LAST = 199, UNDAMAGED = 200 };

struct program {
    uint8_t line[200][LINE_BYTES];
    unsigned count;
};

static uint8_t *more(struct program *program)
{
    return program->line[program->count < 200 ? program->count++ : LAST];
}

static void add_state(struct program *program, struct chance *chance, unsigned time)
{
    line_state(more(program), line_outputs(chance), time);
}

static void add_for(struct program *program, unsigned counter, unsigned count)
{
    line_for(more(program), counter, count);
}

static void add_next(struct program *program, unsigned counter)
{
    line_next(more(program), counter);
}

static void add_bad(struct program *program, struct chance *chance)
{
    line_bad(more(program), chance);
}

/* Puts a Bad line before the first line, behind the last or between two. Where there is no room for one more the last goes. */
static void insert_bad(struct program *program, struct chance *chance)
{
    if (program->count < 200) program->count++;
    unsigned last = program->count - 1, at = chance_below(chance, program->count);
    if (chance_one_in(chance, 4)) at = last;
    memmove(program->line + at + 1, program->line + at, (size_t)(last - at) * LINE_BYTES);
    line_bad(program->line[at], chance);
}

/* Loops one inside the other, of the counters from `counter` on. */
static void add_nested(struct program *program, struct chance *chance, unsigned counter)
{
    for (unsigned n = chance_between(chance, 1, 3); n > 0 && program->count < 100; n--) {
        if (counter <= 4 && !chance_one_in(chance, 3)) {
            add_for(program, counter, chance_below(chance, 5));
            add_nested(program, chance, counter + 1);
            add_next(program, counter);
        } else {
            add_state(program, chance, chance_between(chance, 1, 3));
        }
    }
}

/* Lines in no order: busy counters, missing partners. */
static void add_soup(struct program *program, struct chance *chance)
{
    for (unsigned n = chance_between(chance, 1, 12); n > 0; n--) {
        if (chance_one_in(chance, 12))
            line_damaged(more(program), chance);
        else
            line_any(more(program), chance);
    }
}

/* A loop of none of this counter, perhaps with lines of any kind in it: those of other loops among them, and Bad ones. */
static void add_none(struct program *program, struct chance *chance, unsigned counter, unsigned inside)
{
    add_for(program, counter, 0);
    while (inside-- > 0) {
        if (chance_one_in(chance, 4))
            add_bad(program, chance);
        else
            line_any(more(program), chance);
    }
    add_next(program, counter);
}

/* What is due after about 400 lines: `a` is free by then, `b` perhaps not. */
static void add_behind_400(struct program *program, struct chance *chance, unsigned a, unsigned b)
{
    switch (chance_below(chance, 9)) {
    case 0:
        add_for(program, b, chance_one_in(chance, 2) ? 2 : 0); /* perhaps with no Next below */
        break;
    case 1:
        add_next(program, a);
        break;
    case 2: /* a loop of one line more, or a For that stands twice */
        add_for(program, b, 1);
        if (chance_one_in(chance, 2)) add_for(program, b, 1);
        add_next(program, b);
        break;
    case 3: /* nothing: perhaps the end of the program area */
        break;
    case 4:
        add_none(program, chance, b, chance_below(chance, 2));
        break;
    case 5:
    case 6:
        add_bad(program, chance);
        break;
    default:
        add_state(program, chance, chance_below(chance, 3));
        break;
    }
}

/* Loops without a State line, of about 400 lines in one call. */
static void add_long_loops(struct program *program, struct chance *chance)
{
    if (chance_one_in(chance, 2)) add_state(program, chance, chance_between(chance, 1, 2));
    unsigned a = chance_between(chance, 1, 4), b = a % 4 + 1;
    if (chance_one_in(chance, 8)) add_for(program, b, 1); /* what follows then finds its counter busy, or no Next of it stands below */
    if (chance_one_in(chance, 2)) {
        add_for(program, a, chance_one_in(chance, 2) ? 399 : chance_between(chance, 396, 401)); /* 399 makes 400 lines */
        add_next(program, a);
    } else { /* the outer For, and each time round a For, `inner` Nexts and the outer Next */
        unsigned outer = chance_between(chance, 2, 40);
        unsigned inner = 400 / outer - 2 + chance_below(chance, 2);
        add_for(program, a, outer);
        add_for(program, b, inner);
        add_next(program, b);
        add_next(program, a);
    }
    add_behind_400(program, chance, a, b);
}

/* Loops of none in a loop, and nothing else: about 400 lines in one call. */
static void add_many_nones(struct program *program, struct chance *chance, unsigned counter)
{
    unsigned inside = chance_between(chance, 1, 5);
    add_for(program, counter, 400 / (inside + 1) + chance_below(chance, 2));
    for (unsigned n = 0; n < inside; n++) add_none(program, chance, counter % 4 + 1, 0);
    add_next(program, counter);
}

/* Loops of none: in a row, in a loop (perhaps of their own counter, which is busy then), across another loop, without a Next. */
static void add_nones(struct program *program, struct chance *chance)
{
    unsigned a = chance_between(chance, 1, 4), b = a % 4 + 1;
    if (chance_one_in(chance, 2)) add_state(program, chance, chance_between(chance, 1, 2));
    switch (chance_below(chance, 6)) {
    case 0:
        add_many_nones(program, chance, a);
        break;
    case 1:
        add_for(program, a, chance_between(chance, 1, 4));
        if (chance_one_in(chance, 2)) add_state(program, chance, 1);
        add_none(program, chance, chance_one_in(chance, 3) ? a : b, chance_below(chance, 3));
        add_next(program, a);
        break;
    case 2:
        add_for(program, b, chance_between(chance, 1, 4));
        add_for(program, a, 0);
        add_next(program, b);
        add_next(program, a);
        if (chance_one_in(chance, 2)) break; /* the other loop stays open */
        add_state(program, chance, 1);
        add_next(program, b);
        break;
    case 3:
        add_for(program, a, 0);
        break;
    default:
        for (unsigned n = chance_between(chance, 1, 5); n > 0; n--)
            add_none(program, chance, chance_between(chance, 1, 4), chance_below(chance, 3));
        break;
    }
}

/* Each For looks far for its Next: the Nexts that free the counters stand above the Fors. */
static void add_far(struct program *program, struct chance *chance)
{
    add_state(program, chance, 1);
    for (unsigned c = 2; c <= 4; c++) add_for(program, c, 1);
    add_for(program, 1, chance_between(chance, 50, 60));
    for (unsigned c = 2; c <= 4; c++) add_next(program, c);
    for (unsigned c = 2; c <= 4; c++) add_for(program, c, 1);
    add_next(program, 1);
    while (program->count < 197) add_state(program, chance, 1);
    for (unsigned c = 2; c <= 4; c++) add_next(program, c);
}

/* Times and counts of four digits. */
static void add_slow(struct program *program, struct chance *chance)
{
    unsigned counter = chance_between(chance, 1, 4);
    if (chance_one_in(chance, 2)) {
        add_state(program, chance, chance_one_in(chance, 4) ? 9999 : chance_between(chance, 200, 1200));
    } else {
        add_for(program, counter, chance_one_in(chance, 4) ? 9999 : chance_between(chance, 200, 1200));
        add_state(program, chance, 1);
        add_next(program, counter);
    }
    add_state(program, chance, chance_below(chance, 2));
}

/* A Bad line cannot be written: the caller puts it there. Now and then it is tried, where it has a text. */
static void write_program(struct maker *maker, const struct program *program, unsigned at)
{
    char text[LINE_TEXT];
    bool onward = false;
    for (unsigned i = 0; i < program->count; i++) {
        line_text(text, program->line[i]);
        bool written = text[0] != 0 && (!line_is_bad(program->line[i]) || chance_one_in(&maker->chance, 4));
        if (!written)
            alter_line(maker, PROGRAM, at + i, program->line[i]);
        else if (onward && chance_one_in(&maker->chance, 2))
            say(maker, UNDAMAGED, "CWI%s", text);
        else
            say(maker, UNDAMAGED, "CW%03u%s", at + i, text);
        onward = written;
    }
}

/* Through the wire, into the program area by the caller's hand, or by way of the saved copy. */
static void deliver(struct maker *maker, const struct program *program, unsigned at)
{
    struct chance *chance = &maker->chance;
    unsigned way = chance_below(chance, 8);
    if (way < 3 && program->count <= 12) {
        write_program(maker, program, at);
        if (chance_one_in(chance, 6)) say(maker, UNDAMAGED, "CW210008");
        return;
    }
    enum area area = way < 6 ? PROGRAM : SAVED;
    for (unsigned i = 0; i < program->count; i++) alter_line(maker, area, at + i, program->line[i]);
    if (way == 6) make_power_on(maker);
    if (way == 7) say(maker, UNDAMAGED, "CW210007");
}

static void start(struct maker *maker, unsigned at)
{
    struct chance *chance = &maker->chance;
    if (at != 0) {
        say(maker, UNDAMAGED, "CW209%03u", at);
        say(maker, UNDAMAGED, "CW210005");
    } else if (chance_one_in(chance, 3)) {
        make_press(maker, 1);
    } else {
        say(maker, UNDAMAGED, "CW210003");
    }
}

/* What people do to a running box. */
static void meddle(struct maker *maker)
{
    static const char *const specials[] = {"002", "004", "004", "001", "003", "005", "006", "007", "008"};
    struct chance *chance = &maker->chance;
    switch (chance_below(chance, 8)) {
    case 0:
    case 1:
        make_press(maker, 2);
        break;
    case 2:
        if (chance_one_in(chance, 3)) make_press(maker, 1);
        break;
    case 3:
    case 4:
        if (chance_one_in(chance, 4)) say(maker, UNDAMAGED, "CW209%03u", chance_between(chance, 198, 203));
        say(maker, UNDAMAGED, "CW210%s", specials[chance_below(chance, 9)]);
        break;
    case 5: /* locked while a program runs or is paused */
        say(maker, 20, "CW%03u%02X", chance_between(chance, 203, 206), chance_below(chance, 256));
        break;
    case 6:
        if (chance_one_in(chance, 4)) alter_somewhere(maker);
        break;
    default:
        say_any(maker);
        break;
    }
}

void run_on(struct maker *maker)
{
    struct chance *chance = &maker->chance;
    make_ticks(maker, chance_between(chance, 1, chance_one_in(chance, 20) ? 200 : 12));
    if (chance_one_in(chance, 2)) say_read(maker);
    if (chance_one_in(chance, 3)) meddle(maker);
}

static void choose(struct program *program, struct chance *chance)
{
    unsigned luck = chance_below(chance, 200);
    program->count = 0;
    bool nones = luck >= 40 && luck < 80; /* often with a Next as the last line */
    if (nones)
        add_nones(program, chance);
    else if (luck < 40)
        add_nested(program, chance, 1);
    else if (luck < 130)
        add_soup(program, chance);
    else if (luck < 180)
        add_long_loops(program, chance);
    else if (luck < 198)
        while (program->count < 200) line_any(more(program), chance);
    else
        add_far(program, chance);
    if (program->count < 200 && !chance_one_in(chance, nones ? 2 : 3))
        add_state(program, chance, chance_below(chance, 3));
}

void run_recipe(struct maker *maker)
{
    struct chance *chance = &maker->chance;
    struct program program;
    bool slow = chance_one_in(chance, 120);
    choose(&program, chance);
    if (slow) {
        program.count = 0;
        add_slow(&program, chance);
    }
    if (chance_one_in(chance, 4)) insert_bad(&program, chance);
    unsigned most = 200 - program.count, at = 0;
    if (chance_one_in(chance, 4)) at = chance_below(chance, most + 1);
    const uint8_t *last = program.line[program.count - 1];
    bool end_shows = last[0] == 0x4E || line_is_bad(last);
    if (chance_one_in(chance, end_shows ? 2 : 5)) at = most; /* the program ends on line 199 */
    if (!chance_one_in(chance, 4)) say(maker, UNDAMAGED, "CW210001");
    maker->near = at < LAST ? at : LAST;
    deliver(maker, &program, at);
    if (chance_one_in(chance, 8)) at += chance_below(chance, program.count); /* a start inside */
    start(maker, at);
    if (end_shows || chance_one_in(chance, 3)) say(maker, UNDAMAGED, "CR211");
    if (slow) make_ticks(maker, chance_one_in(chance, 4) ? 10100 : 1300);
    run_on(maker);
    if (chance_one_in(chance, 2)) say(maker, UNDAMAGED, "CR212");
}

void run_fill(struct maker *maker)
{
    struct chance *chance = &maker->chance;
    struct program program = {.count = 0};
    add_for(&program, 1, 9999);
    line_state(more(&program), 1, 1);
    line_state(more(&program), 2, 1);
    add_next(&program, 1);
    say(maker, UNDAMAGED, "CW210001");
    deliver(maker, &program, 0);
    start(maker, 0);
    unsigned places = maker->log / NIZHALEPU_LOG_RECORD;
    make_ticks(maker, places > 20 ? places - 20 : 0);
    for (unsigned n = 0; n < 40; n++) {
        make_ticks(maker, 1);
        if (chance_one_in(chance, 8)) say_read(maker);
        if (chance_one_in(chance, 6)) alter_gap(maker); /* also where it stands already, between two losses */
    }
    if (chance_one_in(chance, 2)) make_whole_empty(maker);
}
