#include "maker.h"

#include <string.h>

static const uint32_t wrong_programs[] = {0, 8, 1592, 1599, 1601, 1608, 2000};

static struct lengths usual(struct maker *maker)
{
    uint32_t reply = chance_one_in(&maker->chance, 8) ? chance_between(&maker->chance, 16, REPLY_ROOM) : 16;
    return (struct lengths){.program = 1600, .saved = 1600, .log = maker->log, .other = reply};
}

/* A length that is wrong, or at least another than at power-on; never beyond the room there is. */
static uint32_t wrong_log(struct maker *maker)
{
    struct chance *chance = &maker->chance;
    uint32_t wrong[] = {0, 16, 24, 31, 32, maker->log - 1, maker->log + 1, 65537, 70000, chance_below(chance, maker->room + 1)};
    uint32_t length = wrong[chance_below(chance, sizeof wrong / sizeof *wrong)];
    return length <= maker->room ? length : maker->room;
}

/* A button that there is none of. Most of those named are 1 or 2 in a number of fewer bits. */
static uint32_t wrong_button(struct chance *chance)
{
    static const uint32_t wrong[] = {0, 3, 255, 256, 257, 258, 65537, 65538, 16777217, 16777218, 2147483649, 4294967295};
    if (chance_one_in(chance, 4)) return chance_between(chance, 3, UINT32_MAX);
    return wrong[chance_below(chance, sizeof wrong / sizeof *wrong)];
}

static void make_wrong(struct maker *maker, struct step *step)
{
    struct chance *chance = &maker->chance;
    unsigned which = chance_between(chance, 1, 15); /* more than one can be wrong: then the order of the checks shows */
    if (chance_one_in(chance, 2)) which = 1u << chance_below(chance, 4);
    if (which & 1) step->lent.program = wrong_programs[chance_below(chance, 7)];
    if (which & 2) step->lent.saved = wrong_programs[chance_below(chance, 7)];
    if (which & 4) step->lent.log = wrong_log(maker);
    if (which & 8) {
        if (step->kind == PRESS) step->value = wrong_button(chance);
        if (step->kind == BYTE) step->lent.other = chance_one_in(chance, 2) ? 15 : chance_below(chance, 16);
        if (step->kind == EMPTY) step->lent.other = chance_below(chance, NIZHALEPU_LOG_RECORD + 1);
    }
}

static void make_call(struct maker *maker, enum kind kind, uint32_t value, struct lengths lent)
{
    struct chance *chance = &maker->chance;
    struct step step = {.kind = (uint8_t)kind, .value = value, .lent = lent};
    uint32_t luck = chance_below(chance, 1000);
    if (luck < 4) {
        struct step wrong = step;
        make_wrong(maker, &wrong);
        steps_add(&maker->row, &wrong);
    }
    if (luck == 4) make_wrong(maker, &step);
    steps_add(&maker->row, &step);
}

void make_power_on(struct maker *maker)
{
    static const uint32_t usual_logs[] = {32, 33, 47, 48, 49, 63, 64, 100, 1000, 65536};
    struct chance *chance = &maker->chance;
    if (chance_one_in(chance, 3)) {
        uint32_t log = usual_logs[chance_below(chance, 10)];
        if (log <= maker->room) maker->log = log;
    }
    struct step step = {.kind = POWER_ON, .lent = usual(maker)};
    steps_add(&maker->row, &step);
}

static uint32_t refused_log(struct maker *maker)
{
    static const uint32_t lengths[] = {0, 24, 31, 31, 65537, 65537, 65537, 70000};
    uint32_t length = lengths[chance_below(&maker->chance, 8)];
    return length <= maker->room ? length : 31;
}

/* Every call after it is refused; some are made, and then the power goes on rightly. */
void make_refused_power_on(struct maker *maker)
{
    struct chance *chance = &maker->chance;
    struct step step = {.kind = POWER_ON, .lent = usual(maker)};
    unsigned which = chance_one_in(chance, 2) ? 4 : chance_between(chance, 1, 7);
    if (which & 1) step.lent.program = wrong_programs[chance_below(chance, 7)];
    if (which & 2) step.lent.saved = wrong_programs[chance_below(chance, 7)];
    if (which & 4) step.lent.log = refused_log(maker);
    steps_add(&maker->row, &step);
    for (unsigned n = chance_below(chance, 8); n > 0; n--) {
        static const uint8_t kinds[] = {BYTE, TICK, PRESS, EMPTY};
        step.kind = kinds[chance_below(chance, 4)];
        step.value = step.kind == PRESS ? chance_below(chance, 4) : 13;
        step.lent = usual(maker);
        if (chance_one_in(chance, 4)) make_wrong(maker, &step);
        if (chance_one_in(chance, 4)) step.lent.log = 0;
        steps_add(&maker->row, &step);
    }
    make_power_on(maker);
}

void make_byte(struct maker *maker, uint8_t byte)
{
    make_call(maker, BYTE, byte, usual(maker));
}

void make_ticks(struct maker *maker, unsigned count)
{
    while (count-- > 0) make_call(maker, TICK, 0, usual(maker));
}

void make_press(struct maker *maker, uint32_t button)
{
    if (chance_one_in(&maker->chance, 30)) button = wrong_button(&maker->chance);
    make_call(maker, PRESS, button, usual(maker));
}

void make_empty(struct maker *maker)
{
    struct chance *chance = &maker->chance;
    const struct nizhalepu_log *log = &maker->both->record->log;
    uint32_t held = NIZHALEPU_LOG_RECORD * ((uint32_t)log->kept + (log->lost > 0));
    uint32_t most = (uint32_t)maker->both->room[DESTINATION];
    struct lengths lent = usual(maker);
    switch (chance_below(chance, 8)) {
    case 0:
        lent.other = most;
        break;
    case 1:
        lent.other = held > 0 ? held - 1 : 0;
        break;
    case 2:
        lent.other = chance_below(chance, held + 1);
        break;
    case 3:
        lent.other = chance_between(chance, held, most);
        break;
    default:
        lent.other = held;
        break;
    }
    make_call(maker, EMPTY, 0, lent);
}

void make_whole_empty(struct maker *maker)
{
    struct lengths lent = usual(maker);
    lent.other = (uint32_t)maker->both->room[DESTINATION];
    make_call(maker, EMPTY, 0, lent);
}

static struct step alteration(enum area area, enum way way, uint32_t at, uint32_t count, uint64_t bytes)
{
    struct step step = {.kind = ALTER, .value = (uint32_t)area, .way = (uint8_t)way, .alter = {.at = at, .count = count}};
    memcpy(step.alter.bytes, &bytes, sizeof bytes);
    return step;
}

void alter_whole(struct maker *maker, enum area area, enum way way)
{
    uint32_t count = (uint32_t)maker->both->room[area];
    struct step step = alteration(area, way, 0, count, chance_next(&maker->chance));
    steps_add(&maker->row, &step);
}

void alter_line(struct maker *maker, enum area area, unsigned line, const uint8_t bytes[LINE_BYTES])
{
    struct step step = alteration(area, GIVEN, line * LINE_BYTES, LINE_BYTES, 0);
    memcpy(step.alter.bytes, bytes, LINE_BYTES);
    steps_add(&maker->row, &step);
}

void alter_record(struct maker *maker, uint32_t place)
{
    static const uint8_t fields[][2] = {{0, 2}, {2, 1}, {3, 1}, {4, 4}, {4, 4}, {8, 4}, {8, 4}, {12, 4}, {0, 8}, {8, 8}};
    struct chance *chance = &maker->chance;
    uint32_t at = place * NIZHALEPU_LOG_RECORD;
    struct step step;
    if (chance_one_in(chance, 3)) {
        step = alteration(LOG, FLIPPED, at + chance_below(chance, NIZHALEPU_LOG_RECORD), 1, 1u << chance_below(chance, 8));
    } else {
        const uint8_t *field = fields[chance_below(chance, sizeof fields / sizeof *fields)];
        step = alteration(LOG, GIVEN, at + field[0], field[1], chance_one_in(chance, 4) ? 0 : chance_next(chance));
    }
    steps_add(&maker->row, &step);
}

void alter_gap(struct maker *maker)
{
    alter_record(maker, maker->log / NIZHALEPU_LOG_RECORD - 1);
}

void alter_written(struct maker *maker)
{
    const struct nizhalepu_log *log = &maker->both->record->log;
    if (log->lost > 0)
        alter_gap(maker);
    else if (log->kept > 0)
        alter_record(maker, (uint32_t)log->kept - 1);
}

void alter_somewhere(struct maker *maker)
{
    struct chance *chance = &maker->chance;
    enum area area = (enum area)chance_below(chance, AREAS);
    uint32_t room = (uint32_t)maker->both->room[area];
    uint32_t at = chance_one_in(chance, 2) ? chance_below(chance, room) : chance_below(chance, room < 64 ? room : 64);
    struct step step;
    uint8_t line[LINE_BYTES];
    if (area <= SAVED && chance_one_in(chance, 2)) {
        if (chance_one_in(chance, 2))
            line_damaged(line, chance);
        else
            line_any(line, chance);
        alter_line(maker, area, chance_one_in(chance, 2) ? maker->near : chance_below(chance, PROGRAM_ROOM / LINE_BYTES), line);
        return;
    }
    if (chance_one_in(chance, 2)) {
        step = alteration(area, FLIPPED, at, 1, 1u << chance_below(chance, 8));
    } else {
        uint32_t count = chance_between(chance, 1, 8);
        step = alteration(area, GIVEN, at, at + count > room ? room - at : count, chance_next(chance));
    }
    steps_add(&maker->row, &step);
}
