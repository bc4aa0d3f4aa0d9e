#include "maker.h"

/* Small logs, so that gaps come soon; now and then a large one with room for wrong lengths beyond 65,536. */
static void choose_log(struct maker *maker, bool *large)
{
    static const uint32_t lengths[] = {32, 33, 47, 48, 49, 63, 64, 100, 1000};
    struct chance *chance = &maker->chance;
    *large = chance_one_in(chance, 30);
    if (*large) {
        maker->log = chance_one_in(chance, 2) ? 65536 : chance_between(chance, NIZHALEPU_LOG_LEAST, 65536);
        maker->room = 70000;
        return;
    }
    if (chance_one_in(chance, 3))
        maker->log = chance_between(chance, NIZHALEPU_LOG_LEAST, chance_one_in(chance, 4) ? 2000 : 150);
    else
        maker->log = lengths[chance_below(chance, 9)];
    maker->room = maker->log + chance_between(chance, 1, 80);
}

static size_t choose_calls(struct chance *chance, bool large)
{
    uint32_t luck = chance_below(chance, 1000);
    if (luck < 3 && !large) return chance_between(chance, 10000, 100000);
    if (luck < 100) return chance_between(chance, 2000, 10000);
    if (luck < 500) return chance_between(chance, 300, 2000);
    return chance_between(chance, 20, 300);
}

/* One line, or about one in ten. */
static void damage_lines(struct maker *maker, enum area area)
{
    struct chance *chance = &maker->chance;
    uint8_t line[LINE_BYTES];
    for (unsigned n = chance_one_in(chance, 4) ? 1 : 20; n > 0; n--) {
        line_damaged(line, chance);
        alter_line(maker, area, chance_below(chance, 200), line);
    }
}

/* Lines stand behind the 1,600 bytes that are lent too, to be found by a box that looks there. */
static void fill_areas(struct maker *maker)
{
    struct chance *chance = &maker->chance;
    if (!chance_one_in(chance, 3)) alter_whole(maker, PROGRAM, chance_one_in(chance, 3) ? NOISE : LINES);
    switch (chance_below(chance, 8)) {
    case 0: /* zeros, as they are: every line is Bad */
        break;
    case 1: /* and hardly a line that is not */
        alter_whole(maker, SAVED, NOISE);
        break;
    default:
        alter_whole(maker, SAVED, LINES);
        if (chance_one_in(chance, 2)) damage_lines(maker, SAVED);
        break;
    }
    if (chance_one_in(chance, 2)) alter_whole(maker, LOG, NOISE);
    if (chance_one_in(chance, 2)) alter_whole(maker, DESTINATION, NOISE);
    if (chance_one_in(chance, 2)) alter_whole(maker, REPLY, NOISE);
}

/* A power-on, with one that is refused before it or not. The steps behind it may be the first commands. */
static void power(struct maker *maker, bool refused)
{
    if (refused)
        make_refused_power_on(maker);
    else
        make_power_on(maker);
    if (chance_one_in(&maker->chance, 2)) say_steps(maker);
}

size_t episode_begin(struct maker *maker, struct both *both, uint64_t seed)
{
    bool large;
    maker->chance.state = seed;
    maker->both = both;
    maker->row.count = 0;
    maker->next = 0;
    struct chance *chance = &maker->chance;
    maker->near = chance_below(chance, 200);
    choose_log(maker, &large);
    both_make(both, maker->room, chance_below(chance, 8));
    fill_areas(maker);
    power(maker, chance_one_in(chance, large ? 1 : 12)); /* only a large one has room to be refused as too long */
    size_t calls = choose_calls(chance, large);
    if (large && chance_one_in(chance, 2)) {
        run_fill(maker);
        calls += maker->log / NIZHALEPU_LOG_RECORD;
    }
    return calls;
}

/* What may come at any time. */
static void anything(struct maker *maker)
{
    struct chance *chance = &maker->chance;
    uint32_t luck = chance_below(chance, 1000);
    if (luck < 350)
        say_any(maker);
    else if (luck < 400)
        say_bad(maker);
    else if (luck < 440)
        say_walk(maker);
    else if (luck < 550)
        say_special(maker);
    else if (luck < 600)
        say_noise(maker);
    else if (luck < 680)
        make_ticks(maker, chance_between(chance, 1, chance_one_in(chance, 10) ? 200 : 6));
    else if (luck < 760)
        make_press(maker, chance_between(chance, 1, 2));
    else if (luck < 860)
        make_empty(maker);
    else if (luck < 930)
        alter_somewhere(maker);
    else if (luck < 960)
        say_behind_altered(maker);
    else if (luck < 990)
        power(maker, luck >= 982);
    else if (luck < 994)
        say_losses(maker);
    else
        run_fill(maker);
}

/* The record tells what makes sense next: a program that runs is to run for some while, a stopped box is to be started. */
static void script(struct maker *maker)
{
    struct chance *chance = &maker->chance;
    if (maker->both->record->run.on) {
        if (chance_one_in(chance, 3))
            anything(maker);
        else
            run_on(maker);
    } else if (chance_one_in(chance, 4)) {
        run_recipe(maker);
    } else {
        anything(maker);
    }
}

const struct step *episode_next(struct maker *maker)
{
    if (maker->next == maker->row.count) {
        maker->next = 0;
        maker->row.count = 0;
        while (maker->row.count == 0) script(maker);
    }
    return &maker->row.step[maker->next++];
}
