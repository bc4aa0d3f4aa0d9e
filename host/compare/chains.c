/* chains.c: chains of logs that the proved box gives under random calls, brought forward by the proved library and by the independent
 * reading, and both held to counts that were kept beside the box while it ran. */
#include "accounts.h"
#include "clock.h"
#include "compare.h"
#include "maker.h"
#include "prepare.h"

#include <inttypes.h>
#include <stdio.h>

enum { ENOUGH = 1000 }; /* chains from which on the rows say something */

enum row {
    WITHOUT_GAP,
    WITH_GAP,
    SEVERAL_GAPS,
    SEVERAL_POWER_ONS,
    LOGS,
    LOGS_OF_NONE,
    LOGS_IN_SAME_TICK,
    LOGS_WITH_GAP,
    CLOSINGS_TOLD,
    TICKS_TOLD,
    UNKNOWN_TOLD,
    ROWS
};

static const char *const names[ROWS] = {
    [WITHOUT_GAP] = "chains without a gap",
    [WITH_GAP] = "chains with a gap",
    [SEVERAL_GAPS] = "chains with several gaps",
    [SEVERAL_POWER_ONS] = "chains over several power-ons",
    [LOGS] = "logs",
    [LOGS_OF_NONE] = "logs of no record",
    [LOGS_IN_SAME_TICK] = "logs whose first tick is that of the last record",
    [LOGS_WITH_GAP] = "logs with a gap",
    [CLOSINGS_TOLD] = "closings",
    [TICKS_TOLD] = "ticks closed",
    [UNKNOWN_TOLD] = "changes unknown",
};

struct side { /* the caller of one of the two */
    struct nizhalepu_channel channels[CHANNELS];
    struct nizhalepu_beside beside;
};

struct chain {
    struct both both;
    struct maker maker;
    struct watch watch;
    struct side side[BOXES];
    bool whole; /* the log is emptied before it is full, so that it has no gap */
    bool on;    /* a power-on was accepted */
    uint64_t power_ons;
};

struct chaining {
    uint64_t chains;
    uint64_t seed;
    uint64_t done;
    uint64_t met[ROWS];
};

/* ---- a log */

static void print_difference(const struct chaining *chaining, const struct chain *chain, int which, unsigned refusal)
{
    static const char *const readings[BOXES] = {"the proved library", "the independent reading"};
    const struct side *side = &chain->side[which];
    printf("A DIFFERENCE in chain %" PRIu64 " of seed %" PRIu64 ": ", chaining->done + 1, chaining->seed);
    if (refusal != 0) {
        printf("%s refuses a log of the box with %03u.\n", readings[which], refusal);
        beside_print("given", &side->beside);
        return;
    }
    printf("%s tells what was not counted beside the box.\n", readings[which]);
    beside_print("told", &side->beside);
    beside_print("counted", &chain->watch.beside);
    for (unsigned n = 0; n < CHANNELS; n++) {
        if (channels_equal(&side->channels[n], &chain->watch.told[n])) continue;
        printf("  channel %u:\n", n + 1);
        channel_print("told", &side->channels[n]);
        channel_print("counted", &chain->watch.told[n]);
        return;
    }
}

static bool holds(const struct side *side, const struct watch *watch)
{
    for (unsigned n = 0; n < CHANNELS; n++)
        if (!channels_equal(&side->channels[n], &watch->told[n])) return false;
    return besides_equal(&side->beside, &watch->beside);
}

/* The log stands in the destination. False where one of the two does not hold. */
static bool bring_both(const struct chaining *chaining, struct chain *chain, size_t length)
{
    const uint8_t *log = chain->both.area[PROVED][DESTINATION];
    for (int which = 0; which < BOXES; which++) {
        struct side *side = &chain->side[which];
        struct nizhalepu_brought brought = which == PROVED ? bring_proved(side->channels, CHANNELS, log, length, side->beside)
                                                           : bring_independent(side->channels, CHANNELS, log, length, side->beside);
        if (brought.refusal == 0) side->beside = brought.beside;
        if (brought.refusal == 0 && holds(side, &chain->watch)) continue;
        print_difference(chaining, chain, which, brought.refusal);
        return false;
    }
    if (watch_balanced(&chain->watch)) return true;
    printf("A DIFFERENCE in chain %" PRIu64 " of seed %" PRIu64 ": closings less openings are not the channels closed.\n",
           chaining->done + 1, chaining->seed);
    return false;
}

static bool emptied(struct chaining *chaining, struct chain *chain, size_t length)
{
    const uint8_t *log = chain->both.area[PROVED][DESTINATION];
    uint64_t gaps = chain->watch.gaps;
    bool same = length > 0 && chain->watch.beside.tick > 0 && log_get(log + TICK_AT) == chain->watch.beside.tick;
    watch_empty(&chain->watch);
    chaining->met[LOGS]++;
    chaining->met[LOGS_OF_NONE] += length == 0;
    chaining->met[LOGS_IN_SAME_TICK] += same;
    chaining->met[LOGS_WITH_GAP] += chain->watch.gaps - gaps;
    return bring_both(chaining, chain, length);
}

/* ---- a step */

/* Over a power-on the caller keeps the records and the number unknown. */
static void powered(struct chain *chain, const struct step *step)
{
    chain->on = true;
    chain->power_ons++;
    watch_power_on(&chain->watch, step->lent.log);
    for (int which = 0; which < BOXES; which++) chain->side[which].beside.tick = chain->side[which].beside.word = 0;
}

/* One call on the proved box. False where it was an emptying, and the totals do not hold. */
static bool call(struct chaining *chaining, struct chain *chain, const struct step *step)
{
    struct said said = both_call(&chain->both, PROVED, step);
    if (said.refusal != 0) {
        if (step->kind == POWER_ON) chain->on = false; /* and every later call is refused */
        return true;
    }
    if (step->kind == POWER_ON)
        powered(chain, step);
    else if (step->kind == EMPTY)
        return emptied(chaining, chain, said.written);
    else
        watch_call(&chain->watch, step->kind == TICK, chain->both.record->run.outputs);
    return true;
}

static bool empty_all(struct chaining *chaining, struct chain *chain)
{
    const struct step step = prepare_step(EMPTY, 0, (uint32_t)chain->both.record->log.length);
    return call(chaining, chain, &step);
}

/* Nobody but the box writes to the log. */
static bool take_step(struct chaining *chaining, struct chain *chain, const struct step *step)
{
    if (step->kind == ALTER) {
        if (step->value != LOG) both_do(&chain->both, step);
        return true;
    }
    if (!call(chaining, chain, step)) return false;
    return !(chain->on && chain->whole && chain->watch.changes + 1 == chain->watch.places) || empty_all(chaining, chain);
}

/* ---- a chain */

static void count(struct chaining *chaining, const struct chain *chain)
{
    uint64_t *met = chaining->met, gaps = chain->watch.gaps;
    met[gaps == 0 ? WITHOUT_GAP : WITH_GAP]++;
    met[SEVERAL_GAPS] += gaps > 1;
    met[SEVERAL_POWER_ONS] += chain->power_ons > 1;
    met[UNKNOWN_TOLD] += chain->watch.beside.unknown;
    for (unsigned n = 0; n < CHANNELS; n++) {
        met[CLOSINGS_TOLD] += chain->watch.told[n].closings;
        met[TICKS_TOLD] += chain->watch.told[n].ticks;
    }
}

static bool run_chain(struct chaining *chaining, uint64_t sub_seed)
{
    static struct chain chain;
    struct steps row = chain.maker.row; /* its memory is used again */
    chain = (struct chain){.whole = chaining->done % 2 == 0, .maker = {.row = row}};
    size_t calls = episode_begin(&chain.maker, &chain.both, sub_seed);
    bool held = true;
    for (size_t n = 0; held && n < calls; n++) held = take_step(chaining, &chain, episode_next(&chain.maker));
    held = held && (!chain.on || empty_all(chaining, &chain));
    if (held) count(chaining, &chain);
    both_free(&chain.both);
    return held;
}

static bool print_rows(const struct chaining *chaining)
{
    bool met = true;
    for (unsigned row = 0; row < ROWS; row++) {
        printf("  %-52s %12" PRIu64 "\n", names[row], chaining->met[row]);
        met = met && chaining->met[row] > 0;
    }
    if (met || chaining->chains < ENOUGH) return true;
    puts("\nNEVER MET: a row has none, so this run has not shown what it claims.");
    return false;
}

int compare_chains(uint64_t chains, uint64_t seed)
{
    struct chaining chaining = {.chains = chains, .seed = seed};
    struct chance seeds = {seed};
    uint64_t start = clock_nanoseconds();
    printf("seed %" PRIu64 "\n", seed);
    for (; chaining.done < chains; chaining.done++) {
        if (run_chain(&chaining, chance_next(&seeds))) continue;
        printf("To see it again: compare totals --chains %" PRIu64 " --seed %" PRIu64 "\n", chains, seed);
        return 1;
    }
    printf("%" PRIu64 " chains of logs in %.1f s: every total of both is what was counted beside the box.\n", chaining.done,
           (double)(clock_nanoseconds() - start) / 1e9);
    return print_rows(&chaining) ? 0 : 1;
}
