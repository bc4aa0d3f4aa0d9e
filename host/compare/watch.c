/* watch.c: what the relays of a box did, counted call by call and tick by tick, and what of it its logs can tell; accounts.h says more. */
#include "accounts.h"

#include <string.h>

static void forget(struct watch *watch)
{
    memset(watch->kept, 0, sizeof watch->kept);
    watch->changes = watch->lost = watch->since_gap = 0;
}

static uint64_t balance(const struct watch *watch)
{
    uint64_t sum = 0;
    for (unsigned n = 0; n < CHANNELS; n++) sum += watch->told[n].closings - watch->told[n].openings;
    return sum;
}

void watch_power_on(struct watch *watch, size_t log)
{
    watch->places = (uint32_t)(log / LOG_RECORD);
    watch->balance = balance(watch);
    watch->gaps_before = watch->gaps;
    watch->tick = watch->outputs = watch->last_tick = watch->last_word = watch->beside.tick = watch->beside.word = 0;
    memset(watch->ticks, 0, sizeof watch->ticks);
    forget(watch);
}

/* The ticks up to a record that is made now are known to whoever reads it. */
static void take_ticks(struct watch *watch)
{
    for (unsigned n = 0; n < CHANNELS; n++) {
        watch->kept[n].ticks += watch->ticks[n];
        watch->ticks[n] = 0;
    }
    watch->last_tick = watch->tick;
}

/* The R-th change since emptying is the first that is lost. From its tick on nobody knows what the outputs were until the emptying. */
static void change(struct watch *watch, uint32_t outputs)
{
    watch->changes++;
    if (watch->changes >= watch->places) {
        if (watch->lost == 0) take_ticks(watch);
        watch->lost++;
        return;
    }
    take_ticks(watch);
    watch->last_word = outputs;
    for (unsigned n = 0; n < CHANNELS; n++) {
        bool then = watch->outputs >> n & 1, now = outputs >> n & 1;
        watch->kept[n].closings += now && !then;
        watch->kept[n].openings += then && !now;
    }
}

void watch_call(struct watch *watch, bool ticked, uint32_t outputs)
{
    if (ticked) { /* the tick before it ends, with the outputs before the call */
        for (unsigned n = 0; n < CHANNELS; n++) watch->ticks[n] += watch->outputs >> n & 1;
        watch->since_gap += watch->lost > 0;
        watch->tick++;
    }
    if (outputs != watch->outputs) change(watch, outputs);
    watch->outputs = outputs;
}

/* Since the gap's tick its word counts, which is that of the outputs now. */
void watch_empty(struct watch *watch)
{
    if (watch->lost > 0) {
        watch->last_word = watch->outputs;
        for (unsigned n = 0; n < CHANNELS; n++) watch->ticks[n] = watch->outputs >> n & 1 ? watch->since_gap : 0;
        watch->gaps++;
    }
    for (unsigned n = 0; n < CHANNELS; n++) {
        watch->told[n].closings += watch->kept[n].closings;
        watch->told[n].openings += watch->kept[n].openings;
        watch->told[n].ticks += watch->kept[n].ticks;
    }
    watch->beside.tick = watch->last_tick;
    watch->beside.word = watch->last_word;
    watch->beside.unknown += watch->lost;
    forget(watch);
}

bool watch_balanced(const struct watch *watch)
{
    uint64_t closed = 0;
    for (unsigned n = 0; n < CHANNELS; n++) closed += watch->beside.word >> n & 1;
    return watch->gaps > watch->gaps_before || balance(watch) - watch->balance == closed;
}
