/* carrying.c: programs of plans, by the proved library and by the independent reading, as the proved box runs them. */
#include "clock.h"
#include "compare.h"
#include "plans.h"

#include <inttypes.h>
#include <stdio.h>

enum {
    ENOUGH_RUN = 1000, /* plans from which on the rows say something */
    STATE_MOST = 9999,
    LONG_TICKS = 100000
};

struct carrying {
    uint64_t plans;
    uint64_t seed;
    uint64_t done;
    uint64_t ticks;      /* of all plans */
    uint64_t short_ones; /* those with traffic and pauses */
    uint64_t long_ones;
    uint64_t whole;      /* those with a loop that leaves no remainder */
};

static bool report_carried(const struct carrying *carrying, const struct order *order, const char *what, const char *shown)
{
    printf("A DIFFERENCE in plan %" PRIu64 " of seed %" PRIu64 ": %s%s.\n", carrying->done + 1, carrying->seed, what, shown);
    order_print(order);
    printf("To see it again: compare plan --running %" PRIu64 " --seed %" PRIu64 "\n", carrying->plans, carrying->seed);
    return false;
}

/* The two programs are not held to each other here, but each to the plan. */
static bool carry(struct carrying *carrying, const struct order *order, struct chance *chance)
{
    static struct made proved, independent;
    const char *shown;
    order_proved(order, &proved);
    order_independent(order, &independent);
    if (proved.refusal != 0 || independent.refusal != 0) return report_carried(carrying, order, "it is refused", "");
    if ((shown = carried_out(order, proved.area, chance)) != NULL)
        return report_carried(carrying, order, "the box that runs its proved program ", shown);
    if ((shown = carried_out(order, independent.area, chance)) != NULL)
        return report_carried(carrying, order, "the box that runs its independent program ", shown);
    uint64_t ticks = order_ticks(order);
    carrying->ticks += ticks;
    carrying->short_ones += ticks <= CARRIED_SHORT;
    carrying->long_ones += ticks > LONG_TICKS;
    for (size_t i = 1; i < order->count; i += 2)
        if (order->numbers[i] > STATE_MOST && order->numbers[i] % STATE_MOST == 0) {
            carrying->whole++;
            break;
        }
    return true;
}

int compare_carrying(uint64_t plans, uint64_t seed)
{
    static struct order order;
    struct carrying carrying = {.plans = plans, .seed = seed};
    struct chance seeds = {seed};
    uint64_t start = clock_nanoseconds();
    printf("seed %" PRIu64 "\n", seed);
    for (; carrying.done < plans; carrying.done++) {
        struct chance chance = {chance_next(&seeds)};
        order_make_short(&order, &chance);
        if (!carry(&carrying, &order, &chance)) return 1;
    }
    printf("%" PRIu64 " plans in %.1f s: the box that runs their programs has the plan's word at every tick, and event 011 at the sum.\n",
           carrying.done, (double)(clock_nanoseconds() - start) / 1e9);
    printf("  %-52s %12" PRIu64 "\n", "their ticks", carrying.ticks);
    printf("  %-52s %12" PRIu64 "\n", "with traffic and pauses, up to 2,000 ticks", carrying.short_ones);
    printf("  %-52s %12" PRIu64 "\n", "pauses", carried_pauses());
    printf("  %-52s %12" PRIu64 "\n", "of more than 100,000 ticks", carrying.long_ones);
    printf("  %-52s %12" PRIu64 "\n", "with a loop that leaves no remainder", carrying.whole);
    if (plans < ENOUGH_RUN || (carrying.short_ones > 0 && carried_pauses() > 0 && carrying.long_ones > 0 && carrying.whole > 0)) return 0;
    puts("\nNEVER MET: a row has none, so this run has not shown what it claims.");
    return 1;
}
