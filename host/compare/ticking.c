/* ticking.c: the number of ticks that the proved library tells of a program, held against the proved box that runs it: event 011 comes
 * at that tick, and until then the program runs. */
#include "clock.h"
#include "compare.h"
#include "nests.h"
#include "nizhalepu.h"

#include <inttypes.h>
#include <stdio.h>
#include <string.h>

enum { LOG = NIZHALEPU_LOG_LEAST, TICKS_MOST = 1000 };

struct ticking {
    uint64_t programs;
    uint64_t seed;
    uint64_t done;
    uint64_t refused;
    uint64_t long_ones; /* of more than TICKS_MOST ticks: these are not run */
    uint64_t run;
    uint64_t ticks;     /* of all that were run */
    uint64_t at_start;  /* programs of 0 ticks */
    uint64_t nones;     /* programs with a loop of none */
    unsigned lines;     /* the most For and Next lines of one call */
};

/* ---- the box */

static struct nizhalepu_record record;
static uint8_t program[NIZHALEPU_PROGRAM], saved[NIZHALEPU_PROGRAM], log_area[LOG], reply[NIZHALEPU_REPLY];

/* A command and its 13. Answers the For and Next lines that the last byte ran; the reply stands in its area. */
static unsigned say(const char *text)
{
    struct nizhalepu_said said;
    do
        said = nizhalepu_byte(&record, (uint8_t)(*text != 0 ? *text : 13), program, sizeof program, saved, sizeof saved, log_area, LOG,
                              reply, sizeof reply);
    while (*text++ != 0);
    return said.lines;
}

static unsigned power_on_and_start(const struct nest *nest)
{
    memcpy(saved, nest->bytes, sizeof saved);
    nizhalepu_power_on(&record, program, sizeof program, saved, sizeof saved, log_area, LOG);
    return say("CW210003");
}

static bool runs(void)
{
    return record.run.on;
}

/* Runs the program until it stops, but no longer than one tick more than it should. Answers the ticks that it took. */
static uint64_t run(struct ticking *ticking, const struct nest *nest, uint64_t ticks)
{
    uint64_t taken = 0;
    unsigned lines = power_on_and_start(nest);
    for (;; taken++) {
        if (lines > ticking->lines) ticking->lines = lines;
        if (!runs() || taken > ticks) return taken;
        lines = nizhalepu_tick(&record, program, sizeof program, log_area, LOG).lines;
    }
}

/* ---- one program */

static bool report_difference(const struct ticking *ticking, const struct nest *nest, uint64_t told, uint64_t taken)
{
    printf("A DIFFERENCE in program %" PRIu64 " of seed %" PRIu64 ": the library tells %" PRIu64 " ticks, and ", ticking->done + 1,
           ticking->seed, told);
    if (runs())
        printf("the program runs on after tick %" PRIu64 ".\n", taken);
    else
        printf("the program stops at tick %" PRIu64 " on line %03u with event %.3s.\n", taken, record.run.line, (const char *)reply);
    nest_print(nest);
    printf("To see it again: compare durations --ticking %" PRIu64 " --seed %" PRIu64 "\n", ticking->programs, ticking->seed);
    return false;
}

static bool has_none(const struct nest *nest)
{
    for (unsigned i = 0; i < nest->end; i++) {
        const uint8_t *line = nest->bytes + i * LINE_BYTES;
        if (line[0] == 0x46 && line[2] == 0 && line[3] == 0) return true;
    }
    return false;
}

/* A refused program is not run. The event is asked for over the wire. */
static bool hold(struct ticking *ticking, const struct nest *nest)
{
    struct nizhalepu_duration told = nizhalepu_duration(nest->bytes, nest->length);
    if (told.refusal != 0) {
        ticking->refused++;
        return true;
    }
    if (told.ticks > TICKS_MOST) {
        ticking->long_ones++;
        return true;
    }
    uint64_t taken = run(ticking, nest, told.ticks);
    say("CR212");
    if (runs() || taken != told.ticks || memcmp(reply, "011\r", 4) != 0) return report_difference(ticking, nest, told.ticks, taken);
    ticking->run++;
    ticking->ticks += taken;
    ticking->at_start += taken == 0;
    ticking->nones += has_none(nest);
    return true;
}

static void make(struct nest *nest, struct chance *chance)
{
    if (chance_one_in(chance, 20))
        nest_make_soup(nest, chance);
    else
        nest_make_small(nest, chance);
    if (chance_one_in(chance, 5)) nest_spoil(nest, chance);
}

/* ---- all of them */

static void print_report(const struct ticking *ticking, double seconds)
{
    printf("%" PRIu64 " programs in %.1f s: each that was run stopped with event 011 at the tick that was told.\n", ticking->done, seconds);
    printf("  %-52s %12" PRIu64 "\n", "run", ticking->run);
    printf("  %-52s %12" PRIu64 "\n", "of these with 0 ticks", ticking->at_start);
    printf("  %-52s %12" PRIu64 "\n", "and with a loop of none before the end", ticking->nones);
    printf("  %-52s %12" PRIu64 "\n", "their ticks", ticking->ticks);
    printf("  %-52s %12" PRIu64 "\n", "refused, not run", ticking->refused);
    printf("  more than %4d ticks, not run %23s %12" PRIu64 "\n", TICKS_MOST, "", ticking->long_ones);
    printf("  %-52s %12u\n", "the most For and Next lines of one call", ticking->lines);
}

int compare_ticking(uint64_t programs, uint64_t seed)
{
    static struct ticking ticking;
    static struct nest nest;
    struct chance seeds = {seed};
    uint64_t start = clock_nanoseconds();
    ticking.programs = programs;
    ticking.seed = seed;
    printf("seed %" PRIu64 "\n", seed);
    for (; ticking.done < programs; ticking.done++) {
        struct chance chance = {chance_next(&seeds)};
        make(&nest, &chance);
        if (!hold(&ticking, &nest)) return 1;
    }
    print_report(&ticking, (double)(clock_nanoseconds() - start) / 1e9);
    if (ticking.run >= programs / 2) return 0;
    puts("\nFEW WERE RUN: less than half of the programs, so this run has not shown what it claims.");
    return 1;
}
