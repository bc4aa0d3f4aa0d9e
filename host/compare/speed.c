/* speed.c: nanoseconds per call of both boxes, and per log of both readers. Rounds of the one and of the other take turns in the
 * same run, with the same calls; the median of the rounds counts. The calls are made directly, so that nothing else is measured
 * but a loop. */
#include "both.h"
#include "clock.h"
#include "compare.h"
#include "line.h"
#include "loglist.h"
#include "logs.h"
#include "prepare.h"

#include <stdio.h>
#include <stdlib.h>
#include <string.h>

enum { ROUNDS = 41, LOG_LENGTH = 65536, COMMANDS = 100, TICKS = 50000 };

/* ---- the programs that the measured calls run */

static void program_of_ends(uint8_t *program)
{
    for (unsigned i = 0; i < 200; i++) line_state(program + 8 * i, 0, 0);
}

/* Each State line stands for 9999 ticks, so that hardly a tick sees one fall due. */
static void program_waiting(uint8_t *program)
{
    line_for(program, 1, 9999);
    line_state(program + 8, 1, 9999);
    line_next(program + 16, 1);
}

/* Outputs change in every tick. */
static void program_changing(uint8_t *program)
{
    line_for(program, 1, 9999);
    line_state(program + 8, 1, 1);
    line_state(program + 16, 2, 1);
    line_next(program + 24, 1);
}

static void program_over_states(uint8_t *program)
{
    prepare_dearest(program, 'S');
}

static void program_over_fors(uint8_t *program)
{
    prepare_dearest(program, 'F');
}

static void program_over_nexts(uint8_t *program)
{
    prepare_dearest(program, 'N');
}

static void program_over_bad(uint8_t *program)
{
    prepare_dearest(program, 'B');
}

static void program_far(uint8_t *program)
{
    prepare_far(program, 'S');
}

/* ---- what goes before a round, untimed */

static void start_again(struct both *both, int which)
{
    prepare_say(both, which, LOG_LENGTH, "CW210001");
    prepare_say(both, which, LOG_LENGTH, "CW210003");
}

static void fill_log(struct both *both, int which)
{
    struct step tick = prepare_step(TICK, 0, LOG_LENGTH);
    start_again(both, which);
    for (int n = 0; n < 6000; n++) both_call(both, which, &tick);
}

static void nothing(struct both *both, int which)
{
    (void)both;
    (void)which;
}

/* ---- the bytes: whole commands of every sort */

static const char commands[] =
    "CR201\rCR206\rCR212\rCW 000 S 00 00 00 00 05 0003\rCR000\rCWIF10003\rCWIN1\rCRI\rCRD\rCW20601\rCW2067F\rCW209005\r"
    "CR209\rCR217\rC\rCW2055\rCXYZ\rcr 211\rCW000S0G\rCW210009\rCR213\rCW203FF\rCW20300\rCW210006\rCR210\r"
    "CW199S00FFFFFFFF9999\rcw198f41234\r";

/* ---- the timed calls: `count` of them; the sum of what they said is compared */

static uint64_t proved_calls(struct both *both, enum kind kind, size_t count)
{
    uint8_t **area = both->area[PROVED];
    uint64_t sum = 0;
    for (size_t i = 0, k = 0; i < count; i++, k = k + 1 < sizeof commands - 1 ? k + 1 : 0) {
        struct nizhalepu_said said;
        if (kind == BYTE)
            said = nizhalepu_byte(both->record, (uint8_t)commands[k], area[PROGRAM], 1600, area[SAVED], 1600, area[LOG], LOG_LENGTH,
                                  area[REPLY], 16);
        else if (kind == TICK)
            said = nizhalepu_tick(both->record, area[PROGRAM], 1600, area[LOG], LOG_LENGTH);
        else
            said = nizhalepu_empty(both->record, area[LOG], LOG_LENGTH, area[DESTINATION], LOG_LENGTH);
        sum = sum * 31 + said.refusal + said.lines + said.written;
    }
    return sum;
}

static uint64_t independent_calls(struct both *both, enum kind kind, size_t count)
{
    uint8_t **area = both->area[INDEPENDENT];
    uint64_t sum = 0;
    for (size_t i = 0, k = 0; i < count; i++, k = k + 1 < sizeof commands - 1 ? k + 1 : 0) {
        struct box_said said;
        if (kind == BYTE)
            said = box_byte(both->box, (uint8_t)commands[k], area[PROGRAM], 1600, area[SAVED], 1600, area[LOG], LOG_LENGTH,
                            area[REPLY], 16);
        else if (kind == TICK)
            said = box_tick(both->box, area[PROGRAM], 1600, area[LOG], LOG_LENGTH);
        else
            said = box_empty(both->box, area[LOG], LOG_LENGTH, area[DESTINATION], LOG_LENGTH);
        sum = sum * 31 + said.refusal + said.lines + said.written;
    }
    return sum;
}

struct measure {
    const char *name;
    enum kind kind;
    size_t count;                                  /* calls in a round */
    void (*program)(uint8_t *program);             /* what the program area holds */
    void (*prepare)(struct both *both, int which); /* before each round */
};

static const struct measure measures[] = {
    {"wire byte, whole commands of every sort", BYTE, COMMANDS *(sizeof commands - 1), program_of_ends, nothing},
    {"tick, stopped", TICK, TICKS, program_of_ends, nothing},
    {"tick, running and waiting", TICK, TICKS, program_waiting, start_again},
    {"dearest tick, searching over State lines", TICK, 1, program_over_states, start_again},
    {"dearest tick, searching over For lines", TICK, 1, program_over_fors, start_again},
    {"dearest tick, searching over Next lines", TICK, 1, program_over_nexts, start_again},
    {"dearest tick, searching over Bad lines", TICK, 1, program_over_bad, start_again},
    {"the same over State lines, no loop of none", TICK, 1, program_far, start_again},
    {"emptying a full log of 65,536 bytes", EMPTY, 1, program_changing, fill_log},
};

static int by_size(const void *a, const void *b)
{
    const double *x = a, *y = b;
    return (*x > *y) - (*x < *y);
}

static void print_medians(const char *name, double times[BOXES][ROUNDS], bool equal)
{
    for (int i = 0; i < BOXES; i++) qsort(times[i], ROUNDS, sizeof(double), by_size);
    double proved = times[PROVED][ROUNDS / 2], independent = times[INDEPENDENT][ROUNDS / 2];
    printf("  %-44s %10.1f %12.1f %8.2f%s\n", name, proved, independent, proved / independent, equal ? "" : "  NOT EQUAL");
}

static double round_of(const struct measure *measure, struct both *both, int which, uint64_t *sum)
{
    measure->prepare(both, which);
    uint64_t start = clock_nanoseconds();
    uint64_t part = which == PROVED ? proved_calls(both, measure->kind, measure->count)
                                    : independent_calls(both, measure->kind, measure->count);
    uint64_t end = clock_nanoseconds();
    *sum = *sum * 31 + part;
    return (double)(end - start) / (double)measure->count;
}

/* Prints the measurement; true if both boxes did the same. */
static bool measure(const struct measure *measure)
{
    struct both both;
    double times[BOXES][ROUNDS];
    uint64_t sums[BOXES] = {0, 0};
    struct step on = prepare_step(POWER_ON, 0, LOG_LENGTH);
    both_make(&both, LOG_LENGTH, 0);
    for (int i = 0; i < BOXES; i++) {
        both_call(&both, i, &on);
        measure->program(both.area[i][PROGRAM]);
    }
    for (int n = 0; n < ROUNDS; n++)
        for (int k = 0; k < BOXES; k++) {
            int i = (n + k) % BOXES; /* each goes first in turn */
            times[i][n] = round_of(measure, &both, i, &sums[i]);
        }
    bool equal = sums[PROVED] == sums[INDEPENDENT] && both_areas_equal(&both);
    print_medians(measure->name, times, equal);
    both_free(&both);
    return equal;
}

/* ---- the readers, on a log of either mark as long as can be */

static double round_of_list(const struct log *log, int which, uint8_t *text, size_t *written)
{
    uint64_t start = clock_nanoseconds();
    *written = which == PROVED ? nizhalepu_list(log->bytes, log->length, text, LOG_LIST_ROOM)
                               : log_list(log->bytes, log->length, text, LOG_LIST_ROOM);
    return (double)(clock_nanoseconds() - start);
}

static bool measure_list(const char *name, enum form form)
{
    static struct log log;
    static uint8_t texts[BOXES][LOG_LIST_ROOM];
    double times[BOXES][ROUNDS];
    size_t written[BOXES];
    struct chance chance = {1};
    log_make(&log, form, &chance, log_most_records(form) - 1, true);
    for (int n = 0; n < ROUNDS; n++)
        for (int k = 0; k < BOXES; k++) {
            int i = (n + k) % BOXES;
            times[i][n] = round_of_list(&log, i, texts[i], &written[i]);
        }
    bool equal = written[PROVED] == written[INDEPENDENT] && memcmp(texts[PROVED], texts[INDEPENDENT], LOG_LIST_ROOM) == 0;
    print_medians(name, times, equal);
    return equal;
}

int compare_speed(void)
{
    bool equal = true;
    printf("nanoseconds per call, median of %d rounds of each, in turns; ratio below 1: the proved box is faster\n\n", ROUNDS);
    printf("  %-44s %10s %12s %8s\n", "", "proved", "independent", "ratio");
    for (size_t i = 0; i < sizeof measures / sizeof *measures; i++) equal &= measure(&measures[i]);
    equal &= measure_list("listing a full log of 65,536 bytes", PRESENT);
    equal &= measure_list("the same of the older mark, 65,532 bytes", OLDER);
    return equal ? 0 : 1;
}
