/* calls.c: random calls on both boxes, in episodes, and the logs that these give on both readers. */
#ifndef _GNU_SOURCE
#define _GNU_SOURCE
#endif
#include "clock.h"
#include "compare.h"
#include "lists.h"
#include "maker.h"
#include "shrink.h"
#include "statistics.h"

#include <errno.h>
#include <inttypes.h>
#include <stdio.h>
#include <string.h>
#include <unistd.h>

enum { ENOUGH = 1000000, SHRINK_SECONDS = 20 };

struct calls {
    uint64_t calls;
    uint64_t seed;
    struct statistics statistics;
    struct lists lists;
    bool altered; /* the log, since power-on or the last emptying */
    uint64_t start, shown; /* in nanoseconds of the clock */
    bool terminal;
};

static void show_progress(struct calls *calls)
{
    uint64_t done = calls->statistics.calls;
    if (!calls->terminal || done % 1024 != 0) return;
    uint64_t now = clock_nanoseconds();
    if (now - calls->shown < 1000000000u) return;
    calls->shown = now;
    fprintf(stderr, "\r%" PRIu64 " of %" PRIu64 " calls ", done, calls->calls);
}

static void report_difference(struct calls *calls, struct both *both, struct steps *history, uint64_t sub_seed)
{
    if (calls->terminal) fputc('\n', stderr);
    printf("A DIFFERENCE in call %" PRIu64 " of seed %" PRIu64 " (episode %" PRIu64 ", sub-seed %" PRIu64 ", %zu steps):\n",
           calls->statistics.calls + 1, calls->seed, calls->statistics.episodes, sub_seed, history->count);
    both_print_difference(both);
    if (shrink(both, history, SHRINK_SECONDS))
        printf("The shortest history found, %zu steps from areas of zeros (the log has room for %zu bytes):\n", history->count,
               both->room[LOG]);
    else
        puts("The same steps made again show no difference: a box keeps something outside its state. All steps:");
    steps_print(history);
    puts("After the last step:");
    both_print_difference(both);
    printf("To see it again: compare --calls %" PRIu64 " --seed %" PRIu64 "\n", calls->calls, calls->seed);
}

static void report_list(struct calls *calls)
{
    if (calls->terminal) fputc('\n', stderr);
    printf("A DIFFERENCE in the text of log %" PRIu64 " of seed %" PRIu64 ", after %" PRIu64 " calls:\n", calls->lists.read + 1,
           calls->seed, calls->statistics.calls);
    lists_print_difference(&calls->lists);
    printf("To see it again: compare --calls %" PRIu64 " --seed %" PRIu64 "\n", calls->calls, calls->seed);
}

/* What an emptying gave is read by both readers; false if they differ. */
static bool read_emptied(struct calls *calls, const struct both *both, const struct step *step)
{
    const struct said *said = &both->said[PROVED];
    if (step->kind == ALTER) {
        calls->altered = calls->altered || step->value == LOG;
        return true;
    }
    if (said->refusal != 0 || (step->kind != POWER_ON && step->kind != EMPTY)) return true;
    bool altered = calls->altered;
    calls->altered = false;
    return step->kind == POWER_ON || lists_emptied(&calls->lists, both->area[PROVED][DESTINATION], said->written, altered);
}

/* One episode; false if it ended in a difference. */
static bool episode(struct calls *calls, struct maker *maker, uint64_t sub_seed)
{
    struct both both;
    struct steps history = {0};
    struct statistics *statistics = &calls->statistics;
    bool equal = true, listed = true;
    size_t length = episode_begin(maker, &both, sub_seed);
    uint64_t end = statistics->calls + length;
    if (end > calls->calls) end = calls->calls;
    statistics_begin(statistics);
    while (equal && listed && statistics->calls < end) {
        const struct step *step = episode_next(maker);
        steps_add(&history, step);
        equal = both_do(&both, step);
        if (equal) statistics_count(statistics, step, &both);
        listed = !equal || read_emptied(calls, &both, step);
        show_progress(calls);
    }
    listed = listed && (!equal || lists_made_up(&calls->lists));
    if (!equal) report_difference(calls, &both, &history, sub_seed);
    if (!listed) report_list(calls);
    steps_free(&history);
    both_free(&both);
    return equal && listed;
}

static int finish(struct calls *calls)
{
    double seconds = (double)(clock_nanoseconds() - calls->start) / 1e9;
    if (calls->terminal) fputc('\n', stderr);
    printf("%" PRIu64 " calls on both boxes in %.1f s: equal in every return value and in every byte of every area.\n",
           calls->statistics.calls, seconds);
    printf("%" PRIu64 " logs on both readers: equal in every text and in every byte behind it.\n", calls->lists.read);
    bool met = statistics_print(&calls->statistics);
    if (calls->statistics.astray > 0) {
        printf("\nASTRAY: %" PRIu64 " times both boxes did what is not the papers': an error that has no meaning; from before 000 E004 to I, or\n"
               "another reply than that to D; a special command that is not answered as above, or a read of a line not as its eight bytes are; a\n"
               "power-on, load or save that is no copy; a Bad line that set outputs, or stopped the program with another event than 014;\n"
               "014 on a line that is not Bad; a log area taken or refused against its length; a record that is not the one due.\n",
               calls->statistics.astray);
        return 1;
    }
    if (met || calls->calls < ENOUGH) return 0;
    puts("\nNEVER MET: a class above shows 0 (or not all addresses), so this run has not shown what it claims.");
    return 1;
}

static int cannot_write(const char *logs)
{
    fprintf(stderr, "compare: cannot write %s: %s\n", logs, strerror(errno));
    return 2;
}

int compare_calls(uint64_t calls, uint64_t seed, const char *logs)
{
    struct calls run = {.calls = calls, .seed = seed, .start = clock_nanoseconds(), .terminal = isatty(STDERR_FILENO) == 1};
    struct chance seeds = {seed};
    struct maker maker = {0};
    bool equal = lists_begin(&run.lists, &run.statistics, seed, logs);
    if (!equal) return cannot_write(logs);
    run.shown = run.start;
    printf("seed %" PRIu64 "\n", seed);
    while (equal && run.statistics.calls < calls) equal = episode(&run, &maker, chance_next(&seeds));
    steps_free(&maker.row);
    if (!lists_end(&run.lists)) return cannot_write(logs);
    return equal ? finish(&run) : 1;
}
