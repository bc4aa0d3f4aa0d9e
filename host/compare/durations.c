/* durations.c: how long a program takes, by the proved library and by the independent reading, on the same programs. */
#include "durations.h"

#include "clock.h"
#include "compare.h"
#include "nests.h"
#include "nizhalepu.h"

#include <errno.h>
#include <inttypes.h>
#include <stdio.h>
#include <string.h>

enum {
    ENOUGH = 10000, /* programs from which on the shares say something */
    ROWS = 8        /* of the report: the seven refusals, and the programs that have a number */
};

static const struct {
    uint8_t refusal;
    const char *name;
} rows[ROWS] = {
    {NIZHALEPU_ACCEPTED, "a number of ticks"},
    {NIZHALEPU_BAD_PROGRAM, "030 not of 1,600 bytes"},
    {NIZHALEPU_NO_END, "042 no State with time 0"},
    {NIZHALEPU_BAD_LOOPS, "040 loops that do not nest"},
    {NIZHALEPU_END_IN_LOOP, "041 the end is inside a loop"},
    {NIZHALEPU_LOOP_OF_NO_TICKS, "044 a loop of no ticks"},
    {NIZHALEPU_BAD_LINE, "014 a Bad line"},
    {NIZHALEPU_TOO_MANY_TICKS, "043 too many ticks"},
};

struct durations {
    uint64_t programs;
    uint64_t seed;
    uint64_t done;
    uint64_t met[ROWS];
    uint64_t met_other; /* a refusal that is none of these */
    uint64_t met_most;  /* programs of exactly 9,999,999,999 ticks */
    FILE *file;         /* gets programs and answers, or NULL */
};

/* ---- the programs */

static void make(struct nest *nest, struct chance *chance)
{
    static const unsigned spoils[] = {0, 0, 1, 1, 1, 1, 2, 3};
    unsigned luck = chance_below(chance, 20);
    if (luck == 0)
        nest_make_soup(nest, chance);
    else if (luck < 5)
        nest_make_big(nest, chance);
    else
        nest_make(nest, chance);
    if (luck < 5 && !chance_one_in(chance, 4)) return;
    for (unsigned n = spoils[chance_below(chance, 8)]; n > 0; n--) nest_spoil(nest, chance);
}

static bool agree(const struct nest *nest, struct nizhalepu_duration *proved, struct duration *independent)
{
    *proved = nizhalepu_duration(nest->bytes, nest->length);
    *independent = program_duration(nest->bytes, nest->length);
    return proved->refusal == independent->refusal && proved->ticks == independent->ticks;
}

/* The file has room for programs of 1,600 bytes alone. */
static void keep(const struct durations *durations, const struct nest *nest, const struct nizhalepu_duration *proved)
{
    if (durations->file == NULL || nest->length != NEST_BYTES) return;
    fwrite(nest->bytes, 1, NEST_BYTES, durations->file);
    putc(proved->refusal, durations->file);
    for (int shift = 56; shift >= 0; shift -= 8) putc((int)(proved->ticks >> shift & 255), durations->file);
}

static void count(struct durations *durations, const struct nizhalepu_duration *proved)
{
    unsigned row = 0;
    while (row < ROWS && rows[row].refusal != proved->refusal) row++;
    if (row == ROWS)
        durations->met_other++;
    else
        durations->met[row]++;
    durations->met_most += proved->ticks == DURATION_MOST;
    durations->done++;
}

/* ---- a difference */

static void take_out(struct nest *nest, unsigned line)
{
    memmove(nest_line(nest, line), nest_line(nest, line + 1), (NEST_LINES - 1 - line) * LINE_BYTES);
    line_state(nest_line(nest, NEST_LINES - 1), 0, 0);
}

/* Takes lines out as long as the difference stays, one by one and two by two, since a For goes with its Next. What follows moves up, and
 * at the bottom comes an end mark. */
static void shorten(struct nest *nest)
{
    struct nizhalepu_duration proved;
    struct duration independent;
    if (nest->length != NEST_BYTES) return;
    for (unsigned last = NEST_LINES; last-- > 0;)
        for (unsigned first = last + 1; first-- > 0;) {
            struct nest shorter = *nest;
            take_out(&shorter, last);
            if (first != last) take_out(&shorter, first);
            if (!agree(&shorter, &proved, &independent)) *nest = shorter;
        }
}

static void report_difference(const struct durations *durations, struct nest *nest)
{
    struct nizhalepu_duration proved;
    struct duration independent;
    printf("A DIFFERENCE in program %" PRIu64 " of seed %" PRIu64 ":\n", durations->done + 1, durations->seed);
    nest_print(nest);
    shorten(nest);
    agree(nest, &proved, &independent);
    puts("The same with as few lines as were found:");
    nest_print(nest);
    printf("  proved       refusal %03u, %" PRIu64 " ticks\n", proved.refusal, proved.ticks);
    printf("  independent  refusal %03u, %" PRIu64 " ticks\n", independent.refusal, independent.ticks);
    printf("To see it again: compare durations --programs %" PRIu64 " --seed %" PRIu64 "\n", durations->programs, durations->seed);
}

/* ---- all of them */

static bool compare_all(struct durations *durations)
{
    static struct nest nest;
    struct chance seeds = {durations->seed};
    while (durations->done < durations->programs) {
        struct chance chance = {chance_next(&seeds)};
        struct nizhalepu_duration proved;
        struct duration independent;
        make(&nest, &chance);
        if (!agree(&nest, &proved, &independent)) {
            report_difference(durations, &nest);
            return false;
        }
        keep(durations, &nest, &proved);
        count(durations, &proved);
    }
    return true;
}

static int finish(const struct durations *durations, double seconds)
{
    bool met = durations->met_most > 0 && durations->met_other == 0;
    printf("%" PRIu64 " programs on both in %.1f s: equal in every refusal and in every number of ticks.\n", durations->done, seconds);
    for (unsigned row = 0; row < ROWS; row++) {
        double share = 100.0 * (double)durations->met[row] / (double)durations->done;
        printf("  %-52s %12" PRIu64 " %8.2f %%\n", rows[row].name, durations->met[row], share);
        met = met && share >= 1;
    }
    printf("  %-52s %12" PRIu64 "\n", "exactly 9,999,999,999 ticks", durations->met_most);
    printf("  %-52s %12" PRIu64 "\n", "a refusal that is none of these", durations->met_other);
    if (met || durations->done < ENOUGH) return 0;
    puts("\nSELDOM MET: a row has less than one in a hundred, the most ticks were not met, or a refusal is none of these; so this run has\n"
         "not shown what it claims.");
    return 1;
}

static int cannot_write(const char *path)
{
    fprintf(stderr, "compare: cannot write %s: %s\n", path, strerror(errno));
    return 2;
}

int compare_durations(uint64_t programs, uint64_t seed, const char *path)
{
    struct durations durations = {.programs = programs, .seed = seed};
    uint64_t start = clock_nanoseconds();
    bool written = true;
    if (path != NULL && (durations.file = fopen(path, "wb")) == NULL) return cannot_write(path);
    printf("seed %" PRIu64 "\n", seed);
    bool equal = compare_all(&durations);
    if (durations.file != NULL) {
        written = !ferror(durations.file);
        written = fclose(durations.file) == 0 && written;
    }
    if (!written) return cannot_write(path);
    return equal ? finish(&durations, (double)(clock_nanoseconds() - start) / 1e9) : 1;
}
