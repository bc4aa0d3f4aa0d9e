/* explain.c: why a program stops, by the proved library, by the independent reading, and as both boxes show it that run it. */
#include "explain.h"

#include "boxes.h"
#include "clock.h"
#include "compare.h"

#include <errno.h>
#include <inttypes.h>
#include <stdio.h>
#include <string.h>

enum {
    ENOUGH = 10000,                  /* programs from which on the shares say something */
    SHORTEN_NANOSECONDS = 1000000000 /* how long a program with a difference is shortened */
};

enum { STATE = 0x53, FOR = 0x46, NEXT = 0x4E };

enum row {
    /* every answer is one of these */
    BAD_PROGRAM,
    BAD_START,
    BAD_LIMIT,
    RUNNING,
    BUSY,
    NO_NEXT,
    NO_FOR_YES,
    NO_FOR_NO,
    PAST_LAST,
    END,
    TOO_LONG_HELD,
    TOO_LONG_START,
    BAD_LINE,
    /* what is met besides */
    SEVERAL_REFUSALS,
    IN_START,
    LATE,
    AT_MOST,
    AT_LIMIT,
    BEHIND_LIMIT,
    BUSY_ABOVE,
    BUSY_ITSELF,
    BUSY_BELOW,
    HELD_NOT_NEAREST,
    INSIDE,
    NONES,
    TICKED,
    ROWS
};

static const char *const names[ROWS] = {
    [BAD_PROGRAM] = "030 not of 1,600 bytes",
    [BAD_START] = "060 the start line is above 199",
    [BAD_LIMIT] = "061 the limit is too large",
    [RUNNING] = "still running",
    [BUSY] = "006",
    [NO_NEXT] = "007",
    [NO_FOR_YES] = "008 a For stands above",
    [NO_FOR_NO] = "008 none stands above",
    [PAST_LAST] = "009",
    [END] = "011",
    [TOO_LONG_HELD] = "013 behind a State",
    [TOO_LONG_START] = "013 in the start",
    [BAD_LINE] = "014",
    [SEVERAL_REFUSALS] = "more than one refusal applies",
    [IN_START] = "an event in the start",
    [LATE] = "an event after 10,000 ticks or more",
    [AT_MOST] = "an event after 100,000 ticks exactly",
    [AT_LIMIT] = "an event on the limit's own tick, not in the start",
    [BEHIND_LIMIT] = "running, and an event one tick behind the limit",
    [BUSY_ABOVE] = "006 by a For above that is not the nearest above",
    [BUSY_ITSELF] = "006 by the For itself",
    [BUSY_BELOW] = "006 by a For below",
    [HELD_NOT_NEAREST] = "013 behind a State that is not the nearest above",
    [INSIDE] = "a start inside a loop",
    [NONES] = "loops of none on the way, as the box shows",
    [TICKED] = "run on both boxes",
};

struct explaining {
    uint64_t programs;
    uint64_t seed;
    uint64_t done;
    uint64_t met[ROWS];
    uint64_t met_other; /* an answer that is none of these */
    FILE *file;         /* gets questions and answers, or NULL */
};

/* ---- a question */

static struct explained ask_independent(const struct question *question)
{
    return explain_stop(question->nest.bytes, question->nest.length, question->start, question->limit);
}

static bool agree(const struct question *question, struct nizhalepu_stop *proved, struct explained *independent)
{
    *proved = nizhalepu_explain(question->nest.bytes, question->nest.length, question->start, question->limit);
    *independent = ask_independent(question);
    return proved->refusal == independent->refusal && proved->event == independent->event && proved->tick == independent->tick &&
           proved->line == independent->line && proved->cause == independent->cause;
}

static void keep_number(FILE *file, uint64_t number, int bytes)
{
    for (int shift = 8 * bytes - 8; shift >= 0; shift -= 8) putc((int)(number >> shift & 255), file);
}

static void keep(FILE *file, const struct question *question, const struct nizhalepu_stop *proved)
{
    if (file == NULL) return;
    keep_number(file, question->nest.length, 2);
    fwrite(question->nest.bytes, 1, question->nest.length, file);
    keep_number(file, question->start, 8);
    keep_number(file, question->limit, 8);
    keep_number(file, proved->refusal, 1);
    keep_number(file, proved->event, 1);
    keep_number(file, proved->tick, 4);
    keep_number(file, proved->line, 1);
    keep_number(file, proved->cause, 1);
}

/* ---- what was met */

static enum row row_of_event(const struct nizhalepu_stop *proved)
{
    switch (proved->event) {
    case 0:
        return RUNNING;
    case NIZHALEPU_EVENT_BUSY:
        return BUSY;
    case NIZHALEPU_EVENT_NO_NEXT:
        return NO_NEXT;
    case NIZHALEPU_EVENT_NO_FOR:
        return proved->cause != 0 ? NO_FOR_YES : NO_FOR_NO;
    case NIZHALEPU_EVENT_PAST_LAST:
        return PAST_LAST;
    case NIZHALEPU_EVENT_END:
        return END;
    case NIZHALEPU_EVENT_TOO_LONG:
        return proved->cause != NIZHALEPU_NO_CAUSE ? TOO_LONG_HELD : TOO_LONG_START;
    case NIZHALEPU_EVENT_BAD_LINE:
        return BAD_LINE;
    default:
        return ROWS;
    }
}

/* The row of an answer; ROWS where there is none for it. */
static enum row row_of(const struct nizhalepu_stop *proved)
{
    switch (proved->refusal) {
    case NIZHALEPU_ACCEPTED:
        return row_of_event(proved);
    case NIZHALEPU_BAD_PROGRAM:
        return BAD_PROGRAM;
    case NIZHALEPU_BAD_START:
        return BAD_START;
    case NIZHALEPU_BAD_LIMIT:
        return BAD_LIMIT;
    default:
        return ROWS;
    }
}

static bool is_line(const struct nest *nest, unsigned line, uint8_t first, uint8_t second)
{
    const uint8_t *bytes = nest->bytes + line * LINE_BYTES;
    return bytes[0] == first && bytes[1] == second && !line_is_bad(bytes);
}

/* The nearest State or For of one counter on a line above, or NEST_LINES. */
static unsigned nearest_above(const struct nest *nest, unsigned line, uint8_t first, uint8_t second)
{
    while (line-- > 0)
        if (is_line(nest, line, first, second)) return line;
    return NEST_LINES;
}

/* Does a For above have its Next on this line or below? */
static bool is_inside(const struct nest *nest, unsigned line)
{
    for (uint8_t counter = 1; counter <= 4; counter++) {
        unsigned at = nearest_above(nest, line, FOR, counter);
        if (at == NEST_LINES) continue;
        while (at < line && !is_line(nest, at, NEXT, counter)) at++;
        if (at < line) continue;
        while (at < NEST_LINES && !is_line(nest, at, NEXT, counter)) at++;
        if (at < NEST_LINES) return true;
    }
    return false;
}

static void count_busy(struct explaining *explaining, const struct nest *nest, const struct nizhalepu_stop *proved)
{
    unsigned nearest = nearest_above(nest, proved->line, FOR, nest->bytes[proved->line * LINE_BYTES + 1]);
    explaining->met[BUSY_ABOVE] += proved->cause < proved->line && proved->cause != nearest;
    explaining->met[BUSY_ITSELF] += proved->cause == proved->line;
    explaining->met[BUSY_BELOW] += proved->cause > proved->line;
}

static void count_refusals(struct explaining *explaining, const struct question *question)
{
    unsigned refusals = (question->nest.length != NEST_BYTES) + (question->start >= NEST_LINES) + (question->limit > STOPS_LIMIT_MOST);
    explaining->met[SEVERAL_REFUSALS] += refusals > 1;
}

/* `next` is the tick of the event to which it comes with the greatest limit, 0 where it comes to none. */
static void count(struct explaining *explaining, const struct question *question, const struct nizhalepu_stop *proved, uint64_t next)
{
    const struct nest *nest = &question->nest;
    enum row row = row_of(proved);
    explaining->done++;
    if (row == ROWS)
        explaining->met_other++;
    else
        explaining->met[row]++;
    if (row == BUSY) count_busy(explaining, nest, proved);
    if (row == TOO_LONG_HELD) explaining->met[HELD_NOT_NEAREST] += nearest_above(nest, proved->line, STATE, 0) != proved->cause;
    if (row == RUNNING) explaining->met[BEHIND_LIMIT] += next == question->limit + 1;
    if (proved->refusal != 0) {
        count_refusals(explaining, question);
        return;
    }
    explaining->met[INSIDE] += is_inside(nest, (unsigned)question->start);
    if (proved->event == 0) return;
    explaining->met[IN_START] += proved->tick == 0;
    explaining->met[LATE] += proved->tick >= 10000;
    explaining->met[AT_MOST] += proved->tick == STOPS_LIMIT_MOST;
    explaining->met[AT_LIMIT] += proved->tick == question->limit && proved->tick > 0;
}

/* ---- a difference */

static void take_out(struct question *question, unsigned line)
{
    struct nest *nest = &question->nest;
    memmove(nest_line(nest, line), nest_line(nest, line + 1), (NEST_LINES - 1 - line) * LINE_BYTES);
    line_state(nest_line(nest, NEST_LINES - 1), 0, 0);
    if (line < question->start && question->start < NEST_LINES) question->start--;
}

/* Takes lines out as long as the difference stays, one by one and two by two, since a For goes with its Next. What follows moves up, and
 * at the bottom comes an end mark. A run can be long, so time is short. */
static void shorten(struct question *question)
{
    struct nizhalepu_stop proved;
    struct explained independent;
    uint64_t start = clock_nanoseconds();
    if (question->nest.length != NEST_BYTES) return;
    for (unsigned last = NEST_LINES; last-- > 0;)
        for (unsigned first = last + 1; first-- > 0 && clock_nanoseconds() - start < SHORTEN_NANOSECONDS;) {
            struct question shorter = *question;
            take_out(&shorter, last);
            if (first != last) take_out(&shorter, first);
            if (!agree(&shorter, &proved, &independent)) *question = shorter;
        }
}

static void print_answer(const char *name, unsigned refusal, unsigned event, uint32_t tick, unsigned line, unsigned cause)
{
    printf("  %-12s refusal %03u, event %03u at tick %" PRIu32 " on line %03u, cause %u\n", name, refusal, event, tick, line, cause);
}

static void print_answers(const struct question *question)
{
    struct nizhalepu_stop proved;
    struct explained independent;
    agree(question, &proved, &independent);
    print_answer("proved", proved.refusal, proved.event, proved.tick, proved.line, proved.cause);
    print_answer("independent", independent.refusal, independent.event, independent.tick, independent.line, independent.cause);
}

static void print_again(const struct explaining *explaining)
{
    printf("To see it again: compare explain --programs %" PRIu64 " --seed %" PRIu64 "\n", explaining->programs, explaining->seed);
}

static void report_difference(const struct explaining *explaining, struct question *question)
{
    printf("A DIFFERENCE in program %" PRIu64 " of seed %" PRIu64 ":\n", explaining->done + 1, explaining->seed);
    question_print(question);
    print_answers(question);
    shorten(question);
    puts("The same with as few lines as were found:");
    question_print(question);
    print_answers(question);
    print_again(explaining);
}

static void report_boxes(const struct explaining *explaining, const struct question *question, const char *shown)
{
    printf("A DIFFERENCE in program %" PRIu64 " of seed %" PRIu64 ", which was run: %s.\n", explaining->done + 1, explaining->seed, shown);
    question_print(question);
    print_answers(question);
    print_again(explaining);
}

/* ---- all of them */

/* Holds what the library tells to the boxes. */
static bool run_on_boxes(struct explaining *explaining, const struct question *question, const struct nizhalepu_stop *proved)
{
    if (!boxes_take(question, proved)) return true;
    const char *shown = boxes_run(question, proved);
    if (shown != NULL) report_boxes(explaining, question, shown);
    explaining->met[TICKED]++;
    explaining->met[NONES] += boxes_nones() > 0;
    return shown == NULL;
}

static bool compare_all(struct explaining *explaining)
{
    static struct question question;
    struct chance seeds = {explaining->seed};
    while (explaining->done < explaining->programs) {
        struct chance chance = {chance_next(&seeds)};
        struct nizhalepu_stop proved;
        struct explained independent, aim;
        question_make(&question, &chance);
        aim = ask_independent(&question);
        question_limit(&question, &chance, aim.event != 0, aim.tick);
        if (!agree(&question, &proved, &independent)) {
            report_difference(explaining, &question);
            return false;
        }
        if (!run_on_boxes(explaining, &question, &proved)) return false;
        keep(explaining->file, &question, &proved);
        count(explaining, &question, &proved, aim.tick);
    }
    return true;
}

static int finish(const struct explaining *explaining, double seconds)
{
    bool met = explaining->met_other == 0;
    printf("%" PRIu64 " programs on both in %.1f s: equal in every refusal, event, tick, line and cause, and as both boxes show them.\n",
           explaining->done, seconds);
    for (unsigned row = 0; row < ROWS; row++) {
        double share = 100.0 * (double)explaining->met[row] / (double)explaining->done;
        printf("  %-52s %12" PRIu64 " %8.2f %%\n", names[row], explaining->met[row], share);
        met = met && share >= 0.1;
    }
    printf("  %-52s %12" PRIu64 "\n", "an answer that is none of these", explaining->met_other);
    if (met || explaining->done < ENOUGH) return 0;
    puts("\nSELDOM MET: a row has less than one in a thousand, or an answer is none of these; so this run has not shown what it claims.");
    return 1;
}

static int cannot_write(const char *path)
{
    fprintf(stderr, "compare: cannot write %s: %s\n", path, strerror(errno));
    return 2;
}

int compare_explain(uint64_t programs, uint64_t seed, const char *path)
{
    struct explaining explaining = {.programs = programs, .seed = seed};
    uint64_t start = clock_nanoseconds();
    bool written = true;
    if (path != NULL && (explaining.file = fopen(path, "wb")) == NULL) return cannot_write(path);
    printf("seed %" PRIu64 "\n", seed);
    bool equal = compare_all(&explaining);
    if (explaining.file != NULL) {
        written = !ferror(explaining.file);
        written = fclose(explaining.file) == 0 && written;
    }
    if (!written) return cannot_write(path);
    return equal ? finish(&explaining, (double)(clock_nanoseconds() - start) / 1e9) : 1;
}
