/* plan.c: the program of an inclining plan, by the proved library and by the independent reading. */
#include "clock.h"
#include "compare.h"
#include "plans.h"

#include <errno.h>
#include <inttypes.h>
#include <stdio.h>
#include <string.h>

enum {
    ENOUGH = 10000,         /* plans from which on the shares say something */
    LINE_BYTES = 8,
    LINES_MOST = 129,       /* of the longest program, with its end mark */
    STATE_MOST = 9999
};

enum row {
    /* every answer is one of these */
    ACCEPTED,
    BAD_PROGRAM,
    BAD_MOVES,
    BAD_TIME,
    /* what is met besides */
    SEVERAL_REFUSALS,
    NO_MOVE,
    PART_OF_A_MOVE,
    SEVENTEEN_MOVES,
    TIME_OF_0,
    TIME_TOO_LONG,
    LAST_TIME_ALONE,
    ONE_MOVE,
    SIXTEEN_MOVES,
    TIME_1,
    TIME_9999,
    TIME_10000,
    TIME_19998,
    TIME_19999,
    TIME_600000,
    NO_REMAINDER,
    WORD_0,
    EQUAL_NEIGHBOURS,
    MOST_LINES,
    ROWS
};

static const char *const names[ROWS] = {
    [ACCEPTED] = "a program",
    [BAD_PROGRAM] = "030 an area not of 1,600 bytes",
    [BAD_MOVES] = "070 no or too many moves",
    [BAD_TIME] = "071 a time outside its range",
    [SEVERAL_REFUSALS] = "more than one refusal applies",
    [NO_MOVE] = "no numbers",
    [PART_OF_A_MOVE] = "a part of a move",
    [SEVENTEEN_MOVES] = "17 moves",
    [TIME_OF_0] = "071, and a time is 0",
    [TIME_TOO_LONG] = "071, and a time is above 600,000",
    [LAST_TIME_ALONE] = "071, and only the last time is wrong",
    [ONE_MOVE] = "a program of 1 move",
    [SIXTEEN_MOVES] = "a program of 16 moves",
    [TIME_1] = "a program with a time of 1",
    [TIME_9999] = "a program with a time of 9,999",
    [TIME_10000] = "a program with a time of 10,000",
    [TIME_19998] = "a program with a time of 19,998",
    [TIME_19999] = "a program with a time of 19,999",
    [TIME_600000] = "a program with a time of 600,000",
    [NO_REMAINDER] = "a program with a loop that leaves no remainder",
    [WORD_0] = "a program with a word 0",
    [EQUAL_NEIGHBOURS] = "a program with equal words behind each other",
    [MOST_LINES] = "a program of 129 lines",
};

struct planning {
    uint64_t plans;
    uint64_t seed;
    uint64_t done;
    uint64_t met[ROWS];
    uint64_t met_other; /* an answer that is none of these */
    FILE *file;         /* gets plans and answers, or NULL */
};

/* ---- what they made */

/* Lines before the end mark, by the times alone. */
static unsigned lines_of(const struct order *order)
{
    unsigned lines = 0;
    for (size_t i = 1; i < order->count; i += 2)
        lines += order->numbers[i] <= STATE_MOST ? 1 : order->numbers[i] % STATE_MOST == 0 ? 3 : 4;
    return lines;
}

/* The reports of a program that a plan became: it takes the sum of the times, and ends there on the line behind its last. */
static const char *reported(const struct order *order, const struct made *proved)
{
    static char complaint[160];
    uint64_t ticks = order_ticks(order);
    struct nizhalepu_duration duration = nizhalepu_duration(proved->area, NIZHALEPU_PROGRAM);
    struct nizhalepu_stop stop = nizhalepu_explain(proved->area, NIZHALEPU_PROGRAM, 0, NIZHALEPU_LIMIT_MOST);
    bool within = ticks <= NIZHALEPU_LIMIT_MOST, ends = stop.event == NIZHALEPU_EVENT_END && stop.tick == ticks;
    if (duration.refusal == 0 && duration.ticks == ticks && (within ? ends && stop.line == lines_of(order) : stop.event == 0)) return NULL;
    snprintf(complaint, sizeof complaint,
             "its sum is %" PRIu64 "; nizhalepu_duration tells %" PRIu64 ", and nizhalepu_explain event %03u at tick %" PRIu32
             " on line %03u",
             ticks, duration.ticks, stop.event, stop.tick, stop.line);
    return complaint;
}

/* All bytes of the area are compared, those behind the length that was lent too; and what a refusal leaves is what stood there before. */
static const char *difference(const struct order *order, struct made *proved, struct made *independent)
{
    order_proved(order, proved);
    order_independent(order, independent);
    if (proved->refusal != independent->refusal) return "the refusals differ";
    if (proved->refusal != 0 && memcmp(proved->area, order->area, ORDER_AREA_MOST) != 0) return "the proved one has written and refused";
    if (memcmp(proved->area, independent->area, ORDER_AREA_MOST) != 0) return "the areas differ";
    return proved->refusal == 0 ? reported(order, proved) : NULL;
}

static void keep_number(FILE *file, uint64_t number, int bytes)
{
    for (int shift = 8 * bytes - 8; shift >= 0; shift -= 8) putc((int)(number >> shift & 255), file);
}

static void keep(FILE *file, const struct order *order, const struct made *proved)
{
    if (file == NULL) return;
    bool as_it_was = proved->refusal != 0 && memcmp(proved->area, order->area, order->length) == 0;
    keep_number(file, order->count, 2);
    for (size_t i = 0; i < order->count; i++) keep_number(file, order->numbers[i], 4);
    keep_number(file, order->length, 2);
    keep_number(file, proved->refusal, 1);
    keep_number(file, as_it_was, 1);
    if (!as_it_was) fwrite(proved->area, 1, order->length, file);
}

/* ---- what was met */

static bool is_time(uint32_t ticks)
{
    return ticks > 0 && ticks <= NIZHALEPU_TIME_MOST;
}

/* Numbers that are times and out of range. */
static unsigned wrong_times(const struct order *order)
{
    unsigned wrong = 0;
    for (size_t i = 1; i < order->count; i += 2) wrong += !is_time(order->numbers[i]);
    return wrong;
}

static bool wrong_moves(const struct order *order)
{
    return order->count == 0 || order->count % MOVE_NUMBERS != 0 || order->count > MOVE_NUMBERS * NIZHALEPU_MOVES_MOST;
}

static void count_refused(struct planning *planning, const struct order *order, unsigned refusal)
{
    uint64_t *met = planning->met;
    unsigned wrong = wrong_times(order);
    bool zero = false, above = false;
    for (size_t i = 1; i < order->count; i += 2) {
        zero = zero || order->numbers[i] == 0;
        above = above || order->numbers[i] > NIZHALEPU_TIME_MOST;
    }
    met[SEVERAL_REFUSALS] += (order->length != NIZHALEPU_PROGRAM) + wrong_moves(order) + (wrong > 0) > 1;
    met[NO_MOVE] += refusal == NIZHALEPU_BAD_MOVES && order->count == 0;
    met[PART_OF_A_MOVE] += refusal == NIZHALEPU_BAD_MOVES && order->count % MOVE_NUMBERS != 0;
    met[SEVENTEEN_MOVES] += refusal == NIZHALEPU_BAD_MOVES && order->count == MOVE_NUMBERS * (NIZHALEPU_MOVES_MOST + 1);
    met[TIME_OF_0] += refusal == NIZHALEPU_BAD_TIME && zero;
    met[TIME_TOO_LONG] += refusal == NIZHALEPU_BAD_TIME && above;
    met[LAST_TIME_ALONE] += refusal == NIZHALEPU_BAD_TIME && wrong == 1 && !is_time(order->numbers[order->count - 1]);
}

static bool has_time(const struct order *order, uint32_t ticks)
{
    for (size_t i = 1; i < order->count; i += 2)
        if (order->numbers[i] == ticks) return true;
    return false;
}

static void count_accepted(struct planning *planning, const struct order *order)
{
    uint64_t *met = planning->met;
    bool whole = false, zero = false, equal = false;
    for (size_t i = 0; i < order->count; i += 2) {
        whole = whole || (order->numbers[i + 1] > STATE_MOST && order->numbers[i + 1] % STATE_MOST == 0);
        zero = zero || order->numbers[i] == 0;
        equal = equal || (i > 0 && order->numbers[i] == order->numbers[i - 2]);
    }
    met[ONE_MOVE] += order->count == MOVE_NUMBERS;
    met[SIXTEEN_MOVES] += order->count == MOVE_NUMBERS * NIZHALEPU_MOVES_MOST;
    met[TIME_1] += has_time(order, 1);
    met[TIME_9999] += has_time(order, 9999);
    met[TIME_10000] += has_time(order, 10000);
    met[TIME_19998] += has_time(order, 19998);
    met[TIME_19999] += has_time(order, 19999);
    met[TIME_600000] += has_time(order, 600000);
    met[NO_REMAINDER] += whole;
    met[WORD_0] += zero;
    met[EQUAL_NEIGHBOURS] += equal;
    met[MOST_LINES] += lines_of(order) + 1 == LINES_MOST;
}

static void count(struct planning *planning, const struct order *order, unsigned refusal)
{
    switch (refusal) {
    case NIZHALEPU_ACCEPTED:
        planning->met[ACCEPTED]++;
        count_accepted(planning, order);
        return;
    case NIZHALEPU_BAD_PROGRAM:
        planning->met[BAD_PROGRAM]++;
        break;
    case NIZHALEPU_BAD_MOVES:
        planning->met[BAD_MOVES]++;
        break;
    case NIZHALEPU_BAD_TIME:
        planning->met[BAD_TIME]++;
        break;
    default:
        planning->met_other++;
        return;
    }
    count_refused(planning, order, refusal);
}

/* ---- a difference */

/* Takes moves out as long as a difference stays. */
static void shorten(struct order *order)
{
    struct made proved, independent;
    for (size_t move = order->count / MOVE_NUMBERS; move-- > 0;) {
        struct order shorter = *order;
        order_take_out(&shorter, move);
        if (difference(&shorter, &proved, &independent) != NULL) *order = shorter;
    }
}

static void print_line(const char *name, const uint8_t *line)
{
    printf("  %-12s", name);
    for (unsigned i = 0; i < LINE_BYTES; i++) printf(" %02X", line[i]);
    putchar('\n');
}

/* The refusals, and the first line of the area in which they differ from each other, or from what stood there. */
static void print_made(const struct order *order)
{
    struct made proved, independent;
    const char *what = difference(order, &proved, &independent);
    printf("  proved: refusal %03u; independent: refusal %03u; %s\n", proved.refusal, independent.refusal, what != NULL ? what : "equal");
    for (size_t at = 0; at < ORDER_AREA_MOST; at += LINE_BYTES) {
        bool as_it_was = proved.refusal == 0 || memcmp(proved.area + at, order->area + at, LINE_BYTES) == 0;
        if (as_it_was && memcmp(proved.area + at, independent.area + at, LINE_BYTES) == 0) continue;
        printf("  line %03zu of the area:\n", at / LINE_BYTES);
        print_line("before", order->area + at);
        print_line("proved", proved.area + at);
        print_line("independent", independent.area + at);
        return;
    }
}

static void report_difference(const struct planning *planning, struct order *order)
{
    printf("A DIFFERENCE in plan %" PRIu64 " of seed %" PRIu64 ":\n", planning->done + 1, planning->seed);
    order_print(order);
    print_made(order);
    shorten(order);
    puts("The same with as few moves as were found:");
    order_print(order);
    print_made(order);
    printf("To see it again: compare plan --plans %" PRIu64 " --seed %" PRIu64 "\n", planning->plans, planning->seed);
}

/* ---- all of them */

static bool compare_all(struct planning *planning)
{
    static struct order order;
    static struct made proved, independent;
    struct chance seeds = {planning->seed};
    for (; planning->done < planning->plans; planning->done++) {
        struct chance chance = {chance_next(&seeds)};
        order_make(&order, &chance);
        if (difference(&order, &proved, &independent) != NULL) {
            report_difference(planning, &order);
            return false;
        }
        keep(planning->file, &order, &proved);
        count(planning, &order, proved.refusal);
    }
    return true;
}

static int finish(const struct planning *planning, double seconds)
{
    bool met = planning->met_other == 0;
    printf("%" PRIu64 " plans to both in %.1f s: equal in every refusal and in every byte of the area.\n", planning->done, seconds);
    for (unsigned row = 0; row < ROWS; row++) {
        double share = 100.0 * (double)planning->met[row] / (double)planning->done;
        printf("  %-52s %12" PRIu64 " %8.2f %%\n", names[row], planning->met[row], share);
        met = met && share >= 0.1;
    }
    printf("  %-52s %12" PRIu64 "\n", "an answer that is none of these", planning->met_other);
    if (met || planning->done < ENOUGH) return 0;
    puts("\nSELDOM MET: a row has less than one in a thousand, or an answer is none of these; so this run has not shown what it claims.");
    return 1;
}

static int cannot_write(const char *path)
{
    fprintf(stderr, "compare: cannot write %s: %s\n", path, strerror(errno));
    return 2;
}

int compare_plan(uint64_t plans, uint64_t seed, const char *path)
{
    struct planning planning = {.plans = plans, .seed = seed};
    uint64_t start = clock_nanoseconds();
    bool written = true;
    if (path != NULL && (planning.file = fopen(path, "wb")) == NULL) return cannot_write(path);
    printf("seed %" PRIu64 "\n", seed);
    bool equal = compare_all(&planning);
    if (planning.file != NULL) {
        written = !ferror(planning.file);
        written = fclose(planning.file) == 0 && written;
    }
    if (!written) return cannot_write(path);
    return equal ? finish(&planning, (double)(clock_nanoseconds() - start) / 1e9) : 1;
}
