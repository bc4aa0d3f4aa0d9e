/* stack.c: the stack that calls take. A call runs on a painted stack of its own; the bytes below which the paint is whole are
 * what it touched. The same for an empty function with the same arguments is taken off, so what remains is the stack beyond
 * the arguments and the return address of the call. */
#ifndef _GNU_SOURCE
#define _GNU_SOURCE
#endif
#include "both.h"
#include "compare.h"
#include "maker.h"
#include "prepare.h"

#include <stdio.h>
#include <string.h>
#include <ucontext.h>

enum { STACK = 64 * 1024, LOG_LENGTH = 1000, PAINT = 0xA5, RANDOM_CALLS = 500000 };

enum { OF_BYTE, OF_TICK, CALLS };

/* The proved box's calls stay under so many bytes (docs/SPEED.md); one that does not ends the measurement with status 1. */
static const size_t limits[CALLS] = {900, 400};

static _Alignas(64) uint8_t painted[STACK];
static ucontext_t here;

static void run_at(uint8_t *stack, void (*task)(void))
{
    static ucontext_t there;
    getcontext(&there);
    there.uc_stack.ss_sp = stack;
    there.uc_stack.ss_size = STACK;
    there.uc_link = &here;
    makecontext(&there, task, 0);
    swapcontext(&here, &there);
}

static size_t touched(const uint8_t *stack, uint8_t paint)
{
    size_t whole = 0;
    while (whole < STACK && stack[whole] == paint) whole++;
    return STACK - whole;
}

/* ---- empty functions with the same arguments */

#pragma GCC diagnostic push
#pragma GCC diagnostic ignored "-Wunused-parameter"

static struct nizhalepu_said no_proved_byte(struct nizhalepu_record *record, uint8_t byte, uint8_t *program, size_t program_length,
                                            uint8_t *saved, size_t saved_length, uint8_t *log, size_t log_length, uint8_t *reply,
                                            size_t reply_length)
{
    return (struct nizhalepu_said){0};
}

static struct nizhalepu_said no_proved_tick(struct nizhalepu_record *record, const uint8_t *program, size_t program_length,
                                            uint8_t *log, size_t log_length)
{
    return (struct nizhalepu_said){0};
}

static struct box_said no_independent_byte(struct box *box, uint8_t byte, uint8_t *program, size_t program_length, uint8_t *saved,
                                           size_t saved_length, uint8_t *log, size_t log_length, uint8_t *reply,
                                           size_t reply_length)
{
    return (struct box_said){0};
}

static struct box_said no_independent_tick(struct box *box, const uint8_t *program, size_t program_length, uint8_t *log,
                                           size_t log_length)
{
    return (struct box_said){0};
}

#pragma GCC diagnostic pop

/* ---- the call to be measured. The pointers are volatile, so that the empty functions are called in earnest. */

static struct both both;
static struct step step;
static volatile struct said said; /* so that a call is made for its answer, and not in place of its own caller */
static struct nizhalepu_said (*volatile proved_byte)(struct nizhalepu_record *, uint8_t, uint8_t *, size_t, uint8_t *, size_t,
                                                     uint8_t *, size_t, uint8_t *, size_t);
static struct nizhalepu_said (*volatile proved_tick)(struct nizhalepu_record *, const uint8_t *, size_t, uint8_t *, size_t);
static struct box_said (*volatile independent_byte)(struct box *, uint8_t, uint8_t *, size_t, uint8_t *, size_t, uint8_t *, size_t,
                                                    uint8_t *, size_t);
static struct box_said (*volatile independent_tick)(struct box *, const uint8_t *, size_t, uint8_t *, size_t);

static void note_said(unsigned refusal, unsigned lines, size_t written)
{
    said.refusal = (uint8_t)refusal;
    said.lines = (uint16_t)lines;
    said.written = written;
}

static void call_proved_byte(void)
{
    uint8_t **area = both.area[PROVED];
    const struct lengths *lent = &step.lent;
    struct nizhalepu_said got =
        proved_byte(both.record, (uint8_t)step.value, area[PROGRAM], lent->program, area[SAVED], lent->saved, area[LOG],
                    lent->log, area[REPLY], lent->other);
    note_said(got.refusal, got.lines, got.written);
}

static void call_proved_tick(void)
{
    uint8_t **area = both.area[PROVED];
    const struct lengths *lent = &step.lent;
    struct nizhalepu_said got = proved_tick(both.record, area[PROGRAM], lent->program, area[LOG], lent->log);
    note_said(got.refusal, got.lines, got.written);
}

static void call_independent_byte(void)
{
    uint8_t **area = both.area[INDEPENDENT];
    const struct lengths *lent = &step.lent;
    struct box_said got =
        independent_byte(both.box, (uint8_t)step.value, area[PROGRAM], lent->program, area[SAVED], lent->saved, area[LOG],
                         lent->log, area[REPLY], lent->other);
    note_said(got.refusal, got.lines, got.written);
}

static void call_independent_tick(void)
{
    uint8_t **area = both.area[INDEPENDENT];
    const struct lengths *lent = &step.lent;
    struct box_said got = independent_tick(both.box, area[PROGRAM], lent->program, area[LOG], lent->log);
    note_said(got.refusal, got.lines, got.written);
}

static void set_calls(bool empty)
{
    proved_byte = empty ? no_proved_byte : nizhalepu_byte;
    proved_tick = empty ? no_proved_tick : nizhalepu_tick;
    independent_byte = empty ? no_independent_byte : box_byte;
    independent_tick = empty ? no_independent_tick : box_tick;
}

static void (*const tasks[BOXES][CALLS])(void) = {
    {call_proved_byte, call_proved_tick},
    {call_independent_byte, call_independent_tick},
};

/* ---- known calls: commands that lead to the call, and the call: the 13 of the last command, or a tick after it */

struct instance {
    const char *name;
    const char *commands[3];
    bool tick;
};

static const struct instance instances[] = {
    {"byte: 13 alone, E001", {""}, false},
    {"byte: 13 of a read of 201", {"CR201"}, false},
    {"byte: 13 of a read of a State line", {"CW000S00123456780005", "CR000"}, false},
    {"byte: 13 of a read of a Bad line, E024", {"CW210007", "CR000"}, false},
    {"byte: 13 of a write of a State line", {"CW199S00FFFFFFFF9999"}, false},
    {"byte: 13 of a write to 206, a change in the log", {"CW20655"}, false},
    {"byte: 13 of 003, a start", {"CW210003"}, false},
    {"byte: 13 of 005, a start that runs 400 lines", {"CW209001", "CW210005"}, false},
    {"byte: 13 of 006, one line", {"CW209000", "CW210006"}, false},
    {"byte: 13 of 007, load", {"CW210007"}, false},
    {"byte: 13 of 008, save", {"CW210008"}, false},
    {"tick: stopped", {"CW210001"}, true},
    {"tick: that runs 400 lines", {"CW210003"}, true},
    {"tick: that passes a loop of none", {"CW001F10000", "CW210003"}, true},
    {"tick: that makes a change in the log", {"CW001S00000000070001", "CW210003"}, true},
    {"tick: that comes to a Bad line", {"CW210007", "CW000S00000000010001", "CW210003"}, true},
};

/* Up to the call itself, which is left in `step`. The saved copy is zeros: 007 makes every line Bad. */
static void lead_to(const struct instance *instance, int which)
{
    struct step on = prepare_step(POWER_ON, 0, LOG_LENGTH);
    memset(both.area[which][SAVED], 0, NIZHALEPU_PROGRAM);
    both_call(&both, which, &on);
    prepare_far(both.area[which][PROGRAM], 'N');
    step = prepare_step(BYTE, 0, LOG_LENGTH);
    for (int i = 0; i < 3 && instance->commands[i] != NULL; i++) {
        bool last = !instance->tick && (i == 2 || instance->commands[i + 1] == NULL);
        for (const char *c = instance->commands[i]; *c != 0; c++) {
            step.value = (uint8_t)*c;
            both_call(&both, which, &step);
        }
        step.value = 13;
        if (!last) both_call(&both, which, &step);
    }
}

/* With two paints, for a byte touched may be painted alike; the first time is for what the linker puts off. */
static size_t measure(const struct instance *instance, int which)
{
    static const uint8_t paints[] = {0, PAINT, 0x5A};
    size_t most[2] = {0, 0};
    for (int empty = 0; empty < 2; empty++)
        for (int i = 0; i < 3; i++) {
            lead_to(instance, which);
            set_calls(empty);
            memset(painted, paints[i], STACK);
            run_at(painted, tasks[which][instance->tick ? OF_TICK : OF_BYTE]);
            size_t size = touched(painted, paints[i]);
            if (i > 0 && size > most[empty]) most[empty] = size;
        }
    return most[0] - most[1];
}

static bool print_sizes(const char *name, const char *lines, const size_t sizes[BOXES], int call, bool equal)
{
    bool deep = sizes[PROVED] >= limits[call];
    printf("  %-48s %6s %8zu %12zu%s%s\n", name, lines, sizes[PROVED], sizes[INDEPENDENT], deep ? "  TOO DEEP" : "",
           equal ? "" : "  NOT EQUAL");
    return equal && !deep;
}

static bool print_instance(const struct instance *instance)
{
    size_t sizes[BOXES];
    char lines[8];
    struct said seen[BOXES];
    for (int which = 0; which < BOXES; which++) {
        sizes[which] = measure(instance, which);
        lead_to(instance, which);
        struct step call = instance->tick ? prepare_step(TICK, 0, LOG_LENGTH) : step;
        seen[which] = both_call(&both, which, &call);
    }
    bool equal = both_areas_equal(&both) && seen[0].lines == seen[1].lines && seen[0].written == seen[1].written;
    snprintf(lines, sizeof lines, "%u", (unsigned)seen[0].lines);
    return print_sizes(instance->name, lines, sizes, instance->tick ? OF_TICK : OF_BYTE, equal);
}

/* ---- random calls: each sort on a stack that is painted once, so that the deepest of all shows at the end */

static uint8_t deep[BOXES][CALLS][STACK];

/* Whether both boxes said the same. */
static bool do_step(const struct step *next)
{
    struct said answers[BOXES];
    step = *next;
    if (step.kind != BYTE && step.kind != TICK) {
        both_do(&both, &step);
        return true; /* `compare` looks at these */
    }
    for (int which = 0; which < BOXES; which++) {
        int call = step.kind == TICK ? OF_TICK : OF_BYTE;
        run_at(deep[which][call], tasks[which][call]);
        answers[which] = (struct said){said.refusal, said.lines, said.written};
    }
    return answers[0].refusal == answers[1].refusal && answers[0].lines == answers[1].lines &&
           answers[0].written == answers[1].written;
}

static bool random_calls(void)
{
    struct maker maker = {0};
    struct chance seeds = {1};
    bool equal = true;
    for (size_t made = 0; made < RANDOM_CALLS;) {
        size_t calls = episode_begin(&maker, &both, chance_next(&seeds));
        for (size_t i = 0; i < calls; i++) equal &= do_step(episode_next(&maker));
        made += calls;
        equal &= both_areas_equal(&both);
        both_free(&both);
    }
    steps_free(&maker.row);
    return equal;
}

/* What the empty functions take, to be taken off. */
static void measure_empty(size_t sizes[BOXES][CALLS])
{
    set_calls(true);
    for (int which = 0; which < BOXES; which++)
        for (int call = 0; call < CALLS; call++) {
            memset(painted, PAINT, STACK);
            run_at(painted, tasks[which][call]);
            sizes[which][call] = touched(painted, PAINT);
        }
    set_calls(false);
}

static bool print_random(size_t empty[BOXES][CALLS])
{
    static const char *const names[CALLS] = {"the deepest byte call of random calls", "the deepest tick call of random calls"};
    memset(deep, PAINT, sizeof deep);
    bool equal = random_calls(), good = equal;
    putchar('\n');
    for (int call = 0; call < CALLS; call++) {
        size_t sizes[BOXES];
        for (int which = 0; which < BOXES; which++) sizes[which] = touched(deep[which][call], PAINT) - empty[which][call];
        good &= print_sizes(names[call], "", sizes, call, equal);
    }
    return good;
}

int compare_stack(void)
{
    size_t empty[BOXES][CALLS];
    bool good = true;
    both_make(&both, LOG_LENGTH, 0);
    puts("bytes of stack that a call touches, beyond its arguments and its return address\n");
    printf("  %-48s %6s %8s %12s\n", "", "lines", "proved", "independent");
    for (size_t i = 0; i < sizeof instances / sizeof *instances; i++) good &= print_instance(&instances[i]);
    measure_empty(empty);
    both_free(&both);
    good &= print_random(empty);
    return good ? 0 : 1;
}
