#include "clock.h"
#include "compare.h"

#include <stdbool.h>
#include <stdio.h>
#include <string.h>
#include <time.h>

enum { BAD_USAGE = 2, USUAL_CALLS = 10000000, USUAL_PROGRAMS = 100000, USUAL_TICKING = 10000, USUAL_RUNNING = 2000 };

static const char *const usage[] = { /* in parts, since a string has at most 4,095 characters */
    "compare [--calls N] [--seed S] [--logs FILE]\n"
    "                                random calls on the proved box and on the independent one: every return value and\n"
    "                                every byte of every area compared after every call (N ten million if not given,\n"
    "                                S from the clock); a difference prints a short history that shows it. Each log\n"
    "                                that they give, the same under the older mark, logs made up and spoiled copies of all\n"
    "                                go to both readers, and the texts are compared; a difference prints a short log. FILE\n"
    "                                gets every log read and its text, each after its length (four bytes, high byte first), for\n"
    "                                python3 model/loglist.py --check FILE\n"
    "compare speed                   nanoseconds per call of both, on the same calls, and per log of both readers\n"
    "compare stack                   bytes of stack that calls of both take, and whether the proved box keeps under its limits\n"
    "compare limits                  the last tick count and the most changes that a gap can count; takes many minutes\n"
    "compare durations [--programs N] [--seed S] [--keep FILE]\n"
    "                                random programs, many of them refused: how long each takes, by the proved library and\n"
    "                                by the independent reading (N a hundred thousand if not given); a difference prints\n"
    "                                the program. FILE gets every program of 1,600 bytes and behind it the proved answer,\n"
    "                                the number of the refusal (a byte) and the ticks (eight bytes, high byte first), for\n"
    "                                python3 model/durations.py --check FILE\n"
    "compare durations --ticking [N] [--seed S]\n"
    "                                random programs of few ticks (N ten thousand if not given): the proved box runs each\n"
    "                                that is not refused, and must come to event 011 at the tick that the library tells\n",
    "compare explain [--programs N] [--seed S] [--keep FILE]\n"
    "                                random programs, start lines and limits: why each program stops, by the proved library\n"
    "                                and by the independent reading (N a hundred thousand if not given), and as both boxes\n"
    "                                show it where it takes few ticks; a difference prints the program. FILE gets for every\n"
    "                                one its length (two bytes, here and below high byte first), its bytes, start line and\n"
    "                                limit (eight bytes each), and the proved answer: refusal, event (a byte each), tick\n"
    "                                (four bytes), line, cause (a byte each), for python3 model/explain.py --check FILE\n"
    "compare plan [--plans N] [--seed S] [--keep FILE]\n"
    "                                random inclining plans and areas for their programs, some of them refused: every byte\n"
    "                                of the area by the proved library and by the independent reading (N a hundred thousand\n"
    "                                if not given); a difference prints the plan. FILE gets for every one the count of its\n"
    "                                numbers (two bytes, here and below high byte first), the numbers (four each), the length\n"
    "                                of the area (two), the proved refusal (a byte), 1 if the area is as it was (a byte), and\n"
    "                                else its bytes, for python3 model/plan.py --check FILE\n"
    "compare plan --running [N] [--seed S]\n"
    "                                random plans (N two thousand if not given): the proved box runs their programs, by the\n"
    "                                library and by the independent reading, and must have the plan's word at every tick, and\n"
    "                                event 011 at the sum of its times\n",
    "compare totals [--cases N] [--seed S] [--keep FILE]\n"
    "                                random totals and logs, some of them refused: every channel record and all that is\n"
    "                                beside them, by the proved library and by the independent reading (N a hundred thousand\n"
    "                                if not given); a difference prints the log. FILE gets for every one the count of channel\n"
    "                                records (two bytes, here and below high byte first), these (closings, openings, ticks:\n"
    "                                eight each), last tick, last word (four each), number unknown (eight), 1 if \"or more\"\n"
    "                                (one), the length of the log (four), its bytes, the proved refusal (a byte), 1 if all is as\n"
    "                                it was (a byte), and else the records and what is beside them once more, for\n"
    "                                python3 model/totals.py --check FILE\n"
    "compare totals --chains [N] [--seed S]\n"
    "                                random calls on the proved box (N two thousand chains if not given), over power-ons and\n"
    "                                with gaps or without: the totals that its logs give, by the library and by the independent\n"
    "                                reading, must be what was counted beside the box, call by call and tick by tick\n"
    "compare --help                  this text\n"
    "Exit status: 0 equal, 1 a difference, a class of calls, logs, programs or plans never or seldom met or a stack over\n"
    "its limit, 2 bad usage or no FILE.\n",
};

static void print_usage(FILE *to)
{
    for (size_t part = 0; part < sizeof usage / sizeof *usage; part++) fputs(usage[part], to);
}

static int bad_usage(void)
{
    print_usage(stderr);
    return BAD_USAGE;
}

/* A decimal number of 64 bits. */
static bool number(const char *text, uint64_t *value)
{
    *value = 0;
    if (*text == 0) return false;
    for (; *text != 0; text++) {
        unsigned digit = (unsigned)*text - '0';
        if (digit > 9 || *value > (UINT64_MAX - digit) / 10) return false;
        *value = *value * 10 + digit;
    }
    return true;
}

static uint64_t seed_of_clock(void)
{
    return (uint64_t)time(NULL) * 1000003u + clock_nanoseconds() % 1000003u;
}

static int calls(int count, char **words)
{
    uint64_t calls = USUAL_CALLS;
    uint64_t seed = seed_of_clock();
    const char *logs = NULL;
    for (int i = 1; i < count; i += 2) {
        uint64_t *value = NULL;
        if (i + 1 == count) return bad_usage();
        if (strcmp(words[i], "--calls") == 0) value = &calls;
        if (strcmp(words[i], "--seed") == 0) value = &seed;
        if (strcmp(words[i], "--logs") == 0)
            logs = words[i + 1];
        else if (value == NULL || !number(words[i + 1], value))
            return bad_usage();
    }
    return calls == 0 ? bad_usage() : compare_calls(calls, seed, logs);
}

/* The words behind `explain`. */
static int explain(int count, char **words)
{
    const char *path = NULL;
    uint64_t programs = USUAL_PROGRAMS, seed = seed_of_clock();
    for (int i = 2; i < count; i += 2) {
        uint64_t *value = NULL;
        if (i + 1 == count) return bad_usage();
        if (strcmp(words[i], "--programs") == 0) value = &programs;
        if (strcmp(words[i], "--seed") == 0) value = &seed;
        if (strcmp(words[i], "--keep") == 0)
            path = words[i + 1];
        else if (value == NULL || !number(words[i + 1], value))
            return bad_usage();
    }
    return programs == 0 ? bad_usage() : compare_explain(programs, seed, path);
}

/* A comparison that has two ways: of N things made up, of which a file can be kept, and of N others that the box runs. */
struct two_ways {
    const char *things;  /* the option of the first N */
    const char *running; /* the option that asks for the other way; its N stands behind it, or is missing */
    uint64_t usual;      /* N of the other way, where it is not given */
    int (*made_up)(uint64_t, uint64_t, const char *);
    int (*run)(uint64_t, uint64_t);
};

static const struct two_ways durations = {"--programs", "--ticking", USUAL_TICKING, compare_durations, compare_ticking};
static const struct two_ways plans = {"--plans", "--running", USUAL_RUNNING, compare_plan, compare_carrying};
static const struct two_ways totals = {"--cases", "--chains", USUAL_RUNNING, compare_totals, compare_chains};

/* The words behind the comparison's name. */
static int either_way(const struct two_ways *ways, int count, char **words)
{
    const char *path = NULL;
    bool running = count > 2 && strcmp(words[2], ways->running) == 0;
    uint64_t things = running ? ways->usual : USUAL_PROGRAMS, seed = seed_of_clock(), given;
    int first = running ? 3 : 2;
    if (running && count > 3 && number(words[3], &given)) {
        things = given;
        first++;
    }
    for (int i = first; i < count; i += 2) {
        uint64_t *value = NULL;
        if (i + 1 == count) return bad_usage();
        if (strcmp(words[i], "--seed") == 0) value = &seed;
        if (strcmp(words[i], ways->things) == 0 && !running) value = &things;
        if (strcmp(words[i], "--keep") == 0 && !running)
            path = words[i + 1];
        else if (value == NULL || !number(words[i + 1], value))
            return bad_usage();
    }
    if (things == 0) return bad_usage();
    return running ? ways->run(things, seed) : ways->made_up(things, seed, path);
}

int main(int count, char **words)
{
    setvbuf(stdout, NULL, _IOLBF, 0);
    if (count == 2 && strcmp(words[1], "--help") == 0) {
        print_usage(stdout);
        return 0;
    }
    if (count == 2 && strcmp(words[1], "speed") == 0) return compare_speed();
    if (count == 2 && strcmp(words[1], "stack") == 0) return compare_stack();
    if (count == 2 && strcmp(words[1], "limits") == 0) return compare_limits();
    if (count > 1 && strcmp(words[1], "durations") == 0) return either_way(&durations, count, words);
    if (count > 1 && strcmp(words[1], "explain") == 0) return explain(count, words);
    if (count > 1 && strcmp(words[1], "plan") == 0) return either_way(&plans, count, words);
    if (count > 1 && strcmp(words[1], "totals") == 0) return either_way(&totals, count, words);
    return calls(count, words);
}
