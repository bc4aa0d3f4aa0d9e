/*
 * durations_independent.c: the program durations around the independent reading: programs of 1,600 bytes one behind the other as input,
 * of one file or of several, and on standard output a line for each, its ticks or its refusal, and one for the total of all. One program
 * is kept at a time.
 */
#include "durations.h"
#include "shell.h"

#include <stdlib.h>

enum { PROGRAM = 1600, LINE = 24 }; /* no line is longer, even one of all digits of 64 bits */

/* The number in decimal, the digits last first; a refusal is E and three of them. */
static void put(struct duration duration)
{
    char line[LINE], *to = line + LINE;
    uint64_t rest = duration.refusal != 0 ? 1000u + duration.refusal : duration.ticks; /* the 1 makes way for the E */
    *--to = '\n';
    do {
        *--to = (char)('0' + rest % 10);
        rest /= 10;
    } while (rest != 0);
    if (duration.refusal != 0)
        *to = 'E';
    shell_put(to, (size_t)(line + LINE - to));
}

/* A total that is over the most stays so, whatever comes. */
static void add(struct duration *total, struct duration duration)
{
    total->ticks += duration.ticks;
    if (total->ticks > DURATION_TOTAL_MOST)
        *total = (struct duration){DURATION_TOO_LONG, DURATION_TOTAL_MOST};
}

/* Answers each program of one input. A piece that is no whole program is its last one. */
static void answer_all(struct duration *total)
{
    static uint8_t program[PROGRAM];
    size_t length;
    while ((length = shell_read_piece(program, PROGRAM)) > 0) {
        struct duration duration = program_duration(program, length);
        add(total, duration);
        put(duration);
    }
}

int main(int argc, char **argv)
{
    struct duration total = {0, 0};
    shell_start("durations-independent", "[FILE...]", SHELL_ANY_NUMBER, argc, argv);
    while (shell_next_input())
        answer_all(&total);
    put(total);
    shell_flush();
    return EXIT_SUCCESS;
}
