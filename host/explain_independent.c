/*
 * explain_independent.c: the program explain around the independent reading: a stored program as input, a start line and a limit in ticks
 * as arguments, and on standard output two lines: the answer in short fields, and the same as a sentence that says what to do.
 */
#include "explain.h"
#include "shell.h"

#include <stdarg.h>
#include <stdio.h>
#include <stdlib.h>

enum { PROGRAM = 1600, LINE = 8, TEXT = 16 }; /* bytes of a program, of a line, and of its text with a zero behind it */

enum { LONGEST = 256 }; /* more characters than any line has that is written */

enum { START, LIMIT, NUMBERS }; /* the numbers before the FILE */

enum { BUSY = 6, NO_NEXT = 7, NO_FOR = 8, PAST_LAST = 9, END = 11, TOO_LONG = 13, BAD_LINE = 14 };

enum { BAD_PROGRAM = 30, BAD_START = 60 };

static void put(const char *format, ...)
{
    char text[LONGEST];
    va_list values;
    va_start(values, format);
    int length = vsnprintf(text, sizeof text, format, values);
    va_end(values);
    shell_put(text, (size_t)length);
}

/* ---- a stop */

/* The line as a read of it over the wire answers. */
static void write_line(char text[TEXT], const uint8_t line[LINE], bool bad)
{
    unsigned counter = line[1], count = line[2] * 256u + line[3], time = line[6] * 256u + line[7];
    if (bad)
        snprintf(text, TEXT, "E024");
    else if (line[0] == 'S')
        snprintf(text, TEXT, "S00%02X%02X%02X%02X%04u", line[2], line[3], line[4], line[5], time);
    else if (line[0] == 'F')
        snprintf(text, TEXT, "F%u%04u", counter, count);
    else
        snprintf(text, TEXT, "N%u", counter);
}

static void put_fields(const struct explained *stop)
{
    put("%03u %u %03u ", stop->event, stop->tick, stop->line);
    if (stop->event == NO_FOR)
        put("%s\n", stop->cause != 0 ? "yes" : "no");
    else if (stop->event == NO_NEXT)
        put("%u\n", stop->cause);
    else if (stop->cause != EXPLAIN_NO_CAUSE)
        put("%03u\n", stop->cause);
    else
        put("-\n");
}

static void put_too_long(const struct explained *stop)
{
    put("more than 400 For and Next lines fell due in ");
    if (stop->cause != EXPLAIN_NO_CAUSE)
        put("one tick, behind the State on line %03u. ", stop->cause);
    else
        put("the start itself. ");
    put("Put a State with a time above 0 into the loop.\n");
}

/* The reason; `counter` is that of the For or Next on which the program stopped. */
static void put_reason(const struct explained *stop, unsigned counter)
{
    switch (stop->event) {
    case BUSY:
        put("counter %u was still in use by the For on line %03u. ", counter, stop->cause);
        if (stop->cause < stop->line)
            put("Give the inner loop another counter.\n");
        else /* a jump back came to it before that loop was over */
            put("Two loops cross: end the inner one before the outer one.\n");
        break;
    case NO_NEXT:
        put("no Next of counter %u stands on a later line. Write N%u on the line where the loop ends.\n", stop->cause, stop->cause);
        break;
    case NO_FOR:
        if (stop->cause != 0)
            put("counter %u was not in use, although a For of it stands above. Start at that For or above it, or take this Next out.\n",
                counter);
        else
            put("no For of counter %u stands above. Write one there, or take this Next out.\n", counter);
        break;
    case PAST_LAST:
        put("the program went on past line 199, the last one. Write an end mark, S00000000000000, on the line where it ends.\n");
        break;
    case END:
        put("the program came to its end mark. Nothing has to be done.\n");
        break;
    case TOO_LONG:
        put_too_long(stop);
        break;
    default:
        put("its eight bytes are no State, For or Next. Write this line again.\n");
        break;
    }
}

static void put_stop(const struct explained *stop, const uint8_t *program)
{
    const uint8_t *line = program + stop->line * LINE;
    char text[TEXT];
    write_line(text, line, stop->event == BAD_LINE);
    put_fields(stop);
    put("Stopped after %u.%u s on line %03u (%s): ", stop->tick / 10, stop->tick % 10, stop->line, text);
    put_reason(stop, line[1]);
}

/* ---- no stop */

static void put_refusal(unsigned refusal)
{
    put("E%03u\n", refusal);
    if (refusal == BAD_PROGRAM)
        put("This is no stored program: it has fewer or more than 1600 bytes. Give a file of 200 lines of 8 bytes.\n");
    else if (refusal == BAD_START)
        put("The start line is above 199, the last line. Give a line of 0 to 199.\n");
    else
        put("The limit is above 100000 ticks. Give a limit of 0 to 100000.\n");
}

/* A limit that is not refused is no long number. */
static void put_running(unsigned limit)
{
    put("running\nStill running after %u.%u s: ", limit / 10, limit % 10);
    put("nothing stops it up to the limit. A limit can be as large as 100000 ticks.\n");
}

int main(int argc, char **argv)
{
    static uint8_t program[PROGRAM + 1]; /* one byte too many says that there are more */
    uint64_t numbers[NUMBERS] = {[START] = 0, [LIMIT] = 100000};
    shell_start("explain-independent", "[START [LIMIT [FILE]]]", NUMBERS + 1, argc, argv);
    shell_numbers(numbers, NUMBERS);
    shell_next_input();
    size_t length = shell_read_piece(program, sizeof program);
    struct explained answer = explain_stop(program, length, numbers[START], numbers[LIMIT]);
    if (answer.refusal != 0)
        put_refusal(answer.refusal);
    else if (answer.event != 0)
        put_stop(&answer, program);
    else
        put_running((unsigned)numbers[LIMIT]);
    shell_flush();
    return EXIT_SUCCESS;
}
