/*
 * plan_independent.c: the program plan around the independent reading: an inclining plan as text, and on standard output the bytes of its
 * program, or with --check a table of its ticks. The text is read character by character, so of a text of any length no more is kept than
 * the field at hand and the moves of the longest plan.
 */
#include "plan.h"
#include "shell.h"

#include <stdarg.h>
#include <stdio.h>
#include <stdlib.h>
#include <string.h>

enum { PROGRAM = 1600, BLOCK = 4096, LONGEST = 256 }; /* bytes of a program, of a read, and more characters than a line of the table has */

enum { DIGITS_OF_WORD = 8 };

static const char how[] = "a move is WORD SETTLING WORD READING: words of eight hex digits, times in decimal ticks";

static const char *const not_so[PLAN_NUMBERS] = {
    [PLAN_WORD_OF_MOVE] = "the word of the move is not eight hex digits",
    [PLAN_SETTLING] = "the settling time is not a decimal number",
    [PLAN_WORD_OF_READING] = "the word of the reading is not eight hex digits",
    [PLAN_READING] = "the reading time is not a decimal number",
};

static const char *const missing[PLAN_NUMBERS] = {
    [PLAN_SETTLING] = "the settling time is missing",
    [PLAN_WORD_OF_READING] = "the word of the reading is missing",
    [PLAN_READING] = "the reading time is missing",
};

struct reader {
    uint32_t plan[PLAN_MOVES_MOST + 1][PLAN_NUMBERS]; /* one move more says that there are too many; all others too many go there as well */
    size_t moves;                                     /* at most these */
    uint64_t line;
    unsigned field;    /* fields of the line that have begun */
    bool in_field;     /* the last of them has not ended */
    bool in_comment;
    bool after_return; /* the last character was a carriage return, of which the next tells what it is */
    unsigned digits;   /* of the field, 9 for any more */
    uint32_t value;
};

/* ---- fields */

static _Noreturn void wrong(const struct reader *reader, const char *what)
{
    shell_wrong_line(reader->line, what, how);
}

static bool is_word(const struct reader *reader)
{
    return reader->field == PLAN_WORD_OF_MOVE + 1 || reader->field == PLAN_WORD_OF_READING + 1;
}

/* The value of a hex digit of either case, 16 for any other character. */
static unsigned hex_value(uint8_t character)
{
    if (character >= '0' && character <= '9')
        return character - '0';
    if (character >= 'A' && character <= 'F')
        return character - 'A' + 10;
    if (character >= 'a' && character <= 'f')
        return character - 'a' + 10;
    return 16;
}

/* A time of more than 32 bits stays the most of them, which is out of range too. */
static void add_digit(struct reader *reader, unsigned base, unsigned digit)
{
    if (digit >= base)
        wrong(reader, not_so[reader->field - 1]);
    if (reader->value > (UINT32_MAX - digit) / base)
        reader->value = UINT32_MAX;
    else
        reader->value = base * reader->value + digit;
    if (reader->digits <= DIGITS_OF_WORD)
        reader->digits++;
}

static void end_field(struct reader *reader)
{
    if (!reader->in_field)
        return;
    if (is_word(reader) && reader->digits != DIGITS_OF_WORD)
        wrong(reader, not_so[reader->field - 1]);
    reader->plan[reader->moves < PLAN_MOVES_MOST ? reader->moves : PLAN_MOVES_MOST][reader->field - 1] = reader->value;
    reader->in_field = false;
}

static void begin_field(struct reader *reader)
{
    if (reader->field == PLAN_NUMBERS)
        wrong(reader, "something stands behind the reading time");
    reader->field++;
    reader->in_field = true;
    reader->digits = 0;
    reader->value = 0;
}

/* ---- characters */

static void end_line(struct reader *reader)
{
    end_field(reader);
    if (reader->field > 0 && reader->field < PLAN_NUMBERS)
        wrong(reader, missing[reader->field]);
    if (reader->field > 0 && reader->moves <= PLAN_MOVES_MOST)
        reader->moves++;
    reader->line++;
    reader->field = 0;
    reader->in_comment = false;
}

/* A character that ends no line. */
static void take(struct reader *reader, uint8_t character)
{
    if (reader->in_comment)
        return;
    if (character == ' ' || character == '\t' || character == '#') {
        end_field(reader);
        reader->in_comment = character == '#';
        return;
    }
    if (!reader->in_field)
        begin_field(reader);
    add_digit(reader, is_word(reader) ? 16 : 10, hex_value(character));
}

static void take_any(struct reader *reader, uint8_t character)
{
    if (reader->after_return && character != '\n')
        take(reader, '\r');
    reader->after_return = character == '\r';
    if (character == '\n')
        end_line(reader);
    else if (character != '\r')
        take(reader, character);
}

/* The input ends where no line need end. */
static void read_plan(struct reader *reader)
{
    static uint8_t block[BLOCK];
    size_t length;
    *reader = (struct reader){.line = 1};
    while ((length = shell_read(block, sizeof block)) > 0)
        for (size_t i = 0; i < length; i++)
            take_any(reader, block[i]);
    if (reader->after_return)
        take(reader, '\r');
    end_line(reader);
}

/* ---- the table */

static void put(const char *format, ...)
{
    char text[LONGEST];
    va_list values;
    va_start(values, format);
    int length = vsnprintf(text, sizeof text, format, values);
    va_end(values);
    shell_put(text, (size_t)length);
}

/* Minutes, seconds and tenths. */
static void put_clock(uint32_t ticks)
{
    put("%u:%02u.%u", ticks / 600, ticks % 600 / 10, ticks % 10);
}

/* Answers the tick at which it ends. */
static uint32_t put_stretch(uint32_t word, const char *name, uint32_t from, uint32_t time)
{
    put("%08X %s %u to %u (", word, name, from, from + time);
    put_clock(from);
    put(" to ");
    put_clock(from + time);
    put(")");
    return from + time;
}

static void put_table(const struct reader *reader)
{
    uint32_t tick = 0;
    for (size_t i = 0; i < reader->moves; i++) {
        const uint32_t *move = reader->plan[i];
        put("move %02u: ", (unsigned)i + 1);
        tick = put_stretch(move[PLAN_WORD_OF_MOVE], "settling", tick, move[PLAN_SETTLING]);
        put(", ");
        tick = put_stretch(move[PLAN_WORD_OF_READING], "reading", tick, move[PLAN_READING]);
        put("\n");
    }
    put("total: %u (", tick);
    put_clock(tick);
    put(")\n");
}

int main(int argc, char **argv)
{
    static struct reader reader;
    static uint8_t program[PROGRAM];
    bool check = argc > 1 && strcmp(argv[1], "--check") == 0; /* as the first argument alone; elsewhere there is no such option */
    shell_start("plan-independent", "[--check] [FILE]", 1, argc - check, argv + check);
    shell_next_input();
    read_plan(&reader);
    uint8_t refusal = plan_program(reader.plan[0], reader.moves * PLAN_NUMBERS, program, sizeof program);
    if (refusal != 0)
        put("E%03u\n", refusal);
    else if (check)
        put_table(&reader);
    else
        shell_put(program, sizeof program);
    shell_flush();
    return EXIT_SUCCESS;
}
