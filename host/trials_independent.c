/*
 * trials_independent.c: the program trials around the independent box: records of four bytes as input (what to do, a byte, and two
 * bytes more; the last three are also one number), and after each call a line: the refusal, the lines run, how many bytes were written,
 * a sum of each whole buffer, and the bytes that were written. A record cut short by the end of the input is none.
 */
#include "box.h"
#include "shell.h"

#include <stdio.h>
#include <stdlib.h>
#include <string.h>

enum { PROGRAM, SAVED, LOG, OUT, BUFFERS };
enum { RECORD = 4, BLOCK = 4096, NUMBERS = 2 * 11 + 21 + BUFFERS * 11 }; /* the numbers of a line, each of all its digits and a space */

static uint8_t program[1608], saved[1608], log_area[65544], out[128];

static struct {
    uint8_t *bytes;
    size_t size, lent;
} buffer[BUFFERS] = {
    {program, sizeof program, 1600},
    {saved, sizeof saved, 1600},
    {log_area, sizeof log_area, BOX_LOG_LEAST},
    {out, sizeof out, 16},
};

static struct box *box;

static struct box_said call(uint8_t op, uint8_t byte, uint32_t number)
{
    const size_t p = buffer[PROGRAM].lent, s = buffer[SAVED].lent, l = buffer[LOG].lent, o = buffer[OUT].lent;
    switch (op) {
    case 'o':
        return box_power_on(box, program, p, saved, s, log_area, l);
    case 'b':
        return box_byte(box, byte, program, p, saved, s, log_area, l, out, o);
    case 't':
        return box_tick(box, program, p, log_area, l);
    case 'n':
        return box_press(box, number, program, p, log_area, l);
    default:
        return box_empty(box, log_area, l, out, o);
    }
}

static unsigned sum(const uint8_t *bytes, size_t size)
{
    unsigned h = 0;
    for (size_t i = 0; i < size; i++)
        h = (h * 31 + bytes[i]) % 65521;
    return h;
}

static void tell(struct box_said said)
{
    char numbers[NUMBERS + 1];
    int length = snprintf(numbers, sizeof numbers, "%u %u %zu ", said.refusal, said.lines, said.written);
    for (int i = 0; i < BUFFERS; i++)
        length += snprintf(numbers + length, sizeof numbers - (size_t)length, "%u ", sum(buffer[i].bytes, buffer[i].size));
    shell_put(numbers, (size_t)length);
    shell_put(out, said.written);
    shell_put("\n", 1);
}

/* One record: a call, a byte altered, or a length lent from now on; what is beyond a buffer is ignored, and so is any other record. */
static void take(const uint8_t record[RECORD])
{
    static const char calls[] = "obtne", alters[] = "AVG", lends[] = "PSLR";
    const uint32_t at = record[2] * 256u + record[3], number = record[1] * 65536u + at;
    const char op = (char)record[0], *found;
    if (op == 0)
        return;
    if (strchr(calls, op) != NULL)
        tell(call(record[0], record[1], number));
    if ((found = strchr(alters, op)) != NULL && at < buffer[found - alters].size)
        buffer[found - alters].bytes[at] = record[1];
    if ((found = strchr(lends, op)) != NULL && number <= buffer[found - lends].size)
        buffer[found - lends].lent = number;
}

/* A record is put together from its bytes: one may be cut by the end of a block. */
static void take_all(void)
{
    uint8_t block[BLOCK], record[RECORD];
    size_t count, length = 0;
    while ((count = shell_read(block, sizeof block)) > 0) {
        for (size_t i = 0; i < count; i++) {
            record[length++] = block[i];
            if (length == RECORD) {
                take(record);
                length = 0;
            }
        }
    }
}

int main(int argc, char **argv)
{
    shell_start("trials-independent", "[FILE]", 1, argc, argv);
    box = malloc(box_size());
    if (box == NULL) {
        perror("trials-independent: no memory");
        return EXIT_FAILURE;
    }
    shell_next_input();
    box_power_on(box, out, 0, saved, 0, log_area, 0); /* before any power-on: what a refused one leaves */
    take_all();
    shell_flush();
    return EXIT_SUCCESS;
}
