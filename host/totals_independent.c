/*
 * totals_independent.c: the program totals around the independent reading: logs in files, in the order in which they were emptied, and on
 * standard output a line for each channel and one for what the logs have lost. One log is kept at a time.
 */
#include "loglist.h"
#include "shell.h"
#include "totals.h"

#include <inttypes.h>
#include <stdarg.h>
#include <stdio.h>
#include <stdlib.h>

enum { LONGEST = 128 }; /* more characters than any line has */

enum { TICK_AT = 4, WORD_AT = 12 }; /* in a record of the log */

enum { EARLIER_TICK = 72, OTHER_WORD = 73 };

static void put(const char *format, ...)
{
    char text[LONGEST];
    va_list values;
    va_start(values, format);
    int length = vsnprintf(text, sizeof text, format, values);
    va_end(values);
    shell_put(text, (size_t)length);
}

static uint32_t number(const uint8_t *bytes)
{
    return (uint32_t)bytes[0] << 24 | (uint32_t)bytes[1] << 16 | (uint32_t)bytes[2] << 8 | bytes[3];
}

/* A log that is refused with either of these two numbers has a first record. */
static _Noreturn void refuse(unsigned refusal, const uint8_t *log, const struct totals_beside *beside)
{
    char why[LONGEST] = "";
    if (refusal == EARLIER_TICK)
        snprintf(why, sizeof why, ": expected a first tick of %" PRIu32 " or later, found %" PRIu32, beside->tick, number(log + TICK_AT));
    if (refusal == OTHER_WORD)
        snprintf(why, sizeof why, ": expected %08" PRIX32 " as the first earlier word, found %08" PRIX32, beside->word,
                 number(log + WORD_AT));
    shell_refuse_input(refusal, why);
}

static void put_totals(const struct totals_channel *channels, const struct totals_beside *beside)
{
    for (unsigned n = 0; n < TOTALS_CHANNELS; n++)
        put("%u %" PRIu64 " %" PRIu64 " %" PRIu64 "\n", n + 1, channels[n].closings, channels[n].openings, channels[n].ticks);
    put("unknown %" PRIu64 "%s\n", beside->unknown, beside->more ? " or more" : "");
}

int main(int argc, char **argv)
{
    static struct totals_channel channels[TOTALS_CHANNELS];
    static uint8_t log[LOG_LIST_MOST + 1]; /* one byte more than the longest log says that a file is too long */
    struct totals_beside beside = {0};
    shell_start("totals-independent", "[LOG...]", SHELL_ANY_NUMBER, argc, argv);
    while (argc > 1 && shell_next_input()) { /* without a LOG nothing is read */
        size_t length = shell_read_piece(log, sizeof log);
        uint8_t refusal = totals_bring_forward(channels, TOTALS_CHANNELS, log, length, &beside);
        if (refusal != 0)
            refuse(refusal, log, &beside);
    }
    put_totals(channels, &beside);
    shell_flush();
    return EXIT_SUCCESS;
}
