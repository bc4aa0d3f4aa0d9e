#include "line.h"

#include <stdio.h>
#include <string.h>

uint32_t line_outputs(struct chance *chance)
{
    static const uint32_t few[] = {0, 1, 0x80, 0x80000000, 0x00FF0000};
    return chance_one_in(chance, 2) ? few[chance_below(chance, 5)] : (uint32_t)chance_next(chance);
}

void line_state(uint8_t line[LINE_BYTES], uint32_t outputs, unsigned time)
{
    line[0] = 0x53;
    line[1] = 0;
    line[2] = (uint8_t)(outputs >> 24);
    line[3] = (uint8_t)(outputs >> 16);
    line[4] = (uint8_t)(outputs >> 8);
    line[5] = (uint8_t)outputs;
    line[6] = (uint8_t)(time >> 8);
    line[7] = (uint8_t)time;
}

void line_for(uint8_t line[LINE_BYTES], unsigned counter, unsigned count)
{
    memset(line, 0, LINE_BYTES);
    line[0] = 0x46;
    line[1] = (uint8_t)counter;
    line[2] = (uint8_t)(count >> 8);
    line[3] = (uint8_t)count;
}

void line_next(uint8_t line[LINE_BYTES], unsigned counter)
{
    memset(line, 0, LINE_BYTES);
    line[0] = 0x4E;
    line[1] = (uint8_t)counter;
}

static unsigned any_time(struct chance *chance)
{
    if (chance_one_in(chance, 40)) return chance_below(chance, 10000);
    if (chance_one_in(chance, 12)) return 0;
    return chance_between(chance, 1, 5);
}

static unsigned any_count(struct chance *chance)
{
    if (chance_one_in(chance, 30)) return chance_below(chance, 10000);
    if (chance_one_in(chance, 10)) return 0;
    return chance_between(chance, 1, 6);
}

void line_any(uint8_t line[LINE_BYTES], struct chance *chance)
{
    switch (chance_below(chance, 4)) {
    case 0:
        line_for(line, chance_between(chance, 1, 4), any_count(chance));
        break;
    case 1:
        line_next(line, chance_between(chance, 1, 4));
        break;
    default:
        line_state(line, line_outputs(chance), any_time(chance));
        break;
    }
}

/* `counter_0` is the first of the two faults of a counter. */
static enum fault counter_fault(unsigned counter, enum fault counter_0)
{
    if (counter == 0) return counter_0;
    return counter > 4 ? counter_0 + 1 : FAULT_NONE;
}

enum fault line_fault(const uint8_t line[LINE_BYTES])
{
    static const uint8_t zeros[LINE_BYTES];
    enum fault counter;
    switch (line[0]) {
    case 0x53:
        if (line[1] != 0) return FAULT_STATE_SECOND_BYTE;
        return line[6] * 256u + line[7] > 9999 ? FAULT_STATE_TIME : FAULT_NONE;
    case 0x46:
        counter = counter_fault(line[1], FAULT_FOR_COUNTER_0);
        if (counter != FAULT_NONE) return counter;
        if (line[2] * 256u + line[3] > 9999) return FAULT_FOR_COUNT;
        return memcmp(line + 4, zeros, 4) != 0 ? FAULT_FOR_ZEROS : FAULT_NONE;
    case 0x4E:
        counter = counter_fault(line[1], FAULT_NEXT_COUNTER_0);
        if (counter != FAULT_NONE) return counter;
        return memcmp(line + 2, zeros, 6) != 0 ? FAULT_NEXT_ZEROS : FAULT_NONE;
    default:
        return memcmp(line, zeros, LINE_BYTES) == 0 ? FAULT_ALL_ZERO : FAULT_FIRST_BYTE;
    }
}

bool line_is_bad(const uint8_t line[LINE_BYTES])
{
    return line_fault(line) != FAULT_NONE;
}

/* One of the three letters, one next to them, a small one, or any byte. */
static uint8_t any_first(struct chance *chance)
{
    static const char usual[] = "SFNRTEGMOsfn";
    return chance_one_in(chance, 3) ? (uint8_t)chance_next(chance) : (uint8_t)usual[chance_below(chance, sizeof usual - 1)];
}

static void put_above_9999(uint8_t *to, struct chance *chance)
{
    unsigned over = chance_one_in(chance, 2) ? 10000 : chance_between(chance, 10000, 65535);
    to[0] = (uint8_t)(over >> 8);
    to[1] = (uint8_t)over;
}

/* Each way to miss one of the three forms, the bounds 0 and 5 of the counter and 10,000 of times and counts among them. */
void line_damaged(uint8_t line[LINE_BYTES], struct chance *chance)
{
    static const uint8_t counters[] = {0, 0, 5, 255};
    line_any(line, chance);
    bool state = line[0] == 0x53;
    switch (chance_below(chance, 10)) {
    case 0:
        line[0] = any_first(chance);
        break;
    case 1:
    case 2:
    case 3:
        line[1] = state ? (uint8_t)chance_between(chance, 1, 255) : counters[chance_below(chance, 4)];
        break;
    case 4: /* in a Next these bytes have to be 0 */
    case 5:
        put_above_9999(line + (state ? 6 : 2), chance);
        break;
    case 6: /* one that has to be 0; a State has but one */
        line[state ? 1 : chance_between(chance, 4, 7)] = (uint8_t)chance_between(chance, 1, 255);
        break;
    case 7: /* one byte, of which one bit or all are others */
        line[chance_below(chance, LINE_BYTES)] ^= (uint8_t)(chance_one_in(chance, 2) ? 1u << chance_below(chance, 8) : chance_next(chance));
        break;
    case 8:
        memset(line, 0, LINE_BYTES);
        break;
    default:
        for (unsigned i = 0; i < LINE_BYTES; i++) line[i] = (uint8_t)chance_next(chance);
        break;
    }
}

void line_bad(uint8_t line[LINE_BYTES], struct chance *chance)
{
    do
        line_damaged(line, chance);
    while (!line_is_bad(line));
}

void line_text(char text[LINE_TEXT], const uint8_t line[LINE_BYTES])
{
    unsigned counter = line[1] % 10u;
    if (line[0] == 0x53)
        snprintf(text, LINE_TEXT, "S%02X%02X%02X%02X%02X%04u", line[1], line[2], line[3], line[4], line[5],
                 (line[6] * 256u + line[7]) % 10000u);
    else if (line[0] == 0x46)
        snprintf(text, LINE_TEXT, "F%u%04u", counter, (line[2] * 256u + line[3]) % 10000u);
    else if (line[0] == 0x4E)
        snprintf(text, LINE_TEXT, "N%u", counter);
    else
        text[0] = 0;
}
