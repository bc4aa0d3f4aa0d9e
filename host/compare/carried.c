#include "plans.h"

#include <inttypes.h>
#include <stdio.h>
#include <string.h>

enum { LOG = NIZHALEPU_LOG_LEAST, TEXT = 200, START_STOP = 1, PAUSE = 2 };

static struct nizhalepu_record record;
static uint8_t program[NIZHALEPU_PROGRAM], saved[NIZHALEPU_PROGRAM], log_area[LOG], reply[NIZHALEPU_REPLY], destination[LOG];
static uint64_t tick; /* unpaused ones since the start */
static uint64_t pauses;
static char complaint[TEXT];

/* ---- the box */

static void take_tick(void)
{
    nizhalepu_tick(&record, program, sizeof program, log_area, LOG);
}

static void press(uint32_t button)
{
    nizhalepu_press(&record, button, program, sizeof program, log_area, LOG);
}

static void say(const char *text)
{
    do
        nizhalepu_byte(&record, (uint8_t)(*text != 0 ? *text : 13), program, sizeof program, saved, sizeof saved, log_area, LOG, reply,
                       sizeof reply);
    while (*text++ != 0);
}

static bool answers(const char *command, const char *want)
{
    size_t length = strlen(want);
    say(command);
    if (memcmp(reply, want, length) == 0 && reply[length] == 13) return true;
    snprintf(complaint, TEXT, "answers at tick %" PRIu64 " %.*s to %s, and not %s", tick, (int)strcspn((const char *)reply, "\r"),
             (const char *)reply, command, want);
    return false;
}

/* All 32 outputs over the wire. */
static bool reads_word(uint32_t word)
{
    for (unsigned address = 203; address <= 206; address++) {
        char command[8], want[4];
        snprintf(command, sizeof command, "CR%u", address);
        snprintf(want, sizeof want, "%02X", (unsigned)(word >> 8 * (206 - address) & 255));
        if (!answers(command, want)) return false;
    }
    return true;
}

/* A program that runs, or is paused, has this word and no event. */
static bool runs_with(uint32_t word)
{
    if (record.run.on && record.run.outputs == word && record.panel.event == 0) return true;
    snprintf(complaint, TEXT, "%s at tick %" PRIu64 " with outputs %08" PRIX32 " and event %03u, and should run with %08" PRIX32,
             record.run.on ? "runs" : "is stopped", tick, record.run.outputs, record.panel.event, word);
    return false;
}

/* The outputs before the start are the plan's nowhere, or hardly; the event of the power-on is read. */
static bool starts(struct chance *chance, const uint8_t *bytes)
{
    tick = 0;
    memcpy(saved, bytes, sizeof saved);
    nizhalepu_power_on(&record, program, sizeof program, saved, sizeof saved, log_area, LOG);
    if (!answers("CW203A5", "OK") || !answers("CW2065A", "OK") || !answers("CR212", "012")) return false;
    if (chance_one_in(chance, 2)) return answers("CW210003", "OK");
    press(START_STOP);
    return true;
}

/* ---- what happens between two ticks of the program */

/* Paused and continued by the button or by a command; the ticks between change nothing. */
static bool is_paused_with(uint32_t word, struct chance *chance)
{
    if (chance_one_in(chance, 2))
        press(PAUSE);
    else if (!answers("CW210002", "OK"))
        return false;
    for (unsigned n = chance_below(chance, 6); n > 0; n--) take_tick();
    if (!runs_with(word) || !answers("CR201", "03")) return false;
    pauses++;
    if (chance_one_in(chance, 2))
        press(PAUSE);
    else if (!answers("CW210004", "OK"))
        return false;
    return true;
}

/* Commands that a running program does not mind, taken or not, and the emptying of the log. */
static bool is_spoken_to(uint32_t word, struct chance *chance)
{
    static const char *const commands[] = {"CR211", "CRI", "CRD", "CR199", "CR213", "CW209017", "CW000N1", "CW203FF", "CW210003",
                                           "CW210007", "CW210009", "", "noise", "CR212"};
    switch (chance_below(chance, 4)) {
    case 0:
        return reads_word(word);
    case 1:
        nizhalepu_empty(&record, log_area, LOG, destination, sizeof destination);
        return true;
    default:
        say(commands[chance_below(chance, sizeof commands / sizeof *commands)]);
        return true;
    }
}

static bool is_disturbed(uint32_t word, struct chance *chance)
{
    if (chance_one_in(chance, 8) && !is_spoken_to(word, chance)) return false;
    return !chance_one_in(chance, 24) || is_paused_with(word, chance);
}

/* ---- the plan */

static bool holds(uint32_t word, uint32_t time, bool disturbed, struct chance *chance)
{
    for (; time > 0; time--) {
        if (!runs_with(word) || (disturbed && (!is_disturbed(word, chance) || !runs_with(word)))) return false;
        take_tick();
        tick++;
    }
    return true;
}

static bool ends(void)
{
    if (record.run.on) {
        snprintf(complaint, TEXT, "runs at tick %" PRIu64 " with outputs %08" PRIX32 ", and should have ended", tick, record.run.outputs);
        return false;
    }
    return reads_word(0) && answers("CR201", "80") && answers("CR212", "011");
}

const char *carried_out(const struct order *order, const uint8_t bytes[NIZHALEPU_PROGRAM], struct chance *chance)
{
    bool disturbed = order_ticks(order) <= CARRIED_SHORT;
    if (!starts(chance, bytes)) return complaint;
    for (size_t i = 0; i < order->count; i += 2)
        if (!holds(order->numbers[i], order->numbers[i + 1], disturbed, chance)) return complaint;
    return ends() ? NULL : complaint;
}

uint64_t carried_pauses(void)
{
    return pauses;
}
