#include "boxes.h"

#include "both.h"
#include "prepare.h"

#include <stdio.h>
#include <string.h>

enum { LOG_BYTES = NIZHALEPU_LOG_LEAST, TEXT = 160 };

static struct both both;
static char complaint[TEXT];

/* Says a command to one box. True if that is its reply. */
static bool answers(int which, const char *command, const char *reply)
{
    size_t length = strlen(reply), written = prepare_say(&both, which, LOG_BYTES, command).written;
    const uint8_t *got = both.area[which][REPLY];
    if (written == length + 1 && memcmp(got, reply, length) == 0 && got[length] == 13) return true;
    snprintf(complaint, TEXT, "the %s box answers %.*s to %s, and not %s", which == PROVED ? "proved" : "independent",
             written > 0 ? (int)written - 1 : 0, (const char *)got, command, reply);
    return false;
}

static bool answers_number(int which, const char *command, unsigned number)
{
    char reply[4];
    snprintf(reply, sizeof reply, "%03u", number % 1000);
    return answers(which, command, reply);
}

static void take_ticks(int which, uint64_t ticks)
{
    const struct step tick = prepare_step(TICK, 0, LOG_BYTES);
    while (ticks-- > 0) both_call(&both, which, &tick);
}

/* The event of the power-on is read, so that 201 shows a run alone. */
static bool starts(int which, const struct question *question)
{
    char parameter[16];
    const struct step power_on = prepare_step(POWER_ON, 0, LOG_BYTES);
    memcpy(both.area[which][SAVED], question->nest.bytes, NEST_BYTES);
    both_call(&both, which, &power_on);
    snprintf(parameter, sizeof parameter, "CW209%03u", (unsigned)question->start % 1000);
    return answers(which, "CR212", "012") && answers(which, parameter, "OK") && answers(which, "CW210005", "OK");
}

/* One tick before its stop the program still runs; before a 013 the line that 211 shows is the State line that is told as its cause. */
static bool stops(int which, const struct nizhalepu_stop *told)
{
    if (told->tick > 0) {
        take_ticks(which, told->tick - 1);
        if (!answers(which, "CR201", "02")) return false;
        if (told->event == NIZHALEPU_EVENT_TOO_LONG && !answers_number(which, "CR211", told->cause)) return false;
        take_ticks(which, 1);
    }
    return answers(which, "CR201", "80") && answers_number(which, "CR211", told->line) && answers_number(which, "CR212", told->event);
}

static bool shows(int which, const struct question *question, const struct nizhalepu_stop *told)
{
    if (!starts(which, question)) return false;
    if (told->event != 0) return stops(which, told);
    take_ticks(which, question->limit);
    return answers(which, "CR201", "02");
}

bool boxes_take(const struct question *question, const struct nizhalepu_stop *told)
{
    return told->refusal == 0 && (told->event != 0 ? told->tick : question->limit) <= BOXES_TICKS_MOST;
}

const char *boxes_run(const struct question *question, const struct nizhalepu_stop *told)
{
    if (both.record == NULL) both_make(&both, LOG_BYTES, 0);
    return shows(PROVED, question, told) && shows(INDEPENDENT, question, told) ? NULL : complaint;
}

unsigned boxes_nones(void)
{
    return box_loops_of_none(both.box).passed;
}
