/* limits.c: what no short run reaches, by as many calls as it takes: the last tick count, and the most that a gap can count. */
#ifndef _GNU_SOURCE
#define _GNU_SOURCE
#endif
#include "both.h"
#include "clock.h"
#include "compare.h"
#include "line.h"
#include "logs.h"
#include "prepare.h"

#include <inttypes.h>
#include <stdio.h>
#include <string.h>
#include <unistd.h>

enum { LOG_LENGTH = NIZHALEPU_LOG_LEAST, LAST_TICK = 33 };

static const uint32_t most = 4294967295u;

static bool differs(const char *what, const struct both *both)
{
    printf("A difference or a limit missed: %s\n", what);
    both_print_difference(both);
    return false;
}

static void show_progress(uint32_t done)
{
    static uint64_t shown;
    if (done % (1u << 20) != 0 || isatty(STDERR_FILENO) != 1) return;
    uint64_t now = clock_nanoseconds();
    if (now - shown < 1000000000u) return;
    shown = now;
    fprintf(stderr, "\r%" PRIu32 " of %" PRIu32 " ticks ", done, most);
}

/* As many ticks as there are. The 32 bytes of the log are compared after each; a tick is lent the program area to read alone,
 * and is not lent the others, so these are compared at the end. */
static bool all_ticks(struct both *both)
{
    uint8_t **a = both->area[PROVED], **b = both->area[INDEPENDENT];
    for (uint32_t n = 0; n < most; n++) {
        struct nizhalepu_said x = nizhalepu_tick(both->record, a[PROGRAM], 1600, a[LOG], LOG_LENGTH);
        struct box_said y = box_tick(both->box, b[PROGRAM], 1600, b[LOG], LOG_LENGTH);
        both->said[PROVED] = (struct said){x.refusal, x.lines, x.written};
        both->said[INDEPENDENT] = (struct said){y.refusal, y.lines, y.written};
        if (x.refusal != y.refusal || x.lines != y.lines || x.written != y.written || memcmp(a[LOG], b[LOG], LOG_LENGTH) != 0) {
            printf("tick %" PRIu32 ": ", n + 1);
            return differs("in a tick", both);
        }
        if (x.refusal != 0) return differs("a tick refused too early", both);
        show_progress(n);
    }
    return both_areas_equal(both) ? true : differs("after all ticks", both);
}

/* The tick after the last is refused by both. */
static bool no_more_ticks(struct both *both)
{
    struct step tick = prepare_step(TICK, 0, LOG_LENGTH);
    for (int n = 0; n < 3; n++)
        if (!both_do(both, &tick) || both->said[PROVED].refusal != LAST_TICK) return differs("033 was due", both);
    return true;
}

/* Says a command to both. */
static bool say(struct both *both, const char *text)
{
    struct step step = prepare_step(BYTE, 0, LOG_LENGTH);
    do {
        step.value = (uint8_t)(*text != 0 ? *text : 13);
        if (!both_do(both, &step)) return differs("in a command", both);
    } while (*text++ != 0);
    return true;
}

static bool read_all(struct both *both)
{
    char text[8];
    for (unsigned address = 0; address <= 217; address++) {
        snprintf(text, sizeof text, "CR%03u", address);
        if (!say(both, text)) return false;
    }
    return true;
}

static bool power_on(struct both *both)
{
    struct step on = prepare_step(POWER_ON, 0, LOG_LENGTH);
    return both_do(both, &on) ? true : differs("in power-on", both);
}

static bool last_tick(struct both *both)
{
    return power_on(both) && all_ticks(both) && no_more_ticks(both) && read_all(both) && say(both, "CW20655") &&
           say(both, "CW210003") && no_more_ticks(both) && read_all(both);
}

/* The last of the two places of the log must hold a gap: the tick of the first lost change, the number lost, the word after the last. */
static bool gap_shows(const struct both *both, uint32_t tick, uint32_t lost, uint32_t word)
{
    uint8_t due[LOG_RECORD];
    log_put_record(due, PRESENT, GAP, 0, tick, lost, word);
    if (memcmp(both->area[PROVED][LOG] + LOG_RECORD, due, LOG_RECORD) == 0) return true;
    printf("due in the gap: tick %" PRIu32 ", lost %" PRIu32 ", word %08" PRIX32 ": ", tick, lost, word);
    return differs("the gap does not show it", both);
}

static void alter_gap(struct both *both, uint8_t fill)
{
    for (int i = 0; i < BOXES; i++) memset(both->area[i][LOG] + LOG_RECORD, fill, LOG_RECORD);
}

static void program_changing(uint8_t *program)
{
    unsigned i = 0;
    for (unsigned c = 1; c <= 3; c++) line_for(program + 8 * i++, c, 9999);
    line_state(program + 8 * i++, 1, 1);
    line_state(program + 8 * i++, 2, 1);
    for (unsigned c = 3; c >= 1; c--) line_next(program + 8 * i++, c);
}

/* Changes by writes to 203 when the number is at its cap: the word goes on with each, and the tick of the first lost change stays,
 * whatever the caller makes of the gap in between. */
static bool lose_more(struct both *both, uint32_t outputs)
{
    for (unsigned n = 0; n < 8; n++) {
        outputs = (outputs & 0x00FFFFFF) | (n % 2 == 0 ? 0xA5000000 : 0x5A000000);
        if (n >= 4) alter_gap(both, (uint8_t)(0x11 * n));
        if (!say(both, n % 2 == 0 ? "CW203A5" : "CW2035A") || !gap_shows(both, 1, most, outputs)) return false;
    }
    return true;
}

/* The start makes the first change, which has a record of its own, and each tick one more, to the outputs 2 and 1 in turn: the first
 * is lost in tick 1, and the last tick, an odd one, brings the number lost to the most. After emptying all begins anew. */
static bool full_gap(struct both *both)
{
    if (!power_on(both)) return false;
    for (int i = 0; i < BOXES; i++) program_changing(both->area[i][PROGRAM]);
    if (!say(both, "CW210003") || !all_ticks(both) || !gap_shows(both, 1, most, 2) || !no_more_ticks(both)) return false;
    if (!say(both, "CW210001") || !lose_more(both, 2)) return false;
    struct step empty = prepare_step(EMPTY, 0, LOG_LENGTH);
    if (!both_do(both, &empty)) return differs("in emptying", both);
    return say(both, "CW20300") && say(both, "CW203FF") && gap_shows(both, most, 1, 0xFF000002) && say(both, "CW20300") &&
           gap_shows(both, most, 2, 2) && read_all(both);
}

static bool timed(const char *name, bool (*limit)(struct both *))
{
    struct both both;
    uint64_t start = clock_nanoseconds();
    both_make(&both, LOG_LENGTH, 0);
    printf("%s\n", name);
    bool equal = limit(&both);
    double seconds = (double)(clock_nanoseconds() - start) / 1e9;
    if (isatty(STDERR_FILENO) == 1) fputc('\n', stderr);
    printf("  %s, %.0f s\n", equal ? "equal" : "NOT EQUAL", seconds);
    both_free(&both);
    return equal;
}

int compare_limits(void)
{
    bool equal = timed("4,294,967,295 ticks on a stopped box, then 033:", last_tick);
    equal &= timed("4,294,967,295 changes lost in a log of 32 bytes, then more:", full_gap);
    return equal ? 0 : 1;
}
