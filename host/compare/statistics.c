#include "statistics.h"

#include <ctype.h>
#include <string.h>

void statistics_begin(struct statistics *statistics)
{
    statistics->episodes++;
    statistics->count = 0;
    memset(&statistics->before, 0, sizeof statistics->before);
}

static void collect(struct statistics *statistics, uint8_t byte)
{
    if (byte != 32 && statistics->count < sizeof statistics->characters)
        statistics->characters[statistics->count++] = (uint8_t)toupper(byte);
}

/* The address that the finished command names; there is none below 0 and from ADDRESSES on. */
static int address(const struct statistics *statistics, int last)
{
    const uint8_t *c = statistics->characters;
    if (statistics->count >= 3 && c[2] == 'I') return last + 1;
    if (statistics->count >= 3 && c[2] == 'D') return last - 1;
    if (statistics->count < 5 || !isdigit(c[2]) || !isdigit(c[3]) || !isdigit(c[4])) return ADDRESSES;
    return (c[2] - '0') * 100 + (c[3] - '0') * 10 + (c[4] - '0');
}

/* Stop, Pause, Auto before this call */
static unsigned state(const struct statistics *statistics)
{
    return !statistics->before.run.on ? 0 : statistics->before.paused ? 1 : 2;
}

/* The errors of the wire: 01's, and those of 02, items 3 and 4. */
static bool is_error(unsigned number)
{
    return (number >= NIZHALEPU_E_SHORT && number <= NIZHALEPU_E_LOCKED) ||
           (number >= NIZHALEPU_E_NEEDS_STOP && number <= NIZHALEPU_E_BAD_LINE);
}

/* ---- Bad lines (02, item 4) */

static const uint8_t *line_at(const struct both *both, unsigned line)
{
    return both->area[PROVED][PROGRAM] + (size_t)line * LINE_BYTES;
}

/* A read of one of the lines 000-199, answered with its text (0) or an error. E024 comes after the length check. */
static void count_read(struct statistics *statistics, const uint8_t line[LINE_BYTES], unsigned error)
{
    const uint8_t *c = statistics->characters;
    bool by_digits = c[2] != 'I' && c[2] != 'D', bad = line_is_bad(line);
    bool whole = c[0] == 'C' && statistics->count == (by_digits ? 5u : 3u);
    unsigned due = !whole ? NIZHALEPU_E_FORM : bad ? NIZHALEPU_E_BAD_LINE : 0;
    if (error != due) {
        statistics->astray++;
    } else if (due == NIZHALEPU_E_BAD_LINE) {
        statistics->bad[by_digits ? BAD_READ_BY_DIGITS : c[2] == 'I' ? BAD_READ_BY_I : BAD_READ_BY_D]++;
        statistics->faults[line_fault(line)][USE_READ]++;
    } else if (bad) {
        statistics->bad[BAD_READ_TOO_LONG] += c[0] == 'C';
    }
}

/* Power-on, 007 or 008, done: a copy byte for byte. */
static void count_copy(struct statistics *statistics, const struct both *both, enum bad bad)
{
    if (memcmp(both->area[PROVED][PROGRAM], both->area[PROVED][SAVED], NIZHALEPU_PROGRAM) != 0) statistics->astray++;
    bool any = false;
    for (unsigned line = 0; line < 200; line++) any = any || line_is_bad(line_at(both, line));
    statistics->bad[bad] += any;
}

/* 006, done: a Bad line sets no outputs. */
static void count_executed(struct statistics *statistics, const struct both *both)
{
    unsigned parameter = statistics->before.panel.parameter;
    if (parameter > 199 || !line_is_bad(line_at(both, parameter))) return;
    statistics->bad[BAD_EXECUTED]++;
    statistics->faults[line_fault(line_at(both, parameter))][USE_EXECUTED]++;
    if (both->record->run.outputs != statistics->before.run.outputs) statistics->astray++;
}

/* The lines between a For and its Next, which the search for the Next passed. */
static void count_passed(struct statistics *statistics, const struct both *both, unsigned from, unsigned to, enum bad bad)
{
    bool any = false;
    for (unsigned line = from + 1; line < to; line++) {
        enum fault fault = line_fault(line_at(both, line));
        if (fault == FAULT_NONE) continue;
        statistics->faults[fault][USE_PASSED]++;
        any = true;
    }
    statistics->bad[bad] += any;
}

/* The searches of Fors that took their counters in this call and have them still. */
static void count_searches(struct statistics *statistics, const struct both *both)
{
    for (unsigned c = 0; c < 4; c++) {
        const struct nizhalepu_counter *counter = &both->record->run.counters[c];
        if (counter->count == 0 || statistics->before.run.counters[c].count != 0) continue;
        uint8_t next[LINE_BYTES];
        unsigned at = counter->line + 1u;
        line_next(next, c + 1);
        while (at < 200 && memcmp(line_at(both, at), next, LINE_BYTES) != 0) at++;
        count_passed(statistics, both, counter->line, at, BAD_IN_LOOP_TAKEN);
    }
}

/* ---- replies */

/* 01's table, and 02, item 3: 001 always, 002 if a program runs, 004 in a pause, the others if none runs, and then the parameter. */
unsigned statistics_due(unsigned code, unsigned state, unsigned out_of_reach)
{
    static const unsigned due[CODES][STATES] = {
        [2] = {NIZHALEPU_E_NOTHING_TO_PAUSE, 0, 0},
        [3] = {0, NIZHALEPU_E_NEEDS_STOP, NIZHALEPU_E_NEEDS_STOP},
        [4] = {NIZHALEPU_E_NEEDS_PAUSE, 0, NIZHALEPU_E_NEEDS_PAUSE},
        [5] = {0, NIZHALEPU_E_NEEDS_STOP, NIZHALEPU_E_NEEDS_STOP},
        [6] = {0, NIZHALEPU_E_NEEDS_STOP, NIZHALEPU_E_NEEDS_STOP},
        [7] = {0, NIZHALEPU_E_NEEDS_STOP, NIZHALEPU_E_NEEDS_STOP},
        [8] = {0, NIZHALEPU_E_NEEDS_STOP, NIZHALEPU_E_NEEDS_STOP},
    };
    return due[code][state] == 0 && out_of_reach ? NIZHALEPU_E_OUT_OF_REACH : due[code][state];
}

/* A special command, its code at the end, that was done (0) or answered with an error. */
static void count_special(struct statistics *statistics, const struct both *both, unsigned error)
{
    const uint8_t *c = statistics->characters;
    unsigned code = c[statistics->count - 1] - (unsigned)'0';
    bool address_of_three = isdigit(c[2]);
    if (c[0] != 'C' || c[1] != 'W' || statistics->count != (address_of_three ? 8u : 6u)) return;
    if (c[statistics->count - 2] != '0' || c[statistics->count - 3] != '0' || code == 0 || code >= CODES) return;
    unsigned parameter = statistics->before.panel.parameter, now = state(statistics);
    unsigned out = (code == 5 && parameter > 199) || (code == 6 && parameter > 200);
    if (error != statistics_due(code, now, out)) {
        statistics->astray++;
        return;
    }
    statistics->special[code][now][out]++;
    if (error != 0) return;
    if (code == 6) count_executed(statistics, both);
    if (code == 7 || code == 8) count_copy(statistics, both, code == 7 ? BAD_LOADED : BAD_SAVED);
}

static void count_error(struct statistics *statistics, unsigned number, bool line_read)
{
    if (is_error(number) && (line_read || number != NIZHALEPU_E_BAD_LINE))
        statistics->errors[number]++;
    else
        statistics->astray++;
}

/* I or D where the last address is before 000, in a command that passes checks 1 and 2: D is E004 whatever stands behind it, and I, which
 * is 000, never is (02, item 7). */
static void count_first(struct statistics *statistics, bool read, unsigned error)
{
    const uint8_t *c = statistics->characters;
    if (statistics->count < 3 || statistics->count == sizeof statistics->characters || c[0] != 'C' || (c[1] != 'R' && c[1] != 'W')) return;
    if (c[2] == 'I' && error == 0)
        statistics->first[read ? FIRST_READ_BY_I : FIRST_WRITE_BY_I]++;
    else if (c[2] == 'D' && error == NIZHALEPU_E_ADDRESS)
        statistics->first[read ? FIRST_READ_BY_D : FIRST_WRITE_BY_D]++;
    else if (c[2] == 'D' || (c[2] == 'I' && error == NIZHALEPU_E_ADDRESS))
        statistics->astray++;
}

static void count_reply(struct statistics *statistics, const struct both *both)
{
    const uint8_t *reply = both->area[PROVED][REPLY];
    bool read = statistics->count > 1 && statistics->characters[1] == 'R';
    int *last = read ? &statistics->last_read : &statistics->last_write;
    int named = address(statistics, *last);
    unsigned error = 0;
    bool failed = reply[0] == 'E' && both->said[PROVED].written == 5, line_read = read && named >= 0 && named < 200;
    if (failed) {
        error = (reply[1] - (unsigned)'0') * 100 + (reply[2] - (unsigned)'0') * 10 + reply[3] - (unsigned)'0';
        count_error(statistics, error, line_read);
    }
    if (*last < 0) count_first(statistics, read, error);
    if (line_read) count_read(statistics, line_at(both, (unsigned)named), error);
    if (!read && named == 210) count_special(statistics, both, error);
    if (failed || named < 0 || named >= ADDRESSES) return;
    *last = named;
    if (read) {
        statistics->data++;
        statistics->reads[named]++;
    } else {
        statistics->accepted_writes++;
        statistics->writes[named]++;
    }
}

static void count_byte(struct statistics *statistics, uint8_t byte, const struct both *both)
{
    if (byte != 13) {
        collect(statistics, byte);
        return;
    }
    count_reply(statistics, both);
    statistics->count = 0;
}

/* ---- what a call did */

static void power_went_on(struct statistics *statistics)
{
    statistics->count = 0;
    statistics->last_read = -1;
    statistics->last_write = -1;
    statistics->nones_before = (struct box_nones){0};
    statistics->altered = false;
    memset(&statistics->before, 0, sizeof statistics->before);
}

/* An event that comes while the same one is unread is not seen. */
static bool raised(const struct nizhalepu_record *before, const struct nizhalepu_record *now, unsigned event)
{
    return now->panel.unread && now->panel.event == event && !(before->panel.unread && before->panel.event == event);
}

/* The loops of none that this call passed, and a For with count 0000 on which the program stopped. */
static void count_nones(struct statistics *statistics, const struct both *both)
{
    const struct nizhalepu_record *before = &statistics->before, *now = both->record;
    const uint8_t *line = line_at(both, now->run.line);
    struct box_nones nones = box_loops_of_none(both->box);
    uint32_t passed = nones.passed - statistics->nones_before.passed;
    statistics->nones += passed;
    statistics->nones_past_199 += nones.past_199 - statistics->nones_before.past_199;
    if (both->said[PROVED].lines == 400) statistics->nones_of_400 += passed;
    if (passed > statistics->most_nones) statistics->most_nones = passed;
    if (passed > 0) count_passed(statistics, both, nones.last_for, nones.last_next, BAD_IN_NONE);
    statistics->nones_before = nones;
    if (line[0] != 0x46 || line[2] != 0 || line[3] != 0) return;
    for (unsigned event = 0; event < EVENTS; event++) statistics->none_events[event] += raised(before, now, event);
}

/* The program stopped on a Bad line with 014. */
static void count_bad_run(struct statistics *statistics, const struct step *step, const struct both *both)
{
    const struct nizhalepu_record *before = &statistics->before, *now = both->record;
    bool busy = false;
    for (unsigned c = 0; c < 4; c++) busy = busy || before->run.counters[c].count != 0;
    statistics->faults[line_fault(line_at(both, now->run.line))][USE_RUN]++;
    statistics->bad[BAD_RUN_AT_START] += !before->run.on;
    statistics->bad[BAD_RUN_AT_TICK] += step->kind == TICK;
    statistics->bad[BAD_RUN_AFTER_400] += both->said[PROVED].lines == 400;
    statistics->bad[BAD_RUN_IN_LOOP] += busy;
    statistics->bad[BAD_RUN_AT_199] += now->run.line == 199;
}

/* 014 comes on a Bad line, the other events that a line raises do not; 009 and 010 may come on one that was held and altered since. */
static void count_stop(struct statistics *statistics, const struct step *step, const struct both *both)
{
    const struct nizhalepu_record *now = both->record;
    unsigned event = now->panel.event;
    if (!raised(&statistics->before, now, event)) return;
    bool bad = line_is_bad(line_at(both, now->run.line));
    switch (event) {
    case NIZHALEPU_EVENT_BUSY:
    case NIZHALEPU_EVENT_NO_NEXT:
    case NIZHALEPU_EVENT_NO_FOR:
    case NIZHALEPU_EVENT_END:
    case NIZHALEPU_EVENT_TOO_LONG:
        if (bad) statistics->astray++;
        break;
    case NIZHALEPU_EVENT_BAD_LINE:
        if (bad)
            count_bad_run(statistics, step, both);
        else
            statistics->astray++;
        break;
    default:
        break;
    }
}

/* What the record shows to have happened. */
static void count_record(struct statistics *statistics, const struct nizhalepu_record *now)
{
    const struct nizhalepu_record *before = &statistics->before;
    for (unsigned event = 0; event < EVENTS; event++) statistics->events[event] += raised(before, now, event);
    if (now->log.lost > statistics->most_lost) statistics->most_lost = now->log.lost;
    statistics->before = *now;
}

void statistics_count(struct statistics *statistics, const struct step *step, const struct both *both)
{
    if (step->kind == ALTER) {
        statistics->met[ALTER][0]++;
        statistics_altered(statistics, step, both);
        return;
    }
    const struct said *said = &both->said[PROVED];
    unsigned refusal = said->refusal == 0 ? 0 : said->refusal - 29u;
    statistics->calls++;
    if (refusal < REFUSALS) statistics->met[step->kind][refusal]++;
    if (step->kind == POWER_ON) {
        power_went_on(statistics);
        statistics_lent(statistics, step, said->refusal);
    }
    if (said->refusal != 0) return;
    if (step->kind == POWER_ON) count_copy(statistics, both, BAD_POWERED);
    if (step->kind == TICK) statistics->ticks[state(statistics)]++;
    if (step->kind == BYTE) count_byte(statistics, (uint8_t)step->value, both);
    if (step->kind == EMPTY && said->written > statistics->most_written) statistics->most_written = said->written;
    if (said->lines > statistics->most_lines) statistics->most_lines = said->lines;
    statistics->full_runs += said->lines == 400;
    count_nones(statistics, both);
    count_searches(statistics, both);
    count_stop(statistics, step, both);
    statistics_logged(statistics, step, both);
    count_record(statistics, both->record);
}
