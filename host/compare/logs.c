#include "logs.h"

#include <string.h>

void log_put_record(uint8_t *record, enum form form, uint8_t kind, uint8_t cause, uint32_t tick, uint32_t value, uint32_t word)
{
    unsigned mark = form == OLDER ? MARK_OLDER : MARK_PRESENT;
    record[MARK_AT] = (uint8_t)(mark >> 8);
    record[MARK_AT + 1] = (uint8_t)mark;
    record[KIND_AT] = kind;
    record[CAUSE_AT] = cause;
    log_put(record + TICK_AT, tick);
    log_put(record + VALUE_AT, value);
    if (form == PRESENT) log_put(record + WORD_AT, word);
}

/* The same tick, one of the next, or a later one; the last of all is not passed. */
static uint32_t later(struct chance *chance, uint32_t tick)
{
    static const uint32_t most[] = {0, 0, 1, 3, 300, 70000};
    uint32_t more = chance_below(chance, most[chance_below(chance, 6)] + 1);
    return tick > UINT32_MAX - more ? UINT32_MAX : tick + more;
}

/* Most often early; sometimes where the last tick of all is soon reached. */
static uint32_t first_tick(struct chance *chance)
{
    if (chance_one_in(chance, 8)) return UINT32_MAX - chance_below(chance, 9);
    return chance_one_in(chance, 4) ? (uint32_t)chance_next(chance) : later(chance, 0);
}

static uint8_t any_cause(struct chance *chance)
{
    static const uint8_t bounds[] = {0, 199, 254, 255, 255, 255};
    return chance_one_in(chance, 2) ? bounds[chance_below(chance, 6)] : (uint8_t)chance_below(chance, 200);
}

uint32_t log_within_a_byte(struct chance *chance)
{
    return chance_between(chance, 1, 255) << 8 * chance_below(chance, 4);
}

/* Another word; after a write to 203-206 it is another in one byte alone. */
static uint32_t next_word(struct chance *chance, uint32_t word, uint8_t cause)
{
    if (cause == OF_WRITE || chance_one_in(chance, 2)) return word ^ log_within_a_byte(chance);
    return word ^ (log_within_a_byte(chance) | (uint32_t)chance_next(chance));
}

/* The word after the last record: of a change its own, of a gap the last word, which the older form does not tell. */
static uint32_t last_word(struct log *log)
{
    const uint8_t *last = log_at(log, log_records(log) - 1);
    return log_get(last + (log->form == PRESENT && last[KIND_AT] == GAP ? WORD_AT : VALUE_AT));
}

void log_add_change(struct log *log, struct chance *chance)
{
    uint8_t cause = any_cause(chance);
    uint32_t tick, before;
    if (log_records(log) > 0) {
        tick = later(chance, log_get(log_at(log, log_records(log) - 1) + TICK_AT));
        before = last_word(log);
    } else {
        tick = first_tick(chance);
        before = chance_one_in(chance, 4) ? 0 : (uint32_t)chance_next(chance);
    }
    uint32_t word = next_word(chance, before, cause);
    log_put_record(log_at(log, log_records(log)), log->form, CHANGE, cause, tick, word, before);
    log->length += log_record_bytes(log->form);
}

/* The one change of a gap of 1 leads to another word; two or more may lead back. */
void log_put_gap(uint8_t *record, enum form form, struct chance *chance, uint32_t tick, uint32_t word)
{
    uint32_t lost = chance_one_in(chance, 8) ? UINT32_MAX : chance_between(chance, 1, chance_one_in(chance, 4) ? 1000000 : 3);
    if (lost == 1 || !chance_one_in(chance, 3)) word = next_word(chance, word, OF_LINE_000);
    log_put_record(record, form, GAP, OF_LINE_000, tick, lost, word);
}

void log_add_gap(struct log *log, struct chance *chance)
{
    uint32_t tick = 0, word = 0;
    if (log_records(log) > 0) {
        tick = log_get(log_at(log, log_records(log) - 1) + TICK_AT);
        word = last_word(log);
    }
    log_put_gap(log_at(log, log_records(log)), log->form, chance, later(chance, tick), word);
    log->length += log_record_bytes(log->form);
}

void log_make(struct log *log, enum form form, struct chance *chance, size_t changes, bool gap)
{
    log->form = form;
    log->length = 0;
    for (size_t n = 0; n < changes; n++) log_add_change(log, chance);
    if (gap) log_add_gap(log, chance);
}

/* The tick of its gap is that of the first lost change, which can have been the last one too. A mark that is none stays none. */
void log_make_older(struct log *older, const struct log *log)
{
    size_t records = log->length / LOG_RECORD;
    older->form = OLDER;
    older->length = records * LOG_OLDER_RECORD;
    for (size_t n = 0; n < records; n++) {
        uint8_t *to = older->bytes + n * LOG_OLDER_RECORD;
        memcpy(to, log->bytes + n * LOG_RECORD, LOG_OLDER_RECORD);
        if (log_mark(to, LOG_OLDER_RECORD) == MARK_PRESENT) to[MARK_AT + 1] = (uint8_t)MARK_OLDER;
    }
}
