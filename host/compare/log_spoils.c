/* log_spoils.c: logs that no box can have written, from logs that one can. */
#include "logs.h"

#include <string.h>

/* Each is given a log with at least one record, room for more behind it, and a record of it: often the last, where the end of the
 * log is near. */
typedef void spoiling(struct log *log, struct chance *chance, size_t place);

static size_t bytes_of(const struct log *log)
{
    return log_record_bytes(log->form);
}

static void set_mark(uint8_t *record, unsigned mark)
{
    record[MARK_AT] = (uint8_t)(mark >> 8);
    record[MARK_AT + 1] = (uint8_t)mark;
}

/* ---- single bytes and fields */

static void any_byte(struct log *log, struct chance *chance, size_t place)
{
    log_at(log, place)[chance_below(chance, (uint32_t)bytes_of(log))] ^= (uint8_t)chance_between(chance, 1, 255);
}

static unsigned unknown_mark(struct chance *chance)
{
    static const uint16_t near[] = {0x1EE0, 0x1EE3, 0x1FE1, 0x1FE2, 0xE11E, 0xE21E, 0x00E2, 0x1E1E, 0x1E00, 0x0000, 0x9EE2, 0x1E62};
    return near[chance_below(chance, sizeof near / sizeof *near)];
}

static void near_mark(struct log *log, struct chance *chance, size_t place)
{
    set_mark(log_at(log, place), unknown_mark(chance));
}

/* The sizes then go by those of the present form, whatever the log was made as. */
static void unknown_first(struct log *log, struct chance *chance, size_t place)
{
    (void)place;
    set_mark(log->bytes, unknown_mark(chance));
    if (chance_one_in(chance, 2)) log->length = chance_between(chance, 1, 8) * (chance_one_in(chance, 2) ? LOG_OLDER_RECORD : LOG_RECORD);
}

/* Of a record that is not the first this makes mixed marks; of the first it makes a log of the other form, or one of mixed marks. */
static void other_mark(struct log *log, struct chance *chance, size_t place)
{
    uint8_t *record = log_at(log, chance_one_in(chance, 4) ? 0 : place);
    set_mark(record, log->form == OLDER ? MARK_PRESENT : MARK_OLDER);
    if (chance_one_in(chance, 4)) record[CAUSE_AT] = 200; /* and an impossible record: 053 is told */
}

static void near_kind(struct log *log, struct chance *chance, size_t place)
{
    static const uint8_t near[] = {0, 1, 2, 2, 3, 255};
    log_at(log, place)[KIND_AT] = near[chance_below(chance, 6)];
}

static void near_cause(struct log *log, struct chance *chance, size_t place)
{
    static const uint8_t near[] = {0, 1, 199, 200, 200, 253, 253, 254, 255, 255, 255, 255};
    log_at(log, place)[CAUSE_AT] = near[chance_below(chance, sizeof near)];
}

/* One off the tick before or off its own, or equal to the one before. */
static void near_tick(struct log *log, struct chance *chance, size_t place)
{
    uint8_t *record = log_at(log, place);
    const uint8_t *from = place > 0 && !chance_one_in(chance, 4) ? record - bytes_of(log) : record;
    log_put(record + TICK_AT, log_get(from + TICK_AT) + chance_below(chance, 3) - 1);
}

/* ---- words */

/* None, one, two or more bytes of it are others. */
static uint32_t near_to(uint32_t word, struct chance *chance)
{
    for (unsigned n = chance_below(chance, 4); n > 0; n--) word ^= log_within_a_byte(chance);
    return word;
}

/* The word before, altered, most often by a write to 203-206. What stands behind is led from the new word, so that no later record
 * hides whether this one is taken. */
static void near_word(struct log *log, struct chance *chance, size_t place)
{
    uint8_t *record = log_at(log, place);
    uint32_t before = log_get((place > 0 ? record - bytes_of(log) : record) + VALUE_AT);
    if (log->form == PRESENT && place == 0) before = log_get(record + WORD_AT);
    uint32_t word = near_to(before, chance);
    log_put(record + VALUE_AT, word);
    if (!chance_one_in(chance, 4)) record[CAUSE_AT] = OF_WRITE;
    if (log->form == PRESENT && place + 1 < log_records(log) && record[bytes_of(log) + KIND_AT] == CHANGE)
        log_put(record + bytes_of(log) + WORD_AT, word);
}

/* The last word: its own value, nearly so, the value before, nearly so; of the first record too. The older form has none. */
static void near_earlier(struct log *log, struct chance *chance, size_t place)
{
    if (chance_one_in(chance, 3)) place = 0;
    uint8_t *record = log_at(log, place);
    if (log->form == OLDER) {
        near_word(log, chance, place);
        return;
    }
    const uint8_t *from = place > 0 && chance_one_in(chance, 2) ? record - LOG_RECORD : record;
    log_put(record + WORD_AT, near_to(log_get(from + VALUE_AT), chance));
}

/* The gap, or one more record that is one: of 1, 2 or so, and its word the one before it, or nearly. */
static void near_gap(struct log *log, struct chance *chance, size_t place)
{
    static const uint32_t few[] = {1, 1, 1, 2, 2, 3, 0, UINT32_MAX};
    place = log_records(log) - 1;
    if (place == 0 || log_at(log, place)[KIND_AT] != GAP) {
        log->length -= log->length % bytes_of(log);
        log_add_gap(log, chance);
        place++;
    }
    uint8_t *gap = log_at(log, place);
    log_put(gap + VALUE_AT, few[chance_below(chance, 8)]);
    if (log->form == OLDER) return;
    uint32_t before = log_get(gap - LOG_RECORD + VALUE_AT);
    log_put(gap + WORD_AT, chance_one_in(chance, 2) ? before : near_to(before, chance));
}

static void near_value(struct log *log, struct chance *chance, size_t place)
{
    static const uint32_t few[] = {0, 0, 1, UINT32_MAX};
    log_put(log_at(log, place) + VALUE_AT, few[chance_below(chance, 4)]);
}

/* ---- lengths and whole records */

static void cut(struct log *log, struct chance *chance, size_t place)
{
    (void)place;
    size_t by = chance_between(chance, 1, 2 * (uint32_t)bytes_of(log));
    log->length -= by < log->length ? by : log->length;
}

static void lengthened(struct log *log, struct chance *chance, size_t place)
{
    size_t by = chance_between(chance, 1, (uint32_t)bytes_of(log) - 1);
    memmove(log->bytes + log->length, log_at(log, place), by);
    log->length += by;
}

static void doubled(struct log *log, struct chance *chance, size_t place)
{
    (void)chance;
    uint8_t *record = log_at(log, place);
    memmove(record + bytes_of(log), record, log->length - place * bytes_of(log));
    log->length += bytes_of(log);
}

static void removed(struct log *log, struct chance *chance, size_t place)
{
    (void)chance;
    uint8_t *record = log_at(log, place);
    log->length -= bytes_of(log);
    memmove(record, record + bytes_of(log), log->length - place * bytes_of(log));
}

static void swapped(struct log *log, struct chance *chance, size_t place)
{
    (void)chance;
    size_t bytes = bytes_of(log);
    if (place == 0) return;
    uint8_t *record = log_at(log, place), kept[LOG_RECORD];
    memcpy(kept, record, bytes);
    memcpy(record, record - bytes, bytes);
    memcpy(record - bytes, kept, bytes);
}

static void gap_first(struct log *log, struct chance *chance, size_t place)
{
    (void)place;
    doubled(log, chance, 0);
    log_put_gap(log->bytes, log->form, chance, log_get(log->bytes + TICK_AT), log_get(log->bytes + VALUE_AT));
}

static void gap_alone(struct log *log, struct chance *chance, size_t place)
{
    (void)place;
    log_put_gap(log->bytes, log->form, chance, log_get(log->bytes + TICK_AT), log_get(log->bytes + VALUE_AT));
    log->length = bytes_of(log);
}

static void one_more(struct log *log, struct chance *chance, size_t place)
{
    (void)place;
    log->length -= log->length % bytes_of(log);
    if (chance_one_in(chance, 2))
        log_add_change(log, chance);
    else
        log_add_gap(log, chance);
}

/* Records of the other form behind it, as where two boxes wrote to one file: 48 bytes are whole records of both. */
static void joined(struct log *log, struct chance *chance, size_t place)
{
    enum { BOTH = 48 };
    (void)place;
    enum form other = log->form == OLDER ? PRESENT : OLDER;
    uint32_t word = 0;
    log->length -= log->length % bytes_of(log);
    for (size_t at = 0; at < BOTH; at += log_record_bytes(other), word++)
        log_put_record(log->bytes + log->length + at, other, CHANGE, (uint8_t)chance_below(chance, 200), UINT32_MAX, word + 1, word);
    log->length += BOTH;
}

static spoiling *const spoilings[] = {any_byte,     any_byte,   near_mark, unknown_first, other_mark, near_kind, near_cause, near_tick,
                                      near_tick,    near_word,  near_word, near_earlier,  near_earlier, near_gap, near_gap,  near_value,
                                      cut,          lengthened, doubled,   removed,       swapped,    gap_first, gap_alone,  one_more,
                                      joined};

/* About the most bytes of both forms, and under a mark of either or of none. Behind the log stands what an earlier one left there. */
static void make_long(struct log *log, struct chance *chance)
{
    static const size_t lengths[] = {LOG_OLDER_MOST, LOG_OLDER_MOST + 1, LOG_MOST,     LOG_MOST,
                                     LOG_MOST + 1,   LOG_MOST + 8,       LOG_MOST + 9, LOG_MOST + LOG_RECORD};
    static const uint16_t marks[] = {MARK_PRESENT, MARK_OLDER};
    log->length = chance_one_in(chance, 4) ? chance_between(chance, LOG_MOST + 1, LOG_ROOM) : lengths[chance_below(chance, 8)];
    set_mark(log->bytes, chance_one_in(chance, 3) ? unknown_mark(chance) : marks[chance_below(chance, 2)]);
}

void log_spoil(struct log *log, struct chance *chance)
{
    if (log->length > LOG_MOST) return;
    if (chance_one_in(chance, 500)) { /* seldom: such a log is long */
        make_long(log, chance);
    } else if (log_records(log) == 0) {
        one_more(log, chance, 0);
    } else {
        size_t place = chance_one_in(chance, 3) ? log_records(log) - 1 : chance_below(chance, (uint32_t)log_records(log));
        spoilings[chance_below(chance, sizeof spoilings / sizeof *spoilings)](log, chance, place);
    }
}
