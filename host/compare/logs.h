/* logs.h: logs of both marks for the two readers that no box wrote: made up by the log rule, or spoiled. */
#ifndef COMPARE_LOGS_H
#define COMPARE_LOGS_H

#include "chance.h"
#include "nizhalepu.h"

#include <stdbool.h>
#include <stddef.h>
#include <stdint.h>

/* The older mark is that of records without a last word (02, items 1 and 8). */
enum form { PRESENT, OLDER, FORMS };

enum { MARK_PRESENT = 0x1EE2, MARK_OLDER = 0x1EE1 };

enum {
    LOG_RECORD = NIZHALEPU_LOG_RECORD,
    LOG_OLDER_RECORD = 12,
    LOG_MOST = NIZHALEPU_LIST_MOST,
    LOG_OLDER_MOST = LOG_MOST / LOG_OLDER_RECORD * LOG_OLDER_RECORD, /* 65,532 */
    LOG_ROOM = LOG_MOST + 5000 /* logs that are too long among them */
};

enum { CHANGE = 1, GAP = 2, OF_LINE_000 = 0, OF_WRITE = 255 }; /* kinds and causes */

enum { MARK_AT = 0, KIND_AT = 2, CAUSE_AT = 3, TICK_AT = 4, VALUE_AT = 8, WORD_AT = 12 };

struct log {
    enum form form; /* by which its records were made; those that a caller altered or that are spoiled may have another mark */
    size_t length;
    uint8_t bytes[LOG_ROOM];
};

/* ---- its records */

static inline uint32_t log_get(const uint8_t *bytes)
{
    return (uint32_t)bytes[0] << 24 | (uint32_t)bytes[1] << 16 | (uint32_t)bytes[2] << 8 | bytes[3];
}

static inline void log_put(uint8_t *bytes, uint32_t value)
{
    bytes[0] = (uint8_t)(value >> 24);
    bytes[1] = (uint8_t)(value >> 16);
    bytes[2] = (uint8_t)(value >> 8);
    bytes[3] = (uint8_t)value;
}

/* The two bytes of a mark; 0, which is none, where the file has not as many. */
static inline unsigned log_mark(const uint8_t *bytes, size_t length)
{
    return length < 2 ? 0 : (unsigned)bytes[0] << 8 | bytes[1];
}

static inline size_t log_record_bytes(enum form form)
{
    return form == OLDER ? LOG_OLDER_RECORD : LOG_RECORD;
}

/* The most records that one emptying gives; the last of them is a gap. */
static inline size_t log_most_records(enum form form)
{
    return LOG_MOST / log_record_bytes(form);
}

static inline size_t log_records(const struct log *log)
{
    return log->length / log_record_bytes(log->form);
}

static inline uint8_t *log_at(struct log *log, size_t place)
{
    return log->bytes + place * log_record_bytes(log->form);
}

/* `word` is the last word, which the older form has not. */
void log_put_record(uint8_t *record, enum form form, uint8_t kind, uint8_t cause, uint32_t tick, uint32_t value, uint32_t word);

/* Bits within one byte of a word, at least one of them. */
uint32_t log_within_a_byte(struct chance *chance);

/* A change that can follow on the last record, though that be a gap; any that can be the first where there is none. */
void log_add_change(struct log *log, struct chance *chance);

/* A gap that can follow on a change with that tick and that word. */
void log_put_gap(uint8_t *record, enum form form, struct chance *chance, uint32_t tick, uint32_t word);
void log_add_gap(struct log *log, struct chance *chance);

/* ---- whole logs */

/* A log that a box can have written: so many changes, and a gap behind them or not. As many changes as log_most_records are refused. */
void log_make(struct log *log, enum form form, struct chance *chance, size_t changes, bool gap);

/* What a box of the older form would have written in the place of this log of the present one. */
void log_make_older(struct log *older, const struct log *log);

/* ---- log_spoils.c */

/* Does one thing to the log that a reader may notice; now and then it stays a log that a box can have written. */
void log_spoil(struct log *log, struct chance *chance);

#endif
