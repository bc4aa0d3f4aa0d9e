#include "listed.h"

const char *const listed_names[LISTED] = {
    [LISTED_NONE] = "none at all",
    [LISTED_CHANGES] = "changes",
    [LISTED_GAP] = "changes and a gap of 2 or more",
    [LISTED_GAP_OF_1] = "changes and a gap of 1",
    [LISTED_GAP_BACK] = "a gap of 2 that leads back to the word before",
    [LISTED_MOST_CHANGES] = "4,095 changes",
    [LISTED_FULL] = "4,095 changes and a gap",
    [LISTED_OLDER_CHANGES] = "older mark: changes",
    [LISTED_OLDER_GAP] = "older mark: changes and a gap",
    [LISTED_OLDER_MOST_CHANGES] = "older mark: 5,460 changes",
    [LISTED_OLDER_FULL] = "older mark: 5,460 changes and a gap",
    [LISTED_E050] = "E050 length not a multiple of 16",
    [LISTED_OLDER_E050] = "E050 older mark: length not a multiple of 12",
    [LISTED_UNKNOWN_E050] = "E050 unknown mark: a multiple of 12, not of 16",
    [LISTED_E051] = "E051 wrong mark behind the first record",
    [LISTED_OLDER_E051] = "E051 older mark: likewise",
    [LISTED_UNKNOWN_E051] = "E051 unknown first mark: a multiple of 16, not of 12",
    [LISTED_UNKNOWN_E051_MOST] = "E051 unknown first mark: 65,536 bytes",
    [LISTED_E052] = "E052 impossible record",
    [LISTED_E052_SAME_WORDS] = "E052 the first record's words are equal",
    [LISTED_E052_GAP_OF_1] = "E052 a gap of 1 holds the word before it",
    [LISTED_E052_OVER] = "E052 and 4,096 records, the last of them no gap",
    [LISTED_OLDER_E052] = "E052 older mark: impossible record",
    [LISTED_OLDER_E052_OVER] = "E052 older mark: 5,461 records, the last no gap",
    [LISTED_E053] = "E053 mixed marks",
    [LISTED_OLDER_E053] = "E053 mixed marks, the older one first",
    [LISTED_E056] = "E056 more than 65,536 bytes",
    [LISTED_OLDER_E056] = "E056 older mark: more than 65,536 bytes",
    [LISTED_OLDER_E056_NEAR] = "E056 older mark: 65,533 to 65,536 bytes",
    [LISTED_UNKNOWN_E056] = "E056 unknown mark: more than 65,536 bytes",
    [LISTED_NO_ROOM] = "too little room for the text",
};

/* A class for each of the three marks that the first record can have. */
struct of_mark {
    enum listed present, older, unknown;
};

static enum listed by_mark(const struct log *log, struct of_mark classes)
{
    switch (log_mark(log->bytes, log->length)) {
    case MARK_PRESENT:
        return classes.present;
    case MARK_OLDER:
        return classes.older;
    default:
        return classes.unknown;
    }
}

/* The last record of a log that has the form of its first mark, or NULL. `records` is their number. */
static const uint8_t *last_record(const struct log *log, size_t *records)
{
    size_t bytes = log_record_bytes(log_mark(log->bytes, log->length) == MARK_OLDER ? OLDER : PRESENT);
    *records = log->length / bytes;
    return *records == 0 ? NULL : log->bytes + (*records - 1) * bytes;
}

static enum listed accepted_gap(const struct log *log, const uint8_t *gap, size_t records)
{
    bool back = log_get(gap + WORD_AT) == log_get(gap - LOG_RECORD + VALUE_AT);
    if (log->length == LOG_MOST && records == log_most_records(PRESENT)) return LISTED_FULL;
    if (log_get(gap + VALUE_AT) == 1) return LISTED_GAP_OF_1;
    return log_get(gap + VALUE_AT) == 2 && back ? LISTED_GAP_BACK : LISTED_GAP;
}

static enum listed accepted_as(const struct log *log)
{
    size_t records;
    const uint8_t *last = last_record(log, &records);
    if (last == NULL) return LISTED_NONE;
    if (log_mark(log->bytes, log->length) == MARK_OLDER) {
        if (records == log_most_records(OLDER)) return LISTED_OLDER_FULL;
        if (last[KIND_AT] == GAP) return LISTED_OLDER_GAP;
        return records == log_most_records(OLDER) - 1 ? LISTED_OLDER_MOST_CHANGES : LISTED_OLDER_CHANGES;
    }
    if (last[KIND_AT] == GAP) return accepted_gap(log, last, records);
    return records == log_most_records(PRESENT) - 1 ? LISTED_MOST_CHANGES : LISTED_CHANGES;
}

static bool same_words_first(const uint8_t *first)
{
    bool cause = first[CAUSE_AT] < 200 || first[CAUSE_AT] > 253;
    return first[KIND_AT] == CHANGE && cause && log_get(first + VALUE_AT) == log_get(first + WORD_AT);
}

static bool gap_of_1_back(const uint8_t *gap)
{
    return gap[KIND_AT] == GAP && gap[CAUSE_AT] == 0 && log_get(gap + VALUE_AT) == 1 &&
           log_get(gap + WORD_AT) == log_get(gap - LOG_RECORD + VALUE_AT);
}

static enum listed impossible_as(const struct log *log)
{
    size_t records;
    const uint8_t *last = last_record(log, &records);
    if (log_mark(log->bytes, log->length) == MARK_OLDER) {
        bool over = records == log_most_records(OLDER) && last[KIND_AT] != GAP;
        return over ? LISTED_OLDER_E052_OVER : LISTED_OLDER_E052;
    }
    if (records == log_most_records(PRESENT) && last[KIND_AT] != GAP) return LISTED_E052_OVER;
    if (same_words_first(log->bytes)) return LISTED_E052_SAME_WORDS;
    return records > 1 && gap_of_1_back(last) ? LISTED_E052_GAP_OF_1 : LISTED_E052;
}

enum listed listed_as(const struct log *log, const uint8_t *text, size_t written)
{
    if (written == 0 || text[0] != 'E') return accepted_as(log);
    bool twelve = log->length % LOG_OLDER_RECORD == 0, near = log->length <= LOG_MOST;
    enum listed unknown_051 = log->length == LOG_MOST ? LISTED_UNKNOWN_E051_MOST : LISTED_UNKNOWN_E051;
    switch (text[3]) {
    case '0': /* one that neither size divides, or is too short for a mark, shows no more than the first class */
        return by_mark(log, (struct of_mark){LISTED_E050, LISTED_OLDER_E050, twelve ? LISTED_UNKNOWN_E050 : LISTED_E050});
    case '1':
        return by_mark(log, (struct of_mark){LISTED_E051, LISTED_OLDER_E051, twelve ? LISTED_E051 : unknown_051});
    case '2':
        return impossible_as(log);
    case '3':
        return by_mark(log, (struct of_mark){LISTED_E053, LISTED_OLDER_E053, LISTED_E053});
    default:
        return by_mark(log, (struct of_mark){LISTED_E056, near ? LISTED_OLDER_E056_NEAR : LISTED_OLDER_E056, LISTED_UNKNOWN_E056});
    }
}
