/* edges.c: totals and logs at an edge, each with what must come of it, worked out by hand from request 11. All have the log below, or are
 * made from it by one step; channel 1 opens in it, channel 32 closes, and 3 changes are lost. */
#include "accounts.h"

#include <string.h>

/* From tick 10 with the word 1: a change at tick 20, and a gap at tick 25. */
enum { LAST_TICK = 10, FIRST_TICK = 20, GAP_TICK = 25, LOST = 3, WORD_BEFORE = 1, WORD_OF_GAP = 2, UNKNOWN = 7 };
static const uint32_t word_after = 0x80000000;

static void begin(struct account *account)
{
    uint8_t *log = account->log.bytes;
    account->log.form = PRESENT;
    account->log.length = 2 * LOG_RECORD;
    log_put_record(log, PRESENT, CHANGE, OF_LINE_000, FIRST_TICK, word_after, WORD_BEFORE);
    log_put_record(log + LOG_RECORD, PRESENT, GAP, OF_LINE_000, GAP_TICK, LOST, WORD_OF_GAP);
    account->count = CHANNELS;
    account->beside = (struct nizhalepu_beside){LAST_TICK, WORD_BEFORE, UNKNOWN, false};
    for (unsigned n = 0; n < ACCOUNT_ROOM; n++) account->channels[n] = (struct nizhalepu_channel){n + 1, 100 + n, 1000 + n};
}

static void make_older(struct log *log)
{
    log->form = OLDER;
    log->length = 2 * LOG_OLDER_RECORD;
    log_put_record(log->bytes, OLDER, CHANGE, OF_LINE_000, FIRST_TICK, word_after, 0);
    log_put_record(log->bytes + LOG_OLDER_RECORD, OLDER, GAP, OF_LINE_000, GAP_TICK, LOST, 0);
}

/* ---- the step from what is above to an edge */

enum place {
    NONE,
    COUNT,
    COUNT_AND_A_PART, /* and the last record lacks a byte */
    LENGTH,
    MARK,             /* the older one */
    TICK_BEFORE,      /* the last one read */
    POWER_ON,         /* the last tick and the last word are 0 */
    NUMBER_LOST,
    OR_MORE,
    UNKNOWN_BEFORE,
    CLOSINGS_OF_32,
    OPENINGS_OF_1,
    TICKS_OF_1,
    TICKS_OF_32,
    OTHER_TOTALS      /* those to which nothing is added */
};

static void put_others(struct nizhalepu_channel *channels, uint64_t value)
{
    for (unsigned n = 1; n < CHANNELS - 1; n++) channels[n] = (struct nizhalepu_channel){value, value, value};
    channels[0].closings = channels[CHANNELS - 1].openings = value;
}

static void put_total(struct nizhalepu_channel *channels, enum place place, uint64_t value)
{
    struct nizhalepu_channel *first = channels, *last = channels + CHANNELS - 1;
    if (place == CLOSINGS_OF_32) last->closings = value;
    if (place == OPENINGS_OF_1) first->openings = value;
    if (place == TICKS_OF_1) first->ticks = value;
    if (place == TICKS_OF_32) last->ticks = value;
    if (place == OTHER_TOTALS) put_others(channels, value);
}

static void put(struct account *account, enum place place, uint64_t value)
{
    struct nizhalepu_beside *beside = &account->beside;
    if (place == COUNT || place == COUNT_AND_A_PART) account->count = value;
    if (place == COUNT_AND_A_PART) account->log.length--;
    if (place == LENGTH) account->log.length = value;
    if (place == MARK) make_older(&account->log);
    if (place == TICK_BEFORE) beside->tick = (uint32_t)value;
    if (place == POWER_ON) beside->tick = beside->word = 0;
    if (place == NUMBER_LOST) log_put(account->log.bytes + LOG_RECORD + VALUE_AT, (uint32_t)value);
    if (place == OR_MORE) beside->more = true;
    if (place == UNKNOWN_BEFORE) beside->unknown = value;
    put_total(account->channels, place, value);
}

/* ---- all of them: the ticks that are added to channel 1, and the number unknown in the end */

static const struct edge {
    const char *name;
    enum place place;
    uint64_t value;
    uint8_t refusal;
    unsigned ticks;
    uint64_t unknown;
    bool more;
} edges[] = {
    {"32 records", NONE, 0, 0, 10, 10, false},
    {"31 records", COUNT, 31, 75, 0, 0, false},
    {"33 records", COUNT, 33, 75, 0, 0, false},
    {"31 records, and a part of a record in the log", COUNT_AND_A_PART, 31, 75, 0, 0, false},
    {"a 12-byte log", MARK, 0, 51, 0, 0, false},
    {"a first tick that is the last one read", TICK_BEFORE, 20, 0, 0, 10, false},
    {"a first tick one before the last one read", TICK_BEFORE, 21, 72, 0, 0, false},
    {"an earlier word that is not 0 after a power-on", POWER_ON, 0, 73, 0, 0, false},
    {"a gap at its cap", NUMBER_LOST, 4294967295, 0, 10, 4294967302, true},
    {"a gap one below its cap", NUMBER_LOST, 4294967294, 0, 10, 4294967301, false},
    {"or more from before", OR_MORE, 0, 0, 10, 10, true},
    {"closings that come to the end", CLOSINGS_OF_32, UINT64_MAX - 1, 0, 10, 10, false},
    {"closings past the end", CLOSINGS_OF_32, UINT64_MAX, 74, 0, 0, false},
    {"openings that come to the end", OPENINGS_OF_1, UINT64_MAX - 1, 0, 10, 10, false},
    {"openings past the end", OPENINGS_OF_1, UINT64_MAX, 74, 0, 0, false},
    {"ticks that come to the end", TICKS_OF_1, UINT64_MAX - 10, 0, 10, 10, false},
    {"ticks past the end", TICKS_OF_1, UINT64_MAX - 9, 74, 0, 0, false},
    {"ticks of channel 32 that come to the end", TICKS_OF_32, UINT64_MAX - 5, 0, 10, 10, false},
    {"ticks of channel 32 past the end", TICKS_OF_32, UINT64_MAX - 4, 74, 0, 0, false},
    {"a number unknown that comes to the end", UNKNOWN_BEFORE, UINT64_MAX - 3, 0, 10, UINT64_MAX, false},
    {"a number unknown past the end", UNKNOWN_BEFORE, UINT64_MAX - 2, 74, 0, 0, false},
    {"totals at the end to which nothing is added", OTHER_TOTALS, UINT64_MAX, 0, 10, 10, false},
    {"a log of no record", LENGTH, 0, 0, 0, 0, false},
};

const char *edge_make(unsigned number, struct account *account, struct brought *want)
{
    if (number >= sizeof edges / sizeof *edges) return NULL;
    const struct edge *edge = &edges[number];
    begin(account);
    put(account, edge->place, edge->value);
    memcpy(want->channels, account->channels, sizeof want->channels);
    want->beside = account->beside;
    want->refusal = edge->refusal;
    if (edge->refusal != 0 || account->log.length == 0) return edge->name;
    want->channels[0].openings++;
    want->channels[0].ticks += edge->ticks;
    want->channels[31].closings++;
    want->channels[31].ticks += 5;
    want->beside = (struct nizhalepu_beside){GAP_TICK, WORD_OF_GAP, edge->unknown, edge->more};
    return edge->name;
}
