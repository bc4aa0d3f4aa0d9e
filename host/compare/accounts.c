/* accounts.c: totals and logs made up, and what both readings make of them; accounts.h says more. */
#include "accounts.h"

#include "totals.h"

#include <inttypes.h>
#include <stdio.h>
#include <string.h>

enum { FEW = 20, SOME_BYTES = 200 }; /* changes of most logs, and bytes of one that is none */

/* ---- logs */

/* Any bytes, often with a mark before them. */
static void make_noise(struct log *log, struct chance *chance)
{
    static const uint16_t marks[] = {MARK_PRESENT, MARK_OLDER};
    log->form = PRESENT;
    log->length = chance_below(chance, SOME_BYTES);
    if (chance_one_in(chance, 2)) log->length -= log->length % LOG_RECORD;
    for (size_t i = 0; i < log->length; i++) log->bytes[i] = (uint8_t)chance_next(chance);
    if (log->length < 2 || chance_one_in(chance, 3)) return;
    unsigned mark = marks[chance_below(chance, 2)];
    log->bytes[0] = (uint8_t)(mark >> 8);
    log->bytes[1] = (uint8_t)mark;
}

/* More bytes than any log has, or than one of the older mark has. */
static void make_too_long(struct log *log, struct chance *chance)
{
    log_make(log, chance_one_in(chance, 2) ? OLDER : PRESENT, chance, 1, false);
    log->length = log->form == OLDER ? LOG_OLDER_MOST + chance_between(chance, 1, 5) : LOG_MOST + chance_between(chance, 1, 40);
}

/* Answers whether the log is of the present mark and nothing was done to it. */
static bool make_log(struct log *log, struct chance *chance)
{
    uint32_t luck = chance_below(chance, 1000);
    if (luck < 6) {
        make_too_long(log, chance);
        return false;
    }
    if (luck < 30) {
        make_noise(log, chance);
        return false;
    }
    if (luck < 36) { /* as many changes as can be, or one more */
        log_make(log, PRESENT, chance, log_most_records(PRESENT) - !chance_one_in(chance, 8), chance_one_in(chance, 2));
        return log_records(log) <= log_most_records(PRESENT);
    }
    bool older = luck < 110, spoiled = luck < 70 || (luck >= 110 && luck < 210);
    log_make(log, older ? OLDER : PRESENT, chance, chance_one_in(chance, 25) ? 0 : chance_between(chance, 1, FEW), false);
    if (log->length > 0 && chance_one_in(chance, 2)) log_add_gap(log, chance);
    for (unsigned n = spoiled ? chance_between(chance, 1, 2) : 0; n > 0; n--) log_spoil(log, chance);
    return !older && !spoiled;
}

/* ---- what is beside the totals */

static bool has_first(const struct account *account)
{
    return account->log.length >= LOG_RECORD;
}

/* Often the first tick itself, or a few before it. */
static uint32_t not_later(struct chance *chance, uint32_t tick)
{
    switch (chance_below(chance, 4)) {
    case 0:
        return tick;
    case 1:
        return chance_one_in(chance, 2) ? 0 : (uint32_t)(chance_next(chance) % ((uint64_t)tick + 1));
    default:
        return tick - chance_below(chance, tick < 1000 ? tick + 1 : 1000);
    }
}

static uint32_t later(struct chance *chance, uint32_t tick)
{
    if (tick == UINT32_MAX) return tick;
    return chance_one_in(chance, 2) ? tick + 1 : chance_between(chance, tick + 1, UINT32_MAX);
}

static uint64_t any_total(struct chance *chance)
{
    switch (chance_below(chance, 4)) {
    case 0:
        return 0;
    case 1:
        return chance_below(chance, 1000);
    case 2:
        return chance_next(chance) >> chance_between(chance, 1, 32);
    default:
        return (uint64_t)UINT32_MAX - 2 + chance_below(chance, 5);
    }
}

/* That on which the log follows, or nearly so; and now and then what a caller has after a power-on. */
static void make_beside(struct account *account, struct chance *chance)
{
    struct nizhalepu_beside *beside = &account->beside;
    uint32_t tick = has_first(account) ? log_get(account->log.bytes + TICK_AT) : (uint32_t)chance_next(chance);
    uint32_t word = has_first(account) ? log_get(account->log.bytes + WORD_AT) : (uint32_t)chance_next(chance);
    beside->tick = not_later(chance, tick);
    beside->word = word;
    if (chance_one_in(chance, 14)) beside->tick = later(chance, tick);
    if (chance_one_in(chance, 14)) beside->word ^= chance_one_in(chance, 2) ? UINT32_C(1) << chance_below(chance, 32) : (uint32_t)chance_next(chance);
    if (chance_one_in(chance, 10)) beside->tick = beside->word = 0;
    beside->unknown = any_total(chance);
    beside->more = chance_one_in(chance, 4);
}

/* ---- totals */

static uint64_t *total_of(struct nizhalepu_channel *channel, enum field field)
{
    return field == CLOSINGS ? &channel->closings : field == OPENINGS ? &channel->openings : &channel->ticks;
}

uint64_t channel_total(const struct nizhalepu_channel *channel, enum field field)
{
    return field == CLOSINGS ? channel->closings : field == OPENINGS ? channel->openings : channel->ticks;
}

static void make_channels(struct account *account, struct chance *chance)
{
    bool zeros = chance_one_in(chance, 5);
    for (unsigned n = 0; n < ACCOUNT_ROOM; n++)
        for (enum field field = 0; field < FIELDS; field++)
            *total_of(&account->channels[n], field) = zeros ? 0 : any_total(chance);
}

uint32_t account_lost(const struct account *account)
{
    if (!has_first(account)) return 0;
    const uint8_t *last = account->log.bytes + account->log.length - LOG_RECORD;
    return last[KIND_AT] == GAP ? log_get(last + VALUE_AT) : 0;
}

uint64_t account_adds(const struct account *account, unsigned channel, enum field field)
{
    uint64_t sum = 0;
    uint32_t tick = account->beside.tick;
    bool closed = account->beside.word >> channel & 1;
    for (const uint8_t *record = account->log.bytes; record < account->log.bytes + account->log.length; record += LOG_RECORD) {
        if (field == TICKS && closed) sum += log_get(record + TICK_AT) - tick;
        tick = log_get(record + TICK_AT);
        if (record[KIND_AT] == GAP) break;
        bool then = closed;
        closed = log_get(record + VALUE_AT) >> channel & 1;
        sum += (field == CLOSINGS && closed && !then) || (field == OPENINGS && then && !closed);
    }
    return sum;
}

/* Totals that come to the end of 64 bits by this log: all of them, or one; and where one is to pass it, that one has room for one less. It is
 * one to which the log adds: often of the last channel, or of the first. */
static void put_at_end(struct account *account, struct chance *chance)
{
    bool over = chance_one_in(chance, 2), all = chance_one_in(chance, 3);
    uint32_t lost = account_lost(account), luck = chance_below(chance, 4);
    enum field which = (enum field)chance_below(chance, FIELDS);
    unsigned channel = luck == 0 ? 0 : luck == 1 ? chance_below(chance, CHANNELS) : CHANNELS - 1;
    for (unsigned n = 0; all && n < CHANNELS; n++)
        for (enum field field = 0; field < FIELDS; field++)
            *total_of(&account->channels[n], field) = UINT64_MAX - account_adds(account, n, field);
    if (lost > 0 && (all || chance_one_in(chance, 4))) {
        bool this_one = over && chance_one_in(chance, 4);
        account->beside.unknown = UINT64_MAX - lost + this_one;
        if (this_one || !all) return;
    }
    for (unsigned n = 0; n < CHANNELS; n++, channel = (channel + 1) % CHANNELS) {
        uint64_t adds = account_adds(account, channel, which);
        if (adds == 0) continue;
        *total_of(&account->channels[channel], which) = UINT64_MAX - adds + over;
        return;
    }
}

/* ---- an account */

static size_t wrong_count(struct chance *chance)
{
    static const size_t counts[] = {0, 1, 16, 31, 31, 31, 33, 33, 33, ACCOUNT_ROOM};
    return counts[chance_below(chance, sizeof counts / sizeof *counts)];
}

void account_make(struct account *account, struct chance *chance)
{
    bool sound = make_log(&account->log, chance);
    make_beside(account, chance);
    make_channels(account, chance);
    account->count = chance_one_in(chance, 16) ? wrong_count(chance) : CHANNELS;
    if (sound && account->log.length > 0 && chance_one_in(chance, 3)) put_at_end(account, chance);
}

/* ---- both readings */

struct nizhalepu_brought bring_proved(struct nizhalepu_channel *channels, size_t count, const uint8_t *log, size_t length,
                                      struct nizhalepu_beside beside)
{
    return nizhalepu_bring_forward(channels, count, log, length, beside);
}

/* Its records are its own, and of the same fields. */
struct nizhalepu_brought bring_independent(struct nizhalepu_channel *channels, size_t count, const uint8_t *log, size_t length,
                                           struct nizhalepu_beside beside)
{
    struct totals_channel own[ACCOUNT_ROOM];
    struct totals_beside kept = {beside.tick, beside.word, beside.unknown, beside.more};
    for (unsigned n = 0; n < count; n++) own[n] = (struct totals_channel){channels[n].closings, channels[n].openings, channels[n].ticks};
    uint8_t refusal = totals_bring_forward(own, count, log, length, &kept);
    for (unsigned n = 0; n < count; n++) channels[n] = (struct nizhalepu_channel){own[n].closings, own[n].openings, own[n].ticks};
    return (struct nizhalepu_brought){refusal, {kept.tick, kept.word, kept.unknown, kept.more}};
}

bool channels_equal(const struct nizhalepu_channel *one, const struct nizhalepu_channel *other)
{
    return one->closings == other->closings && one->openings == other->openings && one->ticks == other->ticks;
}

bool besides_equal(const struct nizhalepu_beside *one, const struct nizhalepu_beside *other)
{
    return one->tick == other->tick && one->word == other->word && one->unknown == other->unknown && one->more == other->more;
}

void channel_print(const char *name, const struct nizhalepu_channel *channel)
{
    printf("  %-12s %" PRIu64 " closings, %" PRIu64 " openings, %" PRIu64 " ticks\n", name, channel->closings, channel->openings,
           channel->ticks);
}

void beside_print(const char *name, const struct nizhalepu_beside *beside)
{
    printf("  %-12s tick %" PRIu32 ", word %08" PRIX32 ", unknown %" PRIu64 "%s\n", name, beside->tick, beside->word, beside->unknown,
           beside->more ? " or more" : "");
}
