/* accounts.h: totals and logs made up for both readings of the switching totals, and counts kept beside a box to hold them to. */
#ifndef COMPARE_ACCOUNTS_H
#define COMPARE_ACCOUNTS_H

#include "chance.h"
#include "logs.h"
#include "nizhalepu.h"

enum { CHANNELS = NIZHALEPU_CHANNELS, ACCOUNT_ROOM = CHANNELS + 8 };

enum field { CLOSINGS, OPENINGS, TICKS, FIELDS }; /* of a channel record */

struct account { /* totals, and the log by which they are to be brought forward */
    struct nizhalepu_channel channels[ACCOUNT_ROOM]; /* all are looked at afterwards, those behind the ones lent too */
    size_t count;                                    /* that are lent */
    struct nizhalepu_beside beside;
    struct log log;
};

struct brought { /* by one of the two */
    uint8_t refusal;
    struct nizhalepu_channel channels[ACCOUNT_ROOM];
    struct nizhalepu_beside beside;
};

/* ---- accounts.c */

/* What the proved library and what the independent reading make of a log. */
struct nizhalepu_brought bring_proved(struct nizhalepu_channel *channels, size_t count, const uint8_t *log, size_t length,
                                      struct nizhalepu_beside beside);
struct nizhalepu_brought bring_independent(struct nizhalepu_channel *channels, size_t count, const uint8_t *log, size_t length,
                                           struct nizhalepu_beside beside);

/* What is first refused is any of the refusals now and then; most logs are brought forward, some of them to the end of 64 bits. */
void account_make(struct account *account, struct chance *chance);

/* What a log that follows on the last record read adds to one of the totals, and to the number unknown. */
uint64_t account_adds(const struct account *account, unsigned channel, enum field field);
uint32_t account_lost(const struct account *account);

uint64_t channel_total(const struct nizhalepu_channel *channel, enum field field);
bool channels_equal(const struct nizhalepu_channel *one, const struct nizhalepu_channel *other);
bool besides_equal(const struct nizhalepu_beside *one, const struct nizhalepu_beside *other);

void channel_print(const char *name, const struct nizhalepu_channel *channel);
void beside_print(const char *name, const struct nizhalepu_beside *beside);

/* ---- edges.c */

/* The account of an edge and what must come of it; answers its name, or NULL where there are no more. */
const char *edge_make(unsigned number, struct account *account, struct brought *want);

/* ---- watch.c: a caller that sees every call on a box, and none of its logs */

struct watch {
    struct nizhalepu_channel told[CHANNELS]; /* by the logs that were emptied since the beginning */
    struct nizhalepu_beside beside;
    uint64_t balance;                        /* closings less openings at the power-on */
    uint64_t gaps, gaps_before;              /* emptied since the beginning, and up to the power-on */
    /* since the power-on */
    uint32_t places;                         /* of the log */
    uint32_t tick;
    uint32_t outputs;
    /* since the last emptying */
    struct nizhalepu_channel kept[CHANNELS]; /* by what has a record of its own; ticks up to the last record */
    uint32_t changes;
    uint32_t last_tick, last_word;           /* of the last record */
    uint32_t lost;
    uint32_t since_gap;                      /* ticks since the first lost change */
    /* since the last record */
    uint32_t ticks[CHANNELS];                /* at whose end each channel was closed */
};

/* An accepted power-on with a log of so many bytes. The totals go on, and what was not emptied is gone. */
void watch_power_on(struct watch *watch, size_t log);

/* An accepted call, in which the tick count went on or not, and the outputs after it. */
void watch_call(struct watch *watch, bool ticked, uint32_t outputs);

/* An accepted emptying: `told` and `beside` are what the logs up to this one tell. */
void watch_empty(struct watch *watch);

/* Closings less openings since the power-on are the channels closed, wherever no gap was met since then. */
bool watch_balanced(const struct watch *watch);

#endif
