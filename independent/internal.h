/* internal.h: the state of the box and what its parts share. "01" is the paper of rules. */
#ifndef INDEPENDENT_INTERNAL_H
#define INDEPENDENT_INTERNAL_H

#include <stdbool.h>
#include <stddef.h>
#include <stdint.h>

#include "box.h"

/*
 * DAMAGE 0 is the box, the reader of its log and the readings of durations, of stops, of plans and of totals; 1 to 10, 18 to 32 and 35 to 42
 * give the box, 11 to 17 and 43 to 46 the reader, 33 and 34 the durations, 47 to 51 the stops, 52 to 57 the plans, 58 to 69 the totals one
 * known error each, to see that a comparison finds it.
 */
#ifndef DAMAGE
#define DAMAGE 0
#endif

enum {
    LINES = 200,           /* lines 000-199 of the program area */
    SINGLE = 200,          /* the single command, a line kept in the state */
    LINE_BYTES = 8,
    PROGRAM_BYTES = LINES * LINE_BYTES,
    COUNTERS = 4,
    NUMBER_MOST = 9999,    /* times and counts */
    RUN_MOST = 400,        /* For and Next lines run in one call */
    REPLY_LEAST = 16,      /* a State line of 15 characters and its 13 */
    COMMAND_MOST = 32      /* characters kept of a command */
};

enum { /* 01, "Calls and what is lent" */
    REFUSED_PROGRAM = 30,
    REFUSED_LOG = 31,
    REFUSED_REPLY = 32,
    REFUSED_TICK = 33,
    REFUSED_BUTTON = 34,
    REFUSED_DESTINATION = 35
};

enum { /* events of variable 212 */
    EVENT_COUNTER_BUSY = 6,
    EVENT_NO_NEXT = 7,
    EVENT_NO_FOR = 8,
    EVENT_PAST_LAST = 9,
    EVENT_BUTTON = 10,
    EVENT_END = 11,
    EVENT_POWER_ON = 12,
    EVENT_TOO_LONG = 13,
    EVENT_BAD_LINE = 14 /* 02, item 4 */
};

enum { /* error replies; 0 is no error */
    E_SHORT = 1,
    E_FORM = 2,
    E_DATA = 3,
    E_ADDRESS = 4,
    E_LOCKED = 5,
    /* 02, item 3: at address 210 */
    E_NEEDS_STOP = 20,
    E_NEEDS_PAUSE = 21,
    E_NOTHING_TO_PAUSE = 22,
    E_OUT_OF_REACH = 23,
    /* 02, item 4: at a read of a line */
    E_BAD_LINE = 24
};

enum { CAUSE_SINGLE = 254, CAUSE_WRITE = 255 }; /* other causes are line numbers */

enum { STOPPED, PAUSED, RUNNING }; /* Stop, Pause, Auto */

enum { BEFORE_000 = -1 }; /* a last address at power-on (02, item 7) */

struct box {
    uint32_t outputs;             /* output n is bit n-1 */
    uint32_t ticks;
    uint32_t log_length;          /* as given at power-on, 0 after a refused one */
    uint32_t lost;                /* changes lost since emptying, at its cap "that many or more" */
    uint32_t first_lost;          /* the tick of the first of them; of no meaning while none is lost */
#if DAMAGE == 39 || DAMAGE == 42
    uint32_t stale;               /* the word that the gap goes on showing */
#endif
    struct box_nones nones;       /* since power-on; nothing goes by them */
    uint16_t kept;                /* changes that stand in the log, R-1 at most */
    uint16_t wait;                /* unpaused ticks until the next line falls due */
    uint16_t counter[COUNTERS];   /* 0 when free */
    uint8_t after_for[COUNTERS];  /* line after the For that made the counter busy, 199 at most */
    uint8_t mode;
    uint8_t line;
    uint8_t event;
    bool unread;
    uint8_t parameter;
    uint8_t special;
    int16_t last_read;            /* last addresses, BEFORE_000 or one of 0-216 */
    int16_t last_write;
    uint8_t single[LINE_BYTES];   /* line 200: an end mark or what an accepted write left, so never Bad */
    bool overlong;
    uint8_t collected;
    uint8_t command[COMMAND_MOST];
};

enum { LINE_STATE, LINE_FOR, LINE_NEXT, LINE_BAD };

struct line {
    uint8_t kind;      /* Bad has nothing more */
    uint8_t counter;   /* For and Next: 0-3 for counters 1-4 */
    uint16_t number;   /* State: time. For: count */
    uint32_t outputs;  /* State */
};

struct lent { /* to a wire byte, once their lengths are checked */
    uint8_t *program;
    uint8_t *saved;
    uint8_t *log;
};

/* ---- numbers in an area: high byte first ---- */

static inline uint32_t two_bytes(const uint8_t *bytes)
{
    return (uint32_t)bytes[0] << 8 | bytes[1];
}

static inline uint32_t four_bytes(const uint8_t *bytes)
{
    return two_bytes(bytes) << 16 | two_bytes(bytes + 2);
}

/* ---- what several calls check ---- */

/* 031. The length given at power-on is 32 to 65,536, or 0 after a refused one; so this covers both bounds. */
static inline bool log_refused(const struct box *box, size_t log_length)
{
    return log_length < BOX_LOG_LEAST || log_length != box->log_length;
}

/* 030 then 031, for a call lent the program area and the log. */
static inline uint8_t areas_refused(const struct box *box, size_t program_length, size_t log_length)
{
    if (program_length != PROGRAM_BYTES)
        return REFUSED_PROGRAM;
    return log_refused(box, log_length) ? REFUSED_LOG : 0;
}

/* box.c */
void box_set_outputs(struct box *box, uint32_t outputs, uint8_t cause, uint8_t *log);

/* line.c */
struct line box_read_line(const uint8_t *bytes);
void box_stop_with(struct box *box, uint8_t event);
uint16_t box_start(struct box *box, unsigned line, const uint8_t *program, uint8_t *log);
uint16_t box_run(struct box *box, unsigned due, const uint8_t *program, uint8_t *log);
unsigned box_special_command(struct box *box, unsigned code, const struct lent *lent, uint16_t *lines);

#endif
