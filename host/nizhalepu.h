/* nizhalepu.h: the proved controller of a 32-way switch box, for a main loop in C.
 *
 * Link with crates/nizhalepu/out/libnizhalepu.a (x86-64), which `rt lib` in crates/nizhalepu proves and makes; all
 * that it may need of a C library is memcpy and memset. The rules are those of document 01 and of document 02, items 1 (the
 * log as text), 2 (a loop of none), 3 (why a special command was not taken), 4 (a bad stored line), 5 (less
 * stack), 6 (how long a program takes), 7 (the first increment), 8 (what a gap tells), 9 (why a program stops),
 * 10 (an inclining plan as a program) and 11 (switching totals per channel); the Rattle source of these calls, with
 * their contracts, is crates/nizhalepu/src/lib.rt.
 *
 * Who owns what. The caller owns the record and every area. The library keeps no pointer, allocates
 * nothing, has no data of its own but constants and calls nothing back; each call ends.
 *
 * What a caller must do:
 * - Keep one record. Hand it first to nizhalepu_power_on, which fills it whatever it held, and then to
 *   every other call as the call before left it: never an older copy, never one made up. The other calls
 *   ask nothing more of the record.
 * - Lend areas that do not overlap each other or the record, with at least as many bytes, of a plan as many
 *   numbers, of totals as many channel records, behind each pointer as its length or count says. A pointer is not
 *   null, even with length 0. A length may be wrong: the five calls, nizhalepu_duration, nizhalepu_explain,
 *   nizhalepu_plan and nizhalepu_bring_forward refuse that, and nizhalepu_list then writes nothing.
 * - Alter neither the program area nor the log between calls. Every call still does what document 01
 *   says if it happens, but what the box then runs and tells is what the areas hold.
 * - Make one call at a time on one record.
 * - Have room for it on the stack: as it is built here a byte takes under 900 bytes and a tick under 400
 *   (docs/SPEED.md). That is measured, and no part of what is proved.
 */
#ifndef NIZHALEPU_H
#define NIZHALEPU_H

#include <stdbool.h>
#include <stddef.h>
#include <stdint.h>

#ifdef __cplusplus
extern "C" {
#endif

/* ---- sizes of the areas, in bytes */

enum {
    NIZHALEPU_PROGRAM = 1600,    /* the program area and the saved copy: 200 lines of 8, exactly */
    NIZHALEPU_LOG_LEAST = 32,    /* the log area, and as at power-on ever after */
    NIZHALEPU_LOG_MOST = 65536,
    NIZHALEPU_LOG_RECORD = 16,   /* one record of the log */
    NIZHALEPU_REPLY = 16,        /* the reply area, at least; the longest reply fills it */
    NIZHALEPU_LIST_MOST = 65536, /* a log that is listed: 4,096 records of 16 bytes, or of the older mark 5,461 of 12 */
    NIZHALEPU_TEXT = 143360      /* the text area, at least: 4,096 lines of at most 35 bytes; 5,461 of at most 26 are fewer */
};

/* ---- a record of the log: 16 bytes, numbers and words high byte first. The area has R places, its length divided by 16.
 *
 *   bytes   a change                                    a gap, in the last place from the R-th change since emptying on
 *   0-1     the mark 1E E2                              the mark 1E E2
 *   2       the kind, 1                                 the kind, 2
 *   3       the cause: the line, 254 for command 006,   0
 *           255 for a write to 203-206
 *   4-7     the tick count                              the tick count at the first lost change
 *   8-11    the output word after the change            how many are lost; FFFFFFFF means that many or more
 *   12-15   the output word before the change           the output word after the last lost change
 *
 * Records of the older mark 1E E1 had 12 bytes: they lacked the last word, and a gap's tick was that of the last
 * lost change. The library writes them no more; nizhalepu_list still reads logs of them. */

/* ---- refusals: the number that a call gives, 0 where it is accepted; checked in this order */

enum {
    NIZHALEPU_ACCEPTED = 0,
    NIZHALEPU_BAD_PROGRAM = 30,     /* program area or saved copy is not exactly 1,600 bytes */
    NIZHALEPU_BAD_LOG = 31,         /* log area under 32 or over 65,536 bytes, or not the length given at power-on */
    NIZHALEPU_SHORT_REPLY = 32,     /* reply area under 16 bytes */
    NIZHALEPU_LAST_TICK = 33,       /* the tick count is already 4,294,967,295 */
    NIZHALEPU_BAD_BUTTON = 34,      /* button number other than 1 or 2 */
    NIZHALEPU_SHORT_DESTINATION = 35 /* destination shorter than the records held */
};

/* ---- errors on the wire: the number in a reply of E, three digits and 13, and what an operator does about
 * it. The command has changed nothing but that its characters are gone. Where several apply, the first in
 * the order of document 01's checks is told. */

enum {
    NIZHALEPU_E_SHORT = 1,             /* fewer than three characters: send it again */
    NIZHALEPU_E_FORM = 2,              /* no such command, or characters left over or missing: correct it */
    NIZHALEPU_E_DATA = 3,              /* data not in their format, or no such code: correct them */
    NIZHALEPU_E_ADDRESS = 4,           /* no such address, or one that is only read: correct it */
    NIZHALEPU_E_LOCKED = 5,            /* a line or an output while a program runs or is paused: let it end, or stop it by 001 */
    /* at address 210, and nowhere else */
    NIZHALEPU_E_NEEDS_STOP = 20,       /* 003, 005-008 while a program runs or is paused: likewise; a paused one that is to go on: 004 */
    NIZHALEPU_E_NEEDS_PAUSE = 21,      /* 004, and none is paused: nothing, if one runs; else start it, if it is to run */
    NIZHALEPU_E_NOTHING_TO_PAUSE = 22, /* 002, and none runs: read 211 and 212 for where and how the last one stopped */
    NIZHALEPU_E_OUT_OF_REACH = 23,     /* 209 is above 199 for 005, above 200 for 006: write 209 and send it again */
    /* at a read of 000-199, and nowhere else */
    NIZHALEPU_E_BAD_LINE = 24          /* what stands there is no line: write it, or load a sound copy; I and D go by the last good read */
};

/* ---- events: the number in 212, 0 once it was read, and the line that 211 then shows. All but the power-on are stops. */

enum {
    NIZHALEPU_EVENT_BUSY = 6,      /* on a For: its counter is busy */
    NIZHALEPU_EVENT_NO_NEXT = 7,   /* on a For: no later line is a Next of its counter */
    NIZHALEPU_EVENT_NO_FOR = 8,    /* on a Next: its counter is not busy */
    NIZHALEPU_EVENT_PAST_LAST = 9, /* on line 199: the program went on past it */
    NIZHALEPU_EVENT_BUTTON = 10,   /* on the line that was held: Start/Stop was pressed */
    NIZHALEPU_EVENT_END = 11,      /* on a State with time 0: the program is at its end */
    NIZHALEPU_EVENT_POWER_ON = 12, /* on line 000 */
    NIZHALEPU_EVENT_TOO_LONG = 13, /* on the For or Next that would have been the 401st in one call */
    NIZHALEPU_EVENT_BAD_LINE = 14  /* on a Bad line, eight bytes that are no line: damage, and not the program's end */
};

/* ---- the record: 120 bytes. Its fields are the library's; host/layout.c holds them to the archive. */

struct nizhalepu_counter { /* a loop counter */
    uint16_t count;        /* 0 when free */
    uint8_t line;          /* where its For stands */
};

struct nizhalepu_run {
    bool on;                            /* a program runs or is paused */
    uint8_t line;                       /* the line now held, or where the program stopped */
    uint16_t wait;                      /* unpaused ticks until the next line falls due */
    uint32_t outputs;                   /* output n is bit n-1 */
    struct nizhalepu_counter counters[4];
};

struct nizhalepu_wire {
    uint8_t chars[32];  /* the characters collected since the last 13, in capitals */
    size_t len;
    bool overlong;      /* a 33rd came */
    uint8_t nextread;   /* the address after the last one read, which I means: 0 after power-on, 217 after 216 */
    uint8_t nextwrite;  /* the address after the last one written, likewise */
};

struct nizhalepu_panel {
    uint8_t single[8];  /* line 200 */
    uint8_t parameter;  /* 209 */
    uint8_t special;    /* 210 */
    uint8_t event;      /* 212 */
    bool unread;
};

struct nizhalepu_log {
    size_t length;      /* of the area, as given at power-on */
    size_t kept;        /* changes that have a record of their own */
    uint32_t lost;      /* changes that a gap counts */
    uint32_t first;     /* the tick of the first lost change; 0 while none is lost */
};

struct nizhalepu_record {
    struct nizhalepu_run run;
    bool paused;
    uint32_t ticks;     /* the tick count */
    struct nizhalepu_panel panel;
    struct nizhalepu_log log;
    struct nizhalepu_wire wire;
};

/* ---- what a call says */

struct nizhalepu_said {
    uint8_t refusal;    /* 0 where the call is accepted */
    uint16_t lines;     /* For and Next lines run, at most 400 */
    size_t written;     /* bytes written to the start of the reply or of the destination */
};

/* ---- the five calls. A refused call leaves every lent byte as it was, and the record too, except
 * that a refused power-on makes a record on which every later call is refused. */

/* Power-on. The program area takes the saved copy as it is, damaged or not; saved copy and log are only read. */
struct nizhalepu_said nizhalepu_power_on(struct nizhalepu_record *record,
                                         uint8_t *program, size_t program_length,
                                         const uint8_t *saved, size_t saved_length,
                                         const uint8_t *log, size_t log_length);

/* One byte from the wire. `written` bytes stand at the start of the reply area, 0 but after byte 13. */
struct nizhalepu_said nizhalepu_byte(struct nizhalepu_record *record, uint8_t byte,
                                     uint8_t *program, size_t program_length,
                                     uint8_t *saved, size_t saved_length,
                                     uint8_t *log, size_t log_length,
                                     uint8_t *reply, size_t reply_length);

/* One tick, every 0.1 s. */
struct nizhalepu_said nizhalepu_tick(struct nizhalepu_record *record,
                                     const uint8_t *program, size_t program_length,
                                     uint8_t *log, size_t log_length);

/* One press: button 1 is Start/Stop, button 2 is Pause; every other number of 32 bits is refused. */
struct nizhalepu_said nizhalepu_press(struct nizhalepu_record *record, uint32_t button,
                                      const uint8_t *program, size_t program_length,
                                      uint8_t *log, size_t log_length);

/* Emptying the log: `written` bytes of records stand at the start of the destination. One as long as the
 * log is never too short. */
struct nizhalepu_said nizhalepu_empty(struct nizhalepu_record *record,
                                      const uint8_t *log, size_t log_length,
                                      uint8_t *destination, size_t destination_length);

/* ---- the emptied log as text. It needs no record; the log may be any bytes, of any number. It is read by the mark
 * of its first record: 1E E2 means records of 16 bytes, the older 1E E1 records of 12.
 *
 * Each record is one line: tick, kind and cause in decimal, the value in eight capital hex digits (in a gap
 * FFFFFFFF means that many or more), and of a record of 16 bytes its last word in eight more; a space between them
 * and LF (10) behind. A log that no box can have written between two emptyings has the text of its refusal
 * alone, E, three digits and LF, the first that applies: E056 more than NIZHALEPU_LIST_MOST bytes, or more than
 * 65,532 under the older mark; E050 no whole number of records; then record by record E053 mixed marks (one of
 * the two, but not the first record's), E051 wrong mark, E052 impossible record. Where the first mark is neither,
 * E056 and E050 go by records of 16 bytes, and the first record is E051.
 *
 * Answers the length of the text, which stands at the start of the text area; the rest of the area stays.
 * An area shorter than NIZHALEPU_TEXT gets nothing, and the answer is 0, as for an empty log: lend one that
 * is as long. */
size_t nizhalepu_list(const uint8_t *log, size_t log_length, uint8_t *text, size_t text_length);

/* ---- how long a program takes. It needs no record; the program may be any bytes, of any number, and is only read.
 *
 * The number is that of the unpaused ticks from a start at line 000 to event 011, where nobody stops the program. It
 * is reckoned without the end of the tick count, at which further ticks are refused (NIZHALEPU_LAST_TICK). The end is the first State with
 * time 0; a For above it and the first later Next of its counter are a loop. A program without a number has the
 * first of these refusals that applies, in this order. They go by every line above the end, also by one in a loop
 * of none, which is never run. */

enum {
    /* NIZHALEPU_BAD_PROGRAM, 30, is the first */
    NIZHALEPU_NO_END = 42,           /* no State with time 0 */
    NIZHALEPU_BAD_LOOPS = 40,        /* two loops cross, one starts inside another of its counter, a For has no Next, or
                                      * a Next above the end has no For */
    NIZHALEPU_END_IN_LOOP = 41,      /* the end is inside a loop */
    NIZHALEPU_LOOP_OF_NO_TICKS = 44, /* a loop with count above 0 whose body takes no ticks; a Bad line in it takes none */
    NIZHALEPU_BAD_LINE = 14,         /* a Bad line above the end */
    NIZHALEPU_TOO_MANY_TICKS = 43    /* more than 9,999,999,999 */
};

struct nizhalepu_duration {
    uint8_t refusal;    /* 0 where the program has a number of ticks */
    uint64_t ticks;     /* 0 where it is refused */
};

struct nizhalepu_duration nizhalepu_duration(const uint8_t *program, size_t program_length);

/* ---- why a program stops. It needs no record; the program may be any bytes, of any number, and is only read; start
 * line and limit may be any numbers of 64 bits.
 *
 * The program is run from the start line on, all loops free, where nobody stops or pauses it; the outputs at the start
 * make no difference. The start is tick 0. The answer is the event that stops it at the limit's own tick or before,
 * its tick, the line that 211 then shows, and the cause; or that it is still running after so many ticks. It is
 * reckoned without the end of the tick count (NIZHALEPU_LAST_TICK). The time that it takes goes by the lines that are
 * run, and not by the ticks for which a State is held: at most 400 For and Next lines a tick. */

enum {
    /* NIZHALEPU_BAD_PROGRAM, 30, is the first */
    NIZHALEPU_BAD_START = 60, /* the start line is above 199 */
    NIZHALEPU_BAD_LIMIT = 61  /* the limit is above NIZHALEPU_LIMIT_MOST */
};

enum {
    NIZHALEPU_LIMIT_MOST = 100000, /* ticks */
    NIZHALEPU_NO_CAUSE = 255
};

struct nizhalepu_stop {
    uint32_t tick;      /* from the start, which is tick 0; 0 where it is refused or still running */
    uint8_t refusal;    /* 0 where the question is answered */
    uint8_t event;      /* 0 where it is refused or still running */
    uint8_t line;       /* where the program stopped; 0 where it is refused or still running */
    uint8_t cause;      /* by the event:
                         *   6   the line of the For that holds the counter, which this run has run
                         *   7   the counter, of which no later line is a Next
                         *   8   1 if a For of the counter stands on a line above, run or not, else 0
                         *   13  the State line that was held when the tick came; none in the start itself
                         * none, NIZHALEPU_NO_CAUSE, with every other event and where there is none */
};

struct nizhalepu_stop nizhalepu_explain(const uint8_t *program, size_t program_length, uint64_t start, uint64_t limit);

/* ---- an inclining plan as a program. It needs no record; the plan may be any numbers, of any count, and is only read;
 * the area may have any length, of which all but NIZHALEPU_PROGRAM are refused, and all of it is written or nothing.
 *
 * A plan has 1 to NIZHALEPU_MOVES_MOST weight moves of four numbers each, one behind the other: the outputs while the
 * weight is moved and the ship settles (output n is bit n-1), for how many ticks, the outputs while the reading is
 * taken, and for how many ticks. Started at line 000 and not stopped, the program has these outputs at every tick,
 * those in pauses not counted, and comes to its end, event 011 with all outputs off, at the sum of the times.
 *
 * plan_count is the number of numbers, four for each move, and not that of the moves: 4, 8, ... 64. An array of structs
 * of four uint32_t may be lent as these numbers. Lend the saved copy or an area of your own for the program, and have the
 * box take it by power-on or by special command 007; never the program area of a box that is on.
 *
 * Answers 0, or the first refusal that applies; a refused call leaves every byte of the area as it was. */

enum {
    /* NIZHALEPU_BAD_PROGRAM, 30, is the first */
    NIZHALEPU_BAD_MOVES = 70, /* no move, more than NIZHALEPU_MOVES_MOST, or a last one of fewer than four numbers */
    NIZHALEPU_BAD_TIME = 71   /* a time of 0, or above NIZHALEPU_TIME_MOST */
};

enum {
    NIZHALEPU_MOVES_MOST = 16,
    NIZHALEPU_TIME_MOST = 600000 /* ticks */
};

uint8_t nizhalepu_plan(const uint32_t *plan, size_t plan_count, uint8_t *program, size_t program_length);

/* ---- switching totals per channel. It needs no record of a box; the log may be any bytes, of any number, and is only
 * read; the totals and what is beside them may be any. The caller keeps both: 32 channel records, of which that of
 * channel n, bit n-1 of the output word, stands in place n-1, and beside them one struct, which is given and answered
 * by value.
 *
 * Begin with all of it 0: all channels are open at tick 0. Then give the logs in the order in which they were emptied,
 * none left out, and with each of them what the call before answered beside the totals. A log in which nothing was
 * switched changes nothing. A log is held to the last record read: a wrong order, one given twice or one left out is
 * refused where a tick falls or a word does not follow, and else not seen.
 *
 * A change counts a closing or an opening for each channel whose bit it alters. Ticks closed count to the tick of the
 * last record read, and not to the emptying. For a gap no closing or opening is counted; the word before it counts up to
 * its tick, and from there on the word that it stores. From records that are all 0 on, and up to the first gap or the next
 * power-on, a channel that is open has as many closings as openings, and one that is closed has one more.
 *
 * Over a power-on keep the channel records, `unknown` and `more`, and set `tick` and `word` to 0. Not counted are then
 * the ticks behind the last record, the openings when the outputs went off, and what was switched and never emptied.
 *
 * Answers the first refusal that applies, or 0. A refused call leaves every channel record as it was, and what it
 * answers beside them is what it was given. */

enum {
    NIZHALEPU_BAD_COUNT = 75,     /* other than 32 channel records; this is the first */
    /* those that nizhalepu_list tells: 56, 50, and then 53, 51 or 52 */
    NIZHALEPU_OLDER_LOG = 51,     /* also a log of the older mark that nizhalepu_list lists: it lacks the word before a change */
    NIZHALEPU_EARLIER_TICK = 72,  /* the first tick is earlier than `tick` */
    NIZHALEPU_OTHER_WORD = 73,    /* the word before the first change is not `word` */
    NIZHALEPU_TOTAL_TOO_GREAT = 74 /* a total or the number unknown would pass 18,446,744,073,709,551,615 */
};

enum { NIZHALEPU_CHANNELS = 32 };

struct nizhalepu_channel { /* 24 bytes */
    uint64_t closings;
    uint64_t openings;
    uint64_t ticks;     /* spent closed */
};

struct nizhalepu_beside {
    uint32_t tick;      /* of the last record read */
    uint32_t word;      /* the output word from there on */
    uint64_t unknown;   /* changes that gaps have lost */
    bool more;          /* or more: a gap has lost FFFFFFFF, which means that many or more */
};

struct nizhalepu_brought {
    uint8_t refusal;    /* 0 where the totals were brought forward */
    struct nizhalepu_beside beside;
};

struct nizhalepu_brought nizhalepu_bring_forward(struct nizhalepu_channel *channels, size_t count,
                                                 const uint8_t *log, size_t log_length,
                                                 struct nizhalepu_beside beside);

#ifdef __cplusplus
}
#endif

#endif
