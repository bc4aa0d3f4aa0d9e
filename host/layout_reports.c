/* layout_reports.c: the part of layout.c for what needs no record: how long a program takes, why it stops, a plan as a program, and totals. */
#include "layout.h"
#include "nizhalepu.h"

#include <string.h>

static uint8_t program[NIZHALEPU_PROGRAM];

static void check_duration(const char *name, size_t length, unsigned refusal, uint64_t ticks) {
    struct nizhalepu_duration duration = nizhalepu_duration(program, length);
    moment = name;
    check("refusal", duration.refusal, refusal);
    check("ticks", duration.ticks, ticks);
}

/* More ticks than 32 bits hold, so that all bytes of the number but the highest, which are 0 in any, are seen. */
static void test_duration(void) {
    static const uint8_t loops[] = {0x46, 1, 0x27, 0x0F, 0, 0, 0, 0, 0x46, 2, 0, 100, 0, 0, 0, 0, 0x53, 0, 1, 2, 3, 4, 0x27, 0x0F,
                                    0x4E, 2, 0,    0,    0, 0, 0, 0, 0x4E, 1, 0, 0,   0, 0, 0, 0, 0x53, 0, 0, 0, 0, 0, 0,    0};
    memset(program, 0, sizeof program);
    check_duration("the duration of a program of zeros", sizeof program, NIZHALEPU_NO_END, 0);
    memcpy(program, loops, sizeof loops);
    check_duration("the duration of two loops", sizeof program, NIZHALEPU_ACCEPTED, 9998000100);
    check_duration("the duration of a program that is too short", sizeof program - 1, NIZHALEPU_BAD_PROGRAM, 0);
}

static void check_refused(const char *name, size_t length, uint64_t start, uint64_t limit, unsigned refusal) {
    struct nizhalepu_stop stop = nizhalepu_explain(program, length, start, limit);
    moment = name;
    check("refusal", stop.refusal, refusal);
    check("event", stop.event, 0);
    check("tick", stop.tick, 0);
    check("line", stop.line, 0);
    check("cause", stop.cause, NIZHALEPU_NO_CAUSE);
}

static void check_stop(const char *name, uint64_t start, uint64_t limit, unsigned event, uint64_t tick, unsigned line, unsigned cause) {
    struct nizhalepu_stop stop = nizhalepu_explain(program, sizeof program, start, limit);
    moment = name;
    check("refusal", stop.refusal, 0);
    check("event", stop.event, event);
    check("tick", stop.tick, tick);
    check("line", stop.line, line);
    check("cause", stop.cause, cause);
}

/* Each place of the answer with a number of its own, and every bit of start line and limit: what is small again in fewer bits is refused.
 * From line 130 on counter 3 is taken, ten times 9,999 ticks go by and one more, and then a For finds counter 3 busy. */
static void test_stop(void) {
    static const uint8_t lines[] = {0x46, 3, 0,    7,    0, 0, 0, 0, 0x46, 2, 0, 10, 0, 0, 0, 0, 0x53, 0, 1, 2, 3, 4, 0x27, 0x0F,
                                    0x4E, 2, 0,    0,    0, 0, 0, 0, 0x53, 0, 0, 0,  0, 0, 0, 1, 0x46, 3, 0, 0, 0, 0, 0,    0,
                                    0x4E, 3, 0,    0,    0, 0, 0, 0};
    memset(program, 0, sizeof program);
    memcpy(program + 130 * 8, lines, sizeof lines);
    check_stop("a counter that is busy", 130, NIZHALEPU_LIMIT_MOST, NIZHALEPU_EVENT_BUSY, 99991, 135, 130);
    check_stop("the same at the limit", 130, 99991, NIZHALEPU_EVENT_BUSY, 99991, 135, 130);
    check_stop("the same before it", 130, 99990, 0, 0, 0, NIZHALEPU_NO_CAUSE);
    check_stop("a Next inside a loop", 133, 0, NIZHALEPU_EVENT_NO_FOR, 0, 133, 1);
    check_stop("a Bad line", 199, 0, NIZHALEPU_EVENT_BAD_LINE, 0, 199, NIZHALEPU_NO_CAUSE);
    check_refused("a program that is too short", sizeof program - 1, 200, 100001, NIZHALEPU_BAD_PROGRAM);
    check_refused("a start line that is too great", sizeof program, 200, 100001, NIZHALEPU_BAD_START);
    check_refused("a limit that is too great", sizeof program, 130, 100001, NIZHALEPU_BAD_LIMIT);
    for (unsigned bits = 8; bits < 64; bits++) {
        check_refused("a start line of many bits", sizeof program, 130 + (UINT64_C(1) << bits), 0, NIZHALEPU_BAD_START);
        if (bits >= 17) check_refused("a limit of many bits", sizeof program, 130, UINT64_C(1) << bits, NIZHALEPU_BAD_LIMIT);
    }
}

/* ---- a plan */

/* Rooms for a count and a length that are right again in 16 bits. */
enum { NUMBERS = 65536 + 4, ROOM = 65536 + NIZHALEPU_PROGRAM, UNWRITTEN = 0xA5 };

static uint32_t plan[NUMBERS];
static uint8_t area[ROOM];

static void check_plan(const char *name, size_t count, size_t length, unsigned refusal) {
    memset(area, UNWRITTEN, sizeof area);
    moment = name;
    check("refusal", nizhalepu_plan(plan, count, area, length), refusal);
}

/* The first bytes of the area are these, and all others are as they were. */
static void check_area(const uint8_t *bytes, size_t count) {
    size_t others = 0;
    for (size_t i = 0; i < count; i++)
        check("a byte of the program", area[i], bytes[i]);
    for (size_t i = count; i < sizeof area; i++)
        others += area[i] != UNWRITTEN;
    check("other bytes that were written", others, 0);
}

static void check_plan_refused(const char *name, size_t count, size_t length, unsigned refusal) {
    check_plan(name, count, length, refusal);
    check_area(area, 0);
}

static void check_plan_times(size_t which) {
    const uint32_t time = plan[which];
    for (unsigned bits = 20; bits < 32; bits++) {
        plan[which] = time + (UINT32_C(1) << bits);
        check_plan_refused("a time of many bits", 4, NIZHALEPU_PROGRAM, NIZHALEPU_BAD_TIME);
    }
    plan[which] = NIZHALEPU_TIME_MOST + 1;
    check_plan_refused("a time that is too long", 4, NIZHALEPU_PROGRAM, NIZHALEPU_BAD_TIME);
    plan[which] = 0;
    check_plan_refused("a time of 0", 4, NIZHALEPU_PROGRAM, NIZHALEPU_BAD_TIME);
    check_plan_refused("a time of 0, and too many moves", 68, NIZHALEPU_PROGRAM, NIZHALEPU_BAD_MOVES);
    plan[which] = time;
}

/* Each byte of words and times is another one, and what is right again in fewer bits is refused. 600,000 is 60 times 9,999 and 60 more. */
static void test_plan(void) {
    static const uint32_t move[] = {0x12345678, 600000, 0x9ABCDEF0, 0x1234};
    static const uint8_t lines[] = {0x46, 1, 0,    60,   0,    0,    0,    0,    0x53, 0, 0x12, 0x34, 0x56, 0x78, 0x27, 0x0F,
                                    0x4E, 1, 0,    0,    0,    0,    0,    0,    0x53, 0, 0x12, 0x34, 0x56, 0x78, 0,    60,
                                    0x53, 0, 0x9A, 0xBC, 0xDE, 0xF0, 0x12, 0x34};
    uint8_t want[NIZHALEPU_PROGRAM] = {0};
    for (size_t i = 0; i < NUMBERS; i++)
        plan[i] = move[i % 4];
    for (size_t at = 0; at < sizeof want; at += 8)
        want[at] = 0x53;
    memcpy(want, lines, sizeof lines);
    check_plan("a plan of one move", 4, sizeof want, NIZHALEPU_ACCEPTED);
    check_area(want, sizeof want);
    for (size_t n = 1; n < NIZHALEPU_MOVES_MOST; n++)
        memcpy(want + n * sizeof lines, lines, sizeof lines);
    check_plan("a plan of the most moves", 4 * NIZHALEPU_MOVES_MOST, sizeof want, NIZHALEPU_ACCEPTED);
    check_area(want, sizeof want);
    check_plan_refused("no move", 0, sizeof want, NIZHALEPU_BAD_MOVES);
    check_plan_refused("a move and a part of one", 7, sizeof want, NIZHALEPU_BAD_MOVES);
    check_plan_refused("a move too many", 68, sizeof want, NIZHALEPU_BAD_MOVES);
    check_plan_refused("a count of 9 bits", 256 + 4, sizeof want, NIZHALEPU_BAD_MOVES);
    check_plan_refused("a count of 17 bits", NUMBERS, sizeof want, NIZHALEPU_BAD_MOVES);
    check_plan_refused("an area that is too short, and no move", 0, sizeof want - 1, NIZHALEPU_BAD_PROGRAM);
    check_plan_refused("an area that is too long", 4, sizeof want + 1, NIZHALEPU_BAD_PROGRAM);
    check_plan_refused("an area of 17 bits", 4, ROOM, NIZHALEPU_BAD_PROGRAM);
    check_plan_times(1);
    check_plan_times(3);
}

/* ---- totals */

/* Room for a count that is right again in 16 bits, and for a log whose length is. */
enum { RECORDS = 65536 + NIZHALEPU_CHANNELS, LOG = 65536 + NIZHALEPU_LOG_RECORD };

/* Each byte of words, ticks and numbers is another one. A change at the tick 4 later, and a gap 12 behind it. */
enum { TICK = 0x01020304, WORD = 0x12345678 };
static const uint32_t earlier = 0x8FEDCBA9, stored = 0xA1B2C3D4;
static const struct nizhalepu_beside given = {.tick = TICK, .word = earlier, .unknown = 0x0102030405060708, .more = false};

static struct nizhalepu_channel channels[RECORDS], before[RECORDS];
static uint8_t totals_log[LOG] = "\x1E\xE2\x01\x03\x01\x02\x03\x08\x12\x34\x56\x78\x8F\xED\xCB\xA9"
                                 "\x1E\xE2\x02\x00\x01\x02\x03\x14\x11\x22\x33\x44\xA1\xB2\xC3\xD4";

/* Each field of each record has a number of its own in all eight bytes. */
static void fill_channels(void) {
    for (size_t i = 0; i < RECORDS; i++) {
        const uint64_t number = 0x0101010101010101 * (i % 64 + 1);
        before[i] = (struct nizhalepu_channel){number, number + 0x4000000000000040, number + 0x8000000000000080};
    }
}

static struct nizhalepu_brought bring(const char *name, size_t count, size_t length, struct nizhalepu_beside beside) {
    moment = name;
    memcpy(channels, before, sizeof channels);
    return nizhalepu_bring_forward(channels, count, totals_log, length, beside);
}

/* A bool by its byte: one that is neither 0 nor 1 is an error too. */
static void check_beside(struct nizhalepu_beside got, struct nizhalepu_beside want) {
    uint8_t more;
    memcpy(&more, &got.more, 1);
    check("beside.tick", got.tick, want.tick);
    check("beside.word", got.word, want.word);
    check("beside.unknown", got.unknown, want.unknown);
    check("beside.more", more, want.more);
}

/* Nothing has changed. */
static void check_bring_refused(const char *name, size_t count, size_t length, struct nizhalepu_beside beside, unsigned refusal) {
    const struct nizhalepu_brought brought = bring(name, count, length, beside);
    check("refusal", brought.refusal, refusal);
    check_beside(brought.beside, beside);
    check("all channel records are as they were", memcmp(channels, before, sizeof channels) == 0, 1);
}

static void check_channels(void) {
    for (unsigned n = 0; n < NIZHALEPU_CHANNELS; n++) {
        const uint64_t then = earlier >> n & 1, now = WORD >> n & 1;
        check("closings", channels[n].closings, before[n].closings + (now & ~then));
        check("openings", channels[n].openings, before[n].openings + (then & ~now));
        check("ticks", channels[n].ticks, before[n].ticks + 4 * then + 12 * now);
    }
    check("the records behind the 32", memcmp(channels + NIZHALEPU_CHANNELS, before + NIZHALEPU_CHANNELS,
                                              sizeof channels - NIZHALEPU_CHANNELS * sizeof *channels) == 0, 1);
}

enum total { CLOSINGS, OPENINGS, TICKS };

static uint64_t *total_of(struct nizhalepu_channel *channel, enum total total) {
    return total == CLOSINGS ? &channel->closings : total == OPENINGS ? &channel->openings : &channel->ticks;
}

/* A total that takes so much more, with room for just that and with room for one less. */
static void check_end(size_t n, enum total which, uint64_t more) {
    uint64_t *total = total_of(&before[n], which), usual = *total;
    *total = UINT64_MAX - more;
    check("refusal", bring("a total that comes to its end", NIZHALEPU_CHANNELS, 32, given).refusal, NIZHALEPU_ACCEPTED);
    check("the total", *total_of(&channels[n], which), UINT64_MAX);
    ++*total;
    check_bring_refused("a total that would pass its end", NIZHALEPU_CHANNELS, 32, given, NIZHALEPU_TOTAL_TOO_GREAT);
    *total = usual;
}

static void test_totals_refused(void) {
    struct nizhalepu_beside beside = given;
    static const size_t counts[] = {0, 1, 31, 33, 256 + 32, RECORDS};
    for (size_t i = 0; i < sizeof counts / sizeof *counts; i++)
        check_bring_refused("another count", counts[i], 31, given, NIZHALEPU_BAD_COUNT);
    check_bring_refused("a part of a record", NIZHALEPU_CHANNELS, 31, given, 50);
    check_bring_refused("a length of 17 bits", NIZHALEPU_CHANNELS, LOG, given, 56);
    totals_log[1] = 0xE1; /* the older mark, and a whole record of 12 bytes */
    check_bring_refused("an older log", NIZHALEPU_CHANNELS, 12, given, NIZHALEPU_OLDER_LOG);
    totals_log[1] = 0xE2;
    for (unsigned bits = 0; bits < 32; bits++) {
        beside = given;
        beside.word ^= UINT32_C(1) << bits;
        check_bring_refused("another word", NIZHALEPU_CHANNELS, 32, beside, NIZHALEPU_OTHER_WORD);
        beside.tick = TICK + 4 + (UINT32_C(1) << bits);
        check_bring_refused("a later tick, and another word", NIZHALEPU_CHANNELS, 32, beside, NIZHALEPU_EARLIER_TICK);
    }
    beside = given;
    beside.unknown = UINT64_MAX - 0x11223344 + 1;
    check_bring_refused("a number unknown that would pass its end", NIZHALEPU_CHANNELS, 32, beside, NIZHALEPU_TOTAL_TOO_GREAT);
    beside.unknown--;
    check("beside.unknown", bring("a number unknown that comes to its end", NIZHALEPU_CHANNELS, 32, beside).beside.unknown, UINT64_MAX);
    check_end(28, CLOSINGS, 1); /* channel 29 closes, and channel 32 opens */
    check_end(28, TICKS, 12);
    check_end(31, OPENINGS, 1);
    check_end(31, TICKS, 4);
}

static void test_totals(void) {
    struct nizhalepu_beside want = {.tick = TICK + 16, .word = stored, .unknown = given.unknown + 0x11223344, .more = false};
    struct nizhalepu_beside beside = given;
    fill_channels();
    struct nizhalepu_brought brought = bring("a change and a gap", NIZHALEPU_CHANNELS, 32, given);
    check("refusal", brought.refusal, NIZHALEPU_ACCEPTED);
    check_beside(brought.beside, want);
    check_channels();
    beside.more = want.more = true;
    check_beside(bring("or more, from before", NIZHALEPU_CHANNELS, 32, beside).beside, want);
    memset(totals_log + 24, 0xFF, 4);
    want.unknown = given.unknown + UINT32_MAX;
    check_beside(bring("a gap at its cap", NIZHALEPU_CHANNELS, 32, given).beside, want);
    memcpy(totals_log + 24, "\x11\x22\x33\x44", 4);
    check("a log of no record", bring("a log of no record", NIZHALEPU_CHANNELS, 0, given).refusal, NIZHALEPU_ACCEPTED);
    check("all channel records are as they were", memcmp(channels, before, sizeof channels) == 0, 1);
    test_totals_refused();
}

void test_reports(void) {
    test_duration();
    test_stop();
    test_plan();
    test_totals();
}
