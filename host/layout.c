/* layout.c: holds nizhalepu.h to the archive. The header says where each field of the record stands; this test does not believe
 * it, but drives the library by its calls until each field must have a value of its own by document 01, and looks for it at the
 * header's place. Where 01 and the header say nothing of a field (a stopped program's wait, a free counter's line, characters
 * behind the length), it is only seen that power-on sets it. The tick count's end (033) is out of reach here. */
#include "layout.h"
#include "layout_numbers.h"
#include "nizhalepu.h"

#include <stdio.h>
#include <stdlib.h>
#include <string.h>

/* ---- the box of the test: the record between bytes that no call may touch */

enum { GUARD = 256, GUARD_BYTE = 0xC3, LOG = 43981, R = LOG / NIZHALEPU_LOG_RECORD };

static struct {
    uint8_t before[GUARD];
    struct nizhalepu_record record;
    uint8_t after[GUARD];
} box;

static uint8_t program[NIZHALEPU_PROGRAM], saved[NIZHALEPU_PROGRAM], log_area[LOG], reply[NIZHALEPU_REPLY], destination[LOG];
static unsigned checks, failures;
const char *moment;

void check(const char *what, uint64_t got, uint64_t want) {
    checks++;
    if (got == want)
        return;
    failures++;
    printf("layout: %s: %s is %llu, not %llu\n", moment, what, (unsigned long long)got, (unsigned long long)want);
}

/* A bool by its byte: one that is neither 0 nor 1 is an error too. */
static uint64_t byte_of(const bool *place) {
    uint8_t byte;
    memcpy(&byte, place, 1);
    return byte;
}

static void check_said(struct nizhalepu_said said, unsigned refusal, unsigned lines, size_t written) {
    check("refusal", said.refusal, refusal);
    check("lines", said.lines, lines);
    check("written", said.written, written);
}

static void check_guards(void) {
    for (size_t i = 0; i < GUARD; i++) {
        check("a byte before the record", box.before[i], GUARD_BYTE);
        check("a byte after the record", box.after[i], GUARD_BYTE);
    }
}

/* ---- calls that are accepted */

static struct nizhalepu_said send_byte(uint8_t byte) {
    return nizhalepu_byte(&box.record, byte, program, sizeof program, saved, sizeof saved, log_area, LOG, reply, sizeof reply);
}

static void send(const char *text) {
    for (; *text != 0; text++)
        check_said(send_byte((uint8_t)*text), 0, 0, 0);
}

/* Sends a command; the reply must be the one given, and the lines run as many. */
static void command(const char *text, const char *answer, unsigned lines) {
    moment = text;
    send(text);
    check_said(send_byte(13), 0, lines, strlen(answer) + 1);
    check("the reply", memcmp(reply, answer, strlen(answer)) == 0 && reply[strlen(answer)] == 13, 1);
}

static void ticks(uint32_t count) {
    while (count-- > 0)
        if (nizhalepu_tick(&box.record, program, sizeof program, log_area, LOG).refusal != 0)
            check("a tick", 0, 1);
}

static void press(uint32_t button) {
    moment = button == 1 ? "Start/Stop" : "Pause";
    check_said(nizhalepu_press(&box.record, button, program, sizeof program, log_area, LOG), 0, 0, 0);
}

/* Power-on over a record that holds the same byte everywhere, with a saved copy of 200 end marks. */
static void power_on(int fill) {
    moment = "power-on";
    memset(&box.record, fill, sizeof box.record);
    for (size_t i = 0; i < sizeof saved; i++)
        saved[i] = i % 8 == 0 ? 0x53 : 0;
    check_said(nizhalepu_power_on(&box.record, program, sizeof program, saved, sizeof saved, log_area, LOG), 0, 0, 0);
}

/* ---- the whole record against what it must hold */

static struct nizhalepu_record want;

/* The record of 01's power-on. The last addresses are before 000, and the address after that is kept (02, item 7). */
static void want_power_on(void) {
    want = (struct nizhalepu_record){0};
    want.wire.nextread = want.wire.nextwrite = 0;
    want.panel.single[0] = 0x53;
    want.panel.event = 12;
    want.panel.unread = true;
    want.log.length = LOG;
}

static void check_run(const struct nizhalepu_run *run) {
    check("run.on", byte_of(&run->on), want.run.on);
    check("run.line", run->line, want.run.line);
    check("run.outputs", run->outputs, want.run.outputs);
    if (want.run.on)
        check("run.wait", run->wait, want.run.wait);
    for (size_t i = 0; i < 4; i++) {
        check("run.counters.count", run->counters[i].count, want.run.counters[i].count);
        if (want.run.counters[i].count != 0)
            check("run.counters.line", run->counters[i].line, want.run.counters[i].line);
    }
}

static void check_record(const char *name) {
    const struct nizhalepu_record *record = &box.record;
    moment = name;
    check_run(&record->run);
    check("paused", byte_of(&record->paused), want.paused);
    check("ticks", record->ticks, want.ticks);
    check("wire.len", record->wire.len, want.wire.len);
    for (size_t i = 0; i < want.wire.len; i++)
        check("wire.chars", record->wire.chars[i], want.wire.chars[i]);
    check("wire.overlong", byte_of(&record->wire.overlong), want.wire.overlong);
    check("wire.nextread", record->wire.nextread, want.wire.nextread);
    check("wire.nextwrite", record->wire.nextwrite, want.wire.nextwrite);
    for (size_t i = 0; i < 8; i++)
        check("panel.single", record->panel.single[i], want.panel.single[i]);
    check("panel.parameter", record->panel.parameter, want.panel.parameter);
    check("panel.special", record->panel.special, want.panel.special);
    check("panel.event", record->panel.event, want.panel.event);
    check("panel.unread", byte_of(&record->panel.unread), want.panel.unread);
    check("log.length", record->log.length, want.log.length);
    check("log.kept", record->log.kept, want.log.kept);
    check("log.lost", record->log.lost, want.log.lost);
    check("log.first", record->log.first, want.log.first);
    check_guards();
}

/* ---- the moments */

/* Power-on sets every field, whatever stood there. */
static void test_power_on(void) {
    static const int fills[] = {0xAA, 0x55, 0x00, 0xFF};
    struct nizhalepu_record first;
    for (size_t i = 0; i < 4; i++) {
        power_on(fills[i]);
        want_power_on();
        check_record("power-on over a filled record");
        if (i == 0)
            first = box.record;
        check("all of wire.chars", memcmp(first.wire.chars, box.record.wire.chars, 32) == 0, 1);
        check("run.wait when stopped", box.record.run.wait, first.run.wait);
        for (size_t c = 0; c < 4; c++)
            check("run.counters.line when free", box.record.run.counters[c].line, first.run.counters[c].line);
    }
}

/* Outputs, both last addresses, line 200, the parameter, the event when read, and the log's kept changes. */
static void test_variables(void) {
    power_on(0xAA);
    want_power_on();
    command("CW20312", "OK", 0);
    command("CW20434", "OK", 0);
    command("CW20556", "OK", 0);
    command("CW20678", "OK", 0);
    command("CW209171", "OK", 0);
    command("CW200S009ABCDEF09876", "OK", 0);
    command("CR137", "S00000000000000", 0);
    memcpy(want.panel.single, (const uint8_t[]){0x53, 0, 0x9A, 0xBC, 0xDE, 0xF0, 0x26, 0x94}, 8); /* 9876 is 2694 hex */
    want.run.outputs = 0x12345678;
    want.panel.parameter = 171;
    want.wire.nextwrite = 201;
    want.wire.nextread = 138;
    want.log.kept = 4;
    check_record("variables written");
    command("CR216", "0000", 0);
    want.wire.nextread = 217;
    check_record("the last address read");
    command("CR212", "012", 0);
    want.wire.nextread = 213;
    want.panel.event = 0;
    want.panel.unread = false;
    check_record("the event read");
    command("CW210001", "OK", 0);
    want.panel.special = 1;
    want.wire.nextwrite = 211;
    check_record("a special command");
}

/* As numbers, since the fields of `want` are no wider than those they are held to. */
static void check_started(void) {
    check("run.outputs as a number", box.record.run.outputs, 0xA1B2C3D4);
    check("run.wait as a number", box.record.run.wait, 9999);
    check("run.counters.count as a number", box.record.run.counters[3].count, 1004);
}

/* Four loops, one in the other, each counter with its own count and place; then a pause, a stop and the button's event. */
static void test_running(void) {
    power_on(0x55);
    want_power_on();
    static const char *const lines[] = {"CW130F31003", "CWIF11001", "CWIF41004", "CWIF20002", "CWIS00A1B2C3D49999",
                                        "CWIN2",       "CWIN4",     "CWIN1",     "CWIN3",     "CW209130"};
    for (size_t i = 0; i < sizeof lines / sizeof *lines; i++)
        command(lines[i], "OK", 0);
    command("CW210005", "OK", 4);
    want.run = (struct nizhalepu_run){.on = true, .line = 134, .outputs = 0xA1B2C3D4, .wait = 9999,
                                      .counters = {{1001, 131}, {2, 133}, {1003, 130}, {1004, 132}}};
    want.panel.parameter = 130;
    want.panel.special = 5;
    want.wire.nextwrite = 211;
    want.log.kept = 1;
    check_record("a program started at 130");
    check_started();
    ticks(4321);
    want.ticks = 4321;
    want.run.wait = 9999 - 4321;
    check_record("4321 ticks");
    press(2);
    ticks(99);
    want.paused = true;
    want.ticks = 4420;
    check_record("99 ticks in a pause");
    press(2);
    ticks(9999 - 4321); /* the inner Next: counter 2 falls to 1, and its State line is set again */
    want.paused = false;
    want.ticks = 10098;
    want.run.wait = 9999;
    want.run.counters[1].count = 1;
    check_record("round the inner loop");
    press(1);
    want.run.on = false;
    memset(want.run.counters, 0, sizeof want.run.counters);
    want.panel.event = 10;
    check_record("stopped by the button");
}

/* Characters as they stand in the collection, its length, and the 33rd. */
static void test_wire(void) {
    static const char sent[] = "CR0!\"#$%&'()*+,-./:;<=>?@[\\]^_`{";
    power_on(0xAA);
    want_power_on();
    moment = "characters";
    for (size_t i = 0; i < 32; i++) {
        check_said(send_byte((uint8_t)sent[i]), 0, 0, 0);
        check_said(send_byte(' '), 0, 0, 0);
        want.wire.chars[i] = (uint8_t)sent[i];
        want.wire.len = i + 1;
        check_record("characters and blanks");
    }
    send("}");
    want.wire.overlong = true;
    check_record("a 33rd character");
    check_said(send_byte(13), 0, 0, 5);
    check("the reply", memcmp(reply, "E002\r", 5) == 0, 1);
    want.wire.len = 0;
    want.wire.overlong = false;
    check_record("the overlong command ended");
    send("z");
    want.wire.len = 1;
    want.wire.chars[0] = 'Z';
    check_record("a small letter is kept as its capital");
    send("a");
    want.wire.len = 2;
    want.wire.chars[1] = 'A';
    check_record("and the first of them too");
    check_said(send_byte(0xE1), 0, 0, 0);
    want.wire.len = 3;
    want.wire.chars[2] = 0xE1;
    check_record("a byte from 128 on is no letter");
}

static void changes(unsigned count) {
    while (count-- > 0)
        command(box.record.run.outputs == 0x55 ? "CW206AA" : "CW20655", "OK", 0);
}

static void check_place(const char *name, const uint8_t *place, const char *bytes) {
    moment = name;
    for (size_t i = 0; i < NIZHALEPU_LOG_RECORD; i++)
        check("a byte of a record", place[i], (uint8_t)bytes[i]);
}

/* More changes than places: R - 1 kept, the rest lost, all told by emptying. The first lost change is made at a tick of which each byte
 * is another, and that tick stays while later ones are lost. The caller alters the gap in between, which tells the library nothing. */
static void test_log(void) {
    power_on(0x55);
    want_power_on();
    changes(R - 1);
    ticks(0x01020304);
    changes(1);
    want.run.outputs = R % 2 == 0 ? 0xAA : 0x55;
    want.ticks = want.log.first = 0x01020304;
    want.wire.nextwrite = 207;
    want.log.kept = R - 1;
    want.log.lost = 1;
    check_record("the log full");
    ticks(2);
    memset(log_area + (R - 1) * NIZHALEPU_LOG_RECORD, 0x77, NIZHALEPU_LOG_RECORD);
    changes(70000 - 1); /* an odd number */
    want.run.outputs ^= 0xFF;
    want.ticks += 2;
    want.log.lost = 70000;
    check_record("70,000 changes lost");
    check("log.lost as a number", box.record.log.lost, 70000); /* not by way of a field that may be too narrow */
    check("log.first as a number", box.record.log.first, 0x01020304);
    moment = "emptying";
    check_said(nizhalepu_empty(&box.record, log_area, LOG, destination, sizeof destination), 0, 0, R * NIZHALEPU_LOG_RECORD);
    check_place("the first change", destination, "\x1E\xE2\x01\xFF\0\0\0\0\0\0\0\x55\0\0\0\0");
    check_place("the second change", destination + 16, "\x1E\xE2\x01\xFF\0\0\0\0\0\0\0\xAA\0\0\0\x55");
    check_place("the gap", destination + (R - 1) * 16, "\x1E\xE2\x02\0\x01\x02\x03\x04\0\x01\x11\x70\0\0\0\x55");
    want.log.kept = want.log.lost = want.log.first = 0;
    check_record("the log emptied");
}

/* Each place of the answer with a number of its own, and all four bytes of the tick count. */
static void test_said_and_ticks(void) {
    power_on(0xAA);
    want_power_on();
    command("CW000F10399", "OK", 0);
    command("CW001N1", "OK", 0);
    command("CW210003", "OK", 400);
    ticks(0x01020304);
    want.run.line = 2;
    want.ticks = 0x01020304;
    want.panel.special = 3;
    want.panel.event = 11;
    want.wire.nextwrite = 211;
    check_record("16909060 ticks");
    check("ticks as a number", box.record.ticks, 0x01020304);
    moment = "refusals";
    check_said(nizhalepu_byte(&box.record, 13, program, 1599, saved, 1600, log_area, LOG, reply, 16), 30, 0, 0);
    check_said(nizhalepu_byte(&box.record, 13, program, 1600, saved, 1600, log_area, LOG - 1, reply, 16), 31, 0, 0);
    check_said(nizhalepu_byte(&box.record, 13, program, 1600, saved, 1600, log_area, LOG, reply, 15), 32, 0, 0);
    check_said(nizhalepu_press(&box.record, 3, program, 1600, log_area, LOG), 34, 0, 0);
    /* These would be 1 and 2 if the archive took fewer bits of a button than the header says. */
    check_said(nizhalepu_press(&box.record, 0x101, program, 1600, log_area, LOG), 34, 0, 0);
    check_said(nizhalepu_press(&box.record, 0x10002, program, 1600, log_area, LOG), 34, 0, 0);
    check_record("refused calls");
    command("CW20601", "OK", 0);
    moment = "a short destination";
    check_said(nizhalepu_empty(&box.record, log_area, LOG, destination, 15), 35, 0, 0);
    moment = "a refused power-on";
    check_said(nizhalepu_power_on(&box.record, program, 1600, saved, 1600, log_area, 31), 31, 0, 0);
    want_power_on();
    want.log.length = 0;
    check_record("a refused power-on");
}

int main(void) {
    memset(box.before, GUARD_BYTE, sizeof box.before);
    memset(box.after, GUARD_BYTE, sizeof box.after);
    test_power_on();
    test_variables();
    test_running();
    test_wire();
    test_log();
    test_said_and_ticks();
    test_reports();
    printf("layout: %u checks, %u failed\n", checks, failures);
    return failures == 0 ? EXIT_SUCCESS : EXIT_FAILURE;
}
