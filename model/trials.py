"""Writes the input of the program `trials` and its expected output: trials.py INPUT OUTPUT.

Here are the scenarios of the log, the program area, the saved copy and the lines run; those of the
refusals are in call_trials.py, those of I and D from power-on on in step_trials.py, those of Bad lines in
bad_trials.py, those of what a gap tells in gap_trials.py.
"""

import sys

import call_trials  # its scenarios come first
import step_trials
import bad_trials
import gap_trials
from trial_script import (BLINK, END, GUARD, LOG, OUT, PROGRAM, SAVED, alter, empty, fresh, lend, on, press,
                          printed, program, say, scenario, scenarios, sent, stands, tick)


# ---- The log.

@scenario
def log_lengths():
    # 32 to 65,536 bytes are accepted; the area holds R whole 16-byte records (02, item 8).
    for log in (32, 33, 47, 48, 64, 65536):
        fresh(log=log, out=128)
        tick()
        alter(LOG, 16, "C1C2C3C4")
        alter(LOG, log - 1, "EE")
        say("CW20301", "OK")
        empty("1EE201FF 00000001 01000000 00000000")
        stands(LOG, 16, "C1C2C3C4")
        stands(LOG, log - 1, "EE")


@scenario
def records_and_gap():
    # "With fewer than R changes since emptying, all stand there.  From the R-th on, the last place is kind 2."
    # 02, item 8: the last bytes hold the word before the change, and in a gap, whose tick is the first lost change's, the last word.
    one, two, three = ("1EE20101 00000000 00000001 00000000", "1EE20102 00000001 00000002 00000001",
                       "1EE20101 00000002 00000001 00000002")
    for log, changes, expected in (
            (32, 1, (one,)), (32, 2, (one, "1EE20200 00000001 00000001 00000002")),
            (32, 3, (one, "1EE20200 00000001 00000002 00000001")), (32, 7, (one, "1EE20200 00000001 00000006 00000001")),
            (33, 2, (one, "1EE20200 00000001 00000001 00000002")), (47, 1, (one,)),
            (47, 2, (one, "1EE20200 00000001 00000001 00000002")), (48, 2, (one, two)),
            (48, 3, (one, two, "1EE20200 00000002 00000001 00000001")), (48, 4, (one, two, "1EE20200 00000002 00000002 00000002")),
            (48, 8, (one, two, "1EE20200 00000002 00000006 00000002")), (64, 3, (one, two, three)),
            (64, 4, (one, two, three, "1EE20200 00000003 00000001 00000002")),
            (64, 5, (one, two, three, "1EE20200 00000003 00000002 00000001")),
            (64, 9, (one, two, three, "1EE20200 00000003 00000006 00000001")),
            (63, 8, (one, two, "1EE20200 00000002 00000006 00000002"))):
        fresh(*BLINK, log=log, out=128)
        alter(LOG, 16 * (log // 16), "D1D2D3")
        press(1, lines=1)
        for k in range(1, changes):
            tick(lines=1 if k % 2 == 0 else 0)
        empty(*expected)
        stands(LOG, 16 * (log // 16), "D1D2D3")
        stands(LOG, 0, " ".join(expected))


@scenario
def causes():
    # "cause is the line, 254 for command 006, 255 for a write to 203-206"; no record where the word stays.
    fresh("53000000 00050000", log=160, out=128)
    program("53008000 00000001", at=199)
    say("CW206FF", "OK")
    say("CW206FF", "OK")
    say("CW206F", "E002")
    say("CW203A0", "OK")
    say("CW210006", "OK")
    say("CW210006", "OK")
    press(1)
    say("CW209199", "OK")
    say("CW210005", "OK")
    tick()
    say("CR212", "009")
    say("CW200S00000001000000", "OK")
    say("CW209200", "OK")
    say("CW210006", "OK")
    empty("1EE201FF 00000000 000000FF 00000000", "1EE201FF 00000000 A00000FF 000000FF", "1EE201FE 00000000 00000005 A00000FF",
          "1EE201C7 00000000 80000000 00000005", "1EE201FE 00000001 00000100 80000000")


@scenario
def no_change_no_record():
    # "A change is a call after which the output word differs": two lines with one word, pause and stop give none.
    fresh("53000000 00010001", "53000000 00010001", "53000000 00000005", log=48, out=32)
    press(1)
    tick()
    press(2)
    press(2)
    press(1)
    empty("1EE20100 00000000 00000001 00000000")
    press(1)
    empty()
    tick(times=2)
    empty("1EE20102 00000003 00000000 00000001")


@scenario
def emptying():
    # "copies the records held, in order, ... leaves its rest, returns their byte count, and the room is used again".
    fresh(*BLINK, log=48, out=128)
    press(1, lines=1)
    tick()
    empty("1EE20101 00000000 00000001 00000000", "1EE20102 00000001 00000002 00000001")
    empty()
    tick(lines=1)
    lend(out=16)
    empty("1EE20101 00000002 00000001 00000002")
    stands(OUT, 16, "1EE20102 00000001 00000002 00000001")
    stands(LOG, 0, "1EE20101 00000002 00000001 00000002 1EE20102 00000001 00000002 00000001")
    tick()
    press(2)
    tick(times=3)
    empty("1EE20102 00000003 00000002 00000001")
    lend(out=0)
    empty()
    press(2)
    for lines in (1, 0, 1, 0):
        tick(lines=lines)
    lend(out=47)
    empty(refusal=35)
    lend(out=48)
    empty("1EE20101 00000007 00000001 00000002", "1EE20102 00000008 00000002 00000001", "1EE20200 00000009 00000002 00000002")
    tick(lines=1)
    tick()
    tick(lines=1)
    empty("1EE20101 0000000B 00000001 00000002", "1EE20102 0000000C 00000002 00000001", "1EE20200 0000000D 00000001 00000001")
    on()
    stands(LOG, 32, "1EE20200 0000000D 00000001 00000001")
    empty()


@scenario
def altered_log():
    # "A log that the caller altered is not repaired: each call still writes exactly the record that is due."
    fresh(*BLINK, log=48, out=128)
    alter(LOG, 0, "00112233445566778899AABBCCDDEEFF" + "CC" * 32)
    empty()
    press(1, lines=1)
    alter(LOG, 0, "FFEEDDCCBBAA99887766554433221100")
    tick()
    stands(LOG, 32, "CC" * 16)
    tick(lines=1)
    alter(LOG, 32, "0000000000000000FFFFFFFF00000000")
    alter(LOG, 18, "09")
    tick()
    empty("FFEEDDCCBBAA99887766554433221100", "1EE20902 00000001 00000002 00000001", "1EE20200 00000002 00000002 00000002")
    tick(lines=1)
    alter(LOG, 2, "07")
    empty("1EE20701 00000004 00000001 00000002")


@scenario
def ticks_counted():
    # "A tick first adds one to the count, whether stopped, paused or running."
    fresh("53000000 00010002", "53000000 00020000", log=64, out=64)
    tick(times=5)
    press(1)
    press(2)
    tick(times=4)
    press(2)
    tick(times=2)
    tick(times=250)
    say("CW206FF", "OK")
    empty("1EE20100 00000005 00000001 00000000", "1EE20101 0000000B 00000002 00000001", "1EE201FF 00000105 000000FF 00000002")


# ---- Variables: the program area and the saved copy.

@scenario
def altered_program():
    # Each line is read when it falls due. 02, item 4: "Running a Bad line stops with event 014 at that line", and leaves the outputs.
    bad = ("5300000000FF2710", "5301000000FF0001", "4600000100000000", "4605000100000000", "4601271000000000",
           "4601000100000001", "4E00000000000000", "4E05000000000000", "4E01000000000001", "0000000000000000",
           "FFFFFFFFFFFFFFFF", "7300000000FF0001")
    for line in bad:
        fresh("53000000 00010002", "53000000 00020001", log=48, out=48)
        press(1)
        program("53000000 00FF0009", line)
        tick(times=2)
        empty("1EE20100 00000000 00000001 00000000")
        stands(PROGRAM, 8, line)
    say("CR212", "014")
    say("CR211", "001")
    say("CR206", "01")
    say("CR001", "E024")
    fresh(*BLINK)
    press(1, lines=1)
    tick()
    program("4E010000 00000001", at=3)
    tick()
    say("CR212", "014")
    press(1, lines=1)
    say("CR212", "007")
    # 02, item 2: a For with count 0000 passes over what only looks like a Next.
    for line in ("4E010000 00000001", "4E010001 00000000", "4E000000 00000000", "4E050000 00000000", "6E010000 00000000"):
        fresh("46010000 00000000", line, "53000000 00010001", "4E010000 00000000", "53000000 00020001")
        press(1, lines=1)
        say("CR211", "004")
        say("CR206", "02")


@scenario
def load_and_save():
    # 02, item 4: "Load and save copy the bytes unaltered"; power-on loads too, and 008 leaves the area as it was.
    mixed = ("53000000000A270F", "5300000000FF2710", "4604270F00000000", "4E04000000000000", "4E04000001000000", "0102030405060708")
    lend(1600, 1600, 32, 16)
    alter(SAVED, 0, "".join(mixed))
    alter(SAVED, 1592, "FFFFFFFFFFFFFFFF")
    on()
    stands(PROGRAM, 0, "".join(mixed) + END)
    stands(PROGRAM, 1584, END + "FFFFFFFFFFFFFFFF" + GUARD)
    stands(SAVED, 0, "".join(mixed) + END)
    program("11" * 8, "53000000 00070007")
    alter(SAVED, 8, "4602000000000000")
    say("CW210007", "OK")
    stands(PROGRAM, 0, mixed[0] + "4602000000000000" + "".join(mixed[2:]) + END)
    stands(SAVED, 1592, "FFFFFFFFFFFFFFFF" + GUARD)
    program("22" * 8, "53000000 00070007", at=198)
    say("CW210008", "OK")
    stands(PROGRAM, 1584, "22" * 8 + "53000000 00070007" + GUARD)
    stands(SAVED, 1584, "22" * 8 + "53000000 00070007" + GUARD)
    alter(SAVED, 0, END * 6)
    alter(SAVED, 1584, END * 2)
    press(1)
    say("CW210007", "E020")
    fresh()
    stands(PROGRAM, 0, END * 200 + GUARD)


# ---- Running: the For and Next lines run.

@scenario
def lines_run():
    # "One call runs at most 400 For and Next lines. ... The number run in a call is returned with it."
    for count, lines, event in (("0000", 1, "011"), ("0001", 2, "011"), ("018E", 399, "011"), ("018F", 400, "011"),
                                ("0190", 400, "013"), ("270F", 400, "013")):
        fresh("4601" + count + "00000000", "4E010000 00000000")
        press(1, lines=lines)
        say("CR212", event)
        say("CW210003", "OK", lines)
        fresh("53000000 00010001", "4602" + count + "00000000", "4E020000 00000000")
        press(1)
        tick(lines=lines)
        say("CR212", event)
    # "A For or Next that ends in 006, 007 or 008 counts as run ... nor does a line executed by 006."
    for lines, number, event in (((BLINK[0], BLINK[0], BLINK[3]), 2, "006"), ((BLINK[0],), 1, "007"),
                                 ((BLINK[3],), 1, "008"), ((END,), 0, "011")):
        fresh(*lines)
        say("CW210006", "OK")
        press(1, lines=number)
        say("CR212", event)
    # 02, item 2: with count 0000 "The For still counts as run", in 006 and 007 too, and the Next that it passes over does not.
    none, after = "46010000 00000000", BLINK[3]
    for lines, number, event in (((none, after) * 5, 5, "011"), ((none, BLINK[1], none, after), 1, "011"),
                                 ((BLINK[0], none, after), 2, "006"), ((none,), 1, "007"), ((none, after, after), 2, "008")):
        fresh(*lines)
        say("CW210006", "OK")
        press(1, lines=number)
        say("CR212", event)
    fresh(none, after, at=198)
    say("CW209198", "OK")
    say("CW210005", "OK", lines=1)
    say("CR212", "009")
    # "Going on past 199: event 009", here by a For and Next that end there.
    fresh("46010001 00000000", "4E010000 00000000", at=198)
    say("CW209198", "OK")
    say("CW210005", "OK", lines=2)
    say("CR212", "009")
    stands(PROGRAM, 1600, GUARD)


def main():
    for function in scenarios:
        function()
    for which in (PROGRAM, SAVED):
        stands(which, 1600, GUARD)
    sent.extend(b"tt")  # a record cut short at the end is ignored
    open(sys.argv[1], "wb").write(sent)
    open(sys.argv[2], "wb").write(printed)


if __name__ == "__main__":
    main()
