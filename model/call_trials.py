"""Scenarios of the refusals and the reply area."""

from trial_script import (BLINK, END, GUARD, OUT, PROGRAM, SAVED, alter, byte, empty, fresh, lend, on, press,
                          program, record, save_end_marks, say, scenario, stands, tick)


# ---- Calls and what is lent.

@scenario
def before_any_power_on():
    # "A refused power-on returns the power-on state with a log length of 0, so every later call on it is refused."
    refused_all()
    save_end_marks()
    for which in (PROGRAM, SAVED):
        alter(which, 1600, GUARD)
    for op in "a?\0B\r":
        record(op, 1)
    lend(1609, 1609, 65545, 129)
    alter(PROGRAM, 1608, "FF")
    alter(SAVED, 1608, "FF")
    refused_all()


def refused_all():
    byte(13, 31)
    tick(31)
    press(1, 31)
    press(3, 31)
    empty(refusal=31)


@scenario
def power_on_refused():
    # 030 "not exactly 1,600 bytes", 031 under 32 (02, item 8) "or over 65,536 bytes", 030 first; later calls are refused.
    program(*BLINK)
    for wrong, number in (({"program": 1599}, 30), ({"program": 1601}, 30), ({"program": 0}, 30), ({"saved": 1599}, 30),
                          ({"saved": 1601}, 30), ({"log": 31}, 31), ({"log": 24}, 31), ({"log": 0}, 31), ({"log": 65537}, 31),
                          ({"program": 1599, "saved": 1601}, 30), ({"program": 1601, "log": 31}, 30),
                          ({"saved": 1599, "log": 65537}, 30)):
        fresh(*BLINK)
        press(1, lines=1)
        lend(**wrong)
        on(number)
        stands(PROGRAM, 0, BLINK[0] + BLINK[1])
        lend(1600, 1600, 32, 16)
        refused_all()
        for log in (0, 31, 48):
            lend(log=log)
            tick(31)
        lend(program=1599, log=32)
        tick(30)
    fresh()
    say("CR201", "80")


@scenario
def wire_byte_refused():
    # 030, 031 and 032 "checked in that order"; a refused byte is not collected.
    fresh(log=48)
    byte(ord("C"))
    for wrong, number in (({"program": 1599}, 30), ({"program": 1601}, 30), ({"saved": 1599}, 30), ({"saved": 1601}, 30),
                          ({"saved": 0}, 30), ({"log": 31}, 31), ({"log": 65537}, 31), ({"log": 32}, 31), ({"log": 47}, 31),
                          ({"log": 49}, 31), ({"out": 15}, 32), ({"out": 0}, 32), ({"program": 1599, "log": 31}, 30),
                          ({"saved": 1601, "log": 32}, 30), ({"program": 1601, "out": 15}, 30),
                          ({"saved": 1599, "out": 15}, 30), ({"log": 32, "out": 15}, 31), ({"log": 65537, "out": 0}, 31)):
        lend(**wrong)
        byte(13, number)
        byte(ord("X"), number)
        lend(1600, 1600, 48, 16)
    for char in "R201":
        byte(ord(char))
    byte(13, 0, b"80\r")
    lend(out=128)
    say("CR212", "012")


@scenario
def tick_refused():
    # 030 and 031; "A refused tick is not taken"; a tick is lent neither the saved copy nor a reply area.
    fresh("53000000 00010002", "53000000 00020002", log=48, out=128)
    press(1)
    for wrong, number in (({"program": 1599}, 30), ({"program": 1601}, 30), ({"log": 31}, 31), ({"log": 65537}, 31),
                          ({"log": 32}, 31), ({"program": 1599, "log": 31}, 30)):
        lend(**wrong)
        tick(number)
        lend(1600, 1600, 48)
    lend(saved=1599, out=0)
    tick(times=2)
    lend(saved=1600, out=128)
    say("CR206", "02")
    empty("1EE20100 00000000 00000001 00000000", "1EE20101 00000002 00000002 00000001")


@scenario
def press_refused():
    # 030, 031, 034 "button number other than 1 or 2", also one that is 1 or 2 when cut to 8 or to 16 bits; a refused press starts
    # and pauses nothing.
    fresh("53000000 00010002", log=48)
    for wrong, button, number in (({"program": 1599}, 1, 30), ({"program": 1601}, 2, 30), ({"log": 31}, 1, 31), ({}, 3, 34),
                                  ({"log": 65537}, 2, 31), ({"log": 32}, 1, 31), ({}, 0, 34), ({}, 255, 34),
                                  ({"program": 1599, "log": 32}, 1, 30), ({"program": 1601}, 3, 30),
                                  ({"log": 47}, 0, 31), ({"program": 1601, "log": 31}, 255, 30), ({}, 256, 34), ({}, 257, 34),
                                  ({}, 258, 34), ({}, 65536, 34), ({}, 65537, 34), ({}, 65538, 34), ({}, 16777215, 34),
                                  ({"program": 1599}, 257, 30), ({"log": 32}, 65537, 31)):
        lend(**wrong)
        press(button, number)
        lend(1600, 1600, 48)
    say("CR201", "80")
    lend(saved=0, out=0)
    press(1)
    for button in (0, 3, 257, 258, 65537, 65538):
        press(button, 34)
    press(2)
    for button in (255, 256, 257, 258, 65538, 16711682):
        press(button, 34)
    lend(saved=1600, out=16)
    say("CR201", "83")


@scenario
def emptying_refused():
    # 031, then 035 "destination shorter than the records held"; the records stay held.
    fresh(*BLINK, log=64)
    lend(out=0)
    empty()
    press(1, lines=1)
    for out in (0, 15):
        lend(out=out)
        empty(refusal=35)
    tick()
    lend(program=0, saved=0)
    for log, out, number in ((64, 16, 35), (64, 31, 35), (48, 32, 31), (31, 32, 31), (65537, 32, 31), (63, 31, 31),
                             (31, 0, 31)):
        lend(log=log, out=out)
        empty(refusal=number)
    lend(log=64, out=32)
    empty("1EE20101 00000000 00000001 00000000", "1EE20102 00000001 00000002 00000001")


@scenario
def replies():
    # "A reply is written from the start of its area and the bytes after it stay"; 15 characters and 13 fit 16.
    fresh("53001234 5678270F", out=16)
    say("CR000", "S00123456789999")
    say("CR201", "80")
    stands(OUT, 0, "38300D3132333435363738393939390D")
    say("", "E001")
    stands(OUT, 0, "453030310D333435363738393939390D")
    say("cw 000 f 1 0003", "OK")
    stands(PROGRAM, 0, "46010003 00000000" + END)
