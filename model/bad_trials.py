"""Scenarios of document 02, item 4, with lent areas: bytes that are no line, and where they are read, run, executed, loaded and saved."""

from trial_script import (BLINK, END, GUARD, PROGRAM, SAVED, alter, empty, fresh, lend, on, press, program, save_end_marks, say,
                          scenario, stands, tick)


# Each is Bad by one byte or one number: the second byte, and a time of 10,000 and of 65,535;
STATES = ("53010000 00FF0001", "53800000 00FF0001", "53FF0000 00FF0001", "53000000 00FF2710", "53000000 00FFFFFF")
# a counter of 0, 5 and 255, a count of 10,000 and of 65,535, each of the four zeros;
FORS = ("46000002 00000000", "46050002 00000000", "46FF0002 00000000", "46012710 00000000", "4601FFFF 00000000",
        "46010002 01000000", "46010002 00010000", "46010002 00000100", "46010002 00000001")
# a counter of 0, 5 and 255, each of the six zeros;
NEXTS = ("4E000000 00000000", "4E050000 00000000", "4EFF0000 00000000", "4E010100 00000000", "4E010001 00000000",
         "4E010000 01000000", "4E010000 00010000", "4E010000 00000100", "4E010000 00000001")
# the first byte before what would be a State, a For, a Next; all bytes alike.
LETTERS = ("00000000 00FF0001", "52000000 00FF0001", "54000000 00FF0001", "73000000 00FF0001", "FF000000 00FF0001",
           "45010002 00000000", "47010002 00000000", "66010002 00000000",
           "4D010000 00000000", "4F010000 00000000", "6E010000 00000000", "00" * 8, "FF" * 8)

FOR, NONE, NEXT = "46010002 00000000", "46010000 00000000", BLINK[3]
ONE, TWO = BLINK[1:3]   # for one tick each


# ---- Which bytes are Bad.

@scenario
def bad_bytes():
    # "Reading eight bytes now answers State, For, Next or Bad". A Bad line is read with E024 and run with 014, no line counted; its bytes stay.
    fresh()
    say("CW20655", "OK")
    for line in STATES + FORS + NEXTS + LETTERS:
        program(line)
        say("CR000", "E024")
        press(1)
        say("CR212", "014")
        stands(PROGRAM, 0, line + END)
    say("CR206", "55")
    empty("1EE201FF 00000000 00000055 00000000")


@scenario
def lines_beside_bad_ones():
    # "Times and counts are at most 9999", counters 1-4, and any outputs: these are lines.
    fresh()
    for line, text, lines, event in (
            ("53000000 0000270F", "S00000000009999", 0, "010"), ("5300FFFF FFFF270F", "S00FFFFFFFF9999", 0, "010"),
            ("5300464E 27100001", "S00464E27100001", 0, "010"), ("53008000 00010000", "S00800000010000", 0, "011"),
            ("4601270F 00000000", "F19999", 1, "007"), ("4604270F 00000000", "F49999", 1, "007"),
            ("46010000 00000000", "F10000", 1, "007"), ("46040001 00000000", "F40001", 1, "007"),
            ("4E010000 00000000", "N1", 1, "008"), ("4E040000 00000000", "N4", 1, "008")):
        program(line)
        say("CR000", text)
        press(1, lines=lines)
        if event == "010":
            press(1)  # a State with a time is held until the button stops it
        say("CR212", event)


@scenario
def damaged_nexts():
    # "The search for a Next passes over it": with no other Next behind it, 007; else the For takes its counter, and the damaged line stops.
    fresh()
    for line in NEXTS:
        program(FOR, line, END, END, END)
        press(1, lines=1)
        say("CR212", "007")
        program(FOR, line, ONE, NEXT, TWO)
        press(1, lines=1)
        say("CR212", "014")
    # A loop of none passes over each of them at once, to the Next behind them; without that, 007.
    fresh(NONE, *NEXTS, NEXT, TWO)
    press(1, lines=1)
    say("CR211", "011")
    say("CR206", "02")
    tick()
    say("CR212", "011")
    program(END, at=10)
    press(1, lines=1)
    say("CR212", "007")


# ---- Running.

@scenario
def bad_lines_counted():
    # A Bad line is neither For nor Next: it is not counted, and due after exactly 400 lines it stops with 014.
    for count, lines, event in (("0001", 2, "014"), ("018E", 399, "014"), ("018F", 400, "014"), ("0190", 400, "013")):
        fresh("4601" + count + "00000000", NEXT, "00" * 8)
        press(1, lines=lines)
        say("CR212", event)
        say("CW210003", "OK", lines)
        fresh(ONE, "4602" + count + "00000000", "4E020000 00000000", "FF" * 8)
        press(1)
        tick(lines=lines)
        say("CR212", event)
    # A For or a Next in its place is the 401st.
    for last in (FOR, NONE, NEXT, "4E020000 00000000"):
        fresh("4601018F 00000000", NEXT, last, NEXT)
        press(1, lines=400)
        say("CR212", "013")
    # First, by 005; behind a For; behind a loop of none that is the 400th.
    fresh(FOR, "00" * 8, NEXT)
    say("CW209001", "OK")
    say("CW210005", "OK")
    press(1, lines=1)
    say("CR211", "001")
    say("CR212", "014")
    fresh("4602018E 00000000", "4E020000 00000000", NONE, "00" * 8, NEXT, "FF" * 8)
    press(1, lines=400)
    say("CR211", "005")
    say("CR212", "014")


@scenario
def bad_lines_and_the_log():
    # "An event stop keeps the outputs": two States, then a Bad line; two records and no third.
    fresh(ONE, TWO, "53000000 00FF2710", log=80, out=80)
    press(1)
    tick(times=2)
    say("CR206", "02")
    say("CR211", "002")
    say("CR201", "80")
    say("CR212", "014")
    empty("1EE20100 00000000 00000001 00000000", "1EE20101 00000001 00000002 00000001")
    tick(times=3)
    empty()
    # The lines behind it are not run; a start at it makes no record either.
    program(ONE, at=3)
    say("CW209002", "OK")
    say("CW210005", "OK")
    tick()
    empty()
    # A start behind it does.
    say("CW209003", "OK")
    say("CW210005", "OK")
    tick()
    empty("1EE20103 00000006 00000001 00000002", "1EE20104 00000007 00000000 00000001")


@scenario
def damaged_while_running():
    # Each line is read when it falls due. The one that is held goes on; on the next round it stops, and the Next before it counts as run.
    fresh(*BLINK, log=80, out=80)
    press(1, lines=1)
    tick()
    tick(lines=1)
    program("00" * 8, at=1)
    say("CR001", "E024")
    tick()
    tick(lines=1)
    say("CR211", "001")
    say("CR212", "014")
    say("CR213", "0000")
    empty("1EE20101 00000000 00000001 00000000", "1EE20102 00000001 00000002 00000001",
          "1EE20101 00000002 00000001 00000002", "1EE20102 00000003 00000002 00000001")
    # A loop goes back to the line after its For, which may be Bad meanwhile; its Next may not.
    fresh(*BLINK)
    press(1, lines=1)
    program("FF" * 8)
    tick()
    tick(lines=1)
    say("CR211", "001")
    say("CR213", "9998")
    program("4E010000 00000001", at=3)
    tick(times=2)
    say("CR211", "003")
    say("CR213", "0000")
    say("CR212", "014")


@scenario
def mended_in_a_pause():
    # No tick in a pause comes to a Bad line; one that is mended before it falls due runs.
    fresh("53000000 00010002", "00" * 8)
    press(1)
    tick()
    press(2)
    tick(times=3)
    say("CR201", "83")
    press(2)
    program("53000000 00020000", at=1)
    tick()
    say("CR206", "02")
    say("CR212", "011")


# ---- Special commands.

@scenario
def bad_bytes_executed():
    # "Executing one by 006 does nothing and answers OK": no output, no record, whatever the bytes would be but for one of them.
    fresh(log=48, out=48)
    say("CW20655", "OK")
    for line in STATES + LETTERS + FORS[:1] + NEXTS[:1]:
        program(line)
        say("CW210006", "OK")
        stands(PROGRAM, 0, line)
    program("53000000 00FF2710", at=199)
    say("CW209199", "OK")
    say("CW210006", "OK")
    say("CR206", "55")
    say("CR210", "006")
    say("CR211", "000")
    say("CR201", "80")
    say("CR212", "012")
    # With its time at 9999 the same line is a State.
    program("53000000 00FF270F", at=199)
    say("CW210006", "OK")
    empty("1EE201FF 00000000 00000055 00000000", "1EE201FE 00000000 000000FF 00000055")


def damage(step):
    """1,600 bytes of which no eight are a line: none of them is 53, 46 or 4E."""
    return "".join("%02X" % (0x80 | (step * k + k // 8) % 128) for k in range(1600))


@scenario
def damaged_copies():
    # "Load and save copy the bytes unaltered": power-on loads the saved copy as it is, and 200 is an end mark all the same.
    lend(1600, 1600, 32, 16)
    one, other = damage(37), damage(58)
    for saved in ("00" * 1600, one):
        alter(SAVED, 0, saved)
        on()
        stands(PROGRAM, 0, saved + GUARD)
        stands(SAVED, 0, saved + GUARD)
        say("CR000", "E024")
        say("CR199", "E024")
        say("CR200", "S00000000000000")
    press(1)
    say("CR201", "80")
    say("CR212", "014")
    # 008 leaves the saved copy with the bytes of the program area, and the area as it was.
    alter(PROGRAM, 0, other)
    say("CW210008", "OK")
    stands(PROGRAM, 0, other + GUARD)
    stands(SAVED, 0, other + GUARD)
    # 007 brings them back, a write and an altered byte undone.
    say("CW000N1", "OK")
    alter(PROGRAM, 1599, "00")
    stands(PROGRAM, 0, NEXT + other[16:-2] + "00" + GUARD)
    say("CW210007", "OK")
    stands(PROGRAM, 0, other + GUARD)
    stands(SAVED, 0, other + GUARD)
    refused_copies(other)
    save_end_marks()


def refused_copies(saved):
    """While a program runs and while it is paused, 007 and 008 are refused and copy nothing."""
    held = "53000000 0001270F"
    program(held)
    press(1)
    for _ in ("running", "paused"):
        say("CW210007", "E020")
        say("CW210008", "E020")
        press(2)
    stands(PROGRAM, 0, held + saved[16:] + GUARD)
    stands(SAVED, 0, saved + GUARD)
    say("CW210001", "OK")
    say("CW210007", "OK")
    stands(PROGRAM, 0, saved + GUARD)
