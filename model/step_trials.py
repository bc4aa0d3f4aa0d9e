"""Scenarios of I and D from power-on on (02, item 7): the last address of both directions is "before 000"."""

from trial_script import SAVED, alter, byte, empty, fresh, lend, on, press, program, save_end_marks, say, scenario, tick

OWN = ("4E010000 00000000", "4E020000 00000000", "4E030000 00000000")  # N1, N2 and N3, which no other address holds
BAD = "00000000 00000000"
END_MARK = "S00000000000000"


def asked(text, replies):
    """Commands and their replies, parted by spaces."""
    for command, reply in zip(text.split(), replies.split(), strict=True):
        say(command, reply)


@scenario
def first_steps():
    # "I then means 000, D is E004": of reads, and of writes.
    for text, replies in (
            ("CRI CRD CRI CRI CRD CRD CRD CRI", "N1 E004 N2 N3 N2 N1 E004 N2"),
            ("CRD CRI CRD CRI", "E004 N1 E004 N2"),
            ("CRD CRD CRD CRI", "E004 E004 E004 N1"),
            ("crd cri crd", "E004 N1 E004"),
            ("CWIN4 CWIF10001 CR000 CR001 CR002", "OK OK N4 F10001 N3"),
            ("CWIN4 CWDN4 CWIN4 CWDN2 CWDN3 CR000 CR001 CR002", "OK E004 OK OK E004 N2 N4 N3"),
            ("CWDN4 CWIN4 CWDN4 CR000 CR001", "E004 OK E004 N4 N2")):
        fresh(*OWN)
        asked(text, replies)


@scenario
def first_steps_apart():
    # "Read and write keep separate last addresses": what one direction did leaves the other before 000.
    for text, replies in (
            ("CR002 CRD CWDN4 CWIN4 CR000 CR001", "N3 N2 E004 OK N4 N2"),
            ("CR216 CRI CWDN4 CWIN4 CR000", "0000 E004 E004 OK N4"),
            ("CW002N4 CWDN4 CRD CRI CRI CRI", "OK OK E004 N1 N4 N4"),
            ("CW210001 CWI000 CRD CRI", "OK E004 E004 N1"),
            ("CRI CWIN4 CRI CWIN3 CRD CWDN2 CR000 CR001", "N1 OK N2 OK N4 OK N2 N3")):
        fresh(*OWN)
        asked(text, replies)


@scenario
def first_steps_after_errors():
    # "They move only on a command answered without an error": each error that can come before a first command is taken.
    reads = (("", "E001"), ("CR", "E001"), ("XR001", "E002"), ("XRD", "E002"), ("CR21", "E002"), ("CR217", "E004"), ("CR00A", "E004"),
             ("CRD", "E004"), ("CRD0", "E004"), ("CRD" + "0" * 29, "E004"), ("CRD" + "0" * 30, "E002"), ("CRI0", "E002"),
             ("CRI" + "0" * 30, "E002"), ("CR0010", "E002"), ("CR003", "E024"))
    writes = (("CW", "E001"), ("XW001N4", "E002"), ("XWDN4", "E002"), ("CW217N4", "E004"), ("CW201", "E004"), ("CW21600", "E004"),
              ("CWD", "E004"), ("CWDN4", "E004"), ("CWD" + "0" * 29, "E004"), ("CWD" + "0" * 30, "E002"), ("CW001", "E002"),
              ("CWI", "E002"), ("CWI00", "E003"), ("CWIN5", "E003"), ("CWIN12", "E002"), ("CW001N5", "E003"), ("CW209256", "E003"),
              ("CW210000", "E003"), ("CW210009", "E003"), ("CW210002", "E022"), ("CW210004", "E021"))
    for command, reply in reads:
        fresh(*OWN, BAD)
        say(command, reply)
        asked("CRD CRI", "E004 N1")
    for command, reply in writes:
        fresh(*OWN, BAD)
        asked(command + " CWDN4 CWIN4 CR000 CR001", reply + " E004 OK N4 N2")
    fresh(*OWN, BAD)
    for command, reply in (*reads, *writes):
        say(command, reply)
    asked("CRI CWIN4 CRI CWIN4 CR000 CR001", "N1 OK N2 OK N4 N4")


@scenario
def first_steps_at_a_bad_line():
    # E024 at 000 does not move the address: I means 000 until it can be read, and D is E004.
    fresh(BAD, OWN[1])
    asked("CRI CRI CRD CRI CWIN1 CRI CRI", "E024 E024 E004 E024 OK N1 N2")


@scenario
def first_steps_while_running():
    # "Write while running or paused to anything but 209 and 210: E005": by I it is line 000 that is locked; D has no address, which is told first.
    fresh("53000000 00000009", log=48)
    press(1)
    asked("CRI CRD CWIN4 CWDN4 CW210003", "S00000000000009 E004 E005 E004 E020")
    press(2)
    asked("CWIN4 CWDN4 CRD", "E005 E004 E004")
    press(1)
    asked("CWDN4 CWIN4 CR000", "E004 OK N4")


@scenario
def first_steps_and_other_calls():
    # Ticks, presses, emptyings, bytes of no command and refused calls are no commands: both last addresses are still before 000.
    fresh(*OWN, log=48)
    tick(times=3)
    press(2)
    empty()
    lend(log=47)
    byte(13, 31)
    lend(log=48, out=15)
    byte(ord("C"), 32)
    byte(13, 32)
    lend(out=16)
    byte(32)
    asked("CRD CRI CWDN4 CWIN4 CRD CRI", "E004 N1 E004 OK E004 N2")


@scenario
def steps_to_216():
    # Up to 216 and over: from 000 by I where lines are, then by three digits near the ends.
    fresh(*OWN)
    asked("CRI " * 6, "N1 N2 N3 " + " ".join([END_MARK] * 3))
    asked("CR198 CRI CRI CRI CRI", " ".join([END_MARK] * 3) + " 80 00")
    asked("CR214 CRI CRI CRI CRI CRD", "0000 0000 0000 E004 E004 0000")
    asked("CW198N1 CWIN2 CWIN3 CWIN4 CWDN4 CR199 CR200", "OK OK OK E004 OK N4 N3")


@scenario
def first_steps_at_every_power_on():
    # "At power-on": at each, after a refused one too, whatever was read and written before.
    alter(SAVED, 0, " ".join(OWN))
    fresh()
    program("53000000 00000009", at=5)
    say("CW209005", "OK")
    for pause in (False, True):  # while a program runs or is paused, in the middle of a command
        say("CW210005", "OK")
        if pause:
            press(2)
        asked("CR001 CR005", "N2 S00000000000009")
        for char in "CR0":
            byte(ord(char))
        on()
        say("", "E001")
        asked("CRD CRI CWDN4 CWIN4 CR000 CR001", "E004 N1 E004 OK N4 N2")
        program(OWN[0])
        program("53000000 00000009", at=5)
        say("CW209005", "OK")
    on()
    for moved in ("CR100", "CW100N1", "CR216", "CRI", "CWIN4", "CR000", "CW000N4", "CW209009"):
        for refused in (False, True):
            say(moved, {"CR100": END_MARK, "CR216": "0000", "CRI": "N1", "CR000": "N1"}.get(moved, "OK"))
            if refused:
                lend(log=31)
                on(31)
                byte(13, 31)
                lend(log=32)
                byte(13, 31)
            on()
            asked("CRD CWDN4 CRI CRD CWIN4 CWDN4 CR000 CR001", "E004 E004 N1 E004 OK E004 N4 N2")
            on()
    save_end_marks()


def an_event():
    press(1)
    tick(times=8)
    tick(lines=1)


@scenario
def steps_from_the_last_address():
    # A power-on and nothing else makes them "before 000": after anything else, I and D go by the last address of their direction.
    alter(SAVED, 0, " ".join(("53000000 00000009", *OWN)))
    for between in (tick, an_event, empty, lambda: (press(1), press(1)), lambda: (press(1), press(2), press(1)), lambda: press(2),
                    lambda: press(3, 34), lambda: byte(32), lambda: say("", "E001"), lambda: say("XRD", "E002"),
                    lambda: say("CR217", "E004"), lambda: say("CW217", "E004"), lambda: say("CW210002", "E022"),
                    lambda: say("CW210004", "E021"), lambda: say("CW210009", "E003")):
        fresh(log=48)
        asked("CR002 CW002N2", "N2 OK")
        between()
        asked("CRI CRD CRD CWIN4 CWDN1 CR003 CR002", "N3 N2 N1 OK OK N4 N1")
    # Each special command that is taken; a load is no power-on.
    for code in (1, 3, 5, 6, 7, 8):
        fresh(log=48)
        say("CR002", "N2")
        say("CW210%03d" % code, "OK")
        asked("CRI CRD CRD CWI000 CWD000", "N3 N2 N1 E004 OK")
    save_end_marks()
