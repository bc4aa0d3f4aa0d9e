#!/usr/bin/env python3
"""rig.py IN OUT: writes the trial script of the rig and the answers it must get.

The answers stand here and in rig_bad_lines.py beside what is asked, worked out by hand from documents 01 and 02; none was taken from a
running box.
"""
import sys

from rig_bad_lines import bad_line_in_a_loop, bad_lines_at_edges, bad_lines_in_a_search, reads_of_bad_lines, saving
from rig_script import END_MARK, answers, asked, change, empty, gap, line, on, press, send, tick


def before_power_on():
    """The record is one of a refused power-on, with a log length of 0: 031 wherever the program area is right."""
    for length in (0, 24, 31, 32, 65536):
        line(f"byte 13 1600 1600 {length} 16", "31 0 0 -")
        line(f"tick 1600 {length}", "31 0")
        line(f"press 1 1600 {length}", "31 0")
        line(f"empty {length} 70000", "31 0")
    line("tick 1599 32", "30 0")


def points_of_the_wire():
    on()
    send("", "E001")
    send("CR", "E001")
    send("CRI", "S00000000000000")  # 000: nothing is before it
    send("CRD", "E004")
    on(saved="4601000300000000" + END_MARK * 199)
    send("CRI", "F10003")
    send("CR217", "E004")
    send("CR216", "0000")
    send("CR201", "80")
    send("CR212", "012")
    send("CR201", "00")
    send("cw 000 f 1 0003", "OK")
    send("CR000", "F10003")
    send("CW000F50003", "E003")
    send("CR000", "F10003")


def checks_of_a_command():
    """01's order of checks: each is seen where a later one would answer otherwise."""
    on()
    for command, reply in (("C", "E001"), ("xr217", "E002"), ("CX217", "E002"), ("CR21", "E002"), ("CR2170", "E004"),
                           ("CR21A", "E004"), ("CR0000", "E002"), ("CW217", "E004"), ("CW201", "E004"), ("CWD", "E004"),
                           ("CW000", "E002"), ("CW000X", "E003"), ("CW000N12", "E002"), ("CW000F0XXXX", "E003"),
                           ("CW000S01000000000000", "E003"), ("CW209256", "E003"), ("CW210009", "E003"), ("CW210002", "E022"),
                           ("CW210004", "E021")):
        send(command, reply)
    send("CW999" + "0" * 27, "E004")  # 32 characters
    send("CW999" + "0" * 28, "E002")  # a 33rd: overlong comes before the address
    for character in "\0\n\x7f\x80\xff":
        send("CR" + character, "E002")  # a third character
    send("CR ", "E001")  # dropped
    send("CWIN5", "E003")  # refused, so the last address stays before 000
    send("CWIN1", "OK")
    send("CR000", "N1")
    send("CW000S00000000010009", "OK")
    send("CW210003", "OK")
    send("CW217", "E004")
    send("CW000", "E005")
    send("CW209007", "OK")
    send("CW210007", "E020")
    send("CW210001", "OK")
    empty(change(0, 0, 1, 0))


def downloads():
    """02, item 7: at each power-on, after a refused one too, D is E004 and I begins at 000, for reads and writes apart."""
    lines = [f"F{number % 4 + 1}{number:04}" for number in range(6)]
    on()
    send("CRD", "E004")
    send("CWDN1", "E004")
    for text in lines:
        send("CWI" + text, "OK")
    for text in lines:
        send("CRI", text)
    for command, reply in (("CW199N1", "OK"), ("CWIN2", "OK"), ("CWIN3", "E004"), ("CR199", "N1"), ("CRI", "N2"), ("CRI", "80"), ("CR215", "0000"),
                           ("CRI", "0000"), ("CRI", "E004"), ("CRD", "0000"), ("CW210008", "OK")):
        send(command, reply)
    line("on 1600 1600 31", "31")
    line("on 1600 1600 32", "0")
    for command, reply in (("CWD" + lines[0], "E004"), ("CRD", "E004"), ("CRI", lines[0]), ("CRI", lines[1]), ("CRD", lines[0]), ("CRD", "E004"),
                           ("CWI" + lines[5], "OK"), ("CWD" + lines[5], "E004"), ("CR000", lines[5]), ("CR001", lines[1])):
        send(command, reply)


def points_of_running():
    on()
    for number, text in enumerate(("F10003", "S00000000010002", "N1", "S00000000000000")):
        send(f"CW{number:03}{text}", "OK")
    send("CW210003", "OK", 1)
    send("CR206", "01")
    send("CR213", "0003")
    tick()
    send("CR213", "0003")
    tick(1)  # Next, back to the line after the For
    send("CR213", "0002")
    send("CR201", "82")  # running, the event of power-on unread
    tick()
    tick(1)
    tick()
    send("CR206", "01")
    tick(1)
    for address, value in ((206, "00"), (211, "003"), (212, "011"), (213, "0000"), (201, "00")):
        send(f"CR{address}", value)
    empty(change(1, 0, 1, 0), gap(6, 1, 0))  # two changes in a log of two places


def points_of_400_lines():
    on()
    send("CW000F10399", "OK")
    send("CW001N1", "OK")
    send("CW210003", "OK", 400)
    send("CR212", "011")
    send("CR211", "002")
    send("CW000F10400", "OK")
    send("CW210003", "OK", 400)
    send("CR212", "013")
    send("CR211", "001")  # the Next that was due and did not run
    send("CW000F10000", "OK")
    send("CW210003", "OK", 1)  # a loop of none: the For alone is run, and its Next is passed over
    send("CR212", "011")
    send("CR211", "002")
    send("CW199N1", "OK")
    send("CW001S00000000000000", "OK")
    send("CW210003", "OK", 1)  # its Next is line 199: event 009 there
    send("CR212", "009")
    send("CR211", "199")


def points_of_the_log():
    on()
    send("CW20601", "OK")
    tick()
    send("CW20501", "OK")
    empty(change(255, 0, 1, 0), gap(1, 1, 0x101))
    send("CW20601", "OK")  # no change
    empty()
    for outputs in ("02", "03", "04"):
        tick()
        send(f"CW206{outputs}", "OK")
    line("get log 0 32", change(255, 2, 0x102, 0x101) + gap(3, 2, 0x104))  # lost in ticks 3 and 4
    line("empty 32 31", "35 0")
    empty(change(255, 2, 0x102, 0x101), gap(3, 2, 0x104))
    line("get log 0 32", change(255, 2, 0x102, 0x101) + gap(3, 2, 0x104))  # emptying changes no byte of the log
    send("CW20605", "OK")
    line("set log 0 00", "ok")  # altered by the caller: copied as it stands
    line("set dest 0 " + "77" * 19, "ok")
    line("empty 32 19", "0 16")
    line("get dest 0 19", "00" + change(255, 4, 0x105, 0x104)[2:] + "777777")


def points_of_the_gap():
    """02, item 8. What the caller makes of the log between the changes tells the box nothing: it keeps the first lost tick itself, and the
    earlier word of a change is that of the outputs."""
    on(48)
    send("CW20601", "OK")
    line("set log 8 77777777", "ok")
    send("CW20603", "OK")
    line("get log 0 48", change(255, 0, 0x77777777, 0) + change(255, 0, 3, 1) + "00" * 16)
    tick()
    send("CW20602", "OK")
    line("get log 32 16", gap(1, 1, 2))
    line("set log 32 " + "FF" * 16, "ok")
    tick()
    send("CW20603", "OK")  # back to the word before the gap
    line("get log 32 16", gap(1, 2, 3))
    line("set log 36 00000000", "ok")
    for number in range(3, 21):
        tick()
        send("CW20602" if number % 2 else "CW20603", "OK")
    line("get log 32 16", gap(1, 20, 3))
    line("set log 44 12345678", "ok")
    empty(change(255, 0, 0x77777777, 0), change(255, 0, 3, 1), gap(1, 20, 0x12345678))
    send("CW20600", "OK")  # the gap is forgotten: all begins anew
    send("CW20601", "OK")
    tick()
    send("CW20600", "OK")
    empty(change(255, 20, 0, 3), change(255, 20, 1, 0), gap(21, 1, 0))
    send("CW20601", "OK")
    empty(change(255, 21, 1, 0))


def log_lengths():
    """R counts whole records of 16 bytes, and the bytes behind them stay."""
    for length in (24, 31, 65537):
        line(f"on 1600 1600 {length}", "31")
    for length, kept in ((32, 1), (33, 1), (47, 1), (48, 2), (63, 2), (64, 3)):
        line("set log 0 " + "AA" * 80, "ok")
        on(length)
        records = []
        for number in range(kept):
            send(f"CW206{number + 1:02}", "OK")
            records.append(change(255, 0, number + 1, number))
        line("get log 0 80", "".join(records) + "AA" * (80 - 16 * kept))
        send("CW20500", "OK")  # no change
        send("CW203FF", "OK")
        records.append(gap(0, 1, 0xFF000000 + kept))
        line("get log 0 80", "".join(records) + "AA" * (64 - 16 * kept))
        empty(*records)


def points_of_special_commands():
    on()
    send("CW209200", "OK")
    send("CW200S00FF0000011234", "OK")
    send("CW210006", "OK")
    send("CR203", "FF")
    send("CR210", "006")
    send("CW210005", "E023")
    send("CR210", "006")
    empty(change(254, 0, 0xFF000001, 0))
    send("CW000S00000000070002", "OK")
    press(1)
    send("CW20600", "E005")
    press(2)
    send("CR201", "83")
    send("CW20600", "E005")
    send("CW210003", "E020")
    send("CW209200", "OK")
    send("CWI005", "E020")  # 210; its parameter is out of reach, which is a later check
    line("ticks 1000 1600 32", "0 0")  # paused: none counts
    send("CW210004", "OK")
    tick()
    send("CR206", "07")
    tick()  # line 001, the end mark
    send("CR206", "00")
    send("CR212", "011")
    press(2)  # does nothing when stopped
    send("CR201", "00")
    press(1)
    press(1)
    send("CR212", "010")
    empty(change(0, 0, 7, 0xFF000001), gap(1002, 2, 7))


def bench():
    """01's bench: an all-zero saved copy, a 32-byte log."""
    on(saved="00" * 1600)
    line("get program 0 16", "00" * 16)  # loaded as it is
    send("CW000S00000000050003", "OK")
    send("CW001S00000000000000", "OK")
    send("CW210003", "OK")
    tick()
    tick()
    send("CR206", "05")
    tick()
    send("CR206", "00")
    send("CR212", "011")


def refusals():
    """In their order, and nothing changes. 033 takes 4,294,967,295 ticks and is not here."""
    on()
    send("CW20601", "OK")
    for character in "CR20":
        line(f"byte {ord(character)} 1600 1600 32 16", "0 0 0 -")
    line("set reply 0 " + "EE" * 64, "ok")
    for lengths, refusal in (("1599 1600 31 15", 30), ("1600 1601 31 15", 30), ("2000 2000 33 0", 30), ("0 0 0 0", 30),
                             ("1600 1600 31 15", 31), ("1600 1600 33 15", 31), ("1600 1600 65537 16", 31), ("1600 1600 0 16", 31),
                             ("1600 1600 32 15", 32), ("1600 1600 32 0", 32)):
        line(f"byte 54 {lengths}", f"{refusal} 0 0 -")
    line("get reply 0 64", "EE" * 64)
    line("tick 1601 31", "30 0")
    line("tick 1600 31", "31 0")
    line("press 3 1599 31", "30 0")
    line("press 3 1600 31", "31 0")
    for button in (0, 3, 255, 256, 257, 258, 65537, 65538, 4294967295):
        line(f"press {button} 1600 32", "34 0")
    line("empty 33 0", "31 0")
    line("empty 32 15", "35 0")
    line("ticks 3 1599 32", "30 0")
    line("ticks 18446744073709551615 1600 33", "31 0")
    line("byte 54 1600 1600 32 64", "0 0 0 -")  # the command begun before goes on: CR206
    line("byte 13 1600 1600 32 64", "0 0 3 30310D")
    line("get reply 0 5", "30310DEEEE")
    empty(change(255, 0, 1, 0))  # at tick 0: no refused tick was taken
    line("on 1600 1600 31", "31")
    line("tick 1600 32", "31 0")
    for lengths, refusal in (("1599 1600 31", 30), ("1600 1599 65537", 30), ("1600 1600 65537", 31), ("1600 1600 65536", 0)):
        line(f"on {lengths}", str(refusal))
    line("tick 1600 32", "31 0")
    line("tick 1600 65536", "0 0")
    line("ticks 0 1600 65536", "0 0")
    line("ticks 0 1599 65536", "0 0")  # no tick, no refusal
    line("empty 65536 0", "0 0")


def areas():
    line("set program 1999 aB", "ok")
    line("get program 1998 2", "00AB")
    line("set program 2000 -", "ok")
    line("get program 2000 0", "-")
    line("get saved 0 0", "-")
    line("set dest 69999 01", "ok")
    line("get dest 69998 2", "0001")
    line("set reply 63 01", "ok")
    line("set log 69998 0102", "ok")
    line("get log 69998 2", "0102")
    line("  get\t log  00069999 \t 1 ", "02")


def unread():
    """Lines that the rig cannot read, or that ask for more than it has."""
    for text in ("", " ", "\t", "on", "on 1600 1600", "on 1600 1600 32 1", "ON 1600 1600 32", "on,1600,1600,32",
                 "on 2001 1600 32", "on 1600 2001 32", "on 1600 1600 70001", "on +1600 1600 32", "on 1600 1600 -1",
                 "on 1600 1600 0x20", "on 1600 1600 32.", "byte 256 1600 1600 32 16", "byte 13 1600 1600 32 65",
                 "byte 13 1600 1600 32", "byte -1 1600 1600 32 16", "tick 1600", "tick 1600 32 0",
                 "ticks 18446744073709551616 1600 32", "ticks 99999999999999999999999 1600 32", "ticks 1 1600",
                 "press 4294967296 1600 32", "press 4294967297 1600 32", "press -1 1600 32", "press 1 1600 70001",
                 "empty 32", "empty 32 70001", "set program 0", "set program 0 0",
                 "set program 0 0G", "set program 0 00 00", "set program 2000 00", "set program 2001 -", "set program 1999 0000",
                 "set dest 69999 0000", "set box 0 00", "set program -1 00", "set program 0 --", "get program 2000 1",
                 "get program 2001 0", "get program 0 2001", "get program 0", "get reply 0 65", "get log 69999 2", "get log 0 -",
                 "get program 18446744073709551615 1", "hello", "# a comment", "tick1600 32", "\u00f6 1600 32"):
        line(text, "?")
    line("get program 0 1", "53")  # none of them did anything: line 000 is an end mark


before_power_on()
points_of_the_wire()
checks_of_a_command()
downloads()
points_of_running()
points_of_400_lines()
points_of_the_log()
points_of_the_gap()
log_lengths()
points_of_special_commands()
bench()
saving()
reads_of_bad_lines()
bad_line_in_a_loop()
bad_lines_at_edges()
bad_lines_in_a_search()
refusals()
areas()
unread()
for name, lines in zip(sys.argv[1:3], (asked, answers)):
    with open(name, "w", encoding="utf-8", newline="\n") as file:
        file.write("".join(text + "\n" for text in lines))
