"""serial_bad_lines.py: the cases of serial.py about saved copies with Bad lines (document 02, item 4): what is told of them, and what they
are on the line. What is Bad is worked out by hand from document 01, "Variables"; none of it was taken from a box."""
import os
import random

from serial_box import END_MARK, Box, contents, equal

# The three forms with their numbers at both ends.
GOOD = ("5300000000000000", "5300FFFFFFFF270F", "4601000000000000", "4604270F00000000", "4E01000000000000", "4E04000000000000")

# None of the three: a byte is another, or a number is out of its range.
BAD = ("5200000000000000", "5400000000000000", "7300000000000000",  # the first byte of a State; the last is a small s
       "5301000000000000", "53FF000000000000",  # its reserved byte
       "5300000000002710", "530000000000FFFF",  # a time of 10000 and more
       "4501000300000000", "4701000300000000", "6601000300000000",  # the first byte of a For
       "4600000300000000", "4605000300000000", "46FF000300000000",  # its counter
       "4601271000000000", "4601FFFF00000000",  # a count of 10000 and more
       "4601000301000000", "4601000300010000", "4601000300000100", "4601000300000001",  # its four zeros
       "4D01000000000000", "4F01000000000000", "6E01000000000000",  # the first byte of a Next
       "4E00000000000000", "4E05000000000000", "4EFF000000000000",  # its counter
       "4E01010000000000", "4E01000100000000", "4E01000001000000", "4E01000000010000", "4E01000000000100", "4E01000000000001",
       "0000000000000000", "FFFFFFFFFFFFFFFF", "0D0D0D0D0D0D0D0D")


def start(folder, data):
    """A box whose saved copy has these bytes."""
    with open(os.path.join(folder, "saved"), "wb") as file:
        file.write(data)
    return Box(folder)


def with_bad(lines):
    """End marks, but all zero in these lines."""
    return b"".join(bytes(8) if number in lines else END_MARK for number in range(200))


def told(box, *messages):
    """Ends the box; these are all its messages but the last, which tells of the end."""
    *before, last = box.end().splitlines()
    equal(before, list(messages), "messages")
    equal(last.startswith("serialbox: off;"), True, "the last message: " + last)


def has_bad(box, lines):
    return f"serialbox: {box.saved} has Bad lines, where a program stops with event 014: {lines}"


def bad_lines_of_each_form(folder):
    """Each line that has none of the three forms is told and is E024 on the line, and none that has one."""
    box = start(folder, b"".join(bytes.fromhex(line) + END_MARK for line in BAD) + END_MARK * (200 - 2 * len(BAD)))
    for number in range(len(BAD)):
        box.ask(f"CR{2 * number:03}", "E024")
    told(box, has_bad(box, ", ".join(f"{2 * number:03}" for number in range(len(BAD)))))
    box = start(folder, b"".join(bytes.fromhex(line) for line in GOOD) + END_MARK * (200 - len(GOOD)))
    for number, line in enumerate(("S00000000000000", "S00FFFFFFFF9999", "F10000", "F49999", "N1", "N4")):
        box.ask(f"CR{number:03}", line)
    told(box)


def bad_lines_in_each_place(folder):
    """Single lines and runs, at both ends of the program, all lines and none."""
    for lines, text in (({12, 14, 15, 16}, "012, 014-016"), ({0}, "000"), ({199}, "199"), ({0, 1}, "000-001"), ({198, 199}, "198-199"),
                        ({0, 2, 3, 5, 199}, "000, 002-003, 005, 199"), (set(range(200)), "000-199"), (set(range(1, 200)), "001-199"),
                        (set(range(199)), "000-198"), (set(range(200)) - {100}, "000-099, 101-199"),
                        (set(range(1, 200, 2)), ", ".join(f"{number:03}" for number in range(1, 200, 2))),
                        (set(range(200)) - set(range(2, 200, 3)),  # the longest list
                         ", ".join(f"{number:03}-{number + 1:03}" for number in range(0, 200, 3)))):
        box = start(folder, with_bad(lines))
        told(box, has_bad(box, text))
    told(start(folder, with_bad(())))


def no_saved_copy(folder):
    """One message says it, at the start and after a 007, until an 008 has made the file."""
    box = Box(folder)
    missing = (f"serialbox: no saved copy in {box.saved}: a line is Bad until it is written, and a program that comes to a Bad line stops "
               "there with event 014")
    box.ask("CR000", "E024")
    box.ask("CW210003", "OK")
    box.ask("CR212", "014")
    box.ask("CW000N1", "OK")
    box.ask("CW210007", "OK")
    box.ask("CR000", "E024")
    equal(os.path.exists(box.saved), False, "a file before the first save")
    box.ask("CW210008", "OK")
    equal(contents(box.saved), bytes(1600), "saved copy")
    box.ask("CW210007", "OK")
    told(box, missing, missing, has_bad(box, "000-199"))


def loads_told(folder):
    """Each accepted 007 is told, however it is written, and nothing else that comes over the line."""
    box = start(folder, with_bad({3}))
    box.ask("CW210007", "OK")
    box.ask("CR210", "007")
    box.ask("CW209007", "OK")
    box.ask("CWI007", "OK")
    box.ask("cw 210 007", "OK")
    box.ask("CW210001", "OK")
    box.ask("CW000S00000000019999", "OK")
    box.ask("CW210003", "OK")
    box.ask("CW210007", "E020")
    box.ask("CW210001", "OK")
    box.ask("CW210008", "OK")
    box.ask("CW003N1", "OK")
    box.ask("CW210007", "OK")  # it was not saved, so it is Bad again
    box.ask("CW003N1", "OK")
    box.ask("CW210008", "OK")
    box.ask("CW210007", "OK")  # no line is Bad
    told(box, *[has_bad(box, "003")] * 5)


def bad_line_met(folder):
    """Over the line a Bad line is E024, and the address stays; a program stops there with 014 and keeps its outputs; 006 does nothing."""
    bad = bytes.fromhex("4605000300000000")
    data = bytes.fromhex("5300000000050002") + bad + END_MARK * 197 + bad
    box = start(folder, data)
    for command, reply in (("CR000", "S00000000050002"), ("CRI", "E024"), ("CRI", "E024"), ("CR0010", "E002"), ("CR002", "S00000000000000"),
                           ("CRD", "E024"), ("CRI", "S00000000000000"), ("CR199", "E024"), ("CR200", "S00000000000000"),
                           ("CR212", "012"), ("CW210003", "OK")):
        box.ask(command, reply)
    box.wait_for("CR212", "014", 5)
    for command, reply in (("CR211", "001"), ("CR206", "05"), ("CR201", "00"), ("CW209001", "OK"), ("CW210006", "OK"), ("CR206", "05"),
                           ("CR211", "001"), ("CW209199", "OK"), ("CW210005", "OK"), ("CR201", "80"), ("CR212", "014"), ("CR211", "199")):
        box.ask(command, reply)
    equal([row[:2] + row[3:] for row in box.empty()], [(1, 0, 5, 0)], "records")
    box.ask("CW210008", "OK")
    equal(contents(box.saved), data, "saved copy")
    box.ask("CW001S00000000000000", "OK")
    box.ask("CR001", "S00000000000000")
    box.ask("CW210007", "OK")
    box.ask("CR001", "E024")
    box.end()


def saved_unaltered(folder):
    """What a start loaded is what 008 saves, byte for byte, whatever it is; a write alters its own line alone."""
    for data in (bytes(1600), b"\xff" * 1600, random.Random(4).randbytes(1600), bytes.fromhex("4E05000000000000") * 200):
        box = start(folder, data)
        box.ask("CW210008", "OK")
        equal(contents(box.saved), data, "saved copy")
        os.remove(box.saved)  # an OK to 008 says that the file is there
        box.ask("CW210008", "OK")
        equal(contents(box.saved), data, "saved copy, where the file was gone")
        box.ask("CW012F40003", "OK")
        box.ask("CW210008", "OK")
        data = data[:96] + bytes.fromhex("4604000300000000") + data[104:]
        equal(contents(box.saved), data, "saved copy with line 012 written")
        box.end()
        equal(contents(box.saved), data, "saved copy after the end")


def messages_unread(folder):
    """Nobody reads what loads tell: the box goes on, and what was told is whole."""
    box = start(folder, with_bad(set(range(1, 200, 2))))
    for _ in range(300):  # of some 500 characters each, more than a pipe holds
        box.ask("CW210007", "OK")
    *before, last = box.end().splitlines()
    equal(set(before), {has_bad(box, ", ".join(f"{number:03}" for number in range(1, 200, 2)))}, "messages")
    equal(last.startswith("serialbox: off;"), True, "the last message: " + last)


CASES = [bad_lines_of_each_form, bad_lines_in_each_place, no_saved_copy, loads_told, bad_line_met, saved_unaltered, messages_unread]
