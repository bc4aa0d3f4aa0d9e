"""Arguments, input and output of the program `explain`: each case is given the program, as those of shell.py are. The cases there have
more of named files, of standard input and of output that fails.
"""
import fcntl
import itertools
import os
import termios
import time

from explain_cases import END, TEN, WHOLE, refused, running, stopped
from explain_cases import program as stored_program
from programs import SECONDS
from shell_program import FOLDER, MISSING, Program, folder, same

# It ends on line 012, 100,000 ticks from line 001 on; a start at 000 stops there.
LATE = stored_program("B " + TEN + "S10 S0")
LATE_END, AT_ONCE = stopped("011 100000 012 -", END).encode(), stopped("014 0 000 -", "E024").encode()
AFTER_99999, NO_PROGRAM = running("99999").encode(), refused("E030").encode()
# The same from line 000 on, and with a tick more.
FROM_000, LONGER = stored_program(TEN + "S10 S0"), stored_program(TEN + "S11 S0")
FROM_000_END, AFTER_100000 = stopped("011 100000 011 -", END).encode(), running("100000").encode()

NO_NUMBERS = ["12a", "", "+3", " 3", "3 ", "1.5", "1,000", "0x10", "-", "x", "\n", "١", "\udcff"]


# ---- arguments

def no_arguments(program):
    """Line 000, and 100,000 ticks."""
    program.writes(FROM_000_END, input=FROM_000)
    program.writes(AFTER_100000, input=LONGER)
    program.writes(AT_ONCE, input=LATE)


def one_argument(program):
    """The start; the limit is 100,000 ticks."""
    program.writes(LATE_END, "1", input=LATE)
    program.writes(AT_ONCE, "0", input=LATE)
    program.writes(AFTER_100000, "000", input=LONGER)
    program.writes(refused("E060").encode(), "200", input=LATE)


def two_arguments(program):
    """The start and the limit, in that order."""
    program.writes(LATE_END, "1", "100000", input=LATE)
    program.writes(AFTER_99999, "1", "99999", input=LATE)
    program.writes(AT_ONCE, "0", "1", input=LATE)
    program.writes(refused("E060").encode(), "200", "100001", input=LATE)
    program.writes(refused("E061").encode(), "199", "100001", input=LATE)


def three_arguments(program):
    """A file behind them; standard input is left alone."""
    with folder(file=LATE, short=LATE[:1599], long=LATE + b"S", empty=b"", **{"7": LATE}):
        program.writes(LATE_END, "1", "100000", "file")
        program.writes(AFTER_99999, "1", "99999", "file")
        program.writes(LATE_END, "1", "100000", os.path.abspath("file"))
        program.writes(LATE_END, "1", "100000", "7")  # a name, though it is a number
        for name in ("short", "long", "empty"):
            program.writes(NO_PROGRAM, "1", "100000", name)
            program.writes(NO_PROGRAM, "200", "100001", name)


def dash(program):
    """`-` is standard input, behind a start and a limit."""
    program.writes(LATE_END, "1", "100000", "-", input=LATE)
    program.writes(NO_PROGRAM, "1", "100000", "-", input=LATE[:1599])
    program.writes(NO_PROGRAM, "1", "100000", "-", input=b"")
    with folder(**{"-": LATE}):
        program.writes(LATE_END, "1", "100000", "./-")


def no_number(program):
    """In the place of the start, and of the limit; no file is looked at."""
    for word in NO_NUMBERS:
        program.wrong(f"no number: '{word}'", word)
        program.wrong(f"no number: '{word}'", "0", word)
    program.wrong(f"no number: '{'9' * 4096}'", "9" * 5000 + "x")
    with folder(file=LATE):
        program.wrong("no number: '12a'", "12a", "100000", "file")
        program.wrong("no number: '12a'", "0", "12a", "file")
        program.wrong("no number: 'file'", "file")
        program.wrong("no number: 'file'", "0", "file")


def option(program):
    """In every place, also where a number is due and the option looks like one."""
    for word in ("-1", "--frob", "-x", "--", "-0", "- 3"):
        for arguments in ((word,), ("0", word), ("0", "1", word), (word, "0", "1")):
            program.wrong(f"there is no option '{word}'", *arguments)


def four_arguments(program):
    with folder(file=LATE):
        program.wrong("one argument too many: 'more'", "1", "100000", "file", "more")
        program.wrong("one argument too many: '5'", "1", "100000", "-", "5")
        program.wrong("one argument too many: '-'", "1", "100000", "-", "-")
        program.wrong("one argument too many: ''", "1", "100000", "file", "")
        program.wrong("one argument too many: 'more'", "1", "100000", "file", "more", "most")


def first_of_several(program):
    """Options and arguments too many first, from left to right, then the start, the limit, and the file, without which nothing is told."""
    with folder(file=LATE):
        program.wrong("there is no option '--frob'", "12a", "12b", "--frob")
        program.wrong("there is no option '--frob'", "12a", "--frob", "file", "more")
        program.wrong("one argument too many: 'more'", "12a", "12b", "missing", "more", "--frob")
        program.wrong("no number: '12a'", "12a", "12b", "missing")
        program.wrong("no number: '12b'", "200", "12b", "missing")
        program.fails(b"", f"cannot open 'missing': {MISSING}", "200", "100001", "missing")
        program.fails(b"", f"cannot read '.': {FOLDER}", "200", "100001", ".")


def long_numbers(program):
    """Of any length: a large one is refused by what it is worth, and zeros before a number do not matter."""
    for word in ("18446744073709551615", "18446744073709551616", "1" * 30, "9" * 5000):
        program.writes(refused("E060").encode(), word, "0", input=LATE)
        program.writes(refused("E061").encode(), "0", word, input=LATE)
    program.writes(LATE_END, "0" * 5000 + "1", "0" * 5000 + "100000", input=LATE)


# ---- input

def taken(talk):
    """Waits until what was sent has been taken out of the pipe."""
    end = time.monotonic() + SECONDS
    while fcntl.ioctl(talk.process.stdin, termios.FIONREAD, bytes(4)) != bytes(4):
        if time.monotonic() > end or talk.process.poll() is not None:
            raise AssertionError("not all that was sent was read")
        time.sleep(0)


def in_pieces(program, given, sizes, text):
    """A piece is sent when the one before it has been taken, so no read gets parts of two."""
    with program.talk("1", "100000") as talk:
        at = 0
        for size in itertools.cycle(sizes):
            talk.send(given[at:at + size])
            at += size
            if at >= len(given):
                break
            taken(talk)
        same(talk.end(), text, "the text")


def odd_pieces(program):
    for sizes in ((1599, 1), (1, 1599), (800,), (7, 400, 1193), (1024,)):
        in_pieces(program, LATE, sizes, LATE_END)
    in_pieces(program, LATE[:1599], (1000, 599), NO_PROGRAM)
    in_pieces(program, LATE + b"S", (1000, 601), NO_PROGRAM)


def single_bytes(program):
    in_pieces(program, LATE, (1,), LATE_END)


def waits_for_the_end(program):
    """With 1,600 bytes it is not known whether there are more: a byte behind them makes another report, and is enough for it."""
    with program.talk("1", "100000") as talk:
        talk.send(LATE)
        taken(talk)
        talk.send(b"S")
        same(talk.rest(), NO_PROGRAM, "the text, with the pipe still open")


def endless_input(program):
    with open("/dev/zero", "rb") as zeros:
        program.writes(NO_PROGRAM, "200", "100001", stdin=zeros)


def unreadable_input(program):
    descriptor = os.open("/", os.O_RDONLY)
    program.fails(b"", f"cannot read standard input: {FOLDER}", stdin=descriptor)
    program.fails(b"", f"cannot read standard input: {FOLDER}", "200", "100001", "-", stdin=descriptor)
    os.close(descriptor)
    program.writes(refused("E061").encode(), "0", "100001", input=WHOLE)


STREAMS = [no_arguments, one_argument, two_arguments, three_arguments, dash, no_number, option, four_arguments, first_of_several,
           long_numbers, odd_pieces, single_bytes, waits_for_the_end, endless_input, unreadable_input]


def stream(name, command):
    """The command is the program, explain or explain-independent, or run and its name."""
    program = Program("explain-independent" if os.path.basename(command[-1]).endswith("-independent") else "explain", command)
    program.words = ()
    try:
        {case.__name__: case for case in STREAMS}[name](program)
    except AssertionError as error:
        raise SystemExit(f"{name}: {error}") from None
