"""Arguments, input and output of the program `plan`: each case is given the program, as those of shell.py are. The cases there have more of
named files, of standard input and of output that fails.
"""
import fcntl
import itertools
import os
import termios
import time

from plan_cases import HOW, LONGEST, LONGEST_LINES, SHORTEST, encoded
from plan_cases import program as stored_program
from programs import SECONDS
from shell_program import FOLDER, MISSING, Program, folder, same

# Every kind of text: comments, CR LF, tabs, a word and a time of each size; the last line lacks its end.
TEXT = b"# two moves\r\n\r\n00000005\t3 00000006 0004 # one\r\n \t12345678 600000 9abcdef0 600000"
PROGRAM = stored_program("S00000000050003 S00000000060004 " + LONGEST_LINES)
TABLE = (b"move 01: 00000005 settling 0 to 3 (0:00.0 to 0:00.3), 00000006 reading 3 to 7 (0:00.3 to 0:00.7)\n"
         b"move 02: 12345678 settling 7 to 600007 (0:00.7 to 1000:00.7), 9ABCDEF0 reading 600007 to 1200007 (1000:00.7 to 2000:00.7)\n"
         b"total: 1200007 (2000:00.7)\n")
WRONG, WRONG_LINE = TEXT + b"x", "line 4: the reading time is not a decimal number"


def tells(program, message, *arguments, **streams):
    """Called so, it writes nothing and says what is wrong with the text, and how a move is written."""
    status = 1 if program.independent or program.by_run else 0
    program.ended(program.call(arguments, **streams), status, b"", [message, HOW], repr(arguments))


# ---- arguments

def no_arguments(program):
    program.writes(PROGRAM, input=TEXT)
    program.writes(b"E070\n", input=b"")
    program.writes(b"E071\n", input=TEXT + b"1")
    tells(program, WRONG_LINE, input=WRONG)


def check(program):
    """The table in place of the program; refusals and messages are the same."""
    program.writes(TABLE, "--check", input=TEXT)
    program.writes(b"E070\n", "--check", input=b"")
    program.writes(b"E071\n", "--check", input=TEXT + b"1")
    tells(program, WRONG_LINE, "--check", input=WRONG)


def named_file(program):
    """A file, by itself and behind --check; standard input is left alone."""
    with folder(file=TEXT, wrong=WRONG, empty=b"", **{"7": TEXT}):
        program.writes(PROGRAM, "file")
        program.writes(TABLE, "--check", "file")
        program.writes(TABLE, "--check", os.path.abspath("file"))
        program.writes(PROGRAM, "7")
        program.writes(b"E070\n", "empty")
        program.writes(b"E070\n", "--check", "empty")
        tells(program, WRONG_LINE, "wrong")
        tells(program, WRONG_LINE, "--check", "wrong")


def dash(program):
    program.writes(PROGRAM, "-", input=TEXT)
    program.writes(TABLE, "--check", "-", input=TEXT)
    with folder(**{"-": TEXT, "--check": TEXT, "check": TEXT}):
        program.writes(PROGRAM, "./-")
        program.writes(TABLE, "--check", "./-")
        program.writes(PROGRAM, "./--check")
        program.writes(TABLE, "--check", "./--check")
        program.writes(PROGRAM, "check")


def no_option(program):
    """--check is the whole word and nothing near it."""
    for word in ("--Check", "--CHECK", "-check", "--chec", "--checks", "--check=", "--check ", "-c", "--", "---check", "--frob"):
        program.wrong(f"there is no option '{word}'", word)
        program.wrong(f"there is no option '{word}'", "--check", word)
        program.wrong(f"there is no option '{word}'", word, "--check")


def check_elsewhere(program):
    """Behind a file, and a second time, it is no option."""
    with folder(file=TEXT):
        program.wrong("there is no option '--check'", "file", "--check")
        program.wrong("there is no option '--check'", "-", "--check")
        program.wrong("there is no option '--check'", "--check", "--check")
        program.wrong("there is no option '--check'", "--check", "file", "--check")


def too_many(program):
    with folder(file=TEXT):
        program.wrong("one argument too many: 'more'", "file", "more")
        program.wrong("one argument too many: 'more'", "--check", "file", "more")
        program.wrong("one argument too many: '-'", "--check", "-", "-")
        program.wrong("one argument too many: ''", "--check", "file", "")
        program.wrong("one argument too many: 'more'", "--check", "file", "more", "most")


def first_of_several(program):
    """From left to right, before the file is looked at."""
    with folder(file=TEXT):
        program.wrong("there is no option '--frob'", "--check", "file", "--frob", "more")
        program.wrong("one argument too many: 'more'", "--check", "missing", "more", "--frob")
        program.wrong("there is no option '--frob'", "--frob", "missing", "more")
        program.fails(b"", f"cannot open 'missing': {MISSING}", "--check", "missing")
        program.fails(b"", f"cannot read '.': {FOLDER}", "--check", ".")
        program.fails(b"", f"cannot open '': {MISSING}", "--check", "")


# ---- input

def taken(talk):
    """Waits until what was sent has been taken out of the pipe."""
    end = time.monotonic() + SECONDS
    while fcntl.ioctl(talk.process.stdin, termios.FIONREAD, bytes(4)) != bytes(4):
        if time.monotonic() > end or talk.process.poll() is not None:
            raise AssertionError("not all that was sent was read")
        time.sleep(0)


def in_pieces(program, given, sizes, want):
    """A piece is sent when the one before it has been taken, so no read gets parts of two."""
    with program.talk() as talk:
        at = 0
        for size in itertools.cycle(sizes):
            talk.send(given[at:at + size])
            at += size
            if at >= len(given):
                break
            taken(talk)
        same(talk.end(), want, "the output")


def odd_pieces(program):
    """Reads that end in a word, in a time, in a comment, and between CR and LF."""
    for sizes in ((7,), (12, 1), (13, 1, 1), (16, 5, 3), (1, 40), (3, 2)):
        in_pieces(program, TEXT, sizes, PROGRAM)
    between = [TEXT.index(b"\r\n") + 1, 2]
    in_pieces(program, TEXT, (*between, len(TEXT)), PROGRAM)
    in_pieces(program, TEXT.replace(b" # one", b""), (TEXT.index(b" # one") + 1, len(TEXT)), PROGRAM)


def single_bytes(program):
    in_pieces(program, TEXT, (1,), PROGRAM)


def waits_for_the_end(program):
    """Behind a whole plan may come more: nothing is written before the input ends."""
    with program.talk() as talk:
        talk.send(SHORTEST.encode())
        taken(talk)
        talk.send(SHORTEST.encode() * 15)
        taken(talk)
        same(talk.end(), stored_program("S00000000010001 S00000000020001 " * 16), "the output")
    with program.talk("--check") as talk:
        talk.send(SHORTEST.encode() * 16)
        taken(talk)
        talk.send(SHORTEST.encode())
        same(talk.end(), b"E070\n", "the output")


def long_lines(program):
    """A comment, blanks, zeros before a time and digits of one, each longer than any buffer."""
    long = 1_000_000
    program.writes(PROGRAM, input=b"#" + b"x" * long + b"\n" + TEXT + b"#" + b"\r" * long)
    program.writes(PROGRAM, input=b" " * long + b"\t" * long + b"\r\n" + TEXT + b" " * long)
    program.writes(PROGRAM, input=TEXT.replace(b" 0004 ", b" " + b"0" * long + b"4" + b" " * long))
    program.writes(b"E071\n", input=TEXT.replace(b" 0004 ", b" 1" + b"0" * long + b" "))
    tells(program, "line 3: the word of the reading is not eight hex digits", input=TEXT.replace(b"00000006", b"0" * long))
    tells(program, "line 3: the settling time is not a decimal number", input=TEXT.replace(b"\t3 ", b"\t" + b"3" * long + b"x "))


def many_lines(program):
    """Line numbers go on counting, and moves too many are looked at like others."""
    program.writes(PROGRAM, input=b"\n" * 3_000_000 + TEXT)
    program.writes(b"E070\n", input=SHORTEST.encode() * 100_000)
    tells(program, "line 3000001: the settling time is missing", input=b"\r\n" * 3_000_000 + b"00000001")
    tells(program, "line 100001: something stands behind the reading time", "--check",
          input=encoded(SHORTEST) * 100_000 + b"00000001 1 00000002 2 3\n" + b"x\n" * 10)


def unreadable_input(program):
    descriptor = os.open("/", os.O_RDONLY)
    program.fails(b"", f"cannot read standard input: {FOLDER}", stdin=descriptor)
    program.fails(b"", f"cannot read standard input: {FOLDER}", "--check", "-", stdin=descriptor)
    os.close(descriptor)
    program.writes(stored_program(LONGEST_LINES * 16), input=LONGEST.encode() * 16)


def full_output(program):
    """The program and the table cannot be written."""
    with folder(file=TEXT):
        for arguments in (["file"], ["--check", "file"]):
            with open("/dev/full", "wb") as full:
                done = program.call(arguments, stdout=full)
            status = 1 if program.independent or program.by_run else 0
            program.ended(done, status, None, ["cannot write standard output: No space left on device"], repr(arguments))


STREAMS = [no_arguments, check, named_file, dash, no_option, check_elsewhere, too_many, first_of_several, odd_pieces, single_bytes,
           waits_for_the_end, long_lines, many_lines, unreadable_input, full_output]


def stream(name, command):
    """The command is the program, plan or plan-independent, or run and its name."""
    program = Program("plan-independent" if os.path.basename(command[-1]).endswith("-independent") else "plan", command)
    try:
        {case.__name__: case for case in STREAMS}[name](program)
    except AssertionError as error:
        raise SystemExit(f"{name}: {error}") from None
