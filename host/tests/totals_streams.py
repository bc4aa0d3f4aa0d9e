"""Arguments, input and output of the program `totals`: each case is given the program, as those of shell.py are. The cases there have more of
named files, of standard input and of output that fails.
"""
import os
import resource
import time

from loglist_records import change, gap
from shell_cases import NAMES, name_of
from shell_program import FOLDER, MISSING, NO_TEXT, Program, folder, open_fifo, same, store, untouched
from totals_cases import FULL, LAST, LATER, ONE, TWO, text

ZEROS = text().encode()
CLOSED, BOTH = text({1: "1 0 0"}).encode(), text({1: "1 1 7"}).encode()
THREE = text({1: "1 1 4", 2: "1 0 2"}).encode()  # ONE, LATER and LAST
CUT = "is refused with E050"  # of a file with a byte
MANY, SPARSE = 3000, 200_000_000
SOON = 10  # seconds in which so many bytes are not read, but the first of them are


def few_descriptors():
    resource.setrlimit(resource.RLIMIT_NOFILE, (64, 64))


# ---- arguments

def no_arguments(program):
    """Nothing is read: standard input may be anything, a closed one too."""
    program.writes(ZEROS)
    program.writes(ZEROS, input=ONE[:7])
    descriptor = os.open("/", os.O_RDONLY)
    program.writes(ZEROS, stdin=descriptor)
    os.close(descriptor)
    program.writes(ZEROS, stdin=None, preexec_fn=lambda: os.close(0))


def files_in_order(program):
    with folder(a=ONE, b=LATER, c=LAST, empty=b"", both=ONE + TWO):
        program.writes(CLOSED, "a")
        program.writes(BOTH, "both")
        program.writes(THREE, "a", "b", "c")
        program.writes(THREE, "empty", "a", "empty", "b", "empty", "empty", "c", "empty")
        program.writes(ZEROS, "empty", "empty")
        program.writes(THREE, os.path.abspath("a"), "./b", "c")


def dash_among(program):
    """Standard input in its turn; the second `-` finds it at its end, which is a log of no record."""
    with folder(a=ONE, b=LATER, c=LAST, **{"-": ONE}):
        program.writes(THREE, "a", "-", "c", input=LATER)
        program.writes(THREE, "-", "-", "b", "-", "c", "-", input=ONE)
        program.writes(ZEROS, "-", "-", input=b"")
        program.writes(CLOSED, "./-")
        program.fails(b"", "cannot read standard input: Bad file descriptor", "a", "-", stdin=None, preexec_fn=lambda: os.close(0))


def wrong_options(program):
    """Nothing is read, and no refusal is told."""
    with folder(a=ONE, cut=b"x"):
        for arguments in (("--frob",), ("a", "--frob"), ("cut", "--frob"), ("missing", "--frob"), ("-", "--frob", "--more")):
            program.wrong("there is no option '--frob'", *arguments)
        program.wrong("there is no option '--check'", "--check", "a")


# ---- refusals and messages

def messages_of_the_page(program):
    five, one, bad = change(16, 0, 5, 0), change(17, 1, 0, 1), change(17, 200, 0, 5)
    with folder(**{"a.log": five, "b.log": change(15, 1, 0, 5), "other.log": one, "bad.log": bad}):
        program.fails(b"E072\n", "'b.log' is refused with E072: expected a first tick of 16 or later, found 15", "a.log", "b.log")
        os.replace("other.log", "b.log")
        program.fails(b"E073\n", "'b.log' is refused with E073: expected 00000005 as the first earlier word, found 00000001", "a.log", "b.log")
        os.replace("bad.log", "b.log")
        program.fails(b"E052\n", "'b.log' is refused with E052", "a.log", "b.log")


def standard_input_refused(program):
    """It is told without quotes, and by all of the numbers."""
    with folder(a=change(16, 0, 5, 0)):
        why = ": expected a first tick of 16 or later, found 15"
        program.fails(b"E072\n", f"standard input is refused with E072{why}", "a", "-", input=change(15, 1, 0, 5))
        why = ": expected 00000000 as the first earlier word, found 00000005"
        program.fails(b"E073\n", f"standard input is refused with E073{why}", "-", "a", input=change(15, 1, 0, 5))
        program.fails(b"E052\n", "standard input is refused with E052", "a", "-", input=gap(17, 2, 1))
        program.fails(b"E050\n", f"standard input {CUT}", "-", "missing", input=b"x")


def refused_ends_it(program):
    """What stands behind a log that is refused is neither read nor opened, and what was counted before it is not written."""
    with folder(a=ONE, cut=b"x"), untouched() as standard_input:
        os.mkfifo("fifo")
        for behind in (("missing",), ("a",), ("-",), ("cut", "cut"), ("fifo",)):
            program.fails(b"E050\n", f"'cut' {CUT}", "a", "cut", *behind, stdin=standard_input)
        program.fails(b"E050\n", f"'cut' {CUT}", "cut")


def failure_ends_it(program):
    """A file that is missing or cannot be read: nothing is written, whatever was counted before, and what stands behind is not read."""
    with folder(a=ONE, cut=b"x"):
        os.mkdir("logs")
        for message, name in ((f"cannot open 'missing': {MISSING}", "missing"), (f"cannot read 'logs': {FOLDER}", "logs")):
            program.fails(b"", message, name)
            program.fails(b"", message, "a", name)
            program.fails(b"", message, "a", name, "cut", "-")
            program.fails(b"", message, "-", name, input=ONE)
        program.fails(b"", f"cannot open '': {MISSING}", "a", "")


def names_in_refusals(program):
    """Every byte of a name is told as it is, and 4,096 of them at most. One that is not UTF-8 is not opened by a Rattle program."""
    for name in NAMES:
        with folder():
            store(name, b"x")
            if program.can_open(name):
                program.fails(b"E050\n", b"'%s' %s" % (name, CUT.encode()), name)
            else:
                program.fails(b"", b"cannot open '%s': %s" % (name, NO_TEXT.encode()), name)
    with folder(cut=b"x"):
        for length in (4094, 4095):
            name = name_of(length, "cut")
            program.fails(b"E050\n", f"'{name}' {CUT}", name)


# ---- many and large files

def many_files(program):
    """3,000 files, of which no more than 64 can be open at a time. Channel 1 closes and opens in turn, for two ticks."""
    with folder():
        names = [f"{n}.log" for n in range(MANY)]
        for n, name in enumerate(names):
            store(name, change(2 * n, 0, 0, 1) if n % 2 else change(2 * n, 0, 1, 0))
        want = text({1: f"{MANY // 2} {MANY // 2} {MANY}"}).encode()
        program.writes(want, *names)
        program.writes(want, *names, preexec_fn=few_descriptors)
        program.writes(ZEROS, *["/dev/null"] * MANY, preexec_fn=few_descriptors)
        program.fails(b"E072\n", f"'0.log' is refused with E072: expected a first tick of {2 * MANY - 2} or later, found 0", *names, "0.log",
                      preexec_fn=few_descriptors)


def large_files(program):
    """Of a file that is longer than a log no more is read than shows it: one of zeros, and one that begins as a log."""
    with folder(a=ONE, zeros=b"", log=FULL + gap(4100, 1, 0), full=FULL + gap(4100, 1, 0)):
        for name in ("zeros", "log"):
            os.truncate(name, SPARSE)
        before = time.monotonic()
        for name in ("zeros", "log"):
            program.fails(b"E056\n", f"'{name}' is refused with E056", name)
            program.fails(b"E056\n", f"'{name}' is refused with E056", "a", name, "a")
        if not program.by_run and time.monotonic() - before > SOON:
            raise AssertionError("all of a large file is read")
        program.writes(text({1: "2048 2047 2053"}, "1").encode(), "full")


# ---- where somebody waits

def single_bytes(program):
    """Each read gets one byte: a pipe of packets gives no more than one write at a time."""
    reader, writer = os.pipe2(os.O_DIRECT)
    with program.talk("-", stdin=reader) as talk:
        os.close(reader)
        for byte in ONE + TWO:
            os.write(writer, bytes([byte]))
        os.close(writer)
        same(talk.rest(), BOTH, "the output")


def opened_in_turn(program):
    """A file is opened when its turn comes, and not before: here it is made meanwhile. Nothing is written before the last has ended."""
    with folder(), untouched() as standard_input:
        os.mkfifo("fifo")
        with program.talk("fifo", "later", stdin=standard_input) as talk:
            talk.input = open_fifo("fifo", talk)
            talk.send(ONE)
            store("later", TWO)
            same(talk.end(), BOTH, "the output")


def full_output(program):
    with folder(a=ONE):
        for arguments in ((), ("a",)):
            with open("/dev/full", "wb") as full:
                done = program.call(arguments, stdout=full)
            status = 1 if program.independent or program.by_run else 0
            program.ended(done, status, None, ["cannot write standard output: No space left on device"], repr(arguments))


STREAMS = [no_arguments, files_in_order, dash_among, wrong_options, messages_of_the_page, standard_input_refused, refused_ends_it,
           failure_ends_it, names_in_refusals, many_files, large_files, single_bytes, opened_in_turn, full_output]


def stream(name, command):
    """The command is the program, totals or totals-independent, or run and its name."""
    program = Program("totals-independent" if os.path.basename(command[-1]).endswith("-independent") else "totals", command)
    try:
        {case.__name__: case for case in STREAMS}[name](program)
    except AssertionError as error:
        raise SystemExit(f"{name}: {error}") from None
