"""A program as the cases of shell.py call it: what it makes of a small input, what it says, and its status.

The proved programs and the independent ones behave likewise, but for what they say and for their status. A Rattle program has no status of
its own: 0. The command run gives it 1 where it says anything; there the prover has spoken before it. An independent program puts its name
before each line and has the status 1, or 2 where the call is wrong.
"""
import contextlib
import errno
import fcntl
import os
import struct
import subprocess
import tempfile
import termios
import time
from typing import NamedTuple

from durations_cases import FIVE
from explain_cases import END, refused, stopped
from explain_cases import program as stored_program
from loglist_cases import ONE as LOG
from loglist_cases import ONE_LINE
from loglist_records import change
from plan_cases import program as planned
from programs import SECONDS, Talk, equal, shown
from totals_cases import text as totals

FOLDER, MISSING, NO_TEXT = "Is a directory", "No such file or directory", "its name is not UTF-8"


class Sample(NamedTuple):
    """A small input. All output for it is `answer` and `end`; with `piece` behind the input, `answer` and `piece_end`."""
    given: bytes
    answer: bytes  # written before more input comes, and kept where none can be read
    end: bytes  # written where the input ends
    piece: bytes  # the beginning of another input like this one, cut short
    piece_end: bytes
    nothing: bytes  # the output for an empty input
    most: int  # so many files can be named; 0 where there is no limit
    takes: int = 0  # so many bytes of input are read at most; 0 where there is no limit
    endless: bytes = b""  # the output where there are as many; for large.py, that for its bytes
    words: tuple = ()  # the arguments before the first file
    usage: str = "[FILE]"
    filling: bytes = b"\0"  # what large.py repeats: an input of any length
    standard: tuple = ()  # the arguments with which it reads standard input: none, where it does so by itself
    tells: str = ""  # what is said of an input that has too many bytes, behind its name

    def unfinished(self):
        """Two inputs behind which more is read; all output for them is `answer`, where no more can be read."""
        longer = self.given + self.piece
        return self.given, self.piece if 0 < self.takes <= len(longer) else longer


BENCH = Sample(b"CR000\r", b"E024\r", b"", b"CR0", b"", b"", 1)  # a line that was never written is Bad
STOPS, NO_PROGRAM = stored_program("B S5 S0"), refused("E030").encode()
CLOSING, CLOSING_ONE, CLOSED = change(5, 0, 0x11223344, 0), change(9, 1, 0x11223345, 0x11223344), (3, 7, 9, 10, 13, 14, 18, 22, 25, 29)
SAMPLES = {
    "bench": BENCH,
    "corners": BENCH,
    "trials": Sample(b"t\0\0\0", b"31 0 0 0 0 0 0 \n", b"", b"t\0", b"", b"", 1),  # a tick before power-on, and sums of zeros
    "loglist": Sample(LOG, b"", ONE_LINE.encode(), LOG[:5], b"E050\n", b"", 1, 65537, b"E056\n"),
    "durations": Sample(FIVE, b"5\n", b"5\n", FIVE[:17], b"E030\n5\n", b"0\n", 0, usage="[FILE...]"),
    # from line 001: a start at 000 would stop on a Bad line
    "explain": Sample(STOPS, b"", stopped("011 5 002 -", END).encode(), STOPS[:17], NO_PROGRAM, NO_PROGRAM, 1, 1601, NO_PROGRAM,
                      ("1", "50"), "[START [LIMIT [FILE]]]"),
    # without a line end, which would be an end of input where a terminal is at the start of a line
    "plan": Sample(b"00000001 5 00000002 3", b"", planned("S00000000010005 S00000000020003"), b"\n00000004 1 00000008 2",
                   planned("S00000000010005 S00000000020003 S00000000040001 S00000000080002"), b"E070\n", 1, endless=b"E070\n",
                   usage="[--check] [FILE]", filling=b"# 00000001 1 00000002 1\n"),
    # channels 3, 7, 9 and so on close at tick 5, and channel 1 at tick 9
    "totals": Sample(CLOSING, b"", totals(dict.fromkeys(CLOSED, "1 0 0")).encode(), CLOSING_ONE,
                     totals({**dict.fromkeys(CLOSED, "1 0 4"), 1: "1 0 0"}).encode(), totals().encode(), 0, 65537, b"E056\n",
                     usage="[LOG...]", standard=("-",), tells="is refused with E056"),
}


class Program:
    def __init__(self, name, command):
        self.name = name
        self.independent = name.endswith("-independent")
        self.sample = SAMPLES[name.removesuffix("-independent")]
        self.by_run = os.path.basename(command[0]) == "run"
        # the cases call it from folders of their own
        self.command = [os.path.abspath(command[0]) if "/" in command[0] else command[0], *command[1:]]
        self.seconds = SECONDS if self.by_run else 60
        self.whole = self.sample.answer + self.sample.end
        self.words, self.standard = self.sample.words, self.sample.standard

    def can_open(self, name):
        """A Rattle program takes a name as text: a file whose name is not UTF-8 is one that it cannot open."""
        try:
            name.decode()
        except UnicodeDecodeError:
            return self.independent
        return True

    def lines(self, messages):
        """Messages as this program says them."""
        before = f"{self.name}: ".encode() if self.independent else b""
        return b"".join(before + os.fsencode(message) + b"\n" for message in messages)

    def ended(self, done, status, text, messages, what):
        """A call had this end. Behind the words of the prover only the last lines are the program's."""
        want = self.lines(messages)
        got = done.stderr
        if self.by_run:
            lines = got.split(b"\n")
            got = b"\n".join(lines[len(lines) - want.count(b"\n") - 1:])
        equal(done.returncode, status, f"{what}: status")
        same(done.stdout, text, f"{what}: output")
        same(got, want, f"{what}: messages")

    def call(self, arguments, **streams):
        """Standard input is a pipe that stays open, with bytes that must still be there afterwards, unless another is given."""
        command = [*self.command, *self.words, *arguments]
        with contextlib.ExitStack() as stack:
            if "stdin" not in streams and "input" not in streams:
                streams["stdin"] = stack.enter_context(untouched())
            try:
                return subprocess.run(command, **{"stdout": subprocess.PIPE, "stderr": subprocess.PIPE, "check": False,
                                                  "timeout": self.seconds, **streams})
            except subprocess.TimeoutExpired:
                raise AssertionError(f"{shortened(arguments)}: it does not end in {self.seconds} s") from None

    def writes(self, text, *arguments, **streams):
        """Called so, it writes this text and says nothing."""
        self.ended(self.call(arguments, **streams), 0, text, [], shortened(arguments))

    def fails(self, text, message, *arguments, **streams):
        """Called so, it writes this text and says this message."""
        status = 1 if self.independent or self.by_run else 0
        self.ended(self.call(arguments, **streams), status, text, [message], shortened(arguments))

    def wrong(self, message, *arguments):
        """The call is wrong: it says that, and how to call it, and nothing else is done."""
        status = 2 if self.independent else 1 if self.by_run else 0
        usage = f"how to call it: {self.name} {self.sample.usage}"
        self.ended(self.call(arguments), status, b"", [message, usage], shortened(arguments))

    def too_long(self, name):
        """Given a file with more bytes than it takes, it writes what it must; where it says something, that is of this file."""
        if self.sample.tells:
            self.fails(self.sample.endless, f"'{name}' {self.sample.tells}", name)
        else:
            self.writes(self.sample.endless, name)

    def talk(self, *arguments, **streams):
        return Talk([*self.command, *self.words, *arguments], self.seconds, **streams)


def shortened(arguments):
    text = " ".join(repr(argument) for argument in arguments) or "no arguments"
    return text if len(text) <= 100 else f"{text[:60]} and so on, {len(text)} characters"


def same(got, want, what):
    if got != want:
        raise AssertionError(f"{what}: {shown(got)}, not {shown(want)}")


def waiting_bytes(descriptor):
    return struct.unpack("i", fcntl.ioctl(descriptor, termios.FIONREAD, bytes(4)))[0]


@contextlib.contextmanager
def untouched():
    """A pipe to read from, which no end comes to; none of its bytes may have been taken afterwards."""
    reader, writer = os.pipe()
    try:
        os.write(writer, b"\r" * 3000)
        yield reader
        equal(waiting_bytes(reader), 3000, "bytes that were left on standard input")
    finally:
        os.close(reader)
        os.close(writer)


@contextlib.contextmanager
def folder(**files):
    """A new folder, in which the case goes on, with these files."""
    before = os.getcwd()
    with tempfile.TemporaryDirectory() as name:
        os.chdir(name)
        try:
            for file, content in files.items():
                store(file, content)
            yield
        finally:
            os.chdir(before)


def store(name, content):
    with open(name, "wb") as file:
        file.write(content)


def open_fifo(name, talk):
    """A FIFO for writing, as soon as the program has opened it."""
    end = time.monotonic() + talk.seconds
    while True:
        try:
            descriptor = os.open(name, os.O_WRONLY | os.O_NONBLOCK)
            break
        except OSError as error:
            if error.errno != errno.ENXIO or time.monotonic() > end or talk.process.poll() is not None:
                raise AssertionError(f"{name} is not opened") from None
        time.sleep(0.01)
    os.set_blocking(descriptor, True)
    return open(descriptor, "wb", buffering=0)
