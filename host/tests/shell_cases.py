"""The cases of shell.py: each is given a program, and fails by an AssertionError."""
import contextlib
import ctypes
import os
import pty
import resource
import socket
import struct
import subprocess
import termios
import threading
import time
import tty

from durations_cases import FIVE, LONGEST, ONE, REFUSED
from shell_program import FOLDER, MISSING, NO_TEXT, folder, open_fifo, same, store, untouched, waiting_bytes

END_OF_INPUT = b"\xfe"  # the character of the terminal here that is Ctrl-D on others: a byte that no sample has


# ---- one file

def named_file(program):
    """Its content, an empty one among others. Standard input is left alone, whatever it is."""
    given = program.sample.given
    with folder(file=given, more=given + program.sample.piece, empty=b""):
        program.writes(program.whole, "file")
        program.writes(program.sample.answer + program.sample.piece_end, "more")
        program.writes(program.sample.nothing, "empty")
        program.writes(program.whole, os.path.abspath("file"))
        descriptor = os.open("/", os.O_RDONLY)
        program.writes(program.whole, "file", stdin=descriptor)
        os.close(descriptor)


def closed_input(program):
    """Standard input is closed: a file can be read all the same, standard input cannot."""
    with folder(file=program.sample.given):
        program.writes(program.whole, "file", stdin=None, preexec_fn=lambda: os.close(0))
        program.fails(b"", "cannot read standard input: Bad file descriptor", *program.standard, stdin=None,
                      preexec_fn=lambda: os.close(0))


def dash(program):
    """`-` is standard input from where it stands, and so is no file at all, where that is read without one; `./-` is a file."""
    given = program.sample.given
    program.writes(program.whole, "-", input=given)
    program.writes(program.whole, *program.standard, input=given)
    program.writes(program.sample.nothing, "-", input=b"")
    with folder(**{"-": given, "twice": given * 2}):
        program.writes(program.whole, "./-")
        program.writes(program.sample.nothing, "-", input=b"")
        for arguments in (program.standard, ("-",)):
            with open("twice", "rb", buffering=0) as file:
                file.seek(len(given))
                program.writes(program.whole, *arguments, stdin=file)


def missing_file(program):
    with folder(file=program.sample.given):
        program.fails(b"", f"cannot open 'x.log': {MISSING}", "x.log")
        program.fails(b"", f"cannot open 'no/x.log': {MISSING}", "no/x.log")
        program.fails(b"", "cannot open 'file/x.log': Not a directory", "file/x.log")


def folder_as_file(program):
    """It can be opened and not be read. So it is with a file of the system that gives an error, and with standard input."""
    with folder():
        os.mkdir("logs")
        program.fails(b"", f"cannot read 'logs': {FOLDER}", "logs")
        program.fails(b"", f"cannot read '/': {FOLDER}", "/")
        program.fails(b"", "cannot read '/proc/self/mem': Input/output error", "/proc/self/mem")
        descriptor = os.open("logs", os.O_RDONLY)
        program.fails(b"", f"cannot read standard input: {FOLDER}", "-", stdin=descriptor)
        program.fails(b"", f"cannot read standard input: {FOLDER}", *program.standard, stdin=descriptor)
        os.close(descriptor)


def as_others():
    """Root may read every file: it gives that up, CAP_DAC_OVERRIDE and CAP_DAC_READ_SEARCH, for the program that is started next."""
    if os.geteuid() == 0:
        for capability in (1, 2):
            ctypes.CDLL(None).prctl(24, capability, 0, 0, 0)  # PR_CAPBSET_DROP


def unreadable_file(program):
    """One that nobody has leave to read. Where root cannot give its leave up there is no such file, and a folder stands for it."""
    with folder(file=program.sample.given):
        os.chmod("file", 0)
        tried = subprocess.run(["cat", "file"], preexec_fn=as_others, capture_output=True, check=False)
        if tried.returncode != 0:
            program.fails(b"", "cannot open 'file': Permission denied", "file", preexec_fn=as_others)
        else:
            program.fails(b"", f"cannot read '.': {FOLDER}", ".")


# ---- names

NAMES = [b"two  words", b" ", b" x ", "Krängung – 傾.log".encode(), b"\xff\x80\xc3", b"it's", b"'", b'"', b"%s%n%d", b"\\n", b"*", b"~",
         b"$HOME", b"a\nb", b"\x01\x1b[7m\x7f", b"=", b"x" * 255]


def odd_names(program):
    """Every byte of a name is taken and told as it is. One that is not UTF-8 is told by a Rattle program, and not opened."""
    for name in NAMES:
        with folder():
            why = MISSING if program.can_open(name) else NO_TEXT
            program.fails(b"", b"cannot open '%s': %s" % (name, why.encode()), name)
            store(name, program.sample.given)
            if program.can_open(name):
                program.writes(program.whole, name)
            else:
                program.fails(b"", b"cannot open '%s': %s" % (name, NO_TEXT.encode()), name)


def empty_name(program):
    program.fails(b"", f"cannot open '': {MISSING}", "")


def name_of(length, file):
    """The name of a file in this folder, of so many bytes."""
    return "." + "/" * (length - 1 - len(file)) + file


def long_name(program):
    """A name has at most 4,095 bytes, and a part of it between slashes 255; 4,096 bytes of it are told."""
    with folder(file=program.sample.given):
        for length in (4094, 4095):
            program.writes(program.whole, name_of(length, "file"))
            name = name_of(length, "none")
            program.fails(b"", f"cannot open '{name}': {MISSING}", name)
        for length in (4096, 4097, 5000, 100000):
            name = name_of(length, "file")
            program.fails(b"", f"cannot open '{name[:4096]}': File name too long", name)
        program.fails(b"", f"cannot open '{'x' * 256}': File name too long", "x" * 256)
        program.fails(b"", f"cannot open '{'é' * 2048}': File name too long", "é" * 2500)


# ---- wrong calls

def too_many(program):
    """The first argument behind the one file is told, and the file is not looked at."""
    with folder(a=program.sample.given, b=program.sample.given):
        program.wrong("one argument too many: 'b'", "a", "b")
        program.wrong("one argument too many: 'b'", "a", "b", "c")
        program.wrong("one argument too many: 'b'", "missing", "b")
        program.wrong("one argument too many: 'b'", "-", "b")
        program.wrong("one argument too many: '-'", "a", "-")
        program.wrong("one argument too many: '-'", "-", "-")
        program.wrong("one argument too many: ''", "a", "")
        program.wrong("one argument too many: 'b'", "a", "b", "--frob")


def unknown_option(program):
    """Before a file and behind one: nothing is read or written."""
    with folder(a=program.sample.given):
        for arguments in (("--frob",), ("--frob", "a"), ("a", "--frob"), ("-", "--frob")):
            program.wrong("there is no option '--frob'", *arguments)


def options(program):
    """What begins with `-` and has more characters is one, also where there is a file of that name. The first that is wrong is told."""
    words = ["-x", "--", "---", "-1", "--frob=a", "- ", "-\n", "-\udcff", "-h", "--version"]
    with folder(**{"a": program.sample.given, "-x": program.sample.given}):
        for option in words + ([] if program.by_run else ["--help"]):  # run has a --help of its own
            program.wrong(f"there is no option '{option}'", option)
        for arguments in (("missing", "--frob"), ("", "--frob"), ("--frob", "-x"), ("--frob", "a", "b"), ("a", "--frob", "b")):
            program.wrong("there is no option '--frob'", *arguments)
        program.writes(program.whole, "./-x")


def long_argument(program):
    """Of an option, too, 4,096 bytes are told, and of an argument too many."""
    option = "-" + "x" * 4999
    program.wrong(f"there is no option '{option[:4096]}'", option)
    program.wrong(f"there is no option '{option[:4096]}'", option[:4096])
    if program.sample.most:
        program.wrong(f"one argument too many: '{'y' * 4096}'", "x", "y" * 5000)


# ---- where somebody waits

def fifo(program):
    """A FIFO is answered like a pipe, before more is sent."""
    given, answer, _, piece, piece_end = program.sample[:5]
    with folder(), untouched() as standard_input:
        os.mkfifo("fifo")
        with program.talk("fifo", stdin=standard_input) as talk:
            talk.input = open_fifo("fifo", talk)
            talk.send(given)
            same(talk.bytes(len(answer)), answer, "the answer")
            talk.send(piece)
            same(talk.end(), piece_end, "the rest")


@contextlib.contextmanager
def terminal_line():
    """The two ends of a line: what is typed, and what is read of it, unaltered and up to each end of input."""
    typed, line = pty.openpty()
    tty.setraw(line)
    mode = termios.tcgetattr(line)
    mode[3] |= termios.ICANON
    mode[6] = [b"\0"] * len(mode[6])  # no character has a meaning
    mode[6][termios.VEOF] = END_OF_INPUT
    termios.tcsetattr(line, termios.TCSANOW, mode)
    with open(typed, "wb", buffering=0) as keys:
        yield keys, line


def terminal(program):
    """Each answer comes at once, and one end is enough, also behind a last piece that is cut short: nothing more is waited for."""
    given, answer, end, piece, piece_end = program.sample[:5]
    for last, want in ((b"", end), (piece + END_OF_INPUT, piece_end)):
        for arguments in (program.standard, ("-",)):
            with terminal_line() as (keys, line):
                with program.talk(*arguments, stdin=line) as talk:
                    os.close(line)
                    talk.input = keys
                    talk.send(given + END_OF_INPUT)
                    same(talk.bytes(len(answer)), answer, "the answer")
                    talk.send(last + END_OF_INPUT)
                    same(talk.rest(), want, "the rest")


def broken_off(program):
    """Input that fails behind its first bytes, as a line does that is hung up: what was answered before is written."""
    for sent in program.sample.unfinished():
        line, other = pty.openpty()
        tty.setraw(other)
        os.write(other, sent)
        os.close(other)
        program.fails(program.sample.answer, "cannot read standard input: Input/output error", *program.standard, stdin=line)
        os.close(line)


def connection_reset(program):
    """A read that fails once, and after which the next one gives an end: it is no end, and what came before is not the whole."""
    for sent in program.sample.unfinished():
        with socket.create_server(("127.0.0.1", 0)) as server:
            line = socket.create_connection(server.getsockname())
            other, _ = server.accept()
        other.sendall(sent)
        breaker = threading.Thread(target=reset_when_read, args=(other, line))
        breaker.start()
        program.fails(program.sample.answer, "cannot read standard input: Connection reset by peer", *program.standard, stdin=line)
        breaker.join()
        line.close()


def reset_when_read(other, line):
    """The other end breaks the connection off when all that it has sent is read."""
    while waiting_bytes(line):
        time.sleep(0.01)
    time.sleep(0.2)  # the program waits for more
    other.setsockopt(socket.SOL_SOCKET, socket.SO_LINGER, struct.pack("ii", 1, 0))
    other.close()


def output_fails(program):
    """Output that is full, closed, or that nobody reads any more: a message, and no signal."""
    with folder(file=program.sample.given):
        with open("/dev/full", "wb") as full:
            done = program.call(["file"], stdout=full)
        cases = [("No space left on device", done)]
        reader, writer = os.pipe()
        os.close(reader)
        # a Rattle program cannot see to it that the signal is ignored: `run` does, for it
        ignored = not (program.independent or program.by_run)
        cases.append(("Broken pipe", program.call(["file"], stdout=writer, restore_signals=not ignored)))
        os.close(writer)
        cases.append(("Bad file descriptor", program.call(["file"], stdout=None, preexec_fn=lambda: os.close(1))))
    for reason, done in cases:
        status = 1 if program.independent or program.by_run else 0
        program.ended(done, status, None, [f"cannot write standard output: {reason}"], reason)


def endless_file(program):
    """No more is read than one byte more than a log or a program has."""
    program.too_long("/dev/zero")


# ---- several files, for durations; those of totals stand in totals_streams.py

def several_files(program):
    """A last piece is its file's, the next file begins with a whole program, and the total is over all."""
    with folder(a=ONE + FIVE, b=FIVE[:17], c=REFUSED + ONE + FIVE[:1599], d=FIVE, first=FIVE[:800], second=FIVE[800:], most=LONGEST * 5):
        program.writes(b"1\n5\nE030\nE040\n1\nE030\n5\n12\n", "a", "b", "c", "d")
        program.writes(b"5\nE040\n1\nE030\nE030\n1\n5\n12\n", "d", "c", "b", "a")
        program.writes(b"E030\nE030\n0\n", "first", "second")
        program.writes(b"5\n5\n5\n15\n", "d", "d", "d")
        program.writes(b"9999999999\n" * 10 + b"99999999990\n", "most", "most")
        program.writes(b"9999999999\n" * 10 + b"1\n5\nE043\n", "most", "most", "a")


def empty_files(program):
    with folder(a=ONE, empty=b""):
        program.writes(b"1\n1\n2\n", "a", "empty", "a")
        program.writes(b"1\n1\n", "empty", "a", "empty", "empty")
        program.writes(b"0\n", "empty", "empty")


def dash_among(program):
    """Standard input in its turn; the second `-` finds it at its end."""
    with folder(a=ONE, b=FIVE):
        with open("b", "rb") as file:
            program.writes(b"5\n1\n6\n", "-", "-", "a", "-", stdin=file)
        program.writes(b"1\n9999999999\nE030\n5\n10000000005\n", "a", "-", "b", input=LONGEST + ONE[:9])
        program.writes(b"5\nE030\n5\n", "-", "-", input=FIVE + ONE[:9])
        program.writes(b"5\n1\n6\n", "-", "a", "-", input=FIVE)
        # where it is closed, a file that is opened before it gets its descriptor, and must not be taken for it afterwards
        program.fails(b"1\n", "cannot read standard input: Bad file descriptor", "a", "-", stdin=None, preexec_fn=lambda: os.close(0))


def failure_among(program):
    """A file that is missing or cannot be read ends it: what was found before is written, and no total."""
    with folder(a=ONE + FIVE, b=FIVE + ONE[:9]):
        os.mkdir("logs")
        for message, name in ((f"cannot open 'missing': {MISSING}", "missing"), (f"cannot read 'logs': {FOLDER}", "logs")):
            program.fails(b"1\n5\n", message, "a", name, "b")
            program.fails(b"5\nE030\n1\n5\n", message, "b", "a", name)
            program.fails(b"", message, name, "a")
            program.fails(b"5\nE030\n", message, "-", name, "a", input=FIVE + ONE[:9])
        if not program.by_run:  # what was found goes out before the message
            done = program.call(["a", "missing"], stderr=subprocess.STDOUT)
            same(done.stdout, b"1\n5\n" + program.lines([f"cannot open 'missing': {MISSING}"]), "all into one pipe")


def many_files(program):
    """2,000 files, of which no more than 64 can be open at a time."""
    with folder(a=ONE, b=FIVE[:17]):
        program.writes(b"1\nE030\n" * 1000 + b"1000\n", *["a", "b"] * 1000,
                       preexec_fn=lambda: resource.setrlimit(resource.RLIMIT_NOFILE, (64, 64)))


def opened_in_turn(program):
    """A file is opened when its turn comes, and not before: here it is made meanwhile."""
    with folder(), untouched() as standard_input:
        os.mkfifo("fifo")
        with program.talk("fifo", "later", stdin=standard_input) as talk:
            talk.input = open_fifo("fifo", talk)
            talk.send(FIVE)
            same(talk.lines(1), b"5\n", "the answer")
            store("later", ONE)
            same(talk.end(), b"1\n6\n", "the rest")


def fifo_behind_file(program):
    """The answers to a file come before the next one is waited for: to open a FIFO is to wait until somebody writes to it."""
    with folder(a=ONE), untouched() as standard_input:
        os.mkfifo("fifo")
        with program.talk("a", "fifo", stdin=standard_input) as talk:
            same(talk.lines(1), b"1\n", "the answers to a file")
            talk.input = open_fifo("fifo", talk)
            talk.send(FIVE)
            same(talk.end(), b"5\n6\n", "the rest")


ALL = [named_file, closed_input, dash, missing_file, folder_as_file, unreadable_file, odd_names, empty_name, long_name, unknown_option,
       options, long_argument, fifo, terminal, broken_off, connection_reset, output_fails]
LIMITED = [endless_file]
ONE_FILE = [too_many]
SEVERAL_FILES = [several_files, empty_files, dash_among, failure_among, many_files, opened_in_turn, fifo_behind_file]
