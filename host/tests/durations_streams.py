"""Input and output of the durations as streams: each case is given the words of a command."""
import fcntl
import itertools
import os
import subprocess
import tempfile
import termios
import threading
import time

from durations_cases import FIVE, LONGEST, ONE, REFUSED
from programs import SECONDS, Talk, constant, equal, peaks, said_last


def works(command):
    """A program is answered: what fails in the cases below fails for want of input or output alone."""
    done = subprocess.run(command, input=FIVE, stdout=subprocess.PIPE, stderr=subprocess.DEVNULL, check=False, timeout=SECONDS)
    equal((done.returncode, done.stdout), (0, b"5\n5\n"), "status and output of a program that can be read and answered")


def fails(command, what, message, **streams):
    """The command ends with status 1, and the last line that it says on standard error is the message. What it does."""
    works(command)
    done = subprocess.run(command, stderr=subprocess.PIPE, check=False, timeout=SECONDS, **streams)
    equal(done.returncode, 1, f"{what}: status")
    said_last(command, done.stderr, message, what)
    return done


# ---- the cases

def empty_input(command):
    done = subprocess.run(command, stdin=subprocess.DEVNULL, stdout=subprocess.PIPE, check=False, timeout=SECONDS)
    equal((done.returncode, done.stdout), (0, b"0\n"), "status and output")


def answers_at_once(command):
    """Each line comes before more input does, and the total when the input ends."""
    with Talk(command) as talk:
        total = 0
        for sent, line, ticks in ((ONE, b"1\n", 1), (REFUSED, b"E040\n", 0), (FIVE, b"5\n", 5), (LONGEST, b"9999999999\n", 9999999999)):
            talk.send(sent)
            equal(talk.lines(1), line, "the answer to one program")
            total += ticks
        talk.send(ONE + FIVE + ONE[:1599])
        equal(talk.lines(2), b"1\n5\n", "the answers to two programs and a piece")
        talk.send(ONE[1599:] + FIVE[:1])
        equal(talk.lines(1), b"1\n", "the answer to a program in two pieces")
        equal(talk.end(), b"E030\n%d\n" % (total + 7), "the answer to a broken piece, and the total")


def total_at_once(command):
    """The input ends behind a whole program that was answered: the total, and nothing else."""
    with Talk(command) as talk:
        talk.send(FIVE)
        equal(talk.lines(1), b"5\n", "the answer to one program")
        equal(talk.end(), b"5\n", "the total")


def odd_pieces(command):
    """Each read gets a piece of another size, none the size of a program for long."""
    programs, text = (ONE + FIVE + REFUSED + LONGEST) * 9 + FIVE[:17], b"1\n5\nE040\n9999999999\n" * 9 + b"E030\n90000000045\n"
    sizes = (1599, 1, 1600, 1601, 3, 1596, 1599, 1601, 799, 801, 3200, 4096, 5, 3199, 12345)
    in_pieces(command, programs, sizes, text)


def single_bytes(command):
    in_pieces(command, FIVE + REFUSED + ONE + b"S", (1,), b"5\nE040\n1\nE030\n6\n")


def in_pieces(command, programs, sizes, text):
    """A piece is sent when the one before it has been taken out of the pipe, so no read gets parts of two."""
    with Talk(command) as talk:
        pipe, at, end = talk.process.stdin, 0, time.monotonic() + SECONDS
        for size in itertools.cycle(sizes):
            if at >= len(programs):
                break
            talk.send(programs[at:at + size])
            at += size
            while fcntl.ioctl(pipe, termios.FIONREAD, bytes(4)) != bytes(4):
                if time.monotonic() > end or talk.process.poll() is not None:
                    raise AssertionError(f"of {at} bytes not all were read")
                time.sleep(0)
        equal(talk.end(), text, "the text")


def constant_memory(command):
    """20,000 programs, 32 MB, and their lines take no more memory than the first 100 did."""
    programs, text = LONGEST * 98 + ONE + REFUSED, b"9999999999\n" * 98 + b"1\nE040\n"
    with Talk(command) as talk:
        for n in range(200):
            talk.send(programs)
            equal(talk.lines(100), text, "the answers to 100 programs")
            if n == 0:
                time.sleep(1)  # what the command starts beside the program has started then
                first = peaks(talk.process.pid)
        last = peaks(talk.process.pid)
        equal(talk.end(), b"E043\n", "the total")
    constant(first, last, "from 100 programs to 20,000")


def large_file(command):
    """20,000 programs in a file, where nobody waits: the lines come in blocks, ten and more to a write."""
    reader, writer = os.pipe2(os.O_DIRECT)
    packets = []
    with tempfile.TemporaryFile() as file:
        for _ in range(200):
            file.write((ONE + FIVE) * 50)
        file.seek(0)
        with subprocess.Popen(command, stdin=file, stdout=writer) as process:
            os.close(writer)
            while packet := os.read(reader, 65536):
                packets.append(packet)
    os.close(reader)
    equal(process.returncode, 0, "status")
    equal(b"".join(packets) == b"1\n5\n" * 10000 + b"60000\n", True, "the text of 20,000 programs is right")
    if len(packets) > 2000:
        raise AssertionError(f"{len(packets)} writes for 20,001 lines")


def unreadable_input(command):
    """A folder: a message, no output."""
    folder = os.open("/", os.O_RDONLY)
    done = fails(command, "a folder as input", "cannot read standard input: Is a directory", stdin=folder, stdout=subprocess.PIPE)
    os.close(folder)
    equal(done.stdout, b"", "output")


def closed_output(command):
    fails(command, "output closed", "cannot write standard output: Bad file descriptor", input=ONE, preexec_fn=lambda: os.close(1))


def full_output(command):
    with open("/dev/full", "wb") as full:
        fails(command, "output full", "cannot write standard output: No space left on device", input=LONGEST * 1000, stdout=full)


def reader_gone(command):
    """A pipe that nobody reads any more: a write that fails, and no signal."""
    reader, writer = os.pipe()
    os.close(reader)
    fails(command, "the reader has gone", "cannot write standard output: Broken pipe", input=LONGEST * 1000, stdout=writer)
    os.close(writer)


def reader_leaves(command):
    """The reader goes between two programs: the answer to the second cannot be written, and the end of the input is not waited for."""
    with Talk(command, stderr=subprocess.PIPE) as talk:
        said = []
        listener = threading.Thread(target=lambda: said.append(talk.process.stderr.read()), daemon=True)
        listener.start()
        talk.send(FIVE)
        equal(talk.lines(1), b"5\n", "the answer to one program")
        talk.process.stdout.close()
        talk.send(FIVE)
        try:
            equal(talk.process.wait(SECONDS), 1, "status")
        except subprocess.TimeoutExpired:
            raise AssertionError("it waits for more input") from None
        listener.join()
        said_last(command, b"".join(said), "cannot write standard output: Broken pipe", "the reader leaves")


STREAMS = [empty_input, answers_at_once, total_at_once, odd_pieces, single_bytes, constant_memory, large_file, unreadable_input,
           closed_output, full_output, reader_gone, reader_leaves]


def stream(name, command):
    try:
        {case.__name__: case for case in STREAMS}[name](command)
    except AssertionError as error:
        raise SystemExit(f"{name}: {error}") from None
