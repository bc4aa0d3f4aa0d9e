#!/usr/bin/env python3
"""Zeros into a program, into plan lines of comment, through a pipe and as a file that is named: time and peak memory.

    large.py [BYTES] NAME COMMAND...     so many bytes, or 1,000,000,000
    large.py --constant NAME COMMAND...  32,000,000; status 1 where they take more memory than the first 65,536 (of explain, 1,600)

NAME is bench, corners, trials, loglist, durations, explain, plan or totals, or that with -independent behind it; what it writes is compared
with what it must. COMMAND is the program, or a script that runs it, or run with the name of the program. A file of zeros has no blocks on the
disk.

The peak is the VmHWM of Linux, which is the program's own; that of wait4 counts what the caller had before, too. On a pipe it is looked at
when all bytes are taken and the pipe is still open. On a file it is looked at every millisecond, so that the last one is missed.
"""
import fcntl
import os
import subprocess
import sys
import tempfile
import termios
import threading
import time

from programs import SLACK, constant, peaks, shown
from shell_program import SAMPLES

FIRST = 65536  # the longest log
PROGRAM = 1600  # bytes of one, for durations: of zeros it has no end
SECONDS = 600
FILE_SLACK = SLACK + 1024  # kB that another run may take more; the bytes are some 31,000
ZERO = b"\0"


def sample_of(name):
    return SAMPLES[name.removesuffix("-independent")]


def first_of(name):
    """The number of the first bytes: one that takes no more than so many waits for its last one, and then ends."""
    takes = sample_of(name).takes
    return takes - 1 if takes else FIRST


def text_of(name, count):
    """What a program writes for so many bytes."""
    if name.removesuffix("-independent") == "durations":
        return b"E042\n" * (count // PROGRAM) + (b"E030\n" if count % PROGRAM else b"") + b"0\n"
    return sample_of(name).endless


def status_of(name, command):
    """1 where it says something of so many bytes, but for a Rattle program, which has no status of its own."""
    by_itself = not name.endswith("-independent") and os.path.basename(command[0]) != "run"
    return 1 if sample_of(name).tells and not by_itself else 0


class Run:
    """The program, at work. What it writes is gathered meanwhile."""

    def __init__(self, name, command, standard_input):
        self.status = status_of(name, command)
        self.before = time.perf_counter()
        self.process = subprocess.Popen(command, stdin=standard_input, stdout=subprocess.PIPE)
        self.pieces = []
        self.gatherer = threading.Thread(target=self.gather, daemon=True)
        self.gatherer.start()

    def gather(self):
        while piece := os.read(self.process.stdout.fileno(), 65536):
            self.pieces.append(piece)

    def peaks(self):
        """Nothing where it has ended."""
        try:
            return peaks(self.process.pid)
        except OSError:
            return {}

    def end(self, want):
        """The seconds that it took. Its status is what it must be, and it wrote what it must."""
        status = self.process.wait(SECONDS)
        seconds = time.perf_counter() - self.before
        self.gatherer.join(SECONDS)
        text = b"".join(self.pieces)
        if (status, text) != (self.status, want):
            raise AssertionError(f"status {status}, output {shown(text)}, not {self.status}, {shown(want)}")
        return seconds


def taken(writer, run):
    """Waits until all that is in the pipe has been taken, or the program has ended."""
    end = time.monotonic() + SECONDS
    while run.process.poll() is None and fcntl.ioctl(writer, termios.FIONREAD, bytes(4)) != bytes(4):
        if time.monotonic() > end:
            raise AssertionError(f"the input is not read in {SECONDS} s")
        time.sleep(0.001)
    time.sleep(0.1)  # what was taken last is done with then


def fill(name, count, writer):
    """So many bytes of the program's filling. True where they were all taken, and not the first of them alone."""
    filling = sample_of(name).filling
    command = ["head", "-c", str(count), "/dev/zero"]
    if filling != ZERO:  # a line, cut off where a piece ends: what comes next is still of that comment
        command = ["bash", "-c", 'yes "$1" | head -c "$2"', "fill", filling.decode().rstrip("\n"), str(count)]
    return subprocess.run(command, stdout=writer, stderr=subprocess.DEVNULL, check=False).returncode == 0


def through_a_pipe(name, command, count):
    """The seconds, and the peaks after the first bytes and after the last."""
    reader, writer = os.pipe()
    run = Run(name, [*command, *sample_of(name).standard], reader)
    os.close(reader)
    fill(name, first_of(name), writer)
    taken(writer, run)
    first = run.peaks()
    whole = fill(name, count - first_of(name), writer)
    taken(writer, run)
    last = run.peaks()
    os.close(writer)
    seconds = run.end(text_of(name, count))
    if whole == (sample_of(name).takes > 0):
        raise AssertionError("all was read" if whole else "not all was read")
    return seconds, first, last or first


def as_a_file(name, command, count):
    """The seconds, and the highest peaks that were seen."""
    highest = {}
    with tempfile.NamedTemporaryFile() as file:
        if sample_of(name).filling == ZERO:
            file.truncate(count)
        else:
            fill(name, count, file)
        run = Run(name, [*command, *sample_of(name).words, file.name], subprocess.DEVNULL)
        while run.process.poll() is None:
            for which, most in run.peaks().items():
                highest[which] = max(most, highest.get(which, 0))
            time.sleep(0.001)
        return run.end(text_of(name, count)), highest


def by_program(found):
    """The highest peak of each program."""
    return {program: max(most for which, most in found.items() if which[1] == program) for _, program in found}


def told(found):
    return ", ".join(f"{os.path.basename(program)} {most:,} kB" for program, most in sorted(by_program(found).items())) or "not seen"


def main(words):
    held = words[:1] == ["--constant"]
    count = 32_000_000 if held else 1_000_000_000
    if held:
        words = words[1:]
    elif words and words[0].isdecimal():
        count, words = int(words[0]), words[1:]
    if len(words) < 2 or count <= FIRST:
        sys.exit(__doc__)
    name, command = words[0], words[1:]
    seconds, first, last = through_a_pipe(name, command, count)
    print(f"{name}: {count:,} bytes through a pipe: {seconds:.2f} s; the peak is {told(first)} and at the end {told(last)}")
    named_seconds, highest = as_a_file(name, command, count)
    print(f"{name}: {count:,} bytes as a file: {named_seconds:.2f} s; the peak is {told(highest)}")
    if held:
        constant(first, last, "on a pipe")
        for program, most in by_program(first).items():
            seen = by_program(highest).get(program, 0)
            if seen > most + FILE_SLACK:
                raise AssertionError(f"{program}: the peak is {most} kB on a pipe, and on a file {seen} kB")


if __name__ == "__main__":
    try:
        main(sys.argv[1:])
    except AssertionError as failure:
        sys.exit(f"large.py: {failure}")
