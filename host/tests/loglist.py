#!/usr/bin/env python3
"""Stored cases of the log list: logs, and the text that each must get.

    loglist.py --list                     names the cases
    loglist.py PROGRAM [CASE...]          each case, or those named, on the standard input of a program
    loglist.py --model [CASE...]          the same on model/loglist.py
    loglist.py --streams                  names the cases of input and output as streams
    loglist.py --streams CASE COMMAND...  one of them, on a program that is run by these words
    loglist.py --speed PROGRAM PROGRAM    the time of two programs on the longest log, in turns

Status 0 if all pass. The texts stand beside the logs in loglist_cases.py, loglist_marks.py and loglist_older.py, worked out by hand from
the requests; none was taken from a reader. Those of long logs are a line written by hand and repeated, its tick counted.
"""
import os
import statistics
import subprocess
import sys
import time

import loglist_marks
import loglist_older
from loglist_cases import CASES as PRESENT
from loglist_cases import LONGEST, ONE, ONE_LINE
from loglist_records import changes, gap, lines
from programs import TOP, equal, of_program, said_last, shown

CASES = PRESENT + loglist_marks.CASES + loglist_older.CASES


# ---- running a case

def of_model():
    sys.path.insert(0, os.path.join(TOP, "model"))
    sys.dont_write_bytecode = True
    import loglist  # found in model/ first
    return loglist.listing


def run(reader, names):
    """The number of cases that differ. Each is told."""
    unknown = set(names) - {name for name, _, _ in CASES}
    if unknown:
        sys.exit(f"loglist.py: there is no case {', '.join(sorted(unknown))}")
    differ = done = 0
    for name, log, want in CASES:
        if names and name not in names:
            continue
        got, done = reader(log), done + 1
        if got != want.encode():
            differ += 1
            print(f"{name}: {shown(got)}, not {shown(want.encode())}")
    print(f"{done} cases, {differ} differ")
    return differ


# ---- input and output as streams: each case is given the words of a command

def works(command):
    """A log is listed: what fails in the cases below fails for want of input or output alone."""
    done = subprocess.run(command, input=ONE, stdout=subprocess.PIPE, stderr=subprocess.DEVNULL, check=False, timeout=300)
    equal((done.returncode, done.stdout), (0, ONE_LINE.encode()), "status and output of a log that can be read and written")


def fails(command, what, message, **streams):
    """The command ends with status 1, and the last line that it says on standard error is the message. What it does."""
    works(command)
    done = subprocess.run(command, stderr=subprocess.PIPE, check=False, timeout=300, **streams)
    equal(done.returncode, 1, f"{what}: status")
    said_last(command, done.stderr, message, what)
    return done


def unreadable_input(command):
    """A folder: a message, no output."""
    folder = os.open("/", os.O_RDONLY)
    done = fails(command, "a folder as input", "cannot read standard input: Is a directory", stdin=folder, stdout=subprocess.PIPE)
    os.close(folder)
    equal(done.stdout, b"", "output")


def closed_output(command):
    fails(command, "output closed", "cannot write standard output: Bad file descriptor", input=ONE, preexec_fn=lambda: os.close(1))


def full_output(command):
    with open("/dev/full", "wb") as full:
        fails(command, "output full", "cannot write standard output: No space left on device", input=LONGEST, stdout=full)


def reader_gone(command):
    """A pipe that nobody reads any more: a write that fails, and no signal."""
    reader, writer = os.pipe()
    os.close(reader)
    fails(command, "the reader has gone", "cannot write standard output: Broken pipe", input=LONGEST, stdout=writer)
    os.close(writer)


def small_pieces(command):
    """Each read gets one byte: a pipe of packets gives no more than one write at a time."""
    reader, writer = os.pipe2(os.O_DIRECT)
    with subprocess.Popen(command, stdin=reader, stdout=subprocess.PIPE) as process:
        os.close(reader)
        log = changes(100) + gap(100, 1, 1)
        for at in range(len(log)):
            os.write(writer, log[at:at + 1])
        os.close(writer)
        equal(process.stdout.read().decode(), lines(100) + "100 2 0 00000001 00000001\n", "the text of a log in single bytes")
    equal(process.returncode, 0, "status")


def endless_input(command):
    """It is not read to an end that it does not have."""
    with subprocess.Popen(["yes"], stdout=subprocess.PIPE) as endless:
        done = subprocess.run(command, stdin=endless.stdout, stdout=subprocess.PIPE, check=False, timeout=300)
        endless.kill()
    equal((done.returncode, done.stdout), (0, b"E056\n"), "status and output")


STREAMS = [unreadable_input, closed_output, full_output, reader_gone, small_pieces, endless_input]


def stream(name, command):
    try:
        {case.__name__: case for case in STREAMS}[name](command)
    except AssertionError as error:
        sys.exit(f"{name}: {error}")


# ---- time

def seconds(program):
    """Without a limit: with one Python looks for the end after 0.5, 1.5, 3.5, 7.5 ms and so on, and tells such a time."""
    before = time.perf_counter()
    subprocess.run([program], input=LONGEST, stdout=subprocess.DEVNULL, check=True)
    return time.perf_counter() - before


def speed(one, other):
    """The median of 41 runs of each in turns, on the longest log."""
    runs = [(seconds(one), seconds(other)) for _ in range(41)]
    first, second = (statistics.median(column) for column in zip(*runs))
    print(f"{1000 * first:.1f} ms and {1000 * second:.1f} ms: {first / second:.2f}")


def main(words):
    if words == ["--list"]:
        print("\n".join(name for name, _, _ in CASES))
    elif words == ["--streams"]:
        print("\n".join(case.__name__ for case in STREAMS))
    elif len(words) > 2 and words[0] == "--streams":
        stream(words[1], words[2:])
    elif len(words) == 3 and words[0] == "--speed":
        speed(words[1], words[2])
    elif words and words[0] not in ("--streams", "--speed"):
        return run(of_model() if words[0] == "--model" else of_program(words[0]), words[1:]) != 0
    else:
        sys.exit(__doc__)
    return 0


if __name__ == "__main__":
    sys.exit(main(sys.argv[1:]))
