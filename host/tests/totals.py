#!/usr/bin/env python3
"""Stored cases of the totals: logs, and the numbers or the messages that they must get.

    totals.py --list                      names the cases
    totals.py PROGRAM [CASE...]           each case, or those named, as files that a program is given
    totals.py --model [CASE...]           the same on model/totals.py
    totals.py --stored FOLDER             writes args, stdin, stdout and data/ of the program `totals` to a new folder
    totals.py --streams                   names the cases of arguments, input and output
    totals.py --streams CASE COMMAND...   one of them, on a program that is run by these words
    totals.py --speed PROGRAM PROGRAM     the time of two programs on 1,000 full logs, in turns; status 1 where the first takes more than
                                          1.2 times as long as the second

Status 0 if all pass. The cases stand in totals_cases.py, those of arguments, input and output in totals_streams.py, and the logs of the
speed in totals_speed.py.
"""
import os
import subprocess
import sys
import tempfile

from programs import TOP, shown
from totals_cases import CASES, STORED, STORED_CHANNELS, STORED_UNKNOWN, text
from totals_speed import speed
from totals_streams import STREAMS, stream


def of_model():
    sys.path.insert(0, os.path.join(TOP, "model"))
    sys.dont_write_bytecode = True
    import totals  # found in model/ first
    return lambda logs: totals.said((f"'{n}.log'", log) for n, log in enumerate(logs, 1))


def of_program(program):
    """A function from logs to what a program writes and says when it is given them as 1.log, 2.log and so on. An independent program puts
    its name before each line, and has the status 1 where it says anything; a proved one has none of its own."""
    program = os.path.abspath(program)
    name = os.path.basename(program)
    independent = name.endswith("-independent")

    def said(logs):
        with tempfile.TemporaryDirectory() as folder:
            names = [f"{n}.log" for n in range(1, len(logs) + 1)]
            for file_name, log in zip(names, logs):
                store(os.path.join(folder, file_name), log)
            done = subprocess.run([program, *names], cwd=folder, stdin=subprocess.DEVNULL, capture_output=True, check=False, timeout=60)
        lines = done.stderr.decode(errors="backslashreplace").splitlines()
        if done.returncode != (1 if independent and lines else 0):
            lines.append(f"status {done.returncode}")
        return done.stdout, [line.removeprefix(f"{name}: ") if independent else line for line in lines]
    return said


def run(reader, names):
    """The number of cases that differ. Each is told."""
    unknown = set(names) - {name for name, _, _, _ in CASES}
    if unknown:
        sys.exit(f"totals.py: there is no case {', '.join(sorted(unknown))}")
    differ = done = 0
    for name, logs, want, messages in CASES:
        if names and name not in names:
            continue
        got, done = reader(logs), done + 1
        if got != (want.encode(), messages):
            differ += 1
            print(f"{name}: {first_difference(got[0], want.encode())}, {got[1]}, not {messages}")
    print(f"{done} cases, {differ} differ")
    return differ


def first_difference(got, want):
    """Of totals the line in which they differ first; else what was written."""
    for one, other in zip(got.splitlines(), want.splitlines()):
        if one != other:
            return f"{shown(one)}, not {shown(other)}"
    return f"{shown(got)}, not {shown(want)}" if got != want else "the output is right"


def store(path, content):
    with open(path, "wb") as file:
        file.write(content)


def store_all(folder):
    """The files with which the gate runs the program: args, stdin and stdout, and those that are named in data/."""
    os.makedirs(os.path.join(folder, "data"))
    store(os.path.join(folder, "args"), "".join(f"{name}\n" for name in STORED).encode())
    store(os.path.join(folder, "stdout"), text(STORED_CHANNELS, STORED_UNKNOWN).encode())
    for name, log in STORED.items():
        store(os.path.join(folder, "stdin" if name == "-" else f"data/{name}"), log)


def main(words):
    if words == ["--list"]:
        print("\n".join(name for name, _, _, _ in CASES))
    elif words == ["--streams"]:
        print("\n".join(case.__name__ for case in STREAMS))
    elif len(words) > 2 and words[0] == "--streams":
        stream(words[1], words[2:])
    elif len(words) == 2 and words[0] == "--stored":
        store_all(words[1])
    elif len(words) == 3 and words[0] == "--speed":
        return speed(words[1], words[2])
    elif words and words[0] not in ("--streams", "--stored", "--speed"):
        return run(of_model() if words[0] == "--model" else of_program(words[0]), words[1:]) != 0
    else:
        sys.exit(__doc__)
    return 0


if __name__ == "__main__":
    sys.exit(main(sys.argv[1:]))
