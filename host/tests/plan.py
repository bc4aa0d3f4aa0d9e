#!/usr/bin/env python3
"""Stored cases of plans: texts, and the bytes, the table or the messages that each must get.

    plan.py --list                      names the cases
    plan.py PROGRAM [CASE...]           each case, or those named, on the standard input of a program
    plan.py --model [CASE...]           the same on model/plan.py
    plan.py --stored INPUT OUTPUT       writes the stored input of the program `plan`, and its output
    plan.py --streams                   names the cases of arguments, input and output
    plan.py --streams CASE COMMAND...   one of them, on a program that is run by these words

Status 0 if all pass. The cases stand in plan_cases.py, those of arguments, input and output in plan_streams.py.
"""
import os
import subprocess
import sys

from plan_cases import CASES, STORED, STORED_LINES, encoded
from plan_cases import program as stored_program
from plan_streams import STREAMS, stream
from programs import TOP, shown


def of_model():
    sys.path.insert(0, os.path.join(TOP, "model"))
    sys.dont_write_bytecode = True
    import plan  # found in model/ first
    return lambda given, *words: plan.said(given, words == ("--check",))


def of_program(program):
    """A function from input and arguments to what a program writes and says. An independent program puts its name before each line, and
    has the status 1 where it says anything; a proved one has none of its own."""
    name = os.path.basename(program)
    independent = name.endswith("-independent")

    def said(given, *arguments):
        done = subprocess.run([program, *arguments], input=given, capture_output=True, check=False, timeout=60)
        lines = done.stderr.decode(errors="backslashreplace").splitlines()
        if done.returncode != (1 if independent and lines else 0):
            lines.append(f"status {done.returncode}")
        return done.stdout, [line.removeprefix(f"{name}: ") if independent else line for line in lines]
    return said


def run(reader, names):
    """The number of cases that differ. Each is told."""
    unknown = set(names) - {name for name, _, _, _, _ in CASES}
    if unknown:
        sys.exit(f"plan.py: there is no case {', '.join(sorted(unknown))}")
    differ = done = 0
    for name, given, words, text, messages in CASES:
        if names and name not in names:
            continue
        got, done = reader(given, *words), done + 1
        if got != (text, messages):
            differ += 1
            print(f"{name}: {first_difference(got[0], text)}, {got[1]}, not {messages}")
    print(f"{done} cases, {differ} differ")
    return differ


def first_difference(got, want):
    """Of programs the line in which they differ first; else what was written."""
    if len(got) == len(want) == 1600:
        for number in range(200):
            lines = [text[8 * number:8 * number + 8].hex().upper() for text in (got, want)]
            if lines[0] != lines[1]:
                return f"line {number:03d} is {lines[0]}, not {lines[1]}"
    return f"{shown(got)}, not {shown(want)}" if got != want else "the output is right"


def store(*paths):
    for path, content in zip(paths, (encoded(STORED), stored_program(STORED_LINES))):
        with open(path, "wb") as file:
            file.write(content)


def main(words):
    if words == ["--list"]:
        print("\n".join(name for name, _, _, _, _ in CASES))
    elif words == ["--streams"]:
        print("\n".join(case.__name__ for case in STREAMS))
    elif len(words) > 2 and words[0] == "--streams":
        stream(words[1], words[2:])
    elif len(words) == 3 and words[0] == "--stored":
        store(*words[1:])
    elif words and words[0] not in ("--streams", "--stored"):
        return run(of_model() if words[0] == "--model" else of_program(words[0]), words[1:]) != 0
    else:
        sys.exit(__doc__)
    return 0


if __name__ == "__main__":
    sys.exit(main(sys.argv[1:]))
