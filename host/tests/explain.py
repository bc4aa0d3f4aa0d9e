#!/usr/bin/env python3
"""Stored cases of the explained stops: programs, each with a start and a limit, and the two lines that it must get.

    explain.py --list                         names the cases
    explain.py PROGRAM [CASE...]              each case, or those named, on the standard input of a program, with START and LIMIT
    explain.py --model [CASE...]              the same on model/explain.py
    explain.py --stored INPUT OUTPUT ARGS     writes the stored input of the program `explain`, its output, and its arguments, one to a line
    explain.py --streams                      names the cases of arguments, input and output
    explain.py --streams CASE COMMAND...      one of them, on a program that is run by these words

Status 0 if all pass. The cases stand in explain_cases.py, those of arguments, input and output in explain_streams.py.
"""
import os
import sys

from explain_cases import CASES, stored
from explain_streams import STREAMS, stream
from programs import TOP, of_program


def of_model():
    sys.path.insert(0, os.path.join(TOP, "model"))
    sys.dont_write_bytecode = True
    import explain  # found in model/ first
    return lambda given, start, limit: explain.text(given, explain.number(start), explain.number(limit))


def run(reader, names):
    """The number of cases that differ. Each is told."""
    unknown = set(names) - {name for name, _, _, _ in CASES}
    if unknown:
        sys.exit(f"explain.py: there is no case {', '.join(sorted(unknown))}")
    differ = done = 0
    for name, given, words, want in CASES:
        if names and name not in names:
            continue
        got, done = reader(given, *words.split()), done + 1
        if got != want.encode():
            differ += 1
            print(f"{name}: {got!r}, not {want.encode()!r}")
    print(f"{done} cases, {differ} differ")
    return differ


def store(*paths):
    given, text, words = stored()
    for path, content in zip(paths, (given, text.encode(), "".join(f"{word}\n" for word in words).encode())):
        with open(path, "wb") as file:
            file.write(content)


def main(words):
    if words == ["--list"]:
        print("\n".join(name for name, _, _, _ in CASES))
    elif words == ["--streams"]:
        print("\n".join(case.__name__ for case in STREAMS))
    elif len(words) > 2 and words[0] == "--streams":
        stream(words[1], words[2:])
    elif len(words) == 4 and words[0] == "--stored":
        store(*words[1:])
    elif words and words[0] not in ("--streams", "--stored"):
        return run(of_model() if words[0] == "--model" else of_program(words[0]), words[1:]) != 0
    else:
        sys.exit(__doc__)
    return 0


if __name__ == "__main__":
    sys.exit(main(sys.argv[1:]))
