#!/usr/bin/env python3
"""Stored cases of the durations: programs, and the line that each must get, with the grand total.

    durations.py --list                     names the cases
    durations.py PROGRAM [CASE...]          each case, or those named, on the standard input of a program
    durations.py --model [CASE...]          the same on model/durations.py
    durations.py --stored INPUT OUTPUT      writes the stored input of the program `durations`, and its output
    durations.py --streams                  names the cases of input and output as streams
    durations.py --streams CASE COMMAND...  one of them, on a program that is run by these words

Status 0 if all pass. The cases stand in durations_cases.py, those of streams in durations_streams.py.
"""
import io
import os
import sys

from durations_cases import CASES, SINGLE, program, stored
from durations_streams import STREAMS, stream
from programs import TOP, of_program, shown


def all_in_one():
    """Every single program, one behind the other: what one leaves behind in a program that reads on is seen at the next."""
    programs = b"".join(program(words) for _, words, _ in SINGLE)
    total = sum(int(answer) for _, _, answer in SINGLE if answer[0] != "E")
    return "all_in_one", programs, "".join(f"{answer}\n" for _, _, answer in SINGLE) + f"{total}\n"


def of_model():
    sys.path.insert(0, os.path.join(TOP, "model"))
    sys.dont_write_bytecode = True
    import durations  # found in model/ first
    return lambda programs: b"".join(durations.report(io.BytesIO(programs).read))


def run(reader, names):
    """The number of cases that differ. Each is told."""
    cases = [*CASES, all_in_one()]
    unknown = set(names) - {name for name, _, _ in cases}
    if unknown:
        sys.exit(f"durations.py: there is no case {', '.join(sorted(unknown))}")
    differ = done = 0
    for name, programs, want in cases:
        if names and name not in names:
            continue
        got, done = reader(programs), done + 1
        if got != want.encode():
            differ += 1
            print(f"{name}: {shown(got)}, not {shown(want.encode())}")
    print(f"{done} cases, {differ} differ")
    return differ


def store(input_path, output_path):
    programs, text = stored()
    for path, content in ((input_path, programs), (output_path, text.encode())):
        with open(path, "wb") as file:
            file.write(content)


def main(words):
    if words == ["--list"]:
        print("\n".join(name for name, _, _ in [*CASES, all_in_one()]))
    elif words == ["--streams"]:
        print("\n".join(case.__name__ for case in STREAMS))
    elif len(words) > 2 and words[0] == "--streams":
        stream(words[1], words[2:])
    elif len(words) == 3 and words[0] == "--stored":
        store(*words[1:])
    elif words and words[0] not in ("--streams", "--stored"):
        return run(of_model() if words[0] == "--model" else of_program(words[0]), words[1:]) != 0
    else:
        sys.exit(__doc__)
    return 0


if __name__ == "__main__":
    sys.exit(main(sys.argv[1:]))
