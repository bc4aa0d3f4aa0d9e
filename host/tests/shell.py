#!/usr/bin/env python3
"""Cases of what programs do with their arguments, with files and with standard input.

    shell.py --list [NAME]        names the cases, or those of the program NAME
    shell.py CASE NAME COMMAND... one of them, on the program NAME that is run by these words

NAME is bench, corners, trials, loglist, durations, explain, plan or totals, or that with -independent behind it: its messages and its
status go by it.
COMMAND is the program, or a script that runs it, or run with the name of the program. Status 0 if the case passes.
"""
import sys

from shell_cases import ALL, LIMITED, ONE_FILE, SEVERAL_FILES
from shell_program import SAMPLES, Program

CASES = {case.__name__: case for case in ALL + LIMITED + ONE_FILE + SEVERAL_FILES}


def cases_of(name):
    name = name.removesuffix("-independent")
    sample = SAMPLES[name]
    return ALL + (LIMITED if sample.takes else []) + (ONE_FILE if sample.most else []) + (SEVERAL_FILES if name == "durations" else [])


def is_program(name):
    return name.removesuffix("-independent") in SAMPLES


def main(words):
    if words == ["--list"]:
        print("\n".join(CASES))
    elif len(words) == 2 and words[0] == "--list" and is_program(words[1]):
        print("\n".join(case.__name__ for case in cases_of(words[1])))
    elif len(words) > 2 and words[0] in CASES and is_program(words[1]):
        try:
            CASES[words[0]](Program(words[1], words[2:]))
        except AssertionError as error:
            sys.exit(f"{words[0]}: {error}")
    else:
        sys.exit(__doc__)


if __name__ == "__main__":
    main(sys.argv[1:])
