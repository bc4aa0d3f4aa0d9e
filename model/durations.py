"""How long a program takes: a third reading of request 6, "How long will it take?", beside the proved one and the one in independent/.

The refusals stand in the request's order, each with its clause above it; lines are read by box.py.  Line 000 is lines[0]; `end` is the
line of "the first such line", the first State with time 0; `loops` are those of the Fors before it, by the line of the For.  As a
module: duration(program) and report(read).  As a program:

    python3 durations.py < PROGRAMS       prints the report
    python3 durations.py --check FILE     holds the answers of a file that the comparison wrote to this reading; status 1 at the
                                          first that differs
"""

import sys
from collections import Counter
from functools import lru_cache
from itertools import combinations
from typing import NamedTuple

import box

PROGRAM, TICKS_MOST = 1600, 9_999_999_999
TOTAL_MOST = 10 * TICKS_MOST
RECORD = PROGRAM + 1 + 8

line_of = lru_cache(100_000)(box.decode)


class Refusal(Exception):
    """A refusal; the argument is its number."""


class Loop(NamedTuple):
    counter: int
    count: int
    start: int  # the line of its For
    stop: int | None  # the line of its Next, if it has one


def need(condition, number):
    if not condition:
        raise Refusal(number)


# ---- lines and loops

def ticks_of(line):
    # 01, Running: "State, time T above 0: [...] the next line falls due on the T-th tick". A Bad line takes none.
    return line[2] if line[0] == "S" else 0


def is_end(line):
    # "State with time 0"
    return line[0] == "S" and line[2] == 0


def loops_before(end, lines):
    # "a For before the first such line pairs with the first later Next of its counter anywhere": behind that line too.
    def pair(start, counter, count):
        later = (k for k in range(start + 1, len(lines)) if lines[k] == ("N", counter))
        return Loop(counter, count, start, next(later, None))
    return {start: pair(start, *lines[start][1:]) for start in range(end) if lines[start][0] == "F"}


def ticks_between(first, behind, lines, loops):
    # "A run of lines is summed; a loop is its count times the run of lines inside it."
    ticks, k = 0, first
    while k < behind:
        if k in loops:
            ticks += loops[k].count * body(loops[k], lines, loops)
            k = loops[k].stop + 1
        else:
            ticks += ticks_of(lines[k])
            k += 1
    return ticks


def body(loop, lines, loops):
    """The ticks of one pass, whatever the count."""
    return ticks_between(loop.start + 1, loop.stop, lines, loops)


# ---- the clauses of 040; of two loops `one` has the earlier For

def cross(one, other):
    # "two such loops cross"
    return one.start < other.start < one.stop < other.stop


def starts_inside_its_own(one, other):
    # "one starts inside another of its counter"
    return one.counter == other.counter and one.start < other.start < one.stop


def has_no_for(k, loops):
    # "a Next before that line has no For"
    return all(loop.stop != k for loop in loops.values())


def well_nested(end, lines, loops):
    # "a For has no Next": asked first, so that every loop below has its two lines.
    if any(loop.stop is None for loop in loops.values()):
        return False
    if any(cross(one, other) or starts_inside_its_own(one, other) for one, other in combinations(loops.values(), 2)):
        return False
    return not any(lines[k][0] == "N" and has_no_for(k, loops) for k in range(end))


# ---- the number, or the first refusal that applies

def duration(program):
    # "030 a program not of 1,600 bytes"
    need(len(program) == PROGRAM, 30)
    lines = [line_of(program[at:at + 8]) for at in range(0, PROGRAM, 8)]
    # "042 no State with time 0"
    end = next((k for k, line in enumerate(lines) if is_end(line)), None)
    need(end is not None, 42)
    # "040 two such loops cross, one starts inside another of its counter, a For has no Next, or a Next before that line has no For"
    loops = loops_before(end, lines)
    need(well_nested(end, lines, loops), 40)
    # "041 that line is inside a loop"
    need(not any(loop.start < end < loop.stop for loop in loops.values()), 41)
    # "044 a loop with count above 0 whose body takes 0 ticks": also one inside a loop of none, which never runs.
    need(not any(loop.count > 0 and body(loop, lines, loops) == 0 for loop in loops.values()), 44)
    # "014 a Bad line before it": also one inside a loop of none.
    need(box.BAD not in lines[:end], 14)
    # "043 more than 9,999,999,999 ticks"
    ticks = ticks_between(0, end, lines, loops)
    need(ticks <= TICKS_MOST, 43)
    return ticks


def answer(program):
    """The refusal, or 0, and the ticks, of a refused program 0: "a refused program adds nothing"."""
    try:
        return 0, duration(program)
    except Refusal as refusal:
        return refusal.args[0], 0


def text(refusal, number):
    return b"E%03d\n" % refusal if refusal else b"%d\n" % number


def report(read):
    """The lines of the programs that `read` gives, 1,600 bytes at a time: "prints each number or refusal, then the grand total"."""
    total = 0
    # "the last of a file included": what is left over is a program too, and one of a wrong length.
    while program := read(PROGRAM):
        refusal, ticks = answer(program)
        total += ticks
        yield text(refusal, ticks)
    # "043 [...] a grand total more than ten times that"
    yield text(43 if total > TOTAL_MOST else 0, total)


def check(path):
    """Each record is a program, its refusal or 0 in a byte, and its ticks in eight, high byte first."""
    met = Counter()
    with open(path, "rb") as file:
        while record := file.read(RECORD):
            if len(record) != RECORD:
                sys.exit(f"durations.py: {path} ends within a record")
            stored, want = (record[PROGRAM], int.from_bytes(record[PROGRAM + 1:], "big")), answer(record[:PROGRAM])
            if stored != want:
                print(f"A DIFFERENCE in program {met.total() + 1}: {record[:PROGRAM].hex().upper()}")
                print(f"stored: refusal {stored[0]}, ticks {stored[1]}; this reading: refusal {want[0]}, ticks {want[1]}")
                sys.exit(1)
            met["E%03d" % want[0] if want[0] else "accepted"] += 1
    print(f"{met.total()} programs: every answer is that of the third reading "
          f"({', '.join(f'{name} {count}' for name, count in sorted(met.items()))})")


if __name__ == "__main__":
    if len(sys.argv) == 3 and sys.argv[1] == "--check":
        check(sys.argv[2])
    elif len(sys.argv) == 1:
        for line in report(sys.stdin.buffer.read):
            sys.stdout.buffer.write(line)
            sys.stdout.buffer.flush()
    else:
        sys.exit("usage: durations.py < PROGRAMS, or durations.py --check FILE")
