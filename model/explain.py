"""Why a program stops: a third reading of request 9, "Explain a stop", beside the proved one and the one in independent/.

The run is walked by document 01, 'Running', with requests 2 and 4 of document 02; each clause stands above what renders it, those of
02 with their request before them. Lines are read by box.py. A State that is held is one step, whatever its time. The run keeps its
trace, the line numbers that it has gone through, in order: one byte each, since no number is above 199. What holds a counter and what
was held last is looked up in the trace alone. As a module: explain(program, start, limit) and text(program, start, limit). As a program:

    python3 explain.py [START [LIMIT [FILE]]]   prints the two lines; without a FILE, or with `-`, the program is standard input
    python3 explain.py --check FILE             holds the answers of a file that the comparison wrote to this reading; status 1 at
                                                the first that differs

A record of that file: the length of a program in two bytes, its bytes, start and limit in eight each, then refusal, event, tick (four
bytes), line and cause, numbers as in `struct nizhalepu_stop` and high byte first.
"""

import struct
import sys
from collections import Counter
from functools import lru_cache
from typing import NamedTuple, Optional

import box

PROGRAM, LAST_LINE, LIMIT_MOST, LINES_IN_A_CALL = 1600, 199, 100_000, 400
NUMBER_MOST = 2 ** 64 - 1
NO_CAUSE = 255
NUMBERS, ANSWER = ">QQ", ">BBIBB"

line_of = lru_cache(100_000)(box.decode)


class Outcome(NamedTuple):
    """A refusal; or an event with its tick, line and cause; or still running, where there is neither."""
    refusal: int = 0
    event: int = 0
    tick: int = 0
    line: int = 0
    cause: Optional[int] = None  # 006 and 013: a line. 007: a counter. 008: True or False


class Stopped(Exception):
    """An event stop; the argument is the event."""


class Run:
    """A run from its start on, with the line that 211 shows and the ticks since the start."""

    def __init__(self, lines, start):
        self.lines, self.line, self.tick = lines, start, 0
        # "A start frees all loops."
        self.counters, self.for_lines = {}, {}
        self.trace = bytearray()
        self.nexts = {}

    def up_to(self, limit):
        """Returns if the program has not ended after so many ticks, and raises Stopped if it has."""
        # "Lines run inside the start call or tick in which they fall due."
        held = self.call()
        # "State, time T above 0: [...] the next line falls due on the T-th tick taken unpaused."
        while self.tick + held <= limit:
            self.tick += held
            self.go_on()
            held = self.call()

    def call(self):
        """The lines that fall due in one call, up to a State; its time."""
        due = 0
        while True:
            line = self.lines[self.line]
            if line[0] in ("F", "N"):
                # "One call runs at most 400 For and Next lines. Were a 401st due, the program stops there with event 013": it is not run.
                if due == LINES_IN_A_CALL:
                    raise Stopped(13)
                due += 1
            self.trace.append(self.line)
            if line[0] == "F":
                self.run_for(line[1], line[2])
            elif line[0] == "N":
                self.run_next(line[1])
            else:
                return self.held(line)
            self.go_on()

    def held(self, line):
        # 02, item 4: "Running a Bad line stops with event 014 at that line."
        if line == box.BAD:
            raise Stopped(14)
        # "State, time 0: set outputs, stop, event 011."
        if line[2] == 0:
            raise Stopped(11)
        return line[2]

    def run_for(self, counter, count):
        # "For C: busy counter, event 006"
        if counter in self.counters:
            raise Stopped(6)
        # "else no Next C on any later line, 007"
        later = self.first_later_next(counter)
        if later is None:
            raise Stopped(7)
        if count == 0:
            # 02, item 2: "For with count 0000 passes to the line after the first later Next of that counter and takes no counter; 006 and
            # 007 are still checked first. If that Next is line 199, event 009 there."
            self.line = later
        else:
            # "else the counter takes the count and is busy"
            self.counters[counter], self.for_lines[counter] = count, self.line

    def first_later_next(self, counter):
        """Its line, if there is one. 02, item 4: "The search for a Next passes over" a Bad line."""
        if self.line not in self.nexts:
            later = (k for k in range(self.line + 1, LAST_LINE + 1) if self.lines[k] == ("N", counter))
            self.nexts[self.line] = next(later, None)
        return self.nexts[self.line]

    def run_next(self, counter):
        # "Next C: counter not busy, 008, even if a For stands above (a start inside a loop)."
        if counter not in self.counters:
            raise Stopped(8)
        # "Else take one off; above zero, go to the line after its For; at zero, free it and go on."
        self.counters[counter] -= 1
        if self.counters[counter] > 0:
            self.line = self.for_lines[counter]
        else:
            del self.counters[counter]

    def go_on(self):
        # "Going on past 199: event 009, line stays 199."
        if self.line == LAST_LINE:
            raise Stopped(9)
        self.line += 1


# ---- the causes; `trace` is what the run has gone through

def holder(counter, trace, lines):
    # "for 006 the line of the For that holds the counter": its count is above the number of Nexts of the counter run since, so above 0.
    # The counter is busy, so there is one; and one only, since an earlier For has had all its Nexts when a later one takes the counter.
    nexts = 0
    for k in reversed(trace):
        if lines[k] == ("N", counter):
            nexts += 1
        elif lines[k][:2] == ("F", counter) and lines[k][2] > nexts:
            return k
    raise AssertionError("no For in the trace holds the counter")


def for_above(counter, line, lines):
    # "for 008 whether some For of that counter stands above": on a smaller line number, run or not, whatever its count.
    return any(other[:2] == ("F", counter) for other in lines[:line])


def last_state(trace, lines):
    # "for 013 the State line last held, if any"
    return next((k for k in reversed(trace) if lines[k][0] == "S"), None)


def cause_of(event, run):
    line = run.lines[run.line]
    if event == 6:
        # The last line of the trace is the For that was stopped.
        return holder(line[1], run.trace[:-1], run.lines)
    if event == 7:
        # "for 007 the counter sought"
        return line[1]
    if event == 8:
        return for_above(line[1], run.line, run.lines)
    if event == 13:
        return last_state(run.trace, run.lines)
    # "for others none"
    return None


# ---- the report

def lines_of(program):
    return [line_of(program[at:at + 8]) for at in range(0, PROGRAM, 8)]


def explain(program, start, limit):
    # "Refusals, in order: 030, 060 start line above 199, 061 limit too large."; 01: "030 program area [...] is not exactly 1,600 bytes"
    if len(program) != PROGRAM:
        return Outcome(refusal=30)
    if start > LAST_LINE:
        return Outcome(refusal=60)
    # "a limit of up to 100,000 ticks"
    if limit > LIMIT_MOST:
        return Outcome(refusal=61)
    run = Run(lines_of(program), start)
    try:
        run.up_to(limit)
    except Stopped as stop:
        # "the event, its tick from the start, its line and the cause"
        event = stop.args[0]
        return Outcome(0, event, run.tick, run.line, cause_of(event, run))
    # "It answers still running"
    return Outcome()


# ---- its two lines

REFUSED = {
    30: "This is no stored program: it has fewer or more than 1600 bytes. Give a file of 200 lines of 8 bytes.",
    60: "The start line is above 199, the last line. Give a line of 0 to 199.",
    61: "The limit is above 100000 ticks. Give a limit of 0 to 100000.",
}
STILL = "Still running after %s s: nothing stops it up to the limit. A limit can be as large as 100000 ticks."
INTO_THE_LOOP = "Put a State with a time above 0 into the loop."
# By what class_of gives: {c} is the counter of the line, {k} the line that is the cause.
REASONS = {
    "006 above": "counter {c} was still in use by the For on line {k}. Give the inner loop another counter.",
    "006": "counter {c} was still in use by the For on line {k}. Two loops cross: end the inner one before the outer one.",
    "007": "no Next of counter {c} stands on a later line. Write N{c} on the line where the loop ends.",
    "008 yes": "counter {c} was not in use, although a For of it stands above. Start at that For or above it, or take this Next out.",
    "008 no": "no For of counter {c} stands above. Write one there, or take this Next out.",
    "009": "the program went on past line 199, the last one. Write an end mark, S00000000000000, on the line where it ends.",
    "011": "the program came to its end mark. Nothing has to be done.",
    "013 in a tick": "more than 400 For and Next lines fell due in one tick, behind the State on line {k}. " + INTO_THE_LOOP,
    "013 in the start": "more than 400 For and Next lines fell due in the start itself. " + INTO_THE_LOOP,
    "014": "its eight bytes are no State, For or Next. Write this line again.",
}


def class_of(outcome):
    """What is counted and told as one: a refusal, still running, an event, or of 008 and 013 one with each kind of cause."""
    if outcome.refusal:
        return f"E{outcome.refusal:03d}"
    if outcome.event == 8:
        return "008 yes" if outcome.cause else "008 no"
    if outcome.event == 13:
        return "013 in the start" if outcome.cause is None else "013 in a tick"
    return f"{outcome.event:03d}" if outcome.event else "running"


def seconds(ticks):
    # 01: "the 0.1 s tick"
    return f"{ticks // 10}.{ticks % 10}"


def cause_field(outcome):
    if outcome.cause is None:
        return "-"
    if outcome.event == 8:
        return "yes" if outcome.cause else "no"
    return f"{outcome.cause}" if outcome.event == 7 else f"{outcome.cause:03d}"


def shown(outcome, line, limit):
    """The two lines; `line` is the one on which it stopped."""
    name = class_of(outcome)
    if outcome.refusal:
        return name, REFUSED[outcome.refusal]
    if not outcome.event:
        return name, STILL % seconds(limit)
    # The line as a read of it over the wire answers. 02, item 4: "reading a Bad line over the wire answers E024"
    read = f"E{box.BAD_LINE:03d}" if line == box.BAD else box.show(line)
    if outcome.event == 6 and outcome.cause < outcome.line:
        name = "006 above"  # a loop in a loop; else a jump back came to a For whose own loop, or one behind it, is not over
    reason = REASONS[name].format(c=line[1] if line[0] in ("F", "N") else None, k=cause_field(outcome))
    return (f"{outcome.event:03d} {outcome.tick} {outcome.line:03d} {cause_field(outcome)}",
            f"Stopped after {seconds(outcome.tick)} s on line {outcome.line:03d} ({read}): {reason}")


def text(program, start, limit):
    outcome = explain(program, start, limit)
    line = lines_of(program)[outcome.line] if outcome.event else None
    return "".join(each + "\n" for each in shown(outcome, line, limit)).encode()


# ---- the answers of a comparison

def numbers_of(outcome):
    """The numbers of `struct nizhalepu_stop`, in the order of a record."""
    return (*outcome[:4], NO_CAUSE if outcome.cause is None else int(outcome.cause))


def records(path):
    """Program, start, limit and answer of each record."""
    with open(path, "rb") as file:
        while head := file.read(2):
            length = int.from_bytes(head, "big")
            rest = length + struct.calcsize(NUMBERS) + struct.calcsize(ANSWER)
            record = file.read(rest)
            if len(head) != 2 or len(record) != rest:
                sys.exit(f"explain.py: {path} ends within a record, or has one that is none")
            yield (record[:length], *struct.unpack_from(NUMBERS, record, length), struct.unpack(ANSWER, record[-struct.calcsize(ANSWER):]))


def check(path):
    met = Counter()
    for program, start, limit, stored in records(path):
        outcome = explain(program, start, limit)
        if stored != numbers_of(outcome):
            print(f"A DIFFERENCE in record {met.total() + 1}, start {start}, limit {limit}: {program.hex().upper()}")
            print("stored: refusal {}, event {}, tick {}, line {}, cause {}".format(*stored))
            print("this reading: refusal {}, event {}, tick {}, line {}, cause {}".format(*numbers_of(outcome)))
            sys.exit(1)
        met[class_of(outcome)] += 1
    if not met:
        sys.exit(f"explain.py: {path} has no record")
    print(f"{met.total()} reports: every answer is that of the third reading "
          f"({', '.join(f'{name}: {count}' for name, count in sorted(met.items()))})")


# ---- the program

USAGE = "usage: explain.py [START [LIMIT [FILE]]], or explain.py --check FILE"


def number(word):
    """A decimal number of any length; what is above 2^64-1 counts as that."""
    if not (word.isascii() and word.isdigit()):
        sys.exit(f"no number: '{word}'\n{USAGE}")
    digits = word.lstrip("0") or "0"
    return NUMBER_MOST if len(digits) > len(str(NUMBER_MOST)) else min(int(digits), NUMBER_MOST)


def main(words):
    if len(words) == 2 and words[0] == "--check":
        return check(words[1])
    if len(words) > 3 or any(word.startswith("-") and word != "-" for word in words):
        sys.exit(USAGE)
    start, limit = number(words[0]) if words else 0, number(words[1]) if len(words) > 1 else LIMIT_MOST
    # One byte more than a program has says that it is none.
    if len(words) == 3 and words[2] != "-":
        with open(words[2], "rb") as file:
            program = file.read(PROGRAM + 1)
    else:
        program = sys.stdin.buffer.read(PROGRAM + 1)
    sys.stdout.buffer.write(text(program, start, limit))
    return None


if __name__ == "__main__":
    main(sys.argv[1:])
