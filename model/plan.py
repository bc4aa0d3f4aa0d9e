"""An inclining plan as a stored program: a third reading of request 10, "Inclining plan to program", beside the proved one and the one in
independent/.

A plan is numbers of 32 bits, four for each weight move: word, settling time, word, reading time. It is read as stretches, each a word and
for how many ticks the outputs have it; what the outputs are at a tick is told from these alone. Each clause of the request stands above
what renders it, those of its page, docs/programs/plan.md, with "page" before them. As a module: program(plan, area), word_at(plan, tick),
total(plan), said(text, table). As a program:

    python3 plan.py [FILE]                  prints the program, or the refusal; without a FILE, or with `-`, the text is standard input
    python3 plan.py --table [FILE]          prints the table, as `plan --check` does
    python3 plan.py --stored INPUT OUTPUT   writes the stored input and output of the program `plan`
    python3 plan.py --check FILE            holds the answers of a file that the comparison wrote to this reading; status 1 at the first
                                            that differs

A record of that file: the count of the numbers in two bytes, the numbers in four each, the length of the area in two, the refusal in one,
and in one whether the area is as it was; then, where that is 0, its bytes. Numbers have their high byte first.
"""

import re
import sys
from collections import Counter

import box

PROGRAM, LINES = 1600, 200
MOVES_MOST, NUMBERS_OF_A_MOVE = 16, 4
TIME_LEAST, TIME_MOST, STATE_MOST = 1, 600_000, 9999
NUMBER_MOST = 2 ** 32 - 1
COUNTER = 1


class Refusal(Exception):
    """A refusal; the argument is its number."""


class NoPlan(Exception):
    """Text that is no plan; the argument is the message of its first wrong line."""


# ---- a plan, and what it says by itself

def stretches(plan):
    """The word and the ticks of each settling and each reading, in the order of the plan."""
    # "each has a 32-bit word for the move, a settling time, a word for the reading and a reading time"
    return list(zip(plan[0::2], plan[1::2]))


def refusal_of(plan, area):
    """Of a plan that is to go to an area of so many bytes: 0, or "Refusals, in order"."""
    # "030"; 01: "program area [...] is not exactly 1,600 bytes"
    if area != PROGRAM:
        return 30
    # "070 no or too many moves": "a plan has 1 to 16 weight moves", and each is four numbers
    moves, over = divmod(len(plan), NUMBERS_OF_A_MOVE)
    if over or not 1 <= moves <= MOVES_MOST:
        return 70
    # "071 a time outside its range": "each time 1 to 600,000 ticks"
    if not all(TIME_LEAST <= ticks <= TIME_MOST for _, ticks in stretches(plan)):
        return 71
    return 0


def total(plan):
    # "event 011 comes at the sum of the times"
    return sum(ticks for _, ticks in stretches(plan))


def word_at(plan, tick):
    # "the outputs at every tick are the plan's"; page: "the outputs are WORD from tick A up to, and not with, tick B"
    for word, ticks in stretches(plan):
        if tick < ticks:
            return word
        tick -= ticks
    # "a last end mark with all outputs off"
    return 0


# ---- its program

def lines_of(word, ticks):
    """The lines of one stretch."""
    # "A time up to 9,999 is one State"
    if ticks <= STATE_MOST:
        return [("S", word, ticks)]
    # "a longer one a For of time / 9,999, a State of 9,999, a Next, and a State of the remainder unless it is 0"
    turns, rest = divmod(ticks, STATE_MOST)
    return [("F", COUNTER, turns), ("S", word, STATE_MOST), ("N", COUNTER)] + ([("S", word, rest)] if rest else [])


def program(plan, area=PROGRAM):
    refusal = refusal_of(plan, area)
    if refusal:
        raise Refusal(refusal)
    lines = [line for word, ticks in stretches(plan) for line in lines_of(word, ticks)]
    # "a last end mark with all outputs off; lines after that are end marks". "Show that 200 lines always suffice."
    assert len(lines) < LINES
    lines += [box.END_MARK] * (LINES - len(lines))
    return b"".join(map(box.encode, lines))


# ---- its text

# page: "WORD SETTLING WORD READING", what a field must be and what it is called
WORD, TIME = (rb"[0-9A-Fa-f]{8}", "eight hex digits"), (rb"[0-9]+", "a decimal number")
FIELDS = (("the word of the move", *WORD), ("the settling time", *TIME), ("the word of the reading", *WORD), ("the reading time", *TIME))
HOW = "a move is WORD SETTLING WORD READING: words of eight hex digits, times in decimal ticks"


def text_lines(text):
    # page: "A line ends with LF or with CR LF; the last one may lack it." "A carriage return that no LF follows is a character like any
    # other": so one at the very end is no line's end.
    *ended, last = text.split(b"\n")
    return [line.removesuffix(b"\r") for line in ended] + [last]


def fields_of(line):
    # page: "What follows a `#` is passed over, up to the end of its line"; "Blanks or tabs stand between the fields, one or more, and may
    # stand before the first and behind the last."
    return [field for field in re.split(rb"[ \t]", line.partition(b"#")[0]) if field]


def complaint(fields):
    """What is wrong with a line that has fields; "the first from the left is told"."""
    for number, (name, form, what) in enumerate(FIELDS):
        if number == len(fields):
            return f"{name} is missing"
        if not re.fullmatch(form, fields[number]):
            return f"{name} is not {what}"
    return "something stands behind the reading time" if len(fields) > len(FIELDS) else None


def time_of(digits):
    # page: "of any number of digits; zeros in front change nothing". What is above 32 bits counts as the most, which is out of range too.
    digits = digits.lstrip(b"0")
    return NUMBER_MOST if len(digits) > len(str(NUMBER_MOST)) else min(int(digits or b"0"), NUMBER_MOST)


def plan_of(text):
    """The numbers of a plan, of however many moves."""
    plan = []
    for number, line in enumerate(text_lines(text), 1):
        fields = fields_of(line)
        if not fields:
            continue
        wrong = complaint(fields)
        if wrong:
            # page: "of several lines the first"; "N counts all lines from 1"
            raise NoPlan(f"line {number}: {wrong}")
        plan += [int(fields[0], 16), time_of(fields[1]), int(fields[2], 16), time_of(fields[3])]
    return plan


# ---- what is printed

def clock(ticks):
    # page: "M:SS.T is the same in minutes, seconds and tenths."; 01: "the 0.1 s tick"
    return f"{ticks // 600}:{ticks // 10 % 60:02d}.{ticks % 10}"


def table(plan):
    # "one line for each move with the ticks at which its settling and its reading begin and end, in ticks and in minutes and seconds, and
    # the total"
    lines, at = [], 0
    for number in range(len(plan) // NUMBERS_OF_A_MOVE):
        parts = []
        for name, (word, ticks) in zip(("settling", "reading"), stretches(plan)[2 * number:]):
            parts.append(f"{word:08X} {name} {at} to {at + ticks} ({clock(at)} to {clock(at + ticks)})")
            at += ticks
        lines.append(f"move {number + 1:02d}: {', '.join(parts)}\n")
    return "".join([*lines, f"total: {at} ({clock(at)})\n"]).encode()


def said(text, as_table=False):
    """What the program `plan` writes for a text, and the lines that it says."""
    try:
        plan = plan_of(text)
        made = program(plan)
        return table(plan) if as_table else made, []
    except NoPlan as wrong:
        # "Text that is no plan: a message on standard error that names the line and what is wrong there, nothing on standard output."
        return b"", [wrong.args[0], HOW]
    except Refusal as refusal:
        # "`E070` or `E071` alone on standard output"
        return b"E%03d\n" % refusal.args[0], []


# ---- the answers of a comparison

def records(path):
    """Plan, length of the area, refusal, and the area's bytes, None where it is as it was, of each record."""
    with open(path, "rb") as file:
        def number(size, end=False):
            taken = file.read(size)
            if len(taken) != size and not (end and not taken):
                sys.exit(f"plan.py: {path} ends within a record")
            return int.from_bytes(taken, "big") if taken else None
        while (count := number(2, True)) is not None:
            plan = [number(4) for _ in range(count)]
            area, refusal, kept = number(2), number(1), number(1)
            yield plan, area, refusal, None if kept else file.read(area)


def answer(plan, area):
    """The refusal, or 0, and the area's bytes, None for "every byte of the area as it was"."""
    try:
        return 0, program(plan, area)
    except Refusal as refusal:
        return refusal.args[0], None


def check(path):
    met = Counter()
    for plan, area, *stored in records(path):
        want = list(answer(plan, area))
        if stored != want:
            print(f"A DIFFERENCE in record {met.total() + 1}, an area of {area} bytes, the plan {plan}")
            for name, (refusal, content) in (("stored", stored), ("this reading", want)):
                print(f"{name}: refusal {refusal}, the area {'as it was' if content is None else content.hex().upper()}")
            sys.exit(1)
        met[f"E{want[0]:03d}" if want[0] else "accepted"] += 1
    if not met:
        sys.exit(f"plan.py: {path} has no record")
    print(f"{met.total()} plans: every answer is that of the third reading "
          f"({', '.join(f'{name}: {count}' for name, count in sorted(met.items()))})")


# ---- the stored input and output of the program

STORED = (b"# Inclining test, five moves; times in ticks of 0.1 s.\n"
          b"\n"
          b"00000001 1 80000001 9999        # the shortest settling, the longest State\n"
          b"0000000f\t10000\t8000000F\t19998  # 10000 has a remainder of 1, 19998 has none\r\n"
          b"  \t # the weight stays where it is: equal words behind each other\n"
          b"8000000F 19999 8000000f 0600000\n"
          b"  00000000 600000\t 00000000 00001\t\n"
          b"#00000001 5 00000002\r\n"
          b"DeadBeef 9998 12345678 599940#sixty times 9,999")


def store(given, made):
    with open(given, "wb") as file:
        file.write(STORED)
    with open(made, "wb") as file:
        file.write(said(STORED)[0])


# ---- the program

USAGE = "usage: plan.py [--table] [FILE], plan.py --stored INPUT OUTPUT, or plan.py --check FILE"


def main(words):
    if len(words) == 2 and words[0] == "--check":
        return check(words[1])
    if len(words) == 3 and words[0] == "--stored":
        return store(*words[1:])
    as_table = words[:1] == ["--table"]
    files = words[as_table:]
    if len(files) > 1 or any(name.startswith("-") and name != "-" for name in files):
        sys.exit(USAGE)
    if files and files[0] != "-":
        with open(files[0], "rb") as file:
            text = file.read()
    else:
        text = sys.stdin.buffer.read()
    output, messages = said(text, as_table)
    sys.stdout.buffer.write(output)
    if messages:
        sys.exit("\n".join(messages))
    return 0


if __name__ == "__main__":
    sys.exit(main(sys.argv[1:]))
