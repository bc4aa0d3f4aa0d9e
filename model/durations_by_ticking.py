"""Request 6 held to the running rule: random programs are run tick by tick on the box of box.py.

    python3 durations_by_ticking.py COUNT SEED

"the exact number of unpaused ticks from a start at line 000 to event 011": where durations.py gives a number, the box must be running
after every tick before that one, and stopped by event 011 after it.  Status 1 at the first program where it is not.  A refused program
is counted and not run.  The programs are short and most are well nested, with counts and times that keep a run to some hundreds of
ticks; one of more is not run.
"""

import random
import sys
from collections import Counter

import box
import durations

BUTTON_1, TICK = 2, 1  # bytes of Box.feed
TICKS_MOST = 500
COUNTERS = (1, 2, 3, 4)


def state(chance, least):
    return ("S", chance.getrandbits(32), chance.choice((least, 1, 1, 2, 3)))


def some_line(chance):
    kind = chance.choice("SFNB")
    if kind == "S":
        return state(chance, 0)
    if kind == "B":
        return box.BAD
    return ("F", chance.choice(COUNTERS), chance.randrange(4)) if kind == "F" else ("N", chance.choice(COUNTERS))


def nested(chance, room, free):
    """Lines that nest, some more than `room` of them, with loops of the free counters; most bodies that are repeated take ticks."""
    lines = []
    while len(lines) < room and chance.random() < 0.85:
        if free and room - len(lines) > 2 and chance.random() < 0.5:
            counter = chance.choice(free)
            inner = nested(chance, room - len(lines) - 2, [other for other in free if other != counter])
            count = chance.choice((0, 1, 1, 2, 2, 3))
            if count:
                inner.insert(chance.randrange(len(inner) + 1), state(chance, 1))
            lines += [("F", counter, count), *inner, ("N", counter)]
        else:
            lines.append(state(chance, 1))
    return lines


def spoilt(chance, lines):
    """In one program of three a line is put in, taken out or exchanged with another."""
    lines = list(lines)
    if chance.random() < 1 / 3:
        at, other = chance.randrange(len(lines)), chance.randrange(len(lines))
        way = chance.randrange(3)
        if way == 0:
            lines.insert(at, some_line(chance))
        elif way == 1:
            del lines[at]
        else:
            lines[at], lines[other] = lines[other], lines[at]
    return lines


def program(chance):
    """200 lines of eight bytes."""
    lines = nested(chance, chance.choice((3, 8, 20, 198)), COUNTERS)
    # States enough that the end is the last line, in some.
    if chance.random() < 0.1:
        lines += [state(chance, 1) for _ in range(199 - len(lines))]
    lines = spoilt(chance, [*lines[:199], box.END_MARK])
    lines += [some_line(chance) for _ in range(chance.randrange(6))]
    return [box.encode(line) if line != box.BAD else b"B" + chance.randbytes(7) for line in lines[:200]] + [bytes(8)] * (200 - len(lines))


def ended(lines, ticks):
    """The event of a run from line 000 and the tick in which it comes: event 0 if it has not come within those ticks."""
    switch_box = box.Box()
    switch_box.program[:200] = lines
    switch_box.feed(BUTTON_1)
    for tick in range(ticks + 1):
        if switch_box.state == box.STOPPED:
            return switch_box.event, tick
        switch_box.feed(TICK)
    return 0, ticks


def main(count, seed):
    chance, met = random.Random(seed), Counter()
    for n in range(count):
        lines = program(chance)
        refusal, ticks = durations.answer(b"".join(lines))
        if refusal == 0 and ticks <= TICKS_MOST and ended(lines, ticks) != (11, ticks):
            print(f"A DIFFERENCE in program {n + 1}: {b''.join(lines).hex().upper()}")
            print("the report: {} ticks; the box: event {:03d} in tick {}".format(ticks, *ended(lines, ticks)))
            sys.exit(1)
        met["E%03d" % refusal if refusal else "ran" if ticks <= TICKS_MOST else "too long"] += 1
    print(f"{met['ran']} of {count} programs ran, each to event 011 in the tick of the report "
          f"({', '.join(f'{name} {number}' for name, number in sorted(met.items()))})")
    if 2 * met["ran"] < count or count == 0:
        sys.exit("durations_by_ticking.py: too few programs ran to show anything")


if __name__ == "__main__":
    if len(sys.argv) != 3:
        sys.exit("usage: durations_by_ticking.py COUNT SEED")
    main(int(sys.argv[1]), int(sys.argv[2]))
