"""Request 9 held to the running rule: random programs are run tick by tick on the box of box.py, from random lines, up to random limits.

    python3 explain_by_ticking.py COUNT SEED

The box is started over the wire (209, then 005 at 210) and given ticks, one at a time, until it stops or the limit is taken. The report of
explain.py must have the tick in which it stopped, its 212 and its 211, or say that it runs where 201 does. The cause is held to the box
too: of 006 to the line to which it would jump for that counter, of 013 to what 211 showed before the last tick, of 007 and 008 to the
lines that it reads below and above. Status 1 at the first difference, and where an event or a kind of cause is never met in 20,000
programs or more. Of 006 and 013 there are two kinds: a For or State that is the nearest above the line of the event, and another one.
"""

import random
import sys
from collections import Counter

import box
import explain

TICK = 1  # a byte of Box.feed
COUNTERS = (1, 2, 3, 4)
ENOUGH = 20_000
NEAREST, ANOTHER = ", the nearest above", ", another"
CLASSES = ("running", "006" + NEAREST, "006" + ANOTHER, "007", "008 yes", "008 no", "009", "011", "013 in a tick" + NEAREST,
           "013 in a tick" + ANOTHER, "013 in the start", "014")


# ---- programs

def state(chance):
    return ("S", chance.getrandbits(32), chance.choice((0, 1, 1, 1, 2, 3, 5, 40)))


def count(chance):
    # Some bring a call to 400 lines or just beyond, most do not.
    return chance.choice((0, 0, 1, 1, 2, 2, 3, 4, 7, chance.randrange(190, 202), chance.randrange(395, 403), 9999))


def some_line(chance):
    kind = chance.choice("SSSSSFFFNNNNB")
    if kind == "S":
        return state(chance)
    if kind == "B":
        return box.BAD
    return ("F", chance.choice(COUNTERS), count(chance)) if kind == "F" else ("N", chance.choice(COUNTERS))


def nested(chance, room, free):
    """Lines that nest, some more than `room` of them, with loops of the free counters; a body has a State of some time, or none."""
    lines = []
    while len(lines) < room and chance.random() < 0.85:
        if free and room - len(lines) > 2 and chance.random() < 0.5:
            counter = chance.choice(free)
            inner = nested(chance, room - len(lines) - 2, [other for other in free if other != counter])
            lines += [("F", counter, count(chance)), *inner, ("N", counter)]
        else:
            lines.append(("S", chance.getrandbits(32), chance.choice((1, 1, 2, 3))))
    return lines


def spoilt(chance, lines):
    """Up to three lines are put in, taken out, exchanged, or given another counter."""
    lines = list(lines)
    for _ in range(chance.choice((0, 1, 1, 2, 3))):
        at, other, way = chance.randrange(len(lines)), chance.randrange(len(lines)), chance.randrange(4)
        if way == 0:
            lines.insert(at, some_line(chance))
        elif way == 1 and len(lines) > 1:
            del lines[at]
        elif way == 2:
            lines[at], lines[other] = lines[other], lines[at]
        elif lines[at][0] in ("F", "N"):
            lines[at] = (lines[at][0], chance.choice(COUNTERS), *lines[at][2:])
    return lines


def tangled(chance):
    """Loops of two or three counters that cross and jump over each other, behind which every For finds a Next."""
    counters = chance.choice(((1, 2), (1, 2, 3)))
    lines = [("F", chance.choice(counters), count(chance))]
    for _ in range(chance.randrange(3, 16)):
        kind = chance.choice("SSFFFNNN")
        counter = chance.choice(counters)
        lines.append(("S", chance.getrandbits(32), chance.choice((1, 2))) if kind == "S" else
                     ("F", counter, count(chance)) if kind == "F" else ("N", counter))
    return [*lines, *(("N", counter) for counter in counters), box.END_MARK]


def misleading(chance):
    """Programs in which the For or the State that is the cause is not the nearest one above the line of the event."""
    one, two, three, _ = chance.sample(COUNTERS, 4)
    held = ("S", chance.getrandbits(32), chance.randrange(1, 4))
    lines = chance.choice((
        # 006 on the third For of one: the second was passed over, the first holds it.
        [("F", one, 5), ("F", two, 0), ("F", one, 3), ("N", two), held, ("F", one, count(chance)), ("N", one)],
        # 006 on the second For of one, behind which no Next of it stands.
        [("F", one, 2), ("F", two, 0), ("N", one), ("N", two), held, ("F", one, count(chance))],
        # 006 on the first For of one, which a jump comes back to: the second, below, holds it.
        [("F", two, 2), ("F", one, 0), ("N", one), ("F", one, 5), held, ("N", two), ("N", one)],
        # 013 on the Next of two, which a jump comes back to from a State below.
        [("F", one, 3), ("F", two, 398), ("N", two), held, ("F", three, 0), ("N", three), ("N", one)]))
    return spoilt(chance, [*lines, box.END_MARK]) if chance.random() < 0.5 else [*lines, box.END_MARK]


def program(chance):
    """200 lines of eight bytes, and the line with which its lines begin: 0, or so that they reach to 199, or anywhere."""
    way = chance.random()
    if way < 0.25:
        lines = [some_line(chance) for _ in range(chance.choice((2, 4, 8, 16, 200)))]
    elif way < 0.5:
        lines = tangled(chance)
    elif way < 0.6:
        lines = misleading(chance)
    else:
        lines = nested(chance, chance.choice((3, 8, 20, 198)), COUNTERS) + [chance.choice((box.END_MARK, state(chance)))]
        lines = spoilt(chance, lines)
    lines = lines[:200]
    rest = 200 - len(lines)
    first = chance.choice((0, 0, rest, rest, chance.randrange(rest + 1)))
    others = [chance.choice((box.BAD, box.END_MARK, some_line(chance))) for _ in range(rest)] if chance.random() < 0.3 else [box.BAD] * rest
    lines = others[:first] + lines + others[first:]
    return [box.encode(line) if line != box.BAD else chance.choice((bytes(8), b"B" + chance.randbytes(7))) for line in lines], first


def start_line(chance, first):
    return chance.choice((first, first, min(first + chance.randrange(6), 199), chance.randrange(200)))


# ---- the box

def said(switch_box, text):
    """The reply to a command, without its 13."""
    return "".join(switch_box.feed(ord(char)) for char in text + "\r")[:-1]


def is_running(switch_box):
    # 01, Variables: "201 [...] D1 running"
    return int(said(switch_box, "CR201"), 16) & 2 != 0


def cause_of(event, line, held, switch_box):
    """What the box gives for the cause, None where there is none; `held` is what 211 showed before the tick that stopped it, if one did."""
    stopped_on = switch_box.line_at(line)
    if event == 6:
        return switch_box.for_lines[stopped_on[1] - 1]
    if event == 7:
        assert all(switch_box.line_at(k) != ("N", stopped_on[1]) for k in range(line + 1, 200))
        return stopped_on[1]
    if event == 8:
        return any(switch_box.line_at(k)[:2] == ("F", stopped_on[1]) for k in range(line))
    return held if event == 13 else None


def ticked(lines, start, limit):
    """The outcome by the box."""
    switch_box = box.Box()
    switch_box.program[:200] = lines
    assert said(switch_box, "CR212") == "012"
    assert [said(switch_box, "CW209%03d" % start), said(switch_box, "CW210005")] == ["OK", "OK"]
    tick, held = 0, None
    while switch_box.state == box.RUNNING and tick < limit:
        held = switch_box.line
        switch_box.feed(TICK)
        tick += 1
    if is_running(switch_box):
        assert said(switch_box, "CR212") == "000"
        return explain.Outcome()
    line, event = int(said(switch_box, "CR211")), int(said(switch_box, "CR212"))
    return explain.Outcome(0, event, tick, line, cause_of(event, line, held, switch_box))


def class_of(outcome, lines):
    """As in explain.py, but 006 and 013 also by whether their line is the nearest of its kind above the line of the event."""
    name = explain.class_of(outcome)
    if name not in ("006", "013 in a tick"):
        return name
    above = [box.decode(line) for line in lines[:outcome.line]]
    kind = box.decode(lines[outcome.cause])[:2 if outcome.event == 6 else 1]
    nearest = max((k for k, line in enumerate(above) if line[:len(kind)] == kind), default=None)
    return name + (NEAREST if outcome.cause == nearest else ANOTHER)


def main(number, seed):
    chance, met = random.Random(seed), Counter()
    for n in range(number):
        lines, first = program(chance)
        start, limit = start_line(chance, first), chance.choice((0, 1, 2, 3, 5, 8, 20, 50, 50, 50, 200, 200, chance.randrange(2000)))
        report, box_says = explain.explain(b"".join(lines), start, limit), ticked(lines, start, limit)
        if report != box_says:
            print(f"A DIFFERENCE in program {n + 1}, start {start}, limit {limit}: {b''.join(lines).hex().upper()}")
            print(f"the report: {report}; the box: {box_says}")
            sys.exit(1)
        met[class_of(report, lines)] += 1
    print(f"{number} programs stopped, or ran, as the report says "
          f"({'; '.join(f'{name}: {times}' for name, times in sorted(met.items()))})")
    missed = [name for name in CLASSES if not met[name]]
    if number == 0 or (number >= ENOUGH and missed):
        sys.exit(f"explain_by_ticking.py: never met: {'; '.join(missed)}")


if __name__ == "__main__":
    if len(sys.argv) != 3:
        sys.exit("usage: explain_by_ticking.py COUNT SEED")
    main(int(sys.argv[1]), int(sys.argv[2]))
