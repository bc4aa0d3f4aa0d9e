"""Request 10 held to the running rule: the programs of random plans are run on the box of box.py.

    python3 plan_by_running.py COUNT SEED

"the outputs at every tick are the plan's and [...] event 011 comes at the sum of the times": the box is started over the wire, and what
its outputs are is held to the plan's own words, which plan.py tells from the moves alone. A short plan is run tick by tick, here and there
with a pause or with a command between. A long one is run by stretches: ticks in which no line falls due only take from the ticks that are
left of a State, so as many are taken at once; it is looked at one tick before each settling and each reading begins, at that tick, and at
ticks by chance. At the sum the box must be stopped by event 011 with all outputs off, and not before. What durations.py tells must be the
sum. Status 1 at the first difference, and where one of the edges is not met in 2,000 plans or more.
"""

import random
import sys
from collections import Counter

import box
import durations
import plan

TICK, PAUSE = 1, 3  # bytes of Box.feed
SHORT_MOST = 400
ENOUGH = 2000
EDGES = (1, 2, 9998, 9999, 10_000, 10_001, 19_997, 19_998, 19_999, 29_997, 599_939, 599_940, 599_941, 599_999, 600_000)
WORDS = (0, 0, 1, 0x80000000, 0xFFFFFFFF)
# Reads and writes that leave a running program as it is; 212 is left alone, since a read clears it.
COMMANDS = ("CR206", "CR203", "CR211", "CR201", "CR213", "CRI", "CW209017", "CW20600", "CW000N1", "CW210003", "CW210009", "", "xyz")


# ---- plans

def a_word(chance, words):
    """Often the same as the one before: equal neighbours."""
    if words and chance.random() < 0.25:
        return words[-1]
    return chance.choice((*WORDS, chance.getrandbits(32), chance.getrandbits(32), 1 << chance.randrange(32)))


def a_plan(chance, time):
    numbers, words = [], []
    for _ in range(2 * chance.choice((1, 1, 2, 3, 5, 8, 15, 16))):
        words.append(a_word(chance, words))
        numbers += [words[-1], time()]
    return numbers


def short_plan(chance):
    return a_plan(chance, lambda: chance.choice((1, 1, 2, 3, 5, 8)))


def long_plan(chance):
    return a_plan(chance, lambda: chance.choice((*EDGES, chance.randrange(1, 600_001), chance.randrange(1, 30_000), 1)))


# ---- the box

class Difference(Exception):
    """What the box shows that the plan does not say."""


def said(switch_box, text):
    """The reply to a command, without its 13."""
    return "".join(switch_box.feed(ord(char)) for char in text + "\r")[:-1]


def started(program):
    """A box with outputs of its own that runs the program, from line 000."""
    switch_box = box.Box()
    switch_box.program[:200] = [program[at:at + 8] for at in range(0, len(program), 8)]
    assert [said(switch_box, command) for command in ("CR212", "CW203A5", "CW206C3", "CW210003")] == ["012", "OK", "OK", "OK"]
    return switch_box


def look(switch_box, numbers, tick):
    """After so many unpaused ticks."""
    ended = tick == plan.total(numbers)
    shown = switch_box.state == box.STOPPED, switch_box.event, switch_box.outputs
    want = ended, 11 if ended else 0, plan.word_at(numbers, tick)
    if shown != want:
        raise Difference(f"tick {tick}: the box {told(*shown)}; by the plan it {told(*want)}")


def told(stopped, event, outputs):
    return f"{'is stopped' if stopped else 'runs'} with event {event:03d} and outputs {outputs:08X}"


def take(switch_box, ticks):
    """Takes so many ticks, those in which no line falls due at once."""
    while ticks and switch_box.state == box.RUNNING:
        idle = min(ticks, switch_box.ticks_left - 1)
        switch_box.ticks_left -= idle
        ticks -= idle
        if ticks:
            switch_box.feed(TICK)
            ticks -= 1


def by_ticks(switch_box, numbers, chance):
    look(switch_box, numbers, 0)
    for tick in range(1, plan.total(numbers) + 1):
        if chance.random() < 0.05:
            said(switch_box, chance.choice(COMMANDS))
        if chance.random() < 0.02:
            switch_box.feed(PAUSE)
            for _ in range(chance.randrange(4)):
                switch_box.feed(TICK)
            look_paused(switch_box, numbers, tick - 1)
            switch_box.feed(PAUSE)
        switch_box.feed(TICK)
        look(switch_box, numbers, tick)


def look_paused(switch_box, numbers, tick):
    if (switch_box.state, switch_box.outputs) != (box.PAUSED, plan.word_at(numbers, tick)):
        raise Difference(f"in a pause behind tick {tick}: outputs {switch_box.outputs:08X}, not {plan.word_at(numbers, tick):08X}")


def by_stretches(switch_box, numbers, chance):
    end, begin, ticks = plan.total(numbers), 0, {0}
    for _, time in plan.stretches(numbers):
        ticks |= {begin, begin + time - 1, begin + chance.randrange(time)}
        begin += time
    at = 0
    for tick in sorted(ticks | {end}):
        take(switch_box, tick - at)
        at = tick
        look(switch_box, numbers, tick)
    # One tick more is nothing to a program that has ended.
    switch_box.feed(TICK)
    look(switch_box, numbers, end)


# ---- all of them

def met_by(numbers):
    """The edges of a plan."""
    pairs = plan.stretches(numbers)
    for word, ticks in pairs:
        if ticks in EDGES:
            yield f"{ticks} ticks"
        if word == 0:
            yield "a word 0"
    if any(one[0] == other[0] for one, other in zip(pairs, pairs[1:])):
        yield "equal neighbours"
    if len(pairs) in (2, 32):
        yield f"{len(pairs) // 2} moves"


def main(count, seed):
    chance, met, ticks = random.Random(seed), Counter(), 0
    for n in range(count):
        is_short = chance.random() < 0.5
        numbers = short_plan(chance) if is_short else long_plan(chance)
        program = plan.program(numbers)
        try:
            if durations.answer(program) != (0, plan.total(numbers)):
                raise Difference("durations.py tells refusal {}, {} ticks; the sum is {}".format(
                    *durations.answer(program), plan.total(numbers)))
            (by_ticks if is_short and plan.total(numbers) <= SHORT_MOST else by_stretches)(started(program), numbers, chance)
        except Difference as difference:
            print(f"A DIFFERENCE in plan {n + 1}: {numbers}\n{difference}")
            sys.exit(1)
        ticks += plan.total(numbers)
        met.update({"short" if is_short else "long", *met_by(numbers)})
    print(f"{count} plans of {ticks} ticks ran with the plan's words, each to event 011 at its sum "
          f"({'; '.join(f'{name}: {times}' for name, times in sorted(met.items()))})")
    wanted = {"short", "long", "a word 0", "equal neighbours", "1 moves", "16 moves", *(f"{edge} ticks" for edge in EDGES)}
    if count == 0 or (count >= ENOUGH and wanted - met.keys()):
        sys.exit(f"plan_by_running.py: never met: {'; '.join(sorted(wanted - met.keys()))}")


if __name__ == "__main__":
    if len(sys.argv) != 3:
        sys.exit("usage: plan_by_running.py COUNT SEED")
    main(int(sys.argv[1]), int(sys.argv[2]))
