"""Request 11 held to the box: chains of logs that the box of areas.py gives, brought forward by totals.py.

    python3 totals_by_running.py COUNT SEED

A chain is random traffic on one box, with emptyings between and now and then a power-on, over which the channel records are carried. While
it runs, each call after which an output differs is counted, and the outputs at the end of each tick are written down; the logs are not
looked at for that. After each emptying every total, the last tick and word and the number unknown must be those counts.

Half of the chains have no gap: the log is emptied before it is full. There closings and openings are those of all calls, and ticks closed
the ticks before the last record's at whose end a channel was closed; and closings less openings are the channels closed. In the others
areas are small. There changes that were lost are counted as unknown and no more, and from the tick of the first of them to the emptying
the word counts that stood at the emptying. Status 1 at the first difference, and where one of the edges is not met in 500 chains or more.
"""

import random
import sys
from collections import Counter

import areas
import box
import totals

ENOUGH = 500
LOG_MOST = 4096  # bytes of the largest area here
EDGES = {"a chain without a gap", "a chain with a gap", "a chain with several gaps", "several power-ons", "a log of no record",
         "no record at all", "a gap that leads back", "a gap of 1", "a gap over several ticks",
         "a log that begins in the tick of a change", "a log that begins in the tick of a gap", "changes that were never emptied", "channel 32"}


class Difference(Exception):
    """What the totals are that the counts are not."""


# ---- the counts

class Counts:
    """Kept beside the box, since the first power-on; those of the present one are told apart by `words`, which has a place for each tick."""

    def __init__(self):
        self.channels = [[0, 0, 0] for _ in range(totals.CHANNELS)]
        self.unknown, self.gaps, self.met = 0, 0, Counter()

    def power_on(self, places):
        self.places, self.words, self.outputs = places, [], 0
        self.tick = self.word = self.counted = 0
        self.last = None  # the last record read: "a change", "a gap"
        self.gaps_before, self.before = self.gaps, self.balance()
        self.emptied()

    def emptied(self):
        self.changes = []  # since then: tick, word before, word after

    def balance(self):
        return sum(closings - openings for closings, openings, _ in self.channels)

    def tick_ends(self):
        self.words.append(self.outputs)

    def outputs_are(self, outputs):
        """Behind a call."""
        if outputs != self.outputs:
            self.changes.append((len(self.words), self.outputs, outputs))
            self.outputs = outputs

    def empty(self):
        """What a log that is emptied now tells."""
        kept, lost = self.changes[:self.places - 1], self.changes[self.places - 1:]
        for _, before, after in kept:
            for channel in range(totals.CHANNELS):
                self.channels[channel][0] += after >> channel & ~before >> channel & 1
                self.channels[channel][1] += before >> channel & ~after >> channel & 1
        if kept:
            self.look(kept, lost)
            self.last = "a gap" if lost else "a change"
            self.tick, _, self.word = (lost or kept)[0 if lost else -1]
        self.count_ticks()
        if lost:
            self.word, self.unknown, self.gaps = self.outputs, self.unknown + len(lost), self.gaps + 1
            self.words[self.tick:] = [self.outputs] * (len(self.words) - self.tick)
        self.emptied()

    def count_ticks(self):
        """Those before the tick of the last record."""
        for word in self.words[self.counted:self.tick]:
            for channel in range(totals.CHANNELS):
                self.channels[channel][2] += word >> channel & 1
        self.counted = self.tick

    def look(self, kept, lost):
        """The edges of a log."""
        if kept[0][0] == self.tick and self.last:
            self.met[f"a log that begins in the tick of {self.last}"] += 1
        self.met["channel 32"] += kept[0][2] >> 31
        if lost:
            self.met["a gap that leads back"] += self.outputs == lost[0][1]
            self.met["a gap of 1"] += len(lost) == 1
            self.met["a gap over several ticks"] += lost[0][0] < lost[-1][0]

    def hold(self, channels, beside):
        """The totals to these counts."""
        for number, (got, want) in enumerate(zip(channels, self.channels), 1):
            if list(got) != want:
                raise Difference(f"channel {number} has {got}, and the counts are {want}")
        want = totals.Beside(self.tick, self.word, self.unknown, False)
        if beside != want:
            raise Difference(f"beside are {beside}, and the counts are {want}")
        # "The sum of closings less openings is the number of channels closed wherever no gap was met."
        if self.gaps == self.gaps_before and self.balance() - self.before != beside.word.bit_count():
            raise Difference(f"{beside.word.bit_count()} channels are closed, and closings less openings are {self.balance() - self.before}")


# ---- the box

class Chain:
    """A box and its areas, the counts, and the totals that are brought forward by its logs."""

    def __init__(self, chance, has_gaps):
        self.chance, self.has_gaps, self.machine, self.counts = chance, has_gaps, areas.Machine(), Counts()
        self.channels, self.power_ons = [totals.Channel()] * totals.CHANNELS, 0
        self.program, self.saved, self.reply = bytearray(1600), bytearray(1600), bytearray(16)
        self.power_on()

    def power_on(self):
        chance = self.chance
        if self.power_ons:
            self.counts.met["changes that were never emptied"] += bool(self.counts.changes)
        self.power_ons += 1
        self.saved[:] = b"".join(map(box.encode, some_program(chance)))
        length = chance.choice((32, 33, 47, 48, 64, 80)) if self.has_gaps else chance.choice((32, 48, 64, 160, LOG_MOST))
        self.log = bytearray(length)
        assert self.machine.power_on(self.program, self.saved, self.log)[0] == 0
        self.counts.power_on(length // areas.RECORD)
        # The channel records are the caller's; the last tick and the last word begin again at 0.
        self.beside = totals.Beside(unknown=self.counts.unknown)

    def called(self):
        """Behind each call; where no gap is to come, a log that is full but for the gap's place is emptied."""
        self.counts.outputs_are(self.machine.state.outputs)
        if not self.has_gaps and len(self.counts.changes) == self.counts.places - 1:
            self.empty()

    def say(self, command):
        for character in command + "\r":
            self.machine.wire_byte(ord(character), self.program, self.saved, self.log, self.reply)
            self.called()

    def tick(self):
        self.counts.tick_ends()
        assert self.machine.tick(self.program, self.log)[0] == 0
        self.called()

    def press(self, button):
        self.machine.press(button, self.program, self.log)
        self.called()

    def empty(self):
        emptied = bytearray(len(self.log))
        refusal, _, length = self.machine.empty(self.log, emptied)
        assert refusal == 0
        self.counts.met["a log of no record"] += length == 0
        self.counts.empty()
        self.channels, self.beside = totals.bring_forward(self.channels, self.beside, bytes(emptied[:length]))
        self.counts.hold(self.channels, self.beside)


def some_program(chance):
    """States of few ticks in a loop, and end marks: most change the outputs, some by one bit."""
    lines, word = [("F", 1, chance.choice((2, 9, 9999)))], 0
    for _ in range(chance.choice((2, 3, 8))):
        word = chance.choice((word, word ^ 1 << chance.randrange(32), chance.getrandbits(32), 0))
        lines.append(("S", word, chance.choice((1, 1, 1, 2, 3, 9))))
    lines.append(("N", 1))
    return (lines + [box.END_MARK] * 200)[:200]


def take_step(chain, chance):
    luck = chance.random()
    if luck < 0.35:
        chain.say("CW%d%02X" % (chance.randrange(203, 207), chance.choice((0, 1, 128, 255, chance.randrange(256)))))
    elif luck < 0.45:
        chain.say(chance.choice(("CW210003", "CW210001", "CW210002", "CW210004", "CW210006", "CW209002", "CR206", "CR212", "x")))
    elif luck < 0.55:
        chain.press(chance.choice((1, 1, 2, 3)))
    elif luck < 0.9:
        for _ in range(chance.choice((1, 1, 2, 5, 30))):
            chain.tick()
    elif luck < 0.985:
        chain.empty()
    else:
        chain.power_on()


def run(chance, has_gaps):
    """The edges that a chain has met."""
    chain = Chain(chance, has_gaps)
    for _ in range(chance.choice((3, 20, 60, 150))):
        take_step(chain, chance)
    chain.empty()
    met = chain.counts.met
    gaps = chain.counts.gaps
    met["a chain with a gap" if gaps else "a chain without a gap"] += 1
    met["a chain with several gaps"] += gaps > 1
    met["several power-ons"] += chain.power_ons > 1
    met["no record at all"] += not any(map(any, chain.channels))
    return met


def main(count, seed):
    chance, met = random.Random(seed), Counter()
    for n in range(count):
        try:
            met += run(chance, n % 2 == 1)
        except (Difference, totals.Refusal) as difference:
            print(f"A DIFFERENCE in chain {n + 1}: {' '.join(map(str, difference.args))}")
            sys.exit(1)
    print(f"{count} chains of logs: every total is what was counted beside the box "
          f"({'; '.join(f'{name}: {times}' for name, times in sorted(met.items()))})")
    if count == 0 or (count >= ENOUGH and EDGES - met.keys()):
        sys.exit(f"totals_by_running.py: never met: {'; '.join(sorted(EDGES - met.keys()))}")


if __name__ == "__main__":
    if len(sys.argv) != 3:
        sys.exit("usage: totals_by_running.py COUNT SEED")
    main(int(sys.argv[1]), int(sys.argv[2]))
