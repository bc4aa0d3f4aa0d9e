"""Switching totals per channel: a third reading of request 11, beside the proved one and the one in independent/.

What a log tells is read by loglist.py: its changes, and its gap if there is one. The totals are told channel by channel, from the changes
and from the stretches of ticks between them. Each clause of the request stands above what renders it, those of its page,
docs/programs/totals.md, with "page" before them. As a module: bring_forward(channels, beside, log), said(logs). As a program:

    python3 totals.py [LOG...]      prints the totals, or the refusal, as `totals` does
    python3 totals.py --check FILE  holds the answers of a file that `compare totals --keep FILE` wrote to this reading; status 1 at the
                                    first that differs

A record of that file: the count of the channel records in two bytes; these, closings, openings and ticks in eight each; beside them the
last tick and the last word in four each, the number unknown in eight, "or more" in one; the length of the log in four, and its bytes; the
refusal in one, and in one whether all is as it was; then, where that is 0, the channel records and what is beside them, once more. Numbers
have their high byte first.
"""

import struct
import sys
from collections import Counter
from typing import NamedTuple

import loglist

CHANNELS = 32
TOTAL_MOST, LOST_MOST = 18_446_744_073_709_551_615, 4_294_967_295


class Channel(NamedTuple):
    # "for each of the 32 channels a record of closings, openings and ticks spent closed"
    closings: int = 0
    openings: int = 0
    ticks: int = 0


class Beside(NamedTuple):
    # "All channels start open at tick 0."
    tick: int = 0  # of the last record read
    word: int = 0  # and the one that stands from there on
    # "a number of changes unknown is kept beside the totals"
    unknown: int = 0
    more: bool = False


class Refusal(Exception):
    """A refusal: its number; and for 072 and 073 what was expected, and what was found."""


# ---- a log

def read(log):
    """The changes and the gap of a log, by "those of the reader"."""
    try:
        changes, gap = loglist.history(log)
    except loglist.Refusal as refusal:
        raise Refusal(refusal.args[0]) from None
    # "051 for a 12-byte log it accepts"
    if changes and loglist.form_of(log) is loglist.OLD:
        raise Refusal(51)
    return changes, gap


def closed(word, channel):
    # 01: "Output n is bit n-1 of the output word."
    return word >> channel - 1 & 1 == 1


def stretches(beside, changes, gap):
    """The words that stood since the last record read, and for how many ticks each; "Ticks closed count to the last record read"."""
    tick, word = beside.tick, beside.word
    for change in changes:
        yield word, change.tick - tick
        tick, word = change.tick, change.word
    # "From a gap's tick on its stored word counts as the state": up to it the word before.
    if gap:
        yield word, gap.tick - tick


# ---- bringing forward

def follows(beside, first):
    # "072 a log whose first tick is earlier than the last one read"
    if first.tick < beside.tick:
        raise Refusal(72, beside.tick, first.tick)
    # "073 a log whose first earlier word doesn't match the last word read"
    if first.earlier != beside.word:
        raise Refusal(73, beside.word, first.earlier)


def channel_after(number, channel, beside, changes, gap):
    # "no closing or opening is counted for the gap": so for the changes alone.
    return Channel(
        channel.closings + sum(closed(change.word, number) and not closed(change.earlier, number) for change in changes),
        channel.openings + sum(closed(change.earlier, number) and not closed(change.word, number) for change in changes),
        channel.ticks + sum(ticks for word, ticks in stretches(beside, changes, gap) if closed(word, number)))


def beside_after(beside, changes, gap):
    if not gap:
        return beside._replace(tick=changes[-1].tick, word=changes[-1].word)
    # "added up exactly; 4,294,967,295 makes it "or more""
    return Beside(gap.tick, gap.word, beside.unknown + gap.lost, beside.more or gap.lost == LOST_MOST)


def bring_forward(channels, beside, log):
    """The channel records and what is beside them after the log; those given stay what they are, and so "Nothing changes" on a refusal."""
    # "075 other than 32 records, checked first"
    if len(channels) != CHANNELS:
        raise Refusal(75)
    changes, gap = read(log)
    if not changes:
        return channels, beside
    follows(beside, changes[0])
    after = [channel_after(number, channel, beside, changes, gap) for number, channel in enumerate(channels, 1)]
    beside = beside_after(beside, changes, gap)
    # "074 any total would pass 18,446,744,073,709,551,615"; the number unknown is added up like the totals
    if max(beside.unknown, *(max(channel) for channel in after)) > TOTAL_MOST:
        raise Refusal(74)
    return after, beside


# ---- what the program prints

def text(channels, beside):
    # page: "CHANNEL CLOSINGS OPENINGS TICKS", "from channel 1 to channel 32, with a space between the fields"
    lines = [f"{number} {channel.closings} {channel.openings} {channel.ticks}\n" for number, channel in enumerate(channels, 1)]
    # page: "unknown N", "unknown N or more"
    return "".join([*lines, f"unknown {beside.unknown}{' or more' if beside.more else ''}\n"]).encode()


def told(name, number, *numbers):
    """The message of a refusal."""
    why = ""
    if number == 72:
        why = ": expected a first tick of {} or later, found {}".format(*numbers)
    elif number == 73:
        why = ": expected {:08X} as the first earlier word, found {:08X}".format(*numbers)
    return f"{name} is refused with E{number:03d}{why}"


def said(logs):
    """What the program `totals` writes for logs, each with its name as it is told, and the lines that it says."""
    channels, beside = [Channel()] * CHANNELS, Beside()
    for name, log in logs:
        try:
            channels, beside = bring_forward(channels, beside, log)
        except Refusal as refusal:
            # page: "One line on standard output, and nothing else there: the first log that is refused ends it"
            return b"E%03d\n" % refusal.args[0], [told(name, *refusal.args)]
    return text(channels, beside), []


# ---- the answers of a comparison

CHANNEL, BESIDE = struct.Struct(">QQQ"), struct.Struct(">IIQ?")


class Kept:
    """The records of a file that the comparison wrote."""

    def __init__(self, path):
        self.path, self.file = path, open(path, "rb")  # closed with the program

    def take(self, size, end=False):
        taken = self.file.read(size)
        if len(taken) != size and not (end and not taken):
            sys.exit(f"totals.py: {self.path} ends within a record")
        return taken

    def number(self, size):
        return int.from_bytes(self.take(size), "big")

    def state(self, count):
        channels = [Channel(*CHANNEL.unpack(self.take(CHANNEL.size))) for _ in range(count)]
        return channels, Beside(*BESIDE.unpack(self.take(BESIDE.size)))

    def __iter__(self):
        """Channel records and what is beside them, the log, the refusal, and these two afterwards."""
        while count := self.take(2, True):
            count = int.from_bytes(count, "big")
            before, log, refusal, kept = self.state(count), self.take(self.number(4)), self.number(1), self.number(1)
            yield *before, log, refusal, before if kept else self.state(count)


def answer(channels, beside, log):
    """The refusal, or 0, and the channel records and what is beside them afterwards."""
    try:
        return 0, bring_forward(channels, beside, log)
    except Refusal as refusal:
        return refusal.args[0], (channels, beside)


def first_difference(got, want):
    for number, (one, other) in enumerate(zip(got[0], want[0]), 1):
        if one != other:
            return f"channel {number}: stored {one}, this reading {other}"
    return f"beside: stored {got[1]}, this reading {want[1]}"


def check(path):
    met = Counter()
    for channels, beside, log, *stored in Kept(path):
        want = list(answer(channels, beside, log))
        if stored != want:
            print(f"A DIFFERENCE in record {met.total() + 1}: {len(channels)} channel records, {beside}, the log {log.hex().upper()}")
            print(f"refusal: stored {stored[0]}, this reading {want[0]}")
            print(first_difference(stored[1], want[1]) if stored[1] != want[1] else "the totals are equal")
            sys.exit(1)
        met[f"E{want[0]:03d}" if want[0] else "accepted"] += 1
    if not met:
        sys.exit(f"totals.py: {path} has no record")
    print(f"{met.total()} logs: every total is that of the third reading "
          f"({', '.join(f'{name}: {count}' for name, count in sorted(met.items()))})")


# ---- the program

def logs_of(names):
    """Each log when its turn comes: page: "of one that is longer than a log no more is read than shows it"."""
    for name in names:
        if name == "-":
            yield "standard input", sys.stdin.buffer.read(loglist.NEW.most + 1)
        else:
            with open(name, "rb") as file:
                yield f"'{name}'", file.read(loglist.NEW.most + 1)


def main(words):
    if len(words) == 2 and words[0] == "--check":
        return check(words[1])
    if any(word.startswith("-") and word != "-" for word in words):
        sys.exit("usage: totals.py [LOG...], or totals.py --check FILE")
    output, messages = said(logs_of(words))
    sys.stdout.buffer.write(output)
    if messages:
        sys.exit("\n".join(messages))
    return 0


if __name__ == "__main__":
    sys.exit(main(sys.argv[1:]))
