"""The time of two programs `totals` on 1,000 full logs, for totals.py: 4,095 changes each, and in every tenth a gap.

What a log takes goes by how many channels a change closes and opens, so there are logs of three kinds, and one of these in turn: writes of
one output, as where relays are tried one after the other; writes of a byte; and States with words by chance, which close and open sixteen
channels at a time. The two programs run in turns, start and end included; what they write must be equal, and the best time of each counts.
It is the time of the processor, theirs and the system's for them, in which other work on the machine does not count.
"""
import itertools
import operator
import os
import random
import struct
import subprocess
import tempfile

from loglist_records import gap

LOGS, CHANGES, RUNS, MOST = 1000, 4095, 21, 1.2
MARK_AND_KIND = 0x1EE201 << 8


def kinds(chance):
    """Of each kind the bits that the changes of a log alter, and their causes."""
    one = [1 << chance.randrange(32) for _ in range(CHANGES)]
    byte = [chance.randrange(1, 256) << 8 * chance.randrange(4) for _ in range(CHANGES)]
    word = [chance.randrange(1, 1 << 32) for _ in range(CHANGES)]
    written, by_lines = [255] * CHANGES, [n % 200 for n in range(CHANGES)]
    return {"writes of one output": [(one, written)], "writes of a byte": [(byte, written)], "words by chance": [(word, by_lines)],
            "each kind in turn": [(one, written), (byte, written), (word, by_lines)]}


def logs(turn, chance):
    """So many logs, each of which goes on where the one before it ended."""
    tick = word = 0
    steps = [chance.randrange(30) for _ in range(CHANGES)]
    for number, (altered, causes) in zip(range(LOGS), itertools.cycle(turn)):
        words = list(itertools.accumulate(altered, operator.xor, initial=word))
        ticks = list(itertools.accumulate(steps, initial=tick))
        fields = [0] * 4 * CHANGES
        fields[0::4] = [MARK_AND_KIND | cause for cause in causes]
        fields[1::4], fields[2::4], fields[3::4] = ticks[1:], words[1:], words[:-1]
        tick, word = ticks[-1], words[-1]
        log = struct.pack(f">{4 * CHANGES}I", *fields)
        if number % 10 == 9:
            tick, word = tick + 3, word ^ 0x80000001
            log += gap(tick, 5, word)
        yield log


def seconds(program, folder, names):
    """The time of a run, and what it wrote."""
    with subprocess.Popen([program, *names], cwd=folder, stdin=subprocess.DEVNULL, stdout=subprocess.PIPE) as process:
        text = process.stdout.read()
        _, status, used = os.wait4(process.pid, 0)
        process.returncode = os.waitstatus_to_exitcode(status)
    if process.returncode != 0:
        raise SystemExit(f"totals.py: {program} ends with status {process.returncode}")
    return used.ru_utime + used.ru_stime, text


def ratio(name, turn, chance, pair):
    with tempfile.TemporaryDirectory() as folder:
        names = [f"{n:04d}.log" for n in range(LOGS)]
        for file_name, log in zip(names, logs(turn, chance)):
            with open(os.path.join(folder, file_name), "wb") as file:
                file.write(log)
        best, outputs = [float("inf")] * 2, [b""] * 2
        for run in range(2 * RUNS):
            which = (run + run // 2) % 2  # each goes first in turn
            took, outputs[which] = seconds(pair[which], folder, names)
            best[which] = min(best[which], took)
    if outputs[0] != outputs[1] or outputs[0].count(b"\n") != 33:
        raise SystemExit(f"totals.py: the outputs differ on {name}, or are no totals")
    print(f"1,000 logs, {name}: {1000 * best[0]:.0f} ms and {1000 * best[1]:.0f} ms: {best[0] / best[1]:.2f}", flush=True)
    return best[0] / best[1]


def speed(*programs):
    """True where a ratio is above the most."""
    pair = [os.path.abspath(program) for program in programs]
    chance = random.Random(1)
    return max(ratio(name, turn, chance, pair) for name, turn in kinds(chance).items()) > MOST
