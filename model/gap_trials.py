"""Scenarios of document 02, item 8: what a record tells of the words before and after, and a gap of what was lost.

Records have 16 bytes.  The last four hold the word before the change in kind 1, and the word after the last lost change in a gap, whose
tick is that of the first.
"""

from trial_script import BLINK, LOG, alter, byte, empty, fresh, lend, on, press, program, say, scenario, stands, tick

# Line k of STEPS holds WORDS[k] for one tick.  The bytes of a word differ, and each from those of the next word in its place.
NONE = "00000000"
WORDS = tuple("%08X" % (0x10305070 + 0x01010101 * k) for k in range(14))
STEPS = tuple("5300" + word + "0001" for word in WORDS)


def change(cause, at_tick, word, earlier):
    """A record of kind 1."""
    return "1EE201%02X %08X %s %s" % (cause, at_tick, word, earlier)


def step(k, at_tick):
    """The record of line k of STEPS, where the line before it was held, or no output was on if k is 0."""
    return change(k, at_tick, WORDS[k], WORDS[k - 1] if k else NONE)


def gap(at_tick, lost, word):
    """A record of kind 2."""
    return "1EE20200 %08X %08X %s" % (at_tick, lost, word)


# ---- What a gap tells.

@scenario
def gap_tick_and_word():
    # "The gap's tick is now that of the first lost change"; its last bytes "hold the output word after the last lost change".
    for log, kept in ((32, 1), (48, 2), (64, 3)):
        fresh(*STEPS, log=log, out=64)
        tick(times=2)
        press(1)
        tick(times=kept - 1)
        for lost in range(1, 6):
            tick()
            stands(LOG, 16 * kept, gap(2 + kept, lost, WORDS[kept + lost - 1]))
        # A tick in a pause, a read and a refused press are no changes: the gap stays as it is.
        press(2)
        tick(times=3)
        say("CR206", WORDS[kept + 4][6:])
        press(3, 34)
        stands(LOG, 16 * kept, gap(2 + kept, 5, WORDS[kept + 4]))
        press(2)
        tick()
        empty(*(step(k, 2 + k) for k in range(kept)), gap(2 + kept, 6, WORDS[kept + 5]))


@scenario
def back_to_the_word_before():
    # "A gap with lost number 1 cannot hold the word before it": one with number 2 can, since two changes may lead back to it.
    fresh(*BLINK, log=32, out=32)
    press(1, lines=1)
    for lost in range(1, 5):
        tick(lines=1 - lost % 2)
        stands(LOG, 16, gap(1, lost, "0000000%d" % (1 + lost % 2)))
    empty(change(1, 0, "00000001", NONE), gap(1, 4, "00000001"))
    tick()
    empty(change(2, 5, "00000002", "00000001"))
    # By writes, all on one tick: first to the word before the records, then to that before the gap.
    fresh(log=48, out=48)
    tick(times=7)
    for data, at, record in (("01", 0, change(255, 7, "01000000", NONE)), ("03", 16, change(255, 7, "03000000", "01000000")),
                             ("00", 32, gap(7, 1, NONE)), ("03", 32, gap(7, 2, "03000000")), ("01", 32, gap(7, 3, "01000000"))):
        say("CW203" + data, "OK")
        stands(LOG, at, record)
    empty(change(255, 7, "01000000", NONE), change(255, 7, "03000000", "01000000"), gap(7, 3, "01000000"))
    say("CW20300", "OK")
    empty(change(255, 7, NONE, "01000000"))


@scenario
def lost_by_every_cause():
    # Kind 2 has "cause 0", whether a write, 006, a start or a tick made the change.  First lost on tick 0, the gap keeps tick 0.
    fresh("53008000 00010003", log=32, out=32)
    say("CW206FF", "OK")
    for text, lost, word in (("CW20301", 1, "010000FF"), ("CW20301", 1, "010000FF"), ("CW20302", 2, "020000FF"),
                             ("CW210006", 3, "80000001"), ("CW210006", 3, "80000001"), ("CW20455", 4, "80550001"),
                             ("CW210003", 5, "80000001")):
        say(text, "OK")
        stands(LOG, 16, gap(0, lost, word))
        tick()
    tick(times=2)
    empty(change(255, 0, "000000FF", NONE), gap(0, 6, NONE))


# ---- A log that the caller altered.

@scenario
def altered_gap():
    # "each call still writes exactly the record that is due": its tick, number and word are the box's own, whatever stands in the gap's place.
    fresh(*STEPS, log=48, out=48)
    alter(LOG, 32, gap(0, 9, WORDS[9]))
    press(1)
    tick()
    stands(LOG, 32, gap(0, 9, WORDS[9]))
    tick()
    stands(LOG, 32, gap(2, 1, WORDS[2]))
    for lost, (at, data) in enumerate(((32, "00" * 16), (32, "FF" * 16), (36, NONE), (36, "00000009"), (40, NONE), (40, "FFFFFFFF"),
                                       (44, WORDS[0]), (32, step(2, 2)), (0, "5A" * 48)), 2):
        alter(LOG, at, data)
        tick()
        stands(LOG, 32, gap(2, lost, WORDS[1 + lost]))
    # "A log that the caller altered is not repaired" by a call that makes no change, and "emptying copies what stands there".
    press(2)
    alter(LOG, 32, gap(1, 1, WORDS[1]))
    tick()
    empty("5A" * 16, "5A" * 16, gap(1, 1, WORDS[1]))
    press(2)
    tick(times=2)
    empty(step(12, 13), step(13, 14))


@scenario
def altered_words():
    # "the word before the change" is that of the outputs, not the one that stands in the record before.
    fresh(*STEPS, log=64, out=64)
    press(1)
    alter(LOG, 8, WORDS[9] + WORDS[8])
    tick()
    stands(LOG, 16, step(1, 1))
    alter(LOG, 0, "FF" * 64)
    tick()
    stands(LOG, 0, "FF" * 32 + step(2, 2) + "FF" * 16)
    empty("FF" * 16, "FF" * 16, step(2, 2))
    alter(LOG, 0, "00" * 64)
    tick()
    empty(step(3, 3))
    # A gap's number of 1 and its word, where the last record kept was altered to that very word.
    tick(times=3)
    alter(LOG, 32 + 8, WORDS[7])
    tick()
    empty(step(4, 4), step(5, 5), change(6, 6, WORDS[7], WORDS[5]), gap(7, 1, WORDS[7]))


# ---- From one log to the next.

@scenario
def words_over_emptyings():
    # The first record goes on from the last word of the log before it, a change's or a gap's; each gap has a first lost change of its own.
    fresh(*STEPS, log=48, out=48)
    press(1)
    empty(step(0, 0))
    tick(times=2)
    empty(step(1, 1), step(2, 2))
    tick(times=4)
    empty(step(3, 3), step(4, 4), gap(5, 2, WORDS[6]))
    tick(times=3)
    empty(step(7, 7), step(8, 8), gap(9, 1, WORDS[9]))
    empty()
    press(2)
    tick(times=5)
    press(2)
    tick(times=4)
    empty(step(10, 15), step(11, 16), gap(17, 2, WORDS[13]))
    # At the end mark behind STEPS all outputs go off.
    tick()
    empty(change(14, 19, NONE, WORDS[13]))


@scenario
def gap_over_refusals():
    # "A refusal [...] leaves the state and every lent byte untouched": the first lost change stays the first, above all after 035.
    fresh(*STEPS, log=48, out=48)
    press(1)
    tick(times=3)
    for out in (0, 47):
        lend(out=out)
        empty(refusal=35)
        tick()
        stands(LOG, 32, gap(2, 3 if out == 0 else 4, WORDS[4 if out == 0 else 5]))
    lend(log=47, out=48)
    empty(refusal=31)
    tick(31)
    byte(13, 31)
    press(1, 31)
    lend(program=1599, log=48)
    tick(30)
    press(2, 30)
    lend(program=1600)
    stands(LOG, 32, gap(2, 4, WORDS[5]))
    tick()
    empty(step(0, 0), step(1, 1), gap(2, 5, WORDS[6]))


@scenario
def gap_over_power_on():
    # "Power-on: outputs 0, [...] tick count 0, log empty": the lost changes are forgotten, their tick with them, and the log's bytes stay.
    for refused in (False, True):
        fresh(*STEPS, log=48, out=48)
        press(1)
        tick(times=5)
        if refused:
            lend(log=31)
            on(31)
            lend(log=48)
            empty(refusal=31)
        on()
        stands(LOG, 0, step(0, 0) + step(1, 1) + gap(2, 4, WORDS[5]))
        empty()
        program(*STEPS)
        tick(times=4)
        press(1)
        tick(times=2)
        stands(LOG, 32, gap(6, 1, WORDS[2]))
        tick()
        empty(step(0, 4), step(1, 5), gap(6, 2, WORDS[3]))


# ---- The sizes.

@scenario
def gap_areas():
    # "The smallest log area is 32 bytes and R counts 16-byte records": the gap stands in the last whole one, and the bytes behind it stay.
    for log, kept in ((32, 1), (33, 1), (47, 1), (48, 2), (49, 2), (63, 2), (64, 3)):
        fresh(*STEPS, log=log, out=64)
        alter(LOG, 16 * kept + 16, "E1" * 16)
        press(1)
        tick(times=kept + 1)
        empty(*(step(k, k) for k in range(kept)), gap(kept, 2, WORDS[kept + 1]))
        stands(LOG, 16 * kept + 16, "E1" * 16)
    # 24 bytes were enough for records of 12.
    for log in (24, 25, 31, 65537):
        lend(log=log)
        on(31)
        empty(refusal=31)
    # The largest has room for 4,096.
    fresh(*STEPS, log=65536, out=128)
    press(1)
    tick(times=6)
    empty(*(step(k, k) for k in range(7)))
