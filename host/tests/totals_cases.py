"""The logs of totals.py, each with what the program must write and say, worked out by hand from request 11 and the program's page; nothing
was taken from a program.

A case is a name, its logs in the order of their emptying, the lines of channels that are not `0 0 0`, as closings, openings and ticks, and
the number unknown; or the file that is refused, counted from 1, its refusal, and what is told behind the number. Channel n is bit n-1.
"""
from loglist_records import change, gap, older_change, older_changes, older_gap


def text(channels=None, unknown="0"):
    """All 33 lines. All that is done here is spelling."""
    channels = channels or {}
    return "".join(f"{n} {channels.get(n, '0 0 0')}\n" for n in range(1, 33)) + f"unknown {unknown}\n"


# ---- one log

# Channel 1 closes at 5 and opens at 12.
ONE, TWO = change(5, 0, 1, 0), change(12, 1, 0, 1)
# Each channel by itself, channel n for n ticks.
WALK = b"".join(change(n * (n - 1) // 2, n, 1 << n - 1, 1 << n - 1 >> 1) for n in range(1, 33)) + change(528, 33, 0, 1 << 31)
# Changes of channel 1 in ticks 0, 1, 2 and so on to 4,094, so that it is closed from each even tick on: 2,048 closings, 2,047 ticks.
FULL = b"".join(change(tick, 7, 0, 1) if tick % 2 else change(tick, 7, 1, 0) for tick in range(4095))

PLAIN = [
    # "All channels start open at tick 0."
    ("no_log", (), {}, "0"),
    ("empty_log", (b"",), {}, "0"),
    ("empty_logs", (b"", b"", b""), {}, "0"),
    # "Ticks closed count to the last record read.": it is closed since that record
    ("closed", (ONE,), {1: "1 0 0"}, "0"),
    ("closed_and_opened", (ONE + TWO,), {1: "1 1 7"}, "0"),
    ("closed_at_tick_0", (change(0, 0, 1, 0) + change(3, 1, 0, 1),), {1: "1 1 3"}, "0"),
    ("closed_at_the_last_record", (ONE + change(12, 1, 3, 1) + change(20, 2, 2, 3),), {1: "1 1 15", 2: "1 0 8"}, "0"),
    ("one_change_closes_and_opens", (change(4, 0, 0x0F, 0) + change(10, 1, 0xF0, 0x0F),),
     {**{n: "1 1 6" for n in (1, 2, 3, 4)}, **{n: "1 0 0" for n in (5, 6, 7, 8)}}, "0"),
    ("no_change_of_others", (change(4, 0, 0x0F, 0) + change(10, 1, 0x0E, 0x0F) + change(11, 2, 0x8E, 0x0E),),
     {1: "1 1 6", 2: "1 0 7", 3: "1 0 7", 4: "1 0 7", 8: "1 0 0"}, "0"),
    ("all_channels", (change(1, 0, 0xFFFFFFFF, 0) + change(8, 1, 0, 0xFFFFFFFF),), {n: "1 1 7" for n in range(1, 33)}, "0"),
    ("channel_32", (change(2, 0, 0x80000000, 0) + change(9, 1, 0, 0x80000000),), {32: "1 1 7"}, "0"),
    ("each_channel", (WALK,), {n: f"1 1 {n}" for n in range(1, 33)}, "0"),
    ("one_tick", (change(5, 255, 1, 0) + change(5, 255, 0, 1) + change(5, 255, 1, 0) + change(5, 255, 0, 1),), {1: "2 2 0"}, "0"),
    ("every_cause", (change(1, 199, 1, 0) + change(2, 254, 0, 1) + change(3, 255, 1, 0) + change(4, 0, 0, 1),), {1: "2 2 2"}, "0"),
    ("last_tick", (change(0, 0, 1, 0) + change(4294967295, 1, 0, 1),), {1: "1 1 4294967295"}, "0"),
    ("ticks_of_four_bytes", (change(0x00FFFFFF, 0, 1, 0) + change(0x01020304, 1, 0, 1),), {1: "1 1 131845"}, "0"),
    ("most_changes", (FULL,), {1: "2048 2047 2047"}, "0"),
    ("full_log", (FULL + gap(4100, 1, 0),), {1: "2048 2047 2053"}, "1"),
]

# ---- several logs

CHAINS = [
    # "From one log or many in order of emptying"; "brought forward log by log"
    ("two_logs", (ONE, TWO), {1: "1 1 7"}, "0"),
    ("closed_over_a_log", (ONE, change(12, 1, 3, 1) + change(13, 2, 1, 3), change(20, 3, 0, 1)), {1: "1 1 15", 2: "1 1 1"}, "0"),
    # "072 a log whose first tick is earlier than the last one read": an equal one is not
    ("first_tick_equals_the_last", (ONE, change(5, 1, 3, 1)), {1: "1 0 0", 2: "1 0 0"}, "0"),
    ("empty_logs_between", (b"", ONE, b"", b"", TWO, b""), {1: "1 1 7"}, "0"),
    ("empty_log_behind", (ONE, b""), {1: "1 0 0"}, "0"),
    ("a_log_for_each_change", tuple(change(3 * n, 0, 1, 0) if n % 2 == 0 else change(3 * n, 1, 0, 1) for n in range(100)),
     {1: "50 50 150"}, "0"),
    ("many_ticks_between", (change(1, 0, 0x80000000, 0), change(4294967295, 1, 0, 0x80000000)), {32: "1 1 4294967294"}, "0"),
    ("full_logs", (FULL, change(4095, 0, 0, 1), change(5000, 0, 0x100, 0)), {1: "2048 2048 2048", 9: "1 0 0"}, "0"),
]

# ---- gaps

# From a gap's tick, 9, on channel 2 counts as closed and channel 1 as open; 2 are lost.
GAP = ONE + gap(9, 2, 2)

GAPS = [
    # "no closing or opening is counted for the gap"
    ("gap", (ONE + gap(9, 2, 0x80000000),), {1: "1 0 4"}, "2"),
    # "From a gap's tick on its stored word counts as the state"
    ("gap_and_a_change", (ONE + gap(9, 2, 0x80000000), change(20, 3, 0, 0x80000000)), {1: "1 0 4", 32: "0 1 11"}, "2"),
    ("gap_of_1", (ONE + gap(9, 1, 3), change(20, 3, 1, 3)), {1: "1 0 15", 2: "0 1 11"}, "1"),
    ("gap_that_leads_back", (ONE + gap(9, 2, 1), change(20, 3, 0, 1)), {1: "1 1 15"}, "2"),
    ("gap_in_the_last_change_s_tick", (ONE + gap(5, 3, 2), change(8, 1, 0, 2)), {1: "1 0 0", 2: "0 1 3"}, "3"),
    ("gap_at_the_last_tick", (ONE + gap(4294967295, 5, 2), change(4294967295, 1, 3, 2)), {1: "2 0 4294967290", 2: "0 0 0"}, "5"),
    ("first_tick_equals_the_gap_s", (GAP, change(9, 1, 0, 2)), {1: "1 0 4", 2: "0 1 0"}, "2"),
    ("empty_log_behind_a_gap", (GAP, b"", change(10, 1, 0, 2)), {1: "1 0 4", 2: "0 1 1"}, "2"),
    # "added up exactly"
    ("several_gaps", (GAP, change(10, 1, 3, 2) + gap(12, 5, 0), change(20, 2, 4, 0)), {1: "2 0 6", 2: "0 0 3", 3: "1 0 0"}, "7"),
    # "4,294,967,295 makes it "or more""
    ("gap_at_its_cap", (ONE + gap(5, 4294967295, 0),), {1: "1 0 0"}, "4294967295 or more"),
    ("gap_below_its_cap", (ONE + gap(5, 4294967294, 0),), {1: "1 0 0"}, "4294967294"),
    ("two_below_their_cap", (ONE + gap(5, 4294967294, 0), change(6, 0, 1, 0) + gap(7, 4294967294, 0)), {1: "2 0 1"}, "8589934588"),
    ("two_at_their_cap", (ONE + gap(5, 4294967295, 0), change(6, 0, 1, 0) + gap(7, 4294967295, 0)), {1: "2 0 1"}, "8589934590 or more"),
    ("cap_and_few", (ONE + gap(5, 4294967295, 0), change(6, 0, 1, 0) + gap(7, 3, 0)), {1: "2 0 1"}, "4294967298 or more"),
    ("few_and_cap", (ONE + gap(5, 3, 0), change(6, 0, 1, 0) + gap(7, 4294967295, 0)), {1: "2 0 1"}, "4294967298 or more"),
    ("cap_and_none", (ONE + gap(5, 4294967295, 0), change(6, 0, 1, 0)), {1: "2 0 0"}, "4294967295 or more"),
    ("sum_as_great_as_the_cap", (ONE + gap(5, 4294967294, 0), change(6, 0, 1, 0) + gap(7, 1, 0)), {1: "2 0 1"}, "4294967295"),
]

# ---- what cannot be seen

# "in order of emptying", and none left out: where ticks and words go on all the same, nobody can tell.
BACK = change(5, 255, 1, 0) + change(5, 255, 0, 1)
UNSEEN = [
    # one that stands in one tick and leads back to the word before it
    ("given_twice_and_not_seen", (BACK, BACK), {1: "2 2 0"}, "0"),
    ("left_out_and_not_seen", (ONE, change(9, 3, 0, 1)), {1: "1 1 4"}, "0"),  # between them from 1 to 3 and back
    ("power_on_and_not_seen", (ONE + TWO, change(20, 0, 1, 0)), {1: "2 1 7"}, "0"),  # the last outputs were off
]

# ---- refusals: the file, the refusal, what is told behind it


def tick(expected, found):
    return f": expected a first tick of {expected} or later, found {found}"


def word(expected, found):
    return f": expected {expected} as the first earlier word, found {found}"


OLDER = older_change(5, 0, 1)
LATER = change(7, 1, 3, 1)  # behind ONE
LAST = change(9, 2, 2, 3)  # behind LATER

REFUSED = [
    # "those of the reader"
    ("056", (bytes(65537),), 1, "E056", ""),
    ("056_of_16_bytes", (FULL + gap(4100, 1, 0) + b"\0",), 1, "E056", ""),
    ("050", (ONE + TWO[:15],), 1, "E050", ""),
    ("050_of_a_byte", (b"\x1e",), 1, "E050", ""),
    ("053", (ONE + change(12, 1, 0, 1, mark=0x1EE1),), 1, "E053", ""),
    ("051", (ONE + change(12, 1, 0, 1, mark=0x1EE0),), 1, "E051", ""),
    ("052", (ONE + change(12, 200, 0, 1),), 1, "E052", ""),
    ("052_of_a_gap_alone", (gap(5, 1, 1),), 1, "E052", ""),
    ("052_of_a_4096th_change", (FULL + change(4095, 7, 0, 1),), 1, "E052", ""),
    # "and 051 for a 12-byte log it accepts"
    ("older", (OLDER,), 1, "E051", ""),
    ("older_with_a_gap", (OLDER + older_gap(9, 2),), 1, "E051", ""),
    ("older_of_the_most_changes", (older_changes(5460),), 1, "E051", ""),
    ("older_050", (OLDER + OLDER[:11],), 1, "E050", ""),
    ("older_052", (older_change(5, 200, 1),), 1, "E052", ""),
    ("older_053", (OLDER + older_change(6, 0, 2, mark=0x1EE2),), 1, "E053", ""),
    ("older_056", (older_changes(5460) + older_gap(5461, 1) + b"\0",), 1, "E056", ""),
    ("older_behind_another", (ONE, older_change(4, 0, 2)), 2, "E051", ""),
    # "072 a log whose first tick is earlier than the last one read"
    ("072", (change(16, 0, 5, 0), change(15, 1, 0, 5)), 2, "E072", tick(16, 15)),
    ("072_of_tick_0", (change(1, 0, 5, 0), change(0, 1, 0, 5)), 2, "E072", tick(1, 0)),
    ("072_of_the_last_tick", (change(4294967295, 0, 5, 0), change(4294967294, 1, 0, 5)), 2, "E072", tick(4294967295, 4294967294)),
    ("072_of_the_high_byte", (change(0x01000000, 0, 5, 0), change(0x00FFFFFF, 1, 0, 5)), 2, "E072", tick(16777216, 16777215)),
    ("072_behind_a_gap", (GAP, change(8, 1, 0, 2)), 2, "E072", tick(9, 8)),
    ("072_behind_an_empty_log", (ONE, b"", change(4, 1, 0, 1)), 3, "E072", tick(5, 4)),
    # "073 a log whose first earlier word doesn't match the last word read"
    ("073", (change(16, 0, 5, 0), change(17, 1, 0, 1)), 2, "E073", word("00000005", "00000001")),
    ("073_of_the_first_log", (change(5, 0, 1, 0x80000000),), 1, "E073", word("00000000", "80000000")),
    ("073_of_the_first_log_at_tick_0", (change(0, 0, 5, 4),), 1, "E073", word("00000000", "00000004")),
    ("073_of_each_byte", (change(16, 0, 0x12345678, 0), change(17, 1, 0, 0x9ABCDEF0)), 2, "E073", word("12345678", "9ABCDEF0")),
    ("073_of_the_highest_bit", (change(16, 0, 0x80000000, 0), change(17, 1, 1, 0)), 2, "E073", word("80000000", "00000000")),
    ("073_behind_a_gap", (GAP, change(10, 1, 0, 1)), 2, "E073", word("00000002", "00000001")),
    ("073_behind_an_empty_log", (b"", change(5, 0, 2, 1)), 2, "E073", word("00000000", "00000001")),
    # "Refusals, in order"
    ("reader_before_072_and_073", (change(16, 0, 5, 0), change(15, 200, 0, 1)), 2, "E052", ""),
    ("051_before_072", (change(16, 0, 5, 0), older_change(15, 1, 0)), 2, "E051", ""),
    ("072_before_073", (change(16, 0, 5, 0), change(15, 1, 0, 1)), 2, "E072", tick(16, 15)),
    # page: "the first log that is refused ends it, and those behind it are not read"
    ("first_of_two", (ONE[:15], change(5, 0, 1, 4)), 1, "E050", ""),
    ("behind_others", (ONE, TWO, b"", change(11, 0, 1, 0), b"x"), 4, "E072", tick(12, 11)),
    # page: "a wrong order, a log given twice, a power-on between", "a log left out"
    ("given_twice", (ONE + TWO, ONE + TWO), 2, "E072", tick(12, 5)),
    ("given_twice_in_one_tick", (change(5, 0, 1, 0) + change(5, 1, 3, 1),) * 2, 2, "E073", word("00000003", "00000000")),
    ("gap_given_twice", (GAP, GAP), 2, "E072", tick(9, 5)),
    ("left_out", (ONE, LAST), 2, "E073", word("00000001", "00000003")),
    ("first_left_out", (LATER, LAST), 1, "E073", word("00000000", "00000001")),
    ("wrong_order", (ONE, LAST, LATER), 2, "E073", word("00000001", "00000003")),
    ("wrong_order_of_words_that_fit", (ONE, change(11, 3, 0, 1), change(9, 2, 1, 0), change(7, 1, 0, 1)), 3, "E072", tick(11, 9)),
    ("power_on_between", (ONE, change(3, 0, 1, 0)), 2, "E072", tick(5, 3)),
    ("power_on_between_and_later", (ONE, change(30, 0, 2, 0)), 2, "E073", word("00000001", "00000000")),
]

# ---- the stored logs of the program: the second is its standard input

STORED = {
    "first.log": change(16, 0, 0x00000005, 0) + change(36, 1, 0x80000001, 0x00000005) + gap(40, 3, 0x00000010),
    "-": change(40, 254, 0x00000011, 0x00000010) + change(41, 255, 0, 0x00000011),
    "last.log": change(100, 199, 0xFFFFFFFF, 0) + gap(110, 4294967295, 0x12345678),
}
# Channel 1 from 16 to 40, from 40 to 41 and from 100 to 110; channel 5 from the gap at 40 to 41, and from 100 on like all others.
STORED_CHANNELS = {**{n: "1 0 10" for n in range(1, 33)}, 1: "3 1 35", 3: "2 1 30", 5: "1 1 11", 32: "2 0 14"}
STORED_UNKNOWN = "4294967298 or more"

CASES = [
    *[(name, logs, text(channels, unknown), []) for name, logs, channels, unknown in
      (*PLAIN, *CHAINS, *GAPS, *UNSEEN, ("stored", tuple(STORED.values()), STORED_CHANNELS, STORED_UNKNOWN))],
    *[(name, logs, f"{refusal}\n", [f"'{which}.log' is refused with {refusal}{why}"]) for name, logs, which, refusal, why in REFUSED],
]
