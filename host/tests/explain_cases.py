"""The programs of explain.py, each with a start, a limit and the report that it must get, worked out by hand from request 9 and the running
rules; no report was taken from a reader of programs.

A program is written as its lines, from line 000 on: S5 is a State of 5 ticks, F1x3 a For of counter 1 and count 3, N1 a Next, B a Bad line,
16 hex digits the bytes of a line; behind @198 it goes on with line 198. The lines that are not written are States of 7 ticks, on even
lines, and Bad lines: none is an end or part of a loop, and whoever goes on where the program stops is found out by them. Start and limit
are the words of the call. Where a trace is told, a line is its number, t3 is "tick 3 comes", and 1x399 is line 1, 399 times.
"""
from durations_cases import line


def program(words):
    lines, place = [line("S7"), line("B")] * 100, 0
    for word in words.split():
        if word[0] == "@":
            place = int(word[1:])
        else:
            lines[place] = line(word)
            place += 1
    return b"".join(lines)


# ---- the report as text

REASONS = {
    "006": "counter {counter} was still in use by the For on line {cause}. Give the inner loop another counter.",
    "006 crossing": "counter {counter} was still in use by the For on line {cause}. Two loops cross: end the inner one before the outer one.",
    "007": "no Next of counter {cause} stands on a later line. Write N{cause} on the line where the loop ends.",
    "008 yes": "counter {counter} was not in use, although a For of it stands above. Start at that For or above it, or take this Next out.",
    "008 no": "no For of counter {counter} stands above. Write one there, or take this Next out.",
    "009": "the program went on past line 199, the last one. Write an end mark, S00000000000000, on the line where it ends.",
    "011": "the program came to its end mark. Nothing has to be done.",
    "013": "more than 400 For and Next lines fell due in one tick, behind the State on line {cause}. "
           "Put a State with a time above 0 into the loop.",
    "013 -": "more than 400 For and Next lines fell due in the start itself. Put a State with a time above 0 into the loop.",
    "014": "its eight bytes are no State, For or Next. Write this line again.",
}
OTHERS = {
    "E030": "This is no stored program: it has fewer or more than 1600 bytes. Give a file of 200 lines of 8 bytes.",
    "E060": "The start line is above 199, the last line. Give a line of 0 to 199.",
    "E061": "The limit is above 100000 ticks. Give a limit of 0 to 100000.",
}


def seconds(ticks):
    return f"{ticks[:-1] or '0'}.{ticks[-1]}"


def stopped(first, read):
    """The two lines of a stop by their first one and what a read of the line answers."""
    event, tick, number, cause = first.split()
    kind = "006 crossing" if event == "006" and cause >= number else f"{event} {cause}"
    reason = REASONS.get(kind) or REASONS[event]
    return f"{first}\nStopped after {seconds(tick)} s on line {number} ({read}): {reason.format(counter=read[1], cause=cause)}\n"


def running(limit):
    return f"running\nStill running after {seconds(limit)} s: nothing stops it up to the limit. A limit can be as large as 100000 ticks.\n"


def refused(refusal):
    return f"{refusal}\n{OTHERS[refusal]}\n"


# ---- stops: name, lines, start and limit, first line of the report, what a read of the line answers

END = "S00010203040000"

ENDS = [
    ("end_in_the_start", "S0", "0 100000", "011 0 000 -", END),
    ("end_behind_a_state", "S5 S0", "0 100000", "011 5 001 -", END),
    ("end_with_outputs", "S1 5300ABCDEF010000", "0 100000", "011 1 001 -", "S00ABCDEF010000"),
    ("end_with_outputs_0", "S1 5300000000000000", "0 100000", "011 1 001 -", "S00000000000000"),
    ("worked_point", "F1x3 S2 N1 S0", "0 100000", "011 6 003 -", END),
    ("two_deep", "F1x2 F2x3 S1 N2 N1 S0", "0 100000", "011 6 005 -", END),
    ("end_in_a_loop", "F1x3 S2 S0 N1", "0 100000", "011 2 002 -", END),
    ("start_behind_an_end", "S5 S0 S3 S0", "2 100000", "011 3 003 -", END),
    ("states_of_9999", "S9999 S9999 S0", "0 100000", "011 19998 002 -", END),
    # the Next on line 001 is the first later one, that on 199 is not
    ("none", "F1x0 N1 S2 S0 @199 N1", "0 100000", "011 2 003 -", END),
    ("none_passes_over_bad_lines", "F1x0 B B N1 S0", "0 100000", "011 0 004 -", END),
    ("none_passes_over_a_damaged_next", "F1x0 4E01000000000001 N1 S3 S0", "0 100000", "011 3 004 -", END),
    # 0, 1 to behind 3; there counter 2 is still busy: 4 t3, 5 back to 1, and on to 4 t6, 5 frees it
    ("none_passes_over_a_next_of_another", "F2x2 F1x0 N2 N1 S3 N2 S0", "0 100000", "011 6 006 -", END),
]

PAST_199 = [
    ("all_lines", "S1 " * 200, "0 100000", "009 200 199 -", "S00010203040001"),
    # 198 is run twice: t3, t6
    ("loop_up_to_199", "@197 F1x2 S3 N1", "197 100000", "009 6 199 -", "N1"),
    ("loop_up_to_199_in_the_start", "@198 F1x1 N1", "198 0", "009 0 199 -", "N1"),
    ("none_up_to_199", "F1x0 @199 N1", "0 0", "009 0 199 -", "N1"),
    ("none_up_to_199_from_198", "@198 F2x0 N2", "198 100000", "009 0 199 -", "N2"),
    ("none_up_to_199_in_a_tick", "S4 F1x0 @199 N1", "0 100000", "009 4 199 -", "N1"),
]

BAD_LINES = [
    ("bad_line_000", "B", "0 0", "014 0 000 -", "E024"),
    ("bad_line_behind_a_state", "S3 B", "0 100000", "014 3 001 -", "E024"),
    ("bad_line_at_the_start", "S1 S1 B S0", "2 0", "014 0 002 -", "E024"),
    ("bad_line_in_a_loop", "F1x3 S2 B N1 S0", "0 100000", "014 2 002 -", "E024"),
    # the For finds its Next behind the Bad line: no 007
    ("bad_line_and_the_search", "F1x1 S2 B N1 S0", "0 100000", "014 2 002 -", "E024"),
    ("bad_line_behind_none", "F1x0 S2 N1 B", "0 100000", "014 0 003 -", "E024"),
    *[(f"bad_line_{name}", f"S2 {digits} S0", "0 100000", "014 2 001 -", "E024") for name, digits in (
        ("of_time_10000", "5300000000002710"), ("of_a_state_with_byte_1", "5301000000000000"), ("of_count_10000", "4601271000000000"),
        ("of_for_0", "4600000200000000"), ("of_for_5", "4605000200000000"), ("of_a_for_with_byte_7", "4601000200000001"),
        ("of_next_0", "4E00000000000000"), ("of_next_5", "4E05000000000000"), ("of_a_next_with_byte_2", "4E01010000000000"),
        ("of_small_letters", "7300000000000000"))],
]

BUSY = [
    ("busy_at_once", "F1x2 F1x2 N1 S0", "0 0", "006 0 001 000", "F10002"),
    ("busy_in_a_tick", "F1x2 S5 F1x3 N1 S0", "0 100000", "006 5 002 000", "F10003"),
    ("busy_of_9999", "S1 F4x9999 S1 F4x9999 N4 S0", "0 100000", "006 2 003 001", "F49999"),
    ("busy_two_deep", "F1x3 S1 F2x2 S1 F1x2 S1 N1 N2 N1 S0", "0 100000", "006 2 004 000", "F10002"),
    ("busy_none", "F1x2 F1x0 N1 S0", "0 100000", "006 0 001 000", "F10000"),
    # line 004 has no later Next either: 006 comes first
    ("busy_and_without_a_next", "F1x2 F2x0 N1 N2 F1x1 S0", "0 100000", "006 0 004 000", "F10001"),
    # 0, 1 t1, 2 frees it, 3 takes it, 4 t3, 5: the later For is told
    ("taken_again", "F1x1 S1 N1 F1x2 S2 F1x3 N1 S0", "0 100000", "006 3 005 003", "F10003"),
    # 0, 1, 2 t1, 3 frees it, 4 back to 1, 2 t2, 3, 4 frees counter 2, 5 takes 1, 6 t3, 7
    ("taken_three_times", "F2x2 F1x1 S1 N1 N2 F1x4 S1 F1x1 N1 S0", "0 100000", "006 3 007 005", "F10001"),
    # 0 takes it, 1 passes over 2, 4 t3, 5: the nearest For above, on 002, was not run
    ("nearest_for_passed_over", "F1x2 F2x0 F1x9 N2 S3 F1x3 N1 S0", "0 100000", "006 3 005 000", "F10003"),
    # 0, 1 passes over 2, 3 takes it, 4 t3, 5 back to 1: no For of counter 1 stands above
    ("for_below", "F2x2 F1x0 N1 F1x5 S3 N2 N1 S0", "0 100000", "006 3 001 003", "F10000"),
    # 0, 1 takes it, 2 t1, 3 back to 1: the For that holds the counter is the one that is stopped
    ("for_itself", "F2x2 F1x3 S1 N2 N1 S0", "0 100000", "006 1 001 001", "F10003"),
    ("started_below_a_for", "F1x9 S1 F1x2 S1 F1x3 N1 S0", "1 100000", "006 2 004 002", "F10003"),
    ("started_above_that_for", "F1x9 S1 F1x2 S1 F1x3 N1 S0", "0 100000", "006 1 002 000", "F10002"),
    # 0, 1 takes counter 1 (3 left), 2 frees 2, 3 t1, 4 takes 2, 5 (2 left) back to 2, 2 (1 left) back to 5, 5 (1 left) back to 2,
    # 2 frees 2, 3 t2, 4 takes 2, 5 frees 1, 6 takes it (4 left), 7 (1 left) back to 5, 5 (3 left) back to 7, 7 frees 2, 8: one Next was
    # run since 6
    ("one_next_since", "F2x1 F1x3 N2 S1 F2x2 N1 F1x4 N2 F1x2 N1 N2 S0", "0 100000", "006 2 008 006", "F10002"),
    # 20 t5, 21 takes it, 22 t25, 23 passes over 24, 26 t55, 27
    ("stored", "@20 S5 F1x3 S20 F2x0 F1x9 N2 S30 F1x2 S1 N1 N1 S0", "20 1000", "006 55 027 021", "F10002"),
]

NO_NEXT = [
    ("no_next", "F1x2 S1 S0", "0 0", "007 0 000 1", "F10002"),
    ("no_next_of_none", "F1x0 S0", "0 100000", "007 0 000 1", "F10000"),
    ("no_next_in_a_tick", "S9999 F2x1 S0", "0 100000", "007 9999 001 2", "F20001"),
    ("next_above_only", "N1 F1x2 S0", "1 100000", "007 0 001 1", "F10002"),
    # 0 t1, 1, 2 t2, 3 frees it, 4
    ("next_above_was_run", "S1 F1x1 S1 N1 F1x5 S0", "0 100000", "007 2 004 1", "F10005"),
    ("nexts_of_others_only", "F4x2 N1 N2 N3 S0", "0 100000", "007 0 000 4", "F40002"),
    ("next_damaged", "F2x2 S1 4E02000000000001 S0", "0 100000", "007 0 000 2", "F20002"),
]

NOT_BUSY = [
    ("next_on_000", "N1 S0", "0 0", "008 0 000 no", "N1"),
    ("start_inside_a_loop", "F1x3 S2 N1 S0", "1 100000", "008 2 002 yes", "N1"),
    ("start_on_the_next", "F1x3 S2 N1 S0", "2 0", "008 0 002 yes", "N1"),
    ("start_inside_none", "F1x0 S2 N1 S0", "1 100000", "008 2 002 yes", "N1"),
    ("start_inside_with_a_for_of_another", "F2x3 S1 N3 N2 S0", "1 100000", "008 1 002 no", "N3"),
    ("start_behind_the_fors_of_the_others", "F1x1 F2x1 F3x1 N4 S0", "3 100000", "008 0 003 no", "N4"),
    ("for_just_above", "S1 F2x9 N2 S0", "2 100000", "008 0 002 yes", "N2"),
    ("for_below_only", "S2 N1 F1x3 S1 N1 S0", "0 100000", "008 2 001 no", "N1"),
    ("for_damaged", "4601000200000001 S1 N1 S0", "1 100000", "008 1 002 no", "N1"),
    # 0 goes on behind 1 and takes no counter
    ("none_above", "F1x0 N1 N1 S0", "0 100000", "008 0 002 yes", "N1"),
    ("freed_before", "F1x1 S1 N1 N1 S0", "0 100000", "008 1 003 yes", "N1"),
    # 0 passes over the For of counter 1, which so is not run
    ("for_passed_over", "F2x0 F1x3 N2 S1 N1 S0", "0 100000", "008 1 004 yes", "N1"),
]

ON_199 = [
    ("199_state", "@199 S5", "199 100000", "009 5 199 -", "S00010203040005"),
    ("199_end", "@199 S0", "199 100000", "011 0 199 -", END),
    ("199_for", "F3x1 N3 @199 F3x2", "199 100000", "007 0 199 3", "F30002"),
    ("199_for_of_none", "@199 F3x0", "199 100000", "007 0 199 3", "F30000"),
    ("199_next_with_a_for", "F4x1 @199 N4", "199 0", "008 0 199 yes", "N4"),
    ("199_next_without", "F1x1 @199 N4", "199 0", "008 0 199 no", "N4"),
    ("199_bad", "@199 B", "199 100000", "014 0 199 -", "E024"),
]

# A loop of count n around nothing is its For once and its Next n times. It is counted from 1 in each call.
LINES_400 = [
    ("400_and_an_end", "F1x399 N1 S0", "0 100000", "011 0 002 -", END),
    ("400_and_a_state", "F1x399 N1 S4 S0", "0 100000", "011 4 003 -", END),
    ("400_and_a_bad_line", "F1x399 N1 B", "0 100000", "014 0 002 -", "E024"),
    ("400_and_past_199", "@198 F1x399 N1", "198 100000", "009 0 199 -", "N1"),
    ("400_in_a_tick_and_an_end", "S1 F1x399 N1 S0", "0 100000", "011 1 003 -", END),
    ("400_in_two_calls", "F1x399 N1 S1 F1x399 N1 S0", "0 100000", "011 1 005 -", END),
    ("400th_is_006", "F2x1 F1x397 N1 F2x1 N2 S0", "0 100000", "006 0 003 000", "F20001"),
    ("400th_is_007", "F1x398 N1 F2x1 S0", "0 100000", "007 0 002 2", "F20001"),
    ("400th_is_008", "F1x398 N1 N1 S0", "0 100000", "008 0 002 yes", "N1"),
    ("400th_is_none", "F1x398 N1 F2x0 N2 S0", "0 100000", "011 0 004 -", END),
    # 0, then 133 times 1, 3, 5
    ("400_with_loops_of_none", "F1x133 F2x0 N2 F3x0 N3 N1 S0", "0 100000", "011 0 006 -", END),
    # 0, 1, 2x199, 3 t2, 4, 5x198, 6, 1, 2x199: 400 in the tick; 3 t4, 4, 5x198, 6
    ("400_around_a_jump", "F1x2 F2x199 N2 S2 F3x198 N3 N1 S0", "0 100000", "011 4 007 -", END),
]

LINES_401 = [
    ("401_in_the_start", "F1x400 N1 S0", "0 0", "013 0 001 -", "N1"),
    ("401_two_deep", "F1x9999 F2x9999 N2 N1 S0", "0 100000", "013 0 002 -", "N2"),
    ("401_on_199", "@198 F1x400 N1", "198 100000", "013 0 199 -", "N1"),
    ("401_behind_a_state", "S5 F1x400 N1 S0", "0 100000", "013 5 002 000", "N1"),
    ("401_behind_two_states", "S5 S3 F1x400 N1 S0", "0 100000", "013 8 003 001", "N1"),
    ("401_started_behind_a_state", "S5 F1x400 N1 S0", "1 100000", "013 0 002 -", "N1"),
    ("401_in_a_loop", "F1x2 S1 S2 F2x400 N2 N1 S0", "0 100000", "013 3 004 002", "N2"),
    ("401st_would_be_006", "F2x1 F1x398 N1 F2x1 N2 S0", "0 100000", "013 0 003 -", "F20001"),
    ("401st_would_be_007", "F1x399 N1 F2x1 S0", "0 100000", "013 0 002 -", "F20001"),
    ("401st_would_be_008", "F1x399 N1 N1 S0", "0 100000", "013 0 002 -", "N1"),
    ("401st_is_none", "F1x399 N1 F2x0 N2 S0", "0 100000", "013 0 002 -", "F20000"),
    # 0, then 133 times 1, 3, 5: the next is 1
    ("401_with_loops_of_none", "F1x134 F2x0 N2 F3x0 N3 N1 S0", "0 100000", "013 0 001 -", "F20000"),
    # 0, 1, 2x199, 3 t2, 4, 5x199, 6, 1, 2x198: the State that was held stands below
    ("401_around_a_jump", "F1x2 F2x199 N2 S2 F3x199 N3 N1 S0", "0 100000", "013 2 002 003", "N2"),
    # 0, 1, 2x398, 3 t3, 4 passes over 5, 6, 1, 2x397
    ("401_in_the_second_turn", "F1x3 F2x398 N2 S3 F3x0 N3 N1 S0", "0 100000", "013 3 002 003", "N2"),
]

TEN = "S9999 " * 10  # 99,990 ticks, lines 000 to 009
LONG = [
    ("100000_states", TEN + "S10 S0", "0 100000", "011 100000 011 -", END),
    ("100000_two_deep", "F1x100 F2x1000 S1 N2 N1 S0", "0 100000", "011 100000 005 -", END),
    ("100000_three_deep", "F1x10 F2x100 F3x100 S1 N3 N2 N1 N4 S0", "0 100000", "008 100000 007 no", "N4"),
    # 9,999 times 10, and 10
    ("100000_in_the_longest_loop", "F1x9999 S10 N1 S10 F1x2 F1x2 N1 S0", "0 100000", "006 100000 005 004", "F10002"),
    ("100000_behind_none", "F1x0 F2x9999 F3x9999 S9999 N3 N2 N1 " + TEN + "S10 B", "0 100000", "014 100000 018 -", "E024"),
    # 0, 1, 2x397, 3; in each of 249 ticks 4, 1, 2x397, 3; in the 250th 4 frees counter 1
    ("100000_lines", "F1x250 F2x397 N2 S1 N1 S0", "0 100000", "011 250 005 -", END),
]

STOPS = ENDS + PAST_199 + BAD_LINES + BUSY + NO_NEXT + NOT_BUSY + ON_199 + LINES_400 + LINES_401 + LONG


# ---- the limit: a stop with it on its own tick; with one less the program runs. Name, lines, first line, what a read of the line answers

ON_THE_LIMIT = [
    ("006", "F1x2 S5 F1x3 N1 S0", "006 5 002 000", "F10003"),
    ("007", "S4 S1 F1x2 S0", "007 5 002 1", "F10002"),
    ("008", "S10 N3 S0", "008 10 001 no", "N3"),
    ("009", "S1 " * 199 + "S2", "009 201 199 -", "S00010203040002"),
    ("011", "F1x3 S2 N1 S0", "011 6 003 -", END),
    ("011_of_9999", "S9999 S0", "011 9999 001 -", END),
    ("011_of_100000", TEN + "S10 S0", "011 100000 011 -", END),
    ("013", "F1x3 S2 N1 F1x400 N1 S0", "013 6 004 001", "N1"),
    ("014", "S1 B", "014 1 001 -", "E024"),
]


def limits():
    for name, words, first, read in ON_THE_LIMIT:
        tick = int(first.split()[1])
        yield f"limit_for_{name}", program(words), f"0 {tick}", stopped(first, read)
        yield f"limit_for_{name}_less_one", program(words), f"0 {tick - 1}", running(str(tick - 1))


# ---- runs that go on, and refusals: name, bytes, start and limit, report

WHOLE = program("S0")
ENDLESS = program("F1x9999 F2x9999 S1 N2 N1 S0")

RUNS = [
    ("runs_at_limit_0", program("S1 S0"), "0 0", running("0")),
    ("runs_a_tick", program("S2 S0"), "0 1", running("1")),
    ("runs_in_9999_ticks", program("S9999 S0"), "0 9998", running("9998")),
    ("runs_one_tick_more", program(TEN + "S11 S0"), "0 100000", running("100000")),
    ("runs_on_199", program("@199 S9999"), "199 9998", running("9998")),
    ("runs_in_the_middle_of_a_state", program("S30 S90 S0"), "0 45", running("45")),
    ("runs_100000_ticks_of_1", ENDLESS, "0 100000", running("100000")),
    ("runs_100000_ticks_four_deep", program("F1x9999 F2x9999 F3x9999 F4x9999 S1 S2 N4 N3 N2 N1 S0"), "0 100000", running("100000")),
    ("runs_one_turn_more", program("F1x101 F2x1000 S1 N2 N1 S0"), "0 100000", running("100000")),
]

# 2 to the 8th, 16th, 32nd and 64th, where a number that is cut would be 0.
OVER = ("256", "65536", "4294967296", "18446744073709551616")
NUMBERS = [
    *[(f"start_{start}", WHOLE, f"{start} 0", refused("E060")) for start in (
        "200", "255", "999", "18446744073709551615", "1" * 30, "0000200", *OVER)],
    *[(f"limit_{limit}", WHOLE, f"0 {limit}", refused("E061")) for limit in (
        "100001", "165536", "18446744073709551615", "9" * 30, *OVER[2:])],
    ("start_with_zeros", program("B @7 S0"), "0" * 40 + "7 6", stopped("011 0 007 -", END)),
    ("limit_with_zeros", program("S7 S0"), "000 " + "0" * 40 + "6", running("6")),
    ("limit_100000_with_zeros", WHOLE, "00 00100000", stopped("011 0 000 -", END)),
    ("start_199_of_200", program("S0 @199 S0"), "199 0", stopped("011 0 199 -", END)),
]

LENGTHS = [(f"length_{len(given)}", given, "0 100000", refused("E030")) for given in (
    b"", b"S", WHOLE[:8], WHOLE[:1592], WHOLE[:1599], WHOLE + b"S", WHOLE + WHOLE[:8], WHOLE * 2, bytes(100000))]

# Two faults and three: the first in the request's order is told, whatever the program would do.
ORDER = [
    ("030_before_060_and_061", WHOLE[:1599], "200 100001", refused("E030")),
    ("030_of_1601_before_060_and_061", WHOLE + b"S", "200 100001", refused("E030")),
    ("030_before_060", b"", "200 0", refused("E030")),
    ("030_before_061", WHOLE[:1599], "0 100001", refused("E030")),
    ("060_before_061", WHOLE, "200 100001", refused("E060")),
    ("060_before_061_of_the_largest", WHOLE, "18446744073709551616 18446744073709551616", refused("E060")),
    ("061_before_the_run", ENDLESS, "199 100001", refused("E061")),
]


# ---- reports written out, one for each kind

WRITTEN = [
    ("written_006", program("S5 S20 F1x2 S40 S30 S20 S10 F1x3 N1 S0"), "0 100000",
     "006 125 007 002\nStopped after 12.5 s on line 007 (F10003): counter 1 was still in use by the For on line 002. Give the inner "
     "loop another counter.\n"),
    ("written_006_crossing", program("F2x2 F1x3 S1 N2 N1 S0"), "0 100000",
     "006 1 001 001\nStopped after 0.1 s on line 001 (F10003): counter 1 was still in use by the For on line 001. Two loops cross: end "
     "the inner one before the outer one.\n"),
    ("written_007", program("S10 F3x12 S0"), "0 100000",
     "007 10 001 3\nStopped after 1.0 s on line 001 (F30012): no Next of counter 3 stands on a later line. Write N3 on the line where "
     "the loop ends.\n"),
    ("written_008_yes", program("F2x3 S2 N2 S0"), "1 100000",
     "008 2 002 yes\nStopped after 0.2 s on line 002 (N2): counter 2 was not in use, although a For of it stands above. Start at that For "
     "or above it, or take this Next out.\n"),
    ("written_008_no", program("S1234 N4 S0"), "0 100000",
     "008 1234 001 no\nStopped after 123.4 s on line 001 (N4): no For of counter 4 stands above. Write one there, or take this "
     "Next out.\n"),
    ("written_009", program("@199 530000000F000064"), "199 100000",
     "009 100 199 -\nStopped after 10.0 s on line 199 (S0000000F000100): the program went on past line 199, the last one. Write an end "
     "mark, S00000000000000, on the line where it ends.\n"),
    ("written_011", program(TEN + "S10 53000000000A0000"), "0 100000",
     "011 100000 011 -\nStopped after 10000.0 s on line 011 (S000000000A0000): the program came to its end mark. Nothing has to be "
     "done.\n"),
    ("written_013", program("@42 S99 F1x400 N1"), "42 100000",
     "013 99 044 042\nStopped after 9.9 s on line 044 (N1): more than 400 For and Next lines fell due in one tick, behind the State on "
     "line 042. Put a State with a time above 0 into the loop.\n"),
    ("written_013_in_the_start", program("F1x400 N1"), "0 100000",
     "013 0 001 -\nStopped after 0.0 s on line 001 (N1): more than 400 For and Next lines fell due in the start itself. Put a State with a "
     "time above 0 into the loop.\n"),
    ("written_014", program("S9 B"), "0 100000",
     "014 9 001 -\nStopped after 0.9 s on line 001 (E024): its eight bytes are no State, For or Next. Write this line again.\n"),
    ("written_running", program("S9999"), "0 1205",
     "running\nStill running after 120.5 s: nothing stops it up to the limit. A limit can be as large as 100000 ticks.\n"),
    ("written_030", WHOLE[1:], "0 100000",
     "E030\nThis is no stored program: it has fewer or more than 1600 bytes. Give a file of 200 lines of 8 bytes.\n"),
    ("written_060", WHOLE, "200 100000", "E060\nThe start line is above 199, the last line. Give a line of 0 to 199.\n"),
    ("written_061", WHOLE, "0 100001", "E061\nThe limit is above 100000 ticks. Give a limit of 0 to 100000.\n"),
]

CASES = ([(name, program(words), given, stopped(first, read)) for name, words, given, first, read in STOPS]
         + [*limits()] + RUNS + NUMBERS + LENGTHS + ORDER + WRITTEN)


def stored():
    """The stored input of the program `explain`, its text, and the words of its call."""
    return next((given, text, words.split()) for name, given, words, text in CASES if name == "stored")
