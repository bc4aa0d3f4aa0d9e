"""The programs of durations.py, each with its answer, and whole inputs with their text, worked out by hand from request 6; no answer was
taken from a reader of programs.

A program is written as its lines: S5 is a State of 5 ticks, F1x3 a For of counter 1 and count 3, N1 a Next, B a Bad line, 16 hex digits
the bytes of a line. The lines that are not written are States of 7 ticks and Bad lines in turn: none is an end or part of a loop, and
whoever counts what stands behind the end is found out by them.
"""


def line(word):
    if len(word) == 16:
        return bytes.fromhex(word)
    if word[0] == "S":
        return bytes([0x53, 0, 1, 2, 3, 4]) + int(word[1:]).to_bytes(2, "big")
    if word[0] == "F":
        counter, count = word[1:].split("x")
        return bytes([0x46, int(counter)]) + int(count).to_bytes(2, "big") + bytes(4)
    return bytes([0x4E, int(word[1:])]) + bytes(6) if word[0] == "N" else bytes(8)


def program(words):
    lines = [line(word) for word in words.split()]
    rest = [line("S7"), line("B")] * 100
    return b"".join((lines + rest)[:200])


# ---- single programs: name, lines, answer

MOST = "F1x9091 F2x2981 S369 N2 N1"  # 9091 times 2981 times 369: 9,999,999,999
OVER = "F1x5000 F2x2000 S1000 N2 N1"  # 10,000,000,000
DEEP, UP = "F1x9999 F2x9999 F3x9999 F4x9999", "N4 N3 N2 N1"

STATES = [
    ("end_on_line_000", "S0", "0"),
    ("end_on_line_001", "S5 S0", "5"),
    ("end_on_line_199", "S1 " * 199 + "S0", "199"),
    ("longest_states", "S9999 " * 199 + "S0", "1989801"),
    ("time_255", "S255 S0", "255"),
    ("time_256", "S256 S0", "256"),
    ("time_9999", "S9999 S0", "9999"),
    ("three_states", "S1 S256 S9999 S0", "10256"),
    ("end_with_outputs_0", "S5 5300000000000000", "5"),
    ("end_with_all_outputs", "S5 5300FFFFFFFF0000", "5"),
    ("first_of_two_ends", "S5 S0 S6 S0", "5"),
]

LOOPS = [
    ("worked_point", "F1x3 S2 N1 S0", "6"),
    ("count_1", "F1x1 S5 N1 S0", "5"),
    ("count_256", "F1x256 S3 N1 S0", "768"),
    ("count_9999", "F4x9999 S1 N4 S0", "9999"),
    ("loop_of_each_counter", "F1x2 S1 N1 F2x3 S1 N2 F3x4 S1 N3 F4x5 S1 N4 S0", "14"),
    ("counter_used_again", "F1x2 S1 N1 F1x3 S1 N1 S0", "5"),
    ("two_deep", "F1x2 F2x3 S1 N2 N1 S0", "6"),
    ("two_deep_between_states", "S1 F1x2 S2 F2x3 S4 N2 S8 N1 S16 S0", "61"),
    ("two_in_one", "F1x2 F2x3 S1 N2 F2x4 S1 N2 N1 S0", "14"),
    ("four_deep", "F1x2 F2x3 F3x4 F4x5 S1 N4 N3 N2 N1 S0", "120"),
    ("four_deep_downwards", "F4x2 F3x3 F2x4 F1x5 S1 N1 N2 N3 N4 S0", "120"),
    ("four_deep_between_states", "F1x2 S1 F2x3 S1 F3x4 S1 F4x5 S1 N4 S1 N3 S1 N2 S1 N1 S0", "184"),
    ("loop_over_lines_000_to_198", "F1x2 " + "S1 " * 197 + "N1 S0", "394"),
    ("loop_on_lines_196_to_198", "S1 " * 196 + "F1x2 S1 N1 S0", "198"),
    ("loops_66_in_a_row", "F1x1 S1 N1 " * 66 + "S0", "66"),
]

OF_NONE = [
    ("none", "F1x0 S5 N1 S2 S0", "2"),
    ("none_alone", "F1x0 S5 N1 S0", "0"),
    ("none_of_no_line", "F1x0 N1 S0", "0"),
    ("none_99_in_a_row", "F1x0 N1 " * 99 + "S4 S0", "4"),
    ("none_in_a_loop", "F1x3 F2x0 S5 N2 S1 N1 S0", "3"),
    ("none_of_no_line_in_a_loop", "F1x3 S1 F2x0 N2 N1 S0", "3"),
    ("loop_in_none", "F1x0 F2x3 S5 N2 N1 S1 S0", "1"),
    ("none_in_none", "F1x0 F2x0 S5 N2 N1 S1 S0", "1"),
    ("none_and_its_counter_again", "F1x0 S5 N1 F1x2 S1 N1 S0", "2"),
    ("none_of_9999_three_deep", "F1x0 F2x9999 F3x9999 F4x9999 S9999 N4 N3 N2 N1 S3 S0", "3"),
]

NO_END = [
    ("states_alone", "S1 " * 200, "E042"),
    ("bad_lines_alone", "B " * 200, "E042"),
    ("loop_without_an_end", "F1x2 S1 N1", "E042"),
    ("end_damaged_in_byte_0", "S1 7300000000000000", "E042"),
    ("end_damaged_in_byte_1", "S1 5301000000000000", "E042"),
    ("loop_of_none_is_no_end", "S1 F1x0 N1", "E042"),
]

CROSSING = [
    ("loops_cross", "F1x2 S1 F2x2 S1 N1 S1 N2 S0", "E040"),
    ("loops_cross_at_once", "S1 F2x2 F1x2 S1 N2 N1 S0", "E040"),
    ("loops_of_count_1_cross", "F1x1 S1 F2x1 S1 N1 S1 N2 S0", "E040"),
    ("loops_of_none_cross", "F1x0 S1 F2x0 S1 N1 S1 N2 S0", "E040"),
    ("loops_cross_in_none", "F3x0 F1x2 S1 F2x2 S1 N1 S1 N2 N3 S0", "E040"),
    ("loops_cross_with_a_third_inside", "F1x2 S1 F3x2 S1 N3 F2x2 S1 N1 S1 N2 S0", "E040"),
    ("outer_loop_crosses_the_innermost", "F1x2 F2x2 F3x2 S1 N3 N1 S1 N2 S0", "E040"),
    ("starts_inside_its_own", "F1x2 S1 F1x2 S1 N1 S0", "E040"),
    ("starts_inside_its_own_at_once", "F3x2 F3x2 S1 N3 S0", "E040"),
    ("starts_inside_its_own_with_two_nexts", "F1x2 S1 F1x2 S1 N1 S1 N1 S0", "E040"),
    ("starts_inside_its_own_two_deep", "F1x2 F2x2 F1x2 S1 N1 S1 N2 S0", "E040"),
    ("none_starts_inside_its_own", "F1x2 S1 F1x0 S1 N1 S0", "E040"),
    ("starts_inside_its_own_of_none", "F1x0 S1 F1x2 S1 N1 S0", "E040"),
]

UNPAIRED = [
    ("for_without_a_next", "F1x2 S1 S0", "E040"),
    ("for_of_none_without_a_next", "F1x0 S1 S0", "E040"),
    ("for_with_the_next_of_another", "F1x2 S1 S0 N2 N3 N4", "E040"),
    ("for_with_a_damaged_next", "F1x2 S1 4E01000000000001 S0", "E040"),
    ("for_just_before_the_end", "S1 F1x2 S0", "E040"),
    ("for_on_line_198", "S1 " * 198 + "F1x2 S0", "E040"),
    ("second_for_without_a_next", "F1x2 S1 N1 F1x2 S1 S0", "E040"),
    ("inner_for_without_a_next", "F1x2 F2x2 S1 N1 S0", "E040"),
    ("next_on_line_000", "N1 S1 S0", "E040"),
    ("next_without_a_for", "S1 N4 S1 S0", "E040"),
    ("next_just_before_the_end", "S1 N1 S0", "E040"),
    ("next_on_line_198", "S1 " * 198 + "N1 S0", "E040"),
    ("next_with_the_for_of_another", "F1x2 S1 N1 N2 S0", "E040"),
    ("next_of_another_inside", "F1x2 S1 N2 N1 S0", "E040"),
    ("second_next", "F1x2 S1 N1 S1 N1 S0", "E040"),
    ("next_without_a_for_in_none", "F1x0 S1 N2 N1 S0", "E040"),
    ("next_with_a_damaged_for", "4601000200000001 S1 N1 S0", "E040"),
    ("next_with_its_for_behind_the_end", "S1 N1 S0 F1x2 S1 N1", "E040"),
    ("next_above_its_for", "N1 S1 F1x2 S1 N1 S0", "E040"),
]

BEHIND_THE_END = [
    ("next_behind_the_end", "S1 S0 N1", "1"),
    ("second_next_behind_the_end", "F1x2 S1 N1 S0 N1", "2"),
    ("for_behind_the_end", "S1 S0 F1x2", "1"),
    ("crossing_behind_the_end", "S1 S0 F1x2 S1 F2x2 S1 N1 S1 N2", "1"),
    ("its_own_inside_behind_the_end", "S1 S0 F1x2 S1 F1x2 S1 N1", "1"),
    ("no_ticks_behind_the_end", "S1 S0 F1x2 N1", "1"),
    ("bad_line_behind_the_end", "S1 S0 B", "1"),
    ("bad_line_on_199_alone", "S1 " * 198 + "S0 B", "198"),
    ("over_behind_the_end", "S1 S0 " + OVER, "1"),
    ("second_end_in_a_loop", "S1 S0 F1x2 S1 S0 N1", "1"),
    ("everything_behind_line_000", "S0 N1 F2x2 F1x2 N2 N1 B F3x2", "0"),
]

END_INSIDE = [
    ("end_in_a_loop", "F1x2 S1 S0 N1", "E041"),
    ("end_just_after_the_for", "S1 F1x2 S0 S1 N1", "E041"),
    ("end_in_a_loop_of_count_1", "F1x1 S1 S0 N1", "E041"),
    ("end_in_none", "F1x0 S1 S0 N1", "E041"),
    ("end_in_none_with_an_end_behind", "F1x0 S1 S0 N1 S0", "E041"),
    ("end_in_the_outer_of_two", "F1x2 F2x2 S1 N2 S0 N1", "E041"),
    ("end_in_the_inner_of_two", "F1x2 F2x2 S1 S0 N2 N1", "E041"),
    ("end_in_the_second_of_two", "F1x2 S1 N1 F1x2 S1 S0 N1", "E041"),
    ("end_in_a_loop_with_a_for_behind", "F1x2 S1 S0 F1x2 N1 N1", "E041"),
    ("end_in_a_loop_that_one_behind_crosses", "F1x2 S1 S0 F2x2 N1 N2", "E041"),
    ("end_in_a_loop_to_line_199", "F1x2 S1 S0 " + "S7 " * 196 + "N1", "E041"),
    ("end_on_line_198_in_a_loop", "F1x2 " + "S1 " * 197 + "S0 N1", "E041"),
]

NO_TICKS = [
    ("loop_of_no_line", "F1x2 N1 S0", "E044"),
    ("loop_of_no_line_once", "F1x1 N1 S0", "E044"),
    ("worked_point_of_399", "F1x399 N1 S0", "E044"),
    ("loop_of_no_line_just_before_the_end", "S5 F1x9999 N1 S0", "E044"),
    ("loop_of_none_alone_inside", "F1x2 F2x0 S5 N2 N1 S0", "E044"),
    ("loop_of_two_of_none_inside", "F1x2 F2x0 S5 N2 F3x0 S5 N3 N1 S0", "E044"),
    ("inner_loop_of_no_line", "F1x2 S1 F2x2 N2 N1 S0", "E044"),
    ("both_loops_of_no_line", "F1x2 F2x2 N2 N1 S0", "E044"),
    ("loop_of_no_line_in_none", "F1x0 F2x2 N2 N1 S0", "E044"),
    ("loop_of_no_line_in_none_with_ticks", "F1x0 S1 F2x2 N2 N1 S0", "E044"),
    ("second_loop_of_no_line", "F1x2 S1 N1 F1x2 N1 S0", "E044"),
]

BAD_LINES = [
    ("bad_line_on_000", "B S0", "E014"),
    ("bad_line_just_before_the_end", "S1 B S0", "E014"),
    ("bad_line_on_198", "S1 " * 198 + "B S0", "E014"),
    ("bad_line_in_a_loop", "F1x2 S1 B N1 S0", "E014"),
    ("bad_line_in_none", "F1x0 B N1 S0", "E014"),
    ("bad_line_in_none_with_ticks", "F1x0 S1 B N1 S1 S0", "E014"),
    ("time_10000", "530000000000" + "2710 S0", "E014"),
    ("time_65535", "530000000000" + "FFFF S0", "E014"),
    ("state_with_byte_1", "5301000000000001 S0", "E014"),
    ("state_of_time_0_with_byte_1", "S1 5301000000000000 S1 S0", "E014"),
    ("count_10000", "4601271000000000 S0", "E014"),
    ("counter_0", "4600000200000000 S0", "E014"),
    ("counter_5", "4605000200000000 S0", "E014"),
    ("for_with_byte_4", "4601000201000000 S0", "E014"),
    ("for_with_byte_7", "4601000200000001 S0", "E014"),
    ("next_of_counter_0", "4E00000000000000 S0", "E014"),
    ("next_of_counter_5", "4E05000000000000 S0", "E014"),
    ("next_with_byte_2", "4E01010000000000 S0", "E014"),
    ("damaged_next_is_passed_over", "F1x2 S1 4E01000000000001 S1 N1 S0", "E014"),
    ("damaged_for_is_passed_over", "F1x2 S1 4601000200000001 S1 N1 S0", "E014"),
]

TOO_MANY = [
    ("most_ticks", MOST + " S0", "9999999999"),
    ("one_more", MOST + " S1 S0", "E043"),
    ("one_more_before", "S1 " + MOST + " S0", "E043"),
    ("most_ticks_once_in_a_loop", "F3x1 " + MOST + " N3 S0", "9999999999"),
    ("most_ticks_twice_in_a_loop", "F3x2 " + MOST + " N3 S0", "E043"),
    ("most_ticks_and_none", MOST + " F1x0 S1 N1 S0", "9999999999"),
    ("most_ticks_as_a_sum", "F1x9999 F2x9999 S100 N2 N1 F1x200 S9999 N1 S99 S0", "9999999999"),
    ("one_more_as_a_sum", "F1x9999 F2x9999 S100 N2 N1 F1x200 S9999 N1 S100 S0", "E043"),
    ("ten_thousand_million", OVER + " S0", "E043"),
    ("half_of_it", "F1x5000 F2x1000 S1000 N2 N1 S0", "5000000000"),
    ("two_halves_of_it", "F1x5000 F2x1000 S1000 N2 N1 F1x5000 F2x1000 S1000 N2 N1 S0", "E043"),
    ("two_to_32", "F1x8192 F2x8192 S64 N2 N1 S0", "4294967296"),
    ("two_to_32_in_a_loop", "F1x2 F2x8192 F3x8192 S64 N3 N2 N1 S0", "8589934592"),
    ("two_to_63", "F1x8192 F2x8192 F3x8192 F4x8192 S2048 N4 N3 N2 N1 S0", "E043"),
    ("two_to_64", "F1x8192 F2x8192 F3x8192 F4x8192 S4096 N4 N3 N2 N1 S0", "E043"),
    ("two_to_64_and_5", "F1x8192 F2x8192 F3x8192 F4x8192 S4096 N4 N3 N2 N1 S5 S0", "E043"),
    ("four_deep_of_9999", f"{DEEP} S1 {UP} S0", "E043"),
    ("longest_of_all", f"{DEEP} {'S9999 ' * 191} {UP} S0", "E043"),
]

# Two faults in one program: the one that comes first in the request is told. 041 needs an end, so it cannot stand beside 042.
TWO_FAULTS = [
    ("042_and_040", "F1x2 S1", "E042"),
    ("042_and_040_by_a_next", "N1 S1", "E042"),
    ("042_and_044", "F1x2 N1", "E042"),
    ("042_and_014", "S1 B", "E042"),
    ("042_and_043", OVER, "E042"),
    ("040_and_041_by_a_for", "F2x2 F1x2 S1 S0 N1", "E040"),
    ("040_and_041_by_a_next", "N2 F1x2 S1 S0 N1", "E040"),
    ("040_and_041_by_loops_that_cross", "F1x2 F2x2 S1 S0 N1 N2", "E040"),
    ("040_and_041_by_loops_that_cross_before_the_end", "F1x2 S1 F2x2 S1 N1 S1 S0 N2", "E040"),
    ("040_and_041_by_its_own", "F1x2 F1x2 S1 S0 N1", "E040"),
    ("040_and_044", "F1x2 N1 S1 N2 S0", "E040"),
    ("040_and_044_in_one_loop", "F1x2 F1x2 N1 S0", "E040"),
    ("040_and_014", "B N1 S0", "E040"),
    ("040_and_014_later", "F1x2 S1 B S0", "E040"),
    ("040_and_043", OVER + " N3 S0", "E040"),
    ("041_and_044", "F1x2 N1 F2x2 S1 S0 N2", "E041"),
    ("041_and_044_in_one_loop", "F1x2 S0 N1", "E041"),
    ("041_and_014", "B F1x2 S1 S0 N1", "E041"),
    ("041_and_014_in_one_loop", "F1x2 S1 B S0 N1", "E041"),
    ("041_and_043", OVER + " F1x2 S1 S0 N1", "E041"),
    ("044_and_014", "B F1x2 N1 S0", "E044"),
    ("044_and_014_later", "F1x2 N1 B S0", "E044"),
    ("044_and_014_in_one_loop", "F1x2 B N1 S0", "E044"),
    ("044_and_014_in_none", "F1x0 F2x2 B N2 N1 S0", "E044"),
    ("044_and_043", "F1x2 N1 " + OVER + " S0", "E044"),
    ("044_and_043_in_one_loop", "F3x9999 " + OVER + " F4x1 N4 N3 S0", "E044"),
    ("014_and_043", OVER + " B S0", "E014"),
    ("014_and_043_in_one_loop", "F1x5000 F2x2000 B S1000 N2 N1 S0", "E014"),
    ("all_from_040", "F3x2 F1x2 N1 B " + OVER + " F4x2 S0 N4", "E040"),
    ("all_from_041", "F1x2 N1 B " + OVER + " F4x2 S0 N4", "E041"),
    ("all_from_044", "F1x2 N1 B " + OVER + " S0", "E044"),
]

SINGLE = (STATES + LOOPS + OF_NONE + NO_END + CROSSING + UNPAIRED + BEHIND_THE_END + END_INSIDE + NO_TICKS + BAD_LINES + TOO_MANY
          + TWO_FAULTS)


# ---- inputs: name, bytes, text

ONE, FIVE, LONGEST = program("S1 S0"), program("S5 S0"), program(MOST + " S0")
REFUSED, TOO_LONG = program("S5 N1 S0"), program(OVER + " S0")

LENGTHS = [
    ("empty", b"", "0\n"),
    ("length_1", b"S", "E030\n0\n"),
    ("length_8", ONE[8:16], "E030\n0\n"),
    ("length_1599", ONE[:1599], "E030\n0\n"),
    ("length_1600", ONE, "1\n1\n"),
    ("length_1601", ONE + b"S", "1\nE030\n1\n"),
    ("length_3199", ONE + FIVE[:1599], "1\nE030\n1\n"),
    ("length_3200", ONE + FIVE, "1\n5\n6\n"),
    ("length_3201", ONE + FIVE + b"\n", "1\n5\nE030\n6\n"),
    ("length_8001", FIVE * 5 + b"\0", "5\n" * 5 + "E030\n25\n"),
]

# 030 and any other fault: a piece that would be refused by another number, were its last byte there.
TWO_FAULTS_OF_LENGTH = [
    ("030_and_042", bytes(1599), "E030\n0\n"),
    ("030_and_040", REFUSED[:1599], "E030\n0\n"),
    ("030_and_041", program("F1x2 S1 S0 N1")[:1599], "E030\n0\n"),
    ("030_and_044", program("F1x2 N1 S0")[:1599], "E030\n0\n"),
    ("030_and_014", program("S1 B S0")[:1599], "E030\n0\n"),
    ("030_and_043", TOO_LONG[:1599], "E030\n0\n"),
    ("030_and_043_of_the_total", LONGEST * 11 + ONE[:1599], "9999999999\n" * 11 + "E030\nE043\n"),
]

TOTALS = [
    ("refused_alone", REFUSED, "E040\n0\n"),
    ("refused_first", REFUSED + FIVE, "E040\n5\n5\n"),
    ("refused_between", FIVE + REFUSED + ONE, "5\nE040\n1\n6\n"),
    ("too_long_adds_nothing", TOO_LONG + ONE + TOO_LONG, "E043\n1\nE043\n1\n"),
    ("no_ticks_twice", program("S0") * 2, "0\n0\n0\n"),
    ("most_and_one", LONGEST + ONE, "9999999999\n1\n10000000000\n"),
    ("most_nine_times", LONGEST * 9, "9999999999\n" * 9 + "89999999991\n"),
    ("most_ten_times", LONGEST * 10, "9999999999\n" * 10 + "99999999990\n"),
    ("most_ten_times_and_refused", LONGEST * 10 + REFUSED, "9999999999\n" * 10 + "E040\n99999999990\n"),
    ("most_ten_times_and_a_piece", LONGEST * 10 + b"S", "9999999999\n" * 10 + "E030\n99999999990\n"),
    ("most_ten_times_and_no_ticks", LONGEST * 10 + program("S0"), "9999999999\n" * 10 + "0\n99999999990\n"),
    ("most_ten_times_and_one", LONGEST * 10 + ONE, "9999999999\n" * 10 + "1\nE043\n"),
    ("one_and_most_ten_times", ONE + LONGEST * 10, "1\n" + "9999999999\n" * 10 + "E043\n"),
    ("over_and_then_more", LONGEST * 11 + FIVE + REFUSED, "9999999999\n" * 11 + "5\nE040\nE043\n"),
    ("most_a_hundred_times", LONGEST * 100, "9999999999\n" * 100 + "E043\n"),
    ("one_tick_1000_times", ONE * 1000, "1\n" * 1000 + "1000\n"),
]

CASES = ([(name, program(words), f"{answer}\n{0 if answer[0] == 'E' else answer}\n") for name, words, answer in SINGLE]
         + LENGTHS + TWO_FAULTS_OF_LENGTH + TOTALS)


# ---- the stored input of the program `durations`: some of the single programs, and a broken piece

STORED = ("end_on_line_000", "end_on_line_199", "longest_states", "worked_point", "count_256", "two_deep_between_states",
          "four_deep_between_states", "loop_over_lines_000_to_198", "none", "none_of_no_line", "none_in_a_loop",
          "none_of_9999_three_deep", "states_alone", "bad_lines_alone", "loops_cross", "loops_of_none_cross", "starts_inside_its_own",
          "for_without_a_next", "for_with_a_damaged_next", "second_next", "next_with_its_for_behind_the_end",
          "everything_behind_line_000", "over_behind_the_end", "end_in_a_loop", "end_in_none", "end_in_a_loop_to_line_199",
          "loop_of_no_line_once", "loop_of_none_alone_inside", "loop_of_no_line_in_none", "bad_line_in_a_loop", "bad_line_in_none",
          "damaged_next_is_passed_over", "most_ticks", "one_more", "most_ticks_as_a_sum", "two_to_32_in_a_loop", "two_to_64",
          "longest_of_all", "040_and_041_by_loops_that_cross", "041_and_044", "044_and_014_in_one_loop", "014_and_043")
STORED_TOTAL = "28591926012"


def stored():
    """Its bytes, and its text."""
    single = {name: (program(words), answer) for name, words, answer in SINGLE}
    chosen = [single[name] for name in STORED]
    return (b"".join(lines for lines, _ in chosen) + ONE[:1599],
            "".join(f"{answer}\n" for _, answer in chosen) + f"E030\n{STORED_TOTAL}\n")
