"""loglist_older.py: the cases of loglist.py under the older mark 1E E1, of records of 12 bytes: rules and text are those of request 1."""
from loglist_records import change as present_change
from loglist_records import gap as present_gap
from loglist_records import older_change as change
from loglist_records import older_changes as changes
from loglist_records import older_gap as gap
from loglist_records import older_lines as lines
from loglist_records import older_record as record

ONE, ONE_LINE = change(5, 3, 0x11223344), "5 1 3 11223344\n"
BAD_MARK = change(6, 3, 1, mark=0x1EE0)
IMPOSSIBLE = change(6, 200, 1)
BOTH_FAULTS = change(6, 200, 1, mark=0x1EE0)
LONGEST = b"".join(change(4294967295, 255, 0xFFFFFFFE if n % 2 else 0xFFFFFFFF) for n in range(5460)) + gap(4294967295, 4294967295)
LONGEST_TEXT = "4294967295 1 255 FFFFFFFF\n4294967295 1 255 FFFFFFFE\n" * 2730 + "4294967295 2 0 FFFFFFFF\n"

PLAIN = [
    ("older_empty", b"", ""),
    ("older_one_change", ONE, ONE_LINE),
    ("older_change_and_gap", ONE + gap(9, 2), ONE_LINE + "9 2 0 00000002\n"),
    ("older_worked_point", change(0, 0, 5) + gap(1, 1), "0 1 0 00000005\n1 2 0 00000001\n"),
    ("older_four_changes", change(0, 0, 1) + change(10, 12, 0xABCDEF) + change(99, 199, 0x90A0B0C0) + change(100, 254, 0),
     "0 1 0 00000001\n10 1 12 00ABCDEF\n99 1 199 90A0B0C0\n100 1 254 00000000\n"),
    ("older_first_word_0", change(4, 9, 0), "4 1 9 00000000\n"),
    ("older_first_word_0_by_a_write", change(0, 255, 0), "0 1 255 00000000\n"),
    ("older_a_word_again", change(1, 0, 1) + change(1, 1, 2) + change(1, 0, 1), "1 1 0 00000001\n1 1 1 00000002\n1 1 0 00000001\n"),
]

CAUSES = [
    ("older_cause_0", change(5, 0, 1), "5 1 0 00000001\n"),
    ("older_cause_199", change(5, 199, 1), "5 1 199 00000001\n"),
    ("older_cause_200", change(5, 200, 1), "E052\n"),
    ("older_cause_201", change(5, 201, 1), "E052\n"),
    ("older_cause_253", change(5, 253, 1), "E052\n"),
    ("older_cause_254", change(5, 254, 1), "5 1 254 00000001\n"),
    ("older_cause_255", change(5, 255, 1), "5 1 255 00000001\n"),
    ("older_cause_200_second", ONE + change(5, 200, 1), "E052\n"),
    ("older_cause_253_second", ONE + change(5, 253, 1), "E052\n"),
    ("older_cause_254_second", ONE + change(5, 254, 1), ONE_LINE + "5 1 254 00000001\n"),
]

KINDS = [
    ("older_kind_0", record(5, 0, 3, 1), "E052\n"),
    ("older_kind_3", record(5, 3, 3, 1), "E052\n"),
    ("older_kind_255", record(5, 255, 3, 1), "E052\n"),
    ("older_kind_0_second", ONE + record(5, 0, 0, 1), "E052\n"),
    ("older_kind_3_second", ONE + record(5, 3, 0, 1), "E052\n"),
    ("older_kind_2_with_a_line", ONE + record(5, 2, 3, 1), "E052\n"),
]

GAPS = [
    ("older_gap_alone", gap(5, 1), "E052\n"),
    ("older_gap_first", gap(5, 1) + ONE, "E052\n"),
    ("older_gap_with_cause_1", ONE + gap(5, 1, cause=1), "E052\n"),
    ("older_gap_with_cause_254", ONE + gap(5, 1, cause=254), "E052\n"),
    ("older_gap_with_cause_255", ONE + gap(5, 1, cause=255), "E052\n"),
    ("older_gap_of_0", ONE + gap(5, 0), "E052\n"),
    ("older_gap_of_1", ONE + gap(5, 1), ONE_LINE + "5 2 0 00000001\n"),
    ("older_gap_of_the_most", ONE + gap(5, 4294967295), ONE_LINE + "5 2 0 FFFFFFFF\n"),
    ("older_gap_of_the_word_before", ONE + gap(5, 0x11223344), ONE_LINE + "5 2 0 11223344\n"),
    ("older_change_after_a_gap", ONE + gap(5, 1) + change(6, 3, 1), "E052\n"),
    ("older_gap_after_a_gap", ONE + gap(5, 1) + gap(6, 2), "E052\n"),
    ("older_wrong_mark_after_a_gap", ONE + gap(5, 1) + change(6, 3, 1, mark=0), "E051\n"),
    ("older_gap_with_wrong_mark_after_a_gap", ONE + gap(5, 1) + gap(6, 2, mark=0x1EE0), "E051\n"),
    ("older_present_mark_after_a_gap", ONE + gap(5, 1) + gap(6, 2, mark=0x1EE2), "E053\n"),
    ("older_wrong_mark_second_after_a_gap", ONE + gap(5, 1) + change(6, 3, 1) + BAD_MARK, "E052\n"),
]

TICKS = [
    ("older_equal_ticks", ONE + change(5, 3, 1), ONE_LINE + "5 1 3 00000001\n"),
    ("older_tick_falls_by_one", ONE + change(4, 3, 1), "E052\n"),
    ("older_tick_falls_to_0", change(4294967295, 3, 1) + change(0, 3, 2), "E052\n"),
    ("older_tick_falls_in_its_high_byte", change(0x01000000, 3, 1) + change(0x00FFFFFF, 3, 2), "E052\n"),
    ("older_tick_rises_in_its_high_byte", change(0x00FFFFFF, 3, 1) + change(0x01000000, 3, 2),
     "16777215 1 3 00000001\n16777216 1 3 00000002\n"),
    ("older_tick_falls_below_the_last_but_not_the_first", change(1, 3, 1) + change(9, 3, 2) + change(8, 3, 1), "E052\n"),
    ("older_last_tick", change(4294967294, 3, 1) + change(4294967295, 3, 2) + change(4294967295, 255, 3),
     "4294967294 1 3 00000001\n4294967295 1 3 00000002\n4294967295 1 255 00000003\n"),
    ("older_tick_half_way", change(2147483647, 3, 1) + change(2147483648, 3, 2), "2147483647 1 3 00000001\n2147483648 1 3 00000002\n"),
    ("older_gap_at_the_last_tick", ONE + gap(4294967295, 10), ONE_LINE + "4294967295 2 0 0000000A\n"),
    ("older_gap_in_the_same_tick", ONE + gap(5, 10), ONE_LINE + "5 2 0 0000000A\n"),
    ("older_gap_before_the_last_change", ONE + gap(4, 10), "E052\n"),
]

WORDS = [
    ("older_equal_words", ONE + change(6, 4, 0x11223344), "E052\n"),
    ("older_equal_words_by_006", ONE + change(6, 254, 0x11223344), "E052\n"),
    ("older_equal_words_late", changes(9) + change(9, 7, 1), "E052\n"),
    ("older_write_of_the_first_byte", ONE + change(5, 255, 0xFF223344), ONE_LINE + "5 1 255 FF223344\n"),
    ("older_write_of_the_second_byte", ONE + change(5, 255, 0x11003344), ONE_LINE + "5 1 255 11003344\n"),
    ("older_write_of_the_third_byte", ONE + change(5, 255, 0x11223244), ONE_LINE + "5 1 255 11223244\n"),
    ("older_write_of_the_fourth_byte", ONE + change(5, 255, 0x11223345), ONE_LINE + "5 1 255 11223345\n"),
    ("older_write_of_no_byte", ONE + change(5, 255, 0x11223344), "E052\n"),
    ("older_write_of_bytes_1_and_2", ONE + change(5, 255, 0x12233344), "E052\n"),
    ("older_write_of_bytes_3_and_4", ONE + change(5, 255, 0x11223445), "E052\n"),
    ("older_write_of_bytes_1_and_4", ONE + change(5, 255, 0x12223345), "E052\n"),
    ("older_write_of_bytes_2_and_3", ONE + change(5, 255, 0x11233444), "E052\n"),
    ("older_write_of_three_bytes", ONE + change(5, 255, 0x12233444), "E052\n"),
    ("older_write_of_four_bytes", ONE + change(5, 255, 0), "E052\n"),
    ("older_four_bytes_by_a_line", ONE + change(5, 0, 0), ONE_LINE + "5 1 0 00000000\n"),
    ("older_four_bytes_by_006", ONE + change(5, 254, 0xEEDDCCBB), ONE_LINE + "5 1 254 EEDDCCBB\n"),
    ("older_writes_of_different_bytes", change(0, 255, 1) + change(0, 255, 0x101) + change(0, 255, 0x100),
     "0 1 255 00000001\n0 1 255 00000101\n0 1 255 00000100\n"),
    ("older_write_and_a_line_of_two_bytes", change(0, 255, 1) + change(0, 0, 0x10002), "0 1 255 00000001\n0 1 0 00010002\n"),
]

MARKS = [
    ("older_wrong_mark_second", ONE + BAD_MARK, "E051\n"),
    ("older_wrong_mark_of_a_gap", ONE + gap(5, 1, mark=0x00E1), "E051\n"),
    ("older_present_mark_second", ONE + change(6, 3, 1, mark=0x1EE2), "E053\n"),
    ("older_present_mark_of_a_gap", ONE + gap(6, 1, mark=0x1EE2), "E053\n"),
    ("older_present_mark_and_052_in_one_record", ONE + change(6, 200, 1, mark=0x1EE2), "E053\n"),
    ("older_053_then_051", ONE + change(6, 3, 1, mark=0x1EE2) + BAD_MARK, "E053\n"),
    ("older_051_then_053", ONE + BAD_MARK + change(6, 3, 1, mark=0x1EE2), "E051\n"),
    ("older_052_then_053", ONE + IMPOSSIBLE + change(6, 3, 1, mark=0x1EE2), "E052\n"),
    ("older_053_then_052", ONE + change(6, 3, 1, mark=0x1EE2) + IMPOSSIBLE, "E053\n"),
    ("older_053_then_050", ONE + change(6, 3, 1, mark=0x1EE2) + b"\x1e", "E050\n"),
    ("older_053_then_056", ONE + change(6, 3, 1, mark=0x1EE2) + changes(5460), "E056\n"),
    ("older_present_mark_last_of_all", changes(5460) + gap(5460, 1, mark=0x1EE2), "E053\n"),
    ("older_then_present", changes(4) + present_change(9, 3, 5, 2) + present_change(9, 3, 6, 5) + present_gap(9, 1, 7), "E053\n"),
    ("older_then_one_present", changes(4) + present_change(9, 3, 5, 2), "E050\n"),  # 64 bytes
]

LENGTHS = [
    ("older_length_1", changes(1)[:1], "E050\n"),
    ("older_length_11", changes(1)[:11], "E050\n"),
    ("older_length_13", changes(2)[:13], "E050\n"),
    ("older_length_16", changes(2)[:16], "E050\n"),
    ("older_length_23", changes(2)[:23], "E050\n"),
    ("older_length_32", changes(3)[:32], "E050\n"),
    ("older_length_48", changes(4), lines(4)),
    ("older_length_65531", (changes(5460) + gap(5460, 1))[:65531], "E050\n"),
    ("older_length_65532", changes(5460) + gap(5460, 1), lines(5460) + "5460 2 0 00000001\n"),
    ("older_length_65533", changes(5460) + gap(5460, 1) + b"\x1e", "E056\n"),
    ("older_length_65535", changes(5462)[:65535], "E056\n"),
    ("older_length_65536", changes(5462)[:65536], "E056\n"),  # though a file of the mark 1E E2 can be as long
    ("older_length_65537", changes(5462)[:65537], "E056\n"),
    ("older_length_65544", changes(5460) + gap(5460, 1) + gap(5461, 1), "E056\n"),
    ("older_length_65544_of_changes", changes(5462), "E056\n"),
    ("older_length_65552", changes(5463)[:65552], "E056\n"),
    ("older_length_100000", changes(8334)[:100000], "E056\n"),
]

FULL = [
    ("older_changes_1000", changes(1000), lines(1000)),
    ("older_changes_5459_and_a_gap", changes(5459) + gap(5459, 3), lines(5459) + "5459 2 0 00000003\n"),
    ("older_changes_5460", changes(5460), lines(5460)),
    ("older_changes_5461", changes(5461), "E052\n"),
    ("older_longest_text", LONGEST, LONGEST_TEXT),
    ("older_full_with_a_wrong_mark_at_the_end", changes(5460) + gap(5460, 1, mark=0x1EE0), "E051\n"),
    ("older_full_with_a_gap_of_0", changes(5460) + gap(5460, 0), "E052\n"),
    ("older_full_with_a_falling_gap", changes(5460) + gap(5458, 1), "E052\n"),
    ("older_changes_5461_with_a_wrong_mark", changes(5460) + change(5460, 7, 1, mark=0x1EE0), "E051\n"),
    ("older_changes_5460_with_a_bad_last", changes(5459) + change(5459, 200, 2), "E052\n"),
]

TWO_FAULTS = [
    ("older_051_then_052", ONE + BAD_MARK + IMPOSSIBLE, "E051\n"),
    ("older_052_then_051", ONE + IMPOSSIBLE + BAD_MARK, "E052\n"),
    ("older_051_and_052_in_one_record", ONE + BOTH_FAULTS, "E051\n"),
    ("older_gap_first_then_051", gap(5, 1) + BAD_MARK, "E052\n"),
    ("older_050_then_051", ONE + b"\xe0" + ONE, "E050\n"),
    ("older_052_then_050", IMPOSSIBLE + ONE + b"\x1e\xe1\x01", "E050\n"),
    ("older_056_and_050", changes(5461) + b"\x1e", "E056\n"),
    ("older_056_and_050_far", changes(8000) + b"\x1e", "E056\n"),
    ("older_056_then_051", changes(5460) + gap(5460, 1) + BAD_MARK, "E056\n"),
    ("older_052_then_056", IMPOSSIBLE + changes(5461), "E056\n"),
    ("older_056_then_052", changes(5461) + IMPOSSIBLE, "E056\n"),
]

CASES = PLAIN + CAUSES + KINDS + GAPS + TICKS + WORDS + MARKS + LENGTHS + FULL + TWO_FAULTS
