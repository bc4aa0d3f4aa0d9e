"""loglist_cases.py: the cases of loglist.py under the mark 1E E2, of records of 16 bytes: name, log, text."""
from loglist_records import change, changes, gap, lines, record

ONE, ONE_LINE = change(5, 3, 0x11223344, 0x11223300), "5 1 3 11223344 11223300\n"
BAD_MARK = change(6, 3, 1, 0x11223344, mark=0x1EE0)
IMPOSSIBLE = change(6, 200, 1, 0x11223344)
BOTH_FAULTS = change(6, 200, 1, 0x11223344, mark=0x1EE0)
LONGEST = b"".join(change(4294967295, 255, 0xFFFFFFFE, 0xFFFFFFFF) if n % 2 else change(4294967295, 255, 0xFFFFFFFF, 0xFFFFFFFE)
                   for n in range(4095)) + gap(4294967295, 4294967295, 0xFFFFFFFF)
LONGEST_TEXT = ("4294967295 1 255 FFFFFFFF FFFFFFFE\n4294967295 1 255 FFFFFFFE FFFFFFFF\n" * 2047 + "4294967295 1 255 FFFFFFFF FFFFFFFE\n"
                + "4294967295 2 0 FFFFFFFF FFFFFFFF\n")


def second(tick, cause, word, before=0x11223344):
    """A change behind ONE."""
    return ONE + change(tick, cause, word, before)


PLAIN = [
    ("empty", b"", ""),
    ("one_change", ONE, ONE_LINE),
    ("change_and_gap", ONE + gap(9, 2, 0xAABBCCDD), ONE_LINE + "9 2 0 00000002 AABBCCDD\n"),
    ("worked_point", change(0, 0, 5, 0) + gap(1, 1, 0), "0 1 0 00000005 00000000\n1 2 0 00000001 00000000\n"),
    ("four_changes",
     change(0, 0, 1, 0) + change(10, 12, 0xABCDEF, 1) + change(99, 199, 0x90A0B0C0, 0xABCDEF) + change(100, 254, 0, 0x90A0B0C0),
     "0 1 0 00000001 00000000\n10 1 12 00ABCDEF 00000001\n99 1 199 90A0B0C0 00ABCDEF\n100 1 254 00000000 90A0B0C0\n"),
    ("first_word_0", change(4, 9, 0, 0x80000000), "4 1 9 00000000 80000000\n"),
    ("first_word_0_by_a_write", change(0, 255, 0, 0x00FF0000), "0 1 255 00000000 00FF0000\n"),
    ("a_word_again", change(1, 0, 1, 2) + change(1, 1, 2, 1) + change(1, 0, 1, 2),
     "1 1 0 00000001 00000002\n1 1 1 00000002 00000001\n1 1 0 00000001 00000002\n"),
]

CAUSES = [
    ("cause_0", change(5, 0, 1, 0), "5 1 0 00000001 00000000\n"),
    ("cause_199", change(5, 199, 1, 0), "5 1 199 00000001 00000000\n"),
    ("cause_200", change(5, 200, 1, 0), "E052\n"),
    ("cause_253", change(5, 253, 1, 0), "E052\n"),
    ("cause_254", change(5, 254, 1, 0), "5 1 254 00000001 00000000\n"),
    ("cause_255", change(5, 255, 1, 0), "5 1 255 00000001 00000000\n"),
    ("cause_200_second", second(5, 200, 1), "E052\n"),
    ("cause_253_second", second(5, 253, 1), "E052\n"),
    ("cause_254_second", second(5, 254, 1), ONE_LINE + "5 1 254 00000001 11223344\n"),
]

KINDS = [
    ("kind_0", record(5, 0, 3, 1, 0), "E052\n"),
    ("kind_3", record(5, 3, 3, 1, 0), "E052\n"),
    ("kind_255", record(5, 255, 3, 1, 0), "E052\n"),
    ("kind_0_second", ONE + record(5, 0, 0, 1, 0x11223344), "E052\n"),
    ("kind_3_second", ONE + record(5, 3, 0, 2, 0x11223344), "E052\n"),
    ("kind_2_with_a_line", ONE + record(5, 2, 3, 2, 1), "E052\n"),
]

GAPS = [
    ("gap_alone", gap(5, 1, 1), "E052\n"),
    ("gap_of_2_alone", gap(5, 2, 0), "E052\n"),
    ("gap_first", gap(5, 1, 1) + ONE, "E052\n"),
    ("gap_with_cause_1", ONE + gap(5, 2, 1, cause=1), "E052\n"),
    ("gap_with_cause_254", ONE + gap(5, 2, 1, cause=254), "E052\n"),
    ("gap_with_cause_255", ONE + gap(5, 2, 1, cause=255), "E052\n"),
    ("gap_of_0", ONE + gap(5, 0, 1), "E052\n"),
    ("gap_of_0_with_the_word_before", ONE + gap(5, 0, 0x11223344), "E052\n"),
    ("gap_of_1", ONE + gap(5, 1, 0x11223345), ONE_LINE + "5 2 0 00000001 11223345\n"),
    ("gap_of_1_in_four_bytes", ONE + gap(5, 1, 0xEEDDCCBB), ONE_LINE + "5 2 0 00000001 EEDDCCBB\n"),
    ("gap_of_1_with_the_word_before_the_last_change", ONE + gap(5, 1, 0x11223300), ONE_LINE + "5 2 0 00000001 11223300\n"),
    ("gap_of_1_with_the_word_before_it", ONE + gap(5, 1, 0x11223344), "E052\n"),
    ("gap_of_1_with_a_word_before_it_of_0", change(5, 3, 0, 1) + gap(5, 1, 0), "E052\n"),
    ("gap_of_2_with_the_word_before_it", ONE + gap(5, 2, 0x11223344), ONE_LINE + "5 2 0 00000002 11223344\n"),
    ("gap_of_256_with_the_word_before_it", ONE + gap(5, 0x100, 0x11223344), ONE_LINE + "5 2 0 00000100 11223344\n"),
    ("gap_of_16777217_with_the_word_before_it", ONE + gap(5, 0x1000001, 0x11223344), ONE_LINE + "5 2 0 01000001 11223344\n"),
    ("gap_of_the_most", ONE + gap(5, 4294967295, 0), ONE_LINE + "5 2 0 FFFFFFFF 00000000\n"),
    ("gap_of_the_most_with_the_word_before_it", ONE + gap(5, 4294967295, 0x11223344), ONE_LINE + "5 2 0 FFFFFFFF 11223344\n"),
    ("gap_of_as_many_as_the_word_before_it", ONE + gap(5, 0x11223344, 1), ONE_LINE + "5 2 0 11223344 00000001\n"),
    ("change_after_a_gap", ONE + gap(5, 2, 1) + change(6, 3, 2, 1), "E052\n"),
    ("gap_after_a_gap", ONE + gap(5, 2, 1) + gap(6, 2, 2), "E052\n"),
    ("wrong_mark_after_a_gap", ONE + gap(5, 2, 1) + change(6, 3, 2, 1, mark=0), "E051\n"),
    ("wrong_mark_second_after_a_gap", ONE + gap(5, 2, 1) + change(6, 3, 2, 1) + BAD_MARK, "E052\n"),
]

TICKS = [
    ("equal_ticks", second(5, 3, 1), ONE_LINE + "5 1 3 00000001 11223344\n"),
    ("tick_falls_by_one", second(4, 3, 1), "E052\n"),
    ("tick_falls_to_0", change(4294967295, 3, 1, 0) + change(0, 3, 2, 1), "E052\n"),
    ("tick_falls_in_its_high_byte", change(0x01000000, 3, 1, 0) + change(0x00FFFFFF, 3, 2, 1), "E052\n"),
    ("tick_rises_in_its_high_byte", change(0x00FFFFFF, 3, 1, 0) + change(0x01000000, 3, 2, 1),
     "16777215 1 3 00000001 00000000\n16777216 1 3 00000002 00000001\n"),
    ("tick_falls_below_the_last_but_not_the_first", change(1, 3, 1, 0) + change(9, 3, 2, 1) + change(8, 3, 1, 2), "E052\n"),
    ("last_tick", change(4294967294, 3, 1, 0) + change(4294967295, 3, 2, 1) + change(4294967295, 255, 3, 2),
     "4294967294 1 3 00000001 00000000\n4294967295 1 3 00000002 00000001\n4294967295 1 255 00000003 00000002\n"),
    ("gap_at_the_last_tick", ONE + gap(4294967295, 10, 0), ONE_LINE + "4294967295 2 0 0000000A 00000000\n"),
    ("gap_in_the_same_tick", ONE + gap(5, 10, 0), ONE_LINE + "5 2 0 0000000A 00000000\n"),
    ("gap_before_the_last_change", ONE + gap(4, 10, 0), "E052\n"),
]

# Each record's own word against its earlier one, and that against the word before it.
WORDS = [
    ("first_words_equal", change(5, 3, 7, 7), "E052\n"),
    ("first_words_equal_and_0", change(5, 3, 0, 0), "E052\n"),
    ("first_words_equal_by_006", change(5, 254, 7, 7), "E052\n"),
    ("first_words_equal_by_a_write", change(5, 255, 7, 7), "E052\n"),
    ("first_words_equal_then_051", change(5, 3, 7, 7) + BAD_MARK, "E052\n"),
    ("first_by_a_line_in_four_bytes", change(5, 3, 0x01020304, 0), "5 1 3 01020304 00000000\n"),
    ("first_by_a_write_of_the_first_byte", change(5, 255, 0xFF223344, 0x11223344), "5 1 255 FF223344 11223344\n"),
    ("first_by_a_write_of_the_fourth_byte", change(5, 255, 0x112233FF, 0x11223344), "5 1 255 112233FF 11223344\n"),
    ("first_by_a_write_of_bytes_1_and_2", change(5, 255, 0x12233344, 0x11223344), "E052\n"),
    ("first_by_a_write_of_bytes_3_and_4", change(5, 255, 0x11223445, 0x11223344), "E052\n"),
    ("first_by_a_write_of_four_bytes", change(5, 255, 0x01010101, 0), "E052\n"),
    ("earlier_not_the_word_before", second(6, 4, 1, 0x11223345), "E052\n"),
    ("earlier_of_the_record_before", second(6, 4, 1, 0x11223300), "E052\n"),
    ("earlier_in_its_first_byte", second(6, 4, 1, 0x10223344), "E052\n"),
    ("earlier_0", second(6, 4, 1, 0), "E052\n"),
    ("earlier_not_the_word_before_by_a_write", second(6, 255, 0x11223346, 0x11223345), "E052\n"),
    ("earlier_late", changes(9) + change(9, 7, 3, 2), "E052\n"),
    ("earlier_of_the_third", changes(2) + change(2, 7, 1, 1) + change(3, 7, 2, 1), "E052\n"),
    ("equal_words", second(6, 4, 0x11223344), "E052\n"),
    ("equal_words_by_006", second(6, 254, 0x11223344), "E052\n"),
    ("equal_words_late", changes(9) + change(9, 7, 1, 1), "E052\n"),
    ("write_of_the_first_byte", second(5, 255, 0xFF223344), ONE_LINE + "5 1 255 FF223344 11223344\n"),
    ("write_of_the_second_byte", second(5, 255, 0x11003344), ONE_LINE + "5 1 255 11003344 11223344\n"),
    ("write_of_the_third_byte", second(5, 255, 0x11223244), ONE_LINE + "5 1 255 11223244 11223344\n"),
    ("write_of_the_fourth_byte", second(5, 255, 0x11223345), ONE_LINE + "5 1 255 11223345 11223344\n"),
    ("write_of_no_byte", second(5, 255, 0x11223344), "E052\n"),
    ("write_of_bytes_1_and_2", second(5, 255, 0x12233344), "E052\n"),
    ("write_of_bytes_3_and_4", second(5, 255, 0x11223445), "E052\n"),
    ("write_of_bytes_1_and_4", second(5, 255, 0x12223345), "E052\n"),
    ("write_of_bytes_2_and_3", second(5, 255, 0x11233444), "E052\n"),
    ("write_of_four_bytes", second(5, 255, 0), "E052\n"),
    ("four_bytes_by_a_line", second(5, 0, 0), ONE_LINE + "5 1 0 00000000 11223344\n"),
    ("four_bytes_by_006", second(5, 254, 0xEEDDCCBB), ONE_LINE + "5 1 254 EEDDCCBB 11223344\n"),
    ("writes_of_different_bytes", change(0, 255, 1, 0) + change(0, 255, 0x101, 1) + change(0, 255, 0x100, 0x101),
     "0 1 255 00000001 00000000\n0 1 255 00000101 00000001\n0 1 255 00000100 00000101\n"),
]

FULL_LINES = lines(4095) + "4095 2 0 00000001 00000002\n"  # the last of the changes is to 1

LENGTHS = [
    ("length_1", changes(1)[:1], "E050\n"),
    ("length_12", changes(1)[:12], "E050\n"),
    ("length_15", changes(1)[:15], "E050\n"),
    ("length_17", changes(2)[:17], "E050\n"),
    ("length_24", changes(2)[:24], "E050\n"),
    ("length_31", changes(2)[:31], "E050\n"),
    ("length_36", changes(3)[:36], "E050\n"),
    ("length_65520", changes(4095), lines(4095)),
    ("length_65521", changes(4095) + b"\x1e", "E050\n"),
    ("length_65532", (changes(4095) + gap(4095, 1, 2))[:65532], "E050\n"),  # whole records of 12
    ("length_65535", (changes(4095) + gap(4095, 1, 2))[:65535], "E050\n"),
    ("length_65536", changes(4095) + gap(4095, 1, 2), FULL_LINES),
    ("length_65537", changes(4095) + gap(4095, 1, 2) + b"\x1e", "E056\n"),
    ("length_65544", changes(4097)[:65544], "E056\n"),
    ("length_65552", changes(4095) + gap(4095, 1, 2) + gap(4096, 1, 1), "E056\n"),
    ("length_65552_of_changes", changes(4097), "E056\n"),
    ("length_100000", changes(6250), "E056\n"),
]

FULL = [
    ("changes_1000", changes(1000), lines(1000)),
    ("changes_4094_and_a_gap", changes(4094) + gap(4094, 3, 2), lines(4094) + "4094 2 0 00000003 00000002\n"),
    ("changes_4095_and_a_gap_of_2", changes(4095) + gap(4095, 2, 1), lines(4095) + "4095 2 0 00000002 00000001\n"),
    ("changes_4096", changes(4096), "E052\n"),
    ("longest_text", LONGEST, LONGEST_TEXT),
    ("full_with_a_wrong_mark_at_the_end", changes(4095) + gap(4095, 1, 2, mark=0x1EE0), "E051\n"),
    ("full_with_a_gap_of_0", changes(4095) + gap(4095, 0, 2), "E052\n"),
    ("full_with_a_gap_of_1_with_the_word_before_it", changes(4095) + gap(4095, 1, 1), "E052\n"),
    ("full_with_a_falling_gap", changes(4095) + gap(4093, 1, 2), "E052\n"),
    ("changes_4096_with_a_wrong_mark", changes(4095) + change(4095, 7, 2, 1, mark=0x1EE0), "E051\n"),
    ("changes_4095_with_a_bad_last", changes(4094) + change(4094, 200, 1, 2), "E052\n"),
]

TWO_FAULTS = [
    ("wrong_mark_second", ONE + BAD_MARK, "E051\n"),
    ("wrong_mark_of_a_gap", ONE + gap(5, 2, 1, mark=0x00E2), "E051\n"),
    ("051_then_052", ONE + BAD_MARK + IMPOSSIBLE, "E051\n"),
    ("052_then_051", ONE + IMPOSSIBLE + BAD_MARK, "E052\n"),
    ("051_and_052_in_one_record", ONE + BOTH_FAULTS, "E051\n"),
    ("gap_first_then_051", gap(5, 1, 1) + BAD_MARK, "E052\n"),
    ("050_then_051", ONE + b"\xe0" + ONE, "E050\n"),
    ("052_then_050", IMPOSSIBLE + ONE + b"\x1e\xe2\x01", "E050\n"),
    ("056_and_050", changes(4096) + b"\x1e", "E056\n"),
    ("056_and_050_far", changes(8000) + b"\x1e", "E056\n"),
    ("056_then_051", changes(4095) + gap(4095, 1, 2) + BAD_MARK, "E056\n"),
    ("052_then_056", IMPOSSIBLE + changes(4096), "E056\n"),
    ("056_then_052", changes(4096) + IMPOSSIBLE, "E056\n"),
]

CASES = PLAIN + CAUSES + KINDS + GAPS + TICKS + WORDS + LENGTHS + FULL + TWO_FAULTS
