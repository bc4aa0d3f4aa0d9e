"""loglist_marks.py: the cases of loglist.py about the marks 1E E2 and 1E E1 in one file, and about first marks that are neither; the cases
of the older mark in front stand in loglist_older.py."""
from loglist_records import change, changes, gap, older_change, older_changes, older_gap

ONE = change(5, 3, 0x11223344, 0x11223300)
BAD_MARK = change(6, 3, 1, 0x11223344, mark=0x1EE0)
OLDER_MARK = change(6, 3, 1, 0x11223344, mark=0x1EE1)
IMPOSSIBLE = change(6, 200, 1, 0x11223344)

MIXED = [
    ("older_mark_second", ONE + OLDER_MARK, "E053\n"),
    ("older_mark_of_a_gap", ONE + gap(5, 2, 0, mark=0x1EE1), "E053\n"),
    ("older_mark_after_a_gap", ONE + gap(5, 2, 0) + OLDER_MARK, "E053\n"),
    ("present_then_older", changes(3) + older_changes(4), "E053\n"),
    ("present_then_one_older", changes(3) + older_change(9, 3, 5), "E050\n"),  # 60 bytes
    ("older_mark_last_of_all", changes(4095) + gap(4095, 1, 2, mark=0x1EE1), "E053\n"),
    ("older_mark_in_a_4096th_change", changes(4095) + change(4095, 7, 2, 1, mark=0x1EE1), "E053\n"),
    ("053_and_052_in_one_record", ONE + change(6, 200, 1, 0, mark=0x1EE1), "E053\n"),
    ("053_then_051", ONE + OLDER_MARK + BAD_MARK, "E053\n"),
    ("051_then_053", ONE + BAD_MARK + OLDER_MARK, "E051\n"),
    ("053_then_052", ONE + OLDER_MARK + IMPOSSIBLE, "E053\n"),
    ("052_then_053", ONE + IMPOSSIBLE + OLDER_MARK, "E052\n"),
    ("052_first_then_053", gap(5, 1, 1) + OLDER_MARK, "E052\n"),
    ("053_then_050", ONE + OLDER_MARK + b"\x1e", "E050\n"),
    ("050_then_053", ONE + b"\x1e" + OLDER_MARK, "E050\n"),
    ("053_then_056", ONE + OLDER_MARK + changes(4095), "E056\n"),
    ("056_then_053", changes(4095) + gap(4095, 1, 2) + OLDER_MARK, "E056\n"),
    # A log of the one form under the other's mark is cut in the wrong places. 36 bytes are three records of 12, 48 bytes four.
    ("records_of_12_under_the_mark", older_change(5, 3, 1, mark=0x1EE2) * 3, "E050\n"),
    ("records_of_12_under_the_mark_48", older_change(5, 3, 1, mark=0x1EE2) * 4, "E051\n"),  # the second begins with a tick, 00 00
    ("records_of_16_under_the_older_mark", change(5, 3, 1, 0, mark=0x1EE1), "E050\n"),
    ("records_of_16_under_the_older_mark_48", change(5, 3, 1, 0, mark=0x1EE1) * 3, "E051\n"),  # the second with a last word, 00 00
    ("a_last_word_like_the_mark", change(5, 3, 1, 0x1EE20000, mark=0x1EE1) * 3, "E053\n"),
    ("a_last_word_like_the_older_mark", change(5, 3, 1, 0x1EE10000, mark=0x1EE1) * 3, "E052\n"),  # its kind is 0
]

UNKNOWN_MARKS = (0x1EE0, 0x1EE3, 0x1FE2, 0x1FE1, 0xE21E, 0xE11E, 0x00E2, 0x1E00, 0x1E1E, 0xE2E2, 0x9EE2, 0x0000, 0xFFFF)

UNKNOWN = [
    *((f"first_mark_{mark:04X}", change(5, 3, 1, 0, mark=mark), "E051\n") for mark in UNKNOWN_MARKS),
    *((f"first_mark_{mark:04X}_of_12_bytes", older_change(5, 3, 1, mark=mark), "E050\n") for mark in UNKNOWN_MARKS),
    ("text_for_a_log", b"hello, recorder\n", "E051\n"),
    ("text_of_12_bytes", b"hello world\n", "E050\n"),
    ("zeros_12", bytes(12), "E050\n"),
    ("zeros_16", bytes(16), "E051\n"),
    ("zeros_24", bytes(24), "E050\n"),
    ("zeros_48", bytes(48), "E051\n"),
    ("unknown_then_present", BAD_MARK + ONE, "E051\n"),
    ("unknown_then_older", BAD_MARK + OLDER_MARK, "E051\n"),
    ("unknown_and_052_in_one_record", change(6, 200, 1, 1, mark=0x1EE0) + ONE, "E051\n"),
    ("unknown_before_records_of_12", older_change(5, 3, 1, mark=0x1EE0) + older_changes(3), "E051\n"),  # 48 bytes
    ("unknown_before_two_records_of_12", older_change(5, 3, 1, mark=0x1EE0) + older_changes(1), "E050\n"),
    ("unknown_1_byte", b"\x00", "E050\n"),
    ("half_a_mark", b"\x1e", "E050\n"),
    ("unknown_15_bytes", BAD_MARK[:15], "E050\n"),
    ("unknown_17_bytes", BAD_MARK + b"\x1e", "E050\n"),
    ("unknown_65520_bytes", BAD_MARK + changes(4094), "E051\n"),
    ("unknown_65532_bytes", older_change(5, 3, 1, mark=0x1EE0) + older_changes(5460), "E050\n"),
    ("unknown_65533_bytes", older_change(5, 3, 1, mark=0x1EE0) + older_changes(5460) + b"\x1e", "E050\n"),
    ("unknown_65536_bytes", BAD_MARK + changes(4095), "E051\n"),
    ("unknown_65537_bytes", BAD_MARK + changes(4095) + b"\x1e", "E056\n"),
    ("unknown_65544_bytes", older_change(5, 3, 1, mark=0x1EE0) + older_changes(5461), "E056\n"),
    ("unknown_65552_bytes", BAD_MARK + changes(4096), "E056\n"),
]

SHORT = [
    ("two_bytes_of_the_mark", b"\x1e\xe2", "E050\n"),
    ("two_bytes_of_the_older_mark", b"\x1e\xe1", "E050\n"),
    ("older_gap_before_present_records", older_gap(5, 1) + changes(3), "E052\n"),  # 60 bytes: five records of 12
]

CASES = MIXED + UNKNOWN + SHORT
