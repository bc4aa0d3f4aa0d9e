"""The plans of plan.py, each with what the program must write and say, worked out by hand from request 10 and the program's page; nothing
was taken from a planner.

A program is written as the lines that a read over the wire answers: S00, eight digits of outputs and four of the time; F, counter and four
digits of the count; N and the counter. All lines behind those that are written are end marks with all outputs off.
"""


def line(read):
    if read[0] == "S":
        return bytes([0x53, 0]) + bytes.fromhex(read[3:11]) + int(read[11:]).to_bytes(2, "big")
    if read[0] == "F":
        return bytes([0x46, int(read[1])]) + int(read[2:]).to_bytes(2, "big") + bytes(4)
    return bytes([0x4E, int(read[1])]) + bytes(6)


def program(reads):
    lines = [line(read) for read in reads.split()]
    return b"".join(lines + [line("S00000000000000")] * (200 - len(lines)))


# ---- one time: its ticks, and its lines where the word is A1B2C3D4

STATE, LOOP = "S00A1B2C3D4%s", "F1%s S00A1B2C3D49999 N1"
TIMES = [
    ("1", STATE % "0001"),
    ("2", STATE % "0002"),
    ("255", STATE % "0255"),
    ("256", STATE % "0256"),
    ("9998", STATE % "9998"),
    ("9999", STATE % "9999"),
    ("10000", LOOP % "0001" + " " + STATE % "0001"),
    ("10001", LOOP % "0001" + " " + STATE % "0002"),
    ("19997", LOOP % "0001" + " " + STATE % "9998"),
    ("19998", LOOP % "0002"),
    ("19999", LOOP % "0002" + " " + STATE % "0001"),
    ("29997", LOOP % "0003"),
    ("65536", LOOP % "0006" + " " + STATE % "5542"),  # 59,994 and 5,542
    ("589941", LOOP % "0059"),
    ("599939", LOOP % "0059" + " " + STATE % "9998"),
    ("599940", LOOP % "0060"),
    ("599941", LOOP % "0060" + " " + STATE % "0001"),
    ("599999", LOOP % "0060" + " " + STATE % "0059"),
    ("600000", LOOP % "0060" + " " + STATE % "0060"),
]


def times():
    """Each as a settling, as a reading, and between two moves."""
    for ticks, lines in TIMES:
        yield f"settling_{ticks}", f"A1B2C3D4 {ticks} 00000001 7\n", f"{lines} S00000000010007"
        yield f"reading_{ticks}", f"00000001 7 A1B2C3D4 {ticks}\n", f"S00000000010007 {lines}"
        yield (f"both_{ticks}", f"00000001 7 A1B2C3D4 {ticks}\nA1B2C3D4 {ticks} 00000001 8\n",
               f"S00000000010007 {lines} {lines} S00000000010008")


# ---- whole plans: name, text, lines

LONGEST = "12345678 600000 9ABCDEF0 600000\n"  # eight lines
LONGEST_LINES = "F10060 S00123456789999 N1 S00123456780060 F10060 S009ABCDEF09999 N1 S009ABCDEF00060 "
SHORTEST, SHORTEST_LINES = "00000001 1 00000002 1\n", "S00000000010001 S00000000020001 "

# model/plan.py has it too: the stored input of the program.
STORED = ("# Inclining test, five moves; times in ticks of 0.1 s.\n"
          "\n"
          "00000001 1 80000001 9999        # the shortest settling, the longest State\n"
          "0000000f\t10000\t8000000F\t19998  # 10000 has a remainder of 1, 19998 has none\r\n"
          "  \t # the weight stays where it is: equal words behind each other\n"
          "8000000F 19999 8000000f 0600000\n"
          "  00000000 600000\t 00000000 00001\t\n"
          "#00000001 5 00000002\r\n"
          "DeadBeef 9998 12345678 599940#sixty times 9,999")
STORED_LINES = ("S00000000010001 S00800000019999 "
                "F10001 S000000000F9999 N1 S000000000F0001 F10002 S008000000F9999 N1 "
                "F10002 S008000000F9999 N1 S008000000F0001 F10060 S008000000F9999 N1 S008000000F0060 "
                "F10060 S00000000009999 N1 S00000000000060 S00000000000001 "
                "S00DEADBEEF9998 F10060 S00123456789999 N1")

PLANS = [
    ("stored", STORED, STORED_LINES),
    ("one_move", "00000005 3 00000006 4\n", "S00000000050003 S00000000060004"),
    ("two_moves", "00000005 3 00000006 4\n80000000 5 FFFFFFFF 6\n",
     "S00000000050003 S00000000060004 S00800000000005 S00FFFFFFFF0006"),
    ("sixteen_moves", SHORTEST * 16, SHORTEST_LINES * 16),
    ("sixteen_longest_moves", LONGEST * 16, LONGEST_LINES * 16),  # 128 lines and 72 end marks
    ("sixteen_of_three_lines", "00000001 599940 00000002 19998\n" * 16, "F10060 S00000000019999 N1 F10002 S00000000029999 N1 " * 16),
    ("equal_words", "00000007 3 00000007 4\n00000007 5 00000007 6\n",
     "S00000000070003 S00000000070004 S00000000070005 S00000000070006"),
    ("equal_words_of_one_time", "00000007 9999 00000007 9999\n", "S00000000079999 S00000000079999"),
    ("words_0", "00000000 3 00000000 4\n", "S00000000000003 S00000000000004"),
    ("word_0_last", "00000001 3 00000000 10000\n", "S00000000010003 F10001 S00000000009999 N1 S00000000000001"),
    ("all_outputs", "FFFFFFFF 1 ffffffff 9999\n", "S00FFFFFFFF0001 S00FFFFFFFF9999"),
    ("each_byte_of_a_word", "01020304 1 F5E6D7C8 1\n", "S00010203040001 S00F5E6D7C80001"),
    # what looks like lines is only a word
    ("words_like_lines", "53004601 1 4E010000 1\n", "S00530046010001 S004E0100000001"),
]

# ---- text: name, text, lines

FORMS = [
    ("no_line_end", "00000005 3 00000006 4", "S00000000050003 S00000000060004"),
    ("cr_lf", "00000005 3 00000006 4\r\n00000007 5 00000008 6\r\n",
     "S00000000050003 S00000000060004 S00000000070005 S00000000080006"),
    ("cr_lf_and_lf", "00000005 3 00000006 4\r\n00000007 5 00000008 6\n",
     "S00000000050003 S00000000060004 S00000000070005 S00000000080006"),
    ("cr_lf_behind_blanks", "00000005 3 00000006 4 \t\r\n", "S00000000050003 S00000000060004"),
    ("cr_lf_alone", "\r\n00000005 3 00000006 4\n\r\n \r\n", "S00000000050003 S00000000060004"),
    ("tabs", "00000005\t3\t00000006\t4\n", "S00000000050003 S00000000060004"),
    ("blanks_before_and_behind", "  \t00000005 \t 3  00000006\t\t4 \t \n", "S00000000050003 S00000000060004"),
    ("empty_lines", "\n\n00000005 3 00000006 4\n\n \n\t\n00000007 5 00000008 6\n\n",
     "S00000000050003 S00000000060004 S00000000070005 S00000000080006"),
    ("comments", "# one\n#\n  # two\n00000005 3 00000006 4\n\t#00000007 5 00000008 6\n#", "S00000000050003 S00000000060004"),
    ("comment_behind_a_move", "00000005 3 00000006 4 # five and six # and more\n", "S00000000050003 S00000000060004"),
    ("comment_at_once", "00000005 3 00000006 4#\n00000007 5 00000008 6#7\r\n",
     "S00000000050003 S00000000060004 S00000000070005 S00000000080006"),
    ("comment_of_any_bytes", "#\0\x01\x7f\x80\xff\r\v\f\n00000005 3 00000006 4#\r\r\r\0", "S00000000050003 S00000000060004"),
    ("comment_that_ends_in_cr", "00000005 3 00000006 4\n# the end\r", "S00000000050003 S00000000060004"),
    ("comment_without_line_end", "00000005 3 00000006 4\n# the end", "S00000000050003 S00000000060004"),
    ("digits_of_either_case", "abcdefAB 3 ABCDEFab 4\n", "S00ABCDEFAB0003 S00ABCDEFAB0004"),
    ("all_digits", "01234567 1 89ABCDEF 1\n89abcdef 1 76543210 1\n",
     "S00012345670001 S0089ABCDEF0001 S0089ABCDEF0001 S00765432100001"),
    ("zeros_in_front", "00000005 0003 00000006 " + "0" * 100 + "4\n", "S00000000050003 S00000000060004"),
    ("zeros_before_the_most", "00000005 0000600000 00000006 1\n", "F10060 S00000000059999 N1 S00000000050060 S00000000060001"),
    ("sixteen_moves_among_comments", "# a\n" + (SHORTEST + "\n#\n") * 16, SHORTEST_LINES * 16),
]

# ---- refusals: name, text, refusal

REFUSED = [
    ("no_text", "", "E070"),
    ("only_a_line_end", "\n", "E070"),
    ("only_blanks", " \t \n\t", "E070"),
    ("only_comments", "# 00000001 1 00000002 1\n#\r\n", "E070"),
    ("seventeen_moves", SHORTEST * 17, "E070"),
    ("seventeen_longest_moves", LONGEST * 17, "E070"),
    ("eighteen_moves", SHORTEST * 18, "E070"),
    # 256 and more: what is a right number in eight bits, or in sixteen
    ("moves_257", SHORTEST * 257, "E070"),
    ("moves_65537", SHORTEST * 65537, "E070"),
    *[(f"settling_{ticks}", f"00000001 {ticks} 00000002 1\n", "E071") for ticks in (
        "0", "00", "0" * 100, "600001", "0600001", "999999", "1000000", "65536000", "2147483648", "4294967295")],
    *[(f"reading_{ticks}", f"00000001 1 00000002 {ticks}\n", "E071") for ticks in (
        "0", "000", "600001", "600002", "4294967295")],
    # right numbers in 8, 16, 32 and 64 bits
    *[(f"wide_time_{ticks}", f"00000001 {ticks} 00000002 1\n", "E071") for ticks in (
        "4294967296", "4294967297", "4295567296", "18446744073709551616", "18446744073709551617", "18446744073710151616",
        "340282366920938463463374607431768211457", "1" * 30, "9" * 5000)],
    ("wrong_time_in_the_last_move", SHORTEST * 15 + "00000001 1 00000002 600001\n", "E071"),
    ("wrong_time_in_the_first_move", "00000001 0 00000002 1\n" + SHORTEST * 15, "E071"),
    ("070_before_071", "00000001 0 00000002 600001\n" + SHORTEST * 16, "E070"),
    ("070_before_071_of_the_last", SHORTEST * 16 + "00000001 0 00000002 1\n", "E070"),
]

# ---- text that is no plan: name, text, line, what is wrong there

NO_WORD, NO_TIME = "the word of the move is not eight hex digits", "the settling time is not a decimal number"
NO_SECOND_WORD, NO_SECOND_TIME = "the word of the reading is not eight hex digits", "the reading time is not a decimal number"
BEHIND = "something stands behind the reading time"

BAD_WORDS = ("0", "0000001", "000000001", "0x000001", "0000000g", "0000000G", "g0000000", "0000000/", "0000000:", "0000000@", "0000000`",
             "+0000001", "-0000001", "0000000.", "move", "\0" * 8, "0000\r000", "\r", "00000001\r", "0000\v0000", "00000001,", "０",
             "\xa0", "00000000" * 2, "1" * 5000)
BAD_TIMES = ("-1", "+1", "1.5", "1,5", "5s", "0x5", "a", "A", "1a", "a1", "/", ":", "5\r", "\r5", "\0", "1\0", "\x80", "９", "1e3", "_1",
             "1" * 5000 + "x")


def bad_fields():
    for number, word in enumerate(BAD_WORDS):
        yield f"word_{number}", f"{word} 1 00000002 1\n", 1, NO_WORD
        yield f"second_word_{number}", f"00000001 1 {word} 1\n", 1, NO_SECOND_WORD
    for number, time in enumerate(BAD_TIMES):
        yield f"settling_{number}", f"00000001 {time} 00000002 1\n", 1, NO_TIME
        yield f"reading_{number}", f"00000001 1 00000002 {time} \n", 1, NO_SECOND_TIME  # a CR before the LF would be its own


WRONG = [
    ("settling_missing", "00000001\n", 1, "the settling time is missing"),
    ("second_word_missing", "00000001 5\n", 1, "the word of the reading is missing"),
    ("reading_missing", "00000001 5 00000002\n", 1, "the reading time is missing"),
    ("reading_missing_at_the_end", "00000001 5 00000002", 1, "the reading time is missing"),
    ("reading_missing_behind_blanks", "00000001 5 00000002 \t", 1, "the reading time is missing"),
    ("missing_behind_cr_lf", "00000001 5\r\n", 1, "the word of the reading is missing"),
    ("cut_off_by_a_comment", "00000001 5 00000002 #6\n", 1, "the reading time is missing"),
    ("cut_off_by_a_comment_at_once", "00000001#5 00000002 6\n", 1, "the settling time is missing"),
    ("word_cut_off_by_a_comment", "0000#0001 5 00000002 6\n", 1, NO_WORD),
    ("fifth_field", "00000001 5 00000002 6 7\n", 1, BEHIND),
    ("fifth_field_of_a_letter", "00000001 5 00000002 6 x # 7\n", 1, BEHIND),
    ("second_move_on_a_line", "00000001 5 00000002 6 00000003 7 00000004 8\n", 1, BEHIND),
    ("cr_alone", "00000001 5 00000002 6 \r", 1, BEHIND),
    ("cr_at_the_end", "00000001 5 00000002 6\r", 1, NO_SECOND_TIME),
    ("cr_cr_lf", "00000001 5 00000002 6\r\r\n", 1, NO_SECOND_TIME),
    ("cr_as_line_end", "00000001 5 00000002 6\r00000003 7 00000004 8\r", 1, NO_SECOND_TIME),
    ("cr_between_fields", "00000001\r5 00000002 6\n", 1, NO_WORD),
    ("cr_before_a_comment", "00000001 5 00000002 6\r# x\r\n", 1, NO_SECOND_TIME),
    ("only_a_cr", "\r", 1, NO_WORD),
    ("vertical_tab", "00000001\v5 00000002 6\n", 1, NO_WORD),
    ("byte_order_mark", "\ufeff00000001 5 00000002 6\n", 1, NO_WORD),
    ("times_and_words_exchanged", "5 00000001 6 00000002\n", 1, NO_WORD),
    ("line_2", SHORTEST + "00000001\n", 2, "the settling time is missing"),
    ("line_among_others", "# one\n\r\n \n" + SHORTEST + "\n00000001 5 x\n" + SHORTEST, 6, NO_SECOND_WORD),
    ("line_without_an_end", "\n\n\n\n\n\n\n\n\n00000001 5", 10, "the word of the reading is missing"),
    ("line_65537", "\n" * 65536 + "?", 65537, NO_WORD),
    ("line_behind_cr_lf", "\r\n" * 11 + "?", 12, NO_WORD),
    # several: the first line, and of a line the first from the left
    ("first_of_two_lines", SHORTEST + "00000001 x\n00000001\n", 2, NO_TIME),
    ("first_from_the_left", "0000000 x 0000 y z\n", 1, NO_WORD),
    ("wrong_before_missing", "00000001 x\n", 1, NO_TIME),
    ("wrong_before_fifth", "00000001 5 00000002 x y\n", 1, NO_SECOND_TIME),
    # and before every refusal
    ("behind_seventeen_moves", SHORTEST * 17 + "00000001\n", 18, "the settling time is missing"),
    ("behind_a_thousand_moves", SHORTEST * 1000 + "x\n", 1001, NO_WORD),
    ("in_seventeen_moves", SHORTEST * 3 + "x\n" + SHORTEST * 17, 4, NO_WORD),
    ("behind_a_time_of_0", "00000001 0 00000002 0\n00000001 5 00000002 6 7\n", 2, BEHIND),
    ("behind_a_time_that_is_too_long", "00000001 600001 0000000\n", 1, NO_SECOND_WORD),
]

HOW = "a move is WORD SETTLING WORD READING: words of eight hex digits, times in decimal ticks"

# ---- tables: name, text, table

TABLES = [
    ("one_move", "00000005 3 00000006 4\n",
     "move 01: 00000005 settling 0 to 3 (0:00.0 to 0:00.3), 00000006 reading 3 to 7 (0:00.3 to 0:00.7)\n"
     "total: 7 (0:00.7)\n"),
    ("two_moves", "0000000a 600 deadBEEF 1199\n00000000 1 0000000B 599999\n",
     "move 01: 0000000A settling 0 to 600 (0:00.0 to 1:00.0), DEADBEEF reading 600 to 1799 (1:00.0 to 2:59.9)\n"
     "move 02: 00000000 settling 1799 to 1800 (2:59.9 to 3:00.0), 0000000B reading 1800 to 601799 (3:00.0 to 1002:59.9)\n"
     "total: 601799 (1002:59.9)\n"),
    ("shortest", "FFFFFFFF 1 80000000 1",
     "move 01: FFFFFFFF settling 0 to 1 (0:00.0 to 0:00.1), 80000000 reading 1 to 2 (0:00.1 to 0:00.2)\n"
     "total: 2 (0:00.2)\n"),
    ("seconds", "00000001 9 00000002 91\n00000003 499 00000004 36001\n",
     "move 01: 00000001 settling 0 to 9 (0:00.0 to 0:00.9), 00000002 reading 9 to 100 (0:00.9 to 0:10.0)\n"
     "move 02: 00000003 settling 100 to 599 (0:10.0 to 0:59.9), 00000004 reading 599 to 36600 (0:59.9 to 61:00.0)\n"
     "total: 36600 (61:00.0)\n"),
    ("equal_words", "# weights stay\n00000007 600 00000007 600\r\n00000007 0600 00000007 600",
     "move 01: 00000007 settling 0 to 600 (0:00.0 to 1:00.0), 00000007 reading 600 to 1200 (1:00.0 to 2:00.0)\n"
     "move 02: 00000007 settling 1200 to 1800 (2:00.0 to 3:00.0), 00000007 reading 1800 to 2400 (3:00.0 to 4:00.0)\n"
     "total: 2400 (4:00.0)\n"),
    # a move is 1,200,000 ticks, 2,000 minutes
    ("sixteen_longest_moves", LONGEST * 16,
     "move 01: 12345678 settling 0 to 600000 (0:00.0 to 1000:00.0), 9ABCDEF0 reading 600000 to 1200000 (1000:00.0 to 2000:00.0)\n"
     + "".join(f"move {move + 1:02d}: 12345678 settling {move * 12}00000 to {move * 12 + 6}00000 ({move * 2}000:00.0 to "
               f"{move * 2 + 1}000:00.0), 9ABCDEF0 reading {move * 12 + 6}00000 to {move * 12 + 12}00000 ({move * 2 + 1}000:00.0 to "
               f"{move * 2 + 2}000:00.0)\n" for move in range(1, 16))
     + "total: 19200000 (32000:00.0)\n"),
]


def encoded(text):
    """The characters up to FF are bytes of their own; the others are in UTF-8."""
    return b"".join(char.encode("latin-1" if ord(char) < 256 else "utf-8") for char in text)


def cases():
    """Name, text, arguments, and what is written and said. A plan in order and one that is none are also asked for by --check."""
    for kind, plans in (("time", times()), ("plan", PLANS), ("text", FORMS)):
        for name, text, lines in plans:
            yield f"{kind}_{name}", encoded(text), (), program(lines), []
    for words in ((), ("--check",)):
        way = "check_" if words else ""
        for name, text, refusal in REFUSED:
            yield f"{way}refused_{name}", encoded(text), words, f"{refusal}\n".encode(), []
        for name, text, number, what in [*bad_fields(), *WRONG]:
            yield f"{way}wrong_{name}", encoded(text), words, b"", [f"line {number}: {what}", HOW]
    for name, text, table in TABLES:
        yield f"table_{name}", encoded(text), ("--check",), table.encode(), []


CASES = list(cases())
