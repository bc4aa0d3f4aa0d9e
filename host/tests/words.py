#!/usr/bin/env python3
"""Arguments as decimal numbers: a line for each, the number in decimal and its two words of eight capital hex digits. Status 0 if all are right.

    words.py COMMAND...          on a program that prints the lines of all its arguments, `no number` for one that is none
    words.py --each COMMAND...   on the program of words.sh, which takes one, or 100000 without it, and tells what is wrong on standard error
"""
import os
import subprocess
import sys

MOST = 18446744073709551615
NUMBERS = [
    ("0", 0), ("1", 1), ("9", 9), ("10", 10), ("007", 7), ("0" * 100, 0), ("0" * 5000 + "1", 1), ("99999", 99999), ("100000", 100000),
    ("4294967295", 4294967295), ("4294967296", 4294967296), ("9223372036854775807", 9223372036854775807),
    ("9223372036854775808", 9223372036854775808), ("9999999999999999999", 9999999999999999999),
    ("10000000000000000000", 10000000000000000000), ("18446744073709551609", MOST - 6), ("18446744073709551610", MOST - 5),
    ("18446744073709551614", MOST - 1), ("18446744073709551615", MOST), ("0018446744073709551615", MOST),
    # above the most: every last digit, one digit more, what comes back to a small number in 64 bits, and very long ones
    *[(f"1844674407370955161{digit}", MOST) for digit in (6, 7, 8, 9)], ("18446744073709551620", MOST), ("18446744073709551700", MOST),
    ("18446744073709551616000", MOST), ("184467440737095516160", MOST), ("19000000000000000000", MOST), ("20000000000000000000", MOST),
    ("36893488147419103232", MOST), ("340282366920938463463374607431768211456", MOST), ("9" * 20, MOST), ("1" + "0" * 4999, MOST),
    ("9" * 5000, MOST), ("9" * 100000, MOST),
]
OTHERS = ["", " ", "+1", "1 ", " 1", "1.", "1.0", "1e3", "1,000", "1_000", "0x10", "x", "1x", "x1", "A", "12a34", "/", ":", "1/", "1:",
          "\n", "1\n", "-", "١", "²", "1" * 5000 + "x", "\udcff", "1\udcff", "\udcb1"]


USAGE = b"how to call it: words [--next] [NUMBER]\n"


def line_of(number):
    return f"{number} {number // 4294967296:08X} {number % 4294967296:08X}"


def ran(command, words):
    done = subprocess.run([*command, *words], capture_output=True, check=False, timeout=300)
    return done.stdout.decode(), done.stderr, done.returncode


def all_at_once(command):
    words = [word for word, _ in NUMBERS] + OTHERS
    want = [line_of(number) for _, number in NUMBERS] + ["no number"] * len(OTHERS)
    out, said, status = ran(command, words)
    got = out.split("\n")
    for word, line, right in zip(words, got, want):
        if line != right:
            sys.exit(f"{word[:60]!r}, {len(word)} characters: {line!r}, not {right!r}")
    if (len(got) - 1, status, said) != (len(want), 0, b""):
        sys.exit(f"{len(got) - 1} lines for {len(want)} arguments, status {status}, {said!r}")


def wrong(what, word):
    """Of a long argument the first 4,096 bytes are told."""
    return "", what + b"'" + os.fsencode(word)[:4096] + b"'\n" + USAGE, 0


def each(command):
    cases = [([], (line_of(100000) + "\n", b"", 0)), (["--next"], (line_of(100000) + "\n", b"", 0))]
    for word, number in NUMBERS:
        right = (line_of(number) + "\n", b"", 0)
        cases += [([word], right), (["--next", word], right), ([word, "2"], wrong(b"one argument too many: ", "2")),
                  ([word, "--next"], wrong(b"there is no option ", "--next"))]
    for word in OTHERS:
        cases += [([word], wrong(b"no number: ", word)), (["--next", word], wrong(b"no number: ", word))]
    for word in ("--", "-1", "--nex", "--next1", "--" + "n" * 5000):
        cases += [([word], wrong(b"there is no option ", word)), (["1", word], wrong(b"there is no option ", word))]
    for words, right in cases:
        got = ran(command, words)
        if got != right:
            sys.exit(f"{[word[:60] for word in words]!r}: {got!r}, not {right!r}")


def main(words):
    if words[:1] == ["--each"] and len(words) > 1:
        each(words[1:])
    elif words and words[0] != "--each":
        all_at_once(words)
    else:
        sys.exit(__doc__)


if __name__ == "__main__":
    main(sys.argv[1:])
