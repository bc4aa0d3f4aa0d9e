#!/usr/bin/env python3
"""rig_lines.py PROGRAM: the rig's lines as bytes, its promptness and its ends; what a text file beside it cannot hold."""
import os
import subprocess
import sys

PROGRAM = sys.argv[1]


def check(got, want, what):
    if got != want:
        sys.exit(f"{what}: {got!r}, not {want!r}")


def answers(data, want, what):
    done = subprocess.run([PROGRAM], input=data, capture_output=True, check=False)
    check((done.returncode, done.stdout, done.stderr), (0, want, b""), what)


on, good = b"on 1600 1600 32", b"0\n"
answers(b"", b"", "no input")
answers(on, good, "a last line without its end")
answers(on + b"\r\n" + on + b"\r", good * 2, "CR LF, and CR at the very end")
answers(on + b"\r\r\n\r\n\n", b"?\n" * 3, "a CR too many, and lines with nothing in them")
answers(on + b"\0\n\0" + on + b"\n" + on + b"\0 1\n\0\n", b"?\n" * 4, "NUL")
answers(b"\x85\xff" + on + b"\n" + on + b"\x0b\n" + on + b"\xa0\n", b"?\n" * 3, "bytes that are blanks elsewhere")

# The longest line that is read has 1,048,576 characters, its CR among them; a longer one is one line still.
blanks = b" " * (1048576 - len(on))
answers(blanks + on + b"\n", good, "the longest line")
answers(blanks + b" " + on + b"\n" + on + b"\n", b"?\n" + good, "a longer line")
answers(b"x" * 5000000, b"?\n", "a very long line without its end")
whole = bytes(range(256)) * 273 + bytes(112)
digits = whole.hex().upper().encode()
answers(b"set dest 0 " + digits + b"\nget dest 0 70000\n", b"ok\n" + digits + b"\n", "a whole area")
answers(b"set dest 0 " + digits + b"00\nset dest 1 " + digits + b"\nget dest 0 2\n", b"?\n?\n0000\n", "more than the area")

# Each answer comes before the next line is asked for.
with subprocess.Popen([PROGRAM], stdin=subprocess.PIPE, stdout=subprocess.PIPE) as rig:
    for _ in range(1000):
        rig.stdin.write(b"ticks 3 1599 32\n")
        rig.stdin.flush()
        check(rig.stdout.readline(), b"30 0\n", "a prompt answer")


def ends(status, message, what, *options, **streams):
    done = subprocess.run([PROGRAM, *options], stderr=subprocess.PIPE, check=False, **streams)
    check((done.returncode, done.stderr[:len(message)]), (status, message), what)


# Output that is closed or full, input that cannot be read, options.
reader, writer = os.pipe()
os.close(reader)
ends(1, b"rig: cannot write", "closed output", input=on, stdout=writer)
ends(1, b"rig: cannot write", "help into a closed output", "--help", stdout=writer)
with open("/dev/full", "wb") as full:
    ends(1, b"rig: cannot write", "full output", input=on, stdout=full)
ends(1, b"rig: cannot read", "a folder as input", stdin=os.open("/", os.O_RDONLY), stdout=subprocess.DEVNULL)
ends(2, b"usage: rig", "a wrong option", "--none", stdin=subprocess.DEVNULL, stdout=subprocess.DEVNULL)
check(subprocess.run([PROGRAM, "--help"], capture_output=True, check=True).stdout[:10], b"usage: rig", "help")
