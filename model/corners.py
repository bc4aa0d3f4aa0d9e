"""The scenarios of the program `corners`, with the replies that documents 01 and 02 give.

Use: python3 corners.py INPUT OUTPUT.  The first file gets the bytes of the standard input, the second the expected output.
"""

import sys

import bad_corners  # its scenarios come first
import wire_corners
import running_corners
import none_corners
from script import SCENARIOS, answered, say, sent


def main():
    for run in SCENARIOS:
        run()
    say("CW210001^CR201^")
    with open(sys.argv[1], "wb") as file:
        file.write(bytes(sent))
    with open(sys.argv[2], "wb") as file:
        file.write("".join(answered).encode("ascii"))


if __name__ == "__main__":
    main()
