"""The input of the program `bench`, with the replies that document 01 gives: its own example, and then the two buttons.

Use: python3 bench.py INPUT OUTPUT.  The first file gets the bytes of the standard input, the second the expected output.
"""

import sys

from script import answered, say, sent


def example():
    # The example of the program `bench`: three writes, "the outputs before and after the third tick, and the event".
    say("CW000S00000000050003^CW001S00000000000000^CW210003^##CR206^#CR206^CR212^", "OK OK OK 05 00 011")


def buttons():
    # The same program, by the buttons. "Start/Stop starts at 000 when stopped, else stops. Pause pauses, continues, or when stopped does nothing."
    say("%CR201^!CR201^CR206^", "00 02 05")             # Pause when stopped; Start: D1 running
    say("#%CR201^###CR206^", "03 05")                   # one tick of three, then a pause, D0: no tick of it counts
    say("%CR201^#CR206^#CR206^", "02 05 00")            # continued: the second and the third tick
    say("CR201^CR211^CR212^", "80 001 011")             # ended at the end mark
    say("!#!CR201^CR206^CR211^CR212^", "80 05 000 010")  # stopped by the button: 010; outputs and line stay
    say("!%CR201^!CR201^CR212^", "03 80 010")           # Stop in a pause


def main():
    example()
    buttons()
    with open(sys.argv[1], "wb") as file:
        file.write(bytes(sent))
    with open(sys.argv[2], "wb") as file:
        file.write("".join(answered).encode("ascii"))


if __name__ == "__main__":
    main()
