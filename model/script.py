"""How a scenario speaks to the model: what is sent, what is answered, and the state it starts from.

In the scenarios ^ is byte 13, # a tick (byte 1), ! button 1 Start/Stop (byte 2) and % button 2 Pause (byte 3).  Replies
written beside the input are read from the paper and are asserted against the model in box.py.
"""

from box import Box

MARKS = {"^": 13, "#": 1, "!": 2, "%": 3}
END = "S00000000000000"
LONG = "S00000000FF9999"
box = Box()
sent, answered = [], []


def say(text, expected=None):
    """Send a text; its replies must be the expected ones, which are parted by spaces."""
    replies = ""
    for char in text:
        byte = MARKS.get(char, ord(char))
        sent.append(byte)
        replies += box.feed(byte)
    answered.append(replies)
    got = replies.split("\r")[:-1]
    if expected is not None:
        assert got == expected.split(), (text, expected.split(), got)
    return got


def program(*lines, at=0):
    """Write program lines from an address on; each is accepted."""
    for k, line in enumerate(lines):
        say("CW%03d%s^" % (at + k, line), "OK")


def known(*lines, at=0):
    """Stopped at 000, all lines end marks, outputs 0, parameter 0, event read, 210 is 003; then the lines.

    The last scenario of bad_corners.py saved end marks; one that saves a program puts them back, so 007 always loads them.
    """
    say("CW210001^CW210007^CW210003^CR212^", "OK OK OK 011")
    say("CW209000^CW200%s^" % END, "OK OK")
    program(*lines, at=at)


def line_for(address):
    """A line of its own for each address; 000 holds the box for long."""
    return LONG if address == 0 else [
        "S00%08X%04d" % (address * 0x01010101 % 2 ** 32, address * 50),
        "F%d%04d" % (address % 4 + 1, address * 49), "N%d" % (address % 4 + 1)][address % 3]


def enter(state):
    """From stopped with a long line at 000 to one of the three states."""
    say({"stopped": "", "running": "CW210003^", "paused": "CW210003^%"}[state],
        {"stopped": "", "running": "OK", "paused": "OK"}[state])


def stopped_by(event, line):
    """The event stands unread, is cleared by reading 212, and 211 tells the line."""
    say("CR201^CR211^CR212^CR201^CR212^", "80 %03d %03d 00 000" % (line, event))
    say("CR213^CR214^CR215^CR216^", "0000 0000 0000 0000")


SCENARIOS = []


def scenario(function):
    SCENARIOS.append(function)
    return function
