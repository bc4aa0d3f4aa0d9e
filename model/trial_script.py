"""How a scenario of the program `trials` speaks to the model: what is lent, altered and called.

Each record of the input is four bytes, op x hi lo.  P S L R lend the first n bytes of the program,
saved, log and out buffers, where n stands in the last three bytes; A V G alter one byte of the program,
saved and log buffers; o b t n e are the five calls, b with byte x, n with the button that stands in the
last three bytes.  Each call prints its refusal number, For and Next lines run, bytes written, a sum of
each whole buffer, and the bytes written.  What stands beside a call is read from documents 01 and 02
and is asserted against the model in areas.py.
"""

from functools import lru_cache, reduce

from areas import Machine

PROGRAM, SAVED, LOG, OUT = range(4)
SIZES = (1608, 1608, 65544, 128)
END = "53000000 00000000"
GUARD = "A5A6A7A8A9AAABAC"
BLINK = ("4601270F 00000000", "53000000 00010001", "53000000 00020001", "4E010000 00000000")
buffers = [bytearray(size) for size in SIZES]
lent = [1600, 1600, 32, 16]
sent, printed = bytearray(), bytearray()
machine = Machine()
scenarios = []


def scenario(function):
    scenarios.append(function)
    return function


@lru_cache(64)
def total(data):
    return reduce(lambda h, byte: (h * 31 + byte) % 65521, data, 0)


def record(op, x=0, low=0):
    sent.extend((ord(op), x, low >> 8, low & 255))


def numbered(op, number):
    record(op, number >> 16, number & 65535)


def lend(program=None, saved=None, log=None, out=None):
    """Lend that many bytes from now on; a number above the buffer is ignored."""
    for k, n in enumerate((program, saved, log, out)):
        if n is not None:
            numbered("PSLR"[k], n)
            lent[k] = n if n <= SIZES[k] else lent[k]


def alter(which, at, data):
    """The caller alters bytes of a buffer, lent or not; one outside the buffer is ignored."""
    for k, byte in enumerate(bytes.fromhex(data), at):
        record("AVG"[which], byte, k)
        if k < SIZES[which]:
            buffers[which][k] = byte


def stands(which, at, data):
    """These bytes stand in a buffer."""
    data = bytes.fromhex(data)
    assert buffers[which][at:at + len(data)] == data, buffers[which][at:at + len(data)].hex()


def call(op, x, expected):
    (numbered if op == "n" else record)(op, x)
    areas = [buffer[:n] for buffer, n in zip(buffers, lent)]
    program, saved, log, out = areas
    refusal, lines, written = {
        "o": lambda: machine.power_on(program, saved, log), "t": lambda: machine.tick(program, log),
        "b": lambda: machine.wire_byte(x, program, saved, log, out),
        "n": lambda: machine.press(x, program, log), "e": lambda: machine.empty(log, out)}[op]()
    for buffer, area in zip(buffers, areas):
        buffer[:len(area)] = area
    data = bytes(buffers[OUT][:written])
    sums = [total(bytes(buffer)) for buffer in buffers]
    printed.extend(" ".join(map(str, [refusal, lines, written, *sums])).encode() + b" " + data + b"\n")
    assert (refusal, lines, data) == expected, (op, x, refusal, lines, data, expected)


def on(refusal=0):
    call("o", 0, (refusal, 0, b""))


def byte(x, refusal=0, reply=b"", lines=0):
    call("b", x, (refusal, lines, reply))


def tick(refusal=0, lines=0, times=1):
    for _ in range(times):
        call("t", 0, (refusal, lines, b""))


def press(button, refusal=0, lines=0):
    call("n", button, (refusal, lines, b""))


def empty(*records, refusal=0):
    call("e", 0, (refusal, 0, bytes.fromhex(" ".join(records))))


def say(text, reply, lines=0):
    for char in text:
        byte(ord(char))
    byte(13, 0, reply.encode() + b"\r", lines)


def program(*lines, at=0):
    alter(PROGRAM, 8 * at, " ".join(lines))


def save_end_marks():
    """The caller writes end marks into the saved buffer. The first scenario does so, and one that alters them puts them back."""
    alter(SAVED, 0, END * 200)


def fresh(*lines, log=32, out=16, at=0):
    """Right lengths, a power-on, which loads the end marks of the saved copy, then the lines."""
    lend(1600, 1600, log, out)
    on()
    program(*lines, at=at)
