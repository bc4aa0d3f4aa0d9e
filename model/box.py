"""The switch box as read from documents 01 and 02: a third reading, independent of the proved code.

The expected output of the program `corners` is made from this model.  It covers what the
standard input of `corners` can reach: wire bytes, ticks and the two buttons, after a power-on
from an all-zero saved copy.  No reply shows the log, and the areas always have their right
sizes, so neither the log nor the refusals 030-035 are modelled.
"""

DIGITS, HEX = set("0123456789"), set("0123456789ABCDEF")
STOPPED, PAUSED, RUNNING = 0, 1, 2
READ_ONLY = (201, 202, 207, 208, 211, 212, 213, 214, 215, 216)
END_MARK, BAD = ("S", 0, 0), ("Bad",)

# Special commands: the code, then whether Stop, Pause and Auto allow it.
ALLOWED = {1: (1, 1, 1), 2: (0, 1, 1), 3: (1, 0, 0), 4: (0, 1, 0),
           5: (1, 0, 0), 6: (1, 0, 0), 7: (1, 0, 0), 8: (1, 0, 0)}

# Document 02, item 3: where it is not allowed, the error says what the command needs; then that its parameter is out of reach.
NEEDS_STOP, NEEDS_PAUSE, NOTHING_TO_PAUSE, OUT_OF_REACH = 20, 21, 22, 23

# Document 02, item 4: "reading a Bad line over the wire answers E024".
BAD_LINE = 24


class WireError(Exception):
    """An error reply; the argument is its number."""


def need(condition, number):
    if not condition:
        raise WireError(number)


def decode(raw):
    # Variables: a line is 8 bytes. 02, item 4: "Reading eight bytes now answers State, For, Next or Bad".
    count, time = raw[2] * 256 + raw[3], raw[6] * 256 + raw[7]
    if raw[0] == 0x53 and raw[1] == 0 and time <= 9999:
        return ("S", int.from_bytes(raw[2:6], "big"), time)
    if raw[0] == 0x46 and 1 <= raw[1] <= 4 and count <= 9999 and not any(raw[4:]):
        return ("F", raw[1], count)
    if raw[0] == 0x4E and 1 <= raw[1] <= 4 and not any(raw[2:]):
        return ("N", raw[1])
    return BAD


def encode(line):
    # Variables: the 8 bytes of State, For and Next, high bytes first.
    if line[0] == "S":
        return bytes([0x53, 0]) + line[1].to_bytes(4, "big") + line[2].to_bytes(2, "big")
    if line[0] == "F":
        return bytes([0x46, line[1]]) + line[2].to_bytes(2, "big") + bytes(4)
    return bytes([0x4E, line[1]]) + bytes(6)


def show(line):
    # Variables: the wire forms of the three lines.
    return {"S": "S00%08X%04d", "F": "F%d%04d", "N": "N%d"}[line[0]] % line[1:]


def parse(data):
    # The wire, checks 5 and 6: the data of a line, its length before its format.
    need(data, 2)
    need(data[0] in "SFN", 3)
    need(len(data) == {"S": 15, "F": 6, "N": 2}[data[0]], 2)
    if data[0] == "S":
        need(data[1:3] == "00" and set(data[3:11]) <= HEX and set(data[11:]) <= DIGITS, 3)
        return ("S", int(data[3:11], 16), int(data[11:]))
    need(data[1] in "1234" and set(data[2:]) <= DIGITS, 3)
    return ("F", int(data[1]), int(data[2:])) if data[0] == "F" else ("N", int(data[1]))


class Box:
    def __init__(self):
        # The bytes of lines 000-199, which power-on loads, and of 200, an end mark with outputs 0 at power-on.
        self.saved = [bytes(8)] * 200
        self.program = [*self.saved, encode(END_MARK)]
        # Running: power-on has outputs 0, stopped, line 000, parameter 0, event 012.
        self.state, self.line, self.outputs, self.ticks_left = STOPPED, 0, 0, 0
        self.counters, self.for_lines = [0] * 4, [0] * 4
        self.event, self.unread, self.parameter, self.special = 12, True, 0, 0
        # The wire: collection starts empty; read and write keep separate last addresses, both before 000 (02, item 7).
        self.kept, self.overlong, self.last = "", False, {"R": -1, "W": -1}

    def feed(self, byte):
        """One byte of the program's input; the reply, with its 13, or nothing."""
        # Worked points: byte 1 is a tick, 2 and 3 are buttons 1 and 2, the rest is wire.
        self.lines_run = 0
        if byte > 3 or byte == 0:
            return self.wire(byte)
        if byte == 1:
            self.tick()
        elif byte == 3:
            # Special commands: Pause pauses, continues, or when stopped does nothing.
            self.state = (STOPPED, RUNNING, PAUSED)[self.state]
        elif self.state == STOPPED:
            # Special commands: Start/Stop starts at 000 when stopped, else stops with 010.
            self.start(0)
        else:
            self.stop_with(10)
        return ""

    def line_at(self, k):
        return decode(self.program[k])

    def load(self):
        # 02, item 4: "Load and save copy the bytes unaltered".
        self.program[:200] = self.saved

    def save(self):
        self.saved = self.program[:200]

    def stop(self):
        # Special commands: stop frees the loops and keeps outputs and line.
        self.state, self.counters = STOPPED, [0] * 4

    def stop_with(self, event):
        # Running: an event stop also overwrites any unread event.
        self.stop()
        self.event, self.unread = event, True

    def start(self, line):
        # Running: a start frees all loops; lines run inside the start call.
        self.state, self.counters, self.line = RUNNING, [0] * 4, line
        self.run()

    def tick(self):
        # Running: the next line falls due on the T-th tick taken unpaused.
        self.ticks_left -= self.state == RUNNING
        if self.state == RUNNING and self.ticks_left == 0:
            self.go_on()
            self.run()

    def go_on(self):
        # Running: going on past 199 is event 009, and the line stays 199.
        if self.line == 199:
            self.stop_with(9)
        else:
            self.line += 1

    def run(self):
        # Running: lines run until a State holds the box or the program stops.
        while self.state == RUNNING:
            line = self.line_at(self.line)
            if line == BAD:
                # 02, item 4: "Running a Bad line stops with event 014 at that line"; being no For or Next, it is not counted.
                return self.stop_with(14)
            if line[0] == "S":
                # Running: a State sets all outputs at once; with time 0 it stops, 011.
                self.outputs, self.ticks_left = line[1], line[2]
                if line[2] == 0:
                    self.stop_with(11)
                return
            # Running: at most 400 For and Next lines in a call; a 401st due is 013.
            if self.lines_run == 400:
                return self.stop_with(13)
            self.lines_run += 1
            (self.run_for if line[0] == "F" else self.run_next)(*line[1:])
            if self.state == RUNNING:
                self.go_on()

    def run_for(self, counter, count):
        # Running: For with a busy counter is 006, without a later Next 007. 02, item 4: the search passes over a Bad line.
        later = [self.line_at(k) for k in range(self.line + 1, 200)]
        if self.counters[counter - 1]:
            return self.stop_with(6)
        if ("N", counter) not in later:
            return self.stop_with(7)
        if count == 0:
            # 02, item 2: 0000 takes no counter and goes on from that Next.
            self.line += 1 + later.index(("N", counter))
        else:
            self.counters[counter - 1], self.for_lines[counter - 1] = count, self.line

    def run_next(self, counter):
        # Running: Next with a free counter is 008; above zero back to the line after For.
        if self.counters[counter - 1] == 0:
            return self.stop_with(8)
        self.counters[counter - 1] -= 1
        if self.counters[counter - 1]:
            self.line = self.for_lines[counter - 1]

    def wire(self, byte):
        # The wire: 13 ends a command, 32 is dropped, 32 characters kept, a 33rd is overlong.
        if byte not in (13, 32):
            self.overlong = self.overlong or len(self.kept) == 32
            self.kept = (self.kept + chr(byte))[:32]
        if byte != 13:
            return ""
        # The wire: a-z count as A-Z; each 13 gets one reply, then collection starts empty.
        try:
            reply = self.command("".join(c.upper() if "a" <= c <= "z" else c for c in self.kept))
        except WireError as error:
            reply = "E%03d" % error.args[0]
        self.kept, self.overlong = "", False
        return reply + "\r"

    def command(self, text):
        # The wire, checks 1 and 2: length, overlong, first, second and third character.
        need(len(text) >= 3, 1)
        need(not self.overlong and text[0] == "C" and text[1] in "RW" and (text[2] in "ID" or len(text) >= 5), 2)
        # The wire, check 3: the address, and the addresses never written.
        way = text[1]
        if text[2] in "ID":
            address, data = self.last[way] + (1 if text[2] == "I" else -1), text[3:]
        else:
            need(set(text[2:5]) <= DIGITS, 4)
            address, data = int(text[2:5]), text[5:]
        need(0 <= address <= 216 and not (way == "W" and address in READ_ONLY), 4)
        # The wire, check 4: while running or paused only 209 and 210 are written.
        need(way == "R" or self.state == STOPPED or address in (209, 210), 5)
        reply = (self.read if way == "R" else self.write)(address, data)
        # The wire: last addresses move only on a command answered without an error.
        self.last[way] = address
        return reply

    def read(self, address, data):
        # The wire, check 5: a read has no characters left over.
        need(not data, 2)
        # Variables: the formats of the table.
        if address <= 200:
            # 02, item 4: a Bad line is refused after the length check.
            line = self.line_at(address)
            need(line != BAD, BAD_LINE)
            return show(line)
        if 203 <= address <= 206:
            return "%02X" % (self.outputs >> 8 * (206 - address) & 255)
        if address >= 213:
            return "%04d" % self.counters[address - 213]
        # Variables: 201 has D7 unread event, D1 running (also when paused), D0 paused.
        reply = {201: "%02X" % (128 * self.unread + (0, 3, 2)[self.state]), 202: "00", 207: "00", 208: "000",
                 209: "%03d" % self.parameter, 210: "%03d" % self.special, 211: "%03d" % self.line,
                 212: "%03d" % self.event}[address]
        # Variables: reading 212 clears code and D7.
        if address == 212:
            self.event, self.unread = 0, False
        return reply

    def write(self, address, data):
        if address <= 200:
            self.program[address] = encode(parse(data))
        elif address <= 206:
            # Variables: a write to 203-206 alters its eight bits and no other bit.
            need(len(data) == 2, 2)
            need(set(data) <= HEX, 3)
            shift = 8 * (206 - address)
            self.outputs = self.outputs & ~(255 << shift) | int(data, 16) << shift
        else:
            # The wire, checks 5 and 6: three digits to 255.
            need(len(data) == 3, 2)
            need(set(data) <= DIGITS and int(data) <= 255, 3)
            if address == 209:
                self.parameter = int(data)
            else:
                self.obey(int(data))
        return "OK"

    def obey(self, code):
        # The wire, check 7: the code, then the state, then the parameter.
        need(code in ALLOWED, 3)
        need(ALLOWED[code][self.state], {2: NOTHING_TO_PAUSE, 4: NEEDS_PAUSE}.get(code, NEEDS_STOP))
        need(self.parameter <= {5: 199, 6: 200}.get(code, 255), OUT_OF_REACH)
        self.special = code
        # Special commands: what each does; 006 sets the outputs of a State line. 02, item 4: of a Bad line it "does nothing and answers OK".
        if code == 1:
            self.stop()
        elif code in (2, 4):
            self.state = PAUSED if code == 2 else RUNNING
        elif code in (3, 5):
            self.start(self.parameter if code == 5 else 0)
        elif code == 6 and self.line_at(self.parameter)[0] == "S":
            self.outputs = self.line_at(self.parameter)[1]
        elif code == 7:
            self.load()
        elif code == 8:
            self.save()
