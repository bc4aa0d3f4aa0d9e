"""serial_box.py: a running serialbox for the cases of serial.py, and what they compare by."""
import os
import select
import subprocess
import sys
import time

PROGRAM = sys.argv[1]
END_MARK = bytes.fromhex("5300000000000000")


class Box:
    """A running serialbox in a folder of its own, and a program that has its line open."""

    started = []

    def __init__(self, folder, *options, commands=subprocess.PIPE, before=None):
        self.folder = folder
        self.saved, self.log, self.link = (os.path.join(folder, name) for name in ("saved", "log", "link"))
        self.process = subprocess.Popen(
            [PROGRAM, "--saved", self.saved, "--log", self.log, "--link", self.link, *options], preexec_fn=before,
            stdin=commands, stdout=subprocess.PIPE, stderr=subprocess.PIPE)
        Box.started.append(self.process)
        self.name = self.process.stdout.readline().decode().strip()
        self.line = os.open(self.name, os.O_RDWR | os.O_NOCTTY) if self.name else -1

    def send(self, data):
        while data:
            data = data[os.write(self.line, data):]

    def read(self, count, seconds=20):
        """As many bytes, or what came of them in time."""
        data, end = b"", time.monotonic() + seconds
        while len(data) < count and select.select([self.line], [], [], max(0, end - time.monotonic()))[0]:
            got = os.read(self.line, count - len(data))
            if not got:  # the box is gone
                break
            data += got
        return data

    def ask(self, command, reply):
        self.send(command.encode("latin-1") + b"\r")
        equal(self.read(len(reply) + 1), reply.encode() + b"\r", command)
        equal(self.read(1, 0), b"", "more than the reply to " + command)

    def command(self, text):
        self.process.stdin.write(text.encode() + b"\n")
        self.process.stdin.flush()

    def wait_for(self, command, reply, seconds):
        """Asks until the reply is the one given; the time when it was."""
        end = time.monotonic() + seconds
        while time.monotonic() < end:
            self.send(command.encode() + b"\r")
            if self.read(len(reply) + 1) == reply.encode() + b"\r":
                return time.monotonic()
            time.sleep(0.01)
        raise AssertionError(f"{command} never answered {reply}")

    def empty(self):
        """Empties the log, waits for the message that says so, and reads the file."""
        self.command("empty")
        while b"appended" not in self.process.stderr.readline():
            pass
        return records(self.log)

    def end(self, status=0):
        """Its messages after an end by `quit`, or after an end that the case brought about."""
        if self.process.poll() is None and self.process.stdin and status == 0:
            self.command("quit")
        messages = self.process.communicate(timeout=20)[1].decode()
        equal(self.process.returncode, status, "status; messages: " + messages)
        if self.line >= 0:
            os.close(self.line)
        return messages


def equal(got, want, what):
    if got != want:
        raise AssertionError(f"{what}: {got!r}, not {want!r}")


def within(value, least, most, what):
    if not least <= value <= most:
        raise AssertionError(f"{what}: {value}, not {least} to {most}")


def contents(path):
    with open(path, "rb") as file:
        return file.read()


def records(path):
    """The log file as (kind, cause, tick, value, word)."""
    data = contents(path)
    equal(len(data) % 16, 0, "length of the log file in records")
    rows = [data[i:i + 16] for i in range(0, len(data), 16)]
    for row in rows:
        equal(row[:2], b"\x1e\xe2", "mark")
    return [(row[2], row[3], *(int.from_bytes(row[i:i + 4], "big") for i in (4, 8, 12))) for row in rows]
