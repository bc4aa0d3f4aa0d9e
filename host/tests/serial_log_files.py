"""serial_log_files.py: the cases of serial.py about the log file at the start (document 02, item 8): a list of it goes by its first mark,
so the box appends to a file of whole records of 16 bytes under that mark alone."""
import os

from serial_box import Box, contents, equal

PRESENT = bytes.fromhex("1EE201FF" "00000003" "00000005" "00000000")  # by a write, tick 3: outputs 5 where they were 0
OLDER = bytes.fromhex("1EE101FF" "00000003" "00000005")


def refused(folder, data, why):
    """A box is not started with this log file; the message names the file and says why, and the file stays as it is."""
    path = os.path.join(folder, "log")
    with open(path, "wb") as file:
        file.write(data)
    os.utime(path, (1, 1))
    box = Box(folder)
    equal(box.name, "", "name printed")
    (message,) = box.end(1).splitlines()
    equal((path in message, why in message), (True, True), "the message: " + message)
    equal(contents(path), data, "the file")
    equal(os.stat(path).st_mtime, 1, "the time of its last change")
    equal(sorted(os.listdir(folder)), ["log"], "files left")


def appended(folder, data):
    """A box appends to this log file."""
    path = os.path.join(folder, "log")
    with open(path, "wb") as file:
        file.write(data)
    box = Box(folder)
    box.ask("CW20601", "OK")
    box.end()
    after, record = contents(path)[:-16], contents(path)[-16:]
    equal(after, data, "what the file held")
    equal(record[:4] + record[8:], bytes.fromhex("1EE201FF" "00000001" "00000000"), "the record appended, but for its tick")


def older_log_file(folder):
    """Records of 12 bytes: also as many as are whole ones of 16, and one that is cut."""
    for data in (OLDER, OLDER * 2, OLDER * 4, OLDER + PRESENT, OLDER[:11], OLDER[:2], OLDER * 4 + PRESENT):
        refused(folder, data, "older mark 1E E1, of 12 bytes")


def other_log_file(folder):
    """What does not begin with the mark is no log, whatever its length."""
    for data in (b"\x1e", b"\xe2", b"S" * 16, bytes(16), bytes(32), b"\x1e\xe0" + PRESENT[2:], b"\x1f" + PRESENT[1:],
                 b"\xe2\x1e" + PRESENT[2:], b"\n" + PRESENT, PRESENT[1:]):
        refused(folder, data, "does not begin with 1E E2")


def cut_log_file(folder):
    """A part of a record at the end would shift all that comes after it."""
    for length in (2, 12, 15, 17, 24, 31, 33, 47):
        refused(folder, (PRESENT * 3)[:length], "not a whole number of records of 16 bytes")


def whole_log_file(folder):
    """Nothing, and whole records; those behind the first are not looked at."""
    for data in (b"", PRESENT, PRESENT * 3, PRESENT + bytes(16)):
        appended(folder, data)


CASES = [older_log_file, other_log_file, cut_log_file, whole_log_file]
