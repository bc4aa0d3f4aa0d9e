#!/usr/bin/env python3
"""serial.py PROGRAM CASE: one case of the test of serialbox; status 0 if it passes. serial.py --list names the cases."""
import os
import random
import resource
import select
import signal
import subprocess
import sys
import tempfile
import threading
import time

import serial_bad_lines
import serial_log_files
from serial_box import END_MARK, PROGRAM, Box, contents, equal, records, within


def exchange(folder):
    """Commands and replies; a program that has the line open may go and another come."""
    box = Box(folder)
    box.ask("CR201", "80")
    box.ask("CR212", "012")
    box.ask("", "E001")
    box.ask("cw 000 f 1 0003", "OK")
    os.close(box.line)
    time.sleep(0.3)
    box.line = os.open(box.link, os.O_RDWR | os.O_NOCTTY)
    box.ask("CR000", "F10003")
    equal(os.readlink(box.link), box.name, "link")
    box.end()
    equal(os.path.lexists(box.link), False, "link after the end")


def every_byte(folder):
    """Each byte arrives as it was sent: a third character makes E002 of E001. 13 and 32 are the box's own, I and D addresses."""
    box = Box(folder)
    for byte in set(range(256)) - {13, 32} - set(b"IiDd"):
        box.ask("CR" + chr(byte), "E002")
    box.ask("CR ", "E001")
    box.end()


def ticks_in_time(folder):
    """100 ticks take 10 s, while the line is busy and though the box is stopped for 2 s: none is lost and none is added."""
    box = Box(folder)
    box.ask("CW000S00000000010100", "OK")
    box.ask("CW001S00000000000000", "OK")
    asked = time.monotonic()
    box.ask("CW210003", "OK")
    started = time.monotonic()
    box.wait_for("CR206", "01", 1)
    time.sleep(3)
    box.process.send_signal(signal.SIGSTOP)
    time.sleep(2)
    box.process.send_signal(signal.SIGCONT)
    ended = box.wait_for("CR206", "00", 20)
    within(ended - asked, 9.9, 99, "seconds from before the start to the end mark")
    within(ended - started, 0, 10.5, "seconds from after the start to the end mark")
    box.ask("CR212", "011")
    first, last = box.empty()
    equal((first[:2] + first[3:], last[:2] + last[3:]), ((1, 0, 1, 0), (1, 1, 0, 1)), "the two changes")
    equal(last[2] - first[2], 100, "ticks between them")
    box.end()


def tick_count(folder):
    """Ticks come from power-on on, one each 0.1 s: the log tells their count."""
    before = time.monotonic()
    box, start = Box(folder), time.monotonic()
    time.sleep(2)
    asked = time.monotonic()
    box.ask("CW20601", "OK")
    answered = time.monotonic()
    (row,) = box.empty()
    within(row[2], int((asked - start) * 10), (answered - before) * 10, "tick count")
    box.end()


def download(folder):
    """02, item 7: a program of 200 lines by increments from the power-on, saved; at the next power-on it is read from 000 on likewise."""
    lines = [f"F{number % 4 + 1}{number:04}" for number in range(200)]
    box = Box(folder)
    box.ask("CWD" + lines[0], "E004")
    for text in lines:
        box.ask("CWI" + text, "OK")
    box.ask("CWIN1", "OK")  # 200, the single command
    box.ask("CWIN1", "E004")
    box.ask("CW210008", "OK")
    box.end()
    box = Box(folder)
    box.ask("CRD", "E004")
    for text in lines:
        box.ask("CRI", text)
    for reply in "S00000000000000 80 00 00 00 00 00 00 000 000 000 000 012 0000 0000 0000 0000 E004".split():
        box.ask("CRI", reply)
    box.end()


def buttons(folder):
    box = Box(folder)
    box.ask("CR212", "012")
    box.ask("CW000S00000000015000", "OK")
    for lines, status in (("1", "02"), ("2", "03"), (" 2\r", "02"), ("\nhello\n2", "03"), ("1", "80")):
        box.command(lines)
        box.wait_for("CR201", status, 2)
    box.ask("CR212", "010")
    box.process.stdin.write(b"1")  # the last line may lack its end
    box.process.stdin.close()
    box.process.stdin = None
    box.wait_for("CR201", "02", 2)
    box.process.terminate()
    box.end()


def without_buttons(folder):
    """No standard input: the box goes on, and a signal ends it cleanly."""
    for number in (signal.SIGTERM, signal.SIGINT, signal.SIGHUP):
        box = Box(folder, commands=subprocess.DEVNULL, before=lambda: signal.signal(signal.SIGHUP, signal.SIG_DFL))
        box.ask("CW20601", "OK")
        time.sleep(0.3)
        box.ask("CR206", "01")
        box.process.send_signal(number)
        box.end()
    equal([row[3:] for row in records(box.log)], [(1, 0)] * 3, "words logged by three boxes")
    box = Box(folder, before=lambda: signal.signal(signal.SIGHUP, signal.SIG_IGN))  # as nohup does
    box.process.send_signal(signal.SIGHUP)
    time.sleep(0.3)
    box.ask("CR201", "80")
    box.end()


def saving(folder):
    """What 008 saved is in the file when it answers OK, and in the box of the next start; what was not saved is not."""
    box = Box(folder)
    box.ask("CW000F10003", "OK")
    equal(os.path.exists(box.saved), False, "a file before the first save")
    box.ask("CW210008", "OK")
    equal(contents(box.saved), bytes.fromhex("4601000300000000") + bytes(1592), "saved copy")
    box.ask("CW000N1", "OK")
    box.end()
    box = Box(folder)
    box.ask("CR000", "F10003")
    box.ask("CR001", "E024")  # never written
    box.end()
    equal(sorted(os.listdir(folder)), ["log", "saved"], "files left")


def emptying(folder):
    """`empty` appends what has come since; the end appends the rest; a box started later goes on in the same file."""
    box = Box(folder)
    box.ask("CW20601", "OK")
    box.ask("CW20480", "OK")
    rows = box.empty()
    equal([row[:2] + row[3:] for row in rows], [(1, 255, 1, 0), (1, 255, 0x800001, 1)], "records")
    equal(box.empty(), rows, "emptied again")
    box.ask("CW20600", "OK")
    box.end()
    box = Box(folder)
    box.ask("CW209200", "OK")
    box.ask("CW200S00000000070000", "OK")
    box.ask("CW210006", "OK")
    box.end()
    equal([row[:2] + row[3:] for row in records(box.log)][2:], [(1, 255, 0x800000, 0x800001), (1, 254, 7, 0)], "records")


def emptied_in_time(folder):
    """A log of two places would make a gap of the second change; it is emptied before, and before the reply."""
    box = Box(folder, "--log-area", "32")
    for number in range(1, 51):
        box.ask(f"CW206{number:02X}", "OK")
    equal([row[:2] + row[3:] for row in records(box.log)], [(1, 255, number, number - 1) for number in range(1, 51)], "records")
    box.end()


def log_refused(folder):
    """A log file that takes no more: the box says so, shows the records, leaves whole ones and ends with status 1."""
    box = Box(folder, "--log-area", "32", before=lambda: resource.setrlimit(resource.RLIMIT_FSIZE, (40, 40)))
    box.ask("CW20601", "OK")
    box.ask("CW20602", "OK")
    box.send(b"CW20603\r")
    messages = box.end(1)
    equal([row[3] for row in records(box.log)], [1, 2], "records in the file")
    shown = [text for text in messages.splitlines() if text.startswith("1EE201FF") and text.endswith("0000000300000002")]
    equal(len(shown), 1, "the third record in the messages: " + messages)


def log_removed(folder):
    """Records that would go to a file without a name are shown instead, and the box ends with status 1."""
    box = Box(folder)
    box.ask("CW206A5", "OK")
    os.remove(box.log)
    box.command("empty")
    messages = box.end(1)
    equal("000000A500000000\n" in messages, True, "the record in the messages: " + messages)
    equal(os.path.exists(box.log), False, "a log file")


def save_refused(folder):
    """A saved copy that cannot be written: no OK, status 1, the old file stays and no part of a new one."""
    with open(os.path.join(folder, "saved"), "wb") as file:
        file.write(END_MARK * 200)
    box = Box(folder, before=lambda: resource.setrlimit(resource.RLIMIT_FSIZE, (1000, 1000)))
    box.ask("CW000N1", "OK")
    box.send(b"CW210008\r")
    equal(box.read(3, 5), b"", "a reply")
    box.end(1)
    equal(contents(box.saved), END_MARK * 200, "saved copy")
    equal(sorted(os.listdir(folder)), ["log", "saved"], "files left")


def wrong_files(folder):
    """A saved copy of a wrong length, a log that is none and a log in use are refused and left as they are."""
    for name, sizes in (("saved", (0, 1, 1599, 1601, 3200)), ("log", (1, 2, 16, 48))):
        path = os.path.join(folder, name)
        for size in sizes:
            with open(path, "wb") as file:
                file.write(b"S" * size)
            box = Box(folder)
            equal(box.name, "", "name printed")
            equal(path in box.end(1), True, "the file named in the message")
            equal(contents(path), b"S" * size, "the file")
        os.remove(path)
        os.mkfifo(path)
        Box(folder).end(1)
        os.remove(path)
    for name in ("", "missing/", "missing/saved"):
        Box(folder, "--saved", name).end(1)
    first, second = Box(folder), Box(folder)
    second.end(1)
    first.ask("CR201", "80")
    first.end()
    with open(first.link, "wb") as file:  # no link, so not one to replace
        file.write(b"mine")
    Box(folder).end(1)
    equal(contents(first.link), b"mine", "the file in the place of the link")


def wrong_options(folder):
    for options in (["--log-area", "31"], ["--log-area", "24"], ["--log-area", "65537"], ["--log-area", ""],
                    ["--log-area", "99999999999999999999"], ["--log-area", "-1"], ["--none"], ["word"], ["--saved"]):
        Box(folder, *options).end(2)
    box = subprocess.run([PROGRAM, "--help"], capture_output=True, check=True)
    equal(box.stdout.startswith(b"usage: serialbox"), True, "help")


def save_until_killed(box, answered, version):
    """Saves programs whose first and last line are the version; gives the last version answered and the last one sent."""
    try:
        while True:
            version += 1
            line = f"S00{version:08X}0001"
            box.send(f"CW000{line}\rCW199{line}\rCW210008\r".encode())
            if box.read(9, 5) != b"OK\rOK\rOK\r":
                return answered, version
            answered = version
    except OSError:  # the line is gone
        return answered, version


def killed_in_saves(folder):
    """kill -9 at any moment leaves a whole file, with the last save that was answered or the one that was under way."""
    kept = version = 0
    for _ in range(25):
        box = Box(folder)
        threading.Timer(random.uniform(0.01, 0.15), box.process.kill).start()
        answered, version = save_until_killed(box, kept, version)
        box.end(-signal.SIGKILL)
        data = contents(box.saved) if os.path.exists(box.saved) else bytes(1600)
        equal((len(data), data[:8]), (1600, data[-8:]), "length of the saved copy, and its two ends")
        kept = int.from_bytes(data[2:6], "big")
        within(kept, answered, version, "the version saved")
    within(kept, 5, version, "saves")


def slow_reader(folder):
    """Nobody reads for 3 s while commands pour in; then every reply is there, in order, and the ticks came in time."""
    box, count = Box(folder), 100000
    box.ask("CW000S00000000010020", "OK")
    box.ask("CW001S00000000000000", "OK")
    box.ask("CW210003", "OK")
    commands = b"CR20\rCR204\rCR20\rCR206\r" * (count // 4)
    writer = threading.Thread(target=box.send, args=(commands,))
    writer.start()
    time.sleep(3)
    equal(writer.is_alive(), True, "the writer is held back")
    first, last = box.empty()
    equal(last[2] - first[2], 20, "ticks between start and end mark, before a reply was read")
    replies = b""
    while replies.count(b"\r") < count:
        replies += box.read(997, 2) or b"nothing came\r" * count
    writer.join()
    replies = replies.split(b"\r")[:-1]
    equal(len(replies), count, "replies")
    equal((set(replies[0::2]), set(replies[1::4])), ({b"E002"}, {b"00"}), "replies to the unreadable and to 204")
    equal(replies[3::4], sorted(replies[3::4], reverse=True), "206, which goes from 01 to 00 once")
    box.end()


def flood(folder):
    """Random bytes: each 13 gets one reply, and the box still answers."""
    box, noise = Box(folder), random.Random(1).randbytes(300000)
    writer = threading.Thread(target=box.send, args=(noise + b"\r",))
    writer.start()
    replies, want = b"", noise.count(b"\r") + 1
    while replies.count(b"\r") < want:
        got = box.read(1, 5)
        equal(len(got), 1, f"bytes after {replies.count(13)} of {want} replies")
        replies += got + os.read(box.line, 4096) if select.select([box.line], [], [], 0)[0] else got
    writer.join()
    equal(replies.count(b"\r"), want, "replies")
    box.ask("CR217", "E004")
    box.end()


CASES = [exchange, download, every_byte, ticks_in_time, tick_count, buttons, without_buttons, saving, emptying, emptied_in_time, log_refused,
         log_removed, save_refused, wrong_files, wrong_options, killed_in_saves, slow_reader, flood, *serial_bad_lines.CASES,
         *serial_log_files.CASES]

if __name__ == "__main__":
    if PROGRAM == "--list":
        print("\n".join(case.__name__ for case in CASES))
        sys.exit()
    with tempfile.TemporaryDirectory() as place:
        try:
            {case.__name__: case for case in CASES}[sys.argv[2]](place)
        except AssertionError as error:
            sys.exit(f"{sys.argv[2]}: {error}")
        finally:  # a case that failed leaves no box behind
            for process in Box.started:
                process.kill()
