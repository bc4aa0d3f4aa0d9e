"""What the tests of the programs share: how they are run and spoken with, what they say, and their memory.

A command may prove the program first, so the first answer is waited for as long as a case may take. Where the command is not the program
itself, the program is one of the processes that the command started.
"""
import os
import platform
import select
import subprocess

TOP = os.path.dirname(os.path.dirname(os.path.dirname(os.path.abspath(__file__))))
SECONDS = 300
# The most that the peak may grow, in kB: nothing but what a page more or less makes. The proved program is one for x86-64; on another
# machine an emulator runs it, which keeps what it has translated.
SLACK = 64 if platform.machine() == "x86_64" else 8192


def of_program(program):
    """A function from input and arguments to what the program writes; what is no plain end is told in its place."""
    def text(given, *arguments):
        done = subprocess.run([program, *arguments], input=given, capture_output=True, check=False, timeout=60)
        plain = done.returncode == 0 and not done.stderr
        return done.stdout if plain else b"status %d, %r, %r" % (done.returncode, done.stdout[:60], done.stderr[:200])
    return text


def shown(text):
    return repr(text) if len(text) <= 120 else f"{len(text)} bytes, {text[:40]!r} to {text[-40:]!r}"


def equal(got, want, what):
    if got != want:
        raise AssertionError(f"{what}: {got!r}, not {want!r}")


def said_last(command, said, message, what):
    """The last line on standard error is the message; an independent program, the last word of the command, puts its name before it."""
    name = os.path.basename(command[-1])
    want = f"{name}: {message}" if name.endswith("-independent") else message
    equal(said.decode().rstrip("\n").split("\n")[-1], want, f"{what}: the last line on standard error")


class Talk:
    """A command that is spoken with: nothing that it is sent is held back, and an answer that does not come in time fails.

    `input` is where it is sent its input: its standard input, unless that is given.
    """

    def __init__(self, command, seconds=SECONDS, stdin=subprocess.PIPE, **streams):
        self.process = subprocess.Popen(command, stdin=stdin, stdout=subprocess.PIPE, bufsize=0, **streams)
        self.input = self.process.stdin
        self.seconds = seconds
        self.waiting = b""

    def __enter__(self):
        return self

    def __exit__(self, *_):
        if self.process.poll() is None:
            if self.input is not None:
                self.input.close()
            self.process.kill()
        self.process.wait()

    def send(self, data):
        rest = memoryview(data)
        try:
            while rest:
                rest = rest[self.input.write(rest):]
        except BrokenPipeError:
            raise AssertionError(f"{len(rest)} of {len(data)} bytes were not read") from None

    def more(self):
        """What it writes next; nothing, where its output ends."""
        if not select.select([self.process.stdout], [], [], self.seconds)[0]:
            raise AssertionError(f"nothing was written in {self.seconds} s; so far {self.waiting!r}")
        return self.process.stdout.read(65536)

    def until(self, enough):
        """Reads until what is waiting is enough."""
        while not enough():
            piece = self.more()
            if not piece:
                raise AssertionError(f"the output ends with {self.waiting!r}")
            self.waiting += piece

    def lines(self, count):
        """The next lines that it writes."""
        self.until(lambda: self.waiting.count(b"\n") >= count)
        *lines, self.waiting = self.waiting.split(b"\n", count)
        return b"".join(line + b"\n" for line in lines)

    def bytes(self, count):
        """The next bytes that it writes."""
        self.until(lambda: len(self.waiting) >= count)
        first, self.waiting = self.waiting[:count], self.waiting[count:]
        return first

    def rest(self):
        """What it writes to its end; its status is 0."""
        while piece := self.more():
            self.waiting += piece
        equal(self.process.wait(self.seconds), 0, "status")
        return self.waiting

    def end(self):
        """What it writes when its input ends; its status is 0."""
        self.input.close()
        return self.rest()


# ---- memory

def processes(root):
    """The process and all that it started."""
    found = [root]
    for number in found:
        with open(f"/proc/{number}/task/{number}/children", encoding="ascii") as children:
            found += [int(child) for child in children.read().split()]
    return found


def peaks(root):
    """The most memory that each of them has had, in kB, by its number and its program; none where the system does not tell."""
    found = {}
    if not os.path.exists("/proc/thread-self/children"):
        return found
    for number in processes(root):
        with open(f"/proc/{number}/status", encoding="ascii", errors="replace") as status:
            most = sum(int(line.split()[1]) for line in status if line.startswith("VmHWM:"))
        found[number, os.readlink(f"/proc/{number}/exe")] = most
    return found


def constant(first, last, when):
    """Between two looks at the peaks none has grown."""
    both = first.keys() & last.keys()
    if last and not both:
        raise AssertionError(f"no process was there {when}")
    for which in both:
        if last[which] > first[which] + SLACK:
            raise AssertionError(f"{which[1]}: the peak is {first[which]} kB and then {last[which]} kB, {when}")
