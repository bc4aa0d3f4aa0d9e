#!/usr/bin/env python3
"""Runs the transcripts of the user's pages, and compares what their commands print with what they show.

    transcripts.py --list       names the pages: README.md, docs/WIRE.md, and docs/programs/NAME.md for each program
    transcripts.py [PAGE...]    all pages, or those named; the status is 0 if each is as it is shown
    transcripts.py --wrong      pages that are wrong on purpose, of transcripts_wrong.py: each fault must be found

A transcript is a block indented by four spaces that has a line which begins with `$ `. Such a line is a command; where it ends in a
backslash it goes on in the next line. What follows, to the next command or to the end of the block, is what the command prints.

The commands of a page run in their order in one shell, in a folder of their own that has a link to each thing at the top of the
repository: what they make, they make there. Its output is a terminal, so that a page shows what a reader sees, standard output and
standard error alike, and it is compared byte for byte. Each command must end with status 0, each part of a pipe too: one that is
shown to fail says its status itself (`; echo $?`). Only what the prover says is not shown: `rt run` is silent here unless it fails.

What a command in the background prints belongs to the command that was given last before it came. So as many lines are waited for as
are shown.

At the end of a page no process may be left that it started, and outside target/ and the crates' out/ the tree must be as it was. A
command elsewhere than in such a block is a fault too: no transcript is unchecked. So is a program without a page, a page that has not the form
of the others or stands not in README, and a README of 150 lines.
"""
import contextlib
import glob
import os
import re
import select
import shlex
import shutil
import signal
import stat
import subprocess
import sys
import tempfile
import time
import tty
from typing import NamedTuple

TOP = os.path.dirname(os.path.dirname(os.path.dirname(os.path.abspath(__file__))))
IN_C = ("rig", "serialbox", "compare")  # the programs of host/ that have a page
HEADINGS = ["How to call it", "Input", "Output", "Refusals", "Example", "What is proved of it"]
SENTENCE = r"[A-Z](?:[^.\n]|\n(?!\n)|\.(?=\S))*\."  # a full stop ends it where no character follows at once
README_LINES = 150  # it has fewer

# Seconds: for a command to end, for output from the background, for processes at the end of a page, and for lines beyond those shown.
ENDS, COMES, LEAVES, GRACE = 540, 20, 5, 0.1


# ---- pages

class Command(NamedTuple):
    line: int  # where it stands
    text: str
    shown: str


def pages(top):
    """README, the card of the wire, and a page for each program, whether it is there or not."""
    programs = {os.path.basename(path)[:-3] for path in glob.glob(os.path.join(top, "docs/programs/*.md"))}
    programs |= {path.split(os.sep)[-3] for path in glob.glob(os.path.join(top, "crates/*/src/main.rt"))}
    programs |= {name for name in IN_C if os.path.exists(os.path.join(top, "host"))}
    card = [name for name in ("docs/WIRE.md",) if os.path.exists(os.path.join(top, name))]
    return ["README.md", *card, *(f"docs/programs/{name}.md" for name in sorted(programs))]


def blocks(lines):
    """(number of its first line, its lines without the four spaces) of each indented block; an empty line inside is a line of it."""
    first, block = 0, []
    for number, line in enumerate([*lines, "the end"], 1):
        if line.startswith("    ") or (block and not line.strip()):
            first = first if block else number
            block.append(line[4:])
        elif block:
            while not block[-1].strip():
                block.pop()
            yield first, block
            block = []


def commands_of(text):
    """The commands of a page, and what is wrong with the places where they stand."""
    lines, commands, faults = text.split("\n"), [], []
    for number, line in enumerate(lines, 1):
        if line.lstrip().startswith("$ ") and not line.startswith("    $ "):
            faults.append(f"line {number}: a command that is not indented by four spaces")
    for first, block in blocks(lines):
        if not any(line.startswith("$ ") for line in block):
            continue
        if not block[0].startswith("$ "):
            faults.append(f"line {first}: a transcript that does not begin with a command")
        for number, line in enumerate(block, first):
            if line.startswith("$ "):
                commands.append(Command(number, line[2:], ""))
            elif commands and commands[-1].text.endswith("\\") and not commands[-1].shown:
                commands[-1] = commands[-1]._replace(text=commands[-1].text + "\n" + line)
            elif commands:
                commands[-1] = commands[-1]._replace(shown=commands[-1].shown + line + "\n")
    return commands, faults


def form_faults(top, page, text, commands):
    """What a page lacks: run --help prints a program's first sentence, and a reader knows where to look for what."""
    if page == "README.md":
        yield from (f"it does not name {name}" for name in pages(top) if name not in text and name != page)
        if text.count("\n") >= README_LINES:
            yield f"it has {README_LINES} lines or more"
    if os.path.dirname(page) != "docs/programs":
        return
    name = os.path.basename(page)[:-3]
    if not re.match(rf"# {re.escape(name)}\n\n{SENTENCE}\s{SENTENCE}\n\n", text):
        yield f"it does not begin with '# {name}', an empty line and a paragraph of two sentences"
    if re.findall(r"^## (.*)$", text, re.M) != HEADINGS:
        yield f"its headings are not {', '.join(HEADINGS)}"
    if not commands:
        yield "it has no transcript"


# ---- the shell of a page

def in_session(number):
    """(process, its words) of each process of a session."""
    for path in glob.glob("/proc/[0-9]*"):
        with contextlib.suppress(OSError):  # it has ended meanwhile
            with open(path + "/stat") as file:
                state, _, _, session = file.read().rpartition(")")[2].split()[:4]
            with open(path + "/cmdline") as file:
                words = file.read().replace("\0", " ").strip()
            if int(session) == number and state != "Z":
                yield int(os.path.basename(path)), words


# A command and what it starts have neither of the two pipes. How many jobs run tells whether more may be printed.
DRIVER = """set -o pipefail
while IFS= read -r -d '' command <&{commands}; do
    eval "$command" {commands}<&- {ends}>&-
    echo "$? $(jobs -rp | wc -l)" >&{ends}
done
"""


class Shell:
    """A shell in a session of its own, whose output is a terminal that passes every byte as it is. A second shell is the session's first
    process: a terminal that the first process opens, as the line of serialbox, would be the session's own, and its end would be theirs."""

    def __init__(self, folder, environment):
        self.terminal, inside = os.openpty()
        tty.setraw(inside)
        commands, self.commands = os.pipe()
        self.ends, ends = os.pipe()
        self.open = [self.terminal, self.ends]
        self.came = {self.terminal: b"", self.ends: b""}
        driver = DRIVER.format(commands=commands, ends=ends)
        self.process = subprocess.Popen(["bash", "-c", 'bash --noprofile --norc -c "$0"; exit', driver], cwd=folder, env=environment,
                                        stdin=subprocess.DEVNULL, stdout=inside, stderr=inside, pass_fds=(commands, ends),
                                        start_new_session=True)
        for descriptor in (inside, commands, ends):
            os.close(descriptor)

    def take_in(self, until, seconds):
        """Takes in what comes, until the condition holds or the time is over."""
        end = time.monotonic() + seconds
        while not until() and self.open:
            ready = select.select(self.open, [], [], max(0, end - time.monotonic()))[0]
            if not ready:
                return
            for descriptor in ready:
                try:
                    data = os.read(descriptor, 65536)
                except OSError:  # nobody has the terminal open any more
                    data = b""
                self.came[descriptor] += data
                if not data:
                    self.open.remove(descriptor)

    def printed(self):
        """What has come since it was last asked."""
        data, self.came[self.terminal] = self.came[self.terminal], b""
        return data.decode(errors="backslashreplace")

    def run(self, command, patient):
        """What the command printed, and its status; None if it does not end, or ends the shell."""
        os.write(self.commands, command.text.encode() + b"\0")
        self.take_in(lambda: b"\n" in self.came[self.ends], ENDS)
        end, self.came[self.ends] = self.came[self.ends], b""
        status, jobs = end.split() if end else (None, 0)
        wanted = command.shown.count("\n")
        self.take_in(lambda: self.came[self.terminal].count(b"\n") >= wanted, COMES if patient and int(jobs) > 0 else 1)
        self.take_in(lambda: False, GRACE)
        return self.printed(), status and int(status)

    def end(self):
        """No more commands; what was printed behind the last, and the processes that are left when they had time to end."""
        os.close(self.commands)
        end = time.monotonic() + LEAVES
        while (left := list(in_session(self.process.pid))) and time.monotonic() < end:
            self.take_in(lambda: False, 0.05)
        self.take_in(lambda: False, GRACE)
        return self.printed(), [words for _, words in left]

    def kill(self):
        """Ends what is left; first by the signal that it can hear, since ./run then ends the prover, which has a session of its own."""
        for number in (signal.SIGTERM, signal.SIGKILL):
            for process, _ in in_session(self.process.pid):
                with contextlib.suppress(ProcessLookupError):
                    os.kill(process, number)
            end = time.monotonic() + LEAVES
            while list(in_session(self.process.pid)) and time.monotonic() < end:
                time.sleep(0.05)
        self.process.wait()
        os.close(self.terminal)
        os.close(self.ends)


# ---- a page

def tree(top):
    """Every name outside .git, target and the crates' out, and of a file what a write to it changes."""
    found = {}
    for folder, folders, files in os.walk(top):
        if folder == top:
            folders[:] = [name for name in folders if name not in (".git", "target")]
        if os.path.dirname(folder) == os.path.join(top, "crates"):
            folders[:] = [name for name in folders if name != "out"]
        for name in folders + files:
            status = os.lstat(os.path.join(folder, name))
            is_folder = stat.S_ISDIR(status.st_mode)
            found[os.path.relpath(os.path.join(folder, name), top)] = "" if is_folder else (status.st_ino, status.st_size, status.st_ctime_ns)
    return found


SILENT_RT = """#!/bin/sh
[ "$1" = run ] || exec {rt} "$@"
said=$({rt} "$@" 2>&1) || {{
    status=$?
    printf '%s\\n' "$said" >&2
    exit $status
}}
"""


def environment(place):
    """The caller's, with messages in English, and the prover silent."""
    rt = shutil.which("rt")
    if rt:
        os.mkdir(os.path.join(place, "bin"))
        with open(os.path.join(place, "bin/rt"), "w") as file:
            file.write(SILENT_RT.format(rt=shlex.quote(rt)))
        os.chmod(os.path.join(place, "bin/rt"), 0o755)
    kept = {name: value for name, value in os.environ.items() if name not in ("BASH_ENV", "ENV", "CDPATH")}
    return {**kept, "PATH": os.path.join(place, "bin") + ":" + os.environ["PATH"], "LC_ALL": "C", "PYTHONDONTWRITEBYTECODE": "1"}


def differences(command, printed, status):
    if printed != command.shown:
        yield from ("  shown:", *("    " + line for line in command.shown.splitlines() or ["(nothing)"]))
        yield from ("  printed:", *("    " + line for line in printed.splitlines() or ["(nothing)"]))
        if printed.splitlines() == command.shown.splitlines():
            yield "  they differ in ends of lines: " + repr(printed)
    if status is None:
        yield "  it did not end, or it ended the shell"
    elif status != 0:
        yield f"  status {status}, not 0"


def run_commands(commands, folder, place):
    """What differs, command by command. Once something does, output from the background is no longer waited for; a command that does not
    end is the last."""
    shell, faults = Shell(folder, environment(place)), []
    try:
        for command in commands:
            printed, status = shell.run(command, not faults)
            found = list(differences(command, printed, status))
            if found:
                faults += [f"line {command.line}: $ {command.text}", *found]
            if status is None:
                break
        behind, left = shell.end()
        faults += [f"printed behind the last command: {line}" for line in behind.splitlines()]
        faults += [f"left running: {words}" for words in left]
    finally:
        shell.kill()
    return faults


def faults_of(top, page):
    """All that is wrong with a page, and how many commands it has."""
    try:
        with open(os.path.join(top, page)) as file:
            text = file.read()
    except FileNotFoundError:
        return ["there is no such page"], 0
    commands, faults = commands_of(text)
    faults += form_faults(top, page, text, commands)
    before = tree(top)
    with tempfile.TemporaryDirectory() as place:
        folder = os.path.join(place, "folder")
        os.mkdir(folder)
        for name in os.listdir(top):
            if name != ".git":
                os.symlink(os.path.join(top, name), os.path.join(folder, name))
        faults += run_commands(commands, folder, place)
    after = tree(top)
    faults += [f"left in the tree, altered or removed: {name}" for name in sorted(before.keys() | after.keys())
               if before.get(name) != after.get(name)]
    return faults, len(commands)


def main(words):
    # by `timeout` too, so that the shell of a page is ended
    signal.signal(signal.SIGTERM, lambda *_: sys.exit("transcripts.py: stopped by a signal"))
    if words == ["--list"]:
        print("\n".join(pages(TOP)))
        return 0
    if words == ["--wrong"]:
        sys.dont_write_bytecode = True
        import transcripts_wrong
        return transcripts_wrong.missed(faults_of)
    unknown = set(words) - set(pages(TOP))
    if unknown:
        print(__doc__, file=sys.stderr)
        print(f"transcripts.py: there is no page {', '.join(sorted(unknown))}", file=sys.stderr)
        return 2
    failed = 0
    for page in words or pages(TOP):
        faults, count = faults_of(TOP, page)
        print("\n".join([f"FAILED {page}", *faults] if faults else [f"passed {page}, commands: {count}"]), flush=True)
        failed += bool(faults)
    return failed != 0


if __name__ == "__main__":
    sys.exit(main(sys.argv[1:]))
