#!/usr/bin/env python3
"""Writes docs/FIGURES.md: lines, assumptions, time and memory by crate.

Usage: python3 tools/figures.py [--gate]
       python3 tools/figures.py --since REVISION

Each crate is proved in a copy of the repository, one at a time, over those below it. With --gate the gate (.ci/run) is run in the copy
too and its time and last line are written, which say how long it takes over what it has kept on this machine; without it the paper keeps the
line that it has.

What the paper says of wrong definitions is kept: it is written by hand, from the last line of tools/wrong_definitions.py.

With --since nothing is proved or written: it prints the lines added and removed since the revision, by kind, as docs/CHANGES.md has
them for each landing. All lines count, blank ones and comments too; a file that only moved counts for what changed in it."""
import glob
import os
import re
import shutil
import subprocess
import sys
import tempfile
import time

from crates import listed
from promises import is_of_function

ROOT = os.path.dirname(os.path.dirname(os.path.abspath(__file__)))
PAPER = os.path.join(ROOT, 'docs/FIGURES.md')


def files(pattern):
    return glob.glob(os.path.join(ROOT, pattern), recursive=True)


def lines(paths):
    """lines that are neither blank nor comment"""
    count = 0
    for path in paths:
        with open(path) as file:
            count += sum(1 for line in file if line.strip() and not line.strip().startswith(('--', '//')))
    return count


def sizes(crate):
    base = f'crates/{crate}'
    proofs = files(f'{base}/proofs/**/*.antt')
    return {'code': lines(files(f'{base}/src/**/*.rt')), 'definitions': lines(files(f'{base}/specs/**/*.antt')),
            'laws': lines(path for path in proofs if not is_of_function(path)), 'proofs': lines(path for path in proofs if is_of_function(path)),
            'edits': len(files(f'{base}/must-fail/*.edit'))}


def run(command, folder):
    """seconds, megabytes and output of a command"""
    start = time.monotonic()
    with tempfile.TemporaryFile() as said:
        process = subprocess.Popen(command, cwd=folder, stdout=said, stderr=subprocess.STDOUT)
        _, status, used = os.wait4(process.pid, 0)
        said.seek(0)
        text = said.read().decode()
    if status != 0:
        sys.exit(f'{" ".join(command)} failed:\n{text[-2000:]}')
    return time.monotonic() - start, used.ru_maxrss / 1024, text


def proved(crate, folder):
    seconds, megabytes, text = run(['rt', 'check', '--jobs', '1'], os.path.join(folder, 'crates', crate))
    verdict = re.findall(r'^logic=proved .*$', text, re.M)[-1]
    functions = re.search(r'functions=(\d+)', verdict)
    assumed = re.search(r'axioms=(\d+)', verdict)
    return {'functions': int(functions.group(1)), 'assumptions': int(assumed.group(1)) if assumed else 0, 'seconds': seconds,
            'megabytes': megabytes}


def gate_line(folder):
    if '--gate' in sys.argv[1:]:
        start = time.monotonic()
        said = subprocess.run(['.ci/run'], cwd=folder, stdout=subprocess.PIPE, stderr=subprocess.STDOUT, text=True).stdout
        minutes = (time.monotonic() - start) / 60
        return f'The gate takes {minutes:.0f} minutes on {os.cpu_count()} cores and ends in `{said.strip().splitlines()[-1]}`.'
    return kept('The gate takes') or 'The gate was not run for this paper.'


def kept(start):
    """the paragraph of the paper as it stands that begins so, or nothing"""
    if os.path.exists(PAPER):
        with open(PAPER) as file:
            for paragraph in file.read().split('\n\n'):
                if paragraph.startswith(start):
                    return paragraph.strip()
    return ''


HEAD = '''# Figures

    python3 tools/figures.py --gate

writes this paper. Lines are those that are neither blank nor comment: code (`src`), definitions (`specs`), laws (modules in `proofs`) and
proofs (`Invariants.antt` and `Answers.antt` in a folder for each function that has any). Edits are the wrong boxes in
`must-fail`. Assumptions are contracts of C functions that the toolchain's libraries assume and the crate reaches. Seconds and megabytes
are those of one `rt check` of the crate on one core, the crates below it proved already.

'''

COLUMNS = ['code', 'definitions', 'laws', 'proofs', 'functions', 'edits', 'assumptions', 'seconds', 'megabytes']


def main():
    with tempfile.TemporaryDirectory() as place:
        folder = os.path.join(place, 'repository')
        shutil.copytree(ROOT, folder, ignore=shutil.ignore_patterns('target', 'out', '__pycache__'))
        rows = {}
        for crate in listed():
            rows[crate] = sizes(crate) | proved(crate, folder)
            print(crate, rows[crate], flush=True)
        gate = gate_line(folder)
    each = list(rows.values())
    total = {column: sum(row[column] for row in each) for column in COLUMNS}
    for column in ('assumptions', 'megabytes'):
        total[column] = max(row[column] for row in each)
    rows['**all**'] = total
    tried = [kept('Wrong definitions'), kept('Readers who')]
    with open(PAPER, 'w') as out:
        out.write(HEAD + '| Crate | ' + ' | '.join(COLUMNS) + ' |\n|---' + '|---:' * len(COLUMNS) + '|\n')
        for crate, row in rows.items():
            out.write(f'| {crate} | ' + ' | '.join(f'{row[column]:.0f}' for column in COLUMNS) + ' |\n')
        out.write(f'\nIn the last row assumptions and megabytes are the most of any crate.\n\n{gate}\n\n')
        out.write(''.join(f'{paragraph}\n\n' for paragraph in tried if paragraph))
        out.write(outside())


KINDS = [('code', r'crates/\w+/src/'), ('definitions', r'crates/\w+/specs/'), ('proofs of functions', r'crates/\w+/proofs/.+/(Invariants|Answers|Proof)\.antt$'),
         ('laws', r'crates/\w+/proofs/'),
         ('edits', r'crates/\w+/must-fail/'), ('`model`, `independent`', r'(model|independent)/'), ('`host`, `run`', r'host/|run$'),
         ('`tools`', r'tools/'), ('papers', r'docs/|README'), ('other', r'')]


def since(revision):
    """the table of lines added and removed since a revision, by kind"""
    said = subprocess.run(['git', 'diff', '--numstat', '-M', '-z', revision],
                          cwd=ROOT, stdout=subprocess.PIPE, check=True, text=True).stdout
    sums = {kind: [0, 0] for kind, _ in KINDS}
    fields = iter(said.split('\0'))
    for field in fields:
        if not field:
            continue
        added, removed, path = field.split('\t')
        if not path:  # it moved: the old name and the new one follow
            next(fields)
            path = next(fields)
        for kind, pattern in KINDS:
            if added != '-' and re.match(pattern, path):
                sums[kind] = [sums[kind][0] + int(added), sums[kind][1] + int(removed)]
                break
    text = '| Lines | added | removed |\n|---|---:|---:|\n'
    return text + ''.join(f'| {kind} | {a} | {r} |\n' for kind, (a, r) in sums.items() if a or r)


def outside():
    rows = [('`host`: header, programs and tests in C, shell and Python', ['host/*', 'host/tests/*.py', 'host/tests/*.sh', 'host/compare/*']),
            ('`independent`: the second box, reader and report, in C', ['independent/*']), ('`model`: the third reading, in Python', ['model/*.py']),
            ('`tools` and `run`', ['tools/*.py', 'tools/check', 'run'])]
    text = 'Outside Rattle, lines in all:\n\n| Folder | lines |\n|---|---:|\n'
    for name, patterns in rows:
        paths = [path for pattern in patterns for path in glob.glob(os.path.join(ROOT, pattern)) if os.path.isfile(path)]
        text += f'| {name} | {sum(sum(1 for _ in open(path)) for path in paths)} |\n'
    return text


if __name__ == '__main__':
    if '--help' in sys.argv[1:]:
        print(__doc__)
    elif '--since' in sys.argv[1:]:
        print(since(sys.argv[sys.argv.index('--since') + 1]), end='')
    else:
        main()
