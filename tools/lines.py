#!/usr/bin/env python3
"""Says which lines of definitions and sources are over 160 characters, but for `use` lines, which `rt tidy` writes, and attributes, which
`rt fmt` keeps on one line.

Usage: python3 tools/lines.py

Looks at every .antt and .rt file in specs/ and src/ of a crate; ends with status 1 if there is such a line. How proofs stand in their lines is
left to `rt fmt`."""
import glob
import os
import re
import sys

ROOT = os.path.dirname(os.path.dirname(os.path.abspath(__file__)))
LIMIT = 160
IS_USE = re.compile(r'\s*(?:(?:pub |ghost )?use |#\[tactic)')


def main():
    if '--help' in sys.argv[1:]:
        print(__doc__)
        return 0
    bad = 0
    for folder, kind in (('specs', 'antt'), ('src', 'rt')):
        for path in sorted(glob.glob(os.path.join(ROOT, f'crates/*/{folder}/**/*.{kind}'), recursive=True)):
            with open(path, encoding='utf-8') as source:
                for number, line in enumerate(source.read().split('\n'), 1):
                    if len(line) > LIMIT and not IS_USE.match(line):
                        print(f'{os.path.relpath(path, ROOT)}:{number}: {len(line)} characters')
                        bad = 1
    return bad


if __name__ == '__main__':
    sys.exit(main())
