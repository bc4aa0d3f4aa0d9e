#!/usr/bin/env python3
"""Holds crates.txt to the sources: each crate's line names its direct dependencies, all of them and no other.

Usage: python3 tools/crates.py [--check]

Prints the lines as they have to be; with --check it says which line differs, and ends with status 1 if any does.

A direct dependency is a crate, of the repository or of the toolchain, that a file of the crate names, or that declares a type which
such a struct or enum holds: the prover names the parts of every value that a function takes, makes or returns."""
import glob
import os
import re
import sys

ROOT = os.path.dirname(os.path.dirname(os.path.abspath(__file__)))
KIT = ['arrayvec', 'check', 'bytes', 'io']


def listed():
    """crate: what its line names, in the order of the file"""
    lines = (line.split('#')[0].partition(':') for line in open(os.path.join(ROOT, 'crates.txt')))
    return {name.split()[0]: deps.split() for name, colon, deps in lines if colon}  # `NAME:`, or `NAME staticlib:`


def texts(crate, *ends):
    """the crate's sources, without comments; what was built of them, in out and target, is none"""
    built = tuple(f'{ROOT}/crates/{crate}/{folder}/' for folder in ('out', 'target'))
    for path in glob.glob(f'{ROOT}/crates/{crate}/**/*', recursive=True):
        if path.endswith(ends) and not path.startswith(built):
            mark = '--' if path.endswith('.antt') else '//'
            yield re.sub(rf'{mark} .*', '', open(path, encoding='utf-8').read())


def types_brought(text):
    """name here: (crate, its name there), of what the `use` lines of a source bring in"""
    found = {}
    for crate, names, name in re.findall(r'^use (\w+)::(?:\{([^}]*)\}|(\w+));', text, re.M):
        for one in (names or name).split(','):
            own, _, other = one.strip().partition(' as ')
            found[other or own] = (crate, own)
    return found


def types_of(crate, crates):
    """the crate's types, each with the (crate, type) pairs that its declaration names"""
    found = {}
    for text in texts(crate, '.rt'):
        brought = {name: (c, t) for name, (c, t) in types_brought(text).items() if c in crates}
        for name, body in re.findall(r'pub (?:struct|enum) (\w+)[^{;(]*(\{.*?^\}|\([^)]*\))', text, re.M | re.S):
            words = set(re.findall(r'\b[A-Z]\w+', body))
            found[name] = {brought.get(w, (crate, w)) for w in words if w != name}
    return found


def held(start, types):
    """the crates of the types that these types hold, however deep"""
    seen, todo = set(), list(start)
    while todo:
        crate, name = todo.pop()
        if (crate, name) not in seen and name in types.get(crate, {}):
            seen.add((crate, name))
            todo += types[crate][name]
    return {crate for crate, _ in seen}


def direct(crate, crates, types):
    known, named, used = list(crates) + KIT, set(), set()
    for text in texts(crate, '.antt', '.rt'):
        named |= set(re.findall(r'Rattle\.([a-z_]+)', text))
    for text in texts(crate, '.rt'):
        named |= set(re.findall(r'(?<![\w:])([a-z_]+)::', text))
        used |= {(c, t) for c, t in re.findall(r'\b([a-z_]+)::([A-Z]\w+)', text) if c in crates}
        used |= {(c, t) for c, t in types_brought(text).values() if c in crates}
    return [c for c in known if c != crate and c in named | held(used, types)]


def main():
    if '--help' in sys.argv[1:]:
        print(__doc__)
        return 0
    crates = listed()
    types = {crate: types_of(crate, crates) for crate in crates}
    differ = 0
    for crate, names in crates.items():
        right = direct(crate, crates, types)
        if '--check' not in sys.argv[1:]:
            print(f'{crate}: {" ".join(right)}'.rstrip())
        elif right != names:
            print(f'crates.txt, {crate}: has "{" ".join(names)}", and its files ask for "{" ".join(right)}"')
            differ = 1
    return differ


if __name__ == '__main__':
    sys.exit(main())
