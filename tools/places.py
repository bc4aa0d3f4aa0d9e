#!/usr/bin/env python3
"""Places in the sources that read like an older Rattle, by the points of docs/DESIGN-PASS.md.

    tools/places.py            how many there are of each kind, in the working tree
    tools/places.py COMMIT     the same at a commit
    tools/places.py --list [COMMIT]   each of them, with the `// Kept:` line that stands within three lines above it, if any

It goes by text, so that it finds what looks like a place and may be none, and misses what is written otherwise.
"""
import re
import subprocess
import sys

LINES = [
    ('1 own enums of the shape of Option or Result', r'^ +(No|None|Nothing|Written|Running),$|^ +(Error|Refused|Is)\((u8|u32|u64|Line|Special|Data|Asked|Stop)\),$'),
    ('1 flags and numbers for none beside a value, as fields', r'^ +(pub )?(refusal|fault|event): u8,|^ +(pub )?(fault|fits|failed|on|open): bool,'),
    ('1 numbers for none, as comments tell of them', r'^ *// .*(\b0 for none|\b0 where|\b200 where|\b16 for every|\b255 for none|\b0 of any other|\b0 for any|\b0 for allowed|\b0 when)'),
    ('1 tests of such a number', r'(refusal|fault|event|forbidden) [!=]= 0\b|== 200 \{|(counter|next) == 0 \{'),
    ('1 refusals and errors as literal numbers', r'Refused\([0-9]+\)|Error\([0-9]+\)|return [3-7][0-9];|refused\([0-9]+,'),
    ('3 loops by while or loop', r'^ *(while|loop) '),
    ('4 bytes copied one by one', r'^ +[a-z]+\[[0-9]+\] = '),
    ('5 a block or a place that travels with its output or area', r'block: &mut \[u8\]|\bat: usize\b'),
    ('6 arrays with a length beside them, parallel arrays', r'^ +(pub )?[a-z]+: \[u(8|16|32); [0-9A-Z]+\],|(counters|nexts|counts): &\[u'),
    ('7 function pointers and tables of functions', r'\bfn\(|\bdyn '),
    ('8 answers that cite Rattle\'s own names', None),
    ('8 files of answers', None),
    ('8 goals that are answered by hand', None),
]


def files(commit):
    """All files of crates/ by name, of a commit or the working tree."""
    if commit:
        names = subprocess.check_output(['git', 'ls-tree', '-r', '--name-only', commit, 'crates'], text=True).split('\n')
    else:
        names = subprocess.check_output(['git', 'ls-files', 'crates'], text=True).split('\n')
    wanted = [n for n in names if n.endswith('.rt') and '/src/' in n or n.endswith('/Answers.antt') and n.count('/') > 3]
    if not commit:
        return {n: open(n).read() for n in wanted}
    # one process for all of them
    asked = ''.join(f'{commit}:{n}\n' for n in wanted)
    out = subprocess.run(['git', 'cat-file', '--batch'], input=asked.encode(), stdout=subprocess.PIPE, check=True).stdout
    told, at = {}, 0
    for n in wanted:
        end = out.index(b'\n', at)
        size = int(out[at:end].split()[2])
        told[n] = out[end + 1:end + 1 + size].decode()
        at = end + 1 + size + 1
    return told


def chains(text):
    """Lines with a test that only leaves the function with a constant: a chain of such tests is one condition or a match."""
    rows = text.split('\n')
    return [i for i in range(len(rows) - 2) if re.match(r'^ +if .* \{$', rows[i])
            and re.match(r'^ +return (true|false|[0-9]+|[A-Za-z]+::[A-Za-z]+(\([0-9]*\))?);$', rows[i + 1]) and rows[i + 2].strip() == '}']


def bodies(text):
    """Each function's line, its name, and its body with what differs between twins taken out: names, numbers, texts, types of numbers."""
    rows = text.split('\n')
    for i, r in enumerate(rows):
        m = re.match(r'^( *)(?:pub(?:\(crate\))? )?(?:extern "C" )?fn (\w+)', r)
        if not m:
            continue
        j = i
        while j < len(rows) and not rows[j].endswith('{'):
            j += 1
        k = j
        while k < len(rows) and rows[k] != m.group(1) + '}':
            k += 1
        shape = re.sub(r'//.*', '', '\n'.join(rows[j + 1:k]))
        shape = re.sub(r"b'.*?'|b\".*?\"|0x[0-9A-F]+|\b[0-9]+\b", 'N', shape)
        shape = re.sub(r'\b(u8|u16|u32|u64|usize)\b', 'T', shape)
        shape = re.sub(r'\b[a-z_][a-z_0-9]*\b', 'v', shape)
        shape = re.sub(r'\b[A-Z]\w+\b', 'V', shape)
        yield i + 1, m.group(2), re.sub(r'\s+', ' ', shape).strip()


def kept(rows, i):
    """The `// Kept:` line just above line i, if there is one."""
    for r in rows[max(0, i - 3):i + 1][::-1]:
        if '// Kept:' in r:
            return r.strip()
    return ''


def main():
    words = sys.argv[1:]
    listed = '--list' in words
    words = [w for w in words if w != '--list']
    told = files(words[0] if words else None)
    counts = {name: [] for name, _ in LINES}
    counts['4 chains of tests that leave with a constant'] = []
    counts['2 functions of one shape, but for names, numbers and types'] = []
    shapes = {}
    for n, text in sorted(told.items()):
        rows = text.split('\n')
        if n.endswith('.antt'):
            counts['8 files of answers'].append((n, 0, ''))
            for i, r in enumerate(rows):
                if re.search(r'-own\b|borrow\.Enum', r):
                    counts['8 answers that cite Rattle\'s own names'].append((n, i + 1, r))
                if re.match(r'pub \S+ : goal\.', r):
                    counts['8 goals that are answered by hand'].append((n, i + 1, r))
            continue
        for name, pattern in LINES:
            if pattern:
                counts[name] += [(n, i + 1, r) for i, r in enumerate(rows) if re.search(pattern, r)]
        counts['4 chains of tests that leave with a constant'] += [(n, i + 1, rows[i]) for i in chains(text)]
        for line, f, shape in bodies(text):
            if len(shape) > 40:
                shapes.setdefault(shape, []).append((n, line, f))
    for group in shapes.values():
        if len(group) > 1:
            counts['2 functions of one shape, but for names, numbers and types'] += group
    for name in sorted(counts):
        print(f'{len(counts[name]):5} {name}')
        if listed and not name.startswith('8'):
            for n, i, r in counts[name]:
                print(f'          {n}:{i}: {r.strip()[:90]}  {kept(told[n].split(chr(10)), i - 1)}')


main()
