"""The edits that tools/wrong_definitions.py tries: plain ones, of a line or two. The others stand in tools/pointwise_edits.py.

An edit is tried in a copy, where `bringing` says which `use` lines its new words need."""
import collections
import glob
import os
import re

from crates import ROOT
from declarations import code, declarations, without_texts

# `sort` is plain, pointwise or premise; `old` and `new` are lists of lines, from the one with number `line` on; the first of a file is 0.
# `of` is the definition that is edited.
Edit = collections.namedtuple('Edit', 'crate path line kind old new sort of')


# ---- edits of one line

NUMBER = re.compile(r"(?<![\w.'\"])(0x[0-9A-F]+|\d+)(?![\w\"])")
WORDS = [(r'\bltb\b', 'leb'), (r'\bleb\b', 'ltb'), (r'\beqb\b', 'leb'), (r' && ', ' || '), (r' \|\| ', ' && '), (r'\btrue\b', 'false'),
         (r'\bfalse\b', 'true'), (r' \+ 1\b', ''), (r' - 1\b', ''), (r' \+ ', ' - '), (r' - ', ' + '), (r'\btake\b', 'drop'),
         (r'\bdrop\b', 'take'), (r'\bnot \(', '('), (r'\bnot (?=\w)', ''), (r' \* ', ' + '), (r' / ', ' % '), (r' % ', ' / ')]

# where the words stand that an edit may bring in
HOMES = {word: module for module, words in [
    ('Rattle.std.specs.Prelude', 'eqb ltb leb take drop length get_or true false not && || + - / % ∷ [] ++ ≡ if'),
    ('Rattle.std.proofs.Math.Option', 'none'), ('Rattle.formats.specs.Checks', 'refused'),
    ('Rattle.controller.specs.Effects', 'is_power_on is_tick is_emptying is_press'), ('Rattle.demands.specs.Seen', 'is_taken')] for word in words.split()}


def bringing(text, new):
    """the `use` lines that the new lines need and the file does not have"""
    known = {name.split(' as ')[-1] for listed_names in re.findall(r'^use \S+\.\{([^}]*)\}', text, re.M) for name in listed_names.split(', ')}
    known |= {one.name for one in declarations(text)}
    words_ = {word for line in new for word in re.split(r'[\s().]+', without_texts(code(line))) if word in HOMES}
    needed = {word: {'if': 'if◌then◌else◌', '[]': '[]'}.get(word, word if word.replace('_', '').isalpha() else f'◌{word}◌') for word in words_}
    return [f'use {HOMES[word]}.{{{name}}}' for word, name in sorted(needed.items()) if name not in known]


def replaced(text, match, new):
    return text[:match.start()] + new + text[match.end():]


def numbers(text):
    for match in NUMBER.finditer(text):
        value = int(match.group(), 0)
        for other in (value + 1, value - 1):
            if other >= 0:
                yield 'number', replaced(text, match, f'0x{other:02X}' if 'x' in match.group() else str(other))


def words(text):
    for pattern, new in WORDS:
        for match in re.finditer(pattern, text):
            yield 'word', replaced(text, match, new)


def letters(text):
    """the last character of a text is the next one"""
    for match in re.finditer(r'"(\w*)(\w)"', text):
        yield 'letter', replaced(text, match, f'"{match.group(1)}{chr(ord(match.group(2)) + 1)}"')


def branches(text):
    """`if a then b else c`, on one line, with b and c exchanged"""
    found = re.match(r'(.*\bif (?:(?!\bif\b).)* then )((?:(?!\bif\b).)*)( else )((?:(?!\bif\b).)*)$', text)
    if found and found.group(2).count('(') == found.group(2).count(')') and found.group(4).count('(') == found.group(4).count(')'):
        yield 'branches', found.group(1) + found.group(4) + found.group(3) + found.group(2)


def neighbours(text, like, scope):
    """a name for another of the same type that the file knows; a field is known by its record"""
    for match in re.finditer(r"(?<![\w◌])[A-Za-z]\w*(?![\w◌])", text):
        before, name = text[:match.start()], match.group()
        if re.search(r"[\w')]\.$", before) and not re.search(r'\b[A-Z]\w*\.$', before):  # behind a module's name it is no field
            for other in like.get('.' + name, []):
                yield 'neighbour', replaced(text, match, other[1:])
        elif name in scope and (text[match.end():match.end() + 1] != '.' or re.match(r'\.[a-z]', text[match.end():]) and name.islower()):
            for other in like.get(name, []):
                if other in scope:
                    yield 'neighbour', replaced(text, match, other)


def fields(text, types):
    """`record { a = x; b = y }` with the values of two fields of one type exchanged"""
    for found in re.finditer(r'record \{ ([^{}]*) \}', text):
        parts = [part.split(' = ', 1) for part in found.group(1).split('; ')]
        if not all(len(part) == 2 for part in parts):
            continue
        for i, (a, x) in enumerate(parts):
            for j in range(i + 1, len(parts)):
                b, y = parts[j]
                if types.get(a) == types.get(b) and x != y:
                    new = [(a, y) if k == i else (b, x) if k == j else tuple(part) for k, part in enumerate(parts)]
                    yield 'fields', text[:found.start(1)] + '; '.join(' = '.join(part) for part in new) + text[found.end(1):]
                    break


# ---- edits of two lines

CHOICE = re.compile(r'( *(?:else )?if .* then )(.*)$')
LAST = re.compile(r'( *else )((?!if).*)$')
CLAUSE = re.compile(r'((\w+) .*? = )(.*)$')


def exchanged(one, two):
    """two lines of a choice or two clauses, with what they give exchanged; None where that says nothing"""
    a, b = CHOICE.match(one), CHOICE.match(two) or LAST.match(two)
    if a and b:
        return [a.group(1) + b.group(2), b.group(1) + a.group(2)]
    a, b = CLAUSE.match(one), CLAUSE.match(two)
    if a and b and a.group(2) == b.group(2) and fits(a.group(3), a.group(1), b.group(1)) and fits(b.group(3), b.group(1), a.group(1)):
        return [a.group(1) + b.group(3), b.group(1) + a.group(3)]
    return None


def fits(text, own, other):
    """what a clause gives speaks of nothing that its own pattern binds and the other's does not"""
    bound = set(re.findall(r'\w+', own)) - set(re.findall(r'\w+', other))
    return not bound & set(re.findall(r'\w+', text))


IS_GUARD = re.compile(r' +[^←]* or_else [^←]*$')


def of_two(lines, i):
    one, two = lines[i], lines[i + 1] if i + 1 < len(lines) else ''
    if IS_GUARD.match(one):
        yield 'dropped', [one], []
        if IS_GUARD.match(two):
            yield 'order', [one, two], [two, one]
    if re.match(r' +else if .* then ', one):
        yield 'dropped', [one], []
    new = exchanged(one, two)
    if new and new != [one, two]:
        yield 'exchanged', [one, two], new


# ---- all edits

def declared(names):
    """of each field its type, of each definition its signature; and which names have the same"""
    types, by_record, by_signature = {}, collections.defaultdict(list), collections.defaultdict(list)
    for crate in names:
        for path in glob.glob(f'{ROOT}/crates/{crate}/src/**/*.rt', recursive=True):
            for name, body in re.findall(r'^pub struct (\w+) \{(.*?)^\}', open(path).read(), re.M | re.S):
                for field, type_ in re.findall(r'^ +pub (\w+): (.*),$', body, re.M):
                    types[field] = kind_of(type_)
                    by_record[name, kind_of(type_)].append('.' + field)
            for body in re.findall(r'^pub enum \w+ \{(.*?)^\}', open(path).read(), re.M | re.S):
                by_signature[body] += re.findall(r'^ +(\w+),$', body, re.M)
        for path in glob.glob(f'{ROOT}/crates/{crate}/specs/*.antt'):
            text = open(path).read()
            for name, body in re.findall(r'^pub record (\w+) : Type 0 where\n((?: +.*\n)*)', text, re.M):
                for field, type_ in re.findall(r'^ +pub (\w+) : (.*)$', body, re.M):
                    types[field] = type_
                    by_record[name, type_].append('.' + field)
            for name, type_ in re.findall(r'^(?:abbrev|unfoldable) pub (\w+) : (.*)$', text, re.M):
                by_signature[crate, type_].append(name)
    like = collections.defaultdict(list)
    for group in list(by_record.values()) + list(by_signature.values()):
        for k, name in enumerate(group):
            if len(group) > 1:
                like[name].append(group[(k + 1) % len(group)])
    return types, like


def kind_of(type_):
    """the type that the definitions see: every number is one"""
    return 'number' if re.fullmatch(r'[ui]\d+|usize', type_) else type_


SKIPPED = re.compile(r'\s*(--|use |infix|pub |mutual|where$|$)|(abbrev|unfoldable) pub ')


def edits_of(crate, path, types, like):
    source = open(path).read()
    lines, scope = source.split('\n'), set(re.findall(r'\w+', source))
    short = os.path.relpath(path, ROOT)
    of = {number - 1: one.name for one in declarations(source) for part in [one.statement] + one.clauses for number, _ in part}
    stated = False
    for i, line in enumerate(lines):
        if re.match(r'pub (record|data) ', line):
            stated = True
        elif re.match(r'\S', line):
            stated = False
        if stated or SKIPPED.match(line) or re.match(r'\S.* =$', line):
            continue
        at = line.index(' = ') + 3 if re.match(r'\S.* = ', line) else 0  # of a clause, what it gives
        text = line[at:]
        free = scope - set(re.findall(r'\w+', line[:at]))  # names that this clause's own pattern does not bind
        for kind, new in [*numbers(text), *words(text), *letters(text), *branches(text), *neighbours(text, like, free), *fields(text, types)]:
            yield Edit(crate, short, i, kind, [line], [line[:at] + new], 'plain', of.get(i, ''))
        for kind, old, new in of_two(lines, i):
            yield Edit(crate, short, i, kind, old, new, 'plain', of.get(i, ''))


def unique(edits):
    """each edit once, and none that alters nothing"""
    return list({(e.path, e.line, tuple(e.old), tuple(e.new)): e for e in edits if e.old != e.new}.values())


def shown(edit):
    """the place, and the lines that differ"""
    old, new = list(edit.old), list(edit.new)
    while len(old) == len(new) > 1 and old[0] == new[0]:
        old, new = old[1:], new[1:]
    while len(old) == len(new) > 1 and old[-1] == new[-1]:
        old, new = old[:-1], new[:-1]
    place = f'{edit.path}:{edit.line + 1} ({edit.sort}: {edit.kind})'
    return '\n'.join([place] + [f'  - {line.strip()}' for line in old] + [f'  + {line.strip()}' for line in new])
