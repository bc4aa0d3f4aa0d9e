"""Edits at one point, `if this argument is that number then its neighbour else as before`, and edits of the demands' own premises.

Used by tools/wrong_definitions.py. Which number it is, is chosen by the place: from the numbers that stand there, and from those that arguments of
that name have (addresses, letters, lines, lengths)."""
import glob
import itertools
import os
import random
import re

from crates import ROOT
from declarations import declarations, depth_zero
from definition_edits import Edit, edits_of, kind_of

# ---- what the arguments are

WORD = re.compile(r"[A-Za-z_]\w*'*")


def split_at(text, word):
    """the parts of a text between words that stand in no bracket"""
    parts = []
    while True:
        found, at = depth_zero(text, (word,))
        if not found:
            return parts + [text.strip()]
        parts.append(text[:at].strip())
        text = text[at + len(word):]


def words_of(text):
    """what stands between spaces, a bracket and what is in it being one word"""
    return re.findall(r'(?:[^\s()]|\((?:[^()]|\((?:[^()]|\([^()]*\))*\))*\))+', text)


def types_of(one):
    """the types of a definition's explicit arguments, and of its result"""
    text = ' '.join(line.strip() for _, line in one.statement if not line.lstrip().startswith('infix'))
    _, at = depth_zero(text, (':',))
    parts, types = split_at(text[at + 1:], '→'), []
    for part in parts[:-1]:
        named = re.fullmatch(r'\(([^:()]*) : (.*)\)', part)
        types += [named.group(2)] * len(named.group(1).split()) if named else [] if part.startswith('{') else [part]
    return types, parts[-1]


class Known:
    """the types of constructors' arguments and of records' fields, in the crates that define something"""

    def __init__(self, names):
        self.made_of, self.fields = {'zero': [], 'suc': ['ℕ'], 'true': [], 'false': [], 'none': [], 'some': ['ℕ'], 'tt': []}, {}
        for crate in names:
            for path in glob.glob(f'{ROOT}/crates/{crate}/src/**/*.rt', recursive=True):
                text = re.sub(r'//.*', '', open(path).read())
                for _, body in re.findall(r'^pub enum (\w+) \{(.*?)^\}', text, re.M | re.S):
                    for name, parts in re.findall(r'^ +(\w+)(.*?),$', body, re.M):
                        self.made_of[name] = [seen_as(type_) for type_ in re.findall(r'(?:\w+: )?(\w+)(?=[,)} ])', parts)]
                for name, body in re.findall(r'^pub struct (\w+) \{(.*?)^\}', text, re.M | re.S):
                    self.fields[name] = [(field, seen_as(type_)) for field, type_ in re.findall(r'^ +pub (\w+): (.*),$', body, re.M)]
            for path in glob.glob(f'{ROOT}/crates/{crate}/specs/*.antt'):
                for one in declarations(open(path).read()):
                    parts = re.findall(r'^ +(?:pub )?([^\s:(){}]+) : (.*)$', '\n'.join(line for _, line in one.statement[1:]), re.M)
                    if one.kind == 'record':
                        self.fields[one.name] = parts
                    elif one.kind == 'data':
                        self.made_of.update({name: split_at(type_, '→')[:-1] for name, type_ in parts})

    def bound(self, pattern, type_):
        """(variable, type) of what a pattern binds"""
        pattern = pattern[1:-1].strip() if pattern.startswith('(') else pattern
        if ' ∷ ' in pattern and type_.startswith('List '):
            head, tail = pattern.split(' ∷ ', 1)
            yield from self.bound(head.strip(), type_[len('List '):].strip('()'))
            yield from self.bound(tail.strip(), type_)
            return
        words = words_of(pattern)
        if not words or words[0] == '_':
            return
        if words[0] in self.made_of:
            for word, part in zip(words[1:], self.made_of[words[0]]):
                yield from self.bound(word, part)
        elif len(words) == 1 and WORD.fullmatch(words[0]):
            yield words[0], type_


def seen_as(type_):
    """the type that the definitions see"""
    return 'ℕ' if kind_of(type_) == 'number' else {'bool': 'Bool'}.get(type_, type_ if type_.isalnum() else 'List ℕ' if 'u8' in type_ else type_)


def bound_by_modules(one):
    """(variable, type) of the parameters of the modules around a definition"""
    for head in one.modules:
        for names, type_ in re.findall(r'\(([^:()]+) : ([^()]*)\)', ' '.join(line for _, line in head)):
            yield from ((name, type_) for name in names.split())


# ---- numbers that real values have

LETTERS = [98, 77, 67, 82, 87, 73, 68, 48, 57, 65, 70, 209]
BY_NAME = {'k j i address next nextread nextwrite parameter': [0, 77, 199, 200, 201, 203, 204, 205, 206, 209, 210, 211, 212, 213, 214, 216],
           'x char': LETTERS, 'c counter': [1, 2, 3, 4], 'e refusal': [2, 3, 4, 5, 20, 23, 24],
           'line l': [0, 12, 77, 199], 'tick ticks time count wait': [1, 2, 77, 255, 256], 'event': [10, 11, 12, 14], 'kind': [1, 2],
           'cause': [12, 77, 254, 255], 'R places len': [2, 3, 10], 'stop pause auto': [20, 21, 22], 'b button': [1, 2],
           'from': [0, 2, 4, 6], 'n': [1, 2, 4, 7], 'base': [10, 16, 256], 'word outputs before': [1, 2, 255], 'special code': [1, 3, 6, 8]}
OTHER = [1, 2, 7, 10, 11, 12, 14, 77, 98, 209, 255]
LENGTHS = [2, 3, 5, 6, 8, 10, 15, 16, 32]
AREAS = re.compile(r'(?i).*area|program|saved|log|bs|bytes|rs|p')


def number_for(chance, name, text, crate=''):
    """a number for an argument of this name; c is a character where characters are, and a loop counter elsewhere"""
    if name == 'c' and crate in ('wire', 'formats', 'texts'):
        return chance.choice(LETTERS)
    own = [int(found, 0) for found in re.findall(r"(?<![\w.'\"])(0x[0-9A-F]+|\d+)(?![\w\"])", text)]
    of_name = next((numbers for names, numbers in BY_NAME.items() if name in names.split()), OTHER)
    return chance.choice([n for n in own if n < 256] + of_name)


def tests(known, crate, variables, chance, text):
    """(the variable, a test that holds at one point of it)"""
    for name, type_ in variables:
        n = number_for(chance, name, text, crate)
        if type_ == 'Bool':
            yield name, name
        elif type_ == 'ℕ':
            yield name, f'eqb {name} {n}'
        elif type_ == 'List ℕ':
            yield name, f'eqb (get_or {name} 0 0) {n}' if AREAS.fullmatch(name) else f'eqb (length {name}) {chance.choice(LENGTHS)}'
        elif type_ in known.fields:
            numbers = [field for field, part in known.fields[type_] if part == 'ℕ']
            if numbers:
                field = chance.choice(numbers)
                yield name, f'eqb {name}.{field} {number_for(chance, field, text)}'


def neighbour_of(result, variables, chance, text):
    """what stands for `it` at that point, where a clause gives this text"""
    same = [name for name, type_ in variables if type_ == result]
    if result == 'ℕ':
        return 'it + 1'
    if result == 'Bool':
        return 'not it'
    if result == 'List ℕ':
        return chance.choice(['drop 1 it'] * (text != '[]') + ['it ++ (48 ∷ [])', '48 ∷ drop 1 it'])
    if result.startswith('Res '):
        return f'refused {chance.choice([2, 3, 4])}'
    if result.startswith('Option '):
        return 'none'
    return chance.choice(same) if same else None


# ---- the clause with something around what it gives

def clause_lines(lines, clause):
    """(number of the first line, the clause's own lines as they stand in the file)"""
    first, last = clause[0][0] - 1, clause[-1][0] - 1
    return first, lines[first:last + 1]


def wrapped(old, before, after):
    """the same clause, with this before what it gives and that behind it; None where that cannot be said so"""
    mark, at = depth_zero(old[0], ('=',))
    if mark is None or any(re.match(r'\s*where$', line) for line in old) or '--' in old[-1]:
        return None
    new = list(old)
    if old[0][at + 1:].strip():
        new[0] = old[0][:at + 1] + ' ' + before + old[0][at + 1:].strip()
    else:
        k = next((k for k, line in enumerate(old) if k and not line.lstrip().startswith('--')), None)
        if k is None:
            return None
        margin = len(old[k]) - len(old[k].lstrip())
        new[k] = old[k][:margin] + before + old[k].lstrip()
    new[-1] += after
    return new


def given(clause):
    """what a clause gives, as one text"""
    text = ' '.join(line for _, line in clause)
    _, at = depth_zero(text, ('=',))
    return text[at + 1:]


def in_place(old, name, other):
    """the clause with `other` for each use of the variable"""
    mark, at = depth_zero(old[0], ('=',))
    if mark is None:
        return None
    use = re.compile(rf"(?<![\w.'◌\"]){re.escape(name)}(?![\w'◌\"]|\s*[=:←↦]|\.\s)")
    new = [old[0][:at + 1] + use.sub(other, old[0][at + 1:])] + [line if line.lstrip().startswith('--') else use.sub(other, line) for line in old[1:]]
    return new if new != old and not any(f'λ {name}' in line or f'let {name} ' in line for line in old) else None


def variables_of(known, one, clause):
    """(variable, type) of what a clause has at hand"""
    types, result = types_of(one)
    text = ' '.join(line.strip() for _, line in clause)
    _, at = depth_zero(text, ('=',))
    patterns = words_of(text[:at])[1:]
    own = [pair for pattern, type_ in zip(patterns, types) for pair in known.bound(pattern, type_)]
    # what is left of the type where the clause has fewer patterns than arguments is a function, and not edited so
    return own + list(bound_by_modules(one)), result if len(patterns) == len(types) else None


def numbers_used(known, old, variables):
    """(line, start, end, text) of each place in a clause that uses a number: an argument, or a field of one"""
    _, at = depth_zero(old[0], ('=',))
    for name, type_ in variables:
        if any(f'λ {name}' in line or f'let {name} ' in line for line in old):
            continue
        for k, line in enumerate(old):
            for found in re.finditer(rf"(?<![\w.'◌\"]){re.escape(name)}((?:\.\w+)*)(?![\w'◌\"]|\s*[=:←↦]|\.\s)", line):
                reached = type_
                for field in found.group(1).split('.')[1:]:
                    reached = dict(known.fields.get(reached, [])).get(field, '')
                if reached == 'ℕ' and (k or found.start() > at) and not line.lstrip().startswith('--'):
                    yield k, found.start(), found.end(), found.group()


def pointwise(known, crate, path):
    """the edits at one point of a file's definitions"""
    source = open(path).read()
    lines, short = source.split('\n'), os.path.relpath(path, ROOT)
    for one in declarations(source):
        if one.kind in ('abbrev', 'unfoldable') and '◌' not in one.name:
            for clause in one.clauses:
                yield from at_points(known, crate, short, lines, one, clause)


def at_points(known, crate, short, lines, one, clause):
    chance = random.Random(f'{short}:{one.name}:{clause[0][1]}')
    variables, result = variables_of(known, one, clause)
    first, old = clause_lines(lines, clause)
    found = list(tests(known, crate, variables, chance, given(clause)))
    other = neighbour_of(result, variables, chance, given(clause).strip()) if result else None

    def edit(kind, new):
        return [Edit(crate, short, first, kind, old, new, 'pointwise', one.name)] if new else []

    def around(test):
        return wrapped(old, f'let it : {result} = (', f') in if {test} then {other} else it')

    if other:
        for _, test in found:
            yield from edit('result where', around(test))
        for (_, one_test), (_, two_test) in chance.sample(list(itertools.combinations(found, 2)), min(2, len(found) * (len(found) - 1) // 2)):
            yield from edit('result where both', around(f'{one_test} && {two_test}'))
    if result == 'ℕ' and not re.fullmatch(r'(0x[0-9A-F]+|\d+)', given(clause).strip()):
        n = number_for(chance, '', given(clause))
        yield from edit('result that is', wrapped(old, 'let it : ℕ = (', f') in if eqb it {n} then {n + 1} else it'))
    if result == 'List ℕ':
        yield from edit('result so long', wrapped(old, 'let it : List ℕ = (', f') in if eqb (length it) {chance.choice(LENGTHS)} then {other} else it'))
    for k, start, end, used in numbers_used(known, old, variables):
        bounds = {name: int(n, 0) for name, n in re.findall(r'\b(?:leb|ltb|eqb) (\w+(?:\.\w+)*) (0x[0-9A-F]+|\d+)', old[k])}
        n = bounds[used] if used in bounds else number_for(chance, used.split('.')[-1], old[k], crate)
        own, others = f'eqb {used} {n}', [test for name, test in found if name not in bounds and name != used and f' {used} ' not in test]
        for test in [own] + ([f'{own} && {chance.choice(others)}', chance.choice(others)] if others else []):
            new = n + 1 if own in test else f'{used} + 1'
            yield from edit('one use', old[:k] + [f'{old[k][:start]}(if {test} then {new} else {used}){old[k][end:]}'] + old[k + 1:])
    for name, test in found:
        type_ = dict(variables)[name]
        if type_ == 'ℕ':
            n = int(test.split()[-1])
            yield from edit('argument', in_place(old, name, f'(if {test} then {n + 1} else {name})'))
        elif type_ == 'List ℕ':
            yield from edit('argument', in_place(old, name, f'(if {test} then drop 1 {name} else {name})'))


# ---- premises

# the definitions that say of which calls a theorem of `demands` speaks
PREMISES = ('Arrives', 'replaced_by', 'is_replaced', 'Unreplaced', 'is_broken', 'Unbroken', 'counts', 'unpaused', 'is_pausing', 'is_touched', 'Untouched',
            'is_answered', 'is_read', 'has_read', 'has_written', 'Unread', 'Unwritten', 'is_lent_program', 'is_accepted', 'HandsOn', 'AllHandOn',
            'are_of_bytes', 'lends_bytes', 'lend_bytes', 'begins', 'none_begins', 'Never', 'AllTaken', 'is_taken', 'is_error')

# something else that can be asked of a variable of such a type
ASKED = {'Note': ['is_taken {}.seen', 'is_power_on {}.call', 'is_tick {}.call', 'is_emptying {}.call', 'is_press 2 {}.call'],
         'Told': ['{}.paused', '{}.run.on', 'eqb {}.ticks 77'], 'Made': ['is_power_on {}.call', 'is_tick {}.call', 'is_emptying {}.call'],
         'ℕ': ['eqb {} 77', 'leb {} 199'], 'List ℕ': ['eqb (length {}) 10'], 'List Made': ['eqb (length {}) 3'], 'List Note': ['eqb (length {}) 3'],
         'Areas': ['eqb (length {}.log) 33'], 'Seen': ['eqb {}.refusal 33', 'eqb {}.written 5']}


def premise_edits(known, crate, types, like):
    missing = set(PREMISES)
    for path in sorted(glob.glob(f'{ROOT}/crates/{crate}/specs/*.antt')):
        source = open(path).read()
        lines, short = source.split('\n'), os.path.relpath(path, ROOT)
        for one in declarations(source):
            if one.name not in PREMISES:
                continue
            missing.discard(one.name)
            numbers = {k - 1 for part in [one.statement] + one.clauses for k, _ in part}
            for edit in edits_of(crate, path, types, like):
                if edit.line in numbers:
                    yield edit._replace(sort='premise')
            if one.kind == 'record':
                yield from of_fields(crate, short, lines, one)
            for clause in one.clauses:
                yield from of_premise(known, crate, short, lines, one, clause)
    if missing:
        raise SystemExit('tools/pointwise_edits.py names premises that crates/demands/specs has not: ' + ', '.join(sorted(missing)))


def parts_without(text, word):
    """a chain of parts with this word between them, each time without one of them"""
    parts = split_at(text, word)
    for k in range(len(parts)) if len(parts) > 1 else []:
        yield f' {word} '.join(parts[:k] + parts[k + 1:])


def of_premise(known, crate, short, lines, one, clause):
    variables, result = variables_of(known, one, clause)
    first, old = clause_lines(lines, clause)
    mark, at = depth_zero(old[0], ('=',))

    def edit(kind, new):
        return [Edit(crate, short, first, kind, old, new, 'premise', one.name)] if new and new != old else []

    def gives(text):
        return [old[0][:at + 1] + ' ' + text]

    text = given(clause).strip()
    asked = [form.format(name) for name, type_ in variables for form in ASKED.get(type_, []) if form.format(name) not in text]
    for word in ('&&', '||', '×'):
        for less in parts_without(text, word):
            yield from edit('part dropped', gives(less))
        for found in re.finditer(r'\(([^()]*(?:\([^()]*\)[^()]*)*)\)', text):
            for less in parts_without(found.group(1), word):
                yield from edit('part dropped', gives(text[:found.start(1)] + less + text[found.end(1):]))
    if result == 'Bool':
        for word in ('true', 'false'):
            yield from edit('always', gives(word))
        for more in asked:
            yield from edit('or else', None if text == 'true' else wrapped(old, '(', f') || ({more})'))
            yield from edit('and also', None if text == 'false' else wrapped(old, '(', f') && ({more})'))
            yield from edit('and not', None if text == 'false' else wrapped(old, '(', f') && not ({more})'))
    elif result == 'ℕ':
        for number in ('0', '1'):
            yield from edit('always', gives(number))
        for more in asked:
            yield from edit('not where', None if text == '0' else wrapped(old, f'if {more} then 0 else (', ')'))
            yield from edit('one more where', wrapped(old, 'let it : ℕ = (', f') in if {more} then it + 1 else it'))
    elif (result or '').startswith('Type'):
        for more in asked:
            for word in ('true', 'false'):
                yield from edit('asks more', wrapped(old, '(', f') × (({more}) ≡ {word})'))
                yield from edit('asks less', wrapped(old, f'({more}) ≡ {word} → (', ')'))
    never = re.fullmatch(r'Never (.*)', text)
    if never:
        for more in [form.format(name) for name, type_ in (('t', 'Told'), ('n', 'Note')) for form in ASKED[type_]]:
            yield from edit('asks more', gives(f'Never (λ t n. {never.group(1)} t n || ({more}))'))
            yield from edit('asks less', gives(f'Never (λ t n. {never.group(1)} t n && ({more}))'))


def of_fields(crate, short, lines, one):
    """of a record of premises: a condition dropped, or one more, or another"""
    for number, line in one.statement[1:]:
        head, _, type_ = lines[number - 1].partition(' : ')
        parts = split_at(type_, '→')
        news = [('condition dropped', parts[:k] + parts[k + 1:]) for k in range(len(parts) - 1)]
        for more in ('is_tick m.call ≡ true', 'is_tick m.call ≡ false', 'is_emptying m.call ≡ false'):
            news.append(('condition added', [more] + parts))
        if line.strip() and len(parts) > 1:
            for kind, new in news:
                yield Edit(crate, short, number - 1, kind, [lines[number - 1]], [head + ' : ' + ' → '.join(new)], 'premise', one.name)
            for word, other in (('true', 'false'), ('false', 'true')):
                for found in re.finditer(rf'\b{word}\b', type_):
                    yield Edit(crate, short, number - 1, 'word', [lines[number - 1]], [head + ' : ' + type_[:found.start()] + other + type_[found.end():]],
                               'premise', one.name)
