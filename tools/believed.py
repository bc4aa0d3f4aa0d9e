#!/usr/bin/env python3
"""Reckons which definitions a reader has to believe, from the statements of the theorems, and writes docs/BELIEVED.md.

Usage: python3 tools/believed.py [--check | --print | --laws | --why NAME]

The theorems are what is public in the modules that the head of docs/PROMISES.md lists, but for definitions. Of each its statement counts,
with the parameters of the modules that it stands in. So do the contracts of what is called from outside: of the public functions of
`calls` and `nizhalepu`, of the functions of lower crates that REPORTS lists, which answer a `Refusal` of their crate, and of the programs `bench`, `durations`, `explain` and `plan`. Every name used there is followed to its definition in the repository, and from the
definition's own text on to the names that it uses; a struct, an enum or a name for a type counts by its lines in the sources. What is said of a value whose
type has an `impl Model` is said of its view: a type that has one is followed from each contract whose function takes, gives or belongs to it, and
what its members `Value`, `view` and `invariant` use is followed too; these count as lines of the type. It stops at the
toolchain's library and at what STOPS lists, with the reason, which the page shows too: of such a definition only its signature is followed.
What a computed theorem says of each row of a table stands in the row: the modules that ROWS lists count as statements.

A line counts if it is neither blank nor a comment nor a `use` line; the head of a module with parameters counts once. A definition that
several lists lead to counts in the first. `Lib.antt` of a folder only lists its modules, and is not looked at.

--print shows the page and writes nothing; --laws shows it with what the laws of lower layers would add that docs/PROMISES.md names. --why
says by which way a definition, crate/Module.name, is reached. --check writes nothing, and ends with status 1 if the page is not what would be
written, if something that has to be believed stands outside specs/ and src/, or if nothing in a module under specs/ has to be believed, nor stands
behind one of STOPS, and its first line does not say so, by the words "Nobody has to believe this", or if it says so and something has to be."""
import collections
import glob
import itertools
import os
import re
import sys

from crates import types_brought
from declarations import code, declarations, without_texts
from promises import QUOTED, laws_file, module_files, theorem_modules

ROOT = os.path.dirname(os.path.dirname(os.path.abspath(__file__)))
PAGE = 'docs/BELIEVED.md'
# where it stops, and why nobody has to believe what stands behind it
STOPS = {
    ('crates/controller/specs/Calls.antt', 'call'): 'the box: the code is proved against it, and the theorems say what it does',
    ('crates/controller/src/lib.rt', 'Controller'): 'the state that passes through the calls: no theorem looks into it but for the output word',
    ('crates/controller/specs/Controller.antt', 'fresh'): 'the state before the first power-on, in which every other call is refused',
    ('crates/controller/specs/Invariant.antt', 'Invariant'): 'all that the calls require, and proved to hold always: no promise rests on what it says',
    ('crates/demands/specs/Said.antt', 'spoken'):
        'which command the history reads off the characters: `demands/Replies.accepted_exactly` says it in full, both ways',
    ('crates/duration/specs/Report.antt', 'report'): 'the report: the code is proved against it, and the theorems say what it answers',
    ('crates/explanation/specs/Report.antt', 'report'): 'the report of a stop, likewise',
    ('crates/plantext/specs/Reading.antt', 'reader_of'): 'the reader of plans: the code is proved against it, and the theorems say what it reads',
    ('crates/reader/specs/Reading.antt', 'reading_as'): 'the reader of logs, likewise',
    ('crates/reader/specs/Listing.antt', 'listing'): 'the text of a log, likewise',
}
WORDS = 'Nobody has to believe this'
# the modules of theorems by what they speak of; what is in none of these speaks of the box
OF_LOGS = ('demands/Possible', 'demands/LogReads', 'demands/Exactly', 'demands/LogWords', 'reader/ReadBack', 'reader/Reasons')
OF_DURATIONS = ('duration/Taking', 'duration/Refusing')
OF_STOPS = ('demands/Stops', 'explanation/Explained', 'explanation/Refusing', 'nizhalepu/Explaining')
OF_PLANS = ('demands/Planned', 'planner/Planning', 'planner/Words', 'planner/Refusing', 'plantext/Exactly', 'plantext/OneMeaning', 'plantext/Keeping',
            'plan/AsSaid')
OF_TOTALS = ('demands/Totalled', 'channels/Refusing', 'channels/Adding', 'channels/Places')
OF_THE_CODE = ('calls/Outcome', 'calls/Kept', 'nizhalepu/Agreement')
COMPUTED = ('demands/Worked', 'demands/Applied', 'demands/AppliedTotals')
# the modules of rows that the computed theorems speak of
ROWS = tuple(f'crates/demands/specs/{name}.antt' for name in
             ('Points', 'CallsTable', 'WireTable', 'VariablesTable', 'RunningTable', 'LogTable', 'Tables', 'RefusedCalls',
              'RunScripts', 'Scripts', 'TotalScripts'))
CALLED = ('crates/calls/src/lib.rt', 'crates/nizhalepu/src/lib.rt')
# what a caller in Rust calls of the crates under these, which answer a refusal by name: its number is in their contracts
REPORTS = {'crates/reader/src/lib.rt': ('read',), 'crates/duration/src/lib.rt': ('report',), 'crates/explanation/src/lib.rt': ('report',),
           'crates/planner/src/lib.rt': ('write',), 'crates/channels/src/lib.rt': ('bring_forward',)}
# the programs whose contracts say what they tell; that of `bench` stands in `console`
PROGRAMS = ('crates/console/src/lib.rt', 'crates/durations/src/main.rt', 'crates/explain/src/telling.rt', 'crates/plan/src/telling.rt', 'crates/plan/src/main.rt',
            'crates/totals/src/telling.rt', 'crates/totals/src/main.rt')

# a definition, or a type of the sources: where it stands and what it is called
Name = collections.namedtuple('Name', 'path name')


def read(path):
    with open(os.path.join(ROOT, path), encoding='utf-8') as file:
        return file.read()


def found(pattern):
    return sorted(os.path.relpath(path, ROOT) for path in glob.glob(os.path.join(ROOT, pattern), recursive=True))


# ---- types of the sources

def types_of(path):
    """name: its lines, of the structs, enums and names for types in a source"""
    types, inside = {}, None
    for line in read(path).split('\n'):
        head = re.match(r'(?:pub )?(?:struct|enum|type) (\w+)', line)
        inside = head.group(1) if head else inside
        text = re.sub(r'//.*', '', line).rstrip()
        if inside and text:
            types.setdefault(inside, []).append(text)
        if text == '}' or text.endswith(';'):
            inside = None
    return types


SEEN_BY = ('Value', 'view', 'invariant')


def models_of(path):
    """name: the lines of what a value of the type is seen by, of the types in a source with an `impl Model`"""
    models = {}
    for name, body in re.findall(r'^impl\b[^\n]*\bModel for (\w+)[^\n]*\{\n(.*?)^\}', read(path), re.M | re.S):
        lines = [text for text in (re.sub(r'//.*', '', line).rstrip() for line in body.split('\n')) if text]
        for group in ghosts_in(lines):
            if re.match(rf' *ghost (?:{"|".join(SEEN_BY)}) =', group[0]):
                models.setdefault(name, []).extend(group)
    return models


def ghosts_in(lines):
    """the lines of each member: it ends where a line ends with `;`"""
    group = []
    for line in lines:
        group.append(line)
        if line.endswith(';'):
            yield group
            group = []


class Sources:
    """the structs and enums of every crate"""

    def __init__(self):
        self.lines, self.by_crate, self.models = {}, {}, {}
        for path in found('crates/*/src/**/*.rt'):
            crate, models = path.split('/')[1], models_of(path)
            for name, lines in types_of(path).items():
                self.lines[Name(path, name)] = lines
                self.by_crate[crate, name] = Name(path, name)
                if name in models:
                    self.models[Name(path, name)] = models[name]

    def named(self, crate, name):
        return self.by_crate.get((crate, name))

    def uses(self, what):
        """the types that a type's own lines name"""
        return [used for used in self.types_in(what.path, ' '.join(self.lines[what])) if used != what]

    def types_in(self, path, text):
        """the types of the sources that some lines of a source name"""
        crate, brought = path.split('/')[1], types_brought(read(path))

        def place(from_, name):
            if not from_:
                return brought.get(name, (crate, name))
            return (crate if os.path.exists(os.path.join(ROOT, f'crates/{crate}/src/{from_}.rt')) else from_), name  # a module of its own, or a crate

        found_ = [self.named(*place(from_, name)) for from_, name in re.findall(r'(?:(\w+)::)?\b([A-Z]\w+)', text)]
        return [used for used in found_ if used]

    def seen(self, what):
        """whether a value of the type is seen by a view, of its own or of the type that it is another name for"""
        return what in self.models or any(self.seen(used) for used in self.uses(what) if re.match(r'(?:pub )?type ', self.lines[what][0]))


# ---- definitions

USE = re.compile(r'^ *(?:pub |ghost )?use (\S+?)(?:\.\{([^}]*)\}| as (\S+?))?;?$', re.M)


def module_path(module):
    """the file of a module of the repository, and whether it is one that the toolchain writes for a type: (path, crate, type)"""
    parts = module.split('.')
    if parts[0] != 'Rattle' or len(parts) < 4:
        return None, None, None
    crate = parts[1]
    if parts[3] == 'declared':
        return None, crate, parts[4]
    path = f'crates/{crate}/{"/".join(parts[2:])}.antt'
    return (path if os.path.exists(os.path.join(ROOT, path)) else None), crate, None


class File:
    """the declarations of a file, and what the names in it mean"""

    def __init__(self, path, reader):
        text, sources = read(path), reader.sources
        self.path, self.reader, self.declared = path, reader, collections.OrderedDict()
        for one in declarations(text) if path.endswith('.antt') else []:
            self.declared.setdefault(one.name, one)
        self.inside = {part: one.name for one in self.declared.values() if one.kind == 'data' for part in constructors(one)}
        self.brought, self.modules = {}, {}
        for module, names, alias in USE.findall('\n'.join(code(line) for line in text.split('\n'))):
            where, crate, type_ = module_path(module)
            if alias:
                self.modules[alias] = where
            for name in filter(None, (name.strip() for name in names.split(','))):
                own, _, other = name.partition(' as ')
                self.brought[other or own] = sources.named(crate, type_) if type_ else Name(where, own) if where else None

    def local(self, word):
        """what the file itself declares by this name"""
        word = self.inside.get(word, word)
        return Name(self.path, word) if word in self.declared else None


def constructors(data):
    for _, line in data.statement[1:]:
        head = re.match(r' +([^\s:(){}]+) : ', line)
        if head:
            yield head.group(1)


# ---- the names that a text uses

TOKEN = re.compile(r'[^\s(){},;`]+')
KEYWORDS = {'let', 'in', 'do', 'if', 'then', 'else', 'elim', 'record', 'data', 'where', 'Type', ':', '=', '→', '←', '↦', '|', '[', ']', '×', 'pub', 'abbrev',
            'unfoldable'}


def tokens_of(lines):
    return TOKEN.findall(without_texts(' '.join(text for _, text in lines)))


def binders(text):
    """the names that a text binds: in (a b : T) and {a : T}, by λ, by let, by ← and in the cases of an elim"""
    bound = set()
    for names in re.findall(r'[({]((?:[^\s:(){}]+ )+): ', text):
        bound |= set(names.split())
    for names in re.findall(r'λ (.*?)\.(?=\s)', text):
        bound |= set(re.findall(r'[^\s:(){}]+', re.sub(r': [^()]*', '', names)))
    bound |= set(re.findall(r'\blet ([^\s:(){}]+)', text)) | set(re.findall(r'([^\s(){}]+) ←', text))
    for names in re.findall(r'(?:\| )([^|↦]*) ↦', text):
        bound |= set(TOKEN.findall(names))
    return bound


class Reader:
    def __init__(self, with_laws=False, stops=STOPS):
        self.sources, self.files, self.stops = Sources(), {}, stops
        sentence = 'Those of lower layers that docs/PROMISES.md names; what they add.'
        self.more = [('Laws', sentence, stated_in(laws(self)))] if with_laws else []

    def file(self, path):
        if path not in self.files:
            self.files[path] = File(path, self)
        return self.files[path]

    def meant(self, file, word):
        """what a word of the file means, None for what is the toolchain's or bound"""
        first, _, rest = word.partition('.')
        if rest and first in file.modules:  # a module's name; else the dots are projections
            where = file.modules[first]
            return self.declaring(Name(where, rest.split('.')[0])) if where else None
        own = file.local(word)
        return own or self.declaring(file.brought.get(word))

    def declaring(self, what):
        """the declaration of this name: the data type, where it is a constructor"""
        if what is None or what in self.sources.lines:
            return what
        return self.file(what.path).local(what.name)

    def is_constructor(self, file, word):
        what = file.brought.get(word)
        if what and what not in self.sources.lines:
            return what.name in self.file(what.path).inside
        return word in file.inside or what in self.sources.lines

    def used(self, file, lines, bound=()):
        """the names that these lines use, without those that they bind"""
        text = without_texts(' '.join(text for _, text in lines))
        own = binders(text) | set(bound)
        own = {word for word in own if not self.is_constructor(file, word)}
        words = TOKEN.findall(text)
        plain = {word.rstrip('.') for word, after in zip(words, words[1:] + ['']) if not word.startswith('.') and after != '='}
        plain = {word if word.split('.')[0] in file.modules else word.split('.')[0] for word in plain} - own - KEYWORDS
        found_ = [self.meant(file, word) for word in sorted(plain)]
        everywhere = set(words)
        for name in [name for name in list(file.declared) + list(file.brought) if '◌' in name]:
            parts = [part for part in name.split('◌') if part]
            if parts and all(part in everywhere for part in parts) or name in ('◌>>=◌', '◌>>◌') and 'do' in everywhere:
                found_.append(self.meant(file, name))
        return [what for what in found_ if what]

    def uses(self, what):
        """the names in a definition's own text"""
        if what in self.sources.lines:
            model = [(0, re.sub(r'^ *ghost \w+ = ', '', line)) for line in self.sources.models.get(what, [])]
            return [] if what in self.stops else self.sources.uses(what) + self.used(self.file(what.path), model)
        file = self.file(what.path)
        one = file.declared[what.name]
        if what in self.stops and one.kind in ('record', 'data'):
            return self.used(file, one.statement[:1], {one.name})
        found_ = self.stated(file, one)
        if what in self.stops:
            return found_
        outer = {name for head in one.modules for name in binders(' '.join(text for _, text in head))}
        for clause in one.clauses:
            text = without_texts(' '.join(text for _, text in clause))
            left = text.split(' = ', 1)[0]
            found_ += self.used(file, clause, outer | set(TOKEN.findall(left)) - {one.name})
        return [used for used in found_ if used != what]

    def stated(self, file, one):
        """the names in what is stated of it: its type, or the parts of a record or data type, each after those before it"""
        found_, bound = [], set()
        for head in one.modules:
            found_ += self.used(file, head, bound)
            bound |= binders(' '.join(text for _, text in head))
        if one.kind not in ('record', 'data'):
            lines = [(k, re.sub(r'^ *(?:abbrev |unfoldable |pub )*\S+ ', '', text, count=1) if k == one.statement[0][0] else text) for k, text in one.statement
                     if not text.lstrip().startswith('infix')]
            return found_ + self.used(file, lines, bound)
        found_ += self.used(file, one.statement[:1], bound | {one.name})
        bound |= binders(one.statement[0][1])
        for group in parts_of(one):
            name, _, rest = ' '.join(text for _, text in group).partition(' : ')
            found_ += self.used(file, [(0, rest)], bound)
            bound |= {name.split()[-1]} if one.kind == 'record' else set()
        return found_

    def lines(self, what):
        """how many lines it has"""
        if what in self.sources.lines:
            return len(self.sources.lines[what]) + len(self.sources.models.get(what, []))
        one = self.file(what.path).declared[what.name]
        return len(one.statement) + sum(map(len, one.clauses))

    def heads(self, what):
        """the module heads around it, each with its number of lines"""
        return {} if what in self.sources.lines else {(what.path, head[0][0]): len(head) for head in self.file(what.path).declared[what.name].modules}


def parts_of(one):
    """the fields or constructors, each with its continuation"""
    body, group = one.statement[1:], []
    margin = min((len(text) - len(text.lstrip()) for _, text in body), default=0)
    for line in body:
        if group and len(line[1]) - len(line[1].lstrip()) <= margin:
            yield group
            group = []
        group.append(line)
    if group:
        yield group


# ---- what has to be believed

def theorems(reader, modules):
    for crate, module in modules:
        file = reader.file(laws_file(crate, module))
        for one in file.declared.values():
            if one.public and not one.kind:
                yield file, one


def laws(reader):
    """what docs/PROMISES.md names beside the theorems"""
    for crate, module, name in sorted(set(re.findall(r'^(\w+)/(\w+)\.(\S+)$', '\n'.join(QUOTED), re.M))):
        for path in module_files(crate, module) if (crate, module) not in theorem_modules() else []:
            one = reader.file(path).declared.get(name)
            if one and not one.kind:
                yield reader.file(path), one


def stated_in(theorems_):
    """(who, the number of lines, heads of modules, the names used) of what is stated"""
    for file, one in theorems_:
        heads = {(file.path, head[0][0]): len(head) for head in one.modules}
        yield Name(file.path, one.name), len(one.statement), heads, file.reader.stated(file, one)


def clauses_of(head):
    """what stands in the braces of each `requires` and `ensures` of a function's head"""
    for start in re.finditer(r'^ *(?:requires|ensures)(?: \w+)? \{', head, re.M):
        depth, at = 1, start.end()
        while depth:
            depth += {'{': 1, '}': -1}.get(head[at], 0)
            at += 1
        yield head[start.end():at - 1]


# a function with a contract: its head goes on over lines, to a line that is `{` alone; one that ends its first line with `{` has none
FUNCTION = re.compile(r'^ *(pub )?(?:extern "C" )?fn (\w+)((?:(?! *\{$)(?:[^\n]*[^\n{]|[^\n]*\b(?:requires|ensures)\b[^\n]*|)\n)+) *\{$', re.M)


def contracts(reader):
    """the same of the contracts of the functions that are called from outside; those of a program are all of its own"""
    for path in (*CALLED, *REPORTS, *PROGRAMS):
        file, text = reader.file(path), read(path)
        for one in FUNCTION.finditer(text):
            public, name, head = one.groups()
            said = list(clauses_of(head))
            if said and (public and name in REPORTS.get(path, (name,)) or path in PROGRAMS):
                lines = [(0, line) for clause in said for line in clause.strip().split('\n')]
                yield Name(path, name), len(lines), {}, reader.used(file, lines) + seen_in(reader, path, text, one)


def seen_in(reader, path, text, function):
    """the types with an `impl Model` that a function takes, gives or belongs to"""
    taken = re.split(r'^ *(?:requires|ensures)\b', function.group(3), maxsplit=1, flags=re.M)[0]
    around = re.findall(r'^(?:impl\b[^\n]*\{|\})$', text[:function.start()], re.M)
    if re.search(r'\b[sS]elf\b', taken) and around and around[-1] != '}':
        taken += ' ' + around[-1]
    return [what for what in reader.sources.types_in(path, taken) if reader.sources.seen(what)]


def reached(reader, stated, before):
    """each definition that the statements lead to, with what leads to it; without those that are known before"""
    ways, todo = {}, collections.deque()
    for who, _, _, names in stated:
        todo += [(used, who) for used in names]
    while todo:
        what, by = todo.popleft()
        if what not in ways:
            ways[what] = by
            todo += [(used, what) for used in reader.uses(what)]
    return {what: by for what, by in ways.items() if what not in before}


def groups(reader):
    """what is stated, by what it speaks of"""
    def of(modules):
        return stated_in(theorems(reader, [pair for pair in theorem_modules() if '/'.join(pair) in modules]))

    others = OF_LOGS + OF_DURATIONS + OF_STOPS + OF_PLANS + OF_TOTALS + OF_THE_CODE + COMPUTED
    box = [name for name in map('/'.join, theorem_modules()) if name not in others]
    return [('The box', 'The theorems of `demands` over calls and what is seen of them.', of(box)),
            ('A log read back', 'The theorems of `reader`, and of `demands` on what a log tells; what they add.', of(OF_LOGS)),
            ('How long a program takes', 'The theorems of `duration`; what they add.', of(OF_DURATIONS)),
            ('Why a program stops', 'The theorems of `explanation`, and those of `demands` and `nizhalepu` over it; what they add.', of(OF_STOPS)),
            ('A plan as a program', 'The theorems of `planner` and `plantext`, and those of `demands` over them; what they add.', of(OF_PLANS)),
            ('Switching totals', 'The theorems of `demands` and `channels` over logs brought forward one after the other; what they add.', of(OF_TOTALS)),
            ('The code', 'The theorems of `calls` and `nizhalepu`, and the contracts of what is called from outside: the library, the five functions that answer '
             'a refusal of their crate by name, and the programs `bench`, `durations`, `explain`, `plan` and `totals`; what they add.',
             itertools.chain(of(OF_THE_CODE), contracts(reader))),
            ('Computed points', 'What `demands/Worked`, `demands/Applied` and `demands/AppliedTotals` add: the languages that the points, tables and histories are written in. These '
             'themselves are what is stated.',
             of(COMPUTED))] + reader.more


def shown(path):
    """crate/Module, or crate/src"""
    crate, folder, name = path.split('/')[1], path.split('/')[2], os.path.basename(path)[:-len('.antt')]
    return f'`{crate}/src`' if folder == 'src' else f'`{crate}/{name}`' + ('' if folder == 'specs' else f' (under {folder}/)')


def counted(reader, names):
    """crate/Module: (lines, the names in it), in the order of the layers"""
    lines, listed, heads = collections.Counter(), collections.defaultdict(list), {}
    for what in names:
        if what not in STOPS and what.path not in ROWS:
            lines[what.path] += reader.lines(what)
            listed[what.path].append(what.name)
            heads.update(reader.heads(what))
    for (path, _), count in heads.items():
        lines[path] += count
    return {path: (lines[path], sorted(listed[path])) for path in lines}


def table(counts):
    by_shown = collections.defaultdict(lambda: (0, []))
    for path, (lines, names) in counts.items():
        has = by_shown[shown(path)]
        by_shown[shown(path)] = (has[0] + lines, has[1] + names)
    rows = [f'| {module} | {", ".join(f"`{name}`" for name in sorted(names))} | {lines} |' for module, (lines, names) in sorted(by_shown.items())]
    return ['| Module | Definitions | Lines |', '|---|---|---|'] + rows


def measured(reader):
    """(heading, sentence, what is stated, what it adds) of each group"""
    before, all_ = set(), []
    for heading, sentence, stated in groups(reader):
        stated = list(stated)
        names = reached(reader, stated, before)
        before |= set(names)
        all_.append((heading, sentence, stated, names))
    return all_


def lines_of(stated):
    heads = {place: count for _, _, around, _ in stated for place, count in around.items()}
    return sum(lines for _, lines, _, _ in stated) + sum(heads.values())


def total(counts):
    return sum(lines for lines, _ in counts.values()), sum(len(names) for _, names in counts.values())


def rows(reader, names):
    """the lines of the rows among these"""
    return sum(reader.lines(what) for what in names if what.path in ROWS)


def page(reader):
    out = ['# What must be believed', '',
           'The definitions that the statements of the theorems lead to, by module. `tools/believed.py` writes this page, and says at its head how it',
           'reckons; `tools/check` holds the page to it. Each part counts what it adds to those before it.', '']
    sums, parts, outside, all_, known = [], [], [], collections.Counter(), set()
    for heading, sentence, stated, names in measured(reader):
        counts = counted(reader, names)
        lines, many = total(counts)
        row = collections.Counter(stated=len(stated), long=lines_of(stated) + rows(reader, names), many=many, lines=lines)
        all_ += row
        known |= set(names)
        sums.append(f'| {heading} | ' + ' | '.join(str(row[key]) for key in ('stated', 'long', 'many', 'lines')) + ' |')
        parts += [f'## {heading}', '', sentence, ''] + table(counts) + ['', f'Together {many} definitions, {lines} lines.', '']
        outside += [f'{path}: {name}' for path, (_, has) in sorted(counts.items()) for name in has if path.split('/')[2] not in ('specs', 'src')]
    sums.append('| Together | ' + ' | '.join(str(all_[key]) for key in ('stated', 'long', 'many', 'lines')) + ' |')
    out += ['| What is stated | How many | Their lines | Definitions to believe | Their lines |', '|---|---|---|---|---|'] + sums
    out += ['', 'It stops at these, which are reached and need not be believed:', '', '| Definition | Why |', '|---|---|']
    out += [f'| {shown(path)[:-1]}.{name}` | {reason} |' for (path, name), reason in STOPS.items() if Name(path, name) in known]
    behind = {what for _, _, _, names in measured(Reader(stops=())) for what in names} - known | {what for what in known if what in STOPS}
    more = sum(map(reader.lines, behind))
    out += ['', f'What stands behind these has {more} lines more: the code is proved against it, and a reader need not hold it against the paper.', '']
    return '\n'.join(out + parts).rstrip() + '\n', outside


def modules_reached(reader):
    return {what.path for _, _, _, names in measured(reader) for what in names}


def misnamed(reader):
    """what is wrong with the first lines of modules under specs/"""
    used, behind = modules_reached(reader), modules_reached(Reader(stops=()))
    for path in found('crates/*/specs/*.antt'):
        says = WORDS in read(path).split('\n', 1)[0]
        if path not in used | behind and not says and not path.endswith('/Lib.antt'):
            yield f'{path}: nothing in it has to be believed, and its first line does not say "{WORDS}"'
        if path in used and says:
            yield f'{path}: its first line says "{WORDS}", and something in it has to be'


def why(reader, asked):
    crate, module, name = re.fullmatch(r'(\w+)/(\w+)\.(\S+)', asked).groups()
    for _, _, stated, _ in measured(reader):
        ways = reached(reader, stated, set())
        for what in ways:
            if what.name == name and what.path.split('/')[1] == crate and os.path.basename(what.path).split('.')[0] in (module, 'lib'):
                while what:
                    print(f'{what.path}: {what.name}')
                    what = ways.get(what)
                return 0
    print('not reached')
    return 1


def main():
    asked = sys.argv[1:]
    reader = Reader('--laws' in asked)
    if '--help' in asked:
        print(__doc__)
        return 0
    if asked[:1] == ['--why']:
        return why(reader, asked[1])
    text, outside = page(reader)
    if asked in (['--print'], ['--laws']):
        print(text, end='')
        return 0
    if asked != ['--check']:
        with open(os.path.join(ROOT, PAGE), 'w', encoding='utf-8') as out:
            out.write(text)
        return 0
    wrong = [f'{line}: has to be believed, and does not stand under specs/' for line in outside]
    wrong += misnamed(reader)
    if not os.path.exists(os.path.join(ROOT, PAGE)) or read(PAGE) != text:
        wrong.append(f'{PAGE} is not what python3 tools/believed.py writes')
    print('\n'.join(wrong))
    return 1 if wrong else 0


if __name__ == '__main__':
    sys.exit(main())
