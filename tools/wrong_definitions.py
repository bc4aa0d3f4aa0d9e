#!/usr/bin/env python3
"""Tries wrong definitions: each edit of what a reader must believe has to be refused by what is proved of the definitions alone.

Usage: python3 tools/wrong_definitions.py [--plan[=N,N,N]] [--tries N] [--seeds S,S,...] [--sorts S,S,...] [--jobs N] [--at TEXT] [--copy FOLDER]
                                          [--print] [--list] [CRATE...]

Strips a copy of the repository to types, definitions and laws, with no function and no proof of one, and proves it once. Then it edits
one definition at a time, in the specs of the crates named (all that define something of the box, if none is). The edited crate is proved
and then each that stands on it, up to the first that is not proved: first those that `demands` stands on, then `demands`, its computed points
and tables last, since they take longest, and then the rest.

There are three sorts of edits. A plain one (tools/definition_edits.py): a number is one more or less, a test another, two branches, clauses,
fields or checks are exchanged, a check is dropped, one thing is taken for its neighbour of the same type. One at a point
(tools/pointwise_edits.py): where an argument is a certain number, a list has a certain length or begins so, or a field is so, the result is
another, or the argument is taken for its neighbour; else all is as before. And one of a premise, which stands there too: `demands` says of which
calls its theorems speak, and the edit asks more of them, or less. An edit of a premise is refused if `demands` is no longer proved.

An edit that nothing refuses survives, and is always shown: a rule that only reading holds, or the same box seen from outside. One after
which the definitions themselves do not check says nothing about the laws, and counts as ill-typed. That an edit is refused says that a
proof fails, in the module that is named; it does not say that no other proof would do. Comments, signatures and what is stated of a state
are not edited: an invariant is proved, not believed. Nor are the specs of `demands` beside its premises, which state the theorems, and
modules whose first line says that nobody has to believe them.

Each seed chooses --tries edits (default 40, of seed 1) of the --sorts plain, pointwise and premise (default all). --plan, with one seed, goes
by the plan instead: so many edits of each of these sorts that are not ill-typed (140, 120 and 50, if it does not say), from every crate and
definition in turn, always the same ones. --at keeps those whose place, crates/CRATE/specs/FILE:LINE, has TEXT in it; --list says which there
are and tries none; --print shows every edit tried. --jobs places work side by side, each in a copy (default 1). --copy keeps the stripped copy
in a folder, so that a later run proves only what has changed. A line for each edit is written as soon as it is tried, with the seconds that it
took; of a survivor the lines that differ.
The last lines: for each sort, and then for all, edits to choose from, tried, refused, ill-typed, survive. Status 1 if any survives."""
import argparse
import collections
import glob
import os
import random
import re
import shutil
import subprocess
import sys
import tempfile
import threading
import time

from believed import WORDS as UNBELIEVED
from crates import ROOT, listed
from definition_edits import bringing, declared, edits_of, shown, unique
from pointwise_edits import Known, pointwise, premise_edits
from promises import is_of_function

STATEMENTS = 'demands'
# modules of it that take long to prove, on which no other stands: in the copy they are a crate of their own, `computed`
# laws that hold the code to a definition, and no definition to anything: left out, so that an edit which only the code would notice survives
OF_THE_CODE = {'channels': ('Differing', 'Switching', 'Walking', 'Ending', 'LastRead', 'Thin', 'Turns')}
SLOW_GROUP, SLOW = 'Applies', ('Worked', 'Applied', 'PutToUse')
OUTSIDE = {'io', 'streams'}  # what stands on these is a program, or part of one
SORTS = ('plain', 'pointwise', 'premise')
PLAN = '140,120,50'  # edits of each sort

# ---- the stripped copy

def without_functions(text):
    """a source's types and constants alone; an item is a line at the margin and what is indented or closes under it"""
    kept, ahead, keeps = [], [], True
    for line in text.split('\n'):
        if line == '#![tactic(auto)]':
            kept.append(line)
        elif re.match(r'//|#\[', line):
            ahead.append(line)
        elif re.match(r'[^\s{}()\[\]]', line):
            keeps = re.match(r'(pub )?(use|mod|struct|enum|type|const) ', line)
            kept += ahead + [line] if keeps else []
            ahead = []
        elif keeps:
            kept.append(line)
    return '\n'.join(kept) + '\n'


def defining(crates):
    """the libraries with definitions that stand on nothing outside"""
    return [c for c in crates if os.path.isdir(f'{ROOT}/crates/{c}/specs') and os.path.exists(f'{ROOT}/crates/{c}/src/lib.rt')
            and not OUTSIDE & set(crates[c])]


def strip(crates, names, place):
    for part in glob.glob(f'{place}/crates/*/*'):
        if os.path.basename(part) != 'out':  # what an earlier run proved
            shutil.rmtree(part)
    os.makedirs(place, exist_ok=True)
    with open(f'{place}/crates.txt', 'w') as out:
        out.writelines(f'{c}: {" ".join(crates[c])}\n' for c in names)
    for crate in names[:-1]:
        own, copy = f'{ROOT}/crates/{crate}', f'{place}/crates/{crate}'
        shutil.copytree(f'{own}/specs', f'{copy}/specs')
        for path in glob.glob(f'{own}/src/**/*.rt', recursive=True):
            to = copy + path[len(own):]
            os.makedirs(os.path.dirname(to), exist_ok=True)
            with open(path) as source, open(to, 'w') as out:
                out.write(without_functions(source.read()))
        for path in glob.glob(f'{own}/proofs/**/*.antt', recursive=True):
            if not is_of_function(path) and os.path.basename(path)[:-len('.antt')] not in OF_THE_CODE.get(crate, ()):
                to = copy + path[len(own):]
                os.makedirs(os.path.dirname(to), exist_ok=True)
                shutil.copy(path, to)
        for name in OF_THE_CODE.get(crate, ()):
            unlist(f'{copy}/proofs/Lib.antt', name)
    set_apart(f'{place}/crates/{STATEMENTS}', f'{place}/crates/computed')


def unlist(path, name):
    """takes a module out of a list of modules"""
    with open(path) as source:
        text = source.read()
    with open(path, 'w') as out:
        out.write(text.replace(f'pub mod {name}\n', ''))


def set_apart(own, other):
    """moves the slow modules to a crate of their own, so that what is quick comes first"""
    for folder in ('src', 'specs', 'proofs'):
        os.makedirs(f'{other}/{folder}')
    open(f'{other}/specs/Lib.antt', 'w').close()
    shutil.copy(f'{own}/src/lib.rt', f'{other}/src')
    with open(f'{own}/proofs/{SLOW_GROUP}.antt') as source:
        listed_ = source.read()
    for name in SLOW:
        listed_ = listed_.replace(f'pub mod {name}\n', '')
        with open(f'{own}/proofs/{SLOW_GROUP}/{name}.antt') as source, open(f'{other}/proofs/{name}.antt', 'w') as out:
            out.write(re.sub(rf'\bRattle\.{STATEMENTS}\.proofs\.{SLOW_GROUP}\.({"|".join(SLOW)})\b', r'Rattle.computed.proofs.\1', source.read()))
        os.remove(f'{own}/proofs/{SLOW_GROUP}/{name}.antt')
    with open(f'{own}/proofs/{SLOW_GROUP}.antt', 'w') as out:
        out.write(listed_)
    with open(f'{other}/proofs/Lib.antt', 'w') as out:
        out.writelines(f'pub mod {name}\n' for name in SLOW)


# ---- trying

def proved(place, crate):
    """whether the crate is proved, and what was said of it"""
    done = subprocess.run(['rt', 'check', '--jobs', '1'], cwd=f'{place}/crates/{crate}', stdout=subprocess.PIPE, stderr=subprocess.STDOUT, text=True)
    return done.returncode == 0, done.stdout


def above(crates, names, crate):
    """the crate and those that stand on it, each after what it stands on; what the theorems do not stand on comes last"""
    order, reached = [], {crate}
    for name in names:
        if name == crate or reached & set(crates[name]):
            reached.add(name)
            order.append(name)
    below = set(crates['computed']) | {'computed', crate}
    return [name for name in order if name in below] + [name for name in order if name not in below]


class Place:
    """a copy of the stripped tree, with what was proved of it kept aside so that an edit leaves no trace"""

    def __init__(self, folder, stripped):
        self.folder, self.kept = folder, stripped
        shutil.copytree(stripped, folder)

    def restored(self, crate):
        now = f'{self.folder}/crates/{crate}/out'
        shutil.rmtree(now, ignore_errors=True)
        shutil.copytree(f'{self.kept}/crates/{crate}/out', now)

    def tried(self, edit, order):
        """'survive', 'refused' or 'ill-typed', and the module that is not proved"""
        path = f'{self.folder}/{edit.path}'
        with open(path) as source:
            text = source.read()
        lines = text.split('\n')
        first = next(k for k, line in enumerate(lines) if line.startswith('use '))
        brought = bringing(text, edit.new)
        lines[edit.line:edit.line + len(edit.old)] = edit.new
        lines[first:first] = brought
        with open(path, 'w') as out:
            out.write('\n'.join(lines))
        verdict, by, touched = 'survive', '', []
        for crate in order:
            touched.append(crate)
            good, said = proved(self.folder, crate)
            if not good:
                by = errors(said, crate)
                verdict = 'ill-typed' if crate == edit.crate and re.search(r'^\./specs/\S+: error: ', said, re.M) else 'refused'
                break
        with open(path, 'w') as out:
            out.write(text)
        for crate in touched:
            self.restored(crate)
        return verdict, by


def errors(said, crate):
    """the declarations that are not proved, but for those that only rest on such a one; at most three"""
    found = re.findall(r'^\./\w+/(\S+)\.antt:\d+:\d+: error: (?!\d+ declarations? that depend)(?:`(\S+)`: )?', said, re.M)
    names = list(dict.fromkeys(f'{crate}/{module.split("/")[-1]}' + (f'.{name}' if name else '') for module, name in found))
    return ', '.join(names[:3]) + (f' and {len(names) - 3} more' if len(names) > 3 else '') or crate


# ---- which edits

def all_edits(names, chosen, sorts):
    """the edits of these sorts in the crates chosen; of the crate that states the theorems its premises alone"""
    (types, like), known, found = declared(names), Known(names), []
    for crate in chosen:
        if crate == STATEMENTS:
            found += premise_edits(known, crate, types, like) if 'premise' in sorts else []
            continue
        for path in sorted(glob.glob(f'{ROOT}/crates/{crate}/specs/*.antt')):
            if UNBELIEVED not in open(path).readline():
                found += edits_of(crate, path, types, like) if 'plain' in sorts else []
                found += pointwise(known, crate, path) if 'pointwise' in sorts else []
    return unique(found)


def in_turn(groups):
    """one of each group after the other, until all are used up"""
    groups = [list(group) for group in groups]
    while any(groups):
        for group in groups:
            if group:
                yield group.pop(0)


def spread(edits, seed):
    """all edits, from each crate in turn, and in it from each definition in turn"""
    chance, crates = random.Random(seed), {}
    for edit in chance.sample(edits, len(edits)):
        crates.setdefault(edit.crate, {}).setdefault((edit.path, edit.of), []).append(edit)
    return list(in_turn([in_turn(crates[crate].values()) for crate in sorted(crates)]))


class Waiting:
    """the edits still to be tried, for several that take them: so many of each sort that are not ill-typed"""

    def __init__(self, by_sort, wanted):
        self.left, self.wanted, self.taken, self.lock = by_sort, wanted, collections.Counter(), threading.Condition()
        self.at_work = collections.Counter()

    def get(self):
        """the next one, None where there is none; of the sort that is furthest behind"""
        with self.lock:
            while True:
                open_ = [sort for sort in self.left if self.left[sort] and self.taken[sort] < self.wanted[sort]]
                free = [sort for sort in open_ if self.taken[sort] + self.at_work[sort] < self.wanted[sort]]
                if free:
                    sort = min(free, key=lambda each: (self.taken[each] + self.at_work[each]) / self.wanted[each])
                    self.at_work[sort] += 1
                    return self.left[sort].pop(0)
                if not open_:
                    return None
                self.lock.wait()  # an edit at work may turn out to be ill-typed

    def done(self, edit, counts):
        with self.lock:
            self.at_work[edit.sort] -= 1
            self.taken[edit.sort] += counts
            self.lock.notify_all()


def chosen_by(seeds, tries, edits):
    """what each seed chooses, each edit once, all of them wanted"""
    picked = {}
    for seed in seeds.split(','):
        for edit in random.Random(int(seed)).sample(edits, min(tries, len(edits))):
            picked[shown(edit)] = edit
    by_sort = {sort: [edit for edit in picked.values() if edit.sort == sort] for sort in SORTS}
    return Waiting(by_sort, {sort: len(by_sort[sort]) + 1 for sort in SORTS})


def planned(plan, seed, edits):
    """so many of each sort, from each crate and definition in turn"""
    by_sort = {sort: spread([edit for edit in edits if edit.sort == sort], seed) for sort in SORTS}
    return Waiting(by_sort, dict(zip(SORTS, map(int, plan.split(',')))))


# ---- all of them

def options():
    parser = argparse.ArgumentParser(description=__doc__, formatter_class=argparse.RawDescriptionHelpFormatter)
    parser.add_argument('--plan', nargs='?', const=PLAN)
    parser.add_argument('--tries', type=int, default=40)
    parser.add_argument('--seeds', default='1')
    parser.add_argument('--sorts', default=','.join(SORTS))
    parser.add_argument('--jobs', type=int, default=1)
    parser.add_argument('--at', default='')
    parser.add_argument('--copy', default='')
    parser.add_argument('--print', action='store_true', dest='prints')
    parser.add_argument('--list', action='store_true')
    parser.add_argument('crates', nargs='*')
    return parser.parse_args()


def told(edit, verdict, by, seconds, prints):
    """what is said of an edit that was tried"""
    if verdict == 'survive':
        return f'SURVIVES, {seconds:.0f} s, {shown(edit)}'
    which = shown(edit) if prints else shown(edit).split('\n', 1)[0]
    return f'{verdict} by {by}, {seconds:.0f} s, {which}'


def try_all(waiting, crates, names, jobs, copy, prints):
    """how many edits of each sort came to which verdict; says of each what came of it, and shows the survivors"""
    count, printing = collections.Counter(), threading.Lock()
    with tempfile.TemporaryDirectory() as work:
        stripped = copy or f'{work}/stripped'
        strip(crates, names, stripped)
        for name in names:
            good, said = proved(stripped, name)
            if not good:
                sys.exit(f'the stripped copy of {name} is not proved:\n{said[-2000:]}')
        print('the stripped copy is proved', flush=True)

        def try_in(place):
            for edit in iter(waiting.get, None):
                start = time.time()
                verdict, by = place.tried(edit, above(crates, names, edit.crate))
                with printing:
                    count[edit.sort, verdict] += 1
                    number = sum(count.values())
                    print(f'{number}.', told(edit, verdict, by, time.time() - start, prints), flush=True)
                waiting.done(edit, verdict != 'ill-typed')
            if not all(proved(place.folder, name)[0] for name in names):
                count['', 'left a trace'] += 1

        workers = [threading.Thread(target=try_in, args=(Place(f'{work}/place{k}', stripped),)) for k in range(jobs)]
        for worker in workers:
            worker.start()
        for worker in workers:
            worker.join()
    if count['', 'left a trace']:
        sys.exit('an edit left a trace in the copy, so the figures would say nothing')
    return count


def main():
    asked = options()
    crates = listed()
    names = defining(crates)
    crates['computed'] = crates[STATEMENTS] + [STATEMENTS]
    edits = [e for e in all_edits(names, asked.crates or names, asked.sorts.split(',')) if asked.at in f'{e.path}:{e.line + 1}']
    if asked.list:
        print('\n'.join(shown(e) for e in edits))
        print(f'{len(edits)} edits to choose from')
        return 0
    waiting = planned(asked.plan, int(asked.seeds), edits) if asked.plan else chosen_by(asked.seeds, asked.tries, edits)
    count = try_all(waiting, crates, names + ['computed'], asked.jobs, asked.copy, asked.prints)
    for sorts in [(sort,) for sort in SORTS] + [SORTS]:
        verdicts = {verdict: sum(count[sort, verdict] for sort in sorts) for verdict in ('refused', 'ill-typed', 'survive')}
        choice = len([e for e in edits if e.sort in sorts])
        print(f'{sorts[0] if len(sorts) == 1 else "all"}: {choice} edits to choose from, {sum(verdicts.values())} tried, '
              f'{verdicts["refused"]} refused, {verdicts["ill-typed"]} ill-typed, {verdicts["survive"]} survive')
    return 1 if any(verdict == 'survive' for _, verdict in count) else 0


if __name__ == '__main__':
    sys.exit(main())
