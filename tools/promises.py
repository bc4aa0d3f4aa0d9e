#!/usr/bin/env python3
"""Checks docs/PROMISES.md: every name in it exists, and every public contract, every theorem and every edit is named in it.

Usage: python3 tools/promises.py

Names stand in backquotes. `crate/Module.name` is declared in crates/crate/{specs,proofs}/Module.antt, or in a group of modules in a folder there, at
the top or as public in a module, and not as a part of a record; `crate/Module` alone is a module. `crate::function` and `crate::Type::function` stand in crates/crate/src;
`crate!edit` is crates/crate/must-fail/edit.edit; `corners/scenario` and `trials/scenario` are functions of model/. A path that begins with
a folder of the repository is a file. Anything else in backquotes is a program, a crate or plain text, and has none of these forms.
The theorems are all that is public in the modules that the head of the paper lists; each module of `demands` must stand in the head.
Prints what is wrong, and ends with status 1 if anything is."""
import glob
import os
import re
import sys

ROOT = os.path.dirname(os.path.dirname(os.path.abspath(__file__)))
FOLDERS = ('.ci', 'crates', 'docs', 'host', 'independent', 'model', 'tools')
SCENARIOS = {
    'corners': ('wire_corners.py', 'running_corners.py', 'none_corners.py', 'bad_corners.py'),
    'trials': ('call_trials.py', 'step_trials.py', 'trials.py', 'bad_trials.py', 'gap_trials.py'),
}


def read(*path):
    with open(os.path.join(ROOT, *path)) as file:
        return file.read()


TEXT = read('docs/PROMISES.md')
QUOTED = re.findall(r'`([^`\n]+)`', TEXT)
HEAD = TEXT[:TEXT.index('\n## ')]


def declared(path):
    """(name, whether it is public) of what an antt file declares; parts of records and local names are left out"""
    inside = None  # how far the record is indented of which this line is a part
    for line in read(path).split('\n'):
        if not line.strip():
            continue
        indent = len(line) - len(line.lstrip())
        if inside is not None and indent > inside:
            continue
        found = re.match(r' *((?:abbrev |unfoldable |pub |record |data )*)([^\s:(){}]+) [^=]*?:', line)
        inside = indent if re.match(r' *(?:abbrev |unfoldable |pub )*(?:record|data) ', line) else None
        if found and found.group(2) not in ('use', 'module', '--') and (indent == 0 or 'pub ' in found.group(1)):
            yield found.group(2), 'pub ' in found.group(1)


def module_files(crate, module):
    """the definitions' and the laws' file of that name, as far as they exist"""
    paths = [glob.glob(os.path.join(ROOT, 'crates', crate, kind, folder, module + '.antt')) for kind in ('specs', 'proofs') for folder in ('', '*')]
    return [os.path.relpath(path, ROOT) for found in paths for path in found if not is_of_function(path)]


def is_of_function(path):
    """whether a file is part of a function's proof, crates/CRATE/proofs/FUNCTION/.., and no module of laws, which may have the same name"""
    folders, name = os.path.split(path)
    return name in ('Invariants.antt', 'Answers.antt', 'Proof.antt') and os.path.basename(folders) != 'proofs'


def laws_file(crate, module):
    """the laws' file of that name"""
    return next(path for path in module_files(crate, module) if path.split(os.sep)[2] == 'proofs')


def functions(kind):
    """crate::function and crate::Type::function of the functions in the sources, the public ones or all"""
    found = set()
    for path in sorted(glob.glob(os.path.join(ROOT, 'crates/*/src/**/*.rt'), recursive=True)):
        crate = os.path.relpath(path, ROOT).split(os.sep)[1]
        of = None
        for line in read(path).split('\n'):
            block = re.match(r'impl(?:<[^>]*>)? (?:\w+ for )?(\w+)', line)
            of = block.group(1) if block else None if line == '}' else of
            function = re.match(r'\s*(pub )?(?:\w+ |extern "C" )*?fn (\w+)[(<]', line)
            if function and (kind == 'all' or function.group(1)):
                found.add('::'.join([crate] + ([of] if of and line.startswith(' ') else []) + [function.group(2)]))
    return found


ALL = functions('all')


def theorem_modules():
    """those that the head of the paper lists"""
    return re.findall(r'`(\w+)/(\w+)`', HEAD[HEAD.index('The theorems are'):])


def theorems():
    for crate, module in theorem_modules():
        for name, public in declared(laws_file(crate, module)):
            if public:
                yield f'{crate}/{module}.{name}'


def unlisted():
    """the modules of `demands` that the head does not name"""
    for path in sorted(glob.glob(os.path.join(ROOT, 'crates/demands/proofs/*/*.antt'))):
        name = 'demands/' + os.path.basename(path)[:-len('.antt')]
        if f'`{name}`' not in HEAD:
            yield name


def unknown(word):
    """why a quoted word names nothing, or None; `crate` and `scenario` stand for any, where the head says how names are written"""
    if re.match(r'(crates/)?crate\b', word) or word in ('corners/scenario', 'trials/scenario'):
        return None
    if word.split('/')[0] in FOLDERS and '/' in word:
        return None if os.path.exists(os.path.join(ROOT, word)) else 'no such file'
    scenario = re.fullmatch(r'(corners|trials)/(\w+)', word)
    if scenario:
        defined = '@scenario\ndef ' + scenario.group(2) + '('
        return None if any(defined in read('model', file) for file in SCENARIOS[scenario.group(1)]) else 'no such scenario'
    name = re.fullmatch(r'([\w-]+)/([\w-]+)(?:\.(\S+))?', word)
    if name:
        crate, module, part = name.groups()
        files = module_files(crate, module)
        if not files:
            return 'no such module'
        return None if part is None or any(part == has for file in files for has, _ in declared(file)) else 'no such definition, theorem or law'
    edit = re.fullmatch(r'(\S+)!(\S+)', word)
    if edit:
        path = os.path.join(ROOT, 'crates', edit.group(1), 'must-fail', edit.group(2) + '.edit')
        return None if os.path.exists(path) else 'no such edit'
    if re.fullmatch(r'\S+(::\S+)+', word):
        return None if word in ALL else 'no such function'
    return None


def edits():
    for path in glob.glob(os.path.join(ROOT, 'crates/*/must-fail/*.edit')):
        yield os.path.relpath(path, ROOT).split(os.sep)[1] + '!' + os.path.basename(path)[:-len('.edit')]


def main():
    wrong = [f'{word}: {why}' for word in dict.fromkeys(QUOTED) for why in [unknown(word)] if why]
    wrong += [f'{name}: a module that the head does not name' for name in unlisted()]
    wrong += [f'{name}: a public contract that is not named' for name in sorted(functions('public') - set(QUOTED))]
    wrong += [f'{name}: a theorem that is not named' for name in theorems() if name not in QUOTED]
    wrong += [f'{name}: an edit that is not named' for name in sorted(set(edits()) - set(QUOTED))]
    wrong += ['a backquote that is not closed' for line in TEXT.split('\n') if line.startswith('|') and line.count('`') % 2]
    for line in wrong:
        print(line)
    names = [word for word in set(QUOTED) if re.fullmatch(r'\w+(/\w+\.\S+|(::\w+)+|!\w+)|(corners|trials)/\w+', word)]
    print(f'docs/PROMISES.md: {len(names)} names, {len(wrong)} wrong')
    return 1 if wrong else 0


if __name__ == '__main__':
    sys.exit(main())
