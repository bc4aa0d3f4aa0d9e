#!/usr/bin/env python3
"""Brings the names of this repository's own definitions and lemmas to one spelling: words in snake case. It was run once, at the top of the repository, right after the
toolchain's own port.py, and is kept so that the older text can be turned again and compared.

usage: tools/respell.py [FOLDER]      FOLDER: a checkout (default: the current folder)

Which name got which is in respelled.tsv, beside this file. Where that is there it is taken; where not it is made, from the names that FOLDER declares.

- A name that a file of specs/ or proofs/ declares and that has a dash or a capital inside, as `readLine` or `read-next`, gets underscores: `read_line`, `read_next`.
- Where a lemma's name would meet that of a definition or of another lemma in one file, the lemma's gets `_lem` behind it.
- The crate `log` is `boxlog`, since the library has a crate of the older name.
Types, modules, names of src/ and names of the library stay, and so do strings, inputs, outputs and exported names.
"""

import collections
import os
import re
import sys

NAME = r'[^\s(){}.;,@"«»]+'
WORD = re.compile(NAME)
DECLARED = re.compile(rf"(?m)^ *(?:(?:pub|abbrev|unfoldable|data|record) )*({NAME}(?: {NAME})*?)(?: (?:\{{[^{{}}\n]*\}}|\([^\n]*?\)))* :(?= |$)")
USE = re.compile(r"(?m)^\s*(?:pub )?(?:ghost )?use ([^\s;{]+?)\.?(\{[^}]*\})?(?: as ([^\s;]+))?;?\s*$")
ALIAS = re.compile(rf"({NAME}) as ({NAME})")
CRATES = {"log": "boxlog"}


def is_respelled(name):
    return bool(re.search(r"[a-z0-9][A-Z]|[a-z0-9']-", name)) and not name[0].isupper()


def in_snake_case(name):
    return re.sub(r"(?<=[a-z0-9])[A-Z]", lambda m: "_" + m[0].lower(), name).replace("-", "_")


def files(top, kinds):
    for folder, dirs, names in os.walk(os.path.join(top, "crates")):
        dirs[:] = sorted(d for d in dirs if d != "out")
        for name in sorted(names):
            if name.endswith(kinds):
                yield os.path.join(folder, name)


def read(path):
    with open(path, encoding="utf-8") as f:
        return f.read()


def code_of(path, text):
    """The text without comments and strings."""
    text = re.sub(r'"(?:[^"\\\n]|\\.)*"', '""', text)
    return re.sub(r"--[^\n]*" if path.endswith(".antt") else r"//[^\n]*", "", text)


def is_walk(path):
    return os.path.basename(path) == "Proof.antt"


def brought(code):
    """The names that a file has from the library and not from this repository."""
    out = set()
    for path, items, alias in USE.findall(code):
        own = path.startswith("Rattle.") and not path.startswith("Rattle.std.")
        if not own:
            out.update(it.split(" as ")[0].strip() for it in items.strip("{}").split(","))
    return out


def table(top):
    """Which name gets which."""
    declared, tokens, theirs = set(), {}, {}
    for path in files(top, (".antt",)):
        if is_walk(path):
            continue
        code = code_of(path, read(path))
        tokens[path], theirs[path] = set(WORD.findall(code)), brought(code)
        for m in DECLARED.finditer(code):
            declared.update(m[1].split())
        declared.update(b for a, b in ALIAS.findall(code))
    for path in files(top, (".rt",)):
        declared.update(b for a, b in ALIAS.findall(" ".join(re.findall(r"ghost use [^;]*;", read(path)))))
    parts = {p for name in declared if "◌" in name for p in name.split("◌") if p}
    names = {n for n in declared | parts if is_respelled(n) and "◌" not in n}
    to = {n: in_snake_case(n) for n in names}
    lemmas = set()
    for path, have in tokens.items():
        met = collections.defaultdict(set)
        for it in have:
            met[it if it in theirs[path] else to.get(it, it)].add(it)
        for new, olds in met.items():
            if len(olds) > 1:
                camel = [o for o in olds if re.search("[a-z0-9][A-Z]", o)]
                dashed = [o for o in olds if "-" in o and o in to]
                keep = camel[0] if camel else min(o for o in olds if o not in dashed)
                lemmas.update(o for o in olds if o != keep)
    for it in lemmas:
        to[it] = in_snake_case(it) + "_lem"
    return to


MADE = re.compile(rf"(?<![^\s(){{}};,@])(?:c|tie|lts|goal|w)(?:\.{NAME})+")


def turned_code(text, to, stay=(), walk=False):
    """In a function's proof a label that Rattle makes, as `c.number-in`, stays."""
    made = [m.span() for m in MADE.finditer(text)] if walk else []

    def one(m):
        word = m[0]
        if word in stay or "-" in word and any(a <= m.start() < b for a, b in made):
            return word
        if word in to:
            return to[word]
        if "◌" in word and word not in stay:
            return "◌".join(to.get(p, p) for p in word.split("◌"))
        bare = word.rstrip("'")
        if bare != word and bare in to and bare not in stay:
            return to[bare] + word[len(bare):]
        return word

    return WORD.sub(one, text)


def turned_comment(text, to):
    def span(m):
        return re.sub(r"[^\s(){}.;,@\"«»`/:!]+", lambda w: to.get(w[0], w[0]), m[0])

    text = re.sub(r"`[^`\n]*`", span, text)
    camel = {k: v for k, v in to.items() if re.search("[a-z0-9][A-Z]", k)}
    return re.sub(r"[A-Za-z0-9]+", lambda w: camel.get(w[0], w[0]), text)


def turned(path, text, to):
    stay = brought(code_of(path, text))
    if path.endswith(".rt"):
        # names of src/ stay: only a name that Rust cannot have is turned there
        to = {k: v for k, v in to.items() if re.search("[a-z0-9][A-Z]|-", k)}
    mark = "--" if path.endswith(".antt") else "//"
    out, at = [], 0
    for m in re.finditer(rf'"(?:[^"\\\n]|\\.)*"|{mark}[^\n]*', text):
        out.append(turned_code(text[at : m.start()], to, stay, is_walk(path)))
        out.append(m[0] if m[0][0] == '"' else turned_comment(m[0], to))
        at = m.end()
    out.append(turned_code(text[at:], to, stay, is_walk(path)))
    return "".join(out)


def with_crates(path, text):
    for old, new in CRATES.items():
        text = re.sub(rf"\bRattle\.{old}\.", f"Rattle.{new}.", text)
        if path.endswith(".rt"):
            text = re.sub(rf"(?<![\w.]){old}::", f"{new}::", text)
            text = re.sub(rf"`{old}::", f"`{new}::", text)
    return text


def main():
    top = sys.argv[1] if len(sys.argv) > 1 else "."
    known = os.path.join(os.path.dirname(os.path.realpath(__file__)), "respelled.tsv")
    if os.path.exists(known):
        to = dict(it.split("\t") for it in read(known).splitlines())
    else:
        to = table(top)
    for path in list(files(top, (".antt", ".rt"))):
        text = read(path)
        new = with_crates(path, turned(path, text, to))
        if new != text:
            with open(path, "w", encoding="utf-8") as f:
                f.write(new)
    for old, new in CRATES.items():
        os.rename(os.path.join(top, "crates", old), os.path.join(top, "crates", new))
        at = os.path.join(top, "crates.txt")
        lines = read(at).splitlines()
        lines = [it if it.startswith("#") else re.sub(rf"\b{old}\b", new, it) for it in lines]
        with open(at, "w", encoding="utf-8") as f:
            f.write("\n".join(lines) + "\n")
    if not os.path.exists(known):
        with open(known, "w", encoding="utf-8") as f:
            for old in sorted(to):
                f.write(f"{old}\t{to[old]}\n")


main()
