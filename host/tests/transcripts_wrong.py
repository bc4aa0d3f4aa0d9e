"""transcripts_wrong.py: pages for transcripts.py to try itself on, in a small repository: in each wrong one its fault must be found, and in
the right one none."""
import os
import tempfile

RIGHT = r"""
Blocks without a command are not run:

    rm -r docs

Others are:

    $ false || echo 'one line'
    one line
    $ printf '%s\n' two \
        'li nes'
    two
    li nes
    $ printf 'an\n\nempty line\n'
    an

    empty line
    $ word=kept; cd docs; pwd | sed 's/.*\///'; cd ..; echo x >made
    docs

Another block, and standard error:

    $ echo $word; cat made missing; echo $?
    kept
    x
    cat: missing: No such file or directory
    1
    $ mkfifo pipe; (while read -r said <pipe; do [ "$said" != end ] || exit; sleep 0.5; echo "heard $said"; done) &
    $ echo one >pipe
    heard one
    $ echo end >pipe
    $ cat
    $ wc -c <docs/kept
    5
"""

# What the page shows, and what has to be said of it.
WRONG = {
    "altered": ("    $ echo one\n    two\n", "    two\n  printed:\n    one"),
    "missing": ("    $ echo one\n    one\n    two\n", "  shown:\n    one\n    two\n  printed:\n    one"),
    "missing at all": ("    $ true\n    one\n", "  printed:\n    (nothing)"),
    "extra": ("    $ echo one; echo two\n    one\n", "  shown:\n    one\n  printed:\n    one\n    two"),
    "extra behind nothing": ("    $ echo one\n", "  shown:\n    (nothing)\n  printed:\n    one"),
    "trailing blank": ("    $ echo 'one '\n    one\n", "  printed:\n    one "),
    "no end of line": ("    $ printf one\n    one\n", "ends of lines: 'one'"),
    "carriage return": ("    $ printf 'one\\r\\n'\n    one\n", "ends of lines: 'one\\r\\n'"),
    "standard error": ("    $ echo one >&2\n", "  printed:\n    one"),
    "fails": ("    $ false\n", "status 1, not 0"),
    "fails in a pipe": ("    $ false | cat\n", "status 1, not 0"),
    "no such command": ("    $ no-such-command\n", "status 127, not 0"),
    "not a command": ("    $ echo 'one\n", "unexpected EOF"),
    "ends the shell": ("    $ echo one\n    one\n    $ exit 3\n    $ echo\n", "line 3: $ exit 3\n  it did not end, or it ended the shell"),
    "late": ("    $ (sleep 3; echo one) &\n    $ true\n", "printed behind the last command: one"),
    "late and altered": ("    $ (sleep 0.5; echo one) &\n    two\n", "  shown:\n    two\n  printed:\n    one"),
    "left process": ("    $ sleep 617 &\n", "left running: sleep 617"),
    "left file": ("    $ echo x >docs/left\n", "left in the tree, altered or removed: docs/left"),
    "altered file": ("    $ echo 5678 >docs/kept\n", "left in the tree, altered or removed: docs/kept"),
    "removed file": ("    $ rm docs/kept\n", "left in the tree, altered or removed: docs/kept"),
    "left folder": ("    $ mkdir docs/left\n", "left in the tree, altered or removed: docs/left"),
    "not indented": ("$ true\n", "line 1: a command that is not indented"),
    "in a fence": ("```\n$ true\n```\n", "line 2: a command that is not indented"),
    "too long": ("line\n" * 150, "it has 150 lines or more"),
    "output first": ("    one\n    $ true\n", "line 1: a transcript that does not begin with a command"),
}

PAGE = """# tool

It is a program of version 0.1 or later. It has a
page.

## How to call it

## Input

## Output

## Refusals

## Example

    $ true

## What is proved of it
"""

WRONG_PAGES = {
    "another title": (PAGE.replace("# tool", "# other"), "does not begin with '# tool'"),
    "one sentence": (PAGE.replace(" It has a\npage.", ""), "a paragraph of two sentences"),
    "three sentences": (PAGE.replace("page.", "page. It is 0.1 s long."), "a paragraph of two sentences"),
    "no empty line": (PAGE.replace("# tool\n\n", "# tool\n"), "does not begin with '# tool'"),
    "a heading less": (PAGE.replace("## Refusals\n\n", ""), "its headings are not"),
    "another order": (PAGE.replace("## Input\n\n## Output", "## Output\n\n## Input"), "its headings are not"),
    "no transcript": (PAGE.replace("    $ true\n\n", ""), "it has no transcript"),
}


def tried(faults_of, page, files):
    """The faults of a page in a repository that has these files and one more."""
    with tempfile.TemporaryDirectory() as top:
        for name, content in {"docs/kept": "1234\n", **files}.items():
            os.makedirs(os.path.dirname(os.path.join(top, name)), exist_ok=True)
            with open(os.path.join(top, name), "w") as file:
                file.write(content)
        return "\n".join(faults_of(top, page)[0])


def missed(faults_of):
    """Whether a fault was not found, or one was found where there is none; each such is told."""
    tool, program = "docs/programs/tool.md", {"crates/tool/src/main.rt": ""}
    cases = [("right", "README.md", {"README.md": RIGHT}, ""),
             ("right page", tool, {tool: PAGE}, ""),
             ("right row", "README.md", {"README.md": tool, **program}, ""),
             ("no row", "README.md", {"README.md": "", **program}, "it does not name " + tool),
             ("no page", tool, program, "there is no such page")]
    cases += [(name, "README.md", {"README.md": text}, said) for name, (text, said) in WRONG.items()]
    cases += [(name, tool, {tool: text}, said) for name, (text, said) in WRONG_PAGES.items()]
    count = 0
    for name, page, files, said in cases:
        got = tried(faults_of, page, files)
        if (said not in got) if said else got:
            count += 1
            print(f"{name}: not found: {said!r} in what was said:\n{got}" if said else f"{name}: a fault that is none:\n{got}")
    print(f"{len(cases)} pages, {count} missed")
    return count != 0
