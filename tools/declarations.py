"""The declarations of antt files: what each is called, its statement, its clauses, and the parameters of the modules that it stands in.

Used by tools/believed.py and tools/wrong_definitions.py."""
import collections
import re

# `kind` is abbrev, unfoldable, record, data, or '' for what has none of these words; `clauses` are the lines that define it, each clause a
# list; `modules` are the heads of the modules around it, from the outermost. A line is (number, text), without comments; the first is 1.
Declaration = collections.namedtuple('Declaration', 'name kind public modules statement clauses')

COMMENT = re.compile(r'(?:^|(?<=\s))--(?:\s.*|-*$)')
OPENS, CLOSES = '({[⌜', ')}]⌝'


def without_texts(text):
    """the same line, with each text in quotes left empty"""
    return re.sub(r'"(?:\\.|[^"\\])*"', '""', text)


def code(text):
    """a line without its comment"""
    bare = re.sub(r'"(?:\\.|[^"\\])*"', lambda found: 'x' * len(found.group()), text)
    found = COMMENT.search(bare)
    return (text[:found.start()] if found else text).rstrip()


def depth_zero(text, words):
    """the first of these words that stands in no bracket, and where; (None, -1) if none does"""
    depth = 0
    bare = re.sub(r'"(?:\\.|[^"\\])*"', lambda found: 'x' * len(found.group()), text)
    for found in re.finditer(r'[(){}\[\]⌜⌝]|(?<=\s)(?:' + '|'.join(map(re.escape, words)) + r')(?=\s|$)', bare):
        if found.group() in OPENS:
            depth += 1
        elif found.group() in CLOSES:
            depth -= 1
        elif depth == 0:
            return found.group(), found.start()
    return None, -1


def indent(text):
    return len(text) - len(text.lstrip())


def items(lines):
    """lines in groups: each begins as far to the left as the first, and has what is indented or closes under it"""
    if not lines:
        return
    margin, group = indent(lines[0][1]), []
    for line in lines:
        if group and indent(line[1]) <= margin and line[1].lstrip()[0] not in CLOSES:
            yield group
            group = []
        group.append(line)
    yield group


HEAD = re.compile(r' *((?:abbrev |unfoldable |pub |record |data )*)([^\s:(){}]+) ')


def declarations(text):
    """those of a file, in its order"""
    lines = [(k, code(line)) for k, line in enumerate(text.split('\n'), 1)]
    return declared_in([line for line in lines if line[1].strip()], ())


def declared_in(lines, modules):
    found = []  # lists, since clauses come after their statement
    fixity = []
    for group in items(lines):
        first = group[0][1].lstrip()
        if re.match(r'(pub )?use |unfolding ', first):
            continue
        if first.startswith('infix'):
            fixity = group
            continue
        if re.match(r'module ', first):
            end = next(k for k, line in enumerate(group) if re.search(r'\bwhere$', line[1]))
            found += declared_in(group[end + 1:], modules + (tuple(group[:end + 1]),))
            continue
        mark, _ = depth_zero(' '.join(line[1] for line in group), (':', '='))
        head = HEAD.match(group[0][1])
        if mark == ':' and head:
            words = head.group(1).split()
            kind = next((word for word in ('record', 'data', 'abbrev', 'unfoldable') if word in words), '')
            found.append(Declaration(head.group(2), kind, 'pub' in words, modules, fixity + group, []))
            fixity = []
        elif found:
            own = [one for one in found if one.name == first.split(' ')[0] and one.modules == modules]
            (own or found)[-1].clauses.append(group)
    return found
