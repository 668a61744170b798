#!/usr/bin/env python3
"""Lists the places that docs/DESIGN-PASS.md counts: forms of src/ that today's Rattle says more plainly.

    tools/design_places.py           how many of each kind, by crate
    tools/design_places.py --list    each place, as FILE:LINE: TEXT

What a pattern can't tell, a reader has to: the page says which of these places stay, and why."""
import collections
import glob
import re
import sys

FUNCTION = re.compile(r'^ *(?:pub(?:\(crate\))? )?(?:extern "C" )?fn (\w+)(?:<[^>]*>)?\(', re.M)
WORD = re.compile(r"[A-Za-z_]\w*|\d[\w.]*|[^\s\w]")
SIZED = {'u8', 'u16', 'u32', 'u64', 'usize'}


class Function:
    """A function of src/: where it stands, its parameters, its signature and its body."""

    def __init__(self, path, text, found):
        self.path, self.name = path, found.group(1)
        self.line = text.count('\n', 0, found.start(1)) + 1
        end = closing(text, found.end() - 1, '()')
        self.parameters = [p.split(':')[0].replace('mut ', '').strip() for p in split(text[found.end():end])]
        start = body_start(text, end)
        self.signature = text[found.start():end + 1]
        self.result = re.match(r'\)\s*(?:->\s*([^\n{]+))?', text[end:]).group(1) or ''
        self.body = text[start:closing(text, start, '{}') + 1] if start >= 0 else ''


def closing(text, at, pair):
    depth = 0
    for i in range(at, len(text)):
        depth += (text[i] == pair[0]) - (text[i] == pair[1])
        if depth == 0:
            return i
    return len(text) - 1


def split(parameters):
    return [p for p in re.split(r',(?![^<(\[]*[>)\]])', parameters) if ':' in p]


def body_start(text, at):
    """Where the body's brace stands: past the clauses, each of which has braces of its own."""
    i = at
    while i < len(text):
        brace = text.find('{', i)
        if brace < 0:
            return -1
        before = text[i:brace]
        if not re.search(r'\b(requires|ensures)\b', before):
            return -1 if ';' in before else brace
        i = closing(text, brace, '{}') + 1
    return -1


def sources():
    for path in sorted(glob.glob('crates/*/src/*.rt')):
        yield path, open(path).read()


def functions():
    for path, text in sources():
        for found in FUNCTION.finditer(text):
            yield Function(path, text, found)


def lines(pattern, among=lambda path: True):
    kind = re.compile(pattern)
    for path, text in sources():
        for number, line in enumerate(text.split('\n'), 1):
            if kind.search(line) and among(path) and not line.strip().startswith('//'):
                yield f'{path}:{number}: {line.strip()}'


def own_options():
    """Enums of which one case holds a value and another holds nothing."""
    for path, text in sources():
        for found in re.finditer(r'^(?:pub )?enum (\w+) \{(.*?)^\}', text, re.M | re.S):
            cases = re.findall(r'^    (\w+)(\(.*\))?,', found.group(2), re.M)
            if len(cases) <= 6 and any(c[1] for c in cases) and not all(c[1] for c in cases):
                yield f'{path}:{text.count(chr(10), 0, found.start()) + 1}: enum {found.group(1)}'


def numbers_for_cases():
    """Returns of a number or a constant, where the result is a number."""
    for f in functions():
        if f.result.strip() in SIZED:
            for m in re.finditer(r'return (\d+|[A-Z_]+( \+ 1)?);', f.body):
                yield f'{f.path}:{f.line}: {f.name}: {m.group(0)}'


def twins():
    """Groups of functions whose bodies and parameters differ only in types, numbers and names of functions of the group."""
    groups = collections.defaultdict(list)
    for f in functions():
        words = WORD.findall(re.sub(r'//.*', '', f.body))
        if len(words) < 8:
            continue
        shape = ' '.join('T' if w in SIZED else '0' if w[0].isdigit() else w for w in words)
        for i, p in enumerate(f.parameters):
            shape = re.sub(rf'\b{p}\b', f'p{i}', shape)
        shape = re.sub(r"b ' . '|b \" [^\"]* \"", 'text', shape)
        groups[(len(f.parameters), shape)].append(f)
    for fs in groups.values():
        if len(fs) > 1:
            yield from (f'{f.path}:{f.line}: {f.name} ({len(fs)} alike)' for f in fs)


def conversions():
    """Functions whose body is one `as`, or an `if` that gives the smaller or the larger."""
    one = re.compile(r'\{\s*[\w.()% ]+ as \w+\s*\}$')
    pick = re.compile(r'\{\s*if (\w+) < (\w+) \{ (\1|\2) \} else \{ (\1|\2) \}\s*\}$')
    for f in functions():
        if one.match(f.body) or pick.match(f.body):
            yield f'{f.path}:{f.line}: {f.name}'


def full_matches():
    """Matches that list the cases of an enum to give the same for most."""
    for f in functions():
        arms = re.findall(r'=> (false|true|0),', f.body)
        if len(arms) > 3:
            yield f'{f.path}:{f.line}: {f.name}'


def long_parameters():
    for f in functions():
        if len(f.parameters) > 6:
            yield f'{f.path}:{f.line}: {f.name} ({len(f.parameters)})'


def together(*names):
    def found():
        for f in functions():
            if set(names) <= set(f.parameters):
                yield f'{f.path}:{f.line}: {f.name}'
    return found


KINDS = [
    ('1 own enums like Option or Result', own_options),
    ('1 a flag beside a value', lambda: lines(r'^\s+(pub )?\w+: bool,$')),
    ('1 a number for a case', numbers_for_cases),
    ('2 functions that differ in types and numbers alone', twins),
    ('3 while', lambda: lines(r'^\s*while ')),
    ('3 for over numbers', lambda: lines(r'^\s*for \w+ in [^{]*\.\.')),
    ('4 a conversion, a smaller or a larger by hand', conversions),
    ('4 a match that lists every case', full_matches),
    ('5 more than six parameters', long_parameters),
    ('5 code, consts, posts, hashes', together('consts', 'posts')),
    ('5 context_kinds, context_values', together('context_kinds', 'context_values')),
    ('5 stack, loops, handlers', together('stack', 'loops', 'handlers')),
    ('6 page, used', together('page', 'used')),
    ('6 kinds, values', together('kinds', 'values')),
    ('6 numbers, given', together('numbers', 'given')),
    ('7 a step or a text by number', lambda: lines(r'^\s+\d+ => .*\(')),
]


def main():
    for name, find in KINDS:
        places = list(find())
        by_crate = collections.Counter(p.split('/')[1] for p in places)
        print(f'{name}: {len(places)}' + ''.join(f'; {c} {n}' for c, n in sorted(by_crate.items())))
        if '--list' in sys.argv:
            print(''.join(f'    {p}\n' for p in places), end='')


main()
