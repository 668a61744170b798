#!/usr/bin/env python3
"""Spells the definitions and lemmas of specs/ and proofs/ as today's library spells its own: words in snake case, and a dash only
where it joins the names of two definitions. Types, facts and modules keep their capitals, and no name of src/ changes.

usage: tools/port_names.py          once, after port.py
       tools/port_names.py --list   the names that change, old and new, and what they would meet
"""

import collections
import glob
import re
import sys

DECLARED = re.compile(r"(?m)^( *)((?:(?:pub|abbrev|unfoldable|package)\s+)*)(record\s+|data\s+)?([^\s(){}.;,@\"«»:]+)((?: (?:\{[^{}\n]*\}|\([^()\n]*\)))*) :(?= )")
WORD = re.compile(r"[^\s(){}.;,@\"«»⌜⌝`]+")
# The words of the library that a dash joins: operations, orders, constructors and what holds of lists.
LIBRARY = set(
    "add mul sub div mod rem pow lt le gt ge eq ne and or cond take drop get set map length append replicate reverse suc zero nan"
    " inf fin pos size ltb leb eqb nil cons round fold sum".split()
)


def globals_of():
    return sorted(glob.glob("crates/*/specs/*.antt") + glob.glob("crates/*/proofs/*.antt"))


def read(path):
    with open(path, encoding="utf-8") as file:
        return file.read()


def declared(text):
    return [(len(m.group(1)), m.group(4)) for m in DECLARED.finditer(text)]


def snake(name):
    return re.sub(r"(?<=[a-z0-9])([A-Z])", lambda m: "_" + m.group(1).lower(), name)


# Definitions whose plain spelling is a field of the Rust that the same text names: crate, name, new name.
OF_FIELDS = {
    ("nimbohaza", "stepLimit"): "step_limit_of",
    ("nimbohaza", "loopLimit"): "loop_limit_of",
    ("pops", "emptyPops"): "empty_pops_of",
}


def is_value(name):
    return name[0].islower() or name[0] == "_"


def spelled(name, known):
    """The new spelling of a value's name: no capital inside a word, and no dash but between two names."""
    parts = [snake(p) if is_value(p) else p for p in name.split("-")]
    out = parts[0]
    for i in range(1, len(parts)):
        before = {"_".join(parts[j:i]) for j in range(i)}
        behind = {"_".join(parts[i:j]) for j in range(i + 1, len(parts) + 1)}
        whole = {f"{b}_{a}" for b in before for a in behind} & known
        joins = (before & known and behind & known and not whole) or not parts[i][:1].isalpha() or not is_value(parts[i]) or not is_value(parts[i - 1])
        out += ("-" if joins else "_") + parts[i]
    return out


def renaming():
    texts = {p: read(p) for p in globals_of()}
    known = set(LIBRARY)
    names = set()
    for path, text in texts.items():
        for indent, name in declared(text):
            names.add(name)
            if "/specs/" in path and indent == 0 and is_value(name):
                known.add(snake(name))
    change = {n: spelled(n, known) for n in sorted(names) if is_value(n) and spelled(n, known) != n}
    # a lemma that would have a definition's name
    taken = {snake(n) for n in names if "-" not in n}
    for old in change:
        if "-" in old and change[old] in taken:
            change[old] += "_lem"
    return change, names


def meets(change, names):
    """Names that fall together: with one another, or with a word that a file has already."""
    said = []
    back = collections.defaultdict(list)
    for old, new in change.items():
        back[new].append(old)
    for new, olds in back.items():
        if len(olds) > 1 or new in names - set(change):
            said.append(f"{' '.join(olds)} -> {new}")
    for path in sorted(glob.glob("crates/*/specs/*.antt") + glob.glob("crates/*/proofs/**/*.antt", recursive=True) + glob.glob("crates/*/src/**/*.rt", recursive=True)):
        words = set(WORD.findall(re.sub(r"(?m)^\s*(--|//).*$", "", read(path))))
        for old in words & set(change):
            if change[old] in words:
                said.append(f"{path}: {old} -> {change[old]}, which stands there")
    return said


def replaced(path, text, change):
    crate = path.split("/")[1]

    def word(m):
        behind_dot = m.start() > 0 and text[m.start() - 1] == "."
        if not behind_dot and (crate, m.group(0)) in OF_FIELDS:
            return OF_FIELDS[crate, m.group(0)]
        return change.get(m.group(0), m.group(0))

    return WORD.sub(word, text)


def turn(path, change):
    text = read(path)
    new = replaced(path, text, change)
    if new != text:
        with open(path, "w", encoding="utf-8") as file:
            file.write(new)


def main():
    change, names = renaming()
    if sys.argv[1:] == ["--list"]:
        for old, new in change.items():
            print(old, new)
        for line in meets(change, names):
            print("meets:", line)
        return
    for pattern in ["crates/*/specs/*.antt", "crates/*/proofs/**/*.antt", "crates/*/src/**/*.rt"]:
        for path in sorted(glob.glob(pattern, recursive=True)):
            turn(path, change)


main()
