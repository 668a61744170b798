#!/usr/bin/env python3
"""Asks that what is said to be proved stands on contracts.

    tools/check_laws.py

`rt ci` proves functions: a theorem that no function's contract names may be weakened, or vanish with its file, and no proof fails. So
this fails where
- docs/PROMISES.md names in `..` what is neither a public function with an `ensures` (`crate::function`), nor a definition that the
  contract of one names, itself or through other definitions, nor begins with a path of the repository;
- a function of src/laws.rt is not public, or is not named in docs/PROMISES.md; or one with an empty body requires something, or has
  another number of clauses than of lemmas that its `using` names;
- a definition of specs/ states something, and no function's contract and no type's invariant names it;
- a file of lemmas, or a public lemma, is cited by no function's proof, neither itself nor through other lemmas.

A definition states something where it is of `Type 0`. Names are read off the text, by the imports of each file: what they mean is the
prover's to say.
"""

import re
import sys
from pathlib import Path

import crates
import sources

ROOT = Path(__file__).resolve().parent.parent
PROMISES = ROOT / "docs" / "PROMISES.md"
WORD = re.compile(r"[^\s(){}\[\],;λ]+")
USE = re.compile(r"^\s*(?:pub )?(?:ghost )?use Rattle\.(\w+)\.(specs|proofs)\.([\w.+-]+?)\.\{([^}]*)\}", re.M)
TACTIC = re.compile(r"\b(?:crate|(\w+))::(specs|proofs)::([\w:]+)::([\w-]+)")
# What begins a line of a file of definitions or lemmas and is no declaration.
NO_DECLARATION = re.compile(r"(pub )?(use|mod|infix\w*|open|where)\b")
KINDS = {"pub", "abbrev", "unfoldable", "record", "data", "mutual", "ruleset"}
# The lines of a declaration that say its type, and one that says something.
HEAD = re.compile(r".*\n(?:\s*→.*\n)*")
STATES = re.compile(r"(?:\brecord\b|:)[^=]*\bType 0\s*(?:where\s*)?$")
# What a type promises of its values.
INVARIANT = re.compile(r"^\s+ghost invariant = .*", re.M)
# The files that hold a function's proof; the others of proofs/ hold lemmas.
OF_FUNCTION = {"Answers.antt", "Invariants.antt", "Proof.antt"}


def imports(text):
    """What each imported name stands for: (crate, part, module, name)."""
    found = {}
    for crate, part, module, items in USE.findall(text):
        for item in filter(None, (item.strip() for item in items.split(","))):
            name, _, local = item.partition(" as ")
            found[(local or name).strip()] = (crate, part, module, name.strip())
    return found


def named(text, known):
    """What a text names of what is known."""
    words = set(WORD.findall(text))
    return {known[name] for word in words for name in (word, word.rstrip("."), word.split(".")[0]) if name in known}


def members(text):
    """What a file declares, by name, with its text: also within a module, whose members stand two columns to the right of it. What a
    module's head names counts as named by the member before it."""
    bodies, current, columns = {}, None, [0]
    for line in filter(str.strip, text.splitlines()):
        column = len(line) - len(line.lstrip())
        while column < columns[-1]:
            columns.pop()
        if column == columns[-1]:
            line = line.strip()
            if line.startswith("module "):
                columns.append(column + 2)
            elif not line.startswith("unfolding "):
                words = [word for word in line.split() if word not in KINDS]
                current = None if NO_DECLARATION.match(line) or not words else words[0].rstrip(":")
        if current:
            bodies[current] = bodies.get(current, "") + line + "\n"
    return bodies


class Texts:
    """All files of definitions and lemmas: what each declaration names, and which are public, which state something."""

    def __init__(self):
        self.names, self.public, self.states, self.of_function = {}, set(), set(), set()
        for crate in crates.lines():
            for part in ("specs", "proofs"):
                base = ROOT / "crates" / crate / part
                for path in sorted(base.rglob("*.antt")):
                    self.read(path, (crate, part, ".".join(path.relative_to(base).with_suffix("").parts)))

    def read(self, path, here):
        text = re.sub(r"^--.*$|(?<=\s)-- .*$", "", path.read_text(), flags=re.M)
        bodies = members(text)
        known = imports(text) | {name: (*here, name) for name in bodies}
        for name, body in bodies.items():
            full = (*here, name)
            self.names[full] = named(body, known) - {full}
            head = HEAD.match(body)[0]
            if "pub" in head.split():
                self.public.add(full)
                if STATES.search(head):
                    self.states.add(full)
        if path.name in OF_FUNCTION:
            self.of_function |= {(*here, name) for name in bodies}


def closure(roots, edges):
    seen, left = set(), list(roots)
    while left:
        one = left.pop()
        if one not in seen:
            seen.add(one)
            left += edges.get(one, ())
    return seen


def on_contracts(functions, texts):
    """The definitions that the contracts of these functions name."""
    of_specs = {one: {other for other in names if other[1] == "specs"} for one, names in texts.names.items() if one[1] == "specs"}
    said = {name for one in functions for text in [one.contract, *INVARIANT.findall(one.text)] for name in named(text, imports(one.text))}
    return closure({name for name in said if name[1] == "specs"}, of_specs)


def cited_by_proofs(functions, texts):
    """The lemmas that some function's proof cites."""
    by_tactic = set()
    for one in functions:
        for crate, part, module, name in TACTIC.findall(one.text):
            by_tactic.add((crate or one.crate, part, module.replace("::", "."), name))
    return closure(by_tactic | texts.of_function, texts.names)


def faults_of_laws(functions, names):
    """What is wrong with the laws, and with the functions that stand beside them."""
    for one in (one for one in functions if one.path.startswith("laws::")):
        where = f"crates/{one.crate}/src/laws.rt: {one.path.removeprefix('laws::')}"
        using = re.search(r"using\(([^)]*)\)", one.attributes)
        if not one.public:
            yield f"{where} is not public"
        if one.idle and re.search(r"^\s*requires\b", one.contract, re.M):
            yield f"{where} requires something"
        if one.idle and using and len(using[1].split(",")) != len(re.findall(r"^\s*ensures\b", one.contract, re.M)):
            yield f"{where} has another number of clauses than of lemmas"
        if one.name not in names:
            yield f"{where} is not named in docs/PROMISES.md"


def promised():
    """The names of docs/PROMISES.md, each with its line."""
    for number, line in enumerate(PROMISES.read_text().splitlines(), 1):
        for name in re.findall(r"`([^`]+)`", line):
            yield number, name


def faults_of_promises(functions, texts):
    """The names of the page of promises that no public contract keeps."""
    kept = {one.name for one in functions if one.public and one.promises}
    kept |= {name for _, _, _, name in on_contracts((one for one in functions if one.public), texts)}
    for number, name in promised():
        if name not in kept and not (ROOT / name.split()[0]).exists():
            yield f"docs/PROMISES.md:{number}: `{name}` is on no public contract"


def faults_of_statements(functions, texts):
    """The statements that no contract names."""
    for crate, part, module, name in sorted(texts.states - on_contracts(functions, texts)):
        if part == "specs":
            yield f"crates/{crate}/specs/{module}.antt: {name} is stated, and no contract names it"


def faults_of_lemmas(functions, texts):
    """The files of lemmas, and the public lemmas of other files, that no function's proof reaches."""
    cited = cited_by_proofs(functions, texts)
    lemmas = {one for one in texts.names if one[1] == "proofs" and one not in texts.of_function}
    lost = {one[:3] for one in lemmas} - {one[:3] for one in cited}
    for crate, _, module in sorted(lost):
        yield f"crates/{crate}/proofs/{module}.antt is reached by no function's proof"
    for one in sorted(texts.public & lemmas - cited):
        if one[:3] not in lost:
            yield f"crates/{one[0]}/proofs/{one[2]}.antt: {one[3]} is cited by no function's proof"


def main():
    functions = [one for crate in crates.lines() for one in sources.functions_of(crate).values()]
    texts = Texts()
    faults = [
        *faults_of_promises(functions, texts),
        *faults_of_laws(functions, {name for _, name in promised()}),
        *faults_of_statements(functions, texts),
        *faults_of_lemmas(functions, texts),
    ]
    laws = sum(one.path.startswith("laws::") for one in functions)
    print(f"{laws} laws and {len(texts.states)} statements on contracts, {len(faults)} faults")
    print(*faults, sep="\n", end="\n" if faults else "")
    sys.exit(bool(faults))


if __name__ == "__main__":
    main()
