#!/usr/bin/env python3
"""Writes docs/MUST_FAIL.md from the edits of every crate, with the public functions that have no wrong answer.

    tools/must_fail_doc.py           write the document
    tools/must_fail_doc.py --check   say whether it is what would be written

tools/edits.py says how an edit is written. A function is named by its path in the crate, or by the end of that.
"""
import re
import sys
from pathlib import Path

import edits
import repeatable
from crates import below, lines
from sources import functions_of

ROOT = Path(__file__).resolve().parent.parent
DOCUMENT = ROOT / "docs" / "MUST_FAIL.md"
TEMPLATE = Path(__file__).resolve().parent / "must_fail.md"

# What the library stands on, and what the programs do.
COVERED = ["nimbohaza", "print", "report"]

# Slips that a port of this machine is likely to make, and evaluators that would be worth nothing, each with words of the wrong answer
# that stands for it.
STAND_FOR = [
    ("a fused multiply-add", "rounded once"),
    ("an identity shortcut in Mod", "remainder unchanged under an identity post"),
    ("loop limit 0 running no pass", "limit 0 runs no pass"),
    ("NaN leaving a loop", "NaN leaves a loop"),
    ("+0.0 from negating +0.0", "negation of [+]0.0 is [+]0.0"),
    ("runs record 0, skips the rest, says done", "the rest skipped, and the run is done"),
    ("true values, invented charges", "charges are invented"),
    ('says "stopped for steps" before acting', "stopped for steps before a record acts"),
    ("one account for all", "one account for all"),
    ("touches nothing", "nothing is stored"),
    ("refuses every file", "every file is sent back"),
]


def facts_text(facts):
    """Facts by function: '`f` returns, returns-2; `g` returns'."""
    by_function = {}
    for fact in facts:
        function, name = fact.split(" ")
        by_function.setdefault(function, []).append(name)
    return "; ".join(f"`{function}` {', '.join(names)}" for function, names in by_function.items())


def row(wrong):
    functions = ", ".join(f"`{name}`" for name in wrong.names)
    words = wrong.words.replace("|", "\\|")
    return f"| {functions} | {words} | {facts_text(wrong.facts)} |"


def tables(wrongs):
    for crate in lines():
        own = [wrong for wrong in wrongs if wrong.crate == crate]
        if own:
            count = len({wrong.edit for wrong in own})
            yield f"\n## {crate}\n\n{len(own)} wrong answers, in {count} {'edit' if count == 1 else 'edits'}.\n"
            yield "| Function | Wrong answer | Facts that fail |\n|---|---|---|"
            yield from map(row, own)


def standing_for(wrongs):
    yield "| Slip, or worthless evaluator | Wrong answer that stands for it |\n|---|---|"
    for what, words in STAND_FOR:
        found = dict.fromkeys(f"{w.crate}, {w.edit}: {', '.join(f'`{name}`' for name in w.names)}" for w in wrongs if re.search(words, w.words, re.IGNORECASE))
        if not found:
            sys.exit(f"no edit says '{words}', for: {what}")
        yield f"| {what} | {'; '.join(found)} |"


def paths_of(wrong, functions):
    """The paths of the functions that a wrong answer is of."""
    for name in wrong.names:
        paths = [path for path in functions if path == name or path.endswith(f"::{name}")]
        exact = [path for path in paths if path == name] or paths
        if len(exact) != 1:
            sys.exit(f"{wrong.crate}/{wrong.edit}: '# wrong: {name}' names {len(exact)} functions of the crate")
        yield exact[0]


def without(wrongs):
    """The public functions that do something: those that promise something and have no wrong answer, and those that promise nothing."""
    for crate in (name for name in lines() if name in below(*COVERED)):
        functions = functions_of(crate)
        have = {path for wrong in wrongs if wrong.crate == crate for path in paths_of(wrong, functions)}
        public = [one for one in functions.values() if one.public and not one.idle]
        none = [f"`{one.path}`" for one in public if one.promises and one.path not in have]
        nothing = [f"`{one.path}`" for one in public if not one.promises]
        if none:
            yield f"- {crate}, without a wrong answer: {', '.join(none)}"
        if nothing:
            yield f"- {crate}, without a promise: {', '.join(nothing)}"


def main():
    every = edits.all_edits()
    wrongs = [wrong for edit in every for wrong in edits.wrongs_of(edit)]
    parts = {
        "TABLES": tables(wrongs),
        "STANDING": standing_for(wrongs),
        "WITHOUT": list(without(wrongs)) or ["None."],
    }
    text = TEMPLATE.read_text()
    for name, rows in parts.items():
        text = text.replace(f"<{name}>\n", "\n".join(rows) + "\n")
    print(len(every), "edits,", len(wrongs), "wrong answers")
    repeatable.write({DOCUMENT: text.encode()})


if __name__ == "__main__":
    main()
