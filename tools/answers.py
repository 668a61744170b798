#!/usr/bin/env python3
"""Writes the refusals and the outcomes of tools/answers.txt into the files that name them.

    tools/answers.py           write the files
    tools/answers.py --check   say whether the files are what would be written

In each file of FILES a comment with 'tools/answers.py: FORM' starts the lines that are written, and one with
'tools/answers.py: end' ends them; FORMS has what is written for each form.
"""
import re
import textwrap
from pathlib import Path
from typing import NamedTuple

import opcodes
import repeatable

ROOT = Path(__file__).resolve().parent.parent
FILES = ["README.md", "compare/calls.rs", "crates/bench/src/main.rt", "crates/converter/src/main.rt",
         "crates/report/specs/Outcomes.antt", "crates/report/src/outcomes.rt", "crates/vm_vectors/src/tally.rt",
         "include/nimbohaza.h", "rust/src/account.rs", "rust/src/refusal.rs"]
TOOL = "answers.py"
MET_BY = {"file": "a check, a call, the converter", "call": "a call", "check": "a check, a call", "converter": "the converter"}
ROW = re.compile(r"(file|call|check|converter|outcome) (\d+) (\w+) +([^;]+)(?:; (.+))?")


class Answer(NamedTuple):
    sort: str
    number: str
    name: str
    words: str
    meaning: str

    def constant(self):
        """The name as C has it: MissingValue is MISSING_VALUE, Post0 POST_0."""
        return re.sub(r"(?<=[a-z])(?=[A-Z0-9])", "_", self.name).upper()


def read():
    text = (ROOT / "tools" / "answers.txt").read_text().replace("{last opcode}", str(len(opcodes.OPCODES)))
    lines = text.splitlines()
    return [Answer(*ROW.fullmatch(line).groups()) for line in lines if line and not line.startswith("#")]


ANSWERS = read()


def of(*sorts):
    return [a for a in ANSWERS if a.sort in sorts]


CHECK, CALL, CONVERTER = of("file", "check"), of("file", "call", "check"), of("file", "converter")
FILE, REFUSALS, OUTCOMES = of("file", "check", "converter"), of(*MET_BY), of("outcome")


def c_constants(prefix, answers):
    """Constants of C, each behind a comment."""
    for a in answers:
        words = f"{a.words}: {a.meaning}" if a.meaning else a.words
        yield from textwrap.wrap(f"/* {words} */", 96, subsequent_indent="   ")
        yield f"{prefix}{a.constant()} = {a.number},"


def rust_outcomes():
    for a in OUTCOMES:
        field = " { position }" if a.name == "HandedOver" else ""
        yield f'{a.number} {a.name}{field} "{a.words}: {a.meaning}";'


def words_constant(declared):
    yield f"{declared} OUTCOMES: [&str; {len(OUTCOMES)}] = ["
    yield from (f'    "{a.words}",' for a in OUTCOMES)
    yield "];"


def compare_constants():
    yield f"pub const LAST_REFUSAL: usize = {CALL[-1].number};"
    yield from (f"pub const {a.constant()}: u32 = {a.number};" for a in OUTCOMES)
    yield from words_constant("pub const")


def report_arms():
    """An arm a number; the last stands for every other, which no account has."""
    for a in OUTCOMES:
        number = "_" if a is OUTCOMES[-1] else a.number
        yield f'{number} => page.text(b"{a.words}"),'


def report_words():
    """The words in a list, each after the sign that joins it to the one before."""
    for a in OUTCOMES:
        join = "" if a is OUTCOMES[0] else "∷ "
        yield f'{join}text "{a.words}"'


def program_lines(answers):
    """A line of a program's use for each."""
    return (f'put(b"{a.number:>3}  {a.words}\\n");' for a in answers)


def readme_refusals():
    yield from ["| Refusal | Met when | Met by |", "|---|---|---|"]
    yield from (f"| {a.number} | {a.words} | {MET_BY[a.sort]} |" for a in REFUSALS)


def readme_outcomes():
    yield from ["| Outcome | | |", "|---|---|---|"]
    yield from (f"| {a.number} | {a.words} | {a.meaning} |" for a in OUTCOMES)


FORMS = {
    "header_refusals": lambda: c_constants("NIMBOHAZA_REFUSED_", REFUSALS),
    "header_outcomes": lambda: c_constants("NIMBOHAZA_", OUTCOMES),
    "rust_refusals": lambda: (f'{a.number} {a.name} "{a.words}";' for a in FILE),
    "rust_outcomes": rust_outcomes,
    "compare": compare_constants,
    "bench": lambda: program_lines(CHECK),
    "converter": lambda: program_lines(CONVERTER),
    "report": report_arms,
    "report_words": report_words,
    "vectors": lambda: words_constant("const"),
    "readme_refusals": readme_refusals,
    "readme_outcomes": readme_outcomes,
}


def main():
    texts = {ROOT / name: (ROOT / name).read_text() for name in FILES}
    found = [form for text in texts.values() for form in repeatable.mark(TOOL).findall(text) if form != "end"]
    assert sorted(found) == sorted(FORMS)
    checked = repeatable.write({path: repeatable.filled(text, TOOL, FORMS).encode() for path, text in texts.items()})
    state = "as written in" if checked else "written into"
    print(f"{len(REFUSALS)} refusals and {len(OUTCOMES)} outcomes, {state} {len(FILES)} files")


if __name__ == "__main__":
    main()
