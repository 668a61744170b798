"""The opcodes, read from their definitions in crates/program/specs: the rows of Opcodes.antt and the ranges of Ranges.antt.
How each takes from the stack is read from crates/pops/specs/Takes.antt, and which is withdrawn from crates/file/specs/Records.antt.

tools/file_table.py, the reader that the proved one is held to, keeps a table of its own.
"""
import re
from pathlib import Path
from typing import NamedTuple

CRATES = Path(__file__).resolve().parent.parent / "crates"

# A row: `plain ARGUMENT POST INSTRUCTION` or `chosen ARGUMENT POST CHOICE INSTRUCTION`, and a comment that starts with the
# opcode's number and name. An instruction that several opcodes share is followed by the opcode's own word: `Instr.Math1 Floor`.
ROW = re.compile(r"(?:∷ )?(?:plain|chosen) (\w+) (\w+) (\d+ )?(.*\bInstr\.(\w+)(?: ([A-Z]\w+))?.*?)  -- (\d+) (\w+).*")

# A range: its first and last opcode, and its definition, which a range of like opcodes does not give the opcode.
RANGE = re.compile(r"(?:∷ )?range (\d+) (\d+) (?:\(λ op\. )?(\w+)\)?")

# The letters of document 01's table (c constant, h hash, n name, t temp, j target, p post), and f for a free argument, N and
# T for the name and the temp that bytes 2-3 hold.
ARGUMENTS = {"Unused": "", "Const": "c", "Hash": "h", "Name": "n", "Temp": "t", "Target": "j", "Free": "f"}
SECONDS = {"Unused": "", "Post": "p", "Name": "N", "Temp": "T"}

# The words of a choice, by the function of the row that reads it; a choice that no function reads is a number.
WORDS = {"divisor_of": ["signed", "absolute"], "cmp_of": ["Lt", "Le", "Ge", "Gt"], "eq_of": ["Eq", "Ne"]}


class Opcode(NamedTuple):
    number: int
    name: str
    choices: list  # the words of the choice byte, from 0 on; none where the choice is unused
    parts: list  # the letters of the other parts, in the order that a record is written in
    case: str  # the case of `Instr` that it is decoded to


class Range(NamedTuple):
    first: int
    last: int
    name: str
    rule: str  # what its opcodes have in common, in the words of its definition


def lines_of(name, crate="program"):
    return [line.strip() for line in (CRATES / crate / "specs" / name).read_text().splitlines()]


def choices_of(largest, instruction):
    """The words of a row's choice byte."""
    reader = next((words for name, words in WORDS.items() if name in instruction), None)
    words = reader or [str(n) for n in range(int(largest) + 1)]
    assert len(words) == int(largest) + 1, instruction
    return words


def opcode(found):
    argument, second, largest, instruction, case, word, number, title = found.groups()
    assert (word or case) == title, f"row {number}: {word or case} and {title}"
    second = SECONDS[second]
    parts = [second, ARGUMENTS[argument]] if second in ("N", "T") else [ARGUMENTS[argument], second]
    choices = choices_of(largest, instruction) if largest else []
    return Opcode(int(number), title, choices, [part for part in parts if part], case)


def read_opcodes():
    opcodes = [opcode(found) for found in map(ROW.fullmatch, lines_of("Opcodes.antt")) if found]
    assert [each.number for each in opcodes] == list(range(1, len(opcodes) + 1))
    return opcodes


def rule_of(name, lines):
    """The comment above a range's definition, behind its opcodes."""
    at = next(k for k, line in enumerate(lines) if re.fullmatch(rf"abbrev pub {name} : (ℕ → )?Parts", line))
    start = next(k for k in range(at, 0, -1) if not lines[k - 1].startswith("-- "))
    return " ".join(line[3:] for line in lines[start:at]).partition(": ")[2]


def read_ranges():
    lines = lines_of("Ranges.antt")
    found = map(RANGE.fullmatch, lines)
    ranges = [Range(int(each[1]), int(each[2]), each[3], rule_of(each[3], lines)) for each in found if each]
    assert [each.first for each in ranges[1:]] == [each.last + 1 for each in ranges[:-1]]
    return ranges


def read_takings(opcodes):
    """How each opcode takes from the stack: 'none', 'one', 'many' or 'count', by its name."""
    found = [re.fullmatch(r"taking_of c \(?Instr\.(\w+)[^=]* = (\w+).*", line) for line in lines_of("Takes.antt", "pops")]
    takings = {each[1]: each[2] for each in found if each and each[1] != "Outside"}
    assert list(takings) == list(dict.fromkeys(opcode.case for opcode in opcodes))
    return {opcode.name: takings[opcode.case] for opcode in opcodes}


def read_withdrawn():
    """The name of the opcode that no new file may carry."""
    [name] = re.findall(r"^withdrawn op = eqb op \(number_of (\w+)\)$", "\n".join(lines_of("Records.antt", "file")), re.M)
    return name


OPCODES = read_opcodes()
RANGES = read_ranges()
TAKINGS = read_takings(OPCODES)
WITHDRAWN = read_withdrawn()
assert (RANGES[0].first, RANGES[-1].last) == (1, len(OPCODES))
