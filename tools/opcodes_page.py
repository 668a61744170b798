#!/usr/bin/env python3
"""Writes the tables of docs/OPCODES.md: the ranges, and a row for each opcode.

    tools/opcodes_page.py           write the page's tables
    tools/opcodes_page.py --check   say whether they are what would be written

The ranges, the opcodes, their parts and choices are read from the definitions (tools/opcodes.py). What a record does to the
stack and where it goes is WAYS, which takes operands where the definitions do; tools/check_opcodes.py runs each of these.
"""
from pathlib import Path
from typing import NamedTuple

import repeatable
from opcodes import OPCODES, RANGES, TAKINGS, WITHDRAWN

PAGE = Path(__file__).resolve().parent.parent / "docs" / "OPCODES.md"

# The ways of an opcode, apart by '|'. A way: in which case, if not in every one; what it does to the operands, the loops and
# the handlers; where it goes. HostMath's n is its choice: it is what the machine does of a stored file that is not converted.
WAYS = """
Const: next
Hash: here
Resource: here
This: next
LoadVar: float next | missing handler | other here | posted next
LoadTemp: float next | missing handler
LoadCtx: float next | missing handler | other here | posted next
Member: handler
StoreVar: next
StoreTemp: next
Push: +operand next
PushConst: +operand next
Negate: next
Not: next
AddAcc: next
AddLast: -operand next
Mul: -operand next
DivGuard: small target | else +operand next
Div: -operand next
Mod: -operand next
ModConst: next
HostMath: -n next
Cmp: -operand next
CmpConst: next
Eq: -operand next
EqConst: next
EqHash: next
AndStep: false target | else next
OrStep: true target | else next
AndLast: next
OrLast: next
Jump: target
JumpIfFalsy: false target | else next
Post: next
HandlerPush: +handler next
HandlerPop: held -handler target | else target
PointerEnter: target
PointerLeave: next
Call: here
LoopBegin: spent target | else +operand +loop next
LoopCheck: again target | else next
LoopEnd: open -operand -loop next | else next
EachBegin: ending target+1 | stored target+3 | else target+2
EachNextVar: here
EachNextTemp: here
Return: end
Halt: end
End: end
Floor: next
Ceil: next
Trunc: next
Abs: next
"""

CASES = {
    "float": "a float",
    "missing": "missing",
    "other": "a hash or other, under post 0",
    "posted": "under another post",
    "small": "magnitude below 2^-23",
    "false": "the accumulator is false",
    "true": "the accumulator is true",
    "held": "if one is open",
    "spent": "count <= 0",
    "again": "another pass",
    "open": "if one is open",
    "ending": "absent, End or Halt there",
    "stored": "Const there, and StoreVar or StoreTemp behind it",
    "else": "",
}
PLACES = {"here": "hands over", "handler": "newest handler, or stops", "end": "ends the run"}
PLACES |= {f"target+{n}": f"target + {n}" for n in (1, 2, 3)}
CHANGES = {"operand": "1", "n": "n - 1, from 0 to 7", "loop": "a loop", "handler": "a handler"}
PARTS = {"c": "constant", "h": "hash", "n": "name", "t": "temp", "j": "target", "f": "free", "p": "post", "N": "name", "T": "temp"}


class Way(NamedTuple):
    case: str  # '' for every case
    changes: list  # '+operand', '-loop', ..
    place: str


def way(text):
    *words, place = text.split()
    case = words.pop(0) if words and words[0] in CASES else ""
    return Way(case, words, place)


def taking(ways):
    """How an opcode takes from the stack, in the word of the definitions."""
    takes = {change: each.case for each in ways for change in each.changes if change in ("-operand", "-n")}
    return {None: "none", ("-operand", ""): "one", ("-n", ""): "many", ("-operand", "open"): "count"}[next(iter(takes.items()), None)]


def read_ways():
    rows = [line.split(": ") for line in WAYS.strip().splitlines()]
    assert [name for name, _ in rows] == [opcode.name for opcode in OPCODES]
    ways_of = {name: [way(text) for text in ways.split(" | ")] for name, ways in rows}
    assert {name: taking(ways) for name, ways in ways_of.items()} == TAKINGS
    return ways_of


WAYS_OF = read_ways()


def changed(ways, sign):
    """What the ways take ('-') or put ('+'); in which case, where not every way does."""
    changing = [each for each in ways if any(change[0] == sign for change in each.changes)]
    if not changing:
        return ""
    [one] = changing
    words = " and ".join(CHANGES[change[1:]] for change in one.changes if change[0] == sign)
    if len(ways) == 1:
        return words
    same_place = all(each.place == one.place for each in ways)
    return f"{words}, {CASES[one.case]}" if same_place else f"{words}, on the way to {one.place}"


def places(ways):
    """Where the ways lead, each behind its case; the last stands for all other cases."""
    words = [(CASES[each.case] if each.case else "", PLACES.get(each.place, each.place)) for each in ways]
    if len({place for _, place in words}) == 1:
        return words[0][1]
    return "; ".join(f"{case}: {place}" if case else f"else {place}" for case, place in words)


def choice(opcode):
    words = opcode.choices
    return f"n, 0 to {len(words) - 1}" if len(words) > 9 else ", ".join(f"{n} {word}" for n, word in enumerate(words))


def part(opcode, letters):
    return "".join(PARTS[letter] for letter in opcode.parts if letter in letters)


def range_rows():
    yield from ["| Opcodes | Range | They have |", "|---|---|---|"]
    yield "| 0 | in no range | |"
    yield from (f"| {each.first} to {each.last} | {each.name} | {each.rule} |" for each in RANGES)
    yield f"| {RANGES[-1].last + 1} to 255 | in no range | |"


def opcode_rows():
    yield "| | Opcode | Choice | Bytes 2-3 | Argument | Takes | Puts | Goes to |"
    yield "|---|---|---|---|---|---|---|---|"
    for each in OPCODES:
        ways, name = WAYS_OF[each.name], each.name + (", withdrawn" if each.name == WITHDRAWN else "")
        cells = [each.number, name, choice(each), part(each, "pNT"), part(each, "chntjf"),
                 changed(ways, "-"), changed(ways, "+"), places(ways)]
        yield "| " + " | ".join(map(str, cells)) + " |"


FORMS = {"ranges": range_rows, "opcodes": opcode_rows}


def main():
    checked = repeatable.write({PAGE: repeatable.filled(PAGE.read_text(), "opcodes_page.py", FORMS).encode()})
    print(f"{len(RANGES)} ranges and {len(OPCODES)} opcodes, {'as written in' if checked else 'written into'} docs/OPCODES.md")


if __name__ == "__main__":
    main()
