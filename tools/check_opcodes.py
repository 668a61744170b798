#!/usr/bin/env python3
"""Runs every way of every opcode that docs/OPCODES.md names (tools/opcodes_page.py), and holds Studio to it.

A program puts none, one or nine operands on the stack, brings about the way's case, and has the record; behind it, at its target
and at the open handler's, stand records that hand over at their own position. So the account's position says where the record
went, its depths, beside those of the same program without the record, what it took and put, and its empty pops what it took
that was not there. HostMath is withdrawn: with a count of 0 or 1 a program is converted before it is run, and a program that is not
converted is sent back.
"""
import os
import subprocess
import sys
import tempfile
from itertools import product
from typing import NamedTuple

import assemble
from opcodes import OPCODES, WITHDRAWN
from opcodes_page import WAYS_OF

ROOT = os.path.join(os.path.dirname(os.path.abspath(__file__)), "..")
STUDIO, CONVERTER = os.path.join(ROOT, "studio"), os.path.join(ROOT, "converter")
CELLS = "float 2.0\nmissing\nhash 0000000000000007\nother 0000000000000007\n"
COUNTS = ["names 4", "temps 2"]
HEADS = [["Const 2.0", "StoreTemp 0"] + ["Push"] * operands for operands in (0, 1, 9)]
HAND_OVER = "Hash 0000000000000007"
ARGUMENT_COUNTS = [0, 1, 2, 8, 9, 255]  # of HostMath; the converter takes the first two
CONVERTED = [0, 1]

# What brings a case about, or keeps an opcode out of its other cases: the records before, by turns. Of LoopCheck, no loop is open
# or its count has come to 0; the loop limit and the stack cap are run by crates/vm_cases.
SETUPS = {"small": [["Const 0.0"]], "false": [["Const 0.0"]], "spent": [["Const 0.0"]], "again": [["LoopBegin goal"]],
          "open": [["LoopBegin goal"]], "held": [["HandlerPush caught"]]}
ELSE = {"OrStep": [["Const 0.0"]], "LoopCheck": [[], ["Const 1.0", "LoopBegin goal"]]}
CAUGHT = [["HandlerPush caught"], []]  # of a missing value: a handler is open, or none
# The names and temps that a load of the case takes, and the records behind the target, by turns; `None` is the end of the code.
INDICES = {"missing": [1], "other": [2, 3], "posted": [2, 3]}
BEHIND = {"ending": [["End"], ["Halt"], None], "stored": [["Const 1.0", "StoreVar 0"], ["Const 1.0", "StoreTemp 0"]]}

# The word of a part that is no index of the case's.
WORDS = {"c": "2.0", "h": "0000000000000007", "j": "goal", "f": "7", "N": "0", "T": "0"}
# Where the records of a program stand, from the record under test on.
PLACES = {"here": 0, "next": 1, "target": 4, "target+2": 6, "target+3": 7, "handler": 10}


class Account(NamedTuple):
    outcome: str
    position: int
    charges: int
    depths: list  # operands, loops, handlers
    empty_pops: int


class Run(NamedTuple):
    choice: int
    before: list
    record: str
    behind: list


def write_program(folder, records):
    with open(os.path.join(folder, "program"), "wb") as file:
        file.write(assemble.Program().file("\n".join(COUNTS + records)))


def program_of(folder):
    with open(os.path.join(folder, "program"), "rb") as file:
        return file.read()


def answer(folder, *command):
    return subprocess.run(command, cwd=folder, capture_output=True, text=True, check=False).stdout


def studio(folder):
    return answer(folder, STUDIO, "program", "cells", "none", "none", "40000000", "context")


def account(folder, records):
    write_program(folder, records)
    if any(line.startswith(WITHDRAWN) for line in records):
        assert answer(folder, CONVERTER, "program") == "program: converted 1\n"
    lines = dict(line.split(" ", 1) for line in studio(folder).splitlines())
    depths = [int(depth) for depth in lines["depths"].split()]
    return Account(lines["outcome"], int(lines["position"]), int(lines["charges"]), depths, int(lines["empty_pops"]))


def line_of(opcode, way, choice, index):
    """The record's line, under post 0 where the case asks for no other."""
    words = [opcode.name] + ([opcode.choices[choice]] if opcode.choices else [])
    words += [str(index) if part in "nt" else WORDS[part] for part in opcode.parts if part != "p"]
    return " ".join(words + (["post 2.0 1.0"] if way.case == "posted" else []))


def behind(records):
    """What stands behind the record: its target, the records behind that, and the open handler's target."""
    head = [HAND_OVER] * 3 + ["goal: " + HAND_OVER]
    return head if records is None else head + (records + [HAND_OVER] * 5)[:5] + ["caught: " + HAND_OVER]


def setups(opcode, way):
    """The records that bring a way about, by turns."""
    if way.place == "handler":
        return CAUGHT
    return ELSE.get(opcode.name, [[]]) if way.case == "else" else SETUPS.get(way.case, [[]])


def runs(opcode, way):
    """The runs that show a way: one for each choice, each index, each stack and each turn of what stands before and behind."""
    choices = CONVERTED if opcode.name == WITHDRAWN else range(max(len(opcode.choices), 1))
    turns = product(choices, INDICES.get(way.case, [0]), HEADS, setups(opcode, way), BEHIND.get(way.case, [[]]))
    return [Run(choice, head + setup, line_of(opcode, way, choice, index), behind(records))
            for choice, index, head, setup, records in turns]


def depths_after(met, way, choice):
    """The depths that a way leaves of those that it met, and how many operands it took that were not there."""
    amounts = {"operand": (0, 1), "n": (0, max(min(choice, 8) - 1, 0)), "loop": (1, 1), "handler": (2, 1)}
    depths = list(met)
    for change in way.changes:
        store, amount = amounts[change[1:]]
        depths[store] += amount if change[0] == "+" else -amount
    return [max(depths[0], 0)] + depths[1:], max(-depths[0], 0)


def expected(opcode, way, run, met):
    """The account of a run, of that of the same program without the record. Both end with a record that is charged too."""
    charges = met.charges + 1 + (opcode.name == "PushConst")
    caught = way.place == "handler" and met.depths[2] > 0
    left = depths_after(met.depths, way._replace(changes=way.changes + ["-handler"]) if caught else way, run.choice)
    if way.place == "handler" and not caught:
        return Account("stopped for a missing value", 0, charges - 1, *left)
    if way.place == "end":
        return Account("done", 0, charges - 1, *left)
    if way.case == "ending":
        return Account("done", 0, charges, *left)
    charges -= way.place == "here"
    return Account("handed over", len(run.before) + PLACES[way.place], charges, *left)


def wrong_with(folder, opcode, way, run):
    """What is wrong with a run, in a list of at most one line."""
    wanted = expected(opcode, way, run, account(folder, run.before + run.behind))
    found = account(folder, run.before + [run.record] + run.behind)
    return [] if found == wanted else [f"{run.record}, {way}: {found}, expected {wanted}"]


def wrong_with_count(folder, count):
    """What is wrong with the numbers that send a program with a HostMath of so many arguments back, in a list."""
    write_program(folder, [f"{WITHDRAWN} {count}"])
    before, refused = program_of(folder), studio(folder)
    wrong = [] if refused == "refused 14\n" else [f"{WITHDRAWN} {count}: {refused}, expected refused 14"]
    if count in CONVERTED:
        return wrong
    refused = answer(folder, CONVERTER, "program")
    kept = refused == "program: refused 15\n" and program_of(folder) == before
    return wrong if kept else wrong + [f"{WITHDRAWN} {count}: {refused}, expected refused 15 and every byte kept"]


def main():
    every = [(opcode, way, run) for opcode in OPCODES for way in WAYS_OF[opcode.name] for run in runs(opcode, way)]
    with tempfile.TemporaryDirectory() as folder:
        for name in ("cells", "context"):
            with open(os.path.join(folder, name), "wb") as file:
                file.write(assemble.cells(CELLS))
        wrong = [line for each in every for line in wrong_with(folder, *each)]
        wrong += [line for count in ARGUMENT_COUNTS for line in wrong_with_count(folder, count)]
    print("\n".join(wrong + [f"{len(every)} runs of {len(OPCODES)} opcodes, {len(wrong)} differ from docs/OPCODES.md"]))
    sys.exit(1 if wrong else 0)


if __name__ == "__main__":
    main()
