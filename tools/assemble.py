#!/usr/bin/env python3
"""Makes a program file, or a file of cells, from text.

use: assemble.py SOURCE PROGRAM           a program
     assemble.py --cells SOURCE CELLS     cells, or a context

A program is a line a record: the name of document 01, then what the record uses, in the order of its table:

  Const 3.0        a constant; the tables of constants, posts and hashes are made from what the records use
  PushConst 0.5    likewise; bits are written as #7FC00000
  Hash 0123456789ABCDEF
  LoadVar 2        a name's index; LoadTemp 0: a temp's
  LoopBegin 5      a target: the index of a record, or a label, which stands before a record as `again:`
  Cmp Lt           the choice of Cmp and CmpConst (Lt Le Ge Gt), Eq, EqConst and EqHash (Eq Ne), DivGuard (signed
                   absolute), the count of HostMath; it comes first. HostMath is withdrawn: a file that has one is a stored
                   file, for the converter
  Mul post 2.0 1.0 a post, scale and offset, comes last; the identity where it is left out

`names N` and `temps N` set the counts, `raw 16 hex digits` writes a record as it is, `;` starts a comment.

Cells are a line each: `missing`, `float 1.5`, `hash 0123456789ABCDEF`, `other 0000000000000000`.
"""
import struct
import sys

from opcodes import OPCODES

BY_NAME = {opcode.name: opcode for opcode in OPCODES}


def bits(word):
    """A float's four bytes, from a decimal or from its bits."""
    return struct.pack("<I", int(word[1:], 16)) if word.startswith("#") else struct.pack("<f", float(word))


def index(table, entry):
    """Where an entry stands in a table, which takes it in where it has it not."""
    if entry not in table:
        table.append(entry)
    return table.index(entry)


class Program:
    def __init__(self):
        self.counts = {"names": 0, "temps": 0}
        self.consts, self.hashes, self.labels = [], [], {}
        self.posts = [bits("1") + bits("0")]

    def argument(self, part, words):
        """The argument of a part, taken off the words."""
        word = words.pop(0)
        if part == "c":
            return index(self.consts, bits(word))
        if part == "h":
            return index(self.hashes, struct.pack("<Q", int(word, 16)))
        return self.labels[word] if word in self.labels else int(word)

    def record(self, words):
        if words[0] == "raw":
            return bytes.fromhex(words[1])
        opcode = BY_NAME[words.pop(0)]
        choice = opcode.choices.index(words.pop(0)) if opcode.choices else 0
        post = argument = 0
        for part in opcode.parts:
            if part in "NT":
                post = int(words.pop(0))
            elif part != "p":
                argument = self.argument(part, words)
            elif words:
                assert words.pop(0) == "post"
                post = index(self.posts, bits(words.pop(0)) + bits(words.pop(0)))
        assert not words, words
        return struct.pack("<BBHI", opcode.number, choice, post, argument)

    def lines(self, text):
        """The records' words; counts and labels are noted."""
        records = []
        for line in text.splitlines():
            words = line.split(";")[0].split()
            while words and words[0].endswith(":"):
                self.labels[words.pop(0)[:-1]] = len(records)
            if words and words[0] in self.counts:
                self.counts[words[0]] = int(words[1])
            elif words:
                records.append(words)
        return records

    def file(self, text):
        records = [self.record(words) for words in self.lines(text)]
        counts = struct.pack("<HH", self.counts["names"], self.counts["temps"])
        bodies = [counts, b"".join(self.consts), b"".join(self.posts), b"".join(self.hashes), b"".join(records)]
        return b"".join(struct.pack("<BH", tag, len(body)) + body for tag, body in enumerate(bodies, 1))


def cell(words):
    kind = ["missing", "float", "hash", "other"].index(words[0])
    if kind == 1:
        return struct.pack("<B", kind) + bits(words[1]) + bytes(4)
    return struct.pack("<BQ", kind, int(words[1], 16) if words[1:] else 0)


def cells(text):
    lines = [line.split(";")[0].split() for line in text.splitlines()]
    return b"".join(cell(words) for words in lines if words)


def main(arguments):
    make = Program().file
    if arguments[:1] == ["--cells"]:
        make, arguments = cells, arguments[1:]
    if len(arguments) != 2:
        sys.exit(__doc__)
    with open(arguments[0], encoding="utf-8") as source:
        made = make(source.read())
    with open(arguments[1], "wb") as target:
        target.write(made)


if __name__ == "__main__":
    main(sys.argv[1:])
