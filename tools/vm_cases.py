#!/usr/bin/env python3
"""Writes crates/vm_cases/data/opcodes: every opcode under post 0 and under others, with what documents 01 and 02 have it leave.

    tools/vm_cases.py           write the table, and print its size
    tools/vm_cases.py --check   say whether the file is what would be written

The code of a row is [Const a, Push, Const b, X, End, Post 0, End] with the record X under test, whose target is 5. What an
opcode does is read here from those documents alone; its parts are those of the definitions. docs/VECTORS.md has the layout.
"""
import math
import struct
from collections import namedtuple
from itertools import product
from pathlib import Path

import repeatable
from opcodes import OPCODES

TABLE = Path(__file__).resolve().parent.parent / "crates" / "vm_cases" / "data" / "opcodes"
ROW = struct.Struct("<B27s23I")

MADE_NAN = 0x7FC0_0000
ONE, TWO, THREE, HALF, ZERO, MINUS_ZERO = 0x3F80_0000, 0x4000_0000, 0x4040_0000, 0x3F00_0000, 0, 0x8000_0000
QUIET, SIGNALLING, INFINITY = 0x7FC0_0001, 0xFF80_0001, 0x7F80_0000
THIS = 0x4020_0000
POSTS = [(ONE, ZERO), (THREE, HALF), (ONE, ZERO), (ONE, MINUS_ZERO), (0xC000_0000, 0x40E0_0000)]
HASH = 0x4040_0000
CONSTANT, TARGET = 2, 5  # the constant 3, and the record after End
DONE, MISSING, OVER = 0, 2, 5

# Operands: stack, accumulator.
PAIRS = [(TWO, THREE), (THREE, TWO), (0xC0F0_0000, TWO), (THREE, THREE), (ONE, ZERO), (ONE, MINUS_ZERO), (ZERO, 0xBF80_0000),
         (0x4B80_0001, 0x3DCC_CCCD), (ONE, QUIET), (SIGNALLING, TWO), (INFINITY, 0xFF80_0000), (1, 0x7F7F_FFFF),
         (TWO, 0x33FF_FFFF)]

# Magnitudes that the four opcodes of whole numbers take too, of both signs: the smallest subnormal and the largest, the smallest
# normal, below 1/2, 1/2, below 1, above 1, 1.5, 2.5, 2^22 + 0.5, 2^23 - 1, 2^23 - 0.5, 2^23, 2^23 + 1, 2^24 + 2, the largest;
# infinity, and NaNs, signalling and quiet.
MAGNITUDES = [1, 0x007F_FFFF, 0x0080_0000, 0x3EFF_FFFF, HALF, 0x3F7F_FFFF, 0x3F80_0001, 0x3FC0_0000, 0x4020_0000, 0x4A80_0001,
              0x4AFF_FFFE, 0x4AFF_FFFF, 0x4B00_0000, 0x4B00_0001, 0x4B80_0001, 0x7F7F_FFFF, INFINITY, 0x7F80_0001, 0x7FBF_FFFF,
              MADE_NAN, 0x7FFF_FFFF]
WHOLES = [(TWO, sign | magnitude) for magnitude in MAGNITUDES for sign in (0, MINUS_ZERO)]


def value(bits):
    return struct.unpack("<f", struct.pack("<I", bits))[0]


def rounded(x):
    """The binary32 of a double that holds the exact result, or one rounded to 53 bits, which is enough for + - * /."""
    if math.isnan(x):
        return MADE_NAN
    try:
        return struct.unpack("<I", struct.pack("<f", x))[0]
    except OverflowError:
        return INFINITY if x > 0 else INFINITY | MINUS_ZERO


def add(a, b):
    return rounded(value(a) + value(b))


def sub(a, b):
    return rounded(value(a) - value(b))


def mul(a, b):
    return rounded(value(a) * value(b))


def div(a, b):
    x, y = value(a), value(b)
    if y != 0:
        return rounded(x / y)
    if x == 0 or math.isnan(x) or math.isnan(y):
        return MADE_NAN
    return INFINITY | ((a ^ b) & MINUS_ZERO)


def rem(a, b):
    x, y = value(a), value(b)
    if math.isnan(x) or math.isnan(y) or math.isinf(x) or y == 0:
        return MADE_NAN
    return rounded(math.fmod(x, y))


def whole(part, a):
    """"A zero result of these three has the input's sign. Infinities pass through them .. NaN gives 7FC00000"; `part` is Python's."""
    x = value(a)
    if math.isnan(x):
        return MADE_NAN
    if math.isinf(x):
        return a
    made = part(x)  # a whole number of Python's, so exact
    return rounded(float(made)) if made else a & MINUS_ZERO


def is_zero(a):
    return value(a) == 0


def entered(a):
    """Six: a NaN that enters, or that Negate or DivGuard gives, is 7FC00000."""
    return MADE_NAN if math.isnan(value(a)) else a


class State:
    """What stands before record 3, and what it makes of it."""

    def __init__(self, a, b):
        self.stack, self.acc = [entered(a)], entered(b)
        self.end, self.charges, self.next = DONE, 4, 4
        self.loops, self.handler = 0, None
        self.missing_member = self.access_underflow = self.empty_pops = 0
        self.cell, self.temp = TWO, None

    def pop(self):
        if self.stack:
            return self.stack.pop()
        self.empty_pops += 1
        return ZERO

    def row(self):
        if self.next is not None:
            # End at 4 and 6, Post at 5
            self.charges += {4: 1, 5: 2, 6: 1}[self.next]
        s = self.stack
        handler = self.handler or (0, 0)
        return [self.end, 3 if self.end == OVER else 0, self.charges, self.acc, len(s), s[0] if s else 0,
                s[-1] if s else 0, self.loops, self.loops, 1 if self.handler else 0, handler[0], handler[1],
                self.missing_member, self.access_underflow, self.cell, 0 if self.temp is None else 1, self.temp or 0,
                self.empty_pops]


def stops(s, end):
    s.end, s.next = end, None


def identity(post):
    scale, offset = POSTS[post]
    return scale == ONE and value(offset) == 0


def scaled(post, x):
    scale, offset = POSTS[post]
    return add(mul(x, scale), offset)


def posted(post, x):
    return x if identity(post) else scaled(post, x)


def negated(post, x):
    scale, offset = POSTS[post]
    return entered(x ^ MINUS_ZERO) if identity(post) else sub(offset, mul(x, scale))


def remainder(post, a, b):
    return picked(post, False) if is_zero(b) else scaled(post, rem(a, b))


def picked(post, flag):
    scale, offset = POSTS[post]
    return add(scale, offset) if flag else entered(offset)


def compares(choice, x, y):
    return [x < y, x <= y, x >= y, x > y][choice]


# ---- the record X, under the names of document 01

# The accumulator that a record leaves that does nothing else, but for what it pops.
LEAVES = {
    "Const": lambda s, x: THREE,
    "This": lambda s, x: posted(x.post, entered(THIS)),
    "Negate": lambda s, x: negated(x.post, s.acc),
    "Not": lambda s, x: picked(x.post, is_zero(s.acc)),
    "AddLast": lambda s, x: posted(x.post, add(s.pop(), s.acc)),
    "Mul": lambda s, x: posted(x.post, mul(s.pop(), s.acc)),
    "Div": lambda s, x: posted(x.post, div(s.acc, s.pop())),
    "Mod": lambda s, x: remainder(x.post, s.pop(), s.acc),
    "ModConst": lambda s, x: scaled(x.post, rem(s.acc, THREE)),
    "Cmp": lambda s, x: picked(x.post, compares(x.choice, value(s.pop()), value(s.acc))),
    "CmpConst": lambda s, x: picked(x.post, compares(x.choice, value(s.acc), 3.0)),
    "Eq": lambda s, x: picked(x.post, (value(s.pop()) == value(s.acc)) == (x.choice == 0)),
    "EqConst": lambda s, x: picked(x.post, (value(s.acc) == 3.0) == (x.choice == 0)),
    "EqHash": lambda s, x: picked(x.post, (s.acc == HASH) == (x.choice == 0)),
    "AndLast": lambda s, x: picked(x.post, not is_zero(s.acc)),
    "OrLast": lambda s, x: picked(x.post, not is_zero(s.acc)),
    "Post": lambda s, x: posted(x.post, s.acc),
    "Floor": lambda s, x: posted(x.post, whole(math.floor, s.acc)),
    "Ceil": lambda s, x: posted(x.post, whole(math.ceil, s.acc)),
    "Trunc": lambda s, x: posted(x.post, whole(math.trunc, s.acc)),
    "Abs": lambda s, x: posted(x.post, entered(s.acc & ~MINUS_ZERO)),
}


def hands_over(s, x):
    stops(s, OVER)


def load_var(s, x):
    load(s, x, TWO)


def load_ctx(s, x):
    load(s, x, 0x40A0_0000)


def load(s, x, number):
    """Of a cell whose kind is the argument, and whose number is given."""
    if x.argument == 0:
        stops(s, MISSING)
    elif x.argument == 1:
        s.acc = posted(x.post, entered(number))
    elif x.post == 0:
        stops(s, OVER)
    else:
        s.acc = posted(x.post, entered(THREE) if x.argument == 2 else ZERO)


def load_temp(s, x):
    stops(s, MISSING)


def member(s, x):
    s.missing_member = 1
    stops(s, MISSING)


def store_var(s, x):
    s.cell, s.acc = s.acc, posted(x.post, s.acc)


def store_temp(s, x):
    s.temp, s.acc = s.acc, posted(x.post, s.acc)


def push(s, x):
    s.stack.append(s.acc)


def push_const(s, x):
    s.stack.append(s.acc)
    s.charges, s.acc = 5, THREE


def add_acc(s, x):
    s.stack[0] = add(s.stack[0], s.acc)


def div_guard(s, x):
    if abs(value(s.acc)) < 2.0 ** -23:
        s.acc, s.next = ZERO, x.argument
    else:
        s.stack.append(entered(s.acc & 0x7FFF_FFFF if x.choice else s.acc))


def host_math(s, x):
    """Of no or one argument; the row's file is converted before it is called."""
    s.acc = ZERO


def and_step(s, x):
    if is_zero(s.acc):
        s.acc, s.next = picked(x.post, False), x.argument


def or_step(s, x):
    if not is_zero(s.acc):
        s.acc, s.next = picked(x.post, True), x.argument


def jump(s, x):
    s.next = x.argument


def jump_if_falsy(s, x):
    if is_zero(s.acc):
        s.next = x.argument


def handler_push(s, x):
    s.handler = (x.argument, 1 << 12)


def pointer_enter(s, x):
    s.acc, s.next = posted(x.post, ZERO), x.argument


def pointer_leave(s, x):
    s.access_underflow, s.acc = 1, posted(x.post, s.acc)


def loop_begin(s, x):
    if value(s.acc) <= 0:
        s.next = x.argument
    else:
        s.stack.append(sub(s.acc, ONE))
        s.loops = 1


def no_loop(s, x):
    """LoopCheck and LoopEnd do nothing where no loop is open."""


def each_begin(s, x):
    s.next = 6  # the record at the target is no Const, the one behind it End


def return_(s, x):
    s.acc, s.next = posted(x.post, s.acc), None


def halt(s, x):
    s.acc, s.next = ZERO, None


def end(s, x):
    s.next = None


DOES = {
    "Hash": hands_over, "Resource": hands_over, "Call": hands_over, "EachNextVar": hands_over, "EachNextTemp": hands_over,
    "LoadVar": load_var, "LoadCtx": load_ctx, "LoadTemp": load_temp, "Member": member, "StoreVar": store_var,
    "StoreTemp": store_temp, "Push": push, "PushConst": push_const, "AddAcc": add_acc, "DivGuard": div_guard,
    "HostMath": host_math, "AndStep": and_step, "OrStep": or_step, "Jump": jump, "HandlerPop": jump,
    "JumpIfFalsy": jump_if_falsy, "HandlerPush": handler_push, "PointerEnter": pointer_enter, "PointerLeave": pointer_leave,
    "LoopBegin": loop_begin, "LoopCheck": no_loop, "LoopEnd": no_loop, "EachBegin": each_begin, "Return": return_,
    "Halt": halt, "End": end,
}


def act(s, x):
    name = x.opcode.name
    if name in LEAVES:
        s.acc = LEAVES[name](s, x)
    else:
        DOES[name](s, x)


# ---- the cases

Record = namedtuple("Record", "opcode choice post argument")

# Opcodes that look at neither number.
PLAIN = """Const Hash Resource This LoadVar LoadTemp LoadCtx Member PushConst HostMath Jump HandlerPush HandlerPop PointerEnter
Call LoopCheck LoopEnd EachBegin EachNextVar EachNextTemp Halt End""".split()
# .. and those that make a whole number or a magnitude.
WHOLE = ["Floor", "Ceil", "Trunc", "Abs"]
CELLS = ["missing", "float", "hash", "other"]


def arguments(opcode):
    if opcode.name in ("LoadVar", "LoadCtx"):
        return range(len(CELLS))
    if opcode.name in ("StoreVar", "StoreTemp"):
        return [1]
    return [TARGET if "j" in opcode.parts else CONSTANT if "c" in opcode.parts else 0]


def choices(opcode):
    """Of HostMath the counts that the converter takes."""
    return [0, 1] if opcode.name == "HostMath" else range(max(len(opcode.choices), 1))


def case_name(x):
    words = [x.opcode.name]
    words += [CELLS[x.argument]] if x.opcode.name in ("LoadVar", "LoadCtx") else []
    words += [x.opcode.choices[x.choice]] if x.opcode.choices else []
    words += [f"post {x.post}"] if "p" in x.opcode.parts else []
    return " ".join(words)


def cases():
    """The record of every case."""
    for opcode in OPCODES:
        posts = range(len(POSTS)) if "p" in opcode.parts else [0]
        for argument, choice, post in product(arguments(opcode), choices(opcode), posts):
            yield Record(opcode, choice, post, argument)


def pairs_of(opcode):
    if opcode.name in PLAIN:
        return PAIRS[:2]
    return PAIRS + WHOLES if opcode.name in WHOLE else PAIRS


def rows(x):
    """A case's rows, one for each pair of operands."""
    pairs = pairs_of(x.opcode)
    name = case_name(x).encode()
    for i, (a, b) in enumerate(pairs):
        s = State(a, b)
        act(s, x)
        record = [x.opcode.number + x.choice * 256 + x.post * 65536, x.argument]
        last = int(i == len(pairs) - 1)
        yield ROW.pack(len(name), name, *record, a, b, *s.row(), last)


def main():
    every = [list(rows(x)) for x in cases()]
    print(len(every), "cases,", sum(map(len, every)), "rows")
    repeatable.write({TABLE: b"".join(row for case in every for row in case)})


if __name__ == "__main__":
    main()
