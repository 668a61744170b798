#!/usr/bin/env python3
"""Writes crates/numeric_table/data/table: rows of operands with the result of every operation of the crate numeric.

The arithmetic is an implementation of IEEE 754 binary32 of its own, over whole numbers and fractions: no float of the
machine or of Python takes part. docs/ARITHMETIC_TABLE.md says what the table holds.

    tools/arithmetic_table.py           write the table, and print the rows of each group
    tools/arithmetic_table.py --check   say whether the file is what would be written
"""

import struct
from collections import namedtuple
from fractions import Fraction
from math import ceil, floor, trunc
from pathlib import Path

import repeatable

TABLE = Path(__file__).resolve().parent.parent / "crates" / "numeric_table" / "data" / "table"

# ---- patterns and values

SIGN = 1 << 31
INFINITY = 0x7F80_0000  # of the magnitude's bits; a NaN's are above
QUIET = 0x0040_0000  # the bit that a quiet NaN has and a signalling one has not
MADE_NAN = 0x7FC0_0000  # the NaN that an operation makes, and that every NaN enters as
LARGEST = 0x7F7F_FFFF
SMALLEST_NORMAL = 0x0080_0000
LARGEST_SUBNORMAL = 0x007F_FFFF
HALF = 0x3F00_0000
ONE = 0x3F80_0000
THREE = 0x4040_0000
HALF_PLACE = 0x7300_0000  # half of the last place of the largest finite number
EPSILON = 0x3400_0000  # 2^-23, the bound of the division guard
UNIT = Fraction(1, 1 << 149)  # the smallest subnormal: every finite binary32 is a whole count of it


def is_nan(n):
    return n % SIGN > INFINITY


def is_infinite(n):
    return n % SIGN == INFINITY


def is_special(n):
    """Whether a pattern is no finite number."""
    return n % SIGN >= INFINITY


def is_zero(n):
    return n % SIGN == 0


def is_negative(n):
    return n >= SIGN


def units(n):
    """The magnitude of a finite pattern, as a count of units."""
    exponent, fraction = divmod(n % SIGN, 1 << 23)
    if exponent == 0:
        return fraction
    return ((1 << 23) + fraction) << (exponent - 1)


def value(n):
    """The value of a finite pattern. The sign of a zero is lost."""
    return (-units(n) if is_negative(n) else units(n)) * UNIT


# ---- rounding


def last_place(x):
    """The weight of the last bit that binary32 keeps of x > 0: the 24th from the top, and at least a unit."""
    bits = x.numerator.bit_length() - x.denominator.bit_length()  # log2 x lies within one of this
    exponent = bits if x >= Fraction(2) ** bits else bits - 1
    return Fraction(2) ** max(exponent - 23, -149)


def nearest_even(q):
    """The whole number nearest to q >= 0, the even one of two."""
    whole, rest = divmod(q.numerator, q.denominator)
    if 2 * rest > q.denominator or (2 * rest == q.denominator and whole % 2 == 1):
        whole += 1
    return whole


def rounded(x, zero=0):
    """The pattern of the fraction x, rounded to nearest, ties to even; of 0, the given zero."""
    if x == 0:
        return zero
    sign = SIGN if x < 0 else 0
    place = last_place(abs(x))
    kept = nearest_even(abs(x) / place)
    # A place one higher is 2^23 patterns on, and a carry out of the 24 bits goes into the exponent by itself.
    steps = (place / UNIT).numerator.bit_length() - 1
    return sign + min((steps << 23) + kept, INFINITY)


def is_tie(x):
    """Whether x lies half way between two neighbours of binary32, and is rounded by evenness."""
    return x != 0 and abs(x) / last_place(abs(x)) % 1 == Fraction(1, 2)


# ---- numeric/fpu.rs


def canonical(n):
    """To a float and back."""
    return MADE_NAN if is_nan(n) else n


def entered(n):
    """A number that comes in: a NaN of whatever sign and payload as the one that operations make."""
    return canonical(n)


def neg(n):
    return n ^ SIGN


def magnitude(n):
    return n % SIGN


def add(a, b):
    if is_nan(a) or is_nan(b):
        return MADE_NAN
    if is_infinite(a) or is_infinite(b):
        if is_infinite(a) and is_infinite(b) and a != b:
            return MADE_NAN
        return a if is_infinite(a) else b
    return rounded(value(a) + value(b), zero=a & b & SIGN)  # -0.0 of two -0.0 alone


def sub(a, b):
    return add(a, neg(b))


def mul(a, b):
    sign = (a ^ b) & SIGN
    if is_nan(a) or is_nan(b):
        return MADE_NAN
    if is_infinite(a) or is_infinite(b):
        return MADE_NAN if is_zero(a) or is_zero(b) else sign + INFINITY
    return rounded(value(a) * value(b), zero=sign)


def div(a, b):
    sign = (a ^ b) & SIGN
    if is_nan(a) or is_nan(b):
        return MADE_NAN
    if is_infinite(a):
        return MADE_NAN if is_infinite(b) else sign + INFINITY
    if is_infinite(b):
        return sign
    if is_zero(b):
        return MADE_NAN if is_zero(a) else sign + INFINITY
    return rounded(value(a) / value(b), zero=sign)


def rem(a, b):
    """Rust's %: the quotient cut towards zero, exact, the dividend's sign."""
    if is_nan(a) or is_nan(b) or is_infinite(a) or is_zero(b):
        return MADE_NAN
    if is_infinite(b):
        return a
    return (a & SIGN) + rounded(units(a) % units(b) * UNIT)


def whole(part, n):
    """The whole number that `part` makes of the fraction n, exact. "A zero result of these three has the input's sign." """
    if is_nan(n):
        return MADE_NAN
    if is_infinite(n):
        return n
    made = rounded(Fraction(part(value(n))), zero=n & SIGN)
    assert value(made) == part(value(n))
    return made


def mul_add(a, b, c):
    return add(mul(a, b), c)


def mul_sub(a, b, c):
    return sub(c, mul(a, b))


def ordered(a, b):
    """-1, 0 or 1 as a is below, equal to or above b; None with a NaN."""
    if is_nan(a) or is_nan(b):
        return None
    # The patterns of one sign are ordered as their values, and both zeros are 0 here.
    x = -magnitude(a) if is_negative(a) else a
    y = -magnitude(b) if is_negative(b) else b
    return (x > y) - (x < y)


def lt(a, b):
    return ordered(a, b) == -1


def le(a, b):
    return ordered(a, b) in (-1, 0)


def gt(a, b):
    return ordered(a, b) == 1


def ge(a, b):
    return ordered(a, b) in (0, 1)


def eq(a, b):
    return ordered(a, b) == 0


def ne(a, b):
    return ordered(a, b) != 0


# ---- numeric/post_op.rs, instr.rs and stdlib/math/arithmetic.rs. A post is its scale and its offset


def is_identity(scale, offset):
    return eq(scale, ONE) and eq(offset, 0)


def applied(raw, scale, offset):
    return raw if is_identity(scale, offset) else mul_add(raw, scale, offset)


def selected(condition, scale, offset):
    """True is the sum; false is the offset, which enters."""
    return add(scale, offset) if condition else entered(offset)


def truthy(x):
    return ne(x, 0)


def negated(x, scale, offset):
    """A NaN whose sign was turned over enters anew."""
    return entered(neg(x)) if is_identity(scale, offset) else mul_sub(x, scale, offset)


def guard_passes(d):
    return not lt(magnitude(d), EPSILON)


def guard_divisor(signed, d):
    """The divisor that is handed on, a NaN as one that enters; 0 where none is."""
    if not guard_passes(d):
        return 0
    return entered(d if signed else magnitude(d))


def absolute(n):
    """"Abs clears the sign, of zeros and infinities too. NaN gives 7FC00000"."""
    return canonical(magnitude(n))


def mod_const(a, b, scale, offset):
    return mul_add(rem(a, b), scale, offset)


def mod_runtime(a, b, scale, offset):
    return selected(False, scale, offset) if eq(b, 0) else mod_const(a, b, scale, offset)


# ---- rows

Row = namedtuple("Row", "a b scale offset")

# The results of a row, in the order of the table and by the names that crates/numeric_table writes.
RESULTS = {
    "fpu::is_nan": lambda r: is_nan(r.a),
    "fpu::of_bits, to_bits": lambda r: canonical(r.a),
    "fpu::enter": lambda r: entered(r.a),
    "fpu::neg": lambda r: neg(r.a),
    "fpu::abs": lambda r: magnitude(r.a),
    "fpu::add": lambda r: add(r.a, r.b),
    "fpu::sub": lambda r: sub(r.a, r.b),
    "fpu::mul": lambda r: mul(r.a, r.b),
    "fpu::div": lambda r: div(r.a, r.b),
    "fpu::rem": lambda r: rem(r.a, r.b),
    "fpu::lt": lambda r: lt(r.a, r.b),
    "fpu::le": lambda r: le(r.a, r.b),
    "fpu::gt": lambda r: gt(r.a, r.b),
    "fpu::ge": lambda r: ge(r.a, r.b),
    "fpu::eq": lambda r: eq(r.a, r.b),
    "fpu::ne": lambda r: ne(r.a, r.b),
    "fpu::mul_add": lambda r: mul_add(r.a, r.scale, r.offset),
    "fpu::mul_sub": lambda r: mul_sub(r.a, r.scale, r.offset),
    "PostOp::is_identity": lambda r: is_identity(r.scale, r.offset),
    "PostOp::apply": lambda r: applied(r.a, r.scale, r.offset),
    "PostOp::truthy_value": lambda r: selected(True, r.scale, r.offset),
    "Post::falsy_value": lambda r: selected(False, r.scale, r.offset),
    "Post::select true": lambda r: selected(True, r.scale, r.offset),
    "Post::select false": lambda r: selected(False, r.scale, r.offset),
    "instr::truthy": lambda r: truthy(r.a),
    "instr::not": lambda r: selected(not truthy(r.a), r.scale, r.offset),
    "instr::negate": lambda r: negated(r.a, r.scale, r.offset),
    "fpu::add, posted": lambda r: applied(add(r.b, r.a), r.scale, r.offset),
    "fpu::mul, posted": lambda r: applied(mul(r.b, r.a), r.scale, r.offset),
    "fpu::div, posted": lambda r: applied(div(r.a, r.b), r.scale, r.offset),
    "instr::div_guard signed, passes": lambda r: guard_passes(r.a),
    "instr::div_guard signed, divisor": lambda r: guard_divisor(True, r.a),
    "instr::div_guard absolute, passes": lambda r: guard_passes(r.a),
    "instr::div_guard absolute, divisor": lambda r: guard_divisor(False, r.a),
    "arithmetic::mod_runtime": lambda r: mod_runtime(r.a, r.b, r.scale, r.offset),
    "arithmetic::mod_const": lambda r: mod_const(r.a, r.b, r.scale, r.offset),
    "fpu::floor": lambda r: whole(floor, r.a),
    "fpu::ceil": lambda r: whole(ceil, r.a),
    "fpu::trunc": lambda r: whole(trunc, r.a),
    "arithmetic::abs": lambda r: absolute(r.a),
}


def encoded(row):
    words = [*row, *(int(result(row)) for result in RESULTS.values())]
    return struct.pack(f"<{len(words)}I", *words)


# ---- the numbers that rows are chosen from


class Patterns(repeatable.Random):
    """Random patterns of some kinds."""

    def pattern(self):
        return self.below(1 << 32)

    def sign(self):
        return self.pick((0, SIGN))

    def subnormal(self):
        return self.sign() + 1 + self.below(LARGEST_SUBNORMAL)

    def near_one(self, spread):
        """A number between 2^-spread and 2^spread, of either sign."""
        return self.sign() + ((127 - spread + self.below(2 * spread)) << 23) + self.below(1 << 23)

    def nan(self):
        return self.sign() + INFINITY + 1 + self.below((1 << 23) - 1)


MAGNITUDES = (
    0,
    1,  # the smallest subnormal
    0x0000_0002,
    0x0040_0001,
    LARGEST_SUBNORMAL,
    SMALLEST_NORMAL,
    0x0080_0001,
    EPSILON - 1,
    EPSILON,
    EPSILON + 1,
    HALF,
    0x3F7F_FFFF,  # below 1
    ONE,
    ONE + 1,
    THREE,
    0x4B80_0000,  # 2^24
    LARGEST,
    INFINITY,
    INFINITY + 1,  # signalling
    INFINITY + QUIET - 1,  # signalling, its payload full
    MADE_NAN,
    MADE_NAN + 0x12345,  # quiet, with a payload
)
SPECIAL = tuple(sign + n for sign in (0, SIGN) for n in MAGNITUDES)
POSTS = (
    (ONE, 0),  # the two identities
    (ONE, SIGN),
    (ONE, 1),
    (ONE, ONE),
    (ONE, INFINITY),
    (ONE, SIGN + INFINITY + 1),
    (ONE, MADE_NAN + 7),
    (ONE + 1, 0),
    (ONE - 1, SIGN),
    (SIGN + ONE, 0),
    (0, 0),
    (SIGN, SIGN),
    (0, THREE),
    (0x4000_0000, 0xBF80_0000),
    (0x3DCC_CCCD, 0x3E4C_CCCD),
    (LARGEST, LARGEST),
    (1, SIGN + 1),
    (INFINITY, SIGN + INFINITY),
    (INFINITY + 1, ONE),
    (SIGN + MADE_NAN + 3, 0),
)
# Quiet NaNs without a payload, with the least and with the full one; signalling ones with the least and with the full one.
NANS = tuple(
    sign + n
    for sign in (0, SIGN)
    for n in (MADE_NAN, MADE_NAN + 1, SIGN - 1, INFINITY + 1, INFINITY + QUIET - 1)
)


# ---- groups of rows


def special_pairs():
    """Each special number with each; the posts go round."""
    return [Row(a, b, *POSTS[(i + 7 * j) % len(POSTS)]) for i, a in enumerate(SPECIAL) for j, b in enumerate(SPECIAL)]


def posts_of_special():
    """Each special number under each post."""
    return [Row(a, ONE + j, *post) for a in SPECIAL for j, post in enumerate(POSTS)]


def nans_that_enter():
    """Each NaN as the number, under both identities and a post that computes; as the offset; as both. Divisors are zeros."""
    rows = []
    for n in NANS:
        for zero in (0, SIGN):
            numbers = (Row(n, zero, ONE, zero), Row(n, zero, THREE, HALF))
            offsets = (Row(ONE, zero, ONE, n), Row(zero, zero, ONE, n), Row(n, zero, THREE, n))
            rows += numbers + offsets
    return rows


def offsets_taken(random, count):
    """Identity posts, scale 1 with another offset, and offsets that are NaN, over patterns of every kind."""
    rows = []
    for _ in range(count):
        a = random.pick((random.pattern(), random.nan(), random.subnormal(), random.sign()))
        offset = random.pick((0, SIGN, random.subnormal(), random.near_one(4), random.nan()))
        rows.append(Row(a, random.near_one(8), ONE, offset))
    return rows


def guards(random, count):
    """Divisors at 2^-23 and beside it, of both signs."""
    return [Row(random.sign() + EPSILON - 8 + i % 16, *(random.near_one(3) for _ in range(3))) for i in range(count)]


def ties(random, count, exact, draw):
    """Rows whose exact result lies half way between two numbers of binary32."""
    rows = []
    while len(rows) < count:
        a, b = draw(random)
        if is_tie(exact(value(a), value(b))):
            rows.append(Row(a, b, *random.pick(POSTS)))
    return rows


def near_sums(random):
    """Two numbers whose last places lie some bits apart, the smaller one short."""
    a = random.near_one(10)
    lower = (a >> 23) % 256 - random.below(24) - 1
    return a, random.sign() + (lower << 23) + (random.below(16) << 19)


def short_products(random):
    """Factors whose product has 25 bits, or ends below the smallest subnormal."""
    if random.below(2) == 0:
        return rounded(Fraction(4096 + random.below(4096))), rounded(Fraction(4096 + random.below(4096)))
    return random.subnormal(), random.sign() + HALF


def short_quotients(random):
    """Quotients by powers of two that end below the smallest subnormal: no other quotient is a tie."""
    a = random.sign() + ((1 + random.below(24)) << 23) + (random.below(1 << 10) << 13)
    return a, random.sign() + ((127 + 1 + random.below(24)) << 23)


def is_fusing(row, raw):
    """Whether raw * scale + offset rounded once, as a fused multiply-add has it, is another finite number."""
    two = mul_add(raw, row.scale, row.offset)
    if any(map(is_special, (raw, row.scale, row.offset, two))):
        return False
    return rounded(value(raw) * value(row.scale) + value(row.offset)) not in (two, neg(two))


def fusing_rows(random, count, raw):
    """Rows on which a fused multiply-add would differ: raw(a, b) * scale and the offset nearly cancel."""
    rows = []
    while len(rows) < count:
        a, b, scale = random.near_one(6), random.near_one(6), random.near_one(6)
        row = Row(a, b, scale, neg(mul(raw(a, b), scale)) ^ random.below(4))
        if is_fusing(row, raw(a, b)):
            rows.append(row)
    return rows


def large_quotients(random, count):
    """Remainders with quotients beyond 2^24."""
    rows = []
    while len(rows) < count:
        a, b = random.pattern(), random.pattern()
        if not is_special(a) and not is_special(b) and units(a) >> 24 > units(b) > 0:
            rows.append(Row(a, b, *random.pick(POSTS)))
    return rows


def exact_remainders(random, count):
    """A divisor and a multiple of it: the remainder is a zero with the dividend's sign."""
    rows = []
    for i in range(count):
        b = random.sign() + (random.below(200) << 23) + ((1 + random.below(4095)) << 11)
        a = (i % 2 * SIGN) + rounded((1 + random.below(2048)) * units(b) * UNIT)
        rows.append(Row(a, b, *random.pick(POSTS)))
    return rows


def extreme_remainders():
    """The ends of the range against each other, and divisors whose remainders are long."""
    ends = (1, 2, 3, LARGEST_SUBNORMAL, SMALLEST_NORMAL, 0x0080_0003, ONE + 1, 0x7F00_0001, LARGEST - 1, LARGEST)
    pairs = [(a + sign, b) for a in ends for b in ends for sign in (0, SIGN)]
    return [Row(a, b, *POSTS[i % len(POSTS)]) for i, (a, b) in enumerate(pairs)]


def range_ends(random, count):
    """Sums, products and quotients that end just inside or outside the range."""
    rows = []
    for _ in range(count):
        tiny = 1 + random.below(8)
        a = random.pick((LARGEST - random.below(4), SMALLEST_NORMAL - 4 + random.below(8), tiny))
        b = random.pick((HALF_PLACE - 2 + random.below(5), ONE - 4 + random.below(8), HALF + random.below(4), tiny))
        rows.append(Row(random.sign() + a, random.sign() + b, *random.pick(POSTS)))
    return rows


def subnormals(random, count):
    return [Row(random.subnormal(), random.subnormal(), random.near_one(20), random.subnormal()) for _ in range(count)]


def near_pairs(random, count):
    """Numbers of like size, where sums cancel and quotients have every rounding."""
    return [Row(*(random.near_one(12) for _ in range(4))) for _ in range(count)]


def any_patterns(random, count):
    return [Row(*(random.pattern() for _ in range(4))) for _ in range(count)]


def both_signs(magnitudes):
    """A row of each magnitude with each sign; the posts go round."""
    numbers = [sign + n for n in magnitudes for sign in (0, SIGN)]
    return [Row(a, THREE, *POSTS[i % len(POSTS)]) for i, a in enumerate(numbers)]


def whole_numbers(exponent):
    """From 2^exponent on, below the next power of two: each of up to 16, and of more the first two, the middle, the last two."""
    first, end = 1 << exponent, 2 << exponent
    return range(first, end) if exponent <= 4 else (first, first + 1, first + first // 2, end - 2, end - 1)


def beside(x):
    """The pattern of a fraction, and those on both sides of it."""
    return [rounded(x) + step for step in (-1, 0, 1)]


def near_whole_numbers():
    """Whole numbers of each exponent from 0 to 24 and the halves above them, with their neighbours."""
    every = [w for exponent in range(25) for w in whole_numbers(exponent)]
    magnitudes = {n for w in every for x in (Fraction(w), w + Fraction(1, 2)) for n in beside(x)}
    return both_signs(sorted(magnitudes))


def below_one(random, count):
    """Zeros, subnormals and small numbers, the ends of both, and 1/2 with its neighbours."""
    ends = [0, 1, 2, LARGEST_SUBNORMAL - 1, LARGEST_SUBNORMAL, SMALLEST_NORMAL, SMALLEST_NORMAL + 1, *beside(Fraction(1, 2))]
    drawn = [1 + random.below(LARGEST_SUBNORMAL) for _ in range(count)]
    return both_signs([*ends, *drawn, *(random.below(ONE) for _ in range(count))])


def about_the_last_halves(random, count):
    """From 2^22, the last exponent with halves, to 2^24, where every second whole number is none of binary32."""
    first, end = rounded(Fraction(1 << 22)), rounded(Fraction(1 << 24))
    return both_signs([first + random.below(end - first) for _ in range(count)])


def whole_already(random, count):
    """From 2^23 to the largest, infinities, and NaNs."""
    first = rounded(Fraction(1 << 23))
    ends = [LARGEST - 1, LARGEST, INFINITY, *(n for n in NANS if n < SIGN)]
    return both_signs([*(first + random.below(LARGEST - first) for _ in range(count)), *ends])


def about_the_point(random, count):
    """Numbers with digits on both sides of the point, and some with none on one."""
    return [Row(random.sign() + random.pick(range(125, 152)) * (1 << 23) + random.below(1 << 23), random.near_one(8),
                *random.pick(POSTS)) for _ in range(count)]


def groups():
    """The groups of rows by name, in the order of the table."""
    random = Patterns(2026)
    return {
        "special pairs": special_pairs(),
        "posts of special numbers": posts_of_special(),
        "NaNs that enter": nans_that_enter(),
        "identity posts and other offsets": offsets_taken(random, 120),
        "divisors about 2^-23": guards(random, 64),
        "ties of sums": ties(random, 60, lambda x, y: x + y, near_sums),
        "ties of products": ties(random, 60, lambda x, y: x * y, short_products),
        "ties of quotients": ties(random, 60, lambda x, y: x / y, short_quotients),
        "fused: apply": fusing_rows(random, 60, lambda a, b: a),
        "fused: negate": fusing_rows(random, 60, lambda a, b: neg(a)),
        "fused: add": fusing_rows(random, 60, add),
        "fused: mul": fusing_rows(random, 60, mul),
        "fused: div": fusing_rows(random, 60, div),
        "fused: mod": fusing_rows(random, 60, rem),
        "remainders, quotient above 2^24": large_quotients(random, 120),
        "remainders that are zero": exact_remainders(random, 80),
        "remainders at the ends of the range": extreme_remainders(),
        "ends of the range": range_ends(random, 120),
        "subnormals": subnormals(random, 80),
        "numbers of like size": near_pairs(random, 200),
        "any patterns": any_patterns(random, 200),
        "whole numbers, halves and neighbours": near_whole_numbers(),
        "below 1": below_one(random, 40),
        "2^22 to 2^24": about_the_last_halves(random, 60),
        "whole already, infinities and NaNs": whole_already(random, 40),
        "digits about the point": about_the_point(random, 200),
    }


def main():
    rows_of = groups()
    table = b"".join(encoded(row) for rows in rows_of.values() for row in rows)
    if repeatable.write({TABLE: table}):
        print(f"{TABLE.name}: as written, {len(table)} bytes")
        return
    for name, rows in rows_of.items():
        print(f"{len(rows):5} {name}")
    print(f"{sum(map(len, rows_of.values())):5} rows, {len(RESULTS)} results each, {len(table)} bytes")


if __name__ == "__main__":
    main()
