#!/usr/bin/env python3
"""Holds the decimals that ./studio writes to Python's: `%.9g` of each number, and the same bits when read back.

The patterns: every power of two and of ten with its neighbours, the subnormals' powers among them; the ends of every
range; ties at the ninth digit; all these with both signs; and 2,000 at random, of a fixed seed. They go in as the cells
of a program with 256 names that does nothing, and come out on the account's `cell` lines.
"""
import os
import random
import struct
import subprocess
import tempfile

from assemble import Program

HERE = os.path.dirname(os.path.abspath(__file__))
NAMES = 256


def number(bits):
    return struct.unpack("<f", struct.pack("<I", bits))[0]


def bits_of(value):
    return struct.unpack("<I", struct.pack("<f", value))[0]


def patterns():
    chance = random.Random(6)
    powers = [1 << k for k in range(23)] + [k << 23 for k in range(1, 256)]
    tens = [bits_of(10.0**k) for k in range(-45, 39)]
    # Ties at the ninth digit: an odd number over 2^k has k digits after the point, the last a 5; here ten in all.
    ranges = [(k, 10 ** (9 - k) << k, min(10 ** (10 - k) << k, 1 << 24)) for k in range(3, 10)]
    ties = [bits_of((chance.randrange(low, high) | 1) / 2**k) for k, low, high in ranges for _ in range(40)]
    near = [b + d for b in powers + tens for d in (-1, 0, 1)]
    ends = [0, 1, 0x7FFFFF, 0x800000, 0x7F7FFFFF, 0x7F800000, 0x7F800001, 0x7FC00000, 0x7FFFFFFF]
    ends += [bits_of(999999999.0), bits_of(0.0001), bits_of(0.000099999999)]
    both = sorted({b for b in near + ties + ends if 0 <= b < 1 << 31})
    return both + [b + (1 << 31) for b in both] + [chance.getrandbits(32) for _ in range(2000)]


def written(folder, batch):
    """The decimals that studio writes for up to 256 patterns."""
    cells = os.path.join(folder, "cells")
    full = batch + [0] * (NAMES - len(batch))
    with open(cells, "wb") as file:
        file.write(b"".join(struct.pack("<BQ", 1, b) for b in full))
    command = [os.path.join(HERE, "..", "studio"), os.path.join(folder, "program"), cells]
    lines = subprocess.run(command, capture_output=True, text=True, check=True).stdout.splitlines()
    found = [line.split() for line in lines if line.startswith("cell ")]
    assert [int(words[3], 16) for words in found] == full
    return [words[4] for words in found][: len(batch)]


def is_right(bits, text):
    value = number(bits)
    if value != value:
        return text == "nan"
    return text == "%.9g" % value and bits_of(float(text)) == bits


def main():
    every = patterns()
    wrong = 0
    with tempfile.TemporaryDirectory() as folder:
        with open(os.path.join(folder, "program"), "wb") as file:
            file.write(Program().file(f"names {NAMES}"))
        for start in range(0, len(every), NAMES):
            batch = every[start : start + NAMES]
            for bits, text in zip(batch, written(folder, batch)):
                if not is_right(bits, text):
                    wrong += 1
                    print("%08X" % bits, text, "expected", "%.9g" % number(bits))
    print(len(every), "patterns,", wrong, "differ")
    raise SystemExit(wrong > 0)


if __name__ == "__main__":
    main()
