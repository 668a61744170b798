#!/usr/bin/env python3
"""Writes crates/file_table/data/list: files with the number that documents 01 and 02 answer each, 0 where they accept it.

The reader here is written from document 01 ('The file', 'Files and calls sent back') and from document 02, Nine and Twelve, and
shares nothing with the crate file. It is the one independent reader: its table of opcodes is its own, and not the one that the
other tools share (opcodes.py). docs/FILE_TABLE.md says what the list holds. What crates/file_table is to write, and the files of
crates/bench/data, are written too. tools/convert_table.py asks the same reader as the converter does.

    tools/file_table.py             write the files, and print how many each group has
    tools/file_table.py --check     say whether the files are what would be written
    tools/file_table.py --show ROW  print the file that a row of the list completes, and its answer
"""

import re
import struct
import sys
from itertools import combinations
from pathlib import Path

import repeatable

CRATES = Path(__file__).resolve().parent.parent / "crates"
LIST = CRATES / "file_table" / "data" / "list"
STDOUT = CRATES / "file_table" / "stdout"
BENCH = CRATES / "bench" / "data"

# ---- the reader

# Document 01's own line, and no table that another tool or crate reads.
OPCODES = """1 Const c; 2 Hash h; 3 Resource h; 4 This p; 5 LoadVar n p; 6 LoadTemp t p; 7 LoadCtx n p; 8 Member n p;
9 StoreVar n p; 10 StoreTemp t p; 11 Push; 12 PushConst c; 13 Negate p; 14 Not p; 15 AddAcc; 16 AddLast p; 17 Mul p;
18 DivGuard j; 19 Div p; 20 Mod p; 21 ModConst c p; 22 HostMath p; 23 Cmp p; 24 CmpConst c p; 25 Eq p; 26 EqConst c p;
27 EqHash h p; 28 AndStep j p; 29 OrStep j p; 30 AndLast p; 31 OrLast p; 32 Jump j; 33 JumpIfFalsy j; 34 Post p;
35 HandlerPush j; 36 HandlerPop j; 37 PointerEnter j p; 38 PointerLeave p; 39 Call (free argument) p; 40 LoopBegin j;
41 LoopCheck j; 42 LoopEnd; 43 EachBegin j; 44 EachNextVar j; 45 EachNextTemp j; 46 Return p; 47 Halt; 48 End."""

# Document 02, Twelve: "opcodes 49 Floor, 50 Ceil, 51 Trunc and 52 Abs, each with a post for its result and no other part".
ADDED = "49 Floor p; 50 Ceil p; 51 Trunc p; 52 Abs p."

LARGEST_CHOICE = {18: 1, 22: 255, 23: 3, 24: 3, 25: 1, 26: 1, 27: 1}
SECOND_INDEX = {44: "n", 45: "t"}  # what bytes 2-3 hold besides a post
FIELDS = {1: (4, 1), 2: (4, 4096), 3: (8, 1024), 4: (8, 256), 5: (8, 4096)}  # bytes of an entry, most entries
MOST_NAMES, MOST_TEMPS = 256, 8
IDENTITY = bytes.fromhex("0000803F00000000")


def parsed_opcodes():
    """Of each opcode the letter of its argument and of bytes 2-3, '' where the part is unused, 'j' where it is free."""
    parts = {}
    for entry in f"{OPCODES[:-1]}; {ADDED[:-1]}".replace("(free argument)", "j").split(";"):
        number, letters = re.fullmatch(r"\s*(\d+) [A-Z]\w+((?: [chntjp])*)", entry).groups()
        letters = letters.split()
        second = SECOND_INDEX.get(int(number), "p" if "p" in letters else "")
        parts[int(number)] = ("".join(x for x in letters if x != "p"), second)
    return parts


PARTS = parsed_opcodes()
LAST = 52  # "Refusal 7 now begins above 52."
WITHDRAWN = 22  # "HostMath is withdrawn. .. New files may not carry it."
CARRIED = [opcode for opcode in PARTS if opcode != WITHDRAWN]


def record_answer(record, sizes, for_converter):
    """The number of a record. "14, opcode 22 in a file for anything but the converter, in the place of 7; 15, the converter meets a
    count above 1, within each record after 9."
    """
    opcode, choice, second, argument = struct.unpack("<BBHI", record)
    if opcode not in PARTS:
        return 7
    if opcode == WITHDRAWN and not for_converter:
        return 14
    if choice > LARGEST_CHOICE.get(opcode, 0):
        return 8
    used = list(zip(PARTS[opcode], (argument, second)))
    if any(value != 0 for letter, value in used if letter == ""):
        return 8
    if any(value >= sizes[letter] for letter, value in used if letter in sizes):
        return 9
    return 15 if opcode == WITHDRAWN and choice > 1 else 0


def contents_answer(tag, body):
    if tag == 1:
        names, temps = struct.unpack("<HH", body)
        return 5 if names > MOST_NAMES or temps > MOST_TEMPS else 0
    return 6 if tag == 3 and body[:8] != IDENTITY else 0


def taken_field(tag, data):
    """The answer to the field at the head of the bytes, its body, and what follows."""
    size, most = FIELDS[tag]
    if not data:
        return 1, b"", b""
    if data[0] != tag:
        return 2, b"", b""
    if len(data) < 3:
        return 1, b"", b""
    length = data[1] + 256 * data[2]
    if (tag == 1 and length != 4) or length % size != 0 or length // size > most:
        return 3, b"", b""
    body, after = data[3 : 3 + length], data[3 + length :]
    if len(body) < length:
        return 1, b"", b""
    return contents_answer(tag, body), body, after


def answer(data, for_converter=False):
    """The number that sends the file back, 0 where it is accepted: by a check, or by the converter."""
    bodies = {}
    for tag in FIELDS:
        number, bodies[tag], data = taken_field(tag, data)
        if number:
            return number
    if data:
        return 4
    names, temps = struct.unpack("<HH", bodies[1])
    sizes = {"n": names, "t": temps, "c": len(bodies[2]) // 4, "p": len(bodies[3]) // 8, "h": len(bodies[4]) // 8}
    records = (bodies[5][i : i + 8] for i in range(0, len(bodies[5]), 8))
    return next((number for number in (record_answer(r, sizes, for_converter) for r in records) if number), 0)


# ---- files


def field(tag, body, length=None):
    return bytes([tag]) + struct.pack("<H", len(body) if length is None else length) + body


def record(opcode, choice=0, second=0, argument=0):
    return struct.pack("<BBHI", opcode, choice, second, argument)


def consts(count):
    return (bytes.fromhex("0000C03F") * count)[: 4 * count]


def posts(count):
    return (IDENTITY + bytes.fromhex("000000400000803F") * count)[: 8 * count]


def hashes(count):
    return bytes.fromhex("1122334455667788") * count


def whole_file(names=0, temps=0, c=0, p=1, h=0, records=b""):
    """A file with so many names, temps, constants, posts and hashes."""
    fields = (struct.pack("<HH", names, temps), consts(c), posts(p), hashes(h), records)
    return b"".join(field(tag, body) for tag, body in enumerate(fields, 1))


def legal_record(opcode, index=0):
    """A record with its largest choice, and `index` in each part that it uses."""
    argument, second = PARTS[opcode]
    return record(opcode, LARGEST_CHOICE.get(opcode, 0), index if second else 0, index if argument else 0)


E = bytes.fromhex("01040000000000 020000 0308000000803F00000000 040000 050000")
ALL_OPCODES = b"".join(legal_record(opcode, 1) for opcode in CARRIED)
SMALL_RECORDS = record(5, 0, 1, 0) + record(24, 1, 0, 0) + record(27, 0, 1, 0) + record(45, 0, 0, 7) + record(48)
SMALL = whole_file(1, 1, 1, 2, 1, SMALL_RECORDS)
LARGE = whole_file(4, 2, 3, 2, 2, ALL_OPCODES)
LARGEST = whole_file(MOST_NAMES, MOST_TEMPS, 4096, 1024, 256, record(48) * 4096)


def changed(data, edits):
    """The bytes with those at some places replaced: a dictionary of places and bytes."""
    data = bytearray(data)
    for at, new in edits.items():
        data[at : at + len(new)] = new
    return bytes(data)


# ---- the refusal table, with the number that document 01 gives each example, and a file of Nine's

EXAMPLES = {
    "refused_1_empty": (1, b""),
    "refused_2": (2, b"\x02"),
    "refused_3": (3, bytes.fromhex("010500")),
    "refused_4": (4, E + b"\0"),
    "refused_5": (5, bytes.fromhex("01040000000900")),
    "refused_6": (6, E.replace(field(3, IDENTITY), field(3, b""))),
    "refused_7": (7, E[:-3] + field(5, bytes(8))),
    "refused_8": (8, E[:-3] + field(5, bytes.fromhex("3001000000000000"))),
    "refused_9": (9, E[:-3] + field(5, bytes.fromhex("0100000000000000"))),
    "refused_14": (14, E[:-3] + field(5, bytes.fromhex("1601000000000000"))),
}
BENCH_FILES = {
    "accepted": E,
    "accepted_all_opcodes": LARGE,
    **{name: data for name, (_, data) in EXAMPLES.items()},
    "refused_4_longer_than_the_buffer": E + bytes(70_000),
}


def examples():
    for number, data in EXAMPLES.values():
        assert answer(data) == number
    return [E, *(data for _, data in EXAMPLES.values())]


# ---- faults, each an edit of one valid file, and the pairs of them


class Fault:
    """One fault: its number, when its test comes (field or record, then test), and the edit that makes it."""

    def __init__(self, number, when, edits=None, cut=None, after=b""):
        self.number, self.when, self.edits, self.cut, self.after = number, when, edits or {}, cut, after

    def touched(self):
        return {at + i for at, new in self.edits.items() for i in range(len(new))}

    def meets(self, other):
        """Whether both can stand in one file: neither edits what the other edits or cuts off."""
        cuts = [f.cut for f in (self, other) if f.cut is not None]
        if cuts and (len(cuts) == 2 or self.after or other.after):
            return False
        places = self.touched() | other.touched()
        return not (self.touched() & other.touched()) and all(at < cuts[0] for at in places if cuts)


def with_faults(data, *faults):
    data = changed(data, {at: new for f in faults for at, new in f.edits.items()})
    for f in faults:
        data = data[: f.cut] + f.after
    return data


FAULTLESS_RECORDS = record(1, 0, 0, 1) + record(24, 3, 1, 1) + record(11) + record(45, 0, 0, 9)
FAULTLESS = whole_file(2, 1, 2, 2, 1, FAULTLESS_RECORDS)


def field_places(data):
    """Where each field of a valid file starts, and where the file ends."""
    places, at = [], 0
    for _ in FIELDS:
        places.append(at)
        at += 3 + data[at + 1] + 256 * data[at + 2]
    return [*places, at]


def field_faults():
    """1, 2 and 3 in each field, 4, 5 and 6.

    The tests of a field, from 0: end, tag, end in the length, length, end in the body, contents.
    """
    places = field_places(FAULTLESS)
    faults = [Fault(4, (6, 0), after=b"\0"), Fault(4, (6, 0), after=E)]
    for tag, (size, most) in FIELDS.items():
        at, end = places[tag - 1], places[tag]
        faults += [Fault(1, (tag, 0), cut=at), Fault(1, (tag, 2), cut=at + 1), Fault(1, (tag, 2), cut=at + 2)]
        faults += [Fault(1, (tag, 4), cut=cut) for cut in range(at + 3, end)]
        faults += [Fault(2, (tag, 1), {at: bytes([bad])}) for bad in (0, tag % 5 + 1, 255)]
        lengths = (end - at - 3 + 1, size * (most + 1), 0xFFFF)
        faults += [Fault(3, (tag, 3), {at + 1: struct.pack("<H", n)}) for n in lengths]
    faults += [Fault(5, (1, 5), {places[0] + 3: struct.pack("<H", 257)})]
    faults += [Fault(5, (1, 5), {places[0] + 5: struct.pack("<H", 9)})]
    faults += [Fault(6, (3, 5), {places[2] + 3 + i: bytes([0x41])}) for i in (0, 3, 4, 7)]
    return faults


def record_faults():
    """7, 14, 8 and 9 in each record of the file: 14 has the place of 7."""
    first = field_places(FAULTLESS)[4] + 3
    made = []
    for i in range(4):
        at, when = first + 8 * i, 7 + i
        made += [Fault(7, (when, 7), {at: bytes([bad])}) for bad in (0, LAST + 1, 255)]
        made += [Fault(14, (when, 7), {at: bytes([WITHDRAWN])})]
        made += [Fault(8, (when, 8), {at + 1: bytes([bad])}) for bad in (4, 255)]
    made += [Fault(8, (7, 8), {first + 2: b"\1"}), Fault(8, (7, 8), {first + 3: b"\1"})]
    made += [Fault(8, (9, 8), {first + 16 + i: b"\1"}) for i in range(2, 8)]
    made += [Fault(9, (7, 9), {first + 4: b"\2"}), Fault(9, (7, 9), {first + 7: b"\1"})]
    made += [Fault(9, (8, 9), {first + 10: b"\2"}), Fault(9, (8, 9), {first + 12: b"\2"})]
    made += [Fault(9, (10, 9), {first + 26: b"\1"}), Fault(9, (10, 9), {first + 27: b"\1"})]
    return made


FAULTS = field_faults() + record_faults()


def alone():
    """Each fault by itself, answered by its number."""
    files = []
    for fault in FAULTS:
        files.append(with_faults(FAULTLESS, fault))
        assert answer(files[-1]) == fault.number
    return files


def pairs():
    """Two faults of different numbers in one file, answered by the one whose test comes earlier."""
    files, seen = [], {}
    for one, other in combinations(FAULTS, 2):
        if one.number != other.number and one.meets(other):
            files.append(with_faults(FAULTLESS, one, other))
            earlier, later = sorted((one, other), key=lambda fault: fault.when)
            assert answer(files[-1]) == earlier.number
            seen.setdefault((earlier.number, later.number), []).append(files[-1])
    missing = {p for p in combinations((*range(1, 10), 14), 2) if p not in seen and p[::-1] not in seen}
    assert missing == {(1, 4)}  # a file that ends too early has no bytes after field 5
    return files


# ---- cuts and single bytes


def cuts():
    """Every cut of valid files, and of two with a fault in their first record: 1 wherever the cut is."""
    faulty = [whole_file(4, 2, 3, 2, 2, bad + ALL_OPCODES[8:]) for bad in (bytes(8), record(WITHDRAWN))]
    return [data[:n] for data in (E, SMALL, LARGE, *faulty) for n in range(len(data), -1, -1)]


def byte_changes(data, values_of):
    return [data, *(changed(data, {at: bytes([v])}) for at in range(len(data)) for v in values_of(data[at]))]


def every_other(byte):
    return [v for v in range(256) if v != byte]


def some_others(byte):
    """At least 17 other values."""
    picked = {0, 1, 2, 3, 4, 5, 7, 8, 9, 16, WITHDRAWN, LAST, LAST + 1, 64, 127, 128, 254, 255}
    return sorted((picked | {(byte + 1) % 256, (byte - 1) % 256, byte ^ 0x80}) - {byte})


# ---- lengths and counts


def with_body(tag, body, length=None):
    """A file whose field `tag` has a body, and the other tables one entry."""
    fields = {1: struct.pack("<HH", 1, 1), 2: consts(1), 3: posts(1), 4: hashes(1), 5: record(48)}
    fields[tag] = body
    return b"".join(field(t, b, length if t == tag else None) for t, b in fields.items())


def body_of(tag, length):
    size, _ = FIELDS[tag]
    count = length // size + 1
    return {1: bytes(length), 2: consts(count), 3: posts(count), 4: hashes(count), 5: record(48) * count}[tag][:length]


def lengths():
    """Each field at lengths about none, one entry, two and the maximum: with its body, and with the length alone."""
    files = []
    for tag, (size, most) in FIELDS.items():
        near = {*range(2 * size + 1), *range(size * (most - 2), size * (most + 2) + 1)}
        near |= {0x0104, 0x0400, 0x7FFF, 0x8000, 0xFFF8, 0xFFFF}
        for length in sorted(n for n in near if n >= 0):
            body = body_of(tag, length)
            files += [f for f in (with_body(tag, body), with_body(tag, body)[:-1]) if len(f) <= 0xFFFF]
            files.append(with_body(tag, b"", length))
    return files


def name_and_temp_counts():
    names = (0, 1, 255, 256, 257, 258, 511, 512, 0x8000, 0xFFFF)
    temps = (0, 1, 7, 8, 9, 10, 255, 256, 264, 0x8000, 0xFFFF)
    return [whole_file(n, t, records=record(48)) for n in names for t in temps]


def largest():
    """The file of 59,411 bytes with every table full: its last record, indices at the ends, bytes after it."""
    assert len(LARGEST) == 59_411 and answer(LARGEST) == 0
    last, files = len(LARGEST) - 8, [LARGEST, LARGEST[:-1]]
    sizes = {"n": 256, "t": 8, "c": 4096, "p": 1024, "h": 256}
    for opcode, (argument, second) in PARTS.items():
        for a in index_values(sizes.get(argument, 1)):
            files.append(changed(LARGEST, {last: record(opcode, 0, 0, a)}))
        for s in index_values(sizes.get(second, 1)):
            if s <= 0xFFFF:
                files.append(changed(LARGEST, {last: record(opcode, 0, s, 0)}))
    files += [changed(LARGEST, {last: bad}) for bad in (bytes(8), record(LAST + 1), record(48, 1), record(1, 0, 0, 4096))]
    files += [LARGEST + bytes(n) for n in (1, 2, 8, 3000, 0xFFFF - len(LARGEST))]
    return files


def index_values(size):
    return sorted({0, size - 1, size, size + 1, 2 * size, 0xFFFF, 0x10000, 0xFFFFFFFF})


# ---- records

SIZES = {"n": 6, "t": 2, "c": 4, "p": 3, "h": 5}  # all different, so that no table can stand for another
CHOICES = (0, 1, 2, 3, 4, 255)
SECONDS = (0, 1, 2, 3, 4, 5, 6, 7, 0x100, 0x8000, 0xFFFF)
ARGUMENTS = (0, 1, 2, 3, 4, 5, 6, 7, 0x100, 0x10000, 0x80000000, 0xFFFFFFFF)


def one_record(data):
    return whole_file(SIZES["n"], SIZES["t"], SIZES["c"], SIZES["p"], SIZES["h"], data)


def parts():
    """Each opcode, and some that are none, with two of its three parts at each value and the third at 0."""
    files = []
    for opcode in (0, *PARTS, LAST + 1, LAST + 2, 128, 255):
        files += [one_record(record(opcode, c, s, 0)) for c in CHOICES for s in SECONDS]
        files += [one_record(record(opcode, c, 0, a)) for c in CHOICES for a in ARGUMENTS]
        files += [one_record(record(opcode, 0, s, a)) for s in SECONDS for a in ARGUMENTS]
    return files


def every_choice():
    """Each value of the choice byte, for the opcodes that have a choice and seven that have none."""
    return [one_record(record(opcode, c)) for opcode in (*LARGEST_CHOICE, 1, 11, 48, 49, 50, 51, 52) for c in range(256)]


def every_opcode():
    """Each value of the opcode byte over zeros: with every table in use, and with E's."""
    return [f(record(op)) for f in (one_record, lambda r: whole_file(records=r)) for op in range(256)]


def withdrawn():
    """Records of opcode 22: its counts, and what would be 8 or 9 of another opcode."""
    counts = [record(WITHDRAWN, count) for count in (0, 1, 2, 8, 255)]
    return [*counts, record(WITHDRAWN, 1, 9), record(WITHDRAWN, 2, 0, 9), record(WITHDRAWN, 255, 0xFFFF, 0xFFFFFFFF)]


def record_order():
    """Two faulty records in one file: the first of them answers."""
    bad = (record(0), record(LAST + 1, 1), record(48, 1), record(1, 1, 0, 9), record(1, 0, 0, 9), record(4, 0, 9), *withdrawn())
    good, files = record(11), []
    for one in bad:
        for other in bad:
            files += [one_record(r) for r in (one + other + good, one + good + other, good + one + other)]
    return files


def random_records(random, count):
    """Records drawn about the ends of their ranges."""
    drawn = []
    for _ in range(count):
        choice, second = random.pick((0, 0, 0, 1, 3, 4)), random.pick((0, 0, 1, 2, 3))
        argument = random.pick((0, 0, 1, 2, 3, 4, 5, 6))
        drawn.append(one_record(record(1 + random.below(LAST), choice, second, argument)))
    return drawn


def random_changes(random, base, count):
    """Two to four bytes of a file changed, and sometimes a cut or bytes after the end."""
    files = []
    for _ in range(count):
        data = base
        for _ in range(2 + random.below(3)):
            new = random.pick((0, 1, 2, 3, 9, LAST + 1, random.below(256)))
            data = changed(data, {random.below(len(data)): bytes([new])})
        end = random.pick((len(data), len(data), random.below(len(data))))
        files.append(data[:end] + bytes(random.pick((0, 0, 0, 1, 9))))
    return files


def groups():
    """The groups of files by name, in the order of the list."""
    random = repeatable.Random(2026)
    return {
        "examples of the refusal table": examples(),
        "one fault": alone(),
        "two faults of different numbers": pairs(),
        "every cut of five files": cuts(),
        "E, every change of a byte": byte_changes(E, every_other),
        "a small file, every change of a byte": byte_changes(SMALL, every_other),
        "a file with all opcodes but 22, 17 to 21 changes of each byte": byte_changes(LARGE, some_others),
        "lengths of the fields": lengths(),
        "counts of names and temps": name_and_temp_counts(),
        "the largest file": largest(),
        "every opcode byte": every_opcode(),
        "every choice": every_choice(),
        "parts of each opcode": parts(),
        "two faulty records": record_order(),
        "random records": random_records(random, 3000),
        "random changes": [f for base in (SMALL, FAULTLESS, LARGE) for f in random_changes(random, base, 1000)],
    }


# ---- the list: rows of eight bytes that change a file step by step

BYTE, WORD, COPY, LENGTH = range(4)
UNASKED = 255  # in place of an answer: the file is not complete
ROW = struct.Struct("<BBHI")
ROOM = 65_536


class List:
    """The rows, and the bytes and the length that they leave."""

    def __init__(self):
        self.rows, self.bytes, self.length = [], bytearray(ROOM), 0

    def ask(self, data):
        """Adds the rows that turn the last file into this one; the last of them holds the answer."""
        start = len(self.rows)
        if len(data) != self.length:
            self.step(LENGTH, len(data), 0)
        at = 0
        while (at := self.first_difference(data, at)) < len(data):
            at = self.write(data, at)
        if len(self.rows) == start:
            self.step(LENGTH, len(data), 0)
        op, _, place, value = self.rows[-1]
        self.rows[-1] = (op, answer(data), place, value)

    def step(self, op, at, value):
        self.rows.append((op, UNASKED, at, value))
        self.length = replayed(self.bytes, self.length, op, at, value)

    def first_difference(self, data, at):
        while at < len(data):
            end = min(at + 512, len(data))
            if self.bytes[at:end] != data[at:end]:
                return next(i for i in range(at, end) if self.bytes[i] != data[i])
            at = end
        return at

    def write(self, data, at):
        """One row at a place that differs; answers where it ends."""
        for distance in (4, 8):
            run = same_run(data, at, distance)
            if run >= 16:
                self.step(COPY, at, distance + (run << 16))
                return at + run
        if self.bytes[at + 1 : at + 4] == data[at + 1 : at + 4] or len(data) - at < 4:
            self.step(BYTE, at, data[at])
            return at + 1
        self.step(WORD, at, int.from_bytes(data[at : at + 4], "little"))
        return at + 4

    def encoded(self):
        return b"".join(ROW.pack(*row) for row in self.rows)


def same_run(data, at, distance):
    """How many bytes from a place on equal those `distance` before them."""
    end = at
    if at >= distance:
        while end < len(data) and data[end] == data[end - distance]:
            end += 1
    return end - at


def replayed(data, length, op, at, value):
    """Does what a row says, and answers the new length."""
    if op == BYTE:
        data[at] = value
    elif op == WORD:
        data[at : at + 4] = value.to_bytes(4, "little")
    elif op == COPY:
        distance, count = value % 65536, value >> 16
        for i in range(at, at + count):
            data[i] = data[i - distance]
    else:
        return at
    return length


def replay(encoded):
    """The row, the file and the answer of each file of the list."""
    data, length = bytearray(ROOM), 0
    for number, (op, expected, at, value) in enumerate(ROW.iter_unpack(encoded)):
        length = replayed(data, length, op, at, value)
        if expected != UNASKED:
            yield number, bytes(data[:length]), expected


def made():
    """The list, and the number of files and rows of each group."""
    built, sizes = List(), {}
    for name, files in groups().items():
        before = len(built.rows)
        for data in files:
            built.ask(data)
        sizes[name] = (len(files), len(built.rows) - before)
    return built.encoded(), sizes


def summary(encoded):
    """What the program file_table writes where no file differs."""
    answers = [expected for _, _, expected in replay(encoded)]
    lines = [f"accepted: {answers.count(0)} files"]
    lines += [f"refused {n}: {answers.count(n)} files" for n in (*range(1, 10), 14)]
    return "\n".join([*lines, f"total {len(answers)} files, 0 differ", ""])


def print_counts(encoded, sizes):
    for name, (files, rows) in sizes.items():
        print(f"{files:6} files {rows:6} rows  {name}")
    print(summary(encoded), end="")
    distinct = len({data for _, data, _ in replay(encoded)})
    print(f"{distinct} files are distinct; {len(encoded) // ROW.size} rows, {len(encoded)} bytes")


def show(wanted):
    number, data, expected = next(entry for entry in replay(LIST.read_bytes()) if entry[0] >= wanted)
    print(f"row {number}: {len(data)} bytes, answer {expected}")
    for at in range(0, min(len(data), 1024), 16):
        print(f"{at:5}  {data[at:at + 16].hex(' ')}")


def main():
    if sys.argv[1:2] == ["--show"]:
        return show(int(sys.argv[2]))
    encoded, sizes = made()
    files = {LIST: encoded, STDOUT: summary(encoded).encode()}
    files |= {BENCH / name: data for name, data in BENCH_FILES.items()}
    if repeatable.write(files):
        print(f"{len(files)} files as written, the list of {len(encoded)} bytes")
        return
    print_counts(encoded, sizes)


if __name__ == "__main__":
    main()
