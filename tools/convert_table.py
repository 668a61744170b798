#!/usr/bin/env python3
"""Writes crates/convert_table/data/table: files as they come to the converter, and what document 02, Nine, has it make of them.

The converter here is written from the words of Nine, over the reader of file_table.py, and shares nothing with the crates.
docs/FILE_TABLE.md says what the table holds. What crates/convert_table is to write is written too.

    tools/convert_table.py          write the files, and print how many each group has
    tools/convert_table.py --check  say whether the files are what would be written
"""
import struct
from itertools import combinations, product

import file_table
import repeatable
from file_table import E, FAULTS, LARGE, LARGEST, PARTS, SMALL, WITHDRAWN, record, whole_file

HOME = file_table.CRATES / "convert_table"
HEAD = struct.Struct("<HBH")  # how many bytes the file has, what sends it back or 0, how many records are converted

# ---- the converter

POINTER_ENTER = 37


def made_of(code):
    """"where the argument count is 0 or 1 the record becomes PointerEnter with post 0 and the next position as target", "the other
    records untouched": the code, and how many records were converted.
    """
    records = [code[at : at + 8] for at in range(0, len(code), 8)]
    made = [record(POINTER_ENTER, 0, 0, i + 1) if r[0] == WITHDRAWN else r for i, r in enumerate(records)]
    return b"".join(made), sum(r[0] == WITHDRAWN for r in records)


def converted(data):
    """What sends the file back or 0, how many records are converted, and the file: "a file sent back keeps its bytes"."""
    number = file_table.answer(data, for_converter=True)
    if number:
        return number, 0, data
    start = file_table.field_places(data)[4] + 3
    code, count = made_of(data[start:])
    return 0, count, data[:start] + code


# ---- files

COUNTS = (0, 1, 2, 8, 255)
MATH, CALL, POST = record(WITHDRAWN), record(WITHDRAWN, 1, 2), record(34, 0, 1)  # of no argument, of one under post 2, and a Post
CONST, HALT, END = record(1, 0, 0, 3), record(47), record(48)
STORE_VAR, STORE_TEMP = record(9, 0, 0, 5), record(10, 0, 0, 1)
JUMPS = [opcode for opcode, (argument, _) in PARTS.items() if argument == "j" and opcode != 39]


def small(*records):
    return whole_file(6, 2, 4, 3, 1, b"".join(records))


def every_count():
    return [small(record(WITHDRAWN, count)) for count in range(256)]


def places():
    """HostMath at each choice of places among up to six records: the only one, the first, the last and all of them too."""
    chosen = [(n, at) for n in range(7) for k in range(n + 1) for at in combinations(range(n), k)]
    return [small(*(CALL if i in at else POST for i in range(n))) for n, at in chosen]


def targets():
    """A record with a target at each place of four beside a HostMath, and each target from 0 to behind the code."""
    files = []
    for opcode, jump, math, target in product(JUMPS, range(4), range(4), (*range(6), 0xFFFFFFFF)):
        if jump != math:
            there = {jump: record(opcode, 0, 0, target), math: MATH}
            files.append(small(*(there.get(i, POST) for i in range(4))))
    return files


def looked_at():
    """EachBegin, and what it looks at: the records at its target and at the two behind it, HostMath in one or more of them."""
    seen = (MATH, CALL, CONST, END, HALT, STORE_VAR, STORE_TEMP, POST)
    behind = [r for n in (1, 2, 3) for r in product(seen, repeat=n) if MATH in r or CALL in r]
    return [small(record(43, 0, 0, 1), *records, *more) for records in behind for more in ((), (POST, END))]


def parts():
    """Each count with each value of the post and of the argument, which a HostMath does not use."""
    return [small(record(WITHDRAWN, *each)) for each in product(COUNTS, file_table.SECONDS, file_table.ARGUMENTS)]


def two_faults():
    """15 against 7, 8 and 9: in one record, and before and behind each other, with a HostMath that passes between them."""
    bad = [record(WITHDRAWN, count, post, argument) for count in (1, 2, 255) for post in (0, 9) for argument in (0, 1)][1:]
    bad += [record(0), record(53), record(34, 1), record(47, 0, 1), record(1, 0, 0, 9), record(34, 0, 9)]
    pairs = [small(*each) for one, other in product(bad, repeat=2) for each in ((one, other), (MATH, one, CALL, other, MATH))]
    return [small(one) for one in bad] + pairs


def last_refused():
    """Codes of 22 but for the last record, at which the file is sent back."""
    lasts = (record(0), record(WITHDRAWN, 2), record(WITHDRAWN, 0, 0, 1), record(WITHDRAWN, 0, 3), record(WITHDRAWN, 2, 3))
    return [small(MATH * (n - 1) + last) for n in (1, 2, 8, 300) for last in lasts]


def one_fault():
    """The faults of a file, each by itself, with two HostMaths behind the records of file_table.py's file."""
    base = whole_file(2, 1, 2, 2, 1, file_table.FAULTLESS_RECORDS + record(WITHDRAWN, 1, 1) * 2)
    assert file_table.answer(base, for_converter=True) == 0
    files = [file_table.with_faults(base, fault) for fault in FAULTS]
    numbers = {file_table.answer(data, for_converter=True) for data in files}
    assert numbers >= set(range(1, 10)) and 14 not in numbers
    return [base, *files]


def largest():
    """4,096 records: targets 1 to 4,096, the last record refused, tables full and tables empty."""
    other = record(WITHDRAWN, 1)
    codes = [MATH * 4096, (POST + other) * 2048, MATH * 4095 + record(WITHDRAWN, 2), MATH * 4095 + record(0)]
    return [LARGEST[:-8] + record(WITHDRAWN, 1, 1023), *map(small, codes)]


def unchanged():
    """Files with no HostMath, those that a check sends back among them, and one with every opcode."""
    every = b"".join(file_table.legal_record(opcode, 1) for opcode in PARTS)
    one = every.replace(file_table.legal_record(WITHDRAWN, 1), record(WITHDRAWN, 1, 1))
    return [E, SMALL, LARGE, whole_file(4, 2, 3, 2, 2, every), whole_file(4, 2, 3, 2, 2, one), *file_table.examples()]


def cuts_and_changes():
    """Every cut of a file with a HostMath, and some changes of each byte."""
    base = whole_file(1, 1, 1, 2, 1, MATH + record(32, 0, 0, 2) + record(WITHDRAWN, 1, 1) + record(48))
    return [base[:n] for n in range(len(base))] + file_table.byte_changes(base, file_table.some_others)


def random_codes(random, count):
    """Up to ten records, HostMath and what has a target often among them."""
    files = []
    for _ in range(count):
        drawn = []
        for _ in range(1 + random.below(10)):
            opcode = random.pick((WITHDRAWN, WITHDRAWN, random.pick(JUMPS), 1 + random.below(file_table.LAST)))
            drawn.append(record(opcode, random.pick((0, 0, 0, 1)), random.pick((0, 0, 0, 0, 1)), random.pick((0, 0, 0, 1))))
        files.append(small(*drawn))
    return files


def groups():
    """The groups of files by name, in the order of the table."""
    made = {
        "every count": every_count(),
        "places among six records": places(),
        "targets": targets(),
        "what EachBegin looks at": looked_at(),
        "counts, posts and arguments": parts(),
        "15 against 7, 8 and 9": two_faults(),
        "refused at the last record": last_refused(),
        "one fault": one_fault(),
        "4,096 records": largest(),
        "no HostMath, and every opcode": unchanged(),
        "every cut and some changes of a byte": cuts_and_changes(),
        "random codes": random_codes(repeatable.Random(2026), 1500),
    }
    again = [converted(data)[2] for name in ("places among six records", "what EachBegin looks at") for data in made[name]]
    return made | {"converted twice": again}


# ---- the table


def encoded(data):
    """The head, the file, and where a record is converted the file that it becomes."""
    number, count, after = converted(data)
    assert len(after) == len(data) and (after != data) == (count > 0)
    return HEAD.pack(len(data), number, count) + data + (after if count else b"")


def summary(files):
    """What the program convert_table writes where no file differs."""
    answers = [converted(data)[:2] for data in files]
    numbers = [number for number, _ in answers]
    lines = [f"converted: {sum(count > 0 for _, count in answers)} files, {sum(count for _, count in answers)} records"]
    lines += [f"nothing to convert: {answers.count((0, 0))} files"]
    lines += [f"refused {n}: {numbers.count(n)} files" for n in sorted(set(numbers) - {0})]
    return "\n".join([*lines, f"total {len(files)} files, 0 differ", ""])


def main():
    made = groups()
    files = [data for group in made.values() for data in group]
    table = b"".join(map(encoded, files))
    text = summary(files)
    if not repeatable.write({HOME / "data" / "table": table, HOME / "stdout": text.encode()}):
        for name, group in made.items():
            print(f"{len(group):6} files  {name}")
        print(text, end="")
    print(f"{len(table)} bytes")


if __name__ == "__main__":
    main()
