#!/usr/bin/env python3
"""Packs the text list of the Rust's answers (docs/COMPARISON.md) for the crate vm_vectors, and unpacks it again.

    compare/run vectors LIST
    tools/vectors.py pack LIST crates/vm_vectors/data/vectors
    tools/vectors.py unpack crates/vm_vectors/data/vectors LIST

The layout is in docs/VECTORS.md. Packing a list and unpacking it gives the same text, which `pack` tries.
"""
import struct
import sys

# The head, number after number: its form, and the field of the line that it holds, or what else it does. `size` is the
# size of all but itself, `names` the cells and 128 times field 17, `parts` the runs and 16 times the temps.
ROWS = (("H", "size"), ("I", 4), ("Q", 5), ("I", 6), ("I", 7), ("I", 12), ("I", 13), ("I", 14), ("H", "file"),
        ("H", 15), ("H", 16), ("B", "flags"), ("B", 8), ("B", 9), ("B", 10), ("B", 11), ("B", "names"), ("B", "parts"),
        ("B", "loops"), ("B", "handlers"))
HEAD = struct.Struct("<" + "".join(form for form, _ in ROWS))

# Digits of a list's entry, by field, and the bytes that it is packed into.
CELL, TEMP, RUN, LOOP, HANDLER = (1, 16), (1, 8), (5, 8), (8,), (16,)


def number(text):
    return 0 if text == "-" else int(text, 16)


def entries(text, widths):
    """The entries of a list, each as its numbers."""
    if text == "-":
        return []
    size = sum(widths)
    assert len(text) % size == 0
    out = []
    for at in range(0, len(text), size):
        entry = []
        for width in widths:
            entry.append(int(text[at:at + width], 16))
            at += width
        out.append(entry)
    return out


def packed(form, rows):
    return b"".join(struct.pack(form, *row) for row in rows)


def pack(line):
    f = [None] + line.split(" ")
    assert len(f) == 23
    code = b"" if f[1] == "-" else bytes.fromhex(f[1])
    cells, context, left = (entries(f[i], CELL) for i in (2, 3, 22))
    temps, runs = entries(f[18], TEMP), entries(f[19], RUN)
    loops, handlers = entries(f[20], LOOP), entries(f[21], HANDLER)
    assert len(context) == len(cells) == len(left)
    assert len(cells) < 128 and len(temps) < 16 and len(runs) < 16
    body = (code + packed("<BQ", cells) + packed("<BQ", context) + packed("<BI", temps)
            + packed("<II", runs) + packed("<I", loops) + packed("<Q", handlers))
    if left != cells:
        body += packed("<BQ", left)
    head = {i: number(f[i]) for _, i in ROWS if isinstance(i, int)}
    head |= {"size": HEAD.size - 2 + len(body), "file": len(code), "loops": len(loops), "handlers": len(handlers),
             "flags": (f[5] != "-") + 2 * (f[6] != "-") + 4 * (left != cells),
             "names": number(f[17]) * 128 + len(cells), "parts": len(temps) * 16 + len(runs)}
    return HEAD.pack(*(head[i] for _, i in ROWS)) + body


def listed(rows, widths):
    text = "".join("%0*x" % (w, x) for row in rows for w, x in zip(widths, row))
    return text or "-"


def unpack(data, at):
    """The line of the call at `at`, and where the next one starts."""
    head = dict(zip((i for _, i in ROWS), HEAD.unpack_from(data, at)))
    end, at = at + 2 + head["size"], at + HEAD.size
    start = at + head["file"]
    names, flags = head["names"] % 128, head["flags"]

    def part(form, count):
        nonlocal start
        size = struct.calcsize(form)
        rows = [struct.unpack_from(form, data, start + size * i) for i in range(count)]
        start += size * count
        return rows

    f = {1: data[at:start].hex() or "-"}
    cells, context = part("<BQ", names), part("<BQ", names)
    f |= {2: listed(cells, CELL), 3: listed(context, CELL)}
    f |= {i: "%x" % x for i, x in head.items() if isinstance(i, int)}
    f |= {i: "-" for i, flag in ((5, 1), (6, 2)) if not flags & flag}
    f |= {17: "%x" % (head["names"] // 128), 18: listed(part("<BI", head["parts"] // 16), TEMP),
          19: listed(part("<II", head["parts"] % 16), RUN), 20: listed(part("<I", head["loops"]), LOOP),
          21: listed(part("<Q", head["handlers"]), HANDLER), 22: listed(part("<BQ", names) if flags & 4 else cells, CELL)}
    assert start == end
    return " ".join(f[i] for i in range(1, 23)), end


def main(command, source, target):
    if command == "pack":
        with open(source) as f:
            lines = f.read().splitlines()
        data = b"".join(pack(line) for line in lines)
        assert unpacked(data) == lines
        with open(target, "wb") as f:
            f.write(data)
    else:
        with open(source, "rb") as f:
            lines = unpacked(f.read())
        with open(target, "w") as f:
            f.write("".join(line + "\n" for line in lines))
    print(len(lines), "calls")


def unpacked(data):
    lines, at = [], 0
    while at < len(data):
        line, at = unpack(data, at)
        lines.append(line)
    return lines


if __name__ == "__main__":
    if len(sys.argv) != 4 or sys.argv[1] not in ("pack", "unpack"):
        sys.exit(__doc__)
    main(*sys.argv[1:])
