"""The crates of crates.txt, and what each stands on."""

from functools import cache
from pathlib import Path

ROOT = Path(__file__).resolve().parent.parent


@cache
def lines():
    """The line of each crate, by its name, in the order of the file; comments are left out."""
    found = {}
    for line in (ROOT / "crates.txt").read_text().splitlines():
        line = line.partition("#")[0].strip()
        if line:
            found[line.partition(":")[0].split()[0]] = line
    return found


def line_of(name):
    return lines()[name]


def stands_on(name):
    """What a crate's line names, of the repository and of the kit."""
    return line_of(name).partition(":")[2].split()


def below(*names):
    """These crates, and those of the repository that they stand on."""
    found, left = set(), list(names)
    while left:
        name = left.pop()
        if name in lines() and name not in found:
            found.add(name)
            left += stands_on(name)
    return found
