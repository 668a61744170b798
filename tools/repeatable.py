"""What the tools that write files share: random numbers that stay the same, lines between two marks of a file, and the test
that a file is as written.
"""
import re
import sys


class Random:
    """SplitMix64: the same numbers in every run and every Python."""

    def __init__(self, seed):
        self.state = seed

    def below(self, n):
        mask = (1 << 64) - 1
        self.state = (self.state + 0x9E3779B97F4A7C15) & mask
        z = self.state
        z = ((z ^ (z >> 30)) * 0xBF58476D1CE4E5B9) & mask
        z = ((z ^ (z >> 27)) * 0x94D049BB133111EB) & mask
        return (z ^ (z >> 31)) % n

    def pick(self, choices):
        return choices[self.below(len(choices))]


def mark(tool):
    """What finds a mark of a tool's in a line: 'tools/TOOL: FORM' starts the lines that the tool writes, 'tools/TOOL: end' ends them."""
    return re.compile(rf"tools/{re.escape(tool)}: (\w+)")


def filled(text, tool, forms):
    """A file's text with the tool's forms filled in between their marks, indented as these are.

    `forms` has, by a form's name, the function that gives its lines.
    """
    lines, skipping = [], False
    for line in text.splitlines():
        found = mark(tool).search(line)
        if found or not skipping:
            lines.append(line)
        if found:
            skipping = found[1] != "end"
            indent = line[: len(line) - len(line.lstrip())]
            lines += [indent + new for new in forms[found[1]]()] if skipping else []
    assert not skipping
    return "\n".join(lines) + "\n"


def write(files):
    """Writes the files, a dictionary of paths and bytes; with --check as the argument only compares them.

    Answers whether they were only compared. Ends the program where one differs.
    """
    if sys.argv[1:] != ["--check"]:
        for path, data in files.items():
            path.parent.mkdir(parents=True, exist_ok=True)
            path.write_bytes(data)
        return False
    wrong = [str(path) for path, data in files.items() if not path.exists() or path.read_bytes() != data]
    if wrong:
        sys.exit(f"not what {sys.argv[0]} writes: {', '.join(wrong)}")
    return True
