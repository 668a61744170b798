"""The must-fail edits: crates/NAME/must-fail/*.edit, each of one wrong answer or several.

A wrong answer begins with a line '# wrong: FUNCTION[, FUNCTION..]: words', names in lines '# fails:' the facts that then fail, and has
the pairs 'old:' and 'new:' below it, each in the file of the last line 'file:'.
"""

from pathlib import Path

ROOT = Path(__file__).resolve().parent.parent


class Wrong:
    """A wrong answer: the functions whose contracts rule it out, what it says, the facts that fail by it, and its pairs as (file, old,
    new)."""

    def __init__(self, edit, names, words):
        self.crate, self.edit, self.names, self.words = edit.parent.parent.name, edit.stem, names, words
        self.facts, self.pairs = [], []


def all_edits():
    return sorted(ROOT.glob("crates/*/must-fail/*.edit"))


def wrongs_of(edit):
    """The wrong answers of an edit, in order."""
    wrongs, file, old = [], "", ""
    for line in edit.read_text().splitlines():
        if line.startswith("# wrong: "):
            names, words = line.removeprefix("# wrong: ").split(": ", 1)
            wrongs.append(Wrong(edit, names.split(", "), words))
        elif line.startswith("# fails: "):
            wrongs[-1].facts += line.removeprefix("# fails: ").split(", ")
        elif line.startswith("file: "):
            file = line.removeprefix("file: ").strip()
        elif line.startswith("old: "):
            old = line.removeprefix("old: ")
        elif line.startswith("new:"):
            wrongs[-1].pairs.append((file, old, line.removeprefix("new:").removeprefix(" ")))
    return wrongs


def applied(crate, wrongs):
    """The texts of the files of a crate's folder that these wrong answers change, or None where a pair does not stand once at its turn."""
    texts = {}
    for file, old, new in (pair for wrong in wrongs for pair in wrong.pairs):
        text = texts.get(file) or (crate / file).read_text()
        if text.count(old) != 1:
            return None
        texts[file] = text.replace(old, new)
    return texts


def unfit(wrongs):
    """Why these wrong answers can't be told apart, a line each, or why one of them shows nothing of a contract."""
    if not wrongs:
        return ["it has no line '# wrong:'"]
    lines, seen = [], {}
    for wrong in wrongs:
        if not wrong.facts:
            lines.append(f"no fact is named: {wrong.words}")
        lines += [f"it alters {file}, which is no code: {wrong.words}" for file, _, _ in wrong.pairs if not file.startswith("src/")]
        for fact in wrong.facts:
            if seen.setdefault(fact, wrong) is not wrong:
                lines.append(f"two wrong answers name the fact {fact}")
    return lines
