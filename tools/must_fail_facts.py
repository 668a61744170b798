#!/usr/bin/env python3
"""Tries the must-fail edits, and keeps beside each what failed by it.

    tools/must_fail_facts.py [NAME | NAME/EDIT]..   try these; with no name, those whose kept answer is not of what stands now
    tools/must_fail_facts.py --check                ask that each edit has a kept answer of what stands now, and try nothing

`rt ci` asks only that the prover refuses an edit. An edit holds several wrong answers, so this asks more: that each of them fails by
a fact of its own, one that its line '# fails:' names and no other wrong answer does, that nothing else fails, and that no proof has
only lost the shape of the code that it was written for.

Each try is a `rt check` in a copy of the crates with the edit applied, one copy for each processor. A fact that the check looks for
by itself is tried only where each function that is called is proved, so an edit is tried again with the wrong answers alone whose
facts have not failed yet, until all have, or no more do.

crates/NAME/must-fail/EDIT.md keeps the facts that failed, with the sum of what they depend on: the kit, the edit, the crate's
code, definitions and proofs, and code, definitions and lines of crates.txt of the crates below it. Their proofs are left out: none makes a false fact true.
"""

import hashlib
import os
import queue
import re
import subprocess
import sys
import tempfile
import threading
from concurrent.futures import ThreadPoolExecutor
from pathlib import Path

import crates
import edits

ROOT = Path(__file__).resolve().parent.parent
# How many copies of the crates there are, each used by one try at a time.
AT_ONCE = max(1, len(os.sched_getaffinity(0)))
# What a check reads of a crate.
PARTS = ("src", "specs", "proofs")
KEPT = """\
# What failed by {edit}

Each wrong answer by a fact of its own, and nothing else, as tools/must_fail_facts.py saw it. The sum of what that depends on:

    {sum}

"""

# A fact that a function's proof or a file of laws no longer gives, and those that the check found no proof of.
IN_FILE = re.compile(r"^(?:\./)?proofs/(\S+?)(?:/(?:Proof|Answers|Invariants))?\.antt:\d+:\d+: error: `([^`]+)`: (.*)")
BY_SEARCH = re.compile(r"^fn \w+?::(\S+): no proof: .*?`search` did not prove ([^;]*)")
ERROR = re.compile(r"^\S+:\d+:\d+: error|\berror\[")
# What only follows from such a failure.
FOLLOWS = re.compile(r": error: \d+ declarations? that depends? on ")
# What says that the proof no longer fits the code: a fact or a place in it is gone.
GONE = re.compile(r"has no `|has no field|is not in scope")
# The check's last words where a fact failed.
REFUSED = "logic=not-proved"


def failed_facts(log):
    """The facts of a log as 'function fact', and the messages that name no fact."""
    facts, others = set(), []
    for line in log.splitlines():
        if FOLLOWS.search(line):
            continue
        if found := IN_FILE.search(line):
            function, fact, message = found.groups()
            if GONE.search(message):
                others.append(line)
            else:
                facts.add(f"{function.replace('/', '::')} {fact}")
        elif found := BY_SEARCH.search(line):
            facts.update(f"{found[1]} {fact}" for fact in re.findall(r"`([^`]+)`", found[2]))
        elif ERROR.search(line):
            others.append(line)
    if REFUSED not in log:
        others.append("the check did not end in " + REFUSED)
    return facts, others


# ---- what stands


def files_of(name, parts):
    """The files of these parts of a crate, in order."""
    return sorted(path for part in parts for path in (ROOT / "crates" / name / part).rglob("*") if path.is_file())


def sum_of(edit, kit):
    """The sum of what the tries of an edit depend on."""
    own = edit.parent.parent.name
    total = hashlib.sha256(kit.encode())
    total.update(edit.read_bytes())
    for name in sorted(crates.below(own)):
        total.update(crates.line_of(name).encode())
        for path in files_of(name, PARTS if name == own else PARTS[:2]):
            total.update(str(path.relative_to(ROOT)).encode() + b"\0" + path.read_bytes())
    return total.hexdigest()


def kept_of(edit):
    return edit.with_suffix(".md")


def kept_text(edit, sum):
    """What is kept of an edit that is as it says."""
    facts = [fact for wrong in edits.wrongs_of(edit) for fact in wrong.facts]
    return KEPT.format(edit=edit.name, sum=sum) + "".join(f"- `{fact}`\n" for fact in facts)


def is_kept(edit, kit):
    kept = kept_of(edit)
    return kept.exists() and kept.read_text() == kept_text(edit, sum_of(edit, kit))


# ---- tries


def copied(to):
    """Makes a copy of what a check reads."""
    for path in [ROOT / "crates.txt", *(p for name in os.listdir(ROOT / "crates") for p in files_of(name, PARTS))]:
        target = to / path.relative_to(ROOT)
        target.parent.mkdir(parents=True, exist_ok=True)
        target.write_bytes(path.read_bytes())


def checked(crate):
    """What `rt check` says in a crate's folder."""
    said = subprocess.run(["rt", "check"], cwd=crate, stdin=subprocess.DEVNULL, stdout=subprocess.PIPE, stderr=subprocess.STDOUT, text=True, errors="replace")
    return said.stdout


def tried(crate, texts):
    """What a check of the crate says, in a copy, with these texts in place of its own."""
    own = {file: (crate / file).read_text() for file in texts}
    try:
        for file, text in texts.items():
            (crate / file).write_text(text)
        return checked(crate)
    finally:
        for file, text in own.items():
            (crate / file).write_text(text)


def wrong_with(crate, edit):
    """What is wrong with an edit, a line each, as tried in a copy of its crate."""
    wrongs = edits.wrongs_of(edit)
    if lines := edits.unfit(wrongs):
        return lines
    unseen, left, lines = {wrong: set(wrong.facts) for wrong in wrongs}, wrongs, []
    while left:
        texts = edits.applied(crate, left)
        if texts is None:
            return [*lines, "an 'old:' text does not stand once"]
        facts, others = failed_facts(tried(crate, texts))
        named = {fact for wrong in left for fact in wrong.facts}
        lines += [f"failed, but is not named: {fact}" for fact in sorted(facts - named)] + others
        for wrong in left:
            unseen[wrong] -= facts
        still = [wrong for wrong in left if unseen[wrong]]
        if len(still) in (0, len(left)):
            break
        left = still
    return lines + [f"named, but did not fail: {fact}" for facts in unseen.values() for fact in sorted(facts)]


def try_all(asked, kit):
    """Whether each of these edits fails as it says; what is kept of those that do is written."""
    well, copies, ready = True, queue.SimpleQueue(), threading.Lock()
    proved = set()

    def one(edit):
        room = copies.get()
        try:
            crate = room / "crates" / edit.parent.parent.name
            with ready:  # a first check keeps what the tries in all copies begin with
                if crate.name not in proved:
                    checked(crate)
                    proved.add(crate.name)
            return wrong_with(crate, edit)
        finally:
            copies.put(room)

    sums = {edit: sum_of(edit, kit) for edit in asked}
    with tempfile.TemporaryDirectory(prefix="must-fail-") as folder, ThreadPoolExecutor(AT_ONCE) as pool:
        for number in range(AT_ONCE):
            copied(Path(folder) / str(number))
            copies.put(Path(folder) / str(number))
        for edit, answer in [(edit, pool.submit(one, edit)) for edit in asked]:
            lines = answer.result()
            print(f"{edit.parent.parent.name}/{edit.stem}:", *(lines or ["as it says"]), sep="\n    " if lines else " ", flush=True)
            if lines:
                well = False
            else:
                kept_of(edit).write_text(kept_text(edit, sums[edit]))
    return well


def named(words):
    """The edits that are named, or all."""
    names = {edit: {edit.parent.parent.name, f"{edit.parent.parent.name}/{edit.stem}"} for edit in edits.all_edits()}
    if unknown := set(words).difference(*names.values()):
        sys.exit(f"no such edit: {', '.join(sorted(unknown))}")
    return [edit for edit, its in names.items() if not words or its & set(words)]


def main():
    words = [word for word in sys.argv[1:] if word != "--check"]
    asked = named(words)
    kit = subprocess.run(["rt", "version"], capture_output=True, text=True, check=True).stdout
    if words and "--check" not in sys.argv:
        sys.exit(not try_all(asked, kit))
    old = [edit for edit in asked if not is_kept(edit, kit)]
    print(f"{len(asked) - len(old)} of {len(asked)} must-fail edits have a kept answer of what stands now", flush=True)
    if "--check" in sys.argv:
        for edit in old:
            print(f"not of what stands now: crates/{edit.parent.parent.name}/must-fail/{kept_of(edit).name} (tools/must_fail_facts.py tries it)")
        sys.exit(bool(old))
    sys.exit(not try_all(old, kit))


if __name__ == "__main__":
    main()
