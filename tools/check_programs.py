#!/usr/bin/env python3
"""Holds the launchers to their exit statuses, and Studio and the converter to leaving the old file or the new one, whole, when
they are killed.

Statuses: each of 0, 1 and 2 for ./studio, ./house, ./bench and ./converter, with what stands on standard output, what the cells
or the stored files are afterwards, and that nothing else is left in their folder. Pipes: a file that comes in two parts is read
whole, and cells that another process makes longer while a run is on are not replaced. Kills: crates/studio/out/studio and
crates/converter/out/converter over and over, each run killed by SIGKILL at a random moment; then the file has the old bytes or
the new ones, and the next run copes with what is left. Both have to be seen.
"""
import fcntl
import os
import random
import re
import resource
import shutil
import signal
import stat
import struct
import subprocess
import tempfile
import termios
import threading
import time
from typing import Callable, NamedTuple

HERE = os.path.dirname(os.path.abspath(__file__))
ROOT = os.path.join(HERE, "..")
DATA = os.path.join(ROOT, "crates", "bench", "data")
FOCUS = os.path.join(ROOT, "examples", "focus")
LENS = os.path.join(ROOT, "examples", "stored")
THIS = ["none", "none", "3DCCCCCD"]
LEAST_KILLS = 500
MOST_SECONDS = 30
NONE = 2**64 - 1  # what no limit counts as
LEFT = re.compile(r"held\.[0-9A-F]{16}")

passed = 0
failed = 0


def expect(what, got, wanted):
    global passed, failed
    if got == wanted:
        passed += 1
    else:
        failed += 1
        print("%s: %r, expected %r" % (what, got, wanted))


def read(path):
    with open(path, "rb") as file:
        return file.read()


def write(path, data):
    with open(path, "wb") as file:
        file.write(data)


OLD = read(os.path.join(FOCUS, "cells"))
NEW = read(os.path.join(FOCUS, "cells_after"))
ACCOUNT = read(os.path.join(FOCUS, "stdout"))
STORED = read(os.path.join(LENS, "stored"))
CONVERTED = read(os.path.join(LENS, "program"))


def launched(name, words, **more):
    command = [os.path.join(ROOT, name)] + words
    given = {"stdout": subprocess.PIPE, "stderr": subprocess.PIPE, "timeout": 20}
    given.update(more)
    return subprocess.run(command, **given)


def expect_run(what, name, words, status, output, **more):
    """A run's status and standard output; standard error has something where the status is 2, else nothing."""
    run = launched(name, words, **more)
    expect(what + ": status", run.returncode, status)
    expect(what + ": output", run.stdout, output)
    expect(what + ": standard error", run.stderr != b"", status == 2)


class Room:
    """A folder with one file in it, `held`, by default the cells of the focus pull, and nothing else but what `beside` names."""

    def __init__(self, beside=(), data=OLD):
        self.beside = set(beside)
        self.data = data

    def __enter__(self):
        self.folder = tempfile.mkdtemp()
        self.held = os.path.join(self.folder, "held")
        write(self.held, self.data)
        return self

    def __exit__(self, *_):
        shutil.rmtree(self.folder)

    def expect_left(self, what, data):
        expect(what + ": held", read(self.held), data)
        expect(what + ": files", set(os.listdir(self.folder)), {"held"} | self.beside)


def stamp(path):
    """What changes where a file is replaced or written to."""
    found = os.stat(path)
    return found.st_ino, found.st_mtime_ns, found.st_mode


def focus(cells):
    return [os.path.join(FOCUS, "program"), cells] + THIS


def check_answers(name):
    with Room() as room:
        expect_run(name + " account", name, focus(room.held), 0, ACCOUNT)
        room.expect_left(name + " account", NEW)
    with Room() as room:
        refused = os.path.join(DATA, "refused_8")
        before = stamp(room.held)
        expect_run(name + " refused", name, [refused, room.held], 1, b"refused 8\n")
        expect(name + " refused: untouched", stamp(room.held), before)
        room.expect_left(name + " refused", OLD)
    run = launched(name, ["--help"])
    expect(name + " help", (run.returncode, run.stdout[:5], run.stderr), (0, b"use: ", b""))


def account(guest, house):
    """The account of the focus pull, which charges 10, under these limits."""
    return ACCOUNT.replace(b"remainders %d %d\n" % (NONE - 10, NONE - 10), b"remainders %d %d\n" % (guest - 10, house - 10))


def check_house(name):
    """The house limit: what remains of both, the other arguments two places on, and a run that it stops."""
    for house, steps in (("none", "none"), ("10", "none"), ("25", "20"), ("20", "25"), (str(NONE), "10")):
        with Room() as room:
            program, cells, _, *more = focus(room.held)
            guest, purse = (NONE if word == "none" else int(word) for word in (steps, house))
            words = ["--house", house, program, cells, steps] + more + [cells]
            expect_run("%s --house %s %s" % (name, house, steps), name, words, 0, account(guest, purse))
            room.expect_left("%s --house %s %s" % (name, house, steps), NEW)
    for house, steps in (("9", "20"), ("20", "9"), ("9", "9")):
        with Room() as room:
            program, cells, _, *more = focus(room.held)
            lines = launched(name, ["--house", house, program, cells, steps] + more).stdout.splitlines()
            what = "%s --house %s %s: stopped" % (name, house, steps)
            left = b"remainders %d %d" % (int(steps) - 9, int(house) - 9)
            found = [line for line in lines if line.split()[0] in (b"outcome", b"charges", b"remainders")]
            expect(what, found, [b"outcome stopped for steps", b"charges 9", left])
    with Room(beside={"link"}) as room:
        link = os.path.join(room.folder, "link")
        os.symlink("held", link)
        os.chmod(room.held, 0o640)
        expect_run(name + " --house a link", name, ["--house", "none"] + focus(link), 0, ACCOUNT)
        expect(name + " --house a link: stays", os.readlink(link), "held")
        expect(name + " --house a link: mode", stat.S_IMODE(os.stat(room.held).st_mode), 0o640)
        room.expect_left(name + " --house a link", NEW)
    with Room() as room:
        refused = os.path.join(DATA, "refused_8")
        expect_run(name + " --house refused", name, ["--house", "5", refused, room.held], 1, b"refused 8\n")
        room.expect_left(name + " --house refused", OLD)


def check_complaints(name):
    """Of several arguments that are none the first is named, in the order STEPS, LOOPS, THIS, HOUSE."""
    with Room() as room:
        program, cells, *good = focus(room.held)
        said = [b"STEPS", b"LOOPS", b"THIS", b"HOUSE"]
        for k, word in enumerate(said):
            words = ["--house", "18446744073709551616", program, cells] + good[:k] + ["many"] * (3 - k)
            run = launched(name, words)
            expect("%s complains of %s" % (name, word), (run.returncode, run.stderr.split(b" is ")[0]), (2, b"error: " + word))
        room.expect_left(name + " complains", OLD)


def check_failures(name):
    with Room() as room:
        program, cells, *this = focus(room.held)
        wrong = {
            "house alone": ["--house"],
            "house and no file": ["--house", "5"],
            "house and no cells": ["--house", "5", program],
            "house and too many": ["--house", "5", program, cells] + this + [cells, "more"],
            "house no number": ["--house", "", program, cells],
            "house negative": ["--house", "-1", program, cells],
            "house of 21 digits": ["--house", "1" * 21, program, cells],
            "house twice": ["--house", "5", "--house", "5", program, cells],
            "house after the files": [program, cells, "--house", "5"],
            "house and no such context": ["--house", "5", program, cells] + this + [cells + ".none"],
            "no argument": [],
            "no cells": [program],
            "too many": [program, cells] + this + [cells, "more"],
            "steps": [program, cells, "many"],
            "loops": [program, cells, "none", "4294967296"],
            "steps of 21 digits": [program, cells, "1" * 21],
            "loops of 21 digits": [program, cells, "none", "1" * 21],
            "this": [program, cells, "none", "none", "1"],
            "this of nine digits": [program, cells, "none", "none", "3DCCCCCD0"],
            "no such file": [program + ".none", cells],
            "no such cells": [program, cells + ".none"],
            "no such context": [program, cells] + this + [cells + ".none"],
            "a folder": [program, room.folder],
            "a folder of cells": [room.folder, cells],
        }
        for what, words in wrong.items():
            expect_run(name + " " + what, name, words, 2, b"")
            room.expect_left(name + " " + what, OLD)


def limited():
    """No file may have more than four bytes; a write past that fails."""
    signal.signal(signal.SIGXFSZ, signal.SIG_IGN)
    resource.setrlimit(resource.RLIMIT_FSIZE, (4, 4))


def check_replacing(name):
    long = "c" * 250
    with Room(beside={long}) as room:
        path = os.path.join(room.folder, long)
        write(path, OLD)
        expect_run(name + " a new file that cannot be made", name, focus(path), 2, b"")
        expect(name + " a new file that cannot be made: cells", read(path), OLD)
        room.expect_left(name + " a new file that cannot be made", OLD)
    with Room() as room:
        expect_run(name + " a full device", name, focus(room.held), 2, b"", preexec_fn=limited, restore_signals=False)
        room.expect_left(name + " a full device", OLD)
    with Room(beside={"link"}) as room:
        link = os.path.join(room.folder, "link")
        os.symlink("held", link)
        expect_run(name + " a link", name, focus(link), 0, ACCOUNT)
        expect(name + " a link: stays", os.readlink(link), "held")
        room.expect_left(name + " a link", NEW)
    for mode in (0o600, 0o640, 0o664, 0o666):
        with Room() as room:
            os.chmod(room.held, mode)
            expect_run("%s mode %o" % (name, mode), name, focus(room.held), 0, ACCOUNT)
            expect("%s mode %o: kept" % (name, mode), stat.S_IMODE(os.stat(room.held).st_mode), mode)
    with Room() as room:
        write(room.held, b"")
        program = os.path.join(DATA, "accepted")
        for none in ("/dev/null", room.held):
            run = launched(name, [program, none])
            expect("%s no cells in %s" % (name, none == room.held), (run.returncode in (0, 1), run.stderr), (True, b""))


def open_pipe(pipe, run):
    """Opens a pipe for writing, once this run has opened it for reading."""
    end = time.perf_counter() + MOST_SECONDS
    while run.poll() is None and time.perf_counter() < end:
        try:
            return os.open(pipe, os.O_WRONLY | os.O_NONBLOCK)
        except OSError:
            time.sleep(0.001)
    raise SystemExit("%s: the run does not read it" % pipe)


def await_empty(writing):
    """Waits until all that was written to a pipe has been read."""
    end = time.perf_counter() + MOST_SECONDS
    while time.perf_counter() < end:
        left = bytearray(4)
        fcntl.ioctl(writing, termios.FIONREAD, left)
        if not any(left):
            return
        time.sleep(0.001)
    raise SystemExit("what was written to a pipe is not read")


def check_growing(name):
    """Cells that grow after they were read are not replaced. The context is a pipe, which a run opens when it has read the cells."""
    with Room(beside={"pipe"}) as room:
        pipe = os.path.join(room.folder, "pipe")
        os.mkfifo(pipe)
        command = [os.path.join(ROOT, name)] + focus(room.held) + [pipe]
        run = subprocess.Popen(command, stdout=subprocess.PIPE, stderr=subprocess.PIPE)
        writing = open_pipe(pipe, run)
        write(room.held, OLD + bytes(9))
        before = stamp(room.held)
        os.write(writing, OLD)
        os.close(writing)
        output, error = run.communicate(timeout=20)
        expect(name + " cells that grow", (run.returncode, output, error != b""), (2, b"", True))
        expect(name + " cells that grow: untouched", stamp(room.held), before)
        room.expect_left(name + " cells that grow", OLD + bytes(9))


def check_turned(name):
    """A link that is turned while a run is on: the cells that were read are replaced, and no others."""
    with Room(beside={"link", "other", "pipe"}) as room:
        link, other, pipe = (os.path.join(room.folder, each) for each in ("link", "other", "pipe"))
        write(other, OLD)
        os.symlink("held", link)
        os.mkfifo(pipe)
        command = [os.path.join(ROOT, name)] + focus(link) + [pipe]
        run = subprocess.Popen(command, stdout=subprocess.PIPE, stderr=subprocess.PIPE)
        writing = open_pipe(pipe, run)
        os.unlink(link)
        os.symlink("other", link)
        os.write(writing, OLD)
        os.close(writing)
        expect(name + " a link that is turned", run.communicate(timeout=20) + (run.returncode,), (ACCOUNT, b"", 0))
        expect(name + " a link that is turned: the other", read(other), OLD)
        room.expect_left(name + " a link that is turned", NEW)


def check_folders(name):
    """Cells in a folder whose name is no text, by a path that is one."""
    with tempfile.TemporaryDirectory() as above:
        folder = os.path.join(os.fsencode(above), b"caf\xe9")
        held = os.path.join(folder, b"held")
        os.mkdir(folder)
        write(held, OLD)
        expect_run(name + " a folder that is no text", name, focus("held"), 0, ACCOUNT, cwd=folder)
        expect(name + " a folder that is no text: held", read(held), NEW)
        expect(name + " a folder that is no text: files", os.listdir(folder), [b"held"])


def check_output(name, words, status):
    """A pipe that nobody reads any more changes no status; a full device is a file that cannot be written."""
    for ignored in (False, True):
        reading, writing = os.pipe()
        os.close(reading)
        before = (lambda: signal.signal(signal.SIGPIPE, signal.SIG_IGN)) if ignored else None
        run = launched(name, words, stdout=writing, preexec_fn=before, restore_signals=not ignored)
        os.close(writing)
        expect("%s a closed pipe" % name, (run.returncode, run.stderr), (status, b""))
    with open("/dev/full", "wb") as full:
        run = launched(name, words, stdout=full)
        expect("%s a full output" % name, (run.returncode, run.stderr != b""), (2, True))


def check_bench():
    accepted, refused = os.path.join(DATA, "accepted"), os.path.join(DATA, "refused_8")
    lines = {accepted: b": accepted\n", refused: b": refused 8\n", DATA: b": cannot be read\n", DATA + "/none": b": no such file\n"}
    cases = [([accepted], 0), ([accepted, accepted], 0), ([refused], 1), ([accepted, refused, accepted], 1)]
    cases += [([DATA + "/none"], 2), ([DATA], 2), ([refused, DATA + "/none", accepted], 2)]
    for paths, status in cases:
        run = launched("bench", paths)
        expect("bench", (run.returncode, run.stdout), (status, b"".join(p.encode() + lines[p] for p in paths)))
    check_lines("bench", accepted, b": accepted\n")


def check_pipe():
    """A pipe to which a file is written in two parts is answered as the file is."""
    for name, line, status in (("accepted", b": accepted\n", 0), ("refused_8", b": refused 8\n", 1)):
        with Room(beside={"pipe"}) as room:
            pipe = os.path.join(room.folder, "pipe")
            os.mkfifo(pipe)
            data = read(os.path.join(DATA, name))
            half = len(data) // 2
            run = subprocess.Popen([os.path.join(ROOT, "bench"), pipe], stdout=subprocess.PIPE, stderr=subprocess.PIPE)
            writing = open_pipe(pipe, run)
            os.write(writing, data[:half])
            await_empty(writing)
            os.write(writing, data[half:])
            os.close(writing)
            output, error = run.communicate(timeout=20)
            expect("bench a pipe, " + name, (run.returncode, output, error), (status, pipe.encode() + line, b""))


def check_lines(name, path, line):
    """What a program that writes a line for each file answers besides: its use, a name of two lines, a name that is too long."""
    run = launched(name, [])
    expect(name + " no argument", (run.returncode, run.stdout, run.stderr[:5]), (2, b"", b"use: "))
    run = launched(name, ["--help"])
    expect(name + " help", (run.returncode, run.stdout[:5], run.stderr), (0, b"use: ", b""))
    with Room(beside={"a: no such file\nb"}) as room:
        two = os.path.join(room.folder, "a: no such file\nb")
        shutil.copy(path, two)
        run = launched(name, [two])
        expect(name + " a name of two lines", (run.returncode, run.stdout), (0, two.encode() + line))
    run = launched(name, ["p" * 5000, path])
    said = b"argument 1: longer than a path can be\n" + path.encode() + line
    expect(name + " a name that is too long", (run.returncode, run.stdout), (2, said))


def with_code(records):
    """The lens with other records."""
    return STORED[:-83] + bytes([5]) + struct.pack("<H", len(records)) + records


def host_math(count):
    return bytes([22, count, 0, 0, 0, 0, 0, 0])


# Files that the converter leaves as they are, each with what it says and its status.
UNCONVERTED = {
    "converted": (CONVERTED, b": nothing to convert\n", 0),
    "empty": (b"", b": refused 1\n", 1),
    "after": (STORED + b"\0", b": refused 4\n", 1),
    "long": (STORED + bytes(70000), b": refused 4\n", 1),
    "arguments": (with_code(host_math(1) + host_math(2)), b": refused 15\n", 1),
    "part": (with_code(host_math(1) + bytes([22, 2, 0, 0, 1, 0, 0, 0])), b": refused 8\n", 1),
}


def check_converter():
    name = "converter"
    with Room(data=STORED) as room:
        held = room.held.encode()
        run = launched("studio", [room.held, "/dev/null"])
        expect(name + " before", (run.returncode, run.stdout), (1, b"refused 14\n"))
        expect_run(name + " converts", name, [room.held], 0, held + b": converted 2\n")
        room.expect_left(name + " converts", CONVERTED)
        before = stamp(room.held)
        expect_run(name + " twice", name, [room.held], 0, held + b": nothing to convert\n")
        expect(name + " twice: untouched", stamp(room.held), before)
        room.expect_left(name + " twice", CONVERTED)
    with Room(data=STORED) as room:
        held = room.held.encode()
        again = os.path.join(room.folder, ".", "held")
        said = held + b": converted 2\n" + again.encode() + b": nothing to convert\n"
        expect_run(name + " one file by two paths", name, [room.held, again], 0, said)
        room.expect_left(name + " one file by two paths", CONVERTED)
    check_lines(name, os.path.join(DATA, "accepted"), b": nothing to convert\n")


def check_unconverted():
    """Each alone, and all of them between two that are converted."""
    names = list(UNCONVERTED)
    with Room(beside={"last", *names}, data=STORED) as room:
        paths = {each: os.path.join(room.folder, each) for each in names + ["last"]}
        for each, (data, said, status) in UNCONVERTED.items():
            write(paths[each], data)
            before = stamp(paths[each])
            run = launched("converter", [paths[each]])
            expect("converter " + each, (run.returncode, run.stdout, run.stderr), (status, paths[each].encode() + said, b""))
            expect("converter " + each + ": untouched", (stamp(paths[each]), read(paths[each])), (before, data))
        write(paths["last"], STORED)
        lines = [room.held.encode() + b": converted 2\n", *(paths[each].encode() + UNCONVERTED[each][1] for each in names)]
        lines.append(paths["last"].encode() + b": converted 2\n")
        expect_run("converter many", "converter", [room.held, *paths.values()], 1, b"".join(lines))
        expect("converter many: last", read(paths["last"]), CONVERTED)
        room.expect_left("converter many", CONVERTED)


def check_no_file():
    """What is no file beside one that is converted; a pipe's bytes are converted, and replace nothing."""
    with Room(beside={"pipe"}, data=STORED) as room:
        pipe = os.path.join(room.folder, "pipe")
        os.mkfifo(pipe)
        cases = {
            room.folder: b": cannot be read\n",
            room.held + ".none": b": no such file\n",
            pipe: b": cannot be replaced\n",
        }
        for path, said in cases.items():
            write(room.held, STORED)
            writer = threading.Thread(target=write, args=(pipe, STORED))
            if path == pipe:
                writer.start()
            run = launched("converter", [path, room.held])
            said = path.encode() + said + room.held.encode() + b": converted 2\n"
            expect("converter " + path, (run.returncode, run.stdout, run.stderr != b""), (2, said, path == pipe))
            room.expect_left("converter " + path, CONVERTED)
            if path == pipe:
                writer.join()
        expect("converter a pipe: stays", stat.S_ISFIFO(os.stat(pipe).st_mode), True)


def as_nobody():
    if os.geteuid() == 0:
        os.setuid(65534)


def check_shut_folder():
    """A folder that nobody may write to, and a file in it that anybody may."""
    with tempfile.TemporaryDirectory() as beside, Room(data=STORED) as room:
        os.chmod(beside, 0o755)
        program = shutil.copy(os.path.join(ROOT, "crates", "converter", "out", "converter"), beside)
        os.chmod(room.held, 0o666)
        os.chmod(room.folder, 0o555)
        run = subprocess.run([program, room.held], capture_output=True, preexec_fn=as_nobody)
        os.chmod(room.folder, 0o755)
        expect("converter a shut folder", run.stdout, room.held.encode() + b": cannot be replaced\nstatus 2\n")
        expect("converter a shut folder: error", run.stderr, room.held.encode() + b": Permission denied\n")
        room.expect_left("converter a shut folder", STORED)


def check_converter_replacing():
    """Modes and links of several files at once; new files that cannot be made or written."""
    modes = {"held": 0o600, "a": 0o640, "b": 0o664, "c": 0o755}
    with Room(beside={"a", "b", "c", "link"}, data=STORED) as room:
        paths = [os.path.join(room.folder, each) for each in modes]
        for path, mode in zip(paths, modes.values()):
            write(path, STORED)
            os.chmod(path, mode)
        link = os.path.join(room.folder, "link")
        os.symlink("c", link)
        given = paths[:-1] + [link]
        said = b"".join(path.encode() + b": converted 2\n" for path in given)
        expect_run("converter modes", "converter", given, 0, said)
        expect("converter modes: kept", [stat.S_IMODE(os.stat(path).st_mode) for path in paths], list(modes.values()))
        expect("converter modes: converted", [read(path) for path in paths], [CONVERTED] * 4)
        expect("converter a link: stays", os.readlink(link), "c")
        room.expect_left("converter modes", CONVERTED)
    long = "s" * 250
    with Room(beside={long}, data=STORED) as room:
        path = os.path.join(room.folder, long)
        write(path, STORED)
        expect_run("converter a new file that cannot be made", "converter", [path], 2, path.encode() + b": cannot be replaced\n")
        expect("converter a new file that cannot be made: stays", read(path), STORED)
        said = room.held.encode() + b": cannot be replaced\n"
        expect_run("converter a full device", "converter", [room.held], 2, said, preexec_fn=limited, restore_signals=False)
        room.expect_left("converter a full device", STORED)


class Killed(NamedTuple):
    """A program whose runs are killed, and its file before and after a run."""

    name: str
    words: Callable[[str], list]  # its arguments, of its file's path
    output: Callable[[str], bytes]
    old: bytes
    new: bytes


KILLED = [
    Killed("studio", focus, lambda path: ACCOUNT, OLD, NEW),
    Killed("converter", lambda path: [path], lambda path: path.encode() + b": converted 2\n", STORED, CONVERTED),
]


def kill(program, path, moment):
    """Starts a run over the old file, and kills it after `moment` seconds."""
    write(path, program.old)
    command = [os.path.join(ROOT, "crates", program.name, "out", program.name)] + program.words(path)
    run = subprocess.Popen(command, stdout=subprocess.DEVNULL, stderr=subprocess.DEVNULL)
    until = time.perf_counter() + moment
    while time.perf_counter() < until:
        pass
    run.kill()
    run.wait()


def check_next(program, room, left):
    """The next run copes with the files that a killed one has left; then they are removed."""
    write(room.held, program.old)
    run = launched(program.name, program.words(room.held))
    wanted = (0, program.output(room.held), program.new)
    expect(program.name + " after a killed one", (run.returncode, run.stdout, read(room.held)), wanted)
    for name in left:
        os.remove(os.path.join(room.folder, name))


def check_kills(program):
    """Kills runs until enough were, and each outcome was seen. The last moment grows while most leave the old file."""
    seen = {program.old: 0, program.new: 0}
    cut = 0
    last = 0.002
    end = time.perf_counter() + MOST_SECONDS
    with Room(data=program.old) as room:
        while time.perf_counter() < end and (sum(seen.values()) < LEAST_KILLS or 0 in seen.values()):
            kill(program, room.held, random.uniform(0, last))
            data = read(room.held)
            left = set(os.listdir(room.folder)) - {"held"}
            expect("a killed run", (data in seen, all(map(LEFT.fullmatch, left))), (True, True))
            seen[data] = seen.get(data, 0) + 1
            last *= 1.02 if seen[program.new] < seen[program.old] else 0.98
            if left:
                cut += 1
                check_next(program, room, left)
    counts = (sum(seen.values()), program.name, seen[program.old], seen[program.new])
    print("%d runs of %s killed: %d left the old file, %d the new" % counts, end="; ")
    print("%d were cut between making the new file and giving it the name" % cut)
    expect("both were seen", 0 in seen.values(), False)


def main():
    for name in ("studio", "house", "bench", "converter"):
        # The launcher proves and builds what is not built yet, and says so on standard error.
        subprocess.run([os.path.join(ROOT, name), "--help"], stdout=subprocess.DEVNULL, check=True)
    for name in ("studio", "house"):
        check_answers(name)
        check_house(name)
        check_complaints(name)
        check_failures(name)
        check_replacing(name)
        check_growing(name)
        check_turned(name)
        check_folders(name)
        with Room() as room:
            check_output(name, [os.path.join(DATA, "refused_8"), room.held], 1)
            check_output(name, focus(room.held), 0)
    check_bench()
    check_pipe()
    check_output("bench", [os.path.join(DATA, "accepted")] * 3, 0)
    check_converter()
    check_unconverted()
    check_no_file()
    check_converter_replacing()
    check_shut_folder()
    check_output("converter", [os.path.join(DATA, "accepted")] * 3, 0)
    for program in KILLED:
        check_kills(program)
    print("%d passed, %d failed" % (passed, failed))
    raise SystemExit(failed > 0)


if __name__ == "__main__":
    main()
