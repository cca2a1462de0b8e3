#!/usr/bin/env python3
"""Adds to archives and removes from them by the program, kills it anywhere, and compares what is left with a plain model.

usage: check_archive.py [IX] [--only PART,..] [--kills N] [--seconds N]

IX is build/ix beside this folder. The parts are the functions below; there are at least N kills at calls by a rule (500), and
readers beside a writer for N seconds (5). The model keeps the documents of an archive in a list, and asks each of them. All files
are made in a folder of the system's own choice, which is gone at the end. Status 0: all is as expected. A C compiler is needed.
"""
import argparse
import fcntl
import os
import random
import resource
import shutil
import signal
import subprocess
import sys
import tempfile
import time
from pathlib import Path

sys.dont_write_bytecode = True
sys.path.insert(0, str(Path(__file__).resolve().parent / "faults"))
from program import Program, shim

WORDS = argparse.ArgumentParser(description=__doc__.split("\n")[0])
WORDS.add_argument("ix", nargs="?", default=Path(__file__).resolve().parent.parent / "build/ix", type=Path)
WORDS.add_argument("--only", default="each_call,ruled_kills,two_writers,full_disk,no_permission,beside")
WORDS.add_argument("--kills", type=int, default=500)
WORDS.add_argument("--seconds", type=int, default=5)
SAID = WORDS.parse_args()
IX = SAID.ix.resolve()
QUERIES = ("red", "fox", "red AND fox", "NOT red", "NOT nothing", '"red fox"', "re*")
failed = 0


def check(name, ok, found=""):
    global failed
    if not ok:
        failed += 1
        print(f"FAILED: {name}: {found}", file=sys.stderr)


class Model:
    """The documents of an archive in order: name, words, and whether it was removed."""

    def __init__(self, documents=()):
        self.documents = list(documents)

    def added(self, documents):
        return Model(self.documents + [(name, words, False) for name, words in documents])

    def removed(self, names):
        return Model([(name, words, gone or name in names) for name, words, gone in self.documents])

    def answer(self, query):
        """The names that a search prints: each query of QUERIES is asked of each document."""
        def satisfies(words):
            return {
                "red": "red" in words, "fox": "fox" in words, "red AND fox": "red" in words and "fox" in words,
                "NOT red": "red" not in words, "NOT nothing": True,
                '"red fox"': ("red", "fox") in zip(words, words[1:]), "re*": any(word.startswith("re") for word in words),
            }[query]
        return [name for name, words, gone in self.documents if not gone and satisfies(words)]

    def answers(self):
        return [self.answer(query) for query in QUERIES]

    def has(self, names):
        return any(name in names and not gone for name, _, gone in self.documents)


def line_of(document):
    name, words = document
    return f"{name}\t{' '.join(words)}\n"


def text_of(documents):
    return "".join(map(line_of, documents)).encode()


def some_documents(chosen, count, first):
    words = ("red", "fox", "reed", "hound", "blue")
    return [(f"d{chosen.randrange(first + count)}", [chosen.choice(words) for _ in range(chosen.randrange(6))]) for _ in range(count)]


class Archive:
    """An archive below a program's folder, and the commands over it."""

    def __init__(self, program, name="A"):
        self.program, self.name = program, name
        self.path = program.folder / name

    def answers(self):
        """What the searches print; none if there is no archive."""
        found = []
        for query in QUERIES:
            got = self.program.run("search", self.name, query)
            if got.status == 2:
                return got
            found.append(got.printed.decode().split())
        return found

    def apply(self, step, **refusals):
        kind, given = step
        if kind == "add":
            self.program.write("given", text_of(given))
            return self.program.run("add", self.name, "given", **refusals)
        return self.program.run("remove", self.name, *given, **refusals)

    def take(self):
        shutil.rmtree(self.path, ignore_errors=True)

    def is_sound(self):
        """Whether each segment that the manifest names is an index text."""
        lines = (self.path / "manifest").read_text().splitlines()
        segments = [f"{self.name}/segment-{line.split()[1]}" for line in lines if line.startswith("segment ")]
        return self.program.run("check", *segments).told() == (0, b"", b"")


def after(model, step):
    kind, given = step
    return model.added(given) if kind == "add" else model.removed(given)


def expected_status(model, step):
    return 0 if step[0] == "add" or model.has(step[1]) else 1


def holds(archive, model):
    """The archive has the model's documents; a model without documents may have no archive."""
    found = archive.answers()
    if isinstance(found, list):
        return found == model.answers()
    return model.documents == []


def make(archive, steps):
    """An archive by these steps, and its model."""
    archive.take()
    model = Model()
    for step in steps:
        got = archive.apply(step)
        check(f"{step}", got.told() == (expected_status(model, step), b"", b""), got)
        model = after(model, step)
    return model


def kill_and_go_on(archive, model, step, name, **refusals):
    """One kill: before or after; sound; the same call again goes on. Answers whether the program was killed."""
    got = archive.apply(step, **refusals)
    if got.status != -signal.SIGKILL:
        check(f"{name}: not killed", got.status == expected_status(model, step), got)
        return False
    later = after(model, step)
    left = model if holds(archive, model) else later if holds(archive, later) else None
    check(f"{name}: before or after", left is not None, archive.answers())
    if left is None:
        return True
    if left.documents:
        check(f"{name}: sound", archive.is_sound())
    got = archive.apply(step)
    check(f"{name}: again", got.told() == (expected_status(left, step), b"", b""), got)
    check(f"{name}: again, all is there", holds(archive, after(left, step)), archive.answers())
    names = {path.name for path in archive.path.iterdir()}
    told = (archive.path / "manifest").read_text().split("\n")
    kept = {"-".join(line.split()[:2]) for line in told if line.startswith(("segment ", "removals "))}
    # the removals before those of a manifest are there until the next writer comes
    left_over = {it for it in names - kept if it.startswith("removals-")} if step[0] == "remove" else set()
    check(f"{name}: nothing else is left", names - left_over == {"lock", "manifest"} | kept and len(left_over) < 2, names)
    return True


HISTORY = [
    ("add", [("1", ["red", "fox"]), ("2", ["fox"])]),
    ("add", [("3", ["red", "hound"])]),
    ("remove", ["1"]),
    ("add", [("1", ["reed"]), ("4", [])]),
    ("remove", ["1", "3"]),
    ("add", [("5", ["red", "fox", "red", "fox"])]),
]


def each_call(program):
    """Each step of a history, killed before and after each of its writes and calls that change files."""
    kills = 0
    for number, step in enumerate(HISTORY):
        for later in (0, 1):
            call, killed = 0, True
            while killed:
                call += 1
                archive = Archive(program)
                model = make(archive, HISTORY[:number])
                killed = kill_and_go_on(archive, model, step, f"step {number}, call {call}, after {later}", kill=call, kill_after=later)
                kills += killed
    print(f"each_call: {kills} kills")


def ruled_kills(program):
    """A growing archive, killed by a rule; each time the call is made again."""
    chosen, kills = random.Random(7), 0
    while kills < SAID.kills:
        archive = Archive(program)
        archive.take()
        model = Model()
        for _ in range(25):
            if model.documents and chosen.random() < 0.4:
                step = ("remove", [chosen.choice(model.documents)[0] for _ in range(chosen.randrange(1, 4))])
            else:
                step = ("add", some_documents(chosen, chosen.randrange(1, 9), len(model.documents)))
            call, later = chosen.randrange(1, 30), chosen.randrange(2)
            got = archive.apply(step, kill=call, kill_after=later)
            if got.status == -signal.SIGKILL:
                kills += 1
                changed = after(model, step)
                old, new = holds(archive, model), holds(archive, changed)
                check(f"kill {kills}: before or after", old or new, archive.answers())
                model = changed if new else model
            else:
                check(f"kill {kills}: done", got.status == expected_status(model, step), got)
                model = after(model, step)
        check(f"kill {kills}: whole", holds(archive, model) and archive.is_sound(), archive.answers())
    print(f"ruled_kills: {kills} kills")


def two_writers(program):
    """A second writer is told at once that the archive is locked; readers are not."""
    archive = Archive(program)
    model = make(archive, HISTORY[:2])
    with open(archive.path / "lock", "rb") as lock:
        fcntl.flock(lock, fcntl.LOCK_EX)
        for step in (HISTORY[2], HISTORY[3]):
            got = archive.apply(step)
            check("locked", got.told() == (2, b"", b"ix: archive 1: Locked\n"), got)
        check("readers", holds(archive, model))


def full_disk(program):
    """Nothing is written above a size: the archive is as it was."""
    archive = Archive(program)
    model = make(archive, HISTORY[:3])
    before = sorted((path.name, path.read_bytes()) for path in archive.path.iterdir())

    def few_bytes():
        signal.signal(signal.SIGXFSZ, signal.SIG_IGN)
        resource.setrlimit(resource.RLIMIT_FSIZE, (100, 100))

    program.write("given", text_of([("9", ["red"] * 300)]))
    got = subprocess.run([IX, "add", archive.path, program.folder / "given"], capture_output=True, preexec_fn=few_bytes, timeout=60)
    check("a full disk", got.returncode == 2 and got.stderr == b"ix: build 3: Write\n", got)
    check("nothing changed", before == sorted((path.name, path.read_bytes()) for path in archive.path.iterdir()))
    check("as it was", holds(archive, model))


def no_permission(program):
    """A folder that may only be read: readers read, writers are errors."""
    archive = Archive(program)
    model = make(archive, HISTORY[:3])

    def nobody():
        if os.getuid() == 0:
            os.setgid(65534)
            os.setuid(65534)

    os.chmod(program.folder, 0o755)
    os.chmod(program.room, 0o755)
    program.write("given", text_of([("9", ["red"])]))
    os.chmod(program.folder / "given", 0o644)
    got = subprocess.run([IX, "search", archive.path, "NOT nothing"], capture_output=True, preexec_fn=nobody, timeout=60)
    check("a reader reads", (got.returncode, got.stdout.decode().split()) == (0, model.answer("NOT nothing")), got)
    got = subprocess.run([IX, "add", archive.path, program.folder / "given"], capture_output=True, preexec_fn=nobody, timeout=60)
    check("a writer may not write", got.returncode == 2, got)
    check("as it was", holds(archive, model))


def beside(program):
    """Searches beside a writer: each answer is that of one archive that was there."""
    archive = Archive(program)
    archive.take()
    model, history, chosen = Model(), [], random.Random(3)
    program.write("given", text_of([("0", ["red"])]))
    got = program.run("add", archive.name, "given")
    model = model.added([("0", ["red"])])
    history.append(model.answer("NOT nothing"))
    end, reads = time.monotonic() + SAID.seconds, 0
    while time.monotonic() < end:
        if len(model.documents) > 3 and chosen.random() < 0.4:
            step = ("remove", [chosen.choice(model.documents)[0]])
            words = ["remove", archive.path, *step[1]]
        else:
            step = ("add", some_documents(chosen, 3, len(model.documents)))
            program.write("given", text_of(step[1]))
            words = ["add", archive.path, program.folder / "given"]
        model = after(model, step)
        history.append(model.answer("NOT nothing"))
        with subprocess.Popen([IX, *words], stdout=subprocess.DEVNULL, stderr=subprocess.PIPE) as writer:
            while writer.poll() is None:
                got = subprocess.run([IX, "search", archive.path, "NOT nothing"], capture_output=True, timeout=60)
                reads += 1
                check("beside", got.stdout.decode().split() in history[-2:] and got.returncode in (0, 1), got)
            check("the writer", writer.returncode in (0, 1), writer.stderr.read())
    print(f"beside: {reads} searches, {len(history)} commits")


def main():
    with tempfile.TemporaryDirectory() as room:
        preload = shim(room)
        for part in SAID.only.split(","):
            with Program(IX, preload, room) as program:
                start = time.monotonic()
                globals()[part](program)
                print(f"{part}: {time.monotonic() - start:.1f} s")
    print("as expected" if not failed else f"{failed} failed")
    return 1 if failed else 0


if __name__ == "__main__":
    sys.exit(main())
