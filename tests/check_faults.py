#!/usr/bin/env python3
"""Refuses what a machine can refuse to the proved program, and forges its files: docs/proofs/faults.md says what.

usage: check_faults.py [IX] [--jobs N] [--only PART[,PART..]] [--random N] [--step N]

IX is build/ix beside this folder. The parts are growths, calls, kills, samples, random, sizes, silence and units (the tests of
the libraries, where `rt test` has left programs of them). --random says how many files there are of each kind (10,000), and
--step that only each N-th byte of the samples is changed. Each case is a process of its own, in a folder that is gone at the
end. Status 0: all is as expected. A C compiler is needed (cc, clang, or that of rt).
"""
import argparse
import multiprocessing
import os
import subprocess
import sys
import tempfile
import time
from pathlib import Path

sys.dont_write_bytecode = True
sys.path.insert(0, str(Path(__file__).resolve().parent / "faults"))
import changes
import kills
import refusals
import silence
import sizes
import units
from program import Program, die_with_parent, shim

KILLS = 1_000  # at least
HEAD = ("refused", "cases", "times", "answered in full")

program = None


def begin(path, preload, room):
    global program
    die_with_parent()
    program = Program(path, preload, room)
    refusals.prepare(program)


def call(work, *words):
    """Runs a piece of work with this process's program."""
    try:
        return work(program, *words)
    except Exception as error:  # so that the piece is named
        raise RuntimeError(f"{work.__name__} {words[-1]}: {error}") from error


class Parts:
    """Runs the parts over a pool of processes, prints a table of each, and keeps what was wrong."""

    def __init__(self, pool, known, count, step):
        self.pool, self.known, self.random, self.step, self.wrong = pool, known, count, step, []

    def spread(self, work, tasks, *words):
        jobs = [self.pool.apply_async(call, (work, *words, task)) for task in tasks]
        return [job.get() for job in jobs]

    def table(self, head, rows):
        """Prints rows of words and sums, each under its first word."""
        print(f"| {' | '.join(head)} |\n|{'---|' * len(head)}")
        for row in rows:
            print(f"| {' | '.join(str(it) for it in row)} |")
        sys.stdout.flush()

    def sums(self, found):
        sums = {}
        for name, *numbers, wrong in found:
            sums[name] = [a + b for a, b in zip(sums.get(name, [0] * (len(numbers) + 1)), [1] + numbers)]
            self.wrong += wrong
        return [(name, *numbers) for name, numbers in sums.items()]

    def refusals(self, kinds, head):
        found = self.spread(refusals.work, refusals.tasks(kinds, self.known), kinds)
        self.table(head, self.sums([(name, tried, whole, wrong) for name, _, tried, whole, wrong in found]))
        return found

    def growths(self):
        found = self.refusals(refusals.GROWTHS, HEAD)
        rows = [(case, tried) for name, case, tried, _, _ in found if name == refusals.GROWTHS[0][0]]
        self.table(("command", "requests refused in turn"), rows)

    def calls(self):
        self.refusals(refusals.CALLS, HEAD)

    def kills(self):
        rows = self.sums(self.spread(kills.work, kills.tasks()))
        self.table(("command", "cases", "kills", "left the old file"), rows)
        count = sum(killed for _, _, killed, _ in rows)
        if count < KILLS:
            self.wrong.append(f"{count} kills")

    def changed(self, work, tasks):
        rows = self.sums(self.spread(work, tasks))
        self.table(("files", "tried", "accepted"), [(name, tried, accepted) for name, _, tried, accepted in rows])

    def samples(self):
        self.changed(changes.sample_work, changes.sample_tasks(self.step))

    def random_files(self):
        self.changed(changes.random_work, changes.random_tasks(self.random))

    def sizes(self):
        worst = {}
        for found in self.spread(sizes.work, sizes.tasks()):
            for name, size, taken, answer, wrong in found:
                self.wrong += wrong
                row = (name, answer, size, taken, f"{taken / size:.1f}")
                worst[name] = max(row, worst.get(name, row), key=lambda it: it[3] / it[2])
        self.table(("forged file", "answer", "bytes", "memory for opening", "times the file, at most"), worst.values())

    def silence(self):
        found = self.spread(silence.work, silence.tasks())
        self.table(("what no clause says", "cases", "tried"), self.sums(found))

    def units(self):
        found = self.spread(units.work, units.programs(Path(__file__).resolve().parent.parent))
        for _, _, wrong in found:
            self.wrong += wrong
        head = ("tests of", "tests", "left out", "requests refused", "passed", "told want of memory", "not judged")
        self.table(head, [(name, *sums) for name, sums, _ in found])


def known_commands(path):
    """What the program's help says, and that of `build`."""
    helps = [subprocess.run([path, *words, "--help"], capture_output=True, text=True).stdout for words in ([], ["build"])]
    return "".join(helps)


def main():
    here = Path(__file__).resolve().parent
    words = argparse.ArgumentParser(description=__doc__.split("\n")[0])
    words.add_argument("ix", nargs="?", default=here.parent / "build/ix", type=Path)
    words.add_argument("--jobs", type=int, default=os.cpu_count())
    words.add_argument("--only", default="growths,calls,kills,samples,random,sizes,silence,units")
    words.add_argument("--random", type=int, default=10_000)
    words.add_argument("--step", type=int, default=1)
    said = words.parse_args()
    if not said.ix.is_file():
        print(f"there is no program {said.ix}: make it with make", file=sys.stderr)
        return 2
    memory = "/dev/shm" if os.path.isdir("/dev/shm") else None  # where programs may be forbidden, so not the shim's place
    with tempfile.TemporaryDirectory() as folder, tempfile.TemporaryDirectory(prefix="ix-faults-", dir=memory) as room:
        with multiprocessing.Pool(said.jobs, begin, (said.ix.resolve(), shim(folder), room)) as pool:
            parts = Parts(pool, known_commands(said.ix.resolve()), said.random, said.step)
            for name in said.only.split(","):
                began = time.monotonic()
                print(f"## {name}")
                {"random": parts.random_files}.get(name, getattr(parts, name, None))()
                print(f"{time.monotonic() - began:.0f} seconds\n", flush=True)
    for wrong in parts.wrong[:50]:
        print(f"FAILED: {wrong}", file=sys.stderr)
    print(f"{len(parts.wrong)} failed" if parts.wrong else "all as expected")
    return 1 if parts.wrong else 0


if __name__ == "__main__":
    sys.exit(main())
