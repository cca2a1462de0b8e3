#!/usr/bin/env python3
"""Proves crates and the crates that they use, those that do not use one another side by side.

usage: share/prove.py CRATE..     (needs the command rt; RT_JOBS=N: at most N checks at once)

One `rt` at a time works in a checkout, so each lane has a copy of the sources below build/lanes. What a lane builds of a
proved crate is linked into the other lanes and into this checkout, where `rt` takes it if the sources are the same. A lane
takes 4 GB; the processors that no other crate waits for go to the crates that are being proved. A crate is not looked at
again until its sources, or those of a crate that it uses, change.
"""
import hashlib
import os
import re
import shutil
import subprocess
import sys
import threading
import time
from pathlib import Path

TOP = Path(__file__).resolve().parent.parent
LANES = TOP / "build" / "lanes"
PARTS = ("src", "specs", "proofs")
LANE_BYTES = 4_000_000_000
# Minutes of one processor for a thousand lines, rounded up; rt's own guide gives 1 to 3.
MINUTES = 1.5


def uses() -> dict[str, list[str]]:
    """The crates of crates.txt, each with those of this repository that it names."""
    lines = [line.split(":") for line in (TOP / "crates.txt").read_text().splitlines() if re.match("[a-z]", line)]
    named = {head.split()[0]: tail.split() for head, tail in lines}
    return {crate: [it for it in below if it in named] for crate, below in named.items()}


def needed(crate: str, below: dict[str, list[str]]) -> list[str]:
    """The crate and all that it stands on, the lowest first."""
    order: list[str] = []
    for it in below[crate]:
        order += [other for other in needed(it, below) if other not in order]
    return [*order, crate]


def sources(crate: str) -> list[Path]:
    return sorted(it for part in PARTS for it in (TOP / "crates" / crate / part).rglob("*") if it.is_file())


def weight(crate: str) -> int:
    """How many lines a check of the crate reads of it."""
    return sum(it.read_bytes().count(b"\n") for it in sources(crate))


def sum_of(crate: str, below: dict[str, list[str]]) -> str:
    """A sum of the crate's sources and of those of all that it uses."""
    total = hashlib.sha256()
    for it in needed(crate, below):
        for file in sources(it):
            total.update(f"{file.relative_to(TOP)} {file.stat().st_size} ".encode() + file.read_bytes())
    return total.hexdigest()


def lanes_here() -> int:
    """How many checks run side by side: what RT_JOBS says, or what this machine bears."""
    if os.environ.get("RT_JOBS", "").isdigit():
        return max(1, int(os.environ["RT_JOBS"]))
    found = re.search(r"MemAvailable:\s+(\d+)", Path("/proc/meminfo").read_text())
    held = int(found[1]) * 1024 if found else LANE_BYTES
    return max(1, min(len(os.sched_getaffinity(0)), held // LANE_BYTES))


def hand_out(crate: str, lane: Path, lanes: int) -> None:
    """Gives what the lane built of a crate to the other lanes and to this checkout, as links to the same files."""
    built = Path("crates") / crate / "out" / "rlib"
    for to in [TOP, *(LANES / str(it) for it in range(lanes))]:
        if to != lane:
            shutil.rmtree(to / built, ignore_errors=True)
            shutil.copytree(lane / built, to / built, copy_function=os.link)


def fill(lane: Path, crates: list[str]) -> None:
    """Copies the sources into the lane; what earlier checks kept there stays."""
    for crate in crates:
        for part in PARTS:
            shutil.rmtree(lane / "crates" / crate / part, ignore_errors=True)
            if (TOP / "crates" / crate / part).is_dir():
                shutil.copytree(TOP / "crates" / crate / part, lane / "crates" / crate / part)
    lines = [line for line in (TOP / "crates.txt").read_text().splitlines() if re.split(r"[ :]", line)[0] in crates]
    (lane / "crates.txt").write_text("\n".join(lines) + "\n")
    shutil.copy(TOP / "HANDLES", lane / "HANDLES")


class Proving:
    """What is proved, what is being proved, and how far each check is."""

    def __init__(self, order: list[str], below: dict[str, list[str]], lanes: int) -> None:
        self.order, self.below, self.turn = order, below, threading.Condition()
        self.lanes = self.free = lanes
        self.failed, self.begun = "", time.monotonic()
        self.sums = {it: sum_of(it, below) for it in order}
        self.done = {it for it in order if self.mark(it).is_file() and self.mark(it).read_text() == self.sums[it]}
        self.left = [it for it in order if it not in self.done]
        # How far the checks are that run now.
        self.far: dict[str, str] = {}
        behind = {it: weight(it) for it in order}
        for crate in reversed(order):
            above = [behind[it] for it in order if crate in below[it]]
            behind[crate] += max(above, default=0)
        self.left.sort(key=lambda it: -behind[it])

    def mark(self, crate: str) -> Path:
        """The file that holds the sum of the sources that were proved last."""
        return LANES / f"{crate}.proved"

    def take(self) -> tuple[str, int] | None:
        """The next crate of which all that it uses is proved, and by how many jobs; none: nothing is left to begin."""
        with self.turn:
            while self.left and not self.failed:
                ready = [it for it in self.left if self.done.issuperset(self.below[it])]
                if ready and self.free:
                    self.left.remove(ready[0])
                    self.far[ready[0]] = ""
                    jobs = max(1, self.free // len(ready))
                    self.free -= jobs
                    return ready[0], jobs
                self.turn.wait()
            return None

    def end(self, crate: str, jobs: int, proved: bool) -> None:
        with self.turn:
            del self.far[crate]
            self.free += jobs
            if proved:
                self.mark(crate).write_text(self.sums[crate])
                self.done.add(crate)
            else:
                self.failed = self.failed or crate
            self.turn.notify_all()
        self.show(f"{crate} {'proved' if proved else 'NOT PROVED'}")

    def show(self, news: str) -> None:
        minutes = (time.monotonic() - self.begun) / 60
        now = ", ".join(f"{crate} {far}".strip() for crate, far in self.far.items())
        print(f"{minutes:5.1f} min  {len(self.done)} of {len(self.order)} crates: {news}{f'; now {now}' if now else ''}", flush=True)

    def call(self, crate: str, verb: str, home: Path, jobs: int) -> bool:
        """Whether `rt check` or `rt lib` accepts the crate; notes how many of its functions are checked."""
        with open(LANES / f"{crate}.log", "a") as log:
            run = subprocess.Popen(
                ["rt", verb, "--jobs", str(jobs)], cwd=home, stdout=subprocess.PIPE, stderr=subprocess.STDOUT, text=True
            )
            assert run.stdout
            for line in run.stdout:
                log.write(line)
                if far := re.match(r"checked \S+, (\d+ of \d+)", line):
                    self.far[crate] = far[1]
            return run.wait() == 0

    def work(self, lane: Path) -> None:
        while taken := self.take():
            crate, jobs = taken
            home = lane / "crates" / crate
            (LANES / f"{crate}.log").unlink(missing_ok=True)
            is_used = any(crate in self.below[it] for it in self.order)
            is_proved = all(self.call(crate, verb, home, jobs) for verb in ["check", *["lib"] * is_used])
            if is_proved and is_used:
                hand_out(crate, lane, self.lanes)
            self.end(crate, jobs, is_proved)


def main(crates: list[str]) -> int:
    below = uses()
    order: list[str] = []
    for crate in crates:
        order += [it for it in needed(crate, below) if it not in order]
    LANES.mkdir(parents=True, exist_ok=True)
    count = lanes_here()
    proving = Proving(order, below, count)
    lines = sum(map(weight, proving.left))
    print(f"proving {len(proving.left)} of {len(order)} crates, {lines} lines, {count} at once: about "
          f"{lines / 1000 * MINUTES / max(count, 1) + 1:.0f} minutes", flush=True)
    for number in range(count):
        fill(LANES / str(number), order)
    lanes = [threading.Thread(target=proving.work, args=(LANES / str(it),), daemon=True) for it in range(count)]
    for lane in lanes:
        lane.start()
    told = time.monotonic()
    while any(it.is_alive() for it in lanes):
        time.sleep(0.2)
        if time.monotonic() - told >= 60:
            told = time.monotonic()
            proving.show("working")
    if proving.failed:
        print(f"{proving.failed} is not proved; the last lines of build/lanes/{proving.failed}.log:", file=sys.stderr)
        print("".join((LANES / f"{proving.failed}.log").read_text().splitlines(True)[-20:]), file=sys.stderr)
        return 1
    return 0


if __name__ == "__main__":
    if len(sys.argv) < 2:
        sys.exit(__doc__)
    sys.exit(main(sys.argv[1:]))
