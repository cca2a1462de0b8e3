#!/usr/bin/python3
"""Builds a collection in pieces by each of the three ways, loses a worker and pieces on the way, and compares with `ix build`.

usage: check.py [IX]        default: build/ix beside this folder

Needs GNU parallel and Dask's distributed (Debian: apt install parallel python3-distributed). All files are made in a folder of
the system's own choice, and the scheduler takes a free port of the loopback address; both are gone at the end.
"""
import contextlib
import filecmp
import json
import os
import random
import shutil
import signal
import subprocess
import sys
import tempfile
import time
from pathlib import Path

HERE = Path(__file__).resolve().parent
IX = os.path.abspath(sys.argv[1] if len(sys.argv) > 1 else HERE.parents[1] / "build/ix")
PIECES = str(HERE / "pieces.py")
DASK = [sys.executable, "-m", "distributed.cli.dask_scheduler", "--host", "127.0.0.1", "--port", "0", "--no-dashboard"]
WORKER = [sys.executable, "-m", "distributed.cli.dask_worker", "--host", "127.0.0.1", "--nthreads", "1", "--no-nanny", "--no-dashboard"]
failed = 0


def check(name, ok, told=""):
    global failed
    print(f"ok: {name}" if ok else f"FAILED: {name}: {told}", file=sys.stdout if ok else sys.stderr, flush=True)
    failed += not ok


def run(*words, ix=IX, **more):
    """Runs a command to its end, with this program as $IX."""
    words = [os.fspath(word) for word in words]
    return subprocess.run(words, env={**os.environ, "IX": str(ix), **more}, stdin=subprocess.DEVNULL, capture_output=True, text=True, timeout=300)


def done(name, *words, **more):
    ended = run(*words, **more)
    check(name, ended.returncode == 0, ended.stderr)


def same(name, one, other):
    check(name, Path(one).exists() and filecmp.cmp(one, other, shallow=False), f"{one} differs from {other}")


def collection(path, documents):
    """Documents of words of several scripts, by a fixed rule; some have no word, some names come twice."""
    chance = random.Random(23)
    words = [f"{stem}{end}" for stem in ("wort", "мир", "λόγος", "kelime", "palabra", "x") for end in range(200)] + ["the", "of"]
    with open(path, "w", encoding="utf-8") as file:
        for number in range(documents):
            file.write(f"d{number % 2900}\t{' '.join(chance.choices(words, k=chance.choice((0, 5, 60))))}\n")


def wrapper(path, lines):
    """A program that does these lines of a shell before it is `ix`."""
    path.write_text(f"#!/bin/sh\n{lines}\nexec '{IX}' \"$@\"\n")
    path.chmod(0o755)
    return path


def cutting():
    done("cut", PIECES, "cut", "c.tsv", "cut", "--bytes", "20000")
    plan = json.loads(Path("cut/plan").read_text())["pieces"]
    text = Path("c.tsv").read_bytes()
    parts = [text[begin:begin + size] for begin, size in plan.values()]
    check("the pieces are the collection", b"".join(parts) == text and len(parts) > 10, len(parts))
    check("each piece ends at a document's end", all(part.endswith(b"\n") for part in parts))
    ended = run(PIECES, "cut", "c.tsv", "cut", "--bytes", "30000")
    check("a folder with another plan is refused", ended.returncode == 1 and "another" in ended.stderr, ended.stderr)
    with open("large.tsv", "wb") as file:  # a terabyte with nothing in it but line ends
        for end in range(1, 4097):
            file.seek((end << 28) - 1)
            file.write(b"\n")
    begun = time.monotonic()
    done("a terabyte is cut", PIECES, "cut", "large.tsv", "large", "--bytes", str(1 << 28))
    check("without reading it", time.monotonic() - begun < 30 and len(run(PIECES, "list", "large").stdout.split()) == 4096)
    os.unlink("large.tsv")
    Path("empty.tsv").write_bytes(b"")
    for step in (["cut", "empty.tsv", "none"], ["count", "none", "i0000/p00000"], ["number", "none"],
                 ["run", "none", "i0000/p00000"], ["merge", "none", "i0000"]):
        done(f"no documents: {step[0]}", PIECES, *step)
    run(IX, "build", "empty.tsv", "empty.ix")
    same("the index of no documents", "none/i0000.ix", "empty.ix")


def three_ways():
    """Whole, in several indexes, and with a program that fails at its first try on each piece."""
    Path("stop.txt").write_text("the\nof\n")
    run(IX, "build", "--stop", "stop.txt", "c.tsv", "whole.ix")
    flaky = wrapper(Path("flaky"), 'mkdir "$FLAKY/$1$([ "$1" = run ] && echo "$5")" 2> /dev/null && exit 3')
    options = ["--bytes", "30000", "--stop", "stop.txt"]
    for kind, ix, environment in (("", IX, {}), (", each step failing once", flaky.resolve(), {"FLAKY": "marks"})):
        ways = {
            "parallel": [HERE / "build-parallel.sh", "c.tsv", "parallel.work", *options],
            "make": ["make", "-s", "-j4", "-f", HERE / "build.mk", "COLLECTION=c.tsv", "WORK=make.work", f"CUT={' '.join(options)}"],
            "dask": [sys.executable, HERE / "build-dask.py", "c.tsv", "dask.work", *options],
        }
        for way, words in ways.items():
            os.makedirs("marks")
            more = {name: os.path.abspath(path) for name, path in environment.items()}
            done(f"built by {way}{kind}", *words, ix=ix, **more)
            same(f"the index by {way}{kind} is that of ix build", f"{way}.work/i0000.ix", "whole.ix")
            left = [path.name for path in Path(f"{way}.work").rglob("*.part")]
            check(f"no part of a file is left by {way}{kind}", not left, left)
            shutil.rmtree(f"{way}.work", ignore_errors=True)
            if environment:
                check(f"steps of {way} failed on the way", len(os.listdir("marks")) > 5, os.listdir("marks"))
            shutil.rmtree("marks")


def runs_of(process):
    """How many `ix run` steps this worker is in."""
    with contextlib.suppress(OSError):
        children = " ".join(path.read_text() for path in Path(f"/proc/{process.pid}/task").glob("*/children")).split()
        return sum(b"\0run\0" in Path(f"/proc/{child}/cmdline").read_bytes() for child in children)
    return 0


def lost_worker():
    """Four workers, of which one is ended with all that it started, while it makes a run."""
    slow = wrapper(Path("slow"), 'echo "$4" >> "$STARTED"; sleep 0.2')
    environment = {**os.environ, "STARTED": os.path.abspath("started"), "PYTHONWARNINGS": "ignore"}
    started = []
    with open("dask.log", "wb") as log, contextlib.ExitStack() as ends:

        def start(*words):
            process = subprocess.Popen(words, stdout=log, stderr=log, stdin=subprocess.DEVNULL, env=environment, start_new_session=True)
            started.append(process)
            return process

        def stop():
            for process in reversed(started):
                with contextlib.suppress(ProcessLookupError):
                    os.killpg(process.pid, signal.SIGKILL)
                process.wait()

        ends.callback(stop)
        start(*DASK, "--scheduler-file", "scheduler.json")
        wait_for(lambda: Path("scheduler.json").exists(), "a scheduler")
        workers = [start(*WORKER, "--scheduler-file", "scheduler.json", "--local-directory", f"worker-{n}") for n in range(4)]
        environment["IX"] = str(slow.resolve())
        build = start(sys.executable, str(HERE / "build-dask.py"), "c.tsv", "lost.work", "--scheduler-file", "scheduler.json",
                      "--bytes", "15000", "--stop", "stop.txt")
        wait_for(lambda: len(list(Path("lost.work").rglob("*.run"))) >= 4, "four runs")
        wait_for(lambda: all(runs_of(worker) for worker in workers), "four workers that make runs")
        os.killpg(workers[2].pid, signal.SIGKILL)
        before = len(list(Path("lost.work").rglob("*.run")))
        check("built though a worker was lost", build.wait(timeout=120) == 0, Path("dask.log").read_text()[-2000:])
        pieces = run(PIECES, "list", "lost.work").stdout.split()
        check("it was lost in the middle", 4 <= before < len(pieces) - 4 and workers[2].wait() == -signal.SIGKILL, f"{before} of {len(pieces)}")
        firsts = Path("started").read_text().split()
        check("its piece was made by another worker", len(firsts) > len(set(firsts)), firsts)
    same("the index is that of ix build", "lost.work/i0000.ix", "whole.ix")


def wait_for(holds, what):
    for _ in range(1200):
        if holds():
            return
        time.sleep(0.05)
    raise TimeoutError(f"no {what}; {Path('dask.log').read_text()[-2000:]}")


def twice_and_lost():
    """Runs that came twice, and runs that did not come, are told and not merged."""
    runs = Path("lost.work/i0000")
    kept = Path("lost.work/i0000.ix")
    kept.unlink()
    second, last = sorted(runs.glob("*.run"))[1], sorted(runs.glob("*.run"))[-1]
    first = int.from_bytes(second.read_bytes()[8:12], "little")

    def refused(name, line):
        ended = run(PIECES, "merge", "lost.work", "i0000")
        check(name, ended.returncode != 0 and line in ended.stderr and not kept.exists(), ended.stderr)

    shutil.copy(second, runs / "again.run")
    refused("a run that came twice", f"ix: merge 2: Overlap({first})")
    second.rename("away.run")
    (runs / "again.run").unlink()
    refused("a run that was lost", f"ix: merge 1: Gap({first})")
    Path("away.run").rename(second)
    last.rename("away.run")
    refused("the last run was lost", "the runs reach to document")
    Path("away.run").rename(last)
    last.write_bytes(last.read_bytes()[:-1])
    refused("a run that was cut short", "Number(Cut)")
    run(PIECES, "run", "lost.work", f"i0000/{last.stem}")
    done("merged, once all are there", PIECES, "merge", "lost.work", "i0000")
    same("the index is that of ix build again", kept, "whole.ix")


def many_runs():
    """More runs than a process may have files open, where nobody raises its limit: each of them in one merge."""
    done("cut small", PIECES, "cut", "c.tsv", "many.work", "--bytes", "350", "--fan-in", "5000", "--stop", "stop.txt")
    os.environ["IX"] = IX
    sys.dont_write_bytecode = True
    sys.path.insert(0, str(HERE))
    import pieces

    work = Path("many.work")
    names = list(pieces.read_plan(work)["pieces"])
    for name in names:
        pieces.count(work, name)
    pieces.number(work)
    for name in names:
        pieces.run(work, name)
    done(f"{len(names)} runs merged", PIECES, "merge", "many.work", "i0000")
    check("more than 1024 runs", len(names) > 1024, len(names))
    same("their index is that of ix build", "many.work/i0000.ix", "whole.ix")


def two_levels():
    """Groups of runs are merged first, and then their indexes: the same index, in each of the three ways."""
    options = ["--bytes", "30000", "--fan-in", "3", "--stop", "stop.txt"]
    ways = {
        "parallel": [HERE / "build-parallel.sh", "c.tsv", "parallel.two", *options],
        "make": ["make", "-s", "-j4", "-f", HERE / "build.mk", "COLLECTION=c.tsv", "WORK=make.two", f"CUT={' '.join(options)}"],
        "dask": [sys.executable, HERE / "build-dask.py", "c.tsv", "dask.two", *options],
    }
    for way, words in ways.items():
        done(f"built in two levels by {way}", *words)
        groups = run(PIECES, "groups", f"{way}.two").stdout.split()
        check("there are several groups", len(groups) > 3, groups)
        same(f"the index of two levels by {way} is that of ix build", f"{way}.two/i0000.ix", "whole.ix")
    done("indexes of three pieces are planned", PIECES, "cut", "c.tsv", "few.two", "--bytes", "20000", "--together", "3", "--fan-in", "3")
    check("they have no groups", run(PIECES, "groups", "few.two").stdout == "")
    second = Path("make.two/i0000/g001.ix")
    text = bytearray(second.read_bytes())
    text[40] ^= 1
    second.write_bytes(text)
    ended = run(PIECES, "merge", "make.two", "i0000")
    check("an index of a group that was changed", ended.returncode == 2 and "ix: index" in ended.stderr, ended.stderr)
    second.unlink()
    ended = run(PIECES, "merge", "make.two", "i0000")
    check("an index of a group that was lost", ended.returncode == 2 and "Read(g001.ix)" in ended.stderr, ended.stderr)


def searching():
    """A list of indexes answers as the whole collection does."""
    done("several indexes", HERE / "build-parallel.sh", "c.tsv", "parts.work", "--bytes", "20000", "--together", "3", "--stop", "stop.txt")
    indexes = sorted(Path("parts.work").glob("i*.ix"))
    check("there are several", len(indexes) > 3, len(indexes))
    Path("list").write_text("".join(f"{index}\n" for index in indexes))
    for query in ("wort7", "NOT wort7", "мир3 AND NOT x1*", "wort1* OR palabra5", "x1 NEAR/9 x2", '"x1 the x2" OR λόγος77', "nothing"):
        whole = run(IX, "ask", "--stop", "stop.txt", "c.tsv", query)
        for words in (["--list", "list", query], ["--jobs", "2", query, *indexes]):
            parts = run(HERE / "search", *words)
            check(f"search {words[0]} {query}", (parts.returncode, parts.stdout) == (whole.returncode, whole.stdout), parts.stderr)
    for query, index, line in (("wort7 x1", indexes[0], "Unexpected(6)"), ("wort7", "c.tsv", "index 2: Magic"), ("wort7", "none", "Read(none)")):
        ended = run(HERE / "search", query, indexes[1], index)
        check(f"refused: {line}", (ended.returncode, ended.stdout) == (2, "") and line in ended.stderr, ended.stderr)


def main():
    lacking = [package for command, package in (("parallel", "parallel"), ("make", "make")) if not shutil.which(command)]
    if run(sys.executable, "-c", "import distributed").returncode != 0:
        lacking.append("python3-distributed")
    if lacking:
        print(f"check.py needs more: apt install {' '.join(lacking)}", file=sys.stderr)
        return 2
    if not os.path.isfile(IX):
        print(f"there is no program {IX}: make it with make", file=sys.stderr)
        return 2
    signal.signal(signal.SIGTERM, lambda *_: sys.exit(1))  # so that one who ends it finds no files either
    with tempfile.TemporaryDirectory() as folder:
        os.chdir(folder)
        os.environ.update(TMPDIR=folder, PARALLEL_HOME=folder, DASK_CONFIG=folder)  # where parallel and Dask keep files
        collection("c.tsv", 3000)
        for part in (cutting, three_ways, two_levels, lost_worker, twice_and_lost, many_runs, searching):
            part()
        os.chdir("/")
    print(f"{failed} failed" if failed else "all as expected")
    return 1 if failed else 0


if __name__ == "__main__":
    sys.exit(main())
