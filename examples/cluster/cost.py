#!/usr/bin/env python3
"""Measures a sample of a collection, and computes what building the whole of it in pieces would take.

  cost.py [--ix IX] [--bytes N] [--pieces P] SAMPLE      N bytes in all (10000000000000) in P pieces (40000)

SAMPLE is a collection of the same kind of texts, of at most 2^28 bytes: the larger, the better. It is cut into eight pieces,
which are counted, inverted, merged and searched. Times are of the processor, so that other work on the machine counts little.
The program is IX, or build/ix beside this folder. All files are made in a folder of the system's own choice.
"""
import argparse
import math
import os
import subprocess
import sys
import tempfile
from pathlib import Path

HERE = Path(__file__).resolve().parent
LIMIT = 1 << 28  # documents, and words, of an index
MOST_BYTES = 1 << 28  # of a piece


def measured(*words, ix):
    """Runs a command to its end; gives its processor seconds and the most memory that a process of it had, in bytes."""
    process = subprocess.Popen([os.fspath(word) for word in words], env={**os.environ, "IX": ix}, stdout=subprocess.DEVNULL)
    _, status, used = os.wait4(process.pid, 0)
    process.returncode = os.waitstatus_to_exitcode(status)
    if process.returncode not in (0, 1):
        sys.exit(f"cost.py: {' '.join(process.args)}: status {process.returncode}")
    return used.ru_utime + used.ru_stime, used.ru_maxrss * 1024


def documents_and_words(run):
    """How many documents a run file has, and how many words, by its head."""
    text, at = run.read_bytes(), 16

    def number():
        nonlocal at
        value = 0
        while True:
            byte = text[at]
            at += 1
            value = value << 7 | byte & 127
            if byte & 128:
                return value

    for _ in range(number()):
        length = number()
        at += length
    documents, words = int.from_bytes(text[12:16], "little"), 0
    for _ in range(documents):
        length = number()
        at += length
        words += number()
    return documents, words


def sample(collection, ix):
    """What the sample takes, each figure for one byte of its text."""
    size = collection.stat().st_size
    found = dict.fromkeys(("count", "run", "merge", "search", "documents", "words", "runs", "index", "memory"), 0)
    with tempfile.TemporaryDirectory() as folder:
        work, pieces = Path(folder, "work"), HERE / "pieces.py"
        measured(pieces, "cut", collection, work, "--bytes", str(size // 8 + 1), "--together", "16", ix=ix)
        names = subprocess.run([pieces, "list", work], check=True, capture_output=True, text=True).stdout.split()
        for step in ("count", "number", "run"):
            for name in names if step != "number" else [None]:
                seconds, memory = measured(pieces, step, work, *([name] if name else []), ix=ix)
                found["count" if step == "number" else step] += seconds / size
                if step == "run":
                    piece = collection.stat().st_size / len(names)
                    found["memory"] = max(found["memory"], memory / piece)
        for run in work.rglob("*.run"):
            documents, words = documents_and_words(run)
            found["documents"] += documents / size
            found["words"] += words / size
            found["runs"] += run.stat().st_size / size
        found["merge"] = measured(pieces, "merge", work, "i0000", ix=ix)[0] / size
        found["index"] = (work / "i0000.ix").stat().st_size / size
        found["search"] = measured(ix, "search", work / "i0000.ix", "contract AND NOT hotel", ix=ix)[0] / size
    return found


def told(amount, units):
    """A number with the unit that makes it short."""
    scale = {"B": (1000, ("B", "kB", "MB", "GB", "TB", "PB")), "": (1000, ("", " thousand", " million", " billion", " trillion"))}
    base, names = scale[units]
    place = max(0, min(len(names) - 1, int(math.log(amount, base)))) if amount >= 1 else 0
    space = " " if units else ""
    return f"{amount / base ** place:.3g}{space}{names[place]}"


def hours(seconds):
    return f"{seconds:.3g} s" if seconds < 600 else f"{seconds / 3600:,.3g} h" if seconds < 3.6e6 else f"{seconds / 3600:,.0f} h"


def report(found, size, total, pieces):
    piece = total / pieces
    together = int(min(LIMIT / (piece * found["words"]), LIMIT / (piece * found["documents"])))
    if piece > MOST_BYTES or together < 1:
        sys.exit(f"cost.py: pieces of {told(piece, 'B')} are too large: more of them")
    indexes = math.ceil(pieces / together)
    text, runs, index = total, total * found["runs"], total * found["index"]
    print(f"Measured on a sample of {told(size, 'B')}:\n")
    print("| For each MB of text | |\n|---|---|")
    print(f"| documents; words | {found['documents'] * 1e6:,.0f}; {found['words'] * 1e6:,.0f} |")
    print(f"| its run; its part of an index | {found['runs']:.2f} MB; {found['index']:.2f} MB |")
    print(f"| counting, inverting, merging (processor) | {found['count'] * 1e9:.3g}, {found['run'] * 1e9:.3g}, {found['merge'] * 1e9:.3g} ms |")
    print(f"| one search, which opens the index (processor) | {found['search'] * 1e9:.3g} ms |\n")
    print(f"Computed from it, for {told(total, 'B')} in {pieces:,} pieces of {told(piece, 'B')}:\n")
    print("| | |\n|---|---|")
    print(f"| documents; words | {told(total * found['documents'], '')}; {told(total * found['words'], '')} |")
    print(f"| pieces an index: 2^28 words or documents at most | {together} |")
    print(f"| indexes | {indexes:,}, each of some {told(index / indexes, 'B')} |")
    print(f"| runs; levels of merging | {pieces:,}; 1, with {together} run files open at a time |")
    print(f"| text read: once to count, once to invert | 2 × {told(text, 'B')} |")
    print(f"| runs written and read | 2 × {told(runs, 'B')} |")
    print(f"| indexes written | {told(index, 'B')} |")
    print(f"| bytes moved in all | {told(2 * text + 2 * runs + index, 'B')} |")
    print(f"| memory of a worker that inverts | {told(found['memory'] * piece, 'B')} |")
    steps = [found[name] * total for name in ("count", "run", "merge")]
    print(f"| processor time: counting, inverting, merging | {', '.join(hours(seconds) for seconds in steps)} |")
    print(f"| in all on 4, 100, 1000 processors that never wait | {', '.join(hours(sum(steps) / n) for n in (4, 100, 1000))} |")
    print(f"| one question to all indexes (processor) | {hours(found['search'] * total)} |")


def main():
    parser = argparse.ArgumentParser(description=__doc__, formatter_class=argparse.RawDescriptionHelpFormatter)
    parser.add_argument("--ix", default=HERE.parents[1] / "build/ix")
    parser.add_argument("--bytes", type=float, default=1e13)
    parser.add_argument("--pieces", type=int, default=40000)
    parser.add_argument("sample", type=Path)
    given = parser.parse_args()
    size = given.sample.stat().st_size
    if not 0 < size <= MOST_BYTES:
        sys.exit(f"cost.py: a sample has 1 to {MOST_BYTES} bytes")
    report(sample(given.sample, os.path.abspath(given.ix)), size, given.bytes, given.pieces)


if __name__ == "__main__":
    main()
