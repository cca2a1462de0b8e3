#!/usr/bin/env python3
"""The steps of building the indexes of a large collection in pieces, each step a command that any machine may run.

  pieces.py cut COLLECTION WORK [--bytes N] [--together K] [--fan-in M] [--stop FILE]
                              plans pieces of about N bytes (67108864), K of them an index (as many as 2^30 bytes have); of an
                              index of more than M pieces (1000), M make a group each
  pieces.py list WORK         prints the names of the pieces, as i0000/p00000, or i0000/g000/p00000 in a group
  pieces.py groups WORK       prints the names of the groups, as i0000/g000: none where no index has so many pieces
  pieces.py indexes WORK      prints the names of the indexes, as i0000
  pieces.py count WORK PIECE  counts the documents of a piece
  pieces.py number WORK       once all are counted: the number of each piece's first document in its group, or in its index
  pieces.py run WORK PIECE    makes the run file of a piece, WORK/PIECE.run, by `ix run`
  pieces.py merge WORK NAME   makes the index file WORK/NAME.ix of a group or an index, by `ix merge`: of all run files in the
                              folder WORK/NAME, or of an index that has groups of the index files of these, in order

`cut` looks for the next line end at each N bytes and reads nothing else. Each step writes its file whole or not at all, so a
step that failed, or was cut off with its machine, is done again by the same words; one that is done twice writes the same
bytes. COLLECTION and WORK are to be seen by all machines under the same path. The program is $IX, or build/ix beside this
folder. Status 0: done; 1: not done, with a line that says why; 2: the program refused, with its line.
"""
import argparse
import json
import os
import resource
import subprocess
import sys
from pathlib import Path

IX = os.path.abspath(os.environ.get("IX") or Path(__file__).resolve().parents[2] / "build/ix")
LARGEST = 1 << 28  # bytes of a collection that the program reads
BLOCK = 1 << 20


class Fault(Exception):
    """Why a step was not done, and its exit status."""

    def __init__(self, text, status=1):
        super().__init__(text)
        self.status = status


def save(path, content):
    """Writes a file whole or not at all."""
    part = path.with_name(f"{path.name}.{os.uname().nodename}.{os.getpid()}.part")
    part.write_text(content)
    part.replace(path)


def state(collection):
    """What tells that a file is still the same."""
    status = os.stat(collection)
    return [status.st_size, status.st_mtime_ns]


def cuts(collection, size):
    """The offsets at which pieces of about this size begin, and the end: each is 0 or stands behind a line end."""
    end = os.path.getsize(collection)
    offsets = [0]
    with open(collection, "rb") as file:
        while offsets[-1] + size < end:
            file.seek(offsets[-1] + size - 1)
            if len(file.readline(LARGEST)) == LARGEST:
                raise Fault(f"the document at byte {offsets[-1] + size} of {collection} is too large")
            offsets.append(file.tell())
    if offsets[-1] < end or end == 0:
        offsets.append(end)
    return offsets


def cut(collection, work, size, together, fan_in, stop):
    if not 1 <= size <= LARGEST:
        raise Fault(f"--bytes is from 1 to {LARGEST}")
    if fan_in < 1:
        raise Fault("--fan-in is 1 or more")
    together = together or max(1, (1 << 30) // size)
    collection = Path(collection).resolve()
    plan = {"collection": str(collection), "state": state(collection), "stop": stop and str(Path(stop).resolve()), "pieces": {}}
    offsets = cuts(collection, size)
    parts = list(zip(offsets, offsets[1:]))
    for number, (begin, end) in enumerate(parts):
        index, place = divmod(number, together)
        several = min(together, len(parts) - index * together) > fan_in
        group = f"g{place // fan_in:03}/" if several else ""
        plan["pieces"][f"i{index:04}/{group}p{number:05}"] = [begin, end - begin]
    work.mkdir(parents=True, exist_ok=True)
    if (work / "plan").exists() and read_plan(work) != plan:
        raise Fault(f"{work} has the plan of another collection or size: name a new folder")
    for name in indexes_of(plan) + groups_of(plan):
        (work / name).mkdir(exist_ok=True)
    save(work / "plan", json.dumps(plan))


def read_plan(work):
    return json.loads((work / "plan").read_text())


def indexes_of(plan):
    return sorted({piece.split("/")[0] for piece in plan["pieces"]})


def groups_of(plan):
    """The groups of pieces, in order, of those indexes that have some."""
    return sorted({piece.rsplit("/", 1)[0] for piece in plan["pieces"]} - set(indexes_of(plan)))


def place_of(plan, piece):
    """Where the piece begins and how many bytes it has, of a collection that is still the one that was cut."""
    if state(plan["collection"]) != plan["state"]:
        raise Fault(f"{plan['collection']} was changed since it was cut: cut it again, for a new folder")
    if piece not in plan["pieces"]:
        raise Fault(f"there is no piece {piece}")
    return plan["pieces"][piece]


def blocks(plan, piece):
    """The bytes of a piece, in blocks."""
    begin, left = place_of(plan, piece)
    with open(plan["collection"], "rb") as file:
        file.seek(begin)
        while left > 0:
            block = file.read(min(left, BLOCK))
            if not block:
                raise Fault(f"{plan['collection']} ends within {piece}")
            left -= len(block)
            yield block


def count(work, piece):
    ends = sum(block.count(b"\n") for block in blocks(read_plan(work), piece))
    save(work / f"{piece}.count", f"{ends}\n")


def number(work):
    """Writes WORK/first: of each piece the number of its first document in its group, or in its index where that has no groups,
    and of each of these how many documents it has."""
    first, totals = {}, {}
    for piece in read_plan(work)["pieces"]:
        whole = piece.rsplit("/", 1)[0]
        first[piece] = totals.get(whole, 0)
        totals[whole] = first[piece] + int((work / f"{piece}.count").read_text())
    save(work / "first", json.dumps({"first": first, "totals": totals}))


def program(words, **how):
    """Runs the program; what it refuses is this step's fault."""
    try:
        return subprocess.Popen([IX, *words], stderr=subprocess.PIPE, **how)
    except OSError as error:
        raise Fault(f"{IX}: {error.strerror}") from error


def ended(process, about):
    refusal = process.stderr.read().decode(errors="replace").strip()
    if process.wait() != 0:
        raise Fault(f"{about}: {refusal or f'status {process.returncode}'}", 2)


def run(work, piece):
    plan = read_plan(work)
    first = json.loads((work / "first").read_text())["first"][piece]
    target = work / f"{piece}.run"
    part = target.with_name(f"{target.name}.{os.uname().nodename}.{os.getpid()}.part")
    stop = ["--stop", plan["stop"]] if plan["stop"] else []
    process = program(["run", *stop, "--first", str(first), "-", str(part)], stdin=subprocess.PIPE)
    try:
        with process.stdin as pipe:
            for block in blocks(plan, piece):
                pipe.write(block)
    except BrokenPipeError:
        pass  # it refused before it had read all
    try:
        ended(process, piece)
        part.replace(target)
    finally:
        part.unlink(missing_ok=True)


def heading(path):
    """The number of a run's first document, and how many it has."""
    with open(path, "rb") as file:
        head = file.read(16)
    return int.from_bytes(head[8:12], "little"), int.from_bytes(head[12:16], "little")


def runs_of(work, name):
    """All run files that lie in the folder of a group or an index: one that lacks, or came twice, the program tells."""
    total = json.loads((work / "first").read_text())["totals"][name]
    folder = work / name
    runs = sorted(path.name for path in folder.glob("*.run"))
    if not runs:
        raise Fault(f"{name}: no run files")
    # the program cannot know of documents behind the last that it is given
    last = max(sum(heading(folder / run)) for run in runs)
    if last != total:
        raise Fault(f"{name}: the runs reach to document {last}, and there are {total}")
    return runs


def merge(work, name):
    """The index file of a group or an index: of its run files, or of the index files of its groups. Each of these counts its
    documents from 0, and the program puts it behind those that are named before it."""
    groups = [group for group in groups_of(read_plan(work)) if group.startswith(f"{name}/")]
    inputs = [f"{group.split('/')[1]}.ix" for group in groups] or runs_of(work, name)
    allow_files(len(inputs) + 32)
    folder, target = work / name, work / f"{name}.ix"
    part = target.with_name(f"{target.name}.{os.uname().nodename}.{os.getpid()}.part")
    try:
        ended(program(["merge", f"../{part.name}", *inputs], cwd=folder), name)
        part.replace(target)
    finally:
        part.unlink(missing_ok=True)


def allow_files(wanted):
    """The program has all run files open at a time."""
    soft, hard = resource.getrlimit(resource.RLIMIT_NOFILE)
    if hard != resource.RLIM_INFINITY and wanted > hard:
        raise Fault(f"{wanted} files have to be open at a time, and the system allows {hard}: larger pieces, or a smaller --fan-in")
    if soft != resource.RLIM_INFINITY and wanted > soft:
        resource.setrlimit(resource.RLIMIT_NOFILE, (wanted, hard))


def main():
    parser = argparse.ArgumentParser(description=__doc__, formatter_class=argparse.RawDescriptionHelpFormatter)
    steps = parser.add_subparsers(dest="step", required=True, metavar="STEP")
    words = {"cut": [], "list": [], "groups": [], "indexes": [], "count": ["piece"], "number": [], "run": ["piece"], "merge": ["name"]}
    for name, operands in words.items():
        step = steps.add_parser(name)
        if name == "cut":
            step.add_argument("collection")
            step.add_argument("--bytes", type=int, default=1 << 26)
            step.add_argument("--together", type=int)
            step.add_argument("--fan-in", type=int, default=1000)
            step.add_argument("--stop")
        step.add_argument("work", type=Path)
        for operand in operands:
            step.add_argument(operand)
    given = parser.parse_args()
    try:
        if given.step == "cut":
            cut(given.collection, given.work, given.bytes, given.together, given.fan_in, given.stop)
        elif given.step == "list":
            print(*read_plan(given.work)["pieces"], sep="\n")
        elif given.step == "indexes":
            print(*indexes_of(read_plan(given.work)), sep="\n")
        elif given.step == "groups":
            print("".join(f"{group}\n" for group in groups_of(read_plan(given.work))), end="")
        elif given.step == "number":
            number(given.work)
        elif given.step == "merge":
            merge(given.work, given.name)
        else:
            {"count": count, "run": run}[given.step](given.work, given.piece)
    except Fault as fault:
        print(f"pieces.py: {fault}", file=sys.stderr)
        return fault.status
    except (OSError, KeyError, ValueError) as fault:
        print(f"pieces.py: {type(fault).__name__}: {fault}", file=sys.stderr)
        return 1
    return 0


if __name__ == "__main__":
    sys.exit(main())
