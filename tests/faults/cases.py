"""The commands that are tried under refusals, each with what it answers where nothing is refused.

A further command is a further row of CASES. Its `memory` names the refusals, besides `memory 1: Memory`, that stand for want
of memory in it; `reads` and `writes` name those of a read and of a write that is refused.
"""
import os
import re
import shutil

from writing import index_text, run_text
from samples import COLLECTIONS, FIVE, FIVE_RUNS, INDEXES, ONE, PARTS, STOP, TEXTS

MEMORY = "memory 1: Memory"
THREAD = r"build 1: Thread\([0-9]+\)"
SPILL = r"build 2: Spill\([0-9]+\)"
NEAR = "x NEAR/1 y OR y*"
OLD = b"what was there before, and is longer than what is written. " * 20

# The files that each case finds in its folder.
FILES = {f"{name}.txt": text for name, text in TEXTS.items()}
FILES |= {f"{name}-{version}.ix": text for (name, version), text in INDEXES.items()}
FILES |= {f"run-{first}": text for (first, _), text in zip(PARTS, FIVE_RUNS)}
FILES |= {"to.stop": b"to\n", "short.ix": INDEXES["five", 2][:-1], "short.run": FIVE_RUNS[0][:-1], "no-tab.txt": b"x\n",
          "bad.stop": b"to be\n", "names.txt": b"".join(b"document-%d\tx\n" % n for n in range(200))}


class Case:
    """A command, and what it gives: status, output, the line on the error output, and the files that it writes."""

    def __init__(self, name, *words, printed=b"", status=0, line=b"", wrote=None, memory=(), reads=(), writes=(), groups=(),
                 folder=None, needs=""):
        self.name, self.words, self.printed, self.status = name, words, printed, status
        self.errors, self.wrote = (line + b"\n" if line else b""), wrote or {}
        self.memory = lines(MEMORY, *memory)
        self.reads, self.writes = lines(*reads), lines(*writes)
        self.groups = (b"", *groups)  # what may have been printed before a refusal that is not of a write
        self.folder = folder          # a folder that is empty before and behind
        self.needs = needs            # what the program's help says where the program has the command

    def prepare(self, program, before=OLD):
        """Puts these bytes where the case is to write, or nothing. What was left by another case is gone."""
        for name in (*program.drafts(), *(self.wrote if before is None else ())):
            program.remove(name)
        for name in self.wrote if before is not None else ():
            program.write(name, before)
        if self.folder:
            shutil.rmtree(program.folder / self.folder, ignore_errors=True)
            (program.folder / self.folder).mkdir()

    def left(self, program):
        """What stands in the folder that is to be empty."""
        return sorted(os.listdir(program.folder / self.folder)) if self.folder else []

    def faults(self, program, got):
        """What is wrong with an outcome that is to be the whole answer."""
        if got.told() != (self.status, self.printed, self.errors):
            yield f"answered {got}"
        for name, content in self.wrote.items():
            if program.read(name) != content:
                yield f"wrote {program.read(name)}"
        if (self.left(program) or program.drafts()) and not got.refused:
            yield f"left {self.left(program)} {program.drafts()}"

    def refusal_faults(self, program, got, wanted, prints=False, before=OLD):
        """What is wrong with an outcome that is to be one of these refusals, and to leave what was there: a file whose folder
        could not be synced, or not be opened for it, is new."""
        if got.status != 2 or not wanted.fullmatch(got.errors):
            yield f"answered {got}"
        if not self.printed.startswith(got.printed) if prints else got.printed not in self.groups:
            yield f"printed {got.printed}"
        if len(self.left(program)) > got.refused:  # a removal may itself be refused, and is not told then
            yield f"left {self.left(program)}"
        for name, content in self.wrote.items():
            is_late = got.change == "sync of a folder" or got.opens_refused and got.errors == b"ix: file 2: Write(%s)\n" % name.encode()
            if program.read(name) != before and not (is_late and program.read(name) == content):
                yield f"left {program.read(name)}"
        if program.drafts() and got.change != "unlink":
            yield f"left {program.drafts()}"


def lines(*names):
    """What is one line of refusal of these names, which are regular expressions for `Thread` and the like."""
    escaped = (n if "\\" in n else re.escape(n) for n in names)
    return re.compile(("ix: (" + "|".join(escaped) + ")\n").encode()) if names else re.compile(b"(?!)")


def read_of(*paths):
    return tuple(f"file 1: Read({p})" for p in paths)


def asking():
    told = {"memory": ("collection 6: Memory", "stop 3: Memory", "query 13: Memory", "build 4: Memory", "index 20: Memory", THREAD),
            "writes": ("file 2: Write(-)",)}
    for plan in (("--block", "2", "--workers", "3"), ("--block", "1", "--workers", "1"), ("--bytes", "4")):
        yield Case(f"ask {' '.join(plan)}", "ask", *plan, "five.txt", NEAR, printed=b"a\nb\nd\n", reads=read_of("five.txt"), **told)
    yield Case("ask --stop", "ask", "--stop", "to.stop", "stop.txt", '"flights to london"', printed=b"d\n",
               reads=read_of("to.stop", "stop.txt"), **told)
    yield Case("ask, many names", "ask", "names.txt", "x", reads=read_of("names.txt"), **told,
               printed=b"".join(b"document-%d\n" % n for n in range(200)))
    yield Case("ask, refused query", "ask", "five.txt", "x )", status=2, line=b"ix: query 2: Unexpected(2)",
               reads=read_of("five.txt"), **told)
    yield Case("ask, refused collection", "ask", "no-tab.txt", "x", status=2, line=b"ix: collection 3: NoTab(1)",
               reads=read_of("no-tab.txt"), **told)


def searching():
    told = {"memory": ("index 20: Memory", "query 13: Memory"), "writes": ("file 2: Write(-)",)}
    answers = {"one": ("A", b"d\n"), "five": (NEAR, b"a\nb\nd\n"), "stop": ('"flights to london"', b"d\n")}
    for name, version in INDEXES:
        query, printed = answers[name]
        path = f"{name}-{version}.ix"
        yield Case(f"search {path}", "search", path, query, printed=printed, reads=read_of(path), **told)
    words = "(x OR y) AND NOT (x AND y) OR \"y x y\" OR x NEAR/2 x OR *y"
    yield Case("search, each operator", "search", "five-2.ix", words, printed=b"a\nb\nd\ne\n", reads=read_of("five-2.ix"), **told)
    yield Case("search, none", "search", "five-2.ix", "z", status=1, reads=read_of("five-2.ix"), **told)
    yield Case("search, a cut index", "search", "short.ix", "x", status=2, line=b"ix: index 3: Trailer", reads=read_of("short.ix"), **told)
    yield Case("terms", "terms", "five-2.ix", "*", status=2, line=b"ix: pattern 2: BareStar", reads=read_of("five-2.ix"),
               memory=("index 20: Memory", "pattern 3: Memory"))
    yield Case("terms, one", "terms", "stop-2.ix", "*on*", printed=b"london\t1\n", reads=read_of("stop-2.ix"),
               memory=("index 20: Memory", "pattern 3: Memory"), writes=("file 2: Write(-)",))


def trusting():
    told = {"memory": ("index 20: Memory", "query 13: Memory", "pattern 3: Memory"), "writes": ("file 2: Write(-)",), "needs": "ix check"}
    answers = {"one": ("A", b"d\n"), "five": (NEAR, b"a\nb\nd\n"), "stop": ('"flights to london"', b"d\n")}
    for name, version in INDEXES:
        query, printed = answers[name]
        path = f"{name}-{version}.ix"
        yield Case(f"search --trust {path}", "search", "--trust", path, query, printed=printed, reads=read_of(path), **told)
    yield Case("search --trust, a cut index", "search", "--trust", "short.ix", "x", status=2, line=b"ix: index 3: Trailer",
               reads=read_of("short.ix"), **told)
    yield Case("terms --trust", "terms", "--trust", "stop-2.ix", "*on*", printed=b"london\t1\n", reads=read_of("stop-2.ix"), **told)


def building():
    told = {"memory": ("collection 6: Memory", "stop 3: Memory", "build 4: Memory", THREAD), "writes": ("build 3: Write",)}
    for plan in (("--block", "2", "--workers", "3"), ("--block", "1", "--workers", "1"), ("--bytes", "1", "--workers", "2")):
        yield Case(f"build {' '.join(plan)}", "build", *plan, "five.txt", "new.ix", wrote={"new.ix": index_text(FIVE)},
                   reads=read_of("five.txt"), **told)
    yield Case("build --stop", "build", "--stop", "to.stop", "stop.txt", "new.ix", wrote={"new.ix": index_text(STOP)},
               reads=read_of("to.stop", "stop.txt"), **told)
    yield Case("build, refused stop file", "build", "--stop", "bad.stop", "stop.txt", "new.ix", status=2, wrote={"new.ix": OLD},
               line=b"ix: stop 1: NotOneWord(1)", reads=read_of("bad.stop"), **told)
    told = {"memory": ("collection 6: Memory", "stop 3: Memory", "run 2: Memory"), "writes": ("file 2: Write(new.run)",)}
    yield Case("run", "run", "one.txt", "new.run", wrote={"new.run": run_text(0, ONE)}, reads=read_of("one.txt"), **told)
    yield Case("run --first --stop", "run", "--first", "7", "--stop", "to.stop", "stop.txt", "new.run",
               wrote={"new.run": run_text(7, STOP)}, reads=read_of("to.stop", "stop.txt"), **told)


def merging():
    memory = ("merge 7: Memory", r"merge 4: Source\([0-2], Memory\)")
    reads = (r"merge 4: Source\([0-2], Read\)",)
    for order in (("run-0", "run-2", "run-4"), ("run-4", "run-0", "run-2")):
        yield Case(f"merge {' '.join(order)}", "merge", "new.ix", *order, wrote={"new.ix": index_text(FIVE)}, memory=memory,
                   reads=reads, writes=("merge 6: Write",))
    yield Case("merge, an index", "merge", "new.ix", "five-1.ix", wrote={"new.ix": index_text(FIVE)},
               memory=(*memory, "index 20: Memory"), reads=(r"merge 4: Source\(0, (Read|Magic)\)",), writes=("merge 6: Write",))
    yield Case("merge, a run missing", "merge", "new.ix", "run-4", "run-0", status=2, line=b"ix: merge 1: Gap(2)", memory=memory, reads=reads,
               wrote={"new.ix": OLD})
    yield Case("merge, a cut run", "merge", "new.ix", "short.run", status=2, line=b"ix: merge 4: Source(0, Number(Cut))",
               memory=memory, reads=reads, writes=("merge 6: Write",), wrote={"new.ix": OLD})
    for name, version in INDEXES:
        path = f"{name}-{version}.ix"
        yield Case(f"upgrade {path}", "upgrade", path, "new.ix", wrote={"new.ix": index_text(COLLECTIONS[name])},
                   memory=("index 20: Memory",), reads=read_of(path), writes=("file 2: Write(new.ix)",))


def spilling():
    memory = ("collection 6: Memory", "stop 3: Memory", "build 4: Memory", THREAD)
    for plan in (("--block", "2", "--workers", "3"), ("--block", "1", "--workers", "1")):
        yield Case(f"build --runs {' '.join(plan)}", "build", *plan, "--runs", "runs", "five.txt", "new.ix", folder="runs",
                   wrote={"new.ix": index_text(FIVE)}, memory=memory, reads=(*read_of("five.txt"), SPILL),
                   writes=("build 3: Write", SPILL), needs="--runs")


FILES |= {"c1": b"1\tred fox\n", "c2": b"2\tfox\n", "to": b"to\n",
          "eight": b"add c1\nask fox\npublish\nask fox\nadd c2\nask fox\npublish\nask NOT red\n",
          "removal": b"add c1\nadd c2\npublish\nremove 0\nask fox\npublish\nask fox\nask NOT red\nadd c1\npublish\nask red\n",
          "no-step": b"add c1\npublish\nsay x\n", "no-number": b"add c1\npublish\nask fox\npublish\nremove 7\n"}


def living():
    memory = ("collection 6: Memory", "stop 3: Memory", "build 4: Memory", "index 20: Memory", "live 3: Memory",
              r"script 2: Query\([0-9]+, Memory\)", THREAD)
    told = {"memory": memory, "writes": ("file 2: Write(-)",), "needs": "ix live"}
    scripts = {
        "eight": ([b"0\tfox\n", b"1\tfox\n1\n1\tfox\n1\n", b"1\tNOT red\n2\n"], b""),
        "removal": ([b"2\tfox\n1\n2\n", b"1\tfox\n2\n1\tNOT red\n2\n", b"1\tred\n1\n"], b""),
        "no-step": ([], b"ix: script 1: Line(3)"),
        "no-number": ([b"1\tfox\n1\n"], b"ix: live 4: Number(7)"),
    }
    for script, (groups, line) in scripts.items():
        before = [b"".join(groups[:count]) for count in range(1, len(groups) + 1)]
        for plan in (("--block", "1", "--workers", "2"), ("--searchers", "1", "--workers", "1")):
            yield Case(f"live {' '.join(plan)} {script}", "live", *plan, script, printed=b"".join(groups), groups=before,
                       status=2 if line else 0, line=line, reads=read_of(script, "c1", "c2"), **told)


def other():
    yield Case("no command", "find", status=2, line=b"ix: arguments refused")
    yield Case("no such file", "search", "none.ix", "x", status=2, line=b"ix: file 1: Read(none.ix)")


CASES = [case for part in (asking, searching, trusting, building, spilling, merging, living, other) for case in part()]
