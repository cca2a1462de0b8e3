#!/usr/bin/env python3
"""Runs the program whole, as a process, and compares what it prints, writes and answers with worked examples.

usage: check_program.py [IX]        default: build/ix beside this folder

The crates' own tests call `ix_command::command_over` over files in memory. Here the operating system is real: files, pipes, a closed
pipe, a full device, a folder where a file is wanted. Expected bytes are those of docs/format and docs/guide. All files are made
in a folder of the system's own choice, which is gone at the end. Status 0: all is as expected.
"""
import itertools
import os
import pty
import random
import subprocess
import sys
import tempfile
from pathlib import Path

IX = Path(sys.argv[1] if len(sys.argv) > 1 else Path(__file__).resolve().parent.parent / "build/ix").resolve()

FIVE = b"a\tx y\nb\ty\nc\t\nd\ty x y\ne\tx\n"
# the index of the five documents, version 2: DICTIONARY is front-coded
FIVE_INDEX = bytes.fromhex(
    "5049495830303032"
    "818181838182818181" "81818281818182828182"
    "816182816281816380816483816581"
    "81788389" "8081" "79838a"
    "83247824818183247924" "8182"
    "1300000000000000" "0000000000000000" "0f00000000000000" "0900000000000000" "0c00000000000000"
    "05000000" "02000000"
    "50494958454e4432"
)
RUNS = {
    0: "50494958" "52554e31" "0000000002000000" "80" "816182816281" "81788183818181" "81798286818182818181" "80",
    2: "50494958" "52554e31" "0200000002000000" "80" "816380816483" "81788183828182" "81798184" "82828182" "80",
    4: "50494958" "52554e31" "0400000001000000" "80" "816581" "81788183818181" "80",
}
# `d TAB A a LF`, version 1
ONE_OLD = bytes.fromhex(
    "5049495830303031" "81828181" "816482" "81618184" "832461248181"
    "0400000000000000" "0000000000000000" "0300000000000000" "0400000000000000" "0600000000000000"
    "0100000001000000" "50494958454e4431"
)
ONE_NEW = ONE_OLD.replace(b"PIIX0001", b"PIIX0002").replace(b"PIIXEND1", b"PIIXEND2")
EMPTY_NEW = b"PIIX0002" + bytes(48) + b"PIIXEND2"

failed = 0


def run(*words, stdin=None, stdout=subprocess.PIPE):
    """Runs the program on these words in the working folder."""
    words = [os.fsencode(IX)] + [w if isinstance(w, bytes) else os.fsencode(w) for w in words]
    return subprocess.run(words, input=stdin, stdout=stdout, stderr=subprocess.PIPE, timeout=120)


def check(name, ok, told=""):
    global failed
    if not ok:
        failed += 1
        print(f"FAILED: {name}: {told}", file=sys.stderr)
    else:
        print(f"ok: {name}")


def gives(name, words, status, printed=b"", refusal=b"", stdin=None):
    """The program answers with this status, prints these bytes, and writes this line to the error output, or nothing."""
    done = run(*words, stdin=stdin)
    want = (status, printed, refusal + b"\n" if refusal else b"")
    check(name, (done.returncode, done.stdout, done.stderr) == want, f"{(done.returncode, done.stdout, done.stderr)}")


def holds(name, path, content):
    has = Path(path).read_bytes()
    check(name, has == content, has.hex(" "))


def documents(*texts):
    """A collection of documents 1, 2, .. with these texts."""
    return b"".join(b"%d\t%s\n" % (n, t.encode()) for n, t in enumerate(texts, 1))


def asked_both_ways(name, collection, query, names, stop=None):
    """`ask` on the collection and `search` in its index find documents of these names."""
    Path("c.txt").write_bytes(collection)
    options = []
    if stop is not None:
        Path("s.txt").write_bytes(stop)
        options = ["--stop", "s.txt"]
    printed = "".join(n + "\n" for n in names.split()).encode()
    status = 0 if printed else 1
    gives(f"ask: {name}", ["ask", *options, "c.txt", query], status, printed)
    gives(f"build: {name}", ["build", *options, "c.txt", "c.ix"], 0)
    gives(f"search: {name}", ["search", "c.ix", query], status, printed)
    gives(f"search --trust: {name}", ["search", "--trust", "c.ix", query], status, printed)


def rows():
    """Worked examples, by `ask` on a collection and by `search` in its index."""
    both = asked_both_ways
    both("an empty collection", b"", "a", "")
    holds("the index of an empty collection", "c.ix", EMPTY_NEW)
    both("NOT in an empty collection", b"", "NOT a", "")
    both("one document", b"d\tA a\n", "a", "d")
    holds("the index of one document", "c.ix", ONE_NEW)
    both("a word in any case", documents("Straße"), "STRASSE", "1")
    both("a word in any canonical spelling", documents("caf\u00e9"), "cafe\u0301", "1")
    both("a query of several words is a phrase", documents("my e+mail"), "e+mail", "1")
    both("a phrase has its words one after another", documents("my e+mail"), '"my mail"', "")
    london = documents("flights to london")
    both("a stop word is a place in a phrase", london, '"flights to london"', "1", b"to\n")
    both("a place is not left out", london, '"flights london"', "", b"to\n")
    both("a stop word at the front of a phrase", london, '"to london"', "1", b"to\n")
    near = documents("a b c d")
    both("NEAR, three apart", near, "a NEAR/3 d", "1")
    both("NEAR in the other order", near, "d NEAR/3 a", "1")
    both("NEAR, too far apart", near, "a NEAR/2 d", "")
    both("NEAR of one word wants two of it", documents("a", "a a"), "a NEAR/1 a", "2")
    words = documents("red", "redo", "retired")
    both("a wildcard at the end", words, "red*", "1 2")
    both("a wildcard within", words, "re*d", "1 3")
    both("a wildcard whose pieces do not overlap", words, "re*ed", "3")
    both("a wildcard behind one letter", documents("a", "an", "b"), "a*", "1 2")
    york = documents("x new", "york y")
    both("a phrase does not go on in the next document", york, '"new york"', "")
    both("NOT", york, "NOT new", "2")
    abc = documents("a c", "b", "b c", "c")
    both("AND binds tighter than OR", abc, "a OR b AND NOT c", "1 2")
    both("brackets group", abc, "(a OR b) AND NOT c", "2")
    long = documents("a " + "z" * 256 + " b")
    both("a word that is too long is a place", long, '"a b"', "")
    both("NEAR over a word that is too long", long, "a NEAR/2 b", "1")
    both("64 NOTs", documents("a", "b"), "NOT " * 64 + "a", "1")


def refusals():
    """Refusals have status 2 and one line on the error output."""
    Path("c.txt").write_bytes(FIVE)
    gives("index of five documents", ["build", "c.txt", "c.ix"], 0)
    queries = {
        "": "Empty", "  ": "Empty", "a b": "Unexpected(2)", "a AND": "End", "( )": "Unexpected(2)", '"a': "OpenQuote",
        "a NEAR/0 b": "BadNear", "a NEAR/05 b": "BadNear", "a NEAR/65536 b": "BadNear", "...": "NoWord",
        '"a*"': "StarInPhrase", "e+mail NEAR/2 x": "NearWord", "z" * 256: "LongTerm", "NOT " * 65 + "a": "Deep",
        "**": "BareStar",
    }
    for query, error in queries.items():
        for words in (["ask", "c.txt", query], ["search", "c.ix", query]):
            done = run(*words)
            line = done.stderr.decode()
            ok = done.returncode == 2 and done.stdout == b"" and line.startswith("ix: query ") and line.endswith(f": {error}\n")
            check(f"{words[0]} refuses {query[:20]!r}", ok, line)
    collections = {b"x\n": "NoTab(1)", b"\ty\n": "Name(1)", b"a\tb": "NoLineEnd(1)", b"\x61\x09\xff\x0a": "NotUtf8(2)"}
    for text, error in collections.items():
        Path("bad.txt").write_bytes(text)
        for words in (["ask", "bad.txt", "a"], ["build", "bad.txt", "bad.ix"], ["run", "bad.txt", "bad.run"]):
            done = run(*words)
            line = done.stderr.decode()
            ok = done.returncode == 2 and done.stdout == b"" and line.startswith("ix: collection ") and line.endswith(f": {error}\n")
            check(f"{words[0]} refuses the collection {text!r}", ok, line)
    check("no output where the input is refused", not Path("bad.ix").exists() and not Path("bad.run").exists())
    Path("bad.stop").write_bytes(b"to be\n")
    gives("a bad stop file comes before a bad collection", ["ask", "--stop", "bad.stop", "bad.txt", "a"], 2, b"", b"ix: stop 1: NotOneWord(1)")
    changed = {
        "Trailer": ONE_OLD[:-1],
        "PositionRange": ONE_OLD.replace(bytes.fromhex("81828181"), bytes.fromhex("81828182"), 1),
        "Short": bytes(63),
    }
    for error, content in changed.items():
        Path("bad.ix").write_bytes(content)
        done = run("search", "bad.ix", "a")
        line = done.stderr.decode()
        check(f"an index that is {error}", done.returncode == 2 and line.startswith("ix: index ") and line.endswith(f": {error}\n"), line)
    gives("no such word", ["ask", "c.txt"], 2, b"", b"ix: arguments refused")
    gives("no such command", ["find", "c.txt"], 2, b"", b"ix: arguments refused")


def files():
    """Indexes and runs, byte by byte."""
    Path("c.txt").write_bytes(FIVE)
    for options in ([], ["--block", "1"], ["--block", "2", "--workers", "1"], ["--block", "2", "--workers", "3"],
                    ["--block", "2", "--workers", "64"], ["--block", "268435456"]):
        gives(f"build {' '.join(options)}", ["build", *options, "c.txt", "c.ix"], 0)
        holds(f"index of five documents, {' '.join(options) or 'as it comes'}", "c.ix", FIVE_INDEX)
    for folder in ("runs", "-"):
        os.mkdir(folder)
        gives(f"build --runs {folder}", ["build", "--runs", folder, "--block", "2", "--workers", "3", "c.txt", "c.ix"], 0)
        holds(f"index of five documents, its runs in {folder}", "c.ix", FIVE_INDEX)
        check(f"the folder {folder} of the runs is left empty", not os.listdir(folder), os.listdir(folder))
    gives("a folder of runs that is not there", ["build", "--runs", "none", "c.txt", "none.ix"], 2, b"", b"ix: build 2: Spill(0)")
    os.mkdir("runs/run-0000000001")
    gives("a folder in the way of a run", ["build", "--runs", "runs", "--block", "2", "c.txt", "none.ix"], 2, b"", b"ix: build 2: Spill(1)")
    check("no run is left where one was refused", os.listdir("runs") == ["run-0000000001"], os.listdir("runs"))
    lines = FIVE.splitlines(keepends=True)
    for first, text in RUNS.items():
        Path("block.txt").write_bytes(b"".join(lines[first:first + 2]))
        gives(f"run --first {first}", ["run", "--first", str(first), "block.txt", f"run-{first}"], 0)
        holds(f"the run from document {first}", f"run-{first}", bytes.fromhex(text))
    Path("old.ix").write_bytes(ONE_OLD)
    gives("upgrade", ["upgrade", "old.ix", "new.ix"], 0)
    holds("an old index in the new version", "new.ix", ONE_NEW)
    gives("search in an old index", ["search", "old.ix", "a"], 0, b"d\n")
    gives("terms", ["terms", "c.ix", "*y"], 0, b"y\t3\n")
    gives("no terms", ["terms", "c.ix", "z*"], 1)
    gives("terms --trust", ["terms", "--trust", "c.ix", "*y"], 0, b"y\t3\n")
    gives("no terms --trust", ["terms", "c.ix", "z*", "--trust"], 1)
    gives("search --trust in an old index", ["search", "old.ix", "--trust", "a"], 0, b"d\n")
    gives("an output in a folder that is not there", ["build", "c.txt", "none/c.ix"], 2, b"", b"ix: file 2: Write(none/c.ix)")


def merging():
    """Runs of parts of a collection, merged."""
    lines = FIVE.splitlines(keepends=True)
    for first in RUNS:
        Path("block.txt").write_bytes(b"".join(lines[first:first + 2]))
        gives(f"run --first {first} for merging", ["run", "--first", str(first), "block.txt", f"run-{first}"], 0)
    for order in itertools.permutations(("run-0", "run-2", "run-4")):
        gives(f"merge {' '.join(order)}", ["merge", "c.ix", *order], 0)
        holds(f"the index that {' '.join(order)} make", "c.ix", FIVE_INDEX)
    gives("a run that is missing", ["merge", "c.ix", "run-4", "run-0"], 2, b"", b"ix: merge 1: Gap(2)")
    gives("a run that is there twice", ["merge", "c.ix", "run-0", "run-2", "run-4", "run-0"], 2, b"", b"ix: merge 2: Overlap(0)")
    Path("short").write_bytes(Path("run-0").read_bytes()[:-1])
    gives("a run without its last byte", ["merge", "c.ix", "short"], 2, b"", b"ix: merge 4: Source(0, Number(Cut))")
    Path("front.txt").write_bytes(b"".join(lines[:2]))
    Path("rest.txt").write_bytes(b"".join(lines[2:]))
    for part in ("front", "rest"):
        gives(f"build {part} for merging", ["build", f"{part}.txt", f"{part}.ix"], 0)
    for inputs in (("front.ix", "rest.ix"), ("run-0", "rest.ix"), ("front.ix", "run-4", "run-2")):
        gives(f"merge {' '.join(inputs)}", ["merge", "c.ix", *inputs], 0)
        holds(f"the index that {' '.join(inputs)} make", "c.ix", FIVE_INDEX)
    many = [f"many-{number}" for number in range(60)]
    for number, path in enumerate(many):
        Path("block.txt").write_bytes(b"d%d\tx%d\n" % (number, number))
        gives(f"run --first {number} of one document", ["run", "--first", str(number), "block.txt", path], 0)
    gives("a line of more than sixty words", ["merge", "c.ix", *many], 0)
    gives("the last of sixty runs", ["search", "c.ix", "x59"], 0, b"d59\n")
    gives("an index behind a run that goes on", ["merge", "c.ix", "run-2", "front.ix"], 2, b"", b"ix: merge 1: Gap(0)")
    Path("short.ix").write_bytes(Path("rest.ix").read_bytes()[:-1])
    gives("an index without its last byte", ["merge", "c.ix", "run-0", "short.ix"], 2, b"", b"ix: index 3: Trailer")
    gives("a file that is neither", ["merge", "c.ix", "front.ix", "rest.txt"], 2, b"", b"ix: merge 4: Source(1, Magic)")
    gives("no runs", ["merge", "c.ix"], 2, b"", b"ix: arguments refused")
    gives("a run that is not there", ["merge", "fresh.ix", "run-0", "none"], 2, b"", b"ix: file 1: Read(none)")
    check("no output where a run is not there", not Path("fresh.ix").exists())


def trusting():
    """Searches that read an index in parts, and the check of whole files."""
    draw = random.Random(5)
    words = [f"w{n}" for n in range(30)] + ["Straße", "naïve", "e+mail"]

    def query(depth=2):
        one, other = draw.choices(words[:-1], k=2)
        if depth == 0 or draw.random() < 0.3:
            return draw.choice([one, f"{one[:2]}*", f"*{one[-1]}", f"{one[0]}*{one[-1]}", f"{one} NEAR/{draw.randint(1, 5)} {other}",
                                f'"{one} {other}"', f'"{one} the {other}"'])
        return draw.choice(["({} AND {})", "({} OR {})", "({} AND NOT {})"]).format(query(depth - 1), query(depth - 1))

    Path("stop").write_bytes(b"the\n")
    differ = []
    for number in range(50):
        texts = (" ".join(draw.choices([*words, "the"], k=draw.randint(0, 40))) for _ in range(draw.randint(1, 60)))
        Path("c.txt").write_bytes(documents(*texts))
        run("build", *(["--stop", "stop"] if number % 2 else []), "c.txt", "c.ix")
        for asked in (query() for _ in range(40)):
            one, other = run("search", "c.ix", asked), run("search", "--trust", "c.ix", asked)
            if (one.returncode, one.stdout, one.stderr) != (other.returncode, other.stdout, other.stderr):
                differ.append((number, asked))
    check("2,000 queries both ways", not differ, differ[:5])
    Path("c.txt").write_bytes(FIVE)
    run("build", "c.txt", "c.ix")
    gives("--trust from the standard input", ["search", "--trust", "-", "x"], 0, b"a\nd\ne\n", stdin=Path("c.ix").read_bytes())
    gives("--trust in an empty file", ["search", "--trust", "/dev/null", "x"], 2, b"", b"ix: index 1: Short")
    Path("byte").write_bytes(b"P")
    gives("--trust in a file of one byte", ["search", "--trust", "byte", "x"], 2, b"", b"ix: index 1: Short")
    gives("--trust in a folder that is no archive", ["search", "--trust", ".", "x"], 2, b"", b"ix: archive 2: NoManifest")
    gives("terms of a folder", ["terms", "--trust", ".", "x"], 2, b"", b"ix: file 1: Read(.)")
    gives("an archive is made", ["add", "archive", "c.txt"], 0, b"")
    gives("a document is removed", ["remove", "archive", "d", "none"], 0, b"")
    gives("the others are found", ["search", "archive", "x"], 0, b"a\ne\n")
    gives("none is removed", ["remove", "archive", "d"], 1, b"")
    gives("it is added again", ["add", "archive", "c.txt"], 0, b"")
    gives("all are found", ["search", "archive", "x"], 0, b"a\ne\na\nd\ne\n")
    gives("--trust in no file", ["search", "--trust", "none", "x"], 2, b"", b"ix: file 1: Read(none)")
    with open("zeros", "wb") as file:
        file.truncate(5 << 30)
    gives("--trust in 5 GiB of zeros", ["search", "--trust", "zeros", "x"], 2, b"", b"ix: index 2: Magic")
    # the list of `y`, of which no question about `x` reads a byte
    spoiled = bytearray(FIVE_INDEX)
    spoiled[17] = 0xff
    Path("spoiled").write_bytes(spoiled)
    gives("--trust does not see a fault elsewhere", ["search", "--trust", "spoiled", "x"], 0, b"a\nd\ne\n")
    done = run("search", "--trust", "spoiled", "y")
    check("--trust sees a fault in what it reads", done.returncode == 2 and done.stderr.startswith(b"ix: index "), done.stderr)
    Path("cut").write_bytes(FIVE_INDEX[:-1])
    gives("check of sound files", ["check", "c.ix", "c.ix"], 0)
    done = run("check", "cut", "c.ix", "none", "spoiled")
    told = done.stdout.splitlines()
    check("check of faulty files", (done.returncode, done.stderr, told[:2], len(told)) ==
          (2, b"", [b"cut\tindex 3: Trailer", b"none\tfile 1: Read"], 3) and told[2].startswith(b"spoiled\tindex "), done)


def plans():
    """`ask` by each plan."""
    Path("c.txt").write_bytes(FIVE)
    for block in ("1", "2", "1024"):
        for workers in ("1", "2", "3", "64"):
            gives(f"ask --block {block} --workers {workers}", ["ask", "--block", block, "--workers", workers, "c.txt", '"y x"'], 0, b"d\n")
    for words in (["--block", "0"], ["--block", "268435457"], ["--workers", "0"], ["--workers", "65"], ["--block", "x"]):
        gives(f"ask {' '.join(words)}", ["ask", *words, "c.txt", "x"], 2, b"", b"ix: arguments refused")


def live():
    """Scripts of a live index."""
    Path("c1").write_bytes(b"1\tred fox\n")
    Path("c2").write_bytes(b"2\tfox\n")

    def script(name, lines, status, printed="", refusal=b"", options=()):
        text = "".join(line + "\n" for line in lines)
        Path("script").write_text(text)
        told = printed.replace(" TAB ", "\t").replace(", ", "\n") + "\n" if printed else ""
        gives(f"live: {name}", ["live", *options, "script"], status, told.encode(), refusal)
        gives(f"live, from the standard input: {name}", ["live", *options, "-"], status, told.encode(), refusal, stdin=text.encode())

    grown = ["add c1", "ask fox", "publish", "ask fox", "add c2", "ask fox", "publish", "ask NOT red"]
    for options in ((), ("--searchers", "1", "--workers", "1"), ("--searchers", "64", "--block", "1"), ("--bytes", "1",)):
        script(f"documents are found once they are published {' '.join(options)}", grown, 0,
               "0 TAB fox, 1 TAB fox, 1, 1 TAB fox, 1, 1 TAB NOT red, 2", options=options)
    removed = ["add c1", "add c2", "publish", "remove 0", "ask fox", "publish", "ask fox", "ask NOT red", "add c1", "publish", "ask red"]
    script("documents are removed", removed, 0, "2 TAB fox, 1, 2, 1 TAB fox, 2, 1 TAB NOT red, 2, 1 TAB red, 1")
    script("forty additions", ["add c2"] * 40 + ["publish", "ask fox"], 0, "40 TAB fox, " + ", ".join(["2"] * 40))
    script("nothing is found", ["add c1", "publish", "ask dog"], 1, "0 TAB dog")
    script("no line at all", [], 1)
    script("what waits at the end is dropped", ["add c1", "", "ask fox"], 1, "0 TAB fox")
    script("a line that is none", ["add c1", "publish", "say x"], 2, "", b"ix: script 1: Line(3)")
    script("a query that is none", ["add c1", 'ask "a'], 2, "", b"ix: script 2: Query(2, OpenQuote)")
    script("a number that no document has", ["add c1", "publish", "ask fox", "publish", "ask red", "remove 7"], 2, "1 TAB fox, 1",
           b"ix: live 4: Number(7)")
    script("a collection that is not there", ["add missing"], 2, "", b"ix: file 1: Read(missing)")
    Path("bad").write_bytes(b"x\n")
    script("a collection that is none", ["ask a", "add bad"], 2, "", b"ix: collection 3: NoTab(1)")
    Path("stop").write_bytes(b"fox\n")
    script("a stop word is no query", ["ask fox"], 2, "", b"ix: script 2: Query(1, OnlyStopWords)", ("--stop", "stop"))
    script("a stop word is a place", ["add c1", "publish", "ask \"red fox\""], 0, "1 TAB \"red fox\", 1", options=("--stop", "stop"))
    script("two ways to cut", ["publish"], 2, "", b"ix: arguments refused", ("--block", "1", "--bytes", "1"))
    Path("script").write_bytes(b"ask \xff\n")
    gives("live: a script that is not UTF-8", ["live", "script"], 2, b"", b"ix: file 3: NotUtf8(script)")
    gives("live: no script", ["live", "nowhere"], 2, b"", b"ix: file 1: Read(nowhere)")


def system():
    """What the operating system does."""
    Path("c.txt").write_bytes(FIVE)
    gives("index", ["build", "c.txt", "c.ix"], 0)
    gives("the collection from the standard input", ["ask", "-", "x"], 0, b"a\nd\ne\n", stdin=FIVE)
    gives("the collection from /dev/stdin", ["ask", "/dev/stdin", "x"], 0, b"a\nd\ne\n", stdin=FIVE)
    gives("the index from the standard input", ["search", "-", "x"], 0, b"a\nd\ne\n", stdin=Path("c.ix").read_bytes())
    gives("a folder as a collection", ["ask", ".", "x"], 2, b"", b"ix: file 1: Read(.)")
    gives("a file that is not there", ["ask", "none.txt", "x"], 2, b"", b"ix: file 1: Read(none.txt)")
    gives("a path with a line end", ["ask", "no\nne", "x"], 2, b"", b"ix: file 1: Read(no\\x0ane)")
    if os.geteuid() != 0:
        Path("locked.txt").write_bytes(FIVE)
        os.chmod("locked.txt", 0)
        gives("a file that may not be read", ["ask", "locked.txt", "x"], 2, b"", b"ix: file 1: Read(locked.txt)")
    with open("/dev/full", "wb") as full:
        done = run("ask", "c.txt", "x", stdout=full)
        check("a full device", (done.returncode, done.stderr) == (2, b"ix: file 2: Write(-)\n"), f"{done.returncode} {done.stderr}")
    # a reader that is gone: the names of 100,000 documents go into a pipe that nobody reads
    Path("many.txt").write_bytes(b"".join(b"document-%d\tx\n" % n for n in range(100_000)))
    reading, writing = os.pipe()
    os.close(reading)
    done = run("ask", "many.txt", "x", stdout=writing)
    os.close(writing)
    check("a closed pipe", done.returncode in (2, -13) and done.stderr in (b"ix: file 2: Write(-)\n", b""), f"{done.returncode} {done.stderr}")
    odd = os.fsencode("odd") + b"\xff.txt"
    Path(os.fsdecode(odd)).write_bytes(FIVE)
    done = run("ask", odd, "x")
    check("a path that is not UTF-8 is one line", done.returncode in (0, 2) and done.stderr.count(b"\n") == done.returncode // 2, f"{done.returncode} {done.stderr}")
    for words in ([], ["--help"], ["-h"], ["ask", "--help"], ["help", "ask"], ["build", "--help"], ["search", "--help"]):
        done = run(*words)
        if words:
            check(f"help: {' '.join(words)}", done.returncode == 0 and b"ix" in done.stdout and done.stderr == b"", f"{done.returncode} {done.stderr}")
        else:
            check("no words at all", done.returncode == 2 and done.stderr == b"ix: arguments refused\n", f"{done.returncode} {done.stderr}")


def seen(*words):
    """What a person sees on the error output, a terminal, and the status."""
    master, terminal = pty.openpty()
    with subprocess.Popen([IX, *words], stdout=subprocess.DEVNULL, stderr=terminal) as process:
        os.close(terminal)
        shown = b""
        while True:
            try:
                more = os.read(master, 4096)
            except OSError:  # that is how a terminal ends
                break
            if not more:
                break
            shown += more
    os.close(master)
    return shown, process.returncode


def terminal():
    """How far a build has come is shown on a terminal, in a line that is empty at the end, and nowhere else."""
    Path("long.txt").write_bytes(b"".join(b"d%d\tx y\n" % n for n in range(1000)))
    for more in ([], ["--runs", "."]):
        shown, status = seen("build", "--block", "10", *more, "long.txt", "long.ix")
        shares = [int(part[4:-2]) for part in shown.split(b"\r") if part.startswith(b"ix: ") and part.endswith(b" %")]
        check(f"shares of a build {more}", status == 0 and sorted(shares) == list(range(1, 101)), f"{status} {shown}")
        check(f"an empty line behind them {more}", shown.endswith(b"\r" + b" " * 11 + b"\r"), shown[-40:])
        done = run("build", "--block", "10", *more, "long.txt", "long.ix")
        check(f"nothing of it in a pipe {more}", (done.returncode, done.stderr) == (0, b""), done.stderr)
    shown, status = seen("search", "long.ix", "x")
    check("nothing of it in a search", (shown, status) == (b"", 0), shown)
    shown, status = seen("build", "--block", "10", "long.txt", "no/such/folder")
    check("a refusal alone", (shown, status) == (b"ix: file 2: Write(no/such/folder)\r\n", 2), shown)


def main():
    if not IX.is_file():
        print(f"there is no program {IX}: make it with make", file=sys.stderr)
        return 2
    with tempfile.TemporaryDirectory() as folder:
        os.chdir(folder)
        for part in (rows, refusals, files, merging, trusting, plans, live, system, terminal):
            part()
        os.chdir("/")
    print(f"{failed} failed" if failed else "all as expected")
    return 1 if failed else 0


if __name__ == "__main__":
    sys.exit(main())
