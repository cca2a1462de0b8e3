#!/usr/bin/env python3
"""Replaces files by the program, as a process, and looks at what is left: after success, errors, kills and beside readers.

usage: check_outputs.py [IX] [--only PART,..] [--seconds N]

IX is build/ix beside this folder. The parts are the functions below; a search stands beside builds for N seconds (5).
An output is written whole or not at all: whatever ends the program, its path leads to the old bytes or to the new ones. The new
bytes are those that the same command writes where nothing was. All files are made in a folder of the system's own choice, which is
gone at the end. Status 0: all is as expected.
"""
import argparse
import fcntl
import os
import random
import resource
import shutil
import signal
import socket
import stat
import subprocess
import sys
import tempfile
import time
from pathlib import Path

WORDS = argparse.ArgumentParser(description=__doc__.split("\n")[0])
WORDS.add_argument("ix", nargs="?", default=Path(__file__).resolve().parent.parent / "build/ix", type=Path)
WORDS.add_argument("--only", default="replaced,named,refused,full_disk,large,apart,left_over,killed,beside")
WORDS.add_argument("--seconds", type=int, default=5)
SAID = WORDS.parse_args()
IX = SAID.ix.resolve()
KILLS = 150
PAIRS = 100
ROOM = 256 << 10  # of a disk that gets full
UMASK = 0o022
OLD = b"what was there before, and is longer than the new text. " * 4000

failed = 0


def run(*words, stdin=None, stdout=subprocess.PIPE, prepare=None, program=IX):
    """Runs the program on these words in the working folder."""
    words = [os.fsencode(program)] + [w if isinstance(w, bytes) else os.fsencode(w) for w in words]
    return subprocess.run(words, input=stdin, stdout=stdout, stderr=subprocess.PIPE, preexec_fn=prepare, timeout=120)


def check(name, ok, found=""):
    global failed
    if not ok:
        failed += 1
        print(f"FAILED: {name}: {found}", file=sys.stderr)


def fails(name, words, line, **options):
    """The command prints this one line on its error output, and its status is 2."""
    done = run(*words, **options)
    check(name, (done.returncode, done.stdout, done.stderr) == (2, b"", b"ix: " + line + b"\n"), done)


def succeeds(name, words, **options):
    done = run(*words, **options)
    check(name, (done.returncode, done.stderr) == (0, b""), done)


def drafts(folder="."):
    """The new files that are left in a folder."""
    return sorted(name for name in os.listdir(folder) if name.startswith(".") and ".ix-" in name)


def collection(documents, seed):
    """A collection of documents of 20 words."""
    chosen = random.Random(seed)
    words = [f"w{number}" for number in range(3000)]
    return "".join(f"{number}\t{' '.join(chosen.choices(words, k=20))}\n" for number in range(documents)).encode()


def make_inputs():
    """Two collections, and of the first an index, its halves' runs, and an index of version 1."""
    Path("a.txt").write_bytes(b"a\tx y\nb\ty\nc\t\nd\ty x y\ne\tx\n")
    Path("b.txt").write_bytes(b"f\tz\n")
    Path("stop").write_bytes(b"y\n")
    Path("big.txt").write_bytes(collection(30000, 1))
    Path("big2.txt").write_bytes(collection(30000, 2))
    Path("x.txt").write_bytes(b"a\tx y\nb\ty\n")
    Path("y.txt").write_bytes(b"c\t\nd\ty x y\ne\tx\n")
    os.mkdir("runs")
    for words in (
        ["build", "a.txt", "a.ix"], ["build", "b.txt", "b.ix"], ["run", "x.txt", "x.run"],
        ["run", "--first", "2", "y.txt", "y.run"], ["build", "big.txt", "big.ix"], ["build", "big2.txt", "big2.ix"],
    ):
        succeeds(" ".join(words), words)


COMMANDS = {
    "build": lambda out: ["build", "a.txt", out],
    "build --runs": lambda out: ["build", "--runs", "runs", "--block", "2", "a.txt", out],
    "build --stop": lambda out: ["build", "--stop", "stop", "a.txt", out],
    "run": lambda out: ["run", "a.txt", out],
    "merge": lambda out: ["merge", out, "x.run", "y.run"],
    "upgrade": lambda out: ["upgrade", "a.ix", out],
}


NAMES = ("-x", "x ", "n" * 255, "é" * 127, "d/" * 100 + "out")


def make_folder_of(name):
    if "/" in name:
        os.makedirs(os.path.dirname(name), exist_ok=True)


def named():
    """Inputs are read whatever their names are. A name that no file has is an error, which says the name."""
    for name in NAMES:
        make_folder_of(name)
        shutil.copy("a.txt", name)
        succeeds(f"a collection {name[:20]!r}", ["build", "--", name, "named"])
        check(f"the text of {name[:20]!r}", Path("named").read_bytes() == Path("a.ix").read_bytes())
        os.remove(name)
    for name in ("n" * 256, "x" * 5000, "d/" * 2500 + "in"):
        fails(f"no collection: {name[:20]!r}", ["build", name, "named"], f"file 1: Read({name})".encode())
    check("the output stays", Path("named").read_bytes() == Path("a.ix").read_bytes())


def replaced():
    """Each command puts its text in the place of a longer one, with its mode, through links, and leaves nothing else."""
    os.mkdir("there")
    for command, words in COMMANDS.items():
        succeeds(command, words("new"))
        text = Path("new").read_bytes()
        check(f"{command}: something was written", len(text) > 40, text)
        check(f"{command}: a new file may be read", stat.S_IMODE(os.stat("new").st_mode) == 0o666 & ~UMASK)
        os.remove("new")

        Path("out").write_bytes(OLD)
        if os.getuid() == 0:
            os.chown("out", 65534, 65533)
        os.chmod("out", 0o640)
        owner = os.stat("out").st_uid, os.stat("out").st_gid
        os.link("out", "second")
        before = set(os.listdir("."))
        succeeds(f"{command} over a longer file", words("out"))
        check(f"{command}: the whole text", Path("out").read_bytes() == text)
        check(f"{command}: the mode", stat.S_IMODE(os.stat("out").st_mode) == 0o640, oct(os.stat("out").st_mode))
        check(f"{command}: the owner", (os.stat("out").st_uid, os.stat("out").st_gid) == owner, os.stat("out"))
        check(f"{command}: a hard link keeps what was there", Path("second").read_bytes() == OLD)
        check(f"{command}: nothing else is there", set(os.listdir(".")) == before, set(os.listdir(".")) ^ before)
        check(f"{command}: the folder of runs is empty", not os.listdir("runs"))
        os.remove("out")
        os.remove("second")

        Path("there/out").write_bytes(OLD)
        os.symlink("there/out", "link")
        succeeds(f"{command} through a link", words("link"))
        check(f"{command}: the link stays", os.readlink("link") == "there/out")
        check(f"{command}: what it leads to is new", Path("there/out").read_bytes() == text)
        os.remove("there/out")
        succeeds(f"{command} through a link to nothing", words("link"))
        check(f"{command}: what it names is there", Path("there/out").read_bytes() == text)
        os.remove("there/out")
        os.remove("link")

        done = run(*words("-"))
        check(f"{command} to the standard output", (done.returncode, done.stdout) == (0, text), done.stderr)
        done = run(*words("/dev/stdout"))
        check(f"{command} to a pipe by its name", (done.returncode, done.stdout) == (0, text), done.stderr)
        with open("redirected", "wb") as redirected:
            done = run(*words("/dev/stdout"), stdout=redirected)
        check(f"{command} to a file by that name", (done.returncode, done.stderr) == (0, b"") and Path("redirected").read_bytes() == text)
        os.remove("redirected")
        os.mkfifo("pipe")
        with subprocess.Popen(["cat", "pipe"], stdout=subprocess.PIPE) as reading:
            succeeds(f"{command} to a pipe with a name", words("pipe"))
            check(f"{command}: the pipe gave it", reading.stdout.read() == text)
        check(f"{command}: the pipe is one still", stat.S_ISFIFO(os.stat("pipe").st_mode))
        os.remove("pipe")
        succeeds(f"{command} to a device", words("/dev/null"))
        check(f"{command}: the device is one still", stat.S_ISCHR(os.stat("/dev/null").st_mode))
        for name in NAMES:
            make_folder_of(name)
            Path(name).write_bytes(OLD)
            out = "./" + name if name.startswith("-") else name
            succeeds(f"{command} to {name[:20]!r}", words(out))
            check(f"{command}: the text in {name[:20]!r}", Path(name).read_bytes() == text)
            os.remove(name)
    check("no new file is left", not drafts(), drafts())


def refused():
    """After an error there is what was there, and nothing else."""
    os.mkdir("folder")
    with socket.socket(socket.AF_UNIX) as listening:
        listening.bind("socket")
    Path("bad.run").write_bytes(Path("y.run").read_bytes()[:-3])
    Path("bad.txt").write_bytes(b"no tab\n")
    os.mkdir("held")

    def few_bytes():
        signal.signal(signal.SIGXFSZ, signal.SIG_IGN)
        resource.setrlimit(resource.RLIMIT_FSIZE, (4096, 4096))

    holder = os.open("held", os.O_RDONLY)
    fcntl.flock(holder, fcntl.LOCK_EX)
    for name, words, line, options in [
        ("a folder of runs that is not there", ["build", "--runs", "none", "big.txt", "out"], b"build 2: Spill(0)", {}),
        ("a folder of runs that is locked", ["build", "--runs", "held", "a.txt", "out"], b"file 5: Locked(held)", {}),
        ("a full disk", ["build", "big.txt", "out"], b"build 3: Write", {"prepare": few_bytes}),
        ("a full disk, of a run", ["run", "big.txt", "out"], b"file 2: Write(out)", {"prepare": few_bytes}),
        ("a full disk, of a merge", ["merge", "out", "big.ix"], b"merge 6: Write", {"prepare": few_bytes}),
        ("a full disk, of an upgrade", ["upgrade", "big.ix", "out"], b"file 2: Write(out)", {"prepare": few_bytes}),
        ("runs that overlap", ["merge", "out", "x.run", "x.run"], b"merge 2: Overlap(0)", {}),
        ("a damaged run", ["merge", "out", "x.run", "bad.run"], b"merge 4: Source(1, Number(Cut))", {}),
        ("a folder as collection", ["build", "folder", "out"], b"file 1: Read(folder)", {}),
        ("a folder as collection of a run", ["run", "folder", "out"], b"file 1: Read(folder)", {}),
        ("no collection", ["build", "bad.txt", "out"], b"collection 3: NoTab(1)", {}),
        ("two standard inputs", ["build", "--stop", "-", "-", "out"], b"", {"stdin": b"a\tx\n"}),
        ("two standard inputs of a merge", ["merge", "out", "-", "x.run", "-"], b"", {"stdin": b""}),
    ]:
        Path("out").write_bytes(OLD)
        before = set(os.listdir("."))
        done = run(*words, **options)
        expected = b"ix: " + (line if line else b"arguments refused") + b"\n"
        if name == "a damaged run":
            expected = done.stderr if done.stderr.startswith(b"ix: merge 4: Source(1, ") else expected
        check(name, (done.returncode, done.stdout, done.stderr) == (2, b"", expected), done)
        check(f"{name}: the old file", Path("out").read_bytes() == OLD)
        check(f"{name}: nothing else", set(os.listdir(".")) == before, set(os.listdir(".")) ^ before)
    os.close(holder)

    fails("a folder as output", ["build", "a.txt", "folder"], b"file 2: Write(folder)")
    fails("a socket as output", ["build", "a.txt", "socket"], b"file 2: Write(socket)")
    fails("no folder of the output", ["build", "a.txt", "no/out"], b"file 2: Write(no/out)")
    os.symlink("loop", "loop")
    for out in ("loop", "folder/", "folder/.", "folder/..", "new/", "", "n" * 256, "x" * 5000, "d/" * 2500 + "out"):
        fails(f"no output: {out[:20]!r}", ["build", "a.txt", out], f"file 2: Write({out})".encode())
    check("the folder is empty", not os.listdir("folder"))
    os.remove("loop")
    fails("a full device", ["build", "a.txt", "/dev/full"], b"build 3: Write")
    fails("a full device, of a run", ["run", "a.txt", "/dev/full"], b"file 2: Write(/dev/full)")

    # A folder in which nothing may be made, for another user if this one is root, who may.
    def as_nobody():
        if os.getuid() == 0:
            os.setgid(65534)
            os.setuid(65534)

    os.mkdir("closed")
    Path("closed/out").write_bytes(OLD)
    os.chmod("closed/out", 0o666)
    os.chmod("closed", 0o555)
    shutil.copy(IX, "ix")
    os.chmod("ix", 0o755)
    for command in ("build", "run", "merge", "upgrade"):
        for out in ("closed/out", "closed/new"):
            fails(f"{command} to {out}", COMMANDS[command](out), f"file 2: Write({out})".encode(), program=Path("ix").resolve(), prepare=as_nobody)
        check(f"{command}: the old file", Path("closed/out").read_bytes() == OLD and os.listdir("closed") == ["out"], os.listdir("closed"))
    os.chmod("closed", 0o755)


def full_disk():
    """On a disk that gets full each command leaves the old file, and nothing else; its lines are those of a file that may not grow."""
    os.mkdir("disk")
    mounted = subprocess.run(["mount", "-t", "tmpfs", "-o", f"size={ROOM}", "tmpfs", "disk"], stderr=subprocess.DEVNULL)
    if mounted.returncode:
        print("skipped: a full disk, which only root can mount")
        return
    try:
        Path("disk/out").write_bytes(OLD[:ROOM // 4])
        for words, line in (
            (["build", "big.txt", "disk/out"], b"build 3: Write"),
            (["build", "--runs", "disk", "big.txt", "disk/out"], b"build 2: Spill("),
            (["build", "--runs", "runs", "big.txt", "disk/out"], b"build 3: Write"),
            (["run", "big.txt", "disk/out"], b"file 2: Write(disk/out)"),
            (["merge", "disk/out", "big.ix"], b"merge 6: Write"),
            (["upgrade", "big.ix", "disk/out"], b"file 2: Write(disk/out)"),
        ):
            done = run(*words)
            check(f"{words[:2]} to a full disk", done.returncode == 2 and done.stderr.startswith(b"ix: " + line), done)
            check(f"{words[:2]}: the old file", Path("disk/out").read_bytes() == OLD[:ROOM // 4])
            check(f"{words[:2]}: nothing else", os.listdir("disk") == ["out"] and not os.listdir("runs"), os.listdir("disk"))
        succeeds("a text that has room", ["build", "a.txt", "disk/out"])
        check("it is there", Path("disk/out").read_bytes() == Path("a.ix").read_bytes())
    finally:
        subprocess.run(["umount", "disk"], check=True)


def large():
    """A collection of 17 MiB, and runs of more than 100 KiB, over longer files: whatever the plan, the index is one."""
    text = Path("big.txt").read_bytes()
    Path("large.txt").write_bytes(text * (1 + (17 << 20) // len(text)))
    succeeds("an index of 17 MiB", ["build", "large.txt", "large.ix"])
    size = os.path.getsize("large.ix")
    Path("over").write_bytes(OLD * (2 + size // len(OLD)))
    succeeds("over a longer file", ["build", "--runs", "runs", "--block", "20000", "large.txt", "over"])
    check("the same index", Path("over").read_bytes() == Path("large.ix").read_bytes())
    Path("over").write_bytes(OLD * 200)
    succeeds("a run over a longer file", ["run", "big.txt", "over"])
    check("a run of more than 100 KiB", 100 << 10 < os.path.getsize("over") < 200 * len(OLD), os.path.getsize("over"))
    succeeds("a merge into its input", ["merge", "over", "over"])
    check("the same index", Path("over").read_bytes() == Path("big.ix").read_bytes())
    for name in ("large.txt", "large.ix", "over"):
        os.remove(name)


def apart():
    """The output of `build` and `run` is not what they read; that of `merge` and `upgrade` may be. Neither is one of the runs."""
    name = "runs/run-0000000000"
    for words, kept in (
        (["build", "--runs", "runs", name, "out"], Path("a.txt").read_bytes()),
        (["build", "--runs", "runs", "--stop", name, "a.txt", "out"], b"y\n"),
        (["build", "--runs", "runs", "a.txt", name], OLD),
        (["build", "--runs", "./runs/../runs", "--block", "1", "a.txt", "runs/run-0000000004"], OLD),
    ):
        path = words[-1] if words[-1].startswith("runs") else name
        Path(path).write_bytes(kept)
        Path("out").write_bytes(OLD)
        done = run(*words)
        check(f"{words[2:]}", done.returncode == 2 and done.stderr.startswith(b"ix: file 4: Same("), done)
        check(f"{words[2:]}: nothing is made", Path("out").read_bytes() == OLD)
        check(f"{words[2:]}: nothing is gone", os.path.exists(path) and Path(path).read_bytes() == kept, os.listdir("runs"))
        Path(path).unlink(missing_ok=True)
    for other in ("runs/run-5", "runs/run-00000000005", "runs/x"):
        Path(other).write_bytes(OLD)
        succeeds("no name of a run", ["build", "--runs", "runs", "--block", "1", "a.txt", other])
        os.remove(other)
    text = Path("a.txt").read_bytes()
    os.symlink("a.txt", "to_a")
    os.link("a.txt", "also_a")
    for out in ("a.txt", "./a.txt", "to_a", "also_a"):
        for command in ("build", "run"):
            fails(f"{command} over its collection by {out}", [command, "a.txt", out], f"file 4: Same({out})".encode())
            check("the collection stays", Path("a.txt").read_bytes() == text)
    for command in ("build", "run"):
        fails(f"{command} over its stop file", [command, "--stop", "stop", "a.txt", "stop"], b"file 4: Same(stop)")
    check("the stop file stays", Path("stop").read_bytes() == b"y\n")

    shutil.copy("a.ix", "all.ix")
    succeeds("merge into an input", ["merge", "all.ix", "all.ix", "b.ix"])
    succeeds("merge elsewhere", ["merge", "else.ix", "a.ix", "b.ix"])
    check("the same index", Path("all.ix").read_bytes() == Path("else.ix").read_bytes())
    succeeds("upgrade in place", ["upgrade", "all.ix", "all.ix"])
    check("the same index again", Path("all.ix").read_bytes() == Path("else.ix").read_bytes())


def left_over():
    """What a killed program left is removed, what another one writes is not, and neither are the runs of others."""
    Path(".o.ix-1").write_bytes(b"left")
    succeeds("beside a file that was left", ["build", "a.txt", "o"])
    check("it is removed", not drafts(), drafts())
    check("the text is there", Path("o").read_bytes() == Path("a.ix").read_bytes())

    for numbers in ((1, 2, 3), (2,)):
        for number in numbers:
            Path(f".o.ix-{number}").write_bytes(b"left")
        succeeds(f"beside files that were left, {numbers}", ["build", "a.txt", "o"])
        check(f"they are removed, {numbers}", not drafts(), drafts())
        for name in drafts():
            os.remove(name)

    Path(".o.ix-1").write_bytes(b"held")
    with open(".o.ix-1", "rb") as held:
        fcntl.flock(held, fcntl.LOCK_EX)
        succeeds("beside a file that is locked", ["build", "b.txt", "o"])
        check("it stays", drafts() == [".o.ix-1"] and Path(".o.ix-1").read_bytes() == b"held", drafts())
        check("the text is new", Path("o").read_bytes() == Path("b.ix").read_bytes())
    os.remove(".o.ix-1")
    os.mkdir(".o.ix-1")
    succeeds("beside a folder of that name", ["build", "a.txt", "o"])
    check("the folder stays", drafts() == [".o.ix-1"], drafts())
    os.rmdir(".o.ix-1")

    for name in ("run-0000000005", "run--9", "notes"):
        Path("runs", name).write_bytes(b"mine")
    succeeds("runs beside other files", ["build", "--runs", "runs", "--block", "2", "a.txt", "o"])
    check("the others stay", sorted(os.listdir("runs")) == ["notes", "run--9", "run-0000000005"], os.listdir("runs"))
    for name in os.listdir("runs"):
        os.remove(f"runs/{name}")


def killed():
    """A program that is killed at any moment leaves the old bytes or the new ones, and the next one goes on."""
    old, new = Path("big2.ix").read_bytes(), Path("big.ix").read_bytes()
    began = time.monotonic()
    succeeds("a whole build", ["build", "big.txt", "k"])
    whole = time.monotonic() - began
    chosen, found = random.Random(7), {True: 0, False: 0}
    for number in range(KILLS):
        shutil.copy("big2.ix", "k")
        words = ["build", "big.txt", "k"] if number % 2 else ["merge", "k", "big.ix"]
        begun = subprocess.Popen([IX, *words], stdout=subprocess.DEVNULL, stderr=subprocess.DEVNULL)
        time.sleep(chosen.random() * whole * 1.2)
        begun.send_signal(chosen.choice([signal.SIGKILL, signal.SIGINT, signal.SIGTERM]))
        begun.wait()
        left = Path("k").read_bytes()
        check(f"kill {number}", left in (old, new), len(left))
        found[left == new] += 1
        if number % 10 == 0:
            succeeds(f"a build behind kill {number}", ["build", "b.txt", "k"])
            check(f"kill {number}: the next build", Path("k").read_bytes() == Path("b.ix").read_bytes() and not drafts(), drafts())
    succeeds("a build behind all kills", ["build", "a.txt", "k"])
    check("no new file is left behind all kills", not drafts(), drafts())
    print(f"{KILLS} kills: {found[False]} left the old file, {found[True]} the new one")


def beside():
    """A reader always finds a whole file, and of two builds to one output one is there whole."""
    shutil.copy("big.ix", "r")
    ends, answers = time.monotonic() + SAID.seconds, 0
    builder = None
    while time.monotonic() < ends:
        if builder is None or builder.poll() is not None:
            builder = subprocess.Popen([IX, "build", "big.txt" if answers % 2 else "big2.txt", "r"])
        done = run("search", "r", "w1 AND w2")
        check("a search beside builds", done.returncode in (0, 1) and done.stderr == b"", done.stderr)
        answers += 1
    builder.wait()
    texts = {Path("a.ix").read_bytes(), Path("b.ix").read_bytes()}
    for number in range(PAIRS):
        two = [subprocess.Popen([IX, "build", name, "two"], stderr=subprocess.PIPE) for name in ("a.txt", "b.txt")]
        told = [build.communicate()[1] for build in two]
        check(f"two builds, {number}", [build.returncode for build in two] == [0, 0], told)
        check(f"two builds, {number}: one is there", Path("two").read_bytes() in texts)
    check("no new file is left beside", not drafts(), drafts())
    print(f"{answers} searches beside builds, {PAIRS} times two builds to one output")


if __name__ == "__main__":
    with tempfile.TemporaryDirectory() as folder:
        os.umask(UMASK)
        os.chdir(folder)
        os.chmod(folder, 0o755)
        make_inputs()
        for part in SAID.only.split(","):
            globals()[part]()
        os.chdir("/")
    print("all as expected" if not failed else f"{failed} FAILED")
    sys.exit(1 if failed else 0)
