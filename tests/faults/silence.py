"""What no contract says: that an output is not made, nor an old one touched, where an input is refused, and that nothing is
printed beside the one line."""
import errno
import fcntl
import os

# Commands of which an input is refused, with the file that each would write.
REFUSED = [
    (("build", "none.txt", "out"), b"ix: file 1: Read(none.txt)\n"),
    (("build", "no-tab.txt", "out"), b"ix: collection 3: NoTab(1)\n"),
    (("build", "--stop", "none.stop", "five.txt", "out"), b"ix: file 1: Read(none.stop)\n"),
    (("build", "--stop", "bad.stop", "five.txt", "out"), b"ix: stop 1: NotOneWord(1)\n"),
    (("build", "--block", "0", "five.txt", "out"), b"ix: arguments refused\n"),
    (("run", "none.txt", "out"), b"ix: file 1: Read(none.txt)\n"),
    (("run", "no-tab.txt", "out"), b"ix: collection 3: NoTab(1)\n"),
    (("run", "--first", "268435456", "five.txt", "out"), b"ix: run 1: TooLarge\n"),
    (("merge", "out", "none.run"), b"ix: file 1: Read(none.run)\n"),
    (("merge", "out", "run-0", "run-2", "five.txt"), b"ix: merge 4: Source(2, Magic)\n"),
    (("merge", "out", "run-0", "short.ix"), b"ix: index 3: Trailer\n"),
    (("upgrade", "none.ix", "out"), b"ix: file 1: Read(none.ix)\n"),
    (("upgrade", "short.ix", "out"), b"ix: index 3: Trailer\n"),
    (("upgrade", "run-0", "out"), b"ix: index 1: Short\n"),
]


def no_output(program):
    """No file is made; a file that is there stays as it is."""
    tried, wrong = 0, []
    for words, line in REFUSED:
        for before in (None, b"kept"):
            program.remove("out")
            if before:
                program.write("out", before)
            got = program.run(*words)
            tried += 1
            if got.told() != (2, b"", line) or program.read("out") != before or program.drafts():
                wrong.append(f"{words} with {before}: {got}, {program.read('out')}")
    return "no output is made or touched where an input is refused", tried, wrong


def no_output_at_a_failed_read(program):
    """The same where the file is there, and a read of it fails."""
    tried, wrong = 0, []
    for words in (("build", "five.txt", "out"), ("run", "five.txt", "out"), ("upgrade", "five-2.ix", "out"),
                  ("merge", "out", "run-0", "run-2", "run-4")):
        program.write("out", b"kept")
        got = program.run(*words, read=1, read_error=errno.EIO)
        tried += 1
        if got.status != 2 or got.printed or got.errors.count(b"\n") != 1 or program.read("out") != b"kept" or program.drafts():
            wrong.append(f"{words}: {got}, {program.read('out')}")
    return "no output is made or touched where a first read fails", tried, wrong


def no_output_over_inputs(program):
    """An output that is read stays as it is, and so does one beside which the folder of runs is locked; no run is made."""
    (program.folder / "runs").mkdir(exist_ok=True)
    holder = os.open(program.folder / "runs", os.O_RDONLY)
    fcntl.flock(holder, fcntl.LOCK_EX)
    tried, wrong = 0, []
    for words, line in (
        (("build", "five.txt", "five.txt"), b"ix: file 4: Same(five.txt)\n"),
        (("run", "five.txt", "./five.txt"), b"ix: file 4: Same(./five.txt)\n"),
        (("build", "--stop", "to.stop", "five.txt", "to.stop"), b"ix: file 4: Same(to.stop)\n"),
        (("run", "--stop", "to.stop", "five.txt", "to.stop"), b"ix: file 4: Same(to.stop)\n"),
        (("build", "--runs", "runs", "five.txt", "names.txt"), b"ix: file 5: Locked(runs)\n"),
    ):
        before = {name: program.read(name) for name in ("five.txt", "to.stop", "names.txt")}
        got = program.run(*words)
        tried += 1
        if got.told() != (2, b"", line) or any(program.read(name) != text for name, text in before.items()):
            wrong.append(f"{words}: {got}")
        if program.drafts() or os.listdir(program.folder / "runs"):
            wrong.append(f"{words}: left {program.drafts()}, {os.listdir(program.folder / 'runs')}")
    os.close(holder)
    return "no output is made over an input, nor beside a folder of runs that is locked", tried, wrong


def one_line(program):
    """A refusal is one line, whatever bytes the words have."""
    tried, wrong = 0, []
    for path in ["no\nne", "no\x1bne", "no\rne", "\u2028none", "n" * 4000, "a b", "'", "\x7f"]:
        for words in (("search", path, "x"), ("ask", path, "x"), ("merge", "out", path), ("build", path, "out"), ("build", "five.txt", path + "/x")):
            got = program.run(*words)
            tried += 1
            text = got.errors.decode()
            if got.status != 2 or got.printed or not text.endswith("\n") or any(ord(c) < 32 or ord(c) == 127 for c in text[:-1]):
                wrong.append(f"{words}: {got}")
    return "a refusal is one line without control characters", tried, wrong


def nothing_beside(program):
    """A command that writes a file prints nothing."""
    tried, wrong = 0, []
    for words in (("build", "five.txt", "out"), ("run", "five.txt", "out"), ("upgrade", "five-2.ix", "out"), ("merge", "out", "run-4", "run-0", "run-2")):
        got = program.run(*words)
        tried += 1
        if got.told() != (0, b"", b""):
            wrong.append(f"{words}: {got}")
    return "a command that writes a file prints nothing", tried, wrong


PARTS = [no_output, no_output_at_a_failed_read, no_output_over_inputs, one_line, nothing_beside]


def tasks():
    return range(len(PARTS))


def work(program, task):
    return PARTS[task](program)
