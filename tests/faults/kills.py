"""Each command that writes a file, killed before and after each of its writes and of its calls that change files: what is there
is the old file or the new one, and the next run of the command goes on."""
from cases import OLD, index_text, run_text
from samples import COLLECTIONS, FIVE, ONE

LEFT = ".new.ix-1"  # what a program that was killed has left
SIZES = (0, 7, 64)  # of a write at most; 0: as it comes
COMMANDS = [
    (("build", "five.txt", "new"), index_text(FIVE)),
    (("build", "--runs", "spilled", "--block", "2", "--workers", "1", "five.txt", "new"), index_text(FIVE)),
    (("build", "--runs", "spilled", "--block", "1", "--workers", "3", "five.txt", "new"), index_text(FIVE)),
    (("run", "one.txt", "new"), run_text(0, ONE)),
    (("merge", "new", "run-4", "run-0", "run-2"), index_text(FIVE)),
    (("merge", "new", "five-1.ix"), index_text(FIVE)),
    (("upgrade", "stop-1.ix", "new"), index_text(COLLECTIONS["stop"])),
]


class Place:
    """The folder of a program, and what is to be found in it."""

    def __init__(self, program, text):
        self.program, self.text = program, text
        self.spilled = program.folder / "spilled"
        self.spilled.mkdir(exist_ok=True)

    def names(self):
        return sorted(path.name for path in self.program.folder.iterdir() if path.name != "new")

    def prepare(self, before, left):
        """Puts an old file where the command is to write, or nothing; and beside it a draft, or none."""
        for name in ("new", *self.program.drafts()):
            self.program.remove(name)
        if before:
            self.program.write("new", before)
        if left:
            self.program.write(LEFT, left)

    def faults(self, got, before):
        """What is wrong behind a kill."""
        if self.program.read("new") not in (before, self.text):
            yield f"left {self.program.read('new')}"
        if got.printed or got.errors:
            yield f"printed {got}"

    def next_faults(self, words, names):
        """What is wrong behind the next run of the command."""
        got = self.program.run(*words)
        if got.told() != (0, b"", b"") or self.program.read("new") != self.text:
            yield f"the next run: {got}, {self.program.read('new')}"
        if list(self.spilled.iterdir()) or self.names() != names:
            yield f"the next run left {sorted(self.spilled.iterdir())}, {self.names()}"


def tasks():
    return [(number, size, before, left) for number in range(len(COMMANDS)) for size in SIZES
            for before, left in ((OLD, None), (OLD, b"left"), (None, None))]


def work(program, task):
    """The command's name, how many kills there were, in how many the old file was left, and what was wrong."""
    number, size, before, left = task
    words, text = COMMANDS[number]
    place, tried, old, wrong = Place(program, text), 0, 0, []
    place.prepare(before, None)
    names = place.names()
    for after in (0, 1):
        call, killed = 0, True
        while killed:
            call += 1
            place.prepare(before, left)
            got = program.run(*words, kill=call, kill_after=after, write_size=size)
            killed = got.status == -9
            if not killed:
                wrong += [] if got.told() == (0, b"", b"") else [f"{words}, not killed: {got}"]
                break
            tried += 1
            old += program.read("new") == before
            found = [*place.faults(got, before), *place.next_faults(words, names)]
            wrong += [f"{words}, kill {call}, after {after}, writes of {size}, left {left}: {w}" for w in found]
    return " ".join(words[:2] if words[1].startswith("-") else words[:1]), tried, old, wrong
