"""How much memory opening a forged index file takes."""
from changes import index_line
from forge import forged
from oracle import Refused, open_index

# The sizes of the files that grow: between two powers of 2, since memory that grows by doubling is at its worst behind one.
SIZES = (1 << 15, 350_000, 410_000, 470_000, 530_000, 2_200_000)
FACTOR, MORE = 12, 1 << 20  # opening a file of n bytes is to take FACTOR * n + MORE at most


def tasks():
    """Sizes, the greatest first."""
    return reversed(SIZES)


def answers():
    """What opening each file answers, by its name: the same at each size."""
    found = {}
    for name, text in forged(SIZES[0]):
        try:
            open_index(text)
            found[name] = (1, b"", b"")
        except Refused as refused:
            found[name] = (2, b"", index_line(str(refused)))
    return found


def work(program, size):
    """Each file's name and size, the memory that opening it takes, the answer, and what was wrong."""
    wanted = answers()
    return [opened(program, name, text, wanted[name]) for name, text in forged(size) if size == SIZES[0] or len(text) > 1000]


def opened(program, name, text, wanted):
    """Opens a file. What the same bytes take with another magic is what reading them and the program itself take."""
    program.write("forged.ix", text)
    got = program.run("search", "forged.ix", "zzzz", seconds=120)
    program.write("forged.ix", b"X" + text[1:])
    base = program.run("search", "forged.ix", "zzzz")
    program.remove("forged.ix")
    taken = got.peak - base.peak
    wrong = [] if got.told() == wanted else [f"{name}, {len(text)} bytes: {wanted}, and not {got}"]
    if taken > FACTOR * len(text) + MORE:
        wrong.append(f"{name}, {len(text)} bytes: {taken} bytes of memory")
    return name, len(text), taken, wanted[2].decode().strip() or "accepted", wrong
