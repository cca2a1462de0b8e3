"""Changed index and run files through the commands, compared with what oracle.py says of them."""
import random

from oracle import Input, Refused, open_index, read_head, read_run
from samples import INDEXES, RUNS
from writing import Collection, index_text, merged, run_text

OPEN_ERRORS = ("Short Magic Trailer Lengths Number Text Name TermSize TermOrder StopOrder StopIndexed ListLength Zero DocRange "
               "PositionRange Doubled Grams Counts TooLarge Memory Front").split()
FILLED = 300  # a run from a document below this one is merged behind a run that fills the numbers before it


def index_line(error):
    return f"ix: index {OPEN_ERRORS.index(error.split('(')[0]) + 1}: {error}\n".encode()


def index_faults(program, data):
    """What `search` and `upgrade` do wrong with these bytes as an index file; and whether they are an index text."""
    program.write("in.ix", data)
    program.remove("out.ix")
    searched = program.run("search", "in.ix", "NOT x*").told()
    upgraded = program.run("upgrade", "in.ix", "out.ix").told()
    written = program.read("out.ix")
    try:
        version, found = open_index(data)
    except Refused as refused:
        wanted = (2, b"", index_line(str(refused)))
        if searched != wanted or upgraded != wanted or written is not None or program.drafts():
            return False, f"{wanted}, and not {searched} and {upgraded} with {written}, {program.drafts()}"
        return False, None
    has = {d for term, postings in found.terms.items() if term.startswith(b"x") for d, _ in postings}
    names = b"".join(n + b"\n" for d, (n, _) in enumerate(found.rows) if d not in has)
    again = index_text(found, version)
    if again != data:
        return True, f"the oracle writes {again.hex(' ')}"
    if searched != (0 if names else 1, names, b"") or upgraded != (0, b"", b"") or written != index_text(found):
        return True, f"{searched} and {upgraded} with {written}, and not {names}"
    return True, None


def run_faults(program, data):
    """What `merge` does wrong with these bytes as a run file; and whether they are a run text."""
    program.write("in.run", data)
    program.remove("out.ix")
    words, before, first, rows = ["merge", "out.ix", "in.run"], [], 0, []
    try:
        first, stop, rows = read_head(Input(data))
        if rows and 0 < first <= FILLED:
            before = [Collection(stop, [(b"f", 0)] * first)]
            program.write("fill.run", run_text(0, before[0]))
            words.append("fill.run")
    except Refused:
        pass
    got = program.run(*words)
    written = program.read("out.ix")
    if rows and first and not before:
        wanted = (2, b"", b"ix: merge 1: Gap(0)\n")
        return True, None if got.told() == wanted and written is None else f"{wanted}, and not {got} with {written}"
    try:
        found = read_run(data)
    except Refused as refused:
        wanted = (2, b"", f"ix: merge 4: Source(0, {refused})\n".encode())
        right = got.told() == wanted and written is None and not program.drafts()
        return False, None if right else f"{wanted}, and not {got} with {written}, {program.drafts()}"
    if run_text(*found) != data:
        return True, f"the oracle writes {run_text(*found).hex(' ')}"
    whole = index_text(merged(before + [found[1]]))
    return True, None if got.told() == (0, b"", b"") and written == whole else f"{got} with {written}, and not {whole}"


# ---- each front and each byte of the samples

def sample_tasks(step):
    """(kind, name, place): place -1 is all fronts, any other is the byte there, each so many bytes."""
    for kind, samples in (("index", INDEXES), ("run", RUNS)):
        for name, text in samples.items():
            yield from ((kind, name, place) for place in range(-1, len(text), step))


def variants(text, place):
    if place < 0:
        yield from (text[:size] for size in range(len(text)))
        return
    for byte in range(256):
        if byte != text[place]:
            yield text[:place] + bytes([byte]) + text[place + 1:]


def sample_work(program, task):
    """Kind, how many files were tried and how many accepted, and what was wrong."""
    kind, name, place = task
    samples, faults = (INDEXES, index_faults) if kind == "index" else (RUNS, run_faults)
    tried, accepted, wrong = 0, 0, []
    for data in variants(samples[name], place):
        lawful, fault = faults(program, data)
        tried, accepted = tried + 1, accepted + lawful
        if fault:
            wrong.append(f"{kind} {name}, place {place}, {data.hex()}: {fault}")
    return f"{kind}, {'fronts' if place < 0 else 'changed bytes'}", tried, accepted, wrong


# ---- random files

LETTERS = ["a", "b", "x", "xa", "\u00e8", "\u00e9", "\u4e00", "\U00010400", "0"]


def random_collection(rule, stop_set=None):
    """A lawful collection of some documents."""
    words = sorted({"".join(rule.choices(LETTERS, k=rule.choice((1, 1, 2, 3, 40)))).encode() for _ in range(rule.randrange(12))})
    words = [w for w in words if len(w) < 256]
    stop = [w for w in words if rule.random() < 0.15] if stop_set is None else stop_set
    rows, terms = [], {}
    for number in range(rule.randrange(6)):
        tokens = [rule.choice(words + [None]) for _ in range(rule.randrange(9))]
        rows.append((b"n%d" % number * rule.choice((1, 1, 1, 70)), len(tokens) + rule.choice((0, 0, 1, 200))))
        for position, word in enumerate(tokens):
            if word is not None and word not in stop:
                postings = terms.setdefault(word, [])
                if not postings or postings[-1][0] != number:
                    postings.append((number, []))
                postings[-1][1].append(position)
    return Collection(stop, rows, dict(sorted(terms.items())))


def lawful_text(kind, rule):
    found = random_collection(rule)
    return index_text(found, rule.choice((1, 2))) if kind == "index" else run_text(rule.choice((0, 0, 0, 1, 7)), found)


def mutated(kind, rule):
    """A lawful text that is changed, cut or spliced; some keep their lengths right, so that what is inside is read."""
    text = lawful_text(kind, rule)
    if kind == "index" and rule.random() < 0.6:
        return with_changed_section(text, rule)
    for _ in range(rule.choice((0, 1, 1, 2, 3))):
        text = changed(text, rule, lambda: lawful_text(kind, rule))
    return text


def changed(text, rule, other):
    place, end = sorted(rule.randrange(len(text) + 1) for _ in range(2))
    end = min(end, place + rule.choice((1, 4, len(text))))
    way = rule.randrange(6)
    if way == 0:
        return text[:place]
    if way == 1:
        return text[:place] + text[end:]
    if way == 2:
        return text[:place] + text[place:end] * 2 + text[end:]
    if way == 3:
        return text[:place] + rule.randbytes(rule.randrange(1, 4)) + text[end:]
    if way == 4:
        more = other()
        return text[:place] + more[rule.randrange(len(more)):]
    if place == len(text):
        return text
    byte = rule.choice((0, 1, 127, 128, 129, 130, 255, text[place] ^ 1 << rule.randrange(8)))
    return text[:place] + bytes([byte]) + text[place + 1:]


def with_changed_section(text, rule):
    """The text with one or two sections changed, its lengths put right."""
    trailer = text[-56:]
    lengths = [int.from_bytes(trailer[8 * i:8 * i + 8], "little") for i in range(5)]
    sections, at = [], 8
    for length in lengths:
        sections.append(text[at:at + length])
        at += length
    for _ in range(rule.choice((1, 1, 2))):
        place = rule.randrange(5)
        if sections[place]:
            sections[place] = changed(sections[place], rule, lambda: rule.choice(sections) or b"\x80")
    lengths = b"".join(len(s).to_bytes(8, "little") for s in sections)
    return text[:8] + b"".join(sections) + lengths + trailer[40:]


def random_work(program, task):
    kind, numbers = task
    faults = index_faults if kind == "index" else run_faults
    tried, accepted, wrong = 0, 0, []
    for number in numbers:
        data = mutated(kind, random.Random(f"{kind} {number}"))
        lawful, fault = faults(program, data)
        tried, accepted = tried + 1, accepted + lawful
        if fault:
            wrong.append(f"random {kind} {number}, {data.hex()}: {fault}")
    return f"{kind}, random", tried, accepted, wrong


def random_tasks(count, size=250):
    for kind in ("index", "run"):
        yield from ((kind, range(at, min(count, at + size))) for at in range(0, count, size))
