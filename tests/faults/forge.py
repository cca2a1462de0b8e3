"""Index texts that claim much more than they hold, or hold as much as they can in few bytes.

usage: forge.py FOLDER [BYTES]     writes each into a file of its name in FOLDER; those that grow get about BYTES bytes (1 MiB)
"""
import random
import string
import sys
from pathlib import Path

from writing import GREATEST, MOST, NAMES, Collection, code, entry_front, grams_of, index_text, sized


def text_of(version, documents, terms, **sections):
    """An index text of these sections, with its lengths put right, whatever the sections hold."""
    parts = [sections.get(name, b"") for name in NAMES]
    trailer = b"".join(len(p).to_bytes(8, "little") for p in parts)
    counts = documents.to_bytes(4, "little") + terms.to_bytes(4, "little")
    return b"PIIX000%d" % version + b"".join(parts) + trailer + counts + b"PIIXEND%d" % version


def words(count, size=3):
    """Ascending words of one size."""
    letters = string.ascii_lowercase
    for number in range(count):
        word = ""
        for _ in range(size):
            number, letter = divmod(number, 26)
            word = letters[letter] + word
        yield word.encode()


def texts_of_3(count):
    """Ascending texts of three ASCII characters."""
    for number in range(count):
        yield bytes((1 + number // 16129, 1 + number // 127 % 127, 1 + number % 127))


def dictionary(version, terms, size):
    """The entries of terms that stand in one document, with lists of so many bytes."""
    entries, before = [], b""
    for number, term in enumerate(terms):
        entries.append(entry_front(version, number, term, before) + code(1) + code(size))
        before = term
    return b"".join(entries)


ROW = sized(b"d") + code(1)
LIST = bytes.fromhex("818181")  # document 0, at one position, 0


def claims():
    """Small files, each with one number that is far too great."""
    one = {"POSTINGS": bytes.fromhex("81828181"), "DOCS": sized(b"d") + code(2), "GRAMS": grams_of([b"a"])}
    entry = sized(b"a") + code(1) + code(4)
    whole = one | {"DICTIONARY": entry}
    yield "documents-2^28", text_of(2, MOST, 1, **whole)
    yield "terms-2^32-1", text_of(2, 1, GREATEST, **whole)
    yield "tokens-2^28", text_of(2, 1, 1, **(whole | {"DOCS": sized(b"d") + code(MOST)}))
    yield "tokens-2^28-no-term", text_of(2, 1, 0, DOCS=sized(b"d") + code(MOST))
    for name, count, size in (("documents-of-a-term", MOST, 4), ("documents-of-a-term-2^32-1", GREATEST, 4),
                              ("list-of-2^32-1-bytes", 1, GREATEST)):
        yield name, text_of(2, 1, 1, **(whole | {"DICTIONARY": sized(b"a") + code(count) + code(size)}))
    yield "positions-2^32-1", text_of(2, 1, 1, **(whole | {"POSTINGS": code(1) + code(GREATEST) + bytes.fromhex("8181"),
                                                           "DICTIONARY": sized(b"a") + code(1) + code(8)}))
    yield "terms-of-a-gram-2^32-1", text_of(2, 1, 1, **(whole | {"GRAMS": sized(b"$a$") + code(GREATEST) + code(1)}))
    for name, section in (("stop-term", "STOP"), ("name", "DOCS"), ("term", "DICTIONARY"), ("gram", "GRAMS")):
        yield f"{name}-of-2^32-1-bytes", text_of(2, 1, 1, **(whole | {section: code(GREATEST) + b"a"}))
    lengths = [GREATEST << 32, 1 << 63, 1 << 63, 8, 64]
    lawful = bytearray(text_of(2, 1, 1, **whole))
    for place, length in enumerate(lengths):
        lawful[len(lawful) - 56 + 8 * place:len(lawful) - 48 + 8 * place] = (length & (1 << 64) - 1).to_bytes(8, "little")
    yield "lengths-that-wrap", bytes(lawful)


def fronts(size, grams):
    """Terms of 255 bytes, of which three in four share all bytes but the last with the one before, each at a position of
    its own of one document, with this section of grams."""
    dictionary, postings = [], []
    for prefix in words(size // 300, 254):
        entries = [sized(prefix + b"a")] + [code(254) + sized(b"%c" % letter) for letter in b"bcd"]
        for entry in entries:
            coded = bytes.fromhex("8181") + code(len(postings) + 1)
            postings.append(coded)
            dictionary.append(entry + code(1) + code(len(coded)))
    row = sized(b"d") + code(len(postings))
    return text_of(2, 1, len(postings), POSTINGS=b"".join(postings), DOCS=row, DICTIONARY=b"".join(dictionary), GRAMS=grams)


def dense(size):
    """Files whose tables have as many rows as so many bytes can hold."""
    stop = list(texts_of_3(size // 4))
    yield "stop-terms-of-3", text_of(2, 0, 0, STOP=b"".join(map(sized, stop)))
    for version, each in ((1, 6), (2, 5)):
        terms = list(texts_of_3(size // each))
        yield f"terms-without-lists-{version}", text_of(version, 1, len(terms), DOCS=ROW, DICTIONARY=dictionary(version, terms, 0))
    terms = list(texts_of_3(size // 8))
    yield "terms-of-3-doubled", text_of(2, 1, len(terms), POSTINGS=LIST * len(terms), DOCS=ROW, DICTIONARY=dictionary(2, terms, 3))
    rule = random.Random(1)
    terms = sorted({bytes(rule.choices(range(33, 127), k=255)) for _ in range(size // 1800)})
    found = Collection((), [(b"d", len(terms))], {t: [(0, [i])] for i, t in enumerate(terms)})
    yield "grams-of-long-terms", index_text(found)


def full(size):
    """Files of about so many bytes, of as many small parts as they can hold, or of parts that say much in few bytes."""
    yield "fronts-and-no-grams", fronts(size, b"")
    yield "fronts-and-a-wrong-gram", fronts(size, sized(b"$zz") + code(1) + code(1))
    yield "small-documents", text_of(2, size // 3, 0, DOCS=(sized(b"d") + code(0)) * (size // 3))
    yield "small-documents-one-too-few", text_of(2, size // 3 + 1, 0, DOCS=(sized(b"d") + code(0)) * (size // 3))
    stop = list(words(size // 5, 4))
    yield "small-stop-terms", text_of(2, 0, 0, STOP=b"".join(map(sized, stop)))
    yield "small-stop-terms-and-a-gram", text_of(2, 0, 0, STOP=b"".join(map(sized, stop)), GRAMS=b"\x80")
    terms = list(words(size // 12, 4))
    found = Collection((), [(b"d", len(terms))], {t: [(0, [i])] for i, t in enumerate(terms)})
    for version in (1, 2):
        yield f"small-terms-{version}", index_text(found, version)
    entries = b"".join(sized(t) + code(1) + code(3) for t in terms)
    lists = b"".join(LIST for _ in terms)
    yield "small-terms-doubled", text_of(1, 1, len(terms), POSTINGS=lists, DOCS=ROW, DICTIONARY=entries)
    spread = b"".join(bytes.fromhex("8181") + code(i + 1) for i in range(len(terms)))
    entries = b"".join(sized(t) + code(1) + code(2 + len(code(i + 1))) for i, t in enumerate(terms))
    row = sized(b"d") + code(len(terms))
    yield "small-terms-no-grams", text_of(1, 1, len(terms), POSTINGS=spread, DOCS=row, DICTIONARY=entries)
    for name, tokens in (("positions", size), ("positions-of-2^28-tokens", MOST)):
        coded = code(1) + code(size) + code(1) * size
        yield name, text_of(2, 1, 1, POSTINGS=coded, DOCS=sized(b"d") + code(tokens),
                            DICTIONARY=sized(b"a") + code(1) + code(len(coded)), GRAMS=grams_of([b"a"]))
    rows = size // 6
    coded = bytes.fromhex("818181") * rows
    yield "postings-of-one-term", text_of(2, rows, 1, POSTINGS=coded, DOCS=ROW * rows,
                                          DICTIONARY=sized(b"a") + code(rows) + code(len(coded)), GRAMS=grams_of([b"a"]))
    gram = sized(b"$aa") + code(size) + code(1) * size
    yield "gram-of-many-terms", text_of(2, 1, 1, POSTINGS=LIST, DOCS=ROW, DICTIONARY=sized(b"a") + code(1) + code(3), GRAMS=gram)


def forged(size=1 << 20):
    """Each forged file: its name and its bytes."""
    yield from claims()
    yield from full(size)
    yield from dense(size)


if __name__ == "__main__":
    folder = Path(sys.argv[1])
    for name, content in forged(*map(int, sys.argv[2:3])):
        (folder / f"{name}.ix").write_bytes(content)
        print(f"{len(content):9} {name}.ix")
