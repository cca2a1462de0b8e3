#!/usr/bin/env python3
"""Compares what build/libix.so answers, through python/ix.py, with an oracle of token lists in Python.

    tests/check_library.py [COUNT] [SEED]

Makes COUNT collections (10,000 without one) of ASCII words, each with stop words and queries of every kind, asks each in
three ways (`ask`, a built index, its saved file opened), merges the runs of two parts, and lists names and terms. Prints the seed, so that a run can be made again.
"""

import itertools
import random
import re
import sys
import tempfile
from pathlib import Path

sys.path.insert(0, str(Path(__file__).resolve().parents[1] / "python"))
import ix  # noqa: E402

WORDS = ["a", "b", "c", "ab", "ba", "abc", "bcb", "cab", "to", "the"]


def tokens(text, stop):
    """The token list: each word in lower case, None where it is a stop word."""
    return [None if word.lower() in stop else word.lower() for word in re.findall("[A-Za-z]+", text)]


# A query is a pair: its text, and what it asks of a token list. An oracle that shares nothing with the engine: places are
# sets, and words' meanings are Python's own.


def places(term, held):
    return {place for place, token in enumerate(held) if token == term}


def phrase(rng, stop):
    words = [rng.choice(WORDS) for _ in range(rng.randint(1, 4))]
    text = '"' + rng.choice([" ", ", ", "-"]).join(rng.choice([w, w.upper()]) for w in words) + '"'
    wanted = [None if word in stop else word for word in words]
    while wanted and wanted[0] is None:
        wanted.pop(0)
    while wanted and wanted[-1] is None:
        wanted.pop()
    if not wanted:
        return None

    def holds(held):
        return any(
            all(want is None or held[start + step] == want for step, want in enumerate(wanted))
            for start in range(len(held) - len(wanted) + 1)
        )

    return text, holds


def near(rng, stop):
    one, other, most = rng.choice(WORDS), rng.choice(WORDS), rng.randint(1, 4)
    if one in stop or other in stop:
        return None
    return f"{one} NEAR/{most} {other}", lambda held: any(
        1 <= abs(p - q) <= most for p, q in itertools.product(places(one, held), places(other, held))
    )


def pattern_text(rng):
    pieces = ["".join(rng.choice("abc") for _ in range(rng.randint(0, 2))) for _ in range(rng.randint(2, 3))]
    return "*".join(pieces) if any(pieces) else None


def matches(pattern, term):
    return re.fullmatch(".*".join(map(re.escape, pattern.split("*"))), term) is not None


def wildcard(rng, stop):
    text = pattern_text(rng)
    if text is None:
        return None
    return text, lambda held: any(token is not None and matches(text, token) for token in held)


def leaf(rng, stop):
    while True:
        made = rng.choice([phrase, phrase, near, wildcard])(rng, stop)
        if made:
            return made


def query(rng, stop, depth):
    if depth == 0 or rng.random() < 0.3:
        return leaf(rng, stop)
    kind = rng.choice(["AND", "OR", "NOT", "bare"])
    text, asks = query(rng, stop, depth - 1)
    if kind == "NOT":
        return f"NOT ({text})", lambda held: not asks(held)
    second, also = query(rng, stop, depth - 1)
    if kind == "AND":
        return f"({text}) AND ({second})", lambda held: asks(held) and also(held)
    if kind == "OR":
        return f"({text}) OR ({second})", lambda held: asks(held) or also(held)
    # Without brackets: NOT binds tightest, then AND, then OR.
    (one, first), (two, then), (three, last) = (leaf(rng, stop) for _ in range(3))
    return f"{one} OR {two} AND NOT {three}", lambda held: first(held) or (then(held) and not last(held))


def collection(rng):
    texts = []
    for number in range(rng.randint(0, 6)):
        words = [rng.choice([w, w.title()]) for w in rng.choices(WORDS, k=rng.randint(0, 9))]
        texts.append((f"d{number}", rng.choice([" ", ", ", ".\n"]).join(words)))
    return texts


def check(rng, folder):
    texts = collection(rng)
    stop = rng.sample(["to", "the", "a"], rng.randint(0, 2))
    lists = [(name, tokens(text, stop)) for name, text in texts]
    built = ix.build(texts, f"{folder}/index", stop=stop)
    opened = ix.open(f"{folder}/index")
    assert opened.text == built.text
    cut = rng.randint(0, len(texts))
    parts = [ix.run(texts[:cut], stop=stop), ix.run(texts[cut:], cut, stop=stop)]
    assert ix.merge(rng.sample(parts, 2)).text == built.text, (texts, stop, cut)
    assert opened.names() == [name for name, _ in texts], texts
    for _ in range(4):
        text, asks = query(rng, stop, 2)
        wanted = [name for name, held in lists if asks(held)]
        for way, got in (
            ("ask", ix.ask(texts, text, stop=stop)),
            ("built", built.search(text)),
            ("opened", opened.search(text)),
        ):
            assert got == wanted, (way, texts, stop, text, got, wanted)
    pattern = pattern_text(rng) or "a*"
    wanted = sorted({token for _, held in lists for token in held if token is not None and matches(pattern, token)})
    rows = [(term, sum(term in held for _, held in lists)) for term in wanted]
    assert list(opened.terms(pattern)) == rows, (texts, stop, pattern)


def main(words):
    count = int(words[0]) if words else 10_000
    seed = int(words[1]) if len(words) > 1 else random.randrange(1 << 32)
    print(f"{count} collections, seed {seed}")
    rng = random.Random(seed)
    with tempfile.TemporaryDirectory() as folder:
        for _ in range(count):
            check(rng, folder)
    print(f"{count} collections: 4 queries each in three ways, and a pattern: none differs")


if __name__ == "__main__":
    main(sys.argv[1:])
