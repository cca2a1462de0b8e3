#!/usr/bin/env python3
"""Prints queries of fifteen kinds, five of each, of words drawn from a collection text by a fixed generator: lines
`kind TAB query`. Words are rare, in between or frequent by the number of documents that have them.

usage: queries.py TEXT
"""
import collections
import random
import re
import sys

WORD = re.compile(r"(?<![^ ])[a-z]{2,14}(?![^ ])")


class Words:
    def __init__(self, path):
        with open(path, encoding="utf-8") as file:
            self.texts = [line.rstrip("\n").split("\t", 1)[1].lower() for line in file]
        counts = collections.Counter(word for text in self.texts for word in set(WORD.findall(text)))
        by_count = sorted(counts, key=lambda word: (counts[word], word))
        size = len(by_count)
        self.frequent = by_count[-60:]
        self.between = by_count[size // 2 : size - 60] or by_count
        self.rare = by_count[: max(20, size // 4)]
        self.generator = random.Random(20261123)

    def some(self, words, count):
        return self.generator.sample(words, count)

    def stretch(self, count):
        """So many words that stand side by side in some text."""
        while True:
            words = self.generator.choice(self.texts).split(" ")
            if len(words) <= count:
                continue
            first = self.generator.randrange(len(words) - count)
            found = words[first : first + count]
            if all(WORD.fullmatch(word) for word in found) and found[0] != found[-1]:
                return found


def queries(words):
    frequent, between, rare = words.frequent, words.between, words.rare
    pools = [(frequent, frequent), (frequent, frequent), (between, between), (frequent, between), (frequent, rare)]
    pairs = [[words.some(pool, 1)[0] for pool in pair] for pair in pools]
    yield "term-rare", words.some(rare, 5)
    yield "term-mid", words.some(between, 5)
    yield "term-freq", words.some(frequent, 5)
    yield "and2", [" AND ".join(pair) for pair in pairs]
    yield "and3", [" AND ".join([*pair, words.some(pool, 1)[0]]) for pair, pool in zip(pairs, [frequent, between, between, frequent, rare])]
    yield "or", [" OR ".join(pair) for pair in pairs]
    yield "and-not", [" AND NOT ".join(pair) for pair in pairs]
    for count in (2, 3, 4):
        yield f"phrase{count}", ['"' + " ".join(words.stretch(count)) + '"' for _ in range(5)]
    for distance, count in ((3, 2), (10, 6)):
        ends = [words.stretch(count) for _ in range(5)]
        yield f"near{distance}", [f"{end[-1]} NEAR/{distance} {end[0]}" for end in ends]
    yield "prefix", [word[:3] + "*" for word in words.some(between, 5)]
    yield "infix", [f"{word[:2]}*{word[-2:]}" for word in words.some(between, 5)]
    nowhere = "qzxqvk"
    yield "none", [nowhere, f"{frequent[0]} AND {nowhere}", f'"{frequent[0]} {nowhere}"', f"{frequent[0]} NEAR/3 {nowhere}", "qzxq*"]


def main():
    for kind, asked in queries(Words(sys.argv[1])):
        for query in asked:
            print(f"{kind}\t{query}")


main()
