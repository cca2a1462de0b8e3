#!/usr/bin/env python3
"""Makes a collection text of about ten million bytes by a fixed rule.

usage: texts.py english|mixed FILE

Documents have 100 to 1,000 words, drawn by a fixed generator from 20,000 words, the n-th about n times as rare as the
first. `english` has words of Latin letters in sentences; `mixed` has Russian, Greek, Japanese, Korean and Arabic words.
"""
import sys

BYTES = 10_000_000
WORDS = 20_000


class Generator:
    def __init__(self, seed):
        self.state = seed

    def below(self, n):
        self.state = (self.state * 6364136223846793005 + 1442695040888963407) % 2**64
        return (self.state >> 33) % n


SYLLABLES = {
    "english": ["th", "e", "an", "in", "er", "re", "on", "at", "en", "nd", "st", "es", "ing", "or", "te", "of", "ed", "is", "it", "al", "ar", "to", "nt", "ha", "se", "ou", "io", "le", "ve", "co"],
    "russian": ["ст", "но", "то", "на", "ен", "ов", "ни", "ра", "во", "ко", "про", "ли", "ть", "ми", "да"],
    "greek": ["το", "να", "και", "ση", "τα", "ρι", "με", "πο", "θε", "λο", "στη", "γρα", "φω", "ών", "ός"],
    "japanese": ["カ", "タ", "ス", "ト", "ア", "ラ", "ン", "メ", "ロ", "デ", "ビ", "ュ", "キ", "ソ", "リ"],
    "korean": ["가", "나", "다", "한", "국", "어", "시", "장", "는", "사", "람", "일", "본", "을", "대"],
    "arabic": ["ال", "مو", "كت", "با", "در", "سة", "في", "من", "عل", "ما", "هذ", "ني", "را", "وا", "قد"],
}


def vocabulary(kind, generator, count):
    words = []
    for n in range(count):
        syllables = SYLLABLES[kind]
        length = 1 + generator.below(2) + (n > 60) + (n > 3000) * generator.below(2)
        words.append("".join(syllables[generator.below(len(syllables))] for _ in range(length)))
    return words


def draw(words, generator):
    # about as often as one over the rank
    span = 1 << (1 + generator.below(len(words).bit_length() - 1))
    return words[generator.below(min(span, len(words)))]


def document(words, generator):
    out = []
    for place in range(100 + generator.below(901)):
        word = draw(words, generator)
        if place % 11 == 0:
            word = word[:1].upper() + word[1:]
        if place % 11 == 10:
            word += "."
        elif generator.below(14) == 0:
            word += ","
        out.append(word)
    return " ".join(out)


def main():
    kind, path = sys.argv[1], sys.argv[2]
    generator = Generator(20261122)
    if kind == "english":
        kinds = [vocabulary("english", generator, WORDS)]
    else:
        kinds = [vocabulary(k, generator, WORDS // 5) for k in SYLLABLES if k != "english"]
    size, number = 0, 0
    with open(path, "wb") as file:
        while size < BYTES:
            line = f"{kind}-{number:06}\t{document(kinds[number % len(kinds)], generator)}\n".encode()
            file.write(line)
            size += len(line)
            number += 1


main()
