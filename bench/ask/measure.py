#!/usr/bin/env python3
"""Measures token lists and `ix ask` against a bare count of the words, and prints the best of some rounds.

usage: measure.py ASK_BENCH IX TEXT ROUNDS

Each round has one run of everything, so that all of it sees the same load of the machine.
"""
import os
import subprocess
import sys
import time

sys.path.insert(0, os.path.dirname(os.path.dirname(os.path.abspath(__file__))))
from measuring import peak_of


def words_of(path):
    """The fifth, sixth and seventh word of the first document."""
    with open(path, encoding="utf-8") as file:
        text = file.readline().split("\t", 1)[1]
    return [word.strip(".,") for word in text.split(" ")[4:7]]


class Ask:
    """One query: its shortest run, its most memory, and what it answered."""

    def __init__(self, query):
        self.query = query
        self.seconds = float("inf")

    def run(self, ix, path):
        before = time.perf_counter()
        done = subprocess.run([ix, "ask", path, self.query], stdout=subprocess.PIPE, check=False)
        self.seconds = min(self.seconds, time.perf_counter() - before)
        self.names = done.stdout.count(b"\n")
        self.status = done.returncode


def main():
    bench, ix, path, rounds = sys.argv[1], sys.argv[2], sys.argv[3], int(sys.argv[4])
    size = os.path.getsize(path)
    first, second, third = words_of(path)
    asks = [Ask(q) for q in (first, f'"{first} {second} {third}"', f"{first} NEAR/5 {second}", "inter*")]
    bare = lists = float("inf")
    for _ in range(rounds):
        out = subprocess.run([bench, path], stdout=subprocess.PIPE, check=True).stdout
        words, _, _, bare_now, lists_now = (int(n) for n in out.split())
        bare, lists = min(bare, bare_now / 1e6), min(lists, lists_now / 1e6)
        for ask in asks:
            ask.run(ix, path)
    print(f"{os.path.basename(path)}: {size} bytes, {words} words; bare count {size / bare / 1e6:.0f} MB/s; token lists {lists / bare:.2f} times that")
    for ask in asks:
        print(
            f"  ask {ask.query}: {ask.seconds:.3f} s, {ask.seconds / bare:.2f} times the bare count, "
            f"{ask.seconds / asks[0].seconds:.2f} times one word, {size / ask.seconds / 1e6:.0f} MB/s; {ask.names} names, status {ask.status}"
        )
    memory = peak_of([ix, "ask", path, first])
    print(f"  memory of ask {first}: {memory / size:.2f} times the file")


main()
