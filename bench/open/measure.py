#!/usr/bin/env python3
"""Measures opening an index and walking its lists, and prints the best of each over the rounds of the bench, with the
limits that are set beside the figures.

usage: measure.py OPEN_BENCH INDEX
"""
import os
import sys

sys.path.insert(0, os.path.dirname(os.path.dirname(os.path.abspath(__file__))))
from measuring import peak_of, rounds_of

OPENING = 4  # times a bare pass of decoding
MEMORY = 1  # times the file


def main():
    bench, index = sys.argv[1:]
    size = os.path.getsize(index)
    rounds = rounds_of([bench, index])
    bare, opened, decoded, walked = (min(column) for column in list(zip(*rounds))[:4])
    print(f"{size} bytes; a bare pass of decoding {bare} us; opening {opened} us, {opened / bare:.2f} times (limit {OPENING})")
    print(f"decoding every code of the lists {decoded} us; walking their documents {walked} us, {decoded / walked:.2f} times as fast")
    print(f"memory of opening: {peak_of([bench, index, 'once']) / size - 1:.2f} times the file beside it (limit {MEMORY})")


main()
