#!/usr/bin/env python3
"""Times queries on one index, kind by kind, beside another program where one is given, both in turn in each round.

usage: measure.py ANSWER_BENCH INDEX QUERIES ROUNDS [OTHER]
"""
import math
import statistics
import subprocess
import sys

COUNT = 9  # how often a query is asked in a round
EACH = 1.2  # times the other program, of each kind
ALL = 0.7  # the geometric mean of the kinds


def times_of(words):
    """What a program prints: for each query how many documents it found, and its times in microseconds."""
    out = subprocess.run(words, stdout=subprocess.PIPE, stderr=subprocess.DEVNULL, check=True).stdout.decode()
    lines = {}
    for line in out.splitlines():
        kind, query, found, times = line.split("\t")
        lines[kind, query] = int(found), [float(time) for time in times.split(",")]
    return lines


class Kind:
    """The times of the queries of a kind, over all rounds: its own, and the other program's."""

    def __init__(self):
        self.own = []
        self.other = []
        self.queries = {}


def main():
    bench, index, queries, rounds = sys.argv[1:5]
    programs = [[bench, "ask", index, queries, str(COUNT)]]
    if len(sys.argv) > 5:
        programs.append([sys.argv[5], "batch", "--reps", str(COUNT), index, queries])
    kinds = {}
    for _ in range(int(rounds)):
        sides = [times_of(words) for words in programs]
        for key, (found, times) in sides[0].items():
            kind = kinds.setdefault(key[0], Kind())
            kind.queries[key[1]] = found
            kind.own.extend(times)
            if len(sides) > 1:
                if sides[1][key][0] != found:
                    sys.exit(f"{key[1]}: {found} documents, and {sides[1][key][0]} by the other program")
                kind.other.extend(sides[1][key][1])
    ratios = []
    for name, kind in kinds.items():
        own = statistics.median(kind.own)
        line = f"{name}: {own:.1f} us, the median of {len(kind.queries)} queries that find {sum(kind.queries.values())} documents"
        if kind.other:
            other = statistics.median(kind.other)
            ratios.append(own / other)
            line += f"; the other program {other:.1f} us, {own / other:.2f} times (limit {EACH})"
        print(line)
    if ratios:
        print(f"geometric mean {math.exp(statistics.mean(map(math.log, ratios))):.2f} times (limit {ALL})")


main()
