#!/usr/bin/env python3
"""Measures merging, and prints the best of each over the rounds of the bench, with the limits that are set beside the
figures. What POSTINGS alone takes is the whole less the index of one document that holds each term once. It is told three
times. Where two processes make these two, the best stands beside the best copy and the middle of the rounds beside the
middle copy: a copy into memory that is there from the round before takes a quarter of one that asks the system for it. And
one process merges both, and copies as many bytes as the one index is longer than the other, in turn: all three find such
memory, or none does. A thousand runs and sixteen are merged in turn by one process too, since the speed of a machine may
move between two.

usage: measure.py MERGE_BENCH TEXT TERMS
"""
import os
import subprocess
import sys

sys.path.insert(0, os.path.dirname(os.path.dirname(os.path.abspath(__file__))))
from measuring import peak_of, rounds_of

INVERTING = 0.5  # times inverting the text by one thread, for the whole merge of 16 runs
COPY = 4  # times a copy of the bytes written, into a list that grows as the merge's does, for POSTINGS alone
MANY = 1.5  # times the merge of 16 runs, for 1,000
PARTS = 16
MOST = 1000


def best(words):
    """The least of each column."""
    return [min(column) for column in zip(*rounds_of(words))]


def middle(numbers):
    """The number in the middle."""
    return sorted(numbers)[len(numbers) // 2]


def main():
    bench, text, terms = sys.argv[1:]
    with open(text, "rb") as lines:
        count = sum(1 for _ in lines)
    blocks = {parts: str(max(1, -(-count // parts))) for parts in (PARTS, MOST)}
    with open(terms, "wb") as out:
        subprocess.run([bench, "terms", text], stdout=out, check=True)
    listing = [line[1] for line in rounds_of([bench, terms, "1"])]
    listed = min(listing)
    rounds = rounds_of([bench, text, blocks[PARTS]])
    few = [min(column) for column in zip(*rounds)]
    many = best([bench, text, blocks[MOST]])
    turns = rounds_of([bench, text, blocks[PARTS], terms])
    shares = [(one - other) / copy for one, other, copy, _ in turns]
    whole, grams, again, more = [middle(column) for column in zip(*turns)]
    pairs = rounds_of([bench, text, blocks[PARTS], blocks[MOST]])
    least = [min(column) for column in zip(*pairs)]
    inverted, merged, from_texts, read, copied, size, runs, positions, alike = few
    usual = middle([line[4] for line in rounds])
    rest = middle([line[1] for line in rounds]) - middle(listing)
    print(f"{os.path.getsize(text)} bytes of text, {count} documents; an index of {size} bytes with {positions} positions; inverting {inverted} us")
    ratios = [other / one for one, other in pairs]
    print(f"merging {runs} runs in memory {merged} us, {merged / inverted:.2f} times inverting (limit {INVERTING})")
    print(f"  POSTINGS alone {middle(shares):.1f} times a copy of the {more} bytes that it writes by the middle of {len(shares)} rounds, {min(shares):.1f} to {max(shares):.1f} (limit {COPY}; {sum(share > COPY for share in shares)} above): in turn in one process the whole {whole} us, dictionary and grams {grams} us, a copy {again} us")
    print(f"  two processes apart: dictionary and grams {listed} us; the rest {(merged - listed) / copied:.1f} times the fastest copy of the whole index, {copied} us; by the middle of the rounds {rest / usual:.1f} times, {usual} us")
    print(f"  from run texts {from_texts} us, where reading them takes {read} us: {from_texts / (read + merged):.2f} times both (limit 1)")
    print(f"merging {many[6]} runs {least[1] / least[0]:.2f} times as long by the best, {middle(ratios):.2f} by the middle of {len(ratios)} rounds (limit {MANY}; {sum(ratio > MANY for ratio in ratios)} above), in turn in one process")
    print(f"  two processes apart: {many[1]} us, {many[1] / merged:.2f} times as long")
    print("the run texts give the same bytes" if alike and many[8] else "THE RUN TEXTS GIVE OTHER BYTES")
    print(f"memory of inverting and merging: {peak_of([bench, text, blocks[PARTS], 'once']) / os.path.getsize(text):.2f} times the text, which is part of it")


main()
