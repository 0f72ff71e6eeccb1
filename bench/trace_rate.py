#!/usr/bin/env python3
"""Appends to a ledger and look-ups in it a second: the built program, and a Python list with a dictionary, in one run.

Build the program first: `rt run -- append 1 1` in crates/usp_bench_trace.
Usage: bench/trace_rate.py PROGRAM [--held N,N,..] [--total N] [--rounds N]
PROGRAM is the built usp_bench_trace. No test depends on a time.

The tokens have 250 bytes and begin alike: they differ in eight letters of the signature. The ways are those of the
program: HELD grants appended to a new ledger, the first place of each of HELD tokens, and that of as many tokens that
were not issued. Each is repeated until TOTAL calls are made, and each figure is the best of some rounds, in calls a
second. An append makes a copy of its token for the index; the dictionary of the peer keeps the token itself. A look-up
of the ledger hashes the token; a string of Python keeps its hash, so the peer looks up a copy made in the loop.
"""
import argparse
import os
import subprocess
import sys
import time

WAYS = ["append", "find", "miss"]
FRONT = b"A" * 206


class Book:
    """A ledger over a list and a dictionary."""

    def __init__(self):
        self.issues = []
        self.places = {}

    def append(self, token):
        self.places.setdefault(token, len(self.issues))
        self.issues.append(token)


def tokens_from(first, count):
    return [FRONT + b"%08x" % number + b"A" * 35 for number in range(first, first + count)]


def book_of(tokens):
    book = Book()
    for token in tokens:
        book.append(token)
    return book


def of_book(way, held, repeats):
    """Seconds of so many repeats."""
    took = 0
    if way == "append":
        for _ in range(repeats):
            tokens = tokens_from(0, held)
            begin = time.perf_counter()
            book_of(tokens)
            took += time.perf_counter() - begin
        return took
    book = book_of(tokens_from(0, held))
    for _ in range(repeats):
        tokens = tokens_from(0 if way == "find" else held, held)
        begin = time.perf_counter()
        for token in tokens:
            book.places.get(token)
        took += time.perf_counter() - begin
    return took


def of_program(program, way, held, repeats):
    done = subprocess.run([program, way, str(held), str(repeats)], check=True, capture_output=True, text=True)
    seconds, nanos, found = (int(word) for word in done.stdout.split())
    wanted = 0 if way == "miss" else held * repeats
    if found != wanted:
        sys.exit(f"{way} {held}: {found} tokens were found, and not {wanted}")
    return seconds + nanos / 1e9


def main():
    parser = argparse.ArgumentParser(description=__doc__, formatter_class=argparse.RawDescriptionHelpFormatter)
    parser.add_argument("program")
    parser.add_argument("--held", default="1000,100000")
    parser.add_argument("--total", type=int, default=500_000)
    parser.add_argument("--rounds", type=int, default=3)
    args = parser.parse_args()
    print(f"{os.cpu_count()} processors, load {os.getloadavg()[0]:.1f}")
    print(f"{'way':<8} {'held':>7} {'ledger':>12} {'dict':>12}")
    for way in WAYS:
        for held in (int(word) for word in args.held.split(",")):
            repeats = max(args.total // held, 1)
            calls = held * repeats
            ledger = calls / min(of_program(args.program, way, held, repeats) for _ in range(args.rounds))
            book = calls / min(of_book(way, held, repeats) for _ in range(args.rounds))
            print(f"{way:<8} {held:>7} {ledger:12,.0f} {book:12,.0f}", flush=True)


if __name__ == "__main__":
    main()
