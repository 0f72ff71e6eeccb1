#!/usr/bin/env python3
"""Calls of a nonce table a second: the built program, and a Python dictionary that does the same, in one run.

Build the program first: `rt run -- distinct 1 1 0` in crates/usp_bench_nonce.
Usage: bench/nonce_rate.py PROGRAM [--ways WAY,WAY,..] [--calls N] [--held N,N,..] [--rounds N]
PROGRAM is the built usp_bench_nonce. No test depends on a time.

The room is 65,536. Each call makes its key, of a `jti` of 16 bytes and a URI of 72 bytes (of 96 and 72 in the last
way). The ways are those of the program: nonces that are all new, each held ten seconds; nonces that are all new, one a
second; HELD nonces over and over; and those again, with one hash for all. In the last a call takes about as many steps
as nonces are held: where they are many it is measured for one thread alone, in a minute or two. Each figure is the best
of some rounds, in calls a second. Threads that share a table wait for one another in the order in which they ask, so
other work on the processors counts for much: on a machine with other work, put `chrt -f 10` before the command.
"""
import argparse
import heapq
import os
import subprocess
import sys
import time

ROOM = 65_536
WAYS = ["distinct", "staggered", "repeated", "equal"]
URI = b"https://video.example.com/folder/quality_sd/segment-001.mp4?session=4711"


class Dictionary:
    """A nonce table over a dictionary and a heap of the ends."""

    def __init__(self):
        self.moment = 0
        self.until = {}
        self.ends = []

    def take(self, key, now, until):
        if now > self.moment:
            self.moment = now
            while self.ends and self.ends[0][0] <= now:
                del self.until[heapq.heappop(self.ends)[1]]
        if until <= self.moment:
            return "late"
        if key in self.until:
            return "seen"
        if len(self.until) >= ROOM:
            return "full"
        self.until[key] = until
        heapq.heappush(self.ends, (until, key))
        return "taken"


def asked(way, held, number):
    """The call of a number: its key, its moment and its end."""
    if way == "repeated":
        return (b"%016d" % (number % held), URI), 0, 1
    rate = max(held // 10, 1) if way == "distinct" else 1
    now = number // rate
    return (b"%016d" % number, URI), now, now + held // rate


def of_dictionary(way, held, calls):
    if way == "equal":
        return None
    table = Dictionary()
    for number in range(held):
        table.take(*asked(way, held, number))
    begin = time.perf_counter()
    for number in range(held, held + calls):
        table.take(*asked(way, held, number))
    return calls / (time.perf_counter() - begin)


def of_program(program, way, held, calls, threads):
    done = subprocess.run([program, way, str(held), str(calls), str(threads)], check=True, capture_output=True,
                          text=True)
    seconds, nanos, taken = (int(word) for word in done.stdout.split())
    calls -= calls % max(threads, 1)
    wanted = 0 if way in ("repeated", "equal") else calls
    # A thread that was long off the processor comes late with its next call.
    if abs(taken - wanted) > (calls // 100 if threads > 1 else 0):
        sys.exit(f"{way} {held} {threads}: {taken} calls of {calls} took their nonce, and not {wanted}")
    return calls / (seconds + nanos / 1e9)


def best(rounds, measure):
    figures = [measure() for _ in range(rounds)]
    return None if None in figures else max(figures)


def shown(figure):
    return "      none" if figure is None else f"{figure:10,.0f}"


def main():
    parser = argparse.ArgumentParser(description=__doc__, formatter_class=argparse.RawDescriptionHelpFormatter)
    parser.add_argument("program")
    parser.add_argument("--ways", default=",".join(WAYS))
    parser.add_argument("--calls", type=int, default=400_000)
    parser.add_argument("--held", default="10,1000,65536")
    parser.add_argument("--rounds", type=int, default=3)
    args = parser.parse_args()
    print(f"{os.cpu_count()} processors, load {os.getloadavg()[0]:.1f}")
    print(f"{'way':<10} {'held':>6} {'table':>10} {'1 thread':>10} {'2 threads':>10} {'4 threads':>10} {'dict':>10}")
    for way in args.ways.split(","):
        for held in (int(word) for word in args.held.split(",")):
            # Each call of keys of one hash takes a step for each that is held, those that fill the table too.
            slow = way == "equal" and held > 1_000
            calls = 200 if slow else args.calls // 20 if way == "equal" else args.calls
            rounds = 1 if slow else args.rounds
            figures = [None if slow and threads > 0 else
                       best(rounds, lambda: of_program(args.program, way, held, calls, threads))
                       for threads in (0, 1, 2, 4)]
            figures.append(best(rounds, lambda: of_dictionary(way, held, calls)))
            print(f"{way:<10} {held:>6} " + " ".join(shown(figure) for figure in figures), flush=True)


if __name__ == "__main__":
    main()
