#!/usr/bin/env python3
"""Reading a claim set of about 4,000 bytes: the built program, and Python's `json`, in one run.

Build the program first: `rt run -- json 1` in crates/usp_bench. Usage: bench/json_rate.py PROGRAM [COUNT]
PROGRAM is the built usp_bench. No test depends on a time.
"""
import json
import subprocess
import sys
import time

ROUNDS = 5
TEXT = "{" + ",".join(f'"k{n:02}":"abcdefghijklmnopqrstuvwxyzabcdefghijklmnopqrstuvwxyz01"' for n in range(60)) + "}"


def of_program(program, count):
    """Seconds a reading: the least of some rounds, without the start of the program."""
    def took(n):
        begin = time.perf_counter()
        done = subprocess.run([program, "json", str(n)], check=True, capture_output=True, text=True)
        if done.stdout.strip() != str(n):
            sys.exit("the program did not read the text")
        return time.perf_counter() - begin
    return min(took(count) - took(0) for _ in range(ROUNDS)) / count


def of_python(count):
    best = None
    for _ in range(ROUNDS):
        begin = time.perf_counter()
        for _ in range(count):
            json.loads(TEXT)
        took = time.perf_counter() - begin
        best = took if best is None else min(best, took)
    return best / count


def main():
    if len(sys.argv) < 2:
        sys.exit(__doc__)
    count = int(sys.argv[2]) if len(sys.argv) > 2 else 20_000
    size = len(TEXT) / 1e6
    own, python = of_program(sys.argv[1], count), of_python(count)
    print(f"text of {len(TEXT)} bytes")
    print(f"usp_bench    {size / own:8.1f} MB/s")
    print(f"Python json  {size / python:8.1f} MB/s   usp_bench takes {own / python:.2f} times as long")
    print("Rust serde_json: skipped, no registry to build it from is assumed")


if __name__ == "__main__":
    main()
