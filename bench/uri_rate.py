#!/usr/bin/env python3
"""URIs a second: the normal form of the built program, and Python's `urllib.parse.urlsplit`, in one run.

The two do not do the same: urlsplit cuts a URI, and the program also tests each byte and makes the normal form.
Build the program first: `rt run -- uri 1` in crates/usp_bench. Usage: bench/uri_rate.py PROGRAM [COUNT]
PROGRAM is the built usp_bench. No test depends on a time.
"""
import subprocess
import sys
import time
import urllib.parse

ROUNDS = 5
TEXT = ("HTTPS://Video.Example.COM:443/%7efolder/./quality_hd/../quality_sd/segment%2d001.mp4"
        "?session=4711&token=a.b.c")
NORMAL = "https://video.example.com/~folder/quality_sd/segment-001.mp4?session=4711&token=a.b.c"


def of_program(program, count):
    """Seconds a URI: the least of some rounds, without the start of the program."""
    def took(n):
        begin = time.perf_counter()
        done = subprocess.run([program, "uri", str(n)], check=True, capture_output=True, text=True)
        if done.stdout.strip() != str(n * len(NORMAL)):
            sys.exit("the program did not give the normal form")
        return time.perf_counter() - begin
    return min(took(count) - took(0) for _ in range(ROUNDS)) / count


def of_python(count):
    best = None
    for _ in range(ROUNDS):
        begin = time.perf_counter()
        for _ in range(count):
            urllib.parse.clear_cache() if hasattr(urllib.parse, "clear_cache") else None
            urllib.parse.urlsplit(TEXT)
        took = time.perf_counter() - begin
        best = took if best is None else min(best, took)
    return best / count


def main():
    if len(sys.argv) < 2:
        sys.exit(__doc__)
    count = int(sys.argv[2]) if len(sys.argv) > 2 else 200_000
    own, python = of_program(sys.argv[1], count), of_python(min(count, 200_000))
    print(f"usp_bench               {1 / own:12,.0f} URIs/s")
    print(f"urllib.parse.urlsplit   {1 / python:12,.0f} URIs/s")
    print("Rust url: skipped, no registry to build it from is assumed")


if __name__ == "__main__":
    main()
