#!/usr/bin/env python3
"""HMAC-SHA-256 over texts of 300 bytes: the built program, OpenSSL through Python's `hmac`, and `openssl speed`.

Build the program first: `rt run -- mac 1` in crates/usp_bench. Usage: bench/hmac_rate.py PROGRAM [COUNT]
PROGRAM is the built usp_bench. What is missing is skipped with a word. No test depends on a time.
"""
import hashlib
import hmac
import re
import shutil
import subprocess
import sys
import time

ROUNDS = 5


def of_program(program, count):
    """Microseconds a MAC: the least of some rounds, without the start of the program."""
    def took(n):
        begin = time.perf_counter()
        subprocess.run([program, "mac", str(n)], check=True, stdout=subprocess.DEVNULL)
        return time.perf_counter() - begin
    return min(took(count) - took(0) for _ in range(ROUNDS)) / count * 1e6


def of_python(count):
    """The same chain of MACs by hmac.digest, which is OpenSSL's one call."""
    best = None
    for _ in range(ROUNDS):
        key, digest, rest = b"\x01" * 32, b"\0" * 32, b"\0" * 268
        begin = time.perf_counter()
        for _ in range(count):
            digest = hmac.digest(key, digest + rest, hashlib.sha256)
        took = time.perf_counter() - begin
        best = took if best is None else min(best, took)
    return best / count * 1e6


def of_openssl():
    """openssl speed's own loop over 300 bytes."""
    done = subprocess.run(["openssl", "speed", "-hmac", "sha256", "-bytes", "300", "-seconds", "2"],
                          capture_output=True, text=True)
    match = re.search(r"([0-9.]+)k\s*$", done.stdout.strip())
    return 300 / (float(match.group(1)) * 1000) * 1e6 if match else None


def main():
    if len(sys.argv) < 2:
        sys.exit(__doc__)
    count = int(sys.argv[2]) if len(sys.argv) > 2 else 200_000
    own = of_program(sys.argv[1], count)
    print(f"usp_bench             {own:6.2f} us a MAC")
    python = of_python(count)
    print(f"Python hmac.digest    {python:6.2f} us a MAC   usp_bench takes {own / python:.2f} times as long")
    if shutil.which("openssl") is None:
        print("openssl               skipped: not installed")
        return
    speed = of_openssl()
    if speed is None:
        print("openssl speed         skipped: its output has another form")
    else:
        print(f"openssl speed -hmac   {speed:6.2f} us a MAC   usp_bench takes {own / speed:.2f} times as long")


if __name__ == "__main__":
    main()
