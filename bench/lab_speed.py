#!/usr/bin/env python3
"""Seconds and peak of memory of `usp lab-from N`, and of `usp lab W` over a script of one long round.

The generated script has ten asks a group. The asks of the long round are for 64 objects of one edge, each
with the same grant, so that workers may share the work. Both are printed by size: the seconds must rise with it and no
faster. No test depends on a time.

Build the program first: `rt run` in crates/usp. Usage: bench/lab_speed.py PROGRAM [--rounds R]
PROGRAM is the built usp (crates/usp/out/usp). The least seconds of R runs are printed (3 where none are given).
"""
import argparse
import json
import os
import pathlib
import subprocess
import sys
import tempfile

GROUPS = (10, 100, 1_000, 10_000)
ASKS = (1_000, 10_000)
WORKERS = (1, 2, 4)
OBJECTS = 64
SECRET = "AQEBAQEBAQEBAQEBAQEBAQEBAQEBAQEBAQEBAQEBAQE"

# Run in a Python of its own, since a child's peak counts what its parent had where it was started.
MEASURE = """
import os, sys, time
out, source, *words = sys.argv[1:]
begin = time.perf_counter()
child = os.fork()
if child == 0:
    os.dup2(os.open(source, os.O_RDONLY), 0)
    os.dup2(os.open(out, os.O_WRONLY | os.O_CREAT | os.O_TRUNC, 0o600), 1)
    os.execv(words[0], words)
_, status, used = os.wait4(child, 0)
print(time.perf_counter() - begin, used.ru_maxrss * 1024, os.waitstatus_to_exitcode(status))
"""


def measure(folder, source, words, rounds):
    """The least seconds, the greatest peak in bytes, the status and the output of some runs."""
    out = folder / "out"
    best, peak = None, 0
    for _ in range(rounds):
        done = subprocess.run(
            [sys.executable, "-c", MEASURE, str(out), str(source), *words],
            cwd=folder, capture_output=True, text=True, check=True)
        seconds, bytes_used, status = done.stdout.split()
        best = float(seconds) if best is None else min(best, float(seconds))
        peak = max(peak, int(bytes_used))
    return best, peak, int(status), out.read_text()


def long_round(count):
    """A script of one round of so many asks."""
    lines = ["edge conf.json"]
    lines += [f"object e https://h.example/v/{n} x" for n in range(OBJECTS)]
    lines += [f"key k p {SECRET}", 'grant k {"cdniuc":"regex:^https://h[.]example/v/"}']
    lines += [f"ask e 1000 https://h.example/v/{n % OBJECTS} query g1" for n in range(count)]
    return "\n".join(lines) + "\n"


def conf():
    """A configuration of one edge that has the provider's key."""
    return json.dumps({
        "edge": "e", "scheme": "https",
        "keys": [{"kid": "k", "issuer": "p", "secret": SECRET}],
        "issuers": ["p"], "audience": ["e"], "sign_kid": "k"})


def main():
    parser = argparse.ArgumentParser(description=__doc__, formatter_class=argparse.RawDescriptionHelpFormatter)
    parser.add_argument("program")
    parser.add_argument("--rounds", type=int, default=3)
    args = parser.parse_args()
    program = os.path.abspath(args.program)
    with tempfile.TemporaryDirectory() as name:
        folder = pathlib.Path(name)
        (folder / "conf.json").write_text(conf())
        (folder / "none").write_text("")
        print(f"{'command':<16}{'asks':>9}{'seconds':>10}{'us an ask':>11}{'peak MB':>9}")
        for groups in GROUPS:
            seconds, peak, status, text = measure(
                folder, folder / "none", [program, "lab-from", str(groups)], args.rounds)
            calls = 9 * groups
            want = (f"groups {groups} asks {10 * groups} admitted {8 * groups} denied {2 * groups}"
                    f" calls {calls} ledger {calls}\n")
            if status != 1 or text != want:
                sys.exit(f"lab-from {groups}: status {status}, {text!r}")
            asks = 10 * groups
            print(f"{'lab-from ' + str(groups):<16}{asks:>9}{seconds:>10.3f}"
                  f"{seconds / asks * 1e6:>11.1f}{peak / 1e6:>9.1f}")
        for asks in ASKS:
            (folder / "script").write_text(long_round(asks))
            for workers in WORKERS:
                seconds, peak, status, text = measure(
                    folder, folder / "script", [program, "lab", str(workers)], args.rounds)
                if status != 0 or text.count("\n") != asks + 1:
                    sys.exit(f"lab {workers} over {asks} asks: status {status}")
                print(f"{'lab ' + str(workers):<16}{asks:>9}{seconds:>10.3f}"
                      f"{seconds / asks * 1e6:>11.1f}{peak / 1e6:>9.1f}")


if __name__ == "__main__":
    main()
