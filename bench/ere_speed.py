#!/usr/bin/env python3
"""Times a match of the product against the C library's `regexec` and Python's `re`, in one run.

Build the program first: `rt run` in crates/usp_bench_ere. Then

    python3 bench/ere_speed.py PROGRAM [--rounds N]

PROGRAM is the built usp_bench_ere. Each row is an expression on a URI of some length: microseconds a match, the least
of some rounds, and how often each of the other two is slower (`2.0x`: twice as slow as the product). The rounds of
the three take turns, so that what else the machine does strikes all of them. The last rows give what `compile` and
`scratch` take together, against `regcomp` and `regfree`. No test depends on a time.
"""
import argparse
import os
import re
import subprocess
import sys
import tempfile
import time

LENGTHS = (50, 100, 200, 400, 8190)
FILM = "^https?://h[.]example/film1/[a-z]+[.](ts|mp4)$"
FOLDER = r"[^:]*\://[^/]*/folder/quality_[^/]*/segment.{3}\.mp4(\?.*)?"
EXPRESSIONS = (FILM, "(a|s)*(s|t)*[.]ts$", FOLDER, "^https://[ab][.]example/")

LIBRARY = r"""
#include <regex.h>
#include <stdio.h>
#include <stdlib.h>
#include <time.h>
static double now(void) {
  struct timespec t;
  clock_gettime(CLOCK_MONOTONIC, &t);
  return t.tv_sec + 1e-9 * t.tv_nsec;
}
int main(int argc, char **argv) {
  regex_t expression;
  long times = atol(argv[3]), compiles = atol(argv[4]), found = 0;
  if (argc != 5 || regcomp(&expression, argv[1], REG_EXTENDED | REG_NOSUB) != 0) return 1;
  double begin = now();
  for (long i = 0; i < times; i++) found += regexec(&expression, argv[2], 0, 0, 0) == 0;
  double matched = now();
  for (long i = 0; i < compiles; i++) {
    regfree(&expression);
    regcomp(&expression, argv[1], REG_EXTENDED | REG_NOSUB);
  }
  printf("%s %.12f %.12f\n", found ? "found" : "none", times ? (matched - begin) / times : 0,
         compiles ? (now() - matched) / compiles : 0);
  return 0;
}
"""


def film_uri(length):
    front, end = "https://h.example/film1/", ".mp4"
    letters = "abcdefghijklmnopqrstuvwxyz"
    middle = length - len(front) - len(end)
    return front + (letters * (middle // 26 + 1))[:middle] + end


def folder_uri(length):
    front, end = "https://h.example/", "/folder/quality_hd/segment001.mp4"
    return front + "x" * max(0, length - len(front) - len(end)) + end


def of_product(program, lines):
    """Seconds for all lines, and the last answer."""
    text = "".join(f"{line}\n" for line in lines)
    begin = time.perf_counter()
    done = subprocess.run([program], input=text, capture_output=True, text=True, check=True)
    return time.perf_counter() - begin, done.stdout.split()[-1]


def product_match(program, expression, uri, times):
    idle, _ = of_product(program, [f"{expression}\t{uri}\t0"])
    took, answer = of_product(program, [f"{expression}\t{uri}\t{times}"])
    return (took - idle) / times, answer


def product_compile(program, expression, times):
    idle, _ = of_product(program, [f"{expression}\t\t0"])
    took, _ = of_product(program, [f"{expression}\t\t0"] * times)
    return (took - idle) / times


def of_library(library, expression, uri, times, compiles=0):
    done = subprocess.run(
        [library, expression, uri, str(times), str(compiles)], capture_output=True, text=True, check=True
    )
    answer, match, compiled = done.stdout.split()
    return float(match), float(compiled), answer


def of_python(expression, uri, times):
    compiled = re.compile(expression.replace(r"\:", ":"))
    begin = time.perf_counter()
    for _ in range(times):
        found = compiled.search(uri)
    return (time.perf_counter() - begin) / times, "found" if found else "none"


def row(program, library, expression, uri, rounds):
    times = max(200, 2_000_000 // len(uri))
    few = max(20, times // 10)
    best = [None, None, None]
    for _ in range(rounds):
        own, ours = product_match(program, expression, uri, times)
        library_took, _, theirs = of_library(library, expression, uri, few)
        python_took, pythons = of_python(expression, uri, max(5, few // 10))
        if len({ours, theirs, pythons}) != 1:
            sys.exit(f"{expression} on {uri}: {ours} here, {theirs} by regexec, {pythons} by Python")
        took = (own, library_took, python_took)
        best = [new if old is None else min(old, new) for old, new in zip(best, took)]
    own, library_took, python_took = best
    print(f"{len(uri):6} {ours:5} {own * 1e6:10.3f} {library_took * 1e6:10.3f} {library_took / own:6.1f}x"
          f" {python_took * 1e6:10.3f} {python_took / own:6.1f}x")


def main():
    parser = argparse.ArgumentParser(description=__doc__, formatter_class=argparse.RawDescriptionHelpFormatter)
    parser.add_argument("program")
    parser.add_argument("--rounds", type=int, default=5)
    options = parser.parse_args()
    with tempfile.TemporaryDirectory() as folder:
        source, library = os.path.join(folder, "library.c"), os.path.join(folder, "library")
        with open(source, "w", encoding="utf-8") as file:
            file.write(LIBRARY)
        subprocess.run(["cc", "-O2", "-o", library, source], check=True)
        for expression in EXPRESSIONS:
            print(f"{expression}\n bytes          product    regexec   ratio         re   ratio")
            for length in LENGTHS:
                uri = folder_uri(length) if expression == FOLDER and length > 50 else film_uri(length)
                row(options.program, library, expression, uri, options.rounds)
        print("compile and scratch           product    regcomp   ratio")
        for expression in EXPRESSIONS:
            own = min(product_compile(options.program, expression, 5000) for _ in range(options.rounds))
            took = min(of_library(library, expression, "", 0, 2000)[1] for _ in range(options.rounds))
            print(f"{expression[:26]:26} {own * 1e6:10.3f} {took * 1e6:10.3f} {took / own:6.1f}x")


if __name__ == "__main__":
    main()
