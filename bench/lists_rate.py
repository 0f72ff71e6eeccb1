#!/usr/bin/env python3
"""Playlists of 10,000 segments a second: the built program, and a line loop in Python, in one run.

One list is short: relative names and whole durations. The other is as a packager writes it: fractions, absolute names
with a token, a date every tenth segment. The Python loop is what players of a few lines do: it cuts the lines, keeps
the duration of the next name as text, and takes every other tag as it is. It tests neither the digits nor the order of
the tags, which the program does. Build the program first: `rt run` in crates/usp_bench_player.
Usage: bench/lists_rate.py PROGRAM [COUNT]
PROGRAM is the built usp_bench_player. No test depends on a time.
"""
import subprocess
import sys
import time

ROUNDS = 5
SEGMENTS = 10_000
TOKEN = "eyJhbGciOiJIUzI1NiIsImtpZCI6ImsxIn0." + "a" * 120 + "." + "b" * 43


def short():
    lines = ["#EXTM3U", "#EXT-X-TARGETDURATION:6"]
    for n in range(SEGMENTS):
        lines += ["#EXTINF:6,", f"s{n}.ts"]
    return "\n".join(lines + ["#EXT-X-ENDLIST", ""])


def written():
    lines = ["#EXTM3U", "#EXT-X-VERSION:6", "#EXT-X-TARGETDURATION:7", '#EXT-X-MAP:URI="init.mp4"']
    for n in range(SEGMENTS):
        if n % 10 == 0:
            lines.append("#EXT-X-PROGRAM-DATE-TIME:2024-05-01T10:00:00.000Z")
        lines += ["#EXTINF:6.006000,", f"https://cdn.example.com/film/4711/1080p/segment-{n}.m4s?t={TOKEN}"]
    return "\r\n".join(lines + ["#EXT-X-ENDLIST", ""])


def of_program(program, text, count):
    """Seconds a list: the least of some rounds, without the start of the program."""
    def took(n):
        begin = time.perf_counter()
        done = subprocess.run([program, str(n)], input=text, check=True, capture_output=True)
        if done.stdout.strip() != str(n * SEGMENTS).encode():
            sys.exit("the program did not read the list")
        return time.perf_counter() - begin
    return min(took(count) - took(0) for _ in range(ROUNDS)) / count


def segments_of(text):
    target, ended, duration, segments = None, False, None, []
    lines = iter(text.decode().splitlines())
    if next(lines) != "#EXTM3U":
        raise ValueError("no playlist")
    for line in lines:
        if line.startswith("#EXTINF:"):
            duration = line[8:].partition(",")[0]
        elif line.startswith("#EXT-X-TARGETDURATION:"):
            target = int(line[22:])
        elif line == "#EXT-X-ENDLIST":
            ended = True
        elif line and not line.startswith("#"):
            segments.append((duration, line))
            duration = None
    return target, ended, segments


def of_python(text, count):
    best = None
    for _ in range(ROUNDS):
        begin = time.perf_counter()
        for _ in range(count):
            if len(segments_of(text)[2]) != SEGMENTS:
                sys.exit("the loop did not read the list")
        took = time.perf_counter() - begin
        best = took if best is None else min(best, took)
    return best / count


def main():
    if len(sys.argv) < 2:
        sys.exit(__doc__)
    count = int(sys.argv[2]) if len(sys.argv) > 2 else 100
    for name, text in (("short", short().encode()), ("written", written().encode())):
        python = of_python(text, max(1, count // 10))
        own = of_program(sys.argv[1], text, count)
        print(f"{name}: {SEGMENTS:,} segments in {len(text):,} bytes")
        print(f"  Python's loop {1 / python:10,.1f} lists/s {len(text) / python / 1e6:8,.0f} MB/s")
        print(f"  usp_player    {1 / own:10,.1f} lists/s {len(text) / own / 1e6:8,.0f} MB/s, {python / own:5.1f} times the loop's")


if __name__ == "__main__":
    main()
