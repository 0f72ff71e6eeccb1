#!/usr/bin/env python3
"""Heads of requests a second: the built program, and Python's `http.client`, in one run.

The stream is that of a player: requests for segments with the fields that browsers and players send. It comes in
pieces of 16,384, 1,460 and 64 bytes, and byte by byte. Python's parser reads it from memory, whole. The two do not do
the same: `http.client` cuts the lines and keeps the fields, and the program also tests each byte against the grammar.
Build the program first: `rt run` in crates/usp_bench_http. Usage: bench/heads_rate.py PROGRAM [COUNT [PEER]]
PROGRAM is the built usp_bench_http. PEER is a program of the same words over a parser in C, which heads_peer.c is. No
test depends on a time.
"""
import http.client
import io
import subprocess
import sys
import time

ROUNDS = 5
HEADS = 100
TOKEN = "eyJhbGciOiJIUzI1NiIsImtpZCI6ImsxIn0." + "a" * 120 + "." + "b" * 43
BROWSER = (
    "GET /film/4711/1080p/segment-{n}.m4s?URISigningPackage={token} HTTP/1.1\r\n"
    "Host: cdn.example.com\r\n"
    "User-Agent: Mozilla/5.0 (X11; Linux x86_64; rv:128.0) Gecko/20100101 Firefox/128.0\r\n"
    "Accept: */*\r\n"
    "Accept-Language: en-US,en;q=0.5\r\n"
    "Accept-Encoding: gzip, deflate, br, zstd\r\n"
    "Origin: https://player.example.com\r\n"
    "Connection: keep-alive\r\n"
    "Referer: https://player.example.com/\r\n"
    "Sec-Fetch-Dest: empty\r\n"
    "Sec-Fetch-Mode: cors\r\n"
    "Sec-Fetch-Site: cross-site\r\n"
    "\r\n"
)
DEVICE = (
    "GET /film/4711/1080p/segment-{n}.m4s HTTP/1.1\r\n"
    "Host: cdn.example.com\r\n"
    "User-Agent: ExoPlayerLib/2.18.1\r\n"
    "Accept-Encoding: identity\r\n"
    "Cookie: URISigningPackage={token}\r\n"
    "Connection: Keep-Alive\r\n"
    "\r\n"
)


def stream():
    pairs = ((BROWSER + DEVICE).format(n=n, token=TOKEN) for n in range(HEADS // 2))
    return "".join(pairs).encode()


def of_program(program, text, count, piece):
    """Seconds a head: the least of some rounds, without the start of the program."""
    def took(n):
        begin = time.perf_counter()
        done = subprocess.run([program, str(n), str(piece)], input=text, check=True, capture_output=True)
        if done.stdout.strip() != str(n * HEADS).encode():
            sys.exit("the program did not find the heads")
        return time.perf_counter() - begin
    return min(took(count) - took(0) for _ in range(ROUNDS)) / (count * HEADS)


def of_python(text, count):
    best = None
    for _ in range(ROUNDS):
        begin = time.perf_counter()
        for _ in range(count):
            lines = io.BytesIO(text)
            for _ in range(HEADS):
                _method, _target, _version = lines.readline().split()
                http.client.parse_headers(lines)
        took = time.perf_counter() - begin
        best = took if best is None else min(best, took)
    return best / (count * HEADS)


def main():
    if len(sys.argv) < 2:
        sys.exit(__doc__)
    count = int(sys.argv[2]) if len(sys.argv) > 2 else 1000
    text = stream()
    python = of_python(text, max(1, count // 50))
    print(f"{HEADS} heads in {len(text):,} bytes")
    print(f"http.client                {1 / python:12,.0f} heads/s")
    for piece in (16384, 1460, 64, 1):
        own = of_program(sys.argv[1], text, count if piece > 1 else max(1, count // 10), piece)
        print(f"usp_http, {piece:6,} a read   {1 / own:12,.0f} heads/s, {python / own:6.1f} times Python's")
        if len(sys.argv) > 3:
            peer = of_program(sys.argv[3], text, count if piece > 1 else max(1, count // 10), piece)
            print(f"the peer, {piece:6,} a read   {1 / peer:12,.0f} heads/s, {peer / own:6.2f} times as many here")


if __name__ == "__main__":
    main()
