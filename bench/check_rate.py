#!/usr/bin/env python3
"""Lines that `usp check` judges a second, its peak of memory, and a plain Python checker in the same run.

Half of the lines have a `jti` and a `hash:` container, and some of them come twice. The other half have
`regex:` containers with a few hundred expressions, and some of them meet nothing. The script seals the
tokens itself. The Python checker is a short one for these lines alone: it reads no normal form and knows
no limits, and `re` keeps its compiled expressions from line to line, which `usp` does not. The verdicts of both
are compared, line by line.

Build the program first: `rt run` in crates/usp. Usage: bench/check_rate.py PROGRAM [COUNT] [--keep FOLDER]
PROGRAM is the built usp (crates/usp/out/usp). With --keep the configuration and the lines stay in FOLDER, as
conf.json and lines.txt, for a profile. No test depends on a time.
"""
import argparse
import base64
import hashlib
import hmac
import json
import os
import re
import subprocess
import sys
import tempfile
import time
import urllib.parse

ROUNDS = 3
SECRET = bytes([1]) * 32
EXPRESSIONS = 300
MOMENT = 1_700_000_000
EXPIRY = 2_000_000_000
LONGEST_INPUT = 16_777_216

# Run in a Python of its own, since a child's peak counts what its parent had where it was started: about 5 MB of
# this one, the least peak that is told.
MEASURE = """
import os, sys, time
program, conf, lines, verdicts = sys.argv[1:]
begin = time.perf_counter()
child = os.fork()
if child == 0:
    os.dup2(os.open(lines, os.O_RDONLY), 0)
    os.dup2(os.open(verdicts, os.O_WRONLY | os.O_CREAT | os.O_TRUNC, 0o600), 1)
    os.execv(program, [program, "check", conf])
_, status, used = os.wait4(child, 0)
took = time.perf_counter() - begin
print(took, used.ru_maxrss * 1024, os.waitstatus_to_exitcode(status))
"""


def b64u(data):
    return base64.urlsafe_b64encode(data).rstrip(b"=").decode()


def from_b64u(text):
    return base64.urlsafe_b64decode(text + "=" * (-len(text) % 4))


def sealed(claims):
    """A token over the claims, signed with HS256 (RFC 7515 section 3.1)."""
    header = b64u(b'{"alg":"HS256","kid":"k1"}')
    signed = header + "." + b64u(json.dumps(claims, separators=(",", ":")).encode())
    return signed + "." + b64u(hmac.digest(SECRET, signed.encode(), hashlib.sha256))


def segment(uri):
    return "sha-256;" + b64u(hashlib.sha256(uri.encode()).digest())


def line_with_nonce(n):
    """Each tenth of them is that of the line before it once more."""
    n -= n % 10 == 9
    uri = f"http://h.example/v/{n}/segment.mp4"
    token = sealed({"cdniuc": "hash:" + segment(uri), "exp": EXPIRY, "jti": f"n{n}"})
    return f"{MOMENT} {uri}?URISigningPackage={token}"


def line_with_expression(n):
    """Each seventh of them is for another folder."""
    folder, other = n % EXPRESSIONS, n % EXPRESSIONS + (n % 7 == 6)
    uri = f"http://h.example/film{other}/quality_hd/segment{n % 1000}.m4s"
    expression = f"^https?://h[.]example/film{folder}/quality_(sd|hd|4k)/segment[0-9]{{1,4}}[.](ts|m4s)$"
    token = sealed({"cdniuc": "regex:" + expression, "exp": EXPIRY})
    return f"{MOMENT} {uri}?URISigningPackage={token}"


def lines_of(count):
    halves = line_with_nonce, line_with_expression
    return "".join(halves[n % 2](n // 2) + "\n" for n in range(count)).encode()


class Checker:
    """A plain checker of such lines."""

    def __init__(self, conf):
        self.secrets = {key["kid"]: from_b64u(key["secret"]) for key in conf["keys"]}
        self.room = conf["room"]
        self.held = {}

    def verdict(self, line):
        moment, uri = line.split(" ")
        moment = int(moment)
        if urllib.parse.urlsplit(uri).scheme not in ("http", "https"):
            return "denied 1 Uri"
        content, found, token = uri.partition("?URISigningPackage=")
        if not found:
            return "denied 2 Missing"
        parts = token.split(".")
        if len(parts) != 3:
            return "denied 3 Package"
        header = json.loads(from_b64u(parts[0]))
        if header.get("alg") != "HS256":
            return "denied 4 Header"
        secret = self.secrets.get(header.get("kid"))
        signed = token[:token.rindex(".")].encode()
        if secret is None or not hmac.compare_digest(
                b64u(hmac.digest(secret, signed, hashlib.sha256)), parts[2]):
            return "denied 5 Signature"
        claims = json.loads(from_b64u(parts[1]))
        if "exp" in claims and claims["exp"] <= moment:
            return "denied 13 Expired"
        kind, _, rest = claims["cdniuc"].partition(":")
        met = rest == segment(content) if kind == "hash" else re.search(rest, content)
        if not met:
            return "denied 15 Container"
        return self.with_nonce(claims, content, moment)

    def with_nonce(self, claims, content, moment):
        if "jti" in claims:
            nonce = claims["jti"], content
            if self.held.get(nonce, 0) > moment:
                return "denied 17 Seen"
            if len(self.held) >= self.room:
                return "denied 18 Room"
            self.held[nonce] = claims.get("exp", 2 ** 53)
        return "admitted " + content

    def check(self, text):
        lines = text.decode().splitlines()
        return "".join(f"{n} {self.verdict(line)}\n" for n, line in enumerate(lines, 1)).encode()


def of_program(program, folder):
    """Seconds, the peak of memory in bytes, and the verdicts: the least of some rounds."""
    names = [os.path.join(folder, name) for name in ("conf.json", "lines.txt", "verdicts.txt")]
    rounds = []
    for _ in range(ROUNDS):
        done = subprocess.run([sys.executable, "-I", "-S", "-c", MEASURE, program, *names],
                              capture_output=True, text=True, check=True)
        took, peak, status = done.stdout.split()
        if status not in ("0", "1"):
            sys.exit(f"the program ended with status {status}")
        rounds.append((float(took), int(peak)))
    with open(names[2], "rb") as file:
        verdicts = file.read()
    return min(took for took, _ in rounds), max(peak for _, peak in rounds), verdicts


def of_python(conf, text):
    best, verdicts = None, None
    for _ in range(ROUNDS):
        begin = time.perf_counter()
        verdicts = Checker(conf).check(text)
        took = time.perf_counter() - begin
        best = took if best is None else min(best, took)
    return best, verdicts


def compare(ours, theirs):
    if ours == theirs:
        return
    for mine, other in zip(ours.splitlines(), theirs.splitlines()):
        if mine != other:
            sys.exit(f"the verdicts differ: {mine.decode()} by usp, {other.decode()} by Python")
    sys.exit("the verdicts differ in their number")


def measure(program, count, folder):
    conf = {"edge": "e", "scheme": "http",
            "keys": [{"kid": "k1", "issuer": "cp", "secret": b64u(SECRET)}],
            "issuers": ["cp"], "audience": ["e"], "sign_kid": "k1", "room": 65_536}
    text = lines_of(count)
    if len(text) > LONGEST_INPUT:
        sys.exit(f"{len(text)} bytes are more than usp reads")
    with open(os.path.join(folder, "conf.json"), "w", encoding="ascii") as file:
        json.dump(conf, file)
    with open(os.path.join(folder, "lines.txt"), "wb") as file:
        file.write(text)
    own, peak, verdicts = of_program(program, folder)
    python, other = of_python(conf, text)
    compare(verdicts, other)
    denied = verdicts.count(b" denied ")
    print(f"{count:,} lines of {len(text):,} bytes, {denied:,} of them denied; the verdicts agree")
    print(f"usp check   {count / own:10,.0f} lines/s {own / count * 1e6:8.1f} us a line")
    print(f"Python      {count / python:10,.0f} lines/s {python / count * 1e6:8.1f} us a line"
          f"   usp takes {own / python:.2f} times as long")
    print(f"usp's peak of memory: {peak:,} bytes, {peak / len(text):.2f} times the input")


def main():
    parser = argparse.ArgumentParser(
        description=__doc__, formatter_class=argparse.RawDescriptionHelpFormatter
    )
    parser.add_argument("program")
    parser.add_argument("count", nargs="?", type=int, default=50_000)
    parser.add_argument("--keep", metavar="FOLDER")
    options = parser.parse_args()
    program = os.path.abspath(options.program)
    if options.keep:
        os.makedirs(options.keep, exist_ok=True)
        measure(program, options.count, options.keep)
        return
    with tempfile.TemporaryDirectory() as folder:
        measure(program, options.count, folder)


if __name__ == "__main__":
    main()
