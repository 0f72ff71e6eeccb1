#!/usr/bin/env python3
"""Requests a second on one connection: the built program, and Python's own modules, in one run.

Each connection brings 100 requests for segments, with the fields that players send: admitted with an object of 1,024
bytes, admitted with a nonce, renewed, sent on, and denied since the token expired. It is served from memory. Python
does the same work with `http.client`, `hmac`, `json` and `re`: it parses the head, verifies the token, looks at its
times, finds the container in the URI, and joins the reply; the new token of the renewed and of those sent on is sealed
as well. It does less: it checks no grammar of URIs or claims, and keeps no nonces in order of time.
Build the program first: `rt run` in crates/usp_bench_edge. Usage: bench/edge_rate.py PROGRAM [COUNT]
PROGRAM is the built usp_bench_edge. No test depends on a time.
"""
import base64
import hashlib
import hmac
import http.client
import io
import json
import re
import subprocess
import sys
import time

ROUNDS = 5
HEADS = 100
MOMENT = 1000
OBJECT = b"x" * 1024
OWN = b"\1" * 32
ROUTE = b"\2" * 32


def b64u(data):
    return base64.urlsafe_b64encode(data).rstrip(b"=").decode()


def sealed(kid, secret, claims):
    head = json.dumps({"alg": "HS256", "kid": kid}, separators=(",", ":"))
    body = json.dumps(claims, separators=(",", ":"))
    text = b64u(head.encode()) + "." + b64u(body.encode())
    return text + "." + b64u(hmac.new(secret, text.encode(), hashlib.sha256).digest())


CONF = json.dumps({
    "edge": "e",
    "scheme": "http",
    "keys": [{"kid": "k1", "issuer": "cp", "secret": b64u(OWN)}],
    "issuers": ["cp"],
    "audience": ["e"],
    "sign_kid": "k1",
    "routes": [{
        "prefix": "/b/", "scheme": "https", "authority": "b.example", "kid": "kb", "issuer": "cp",
        "secret": b64u(ROUTE), "audience": "f",
    }],
}, separators=(",", ":"))

CLAIMS = {"iss": "cp", "exp": 2000, "nbf": 900, "cdniuc": "regex:^https?://[^/]*/"}
KINDS = [
    ("admitted", "/film", lambda n: CLAIMS),
    ("with a nonce", "/film", lambda n: CLAIMS | {"jti": f"n{n}"}),
    ("renewed", "/film", lambda n: CLAIMS | {"cdnistt": 1, "cdniets": 30, "cdnistd": 1}),
    ("sent on", "/b/film", lambda n: CLAIMS),
    ("denied", "/film", lambda n: CLAIMS | {"exp": 990}),
]

HEAD = (
    "GET {path}/segment-{n}.m4s?URISigningPackage={token} HTTP/1.1\r\n"
    "Host: h\r\n"
    "User-Agent: ExoPlayerLib/2.18.1\r\n"
    "Accept-Encoding: identity\r\n"
    "Connection: Keep-Alive\r\n"
    "\r\n"
)


def stream(path, claims):
    heads = (HEAD.format(path=path, n=n, token=sealed("k1", OWN, claims(n))) for n in range(HEADS))
    return "".join(heads).encode()


def of_program(program, text, count):
    """Seconds a request: the least of some rounds, without the start of the program."""
    def took(n):
        begin = time.perf_counter()
        done = subprocess.run(
            [program, str(n)], input=CONF.encode() + b"\n" + text, check=True, capture_output=True
        )
        if done.stdout.split()[0] != str(n * HEADS).encode():
            sys.exit("the program did not note the requests")
        return time.perf_counter() - begin
    return min(took(count) - took(0) for _ in range(ROUNDS)) / (count * HEADS)


def answer(target, seen):
    path, token = target.split("?URISigningPackage=")
    head, payload, mac = token.split(".")
    want = hmac.new(OWN, f"{head}.{payload}".encode(), hashlib.sha256).digest()
    if not hmac.compare_digest(b64u(want), mac):
        return b"HTTP/1.1 403 Forbidden\r\nContent-Length: 0\r\n\r\n"
    claims = json.loads(base64.urlsafe_b64decode(payload + "=" * (-len(payload) % 4)))
    uri = "http://h" + path
    if not claims["nbf"] <= MOMENT < claims["exp"] or not re.search(claims["cdniuc"][6:], uri):
        return b"HTTP/1.1 403 Forbidden\r\nContent-Length: 0\r\n\r\n"
    if "jti" in claims:
        if (claims["jti"], uri) in seen:
            return b"HTTP/1.1 403 Forbidden\r\nContent-Length: 0\r\n\r\n"
        seen.add((claims["jti"], uri))
    if path.startswith("/b/"):
        location = f"https://b.example{path}?URISigningPackage={sealed('kb', ROUTE, claims)}"
        return f"HTTP/1.1 302 Found\r\nContent-Length: 0\r\nLocation: {location}\r\n\r\n".encode()
    field = ""
    if claims.get("cdnistt") == 1:
        token = sealed("k1", OWN, claims | {"exp": MOMENT + claims["cdniets"]})
        field = f"Set-Cookie: URISigningPackage={token}; Path=/film\r\n"
    return f"HTTP/1.1 200 OK\r\nContent-Length: 1024\r\n{field}\r\n".encode() + OBJECT


def of_python(text, count):
    best = None
    for _ in range(ROUNDS):
        begin = time.perf_counter()
        for _ in range(count):
            lines = io.BytesIO(text)
            seen = set()
            written = []
            for _ in range(HEADS):
                _method, target, _version = lines.readline().split()
                http.client.parse_headers(lines)
                written.append(answer(target.decode(), seen))
        took = time.perf_counter() - begin
        best = took if best is None else min(best, took)
    return best / (count * HEADS)


def main():
    if len(sys.argv) < 2:
        sys.exit(__doc__)
    count = int(sys.argv[2]) if len(sys.argv) > 2 else 200
    for name, path, claims in KINDS:
        text = stream(path, claims)
        python = of_python(text, max(1, count // 20))
        own = of_program(sys.argv[1], text, count)
        print(f"{name:14} {1 / own:10,.0f} requests/s, {python / own:5.1f} times Python's {1 / python:8,.0f}")


if __name__ == "__main__":
    main()
