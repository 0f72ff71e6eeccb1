#!/usr/bin/env python3
"""Requests a second that `usp edge` serves over TCP on loopback, and its processor time for each, beside nginx.

An object of 1,024 bytes is asked for with a token whose container is an expression, on connections that stay open
(`usp` closes each after a hundred requests) and on a fresh one for each request, with 1, 2 and 4 workers. The peer is
nginx with as many worker processes, which serves the same file without any check, in the same run. The load comes from
`wrk`, or from `ab` for the fresh connections, where there is one; else from processes of this script. There are as many
connections at a time as `usp` has workers, since it serves no more of them.

Build the program first: `rt run` in crates/usp. Usage: bench/edge_served.py PROGRAM [--seconds N] [--nginx NGINX]
[--wrk WRK] [--ab AB] [--words WORDS]
PROGRAM is the built usp (crates/usp/out/usp). WORDS are those in front of CONF, `edge` where they are left out. No test
depends on a time.
"""
import argparse
import base64
import hashlib
import hmac
import http.client
import json
import multiprocessing
import os
import pathlib
import re
import resource
import shutil
import signal
import socket
import subprocess
import sys
import tempfile
import time

OBJECT = bytes(range(256)) * 4
SECRET = bytes([1]) * 32
CLAIMS = {"exp": 4_102_444_800, "cdniuc": "regex:^http://127[.]0[.]0[.]1:[0-9]+/film/segment[0-9]+[.]ts"}
PATH = "/film/segment001.ts"
MOST_CONNECTIONS = 100_000
TICKS = os.sysconf("SC_CLK_TCK")
NGINX_CONF = """
daemon off; pid {folder}/nginx.pid; error_log {folder}/error.log crit; worker_processes {workers};
events {{ worker_connections 256; }}
http {{
    access_log off; keepalive_requests 1000000; sendfile on; tcp_nopush off; tcp_nodelay on;
    client_body_temp_path {folder}/t1; proxy_temp_path {folder}/t2; fastcgi_temp_path {folder}/t3;
    uwsgi_temp_path {folder}/t4; scgi_temp_path {folder}/t5;
    server {{ listen 127.0.0.1:{port}; root {folder}/files; }}
}}
"""


def b64u(data):
    return base64.urlsafe_b64encode(data).rstrip(b"=").decode()


def signed(port):
    """The target of a request, with a token over the claims under HS256 (RFC 7515)."""
    text = b64u(b'{"alg":"HS256","kid":"k1"}') + "." + b64u(json.dumps(CLAIMS, separators=(",", ":")).encode())
    return f"{PATH}?URISigningPackage={text}.{b64u(hmac.digest(SECRET, text.encode(), hashlib.sha256))}"


def lay_out(folder):
    # nginx reads as nobody where it is started as root.
    os.chmod(folder, 0o755)
    file = pathlib.Path(folder, "files", *PATH.split("/"))
    file.parent.mkdir(parents=True)
    file.write_bytes(OBJECT)
    conf = {
        "edge": "e", "scheme": "http", "keys": [{"kid": "k1", "issuer": "cp", "secret": b64u(SECRET)}],
        "issuers": ["cp"], "audience": ["e"], "sign_kid": "k1",
    }
    pathlib.Path(folder, "conf.json").write_text(json.dumps(conf))


def free_port():
    with socket.socket() as probe:
        probe.bind(("127.0.0.1", 0))
        return probe.getsockname()[1]


def seconds_of(pids):
    """The processor time of some processes: user and system."""
    total = 0
    for pid in pids:
        fields = pathlib.Path(f"/proc/{pid}/stat").read_text().rsplit(")", 1)[1].split()
        total += int(fields[11]) + int(fields[12])
    return total / TICKS


def children_of(pid):
    text = pathlib.Path(f"/proc/{pid}/task/{pid}/children").read_text()
    return [int(child) for child in text.split()]


class Server:
    """A server, from when it can be reached until it is stopped."""

    def __init__(self, command, port):
        self.process = subprocess.Popen(command, stdout=subprocess.DEVNULL)
        self.port = port
        for _ in range(200):
            with socket.socket() as probe:
                if probe.connect_ex(("127.0.0.1", port)) == 0:
                    return
            time.sleep(0.05)
        sys.exit(f"{command[0]} cannot be reached")

    def __enter__(self):
        return self

    def __exit__(self, *_):
        self.process.send_signal(signal.SIGTERM)
        self.process.wait()

    def seconds(self):
        return seconds_of([self.process.pid, *children_of(self.process.pid)])


def usp(options, folder, port, workers):
    conf = os.path.join(folder, "conf.json")
    files = os.path.join(folder, "files")
    words = [conf, f"127.0.0.1:{port}", str(workers), str(MOST_CONNECTIONS), files]
    return Server([options.program, *options.words.split(), *words], port)


def nginx(options, folder, port, workers):
    conf = os.path.join(folder, "nginx.conf")
    pathlib.Path(conf).write_text(NGINX_CONF.format(folder=folder, port=port, workers=workers))
    return Server([options.nginx, "-p", folder, "-e", os.path.join(folder, "error.log"), "-c", conf], port)


def ask_until(end, port, target, fresh, counts):
    """Asks one request after the other, and counts the answers."""
    count = 0
    connection = http.client.HTTPConnection("127.0.0.1", port)
    fields = {"Connection": "close"} if fresh else {}
    while time.perf_counter() < end:
        connection.request("GET", target, headers=fields)
        reply = connection.getresponse()
        if reply.read() != OBJECT or reply.status != 200:
            sys.exit(f"status {reply.status}")
        count += 1
    counts.put(count)


def by_processes(options, port, target, workers, fresh):
    counts = multiprocessing.Queue()
    end = time.perf_counter() + options.seconds
    clients = [
        multiprocessing.Process(target=ask_until, args=(end, port, target, fresh, counts)) for _ in range(workers)
    ]
    for client in clients:
        client.start()
    total = sum(counts.get() for _ in clients)
    for client in clients:
        client.join()
    return total


def by_wrk(options, port, target, workers, fresh):
    command = [options.wrk, "-t", str(min(workers, 2)), "-c", str(workers), "-d", f"{options.seconds}s"]
    if fresh:
        command += ["-H", "Connection: close"]
    text = subprocess.run(
        [*command, f"http://127.0.0.1:{port}{target}"], check=True, capture_output=True, text=True
    ).stdout
    if "Non-2xx" in text:
        sys.exit(text)
    return int(re.search(r"(\d+) requests in", text)[1])


def by_ab(options, port, target, workers, fresh):
    command = [options.ab, "-q", "-t", str(options.seconds), "-n", "10000000", "-c", str(workers)]
    if not fresh:
        command.append("-k")
    text = subprocess.run(
        [*command, f"http://127.0.0.1:{port}{target}"], check=True, capture_output=True, text=True
    ).stdout
    if "Non-2xx" in text:
        sys.exit(text)
    return int(re.search(r"Complete requests:\s+(\d+)", text)[1])


def load_of(options, fresh):
    """`wrk` does not see that a server closes a connection behind each reply as anything but an error."""
    if options.wrk and not fresh:
        return "wrk", by_wrk
    if options.ab and fresh:
        return "ab", by_ab
    return "this script", by_processes


def measure(options, start, target_of, workers, fresh):
    with tempfile.TemporaryDirectory() as folder:
        lay_out(folder)
        port = free_port()
        with start(options, folder, port, workers) as server:
            _, load = load_of(options, fresh)
            before, begin = server.seconds(), time.perf_counter()
            count = load(options, port, target_of(port), workers, fresh)
            took = time.perf_counter() - begin
            return count / took, (server.seconds() - before) / count * 1e6


def main():
    parser = argparse.ArgumentParser(usage=__doc__)
    parser.add_argument("program")
    parser.add_argument("--seconds", type=int, default=5)
    parser.add_argument("--nginx", default=shutil.which("nginx"))
    parser.add_argument("--wrk", default=shutil.which("wrk"))
    parser.add_argument("--ab", default=shutil.which("ab"))
    parser.add_argument("--words", default="edge")
    options = parser.parse_args()
    rows = [("usp", usp, signed)]
    if options.nginx:
        rows.append(("nginx", nginx, lambda _port: PATH))
    for fresh in (False, True):
        kind = "fresh connections" if fresh else "keep-alive"
        print(f"{kind}, by {load_of(options, fresh)[0]}")
        for workers in (1, 2, 4):
            for name, start, target_of in rows:
                rate, micros = measure(options, start, target_of, workers, fresh)
                costs = f"{micros:8.1f} us of processor a request"
                print(f"  {workers} {name:6} {rate:10,.0f} requests/s {costs}", flush=True)


if __name__ == "__main__":
    resource.setrlimit(resource.RLIMIT_NOFILE, (4096, resource.getrlimit(resource.RLIMIT_NOFILE)[1]))
    main()
