#!/usr/bin/env python3
"""Times a server with a journal beside one without, and Redis with an append-only file beside both.

    python3 -m bench.benchmarks.journal_rates [PROGRAM] [--folder FOLDER] [--lines N] [--start LINES]

PROGRAM is crates/starhost/out/starhost where no word is given; FOLDER is where the journals lie (a temporary one, whose
disk is measured, too: how many syncs of a few bytes it does in a second). Each load is made of N lines (64,000), or eight
times as many where no line waits for a sync, transactions of one insert and its delete, so that nothing grows but the
trail:

- one line at a time over one connection: lines per second;
- 64 lines in flight over one connection, and over sixteen connections of as many tenants.

Redis (Debian: redis-server) gets `set` and `get` in the same way, where it is there. Then the time of a start with a
journal of so many LINES (1,000,000).
"""

import argparse
import os
import shutil
import subprocess
import sys
import tempfile
import threading
import time

from bench.harness import BUILT, Server, connect, free_port

TURN = [b"begin\n", b"insert into t values (1)\n", b"delete from t\n", b"commit\n"]
REDIS = [b"set a 1\r\n", b"set a 2\r\n", b"set a 3\r\n", b"set a 4\r\n"]


class Starhost(Server):
    def __init__(self, program, *words):
        super().__init__(program, "--tenants", "16", "--cells", "4", "--workers", "4", *words)
        self.lines = TURN

    def session(self, tenant):
        stream = connect(self.port)
        say(stream, b"%d 0\ncreate table t (a int)\n" % tenant, 2)
        return stream

    def stop(self):
        self.end_well()


class Redis:
    def __init__(self, folder, *words):
        self.port = free_port()
        words = ["redis-server", "--port", str(self.port), "--bind", "127.0.0.1", "--dir", folder, "--save", "", *words]
        self.process = subprocess.Popen(words, stdout=subprocess.DEVNULL, stderr=subprocess.DEVNULL)
        for _ in range(200):
            try:
                connect(self.port).close()
                break
            except ConnectionRefusedError:
                time.sleep(0.02)
        self.lines = REDIS

    def session(self, _tenant):
        return connect(self.port)

    def stop(self):
        self.process.terminate()
        self.process.wait()


def count_replies(server, text):
    # Redis answers `get` by two lines
    return text.count(b"\n") if isinstance(server, Starhost) else text.count(b"\r\n") - text.count(b"$")


def say(stream, lines, replies):
    stream.sendall(lines)
    while replies > 0:
        part = stream.recv(65536)
        if not part:
            sys.exit("the server closed a connection")
        replies -= part.count(b"\n")


def one_at_a_time(server, lines):
    stream = server.session(0)
    start = time.perf_counter()
    for at in range(lines):
        stream.sendall(server.lines[at % 4])
        stream.recv(256)
    return lines / (time.perf_counter() - start)


def in_flight(server, stream, lines, most=64):
    half = most // 2
    part = b"".join(server.lines) * (half // 4)
    stream.sendall(part + part)
    sent, answered = 2 * half, 0
    while answered < lines:
        answered += count_replies(server, stream.recv(65536))
        while sent - answered <= half and sent < lines:
            stream.sendall(part)
            sent += half


def at_once(server, connections, lines):
    streams = [server.session(tenant) for tenant in range(connections)]
    threads = [threading.Thread(target=in_flight, args=(server, stream, lines // connections)) for stream in streams]
    start = time.perf_counter()
    for thread in threads:
        thread.start()
    for thread in threads:
        thread.join()
    return lines // connections * connections / (time.perf_counter() - start)


def syncs(folder, seconds=1.0):
    """How many times a second a few bytes are brought to this folder's disk."""
    with tempfile.TemporaryFile(dir=folder) as file:
        start, count = time.perf_counter(), 0
        while time.perf_counter() - start < seconds:
            os.pwrite(file.fileno(), b"x" * 100, count * 100)
            os.fdatasync(file.fileno())
            count += 1
    return count / seconds


def measure(name, make, lines):
    rates = []
    for load in (lambda s: one_at_a_time(s, lines // 20), lambda s: at_once(s, 1, lines), lambda s: at_once(s, 16, lines)):
        server = make()
        rates.append(load(server))
        server.stop()
    print(f"{name:28} {rates[0]:12,.0f} {rates[1]:12,.0f} {rates[2]:12,.0f}", flush=True)


def start_of(program, folder, lines):
    file = os.path.join(folder, "long")
    server = Starhost(program, "--journal", file, "--sync", "never")
    at_once(server, 16, lines)
    server.stop()
    begun = time.perf_counter()
    server = Starhost(program, "--journal", file)
    seconds = time.perf_counter() - begun
    server.stop()
    print(f"a start with {lines:,} lines, {os.path.getsize(file):,} bytes: {seconds:.2f} s")


def main():
    words = argparse.ArgumentParser(description=__doc__, formatter_class=argparse.RawDescriptionHelpFormatter)
    words.add_argument("program", nargs="?", default=BUILT)
    words.add_argument("--folder")
    words.add_argument("--lines", type=int, default=64_000)
    words.add_argument("--start", type=int, default=1_000_000)
    words = words.parse_args()
    with tempfile.TemporaryDirectory(dir=words.folder) as room:
        numbers = iter(range(1000))
        print(f"the disk: {syncs(room):,.0f} syncs a second")
        print(f"{'lines a second':28} {'one by one':>12} {'64 in flight':>12} {'16 times 64':>12}")
        many = 8 * words.lines
        measure("no journal", lambda: Starhost(words.program), many)
        for sync, lines in (("never", many), ("second", many), ("always", words.lines)):
            measure(f"--sync {sync}", lambda: Starhost(words.program, "--journal", f"{room}/{next(numbers)}", "--sync", sync), lines)
        if shutil.which("redis-server"):
            measure("Redis, no file", lambda: Redis(room), many)
            for sync, lines in (("no", many), ("everysec", many), ("always", words.lines)):
                measure(f"Redis, appendfsync {sync}", lambda: Redis(room, "--appendonly", "yes", "--appendfilename", f"{next(numbers)}.aof", "--appendfsync", sync), lines)
        start_of(words.program, room, words.start)


if __name__ == "__main__":
    main()
