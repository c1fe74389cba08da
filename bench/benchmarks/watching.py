#!/usr/bin/env python3
"""What it costs that a server can be watched, in instructions (valgrind counts them, whatever else the machine does).

    python3 -m bench.benchmarks.watching [PROGRAM]

PROGRAM is crates/starhost/out/starhost where no word is given. Printed are, for one client that sends one line at a time,
the instructions of a transaction that inserts a row: with lines that nobody times (`--slow 0`), as the program is without
words, and with a status port at which nobody looks. And those of a scrape of `/metrics`, of a host with one tenant that
was opened and with 256.
"""

import contextlib
import re
import socket
import subprocess
import sys
import urllib.request

from bench.harness import program_of

FEW, MANY = 300, 1_300
WAYS = {"with --slow 0": ["--slow", "0"], "without words": [], "with --status": ["--status", "0"]}


class Server:
    """A server of one worker, whose instructions are counted until it stops."""

    def __init__(self, program, words):
        counted = ["valgrind", "--tool=callgrind", "--callgrind-out-file=/dev/null", program]
        words = [*counted, "serve", "--port", "0", "--workers", "1", "--cells", "1", *words]
        self.process = subprocess.Popen(words, stdin=subprocess.DEVNULL, stdout=subprocess.PIPE, stderr=subprocess.PIPE, text=True)
        self.port = int(self.process.stdout.readline().split()[-1])
        self.status = self.logged_port() if "--status" in words else None

    def logged_port(self):
        """The port of its pages, which the log tells among valgrind's lines."""
        for line in self.process.stderr:
            if found := re.search(r"status pages at port (\d+)", line):
                return int(found[1])
        sys.exit("no status port is told")

    @contextlib.contextmanager
    def session(self, tenant):
        """A function that sends a line of this tenant's first session, and gives the reply."""
        with socket.create_connection(("127.0.0.1", self.port)) as stream, stream.makefile("rb") as replies:

            def ask(line):
                stream.sendall(line.encode() + b"\n")
                return replies.readline()

            ask(f"{tenant} 0")
            yield ask

    def stop(self):
        """Stops it: how many instructions it took."""
        self.process.terminate()
        told = self.process.communicate()[1]
        return int(re.search(r"Collected : (\d+)", told)[1])


def transactions(program, words, times):
    """The instructions of a server for so many transactions."""
    server = Server(program, words)
    with server.session(0) as ask:
        ask("create table t (a int, b int)")
        for at in range(times):
            told = ask("begin"), ask(f"insert into t values ({at}, {at % 97})"), ask("commit")
            if told != (b"ok\n", b"ok 1\n", b"done 0\n"):
                sys.exit(f"transaction {at} is answered {told}")
    return server.stop()


def scrapes(program, tenants, times):
    """The instructions of a server for so many scrapes of a host with so many tenants."""
    server = Server(program, ["--status", "0", "--tenants", "256"])
    for tenant in range(tenants):
        with server.session(tenant) as ask:
            ask("create table t (a int)")
    for _ in range(times):
        with urllib.request.urlopen(f"http://127.0.0.1:{server.status}/metrics") as page:
            page.read()
    return server.stop()


def main():
    program = program_of(sys.argv[1:])
    plain = None
    for way, words in WAYS.items():
        each = (transactions(program, words, MANY) - transactions(program, words, FEW)) / (MANY - FEW)
        plain = plain or each
        print(f"a transaction {way}: {each:,.0f} instructions, {each / plain:.3f}", flush=True)
    for tenants in (1, 256):
        each = (scrapes(program, tenants, 12) - scrapes(program, tenants, 2)) / 10
        print(f"a scrape of {tenants} tenants: {each:,.0f} instructions", flush=True)


main()
