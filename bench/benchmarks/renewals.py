#!/usr/bin/env python3
"""How long clients wait while a tenant is renewed.

    python3 -m bench.benchmarks.renewals [PROGRAM]

PROGRAM is crates/starhost/out/starhost where no word is given. One tenant has 1 table of 4,096 rows of three integers, or 16. A
client of it fills the trail, so that it is renewed by itself twice. Meanwhile a second client of the tenant, and one of another
tenant in the same cell, send a line at a time. For each the longest wait is told, and beside it that of as many lines where nothing
is renewed.
"""

import sys
import threading
import time

from bench.harness import Server, expect, program_of, say

LINES = 2_000_000
AT_ONCE = 8_192


class Pinger(threading.Thread):
    """A client that sends a line at a time, and notes its longest wait in seconds."""

    def __init__(self, server, first, over):
        super().__init__()
        self.client, self.over, self.longest = server.client(first), over, 0.0

    def run(self):
        while not self.over.is_set():
            began = time.monotonic()
            self.client.ask("rollback")
            self.longest = max(self.longest, time.monotonic() - began)
            time.sleep(0.0005)


def filled(server, tables):
    """A client of tenant 0, which has so many full tables."""
    client = server.client("0 0")
    for table in range(tables):
        expect("a table", client.ask(f"create table t{table} (a int, b int, c int)"), "ok")
        client.ask("begin")
        for start in range(0, 4096, 128):
            rows = ", ".join(f"({number}, {number % 7}, {table})" for number in range(start, start + 128))
            expect("rows", client.ask(f"insert into t{table} values {rows}"), "ok 128")
        expect("commit", client.ask("commit"), "done 0")
    return client


def waits(program, tables, renew):
    """The longest waits of another client of the tenant and of one of another tenant, in milliseconds, and the log's renewals."""
    server = Server(program, "--tenants", "2", "--cells", "1", "--workers", "1", "--renew", renew)
    client = filled(server, tables)
    over = threading.Event()
    own, other = Pinger(server, "0 1", over), Pinger(server, "1 0", over)
    own.start()
    other.start()
    lines = b"rollback\n" * AT_ONCE
    most = LINES if renew == "auto" else LINES // 2 - 100_000
    for _part in range(most // AT_ONCE):
        say(client.stream, lines)
    over.set()
    own.join()
    other.join()
    renewals = [line.rsplit(", in ", 1)[1] for line in server.told().splitlines() if "renewed: tenant 0" in line]
    server.end_well()
    return own.longest * 1000, other.longest * 1000, renewals


def main():
    program = program_of(sys.argv[1:])
    try:
        for tables in (1, 16):
            for renew in ("never", "auto"):
                own, other, renewals = waits(program, tables, renew)
                print(f"{tables} tables, {renew}: longest wait of the tenant's other client {own:.0f} ms, of another tenant's {other:.0f} ms; renewals: {', '.join(renewals) or 'none'}")
    finally:
        Server.kill_all()


if __name__ == "__main__":
    main()
