#!/usr/bin/env python3
"""A share of memory is a share: tenants that take what they can leave a server's memory within its shares and a fifth.

    python3 -m bench.tests.shares [PROGRAM]

PROGRAM is crates/starhost/out/starhost where no word is given. Eight tenants with a share of 16 MB each take memory in four
ways: by a rule that updates all rows at each of its considerations, by many statements of one transaction, by rows with long
texts, and by replies that are kept. Each is answered 91 or 92 in the end, and one beside them has all its lines. Then the first
two commit again, and the third deletes its rows. The first thing that isn't as it is to be ends this with status 1.
"""

import sys
import threading

from bench.harness import Closed, Server, expect, is_unproved, need, program_of

# MB; a program with checks takes other memory and much longer, so its shares are small and its memory isn't compared
SHARE = 2 if is_unproved() else 16
GREEDY = 8
LIMITS = ("no 91 NoMemory", "no 92 NotBegun")
ROWS = ", ".join(f"({number})" for number in range(500))
# a table of 4,000 rows
FILLED = ["create table t (a int)", "begin", *[f"insert into t values {ROWS}"] * 8, "commit"]


def until_limit(client, lines, times):
    """Sends the lines again and again until one is answered that a limit is reached."""
    for _time in range(times):
        for line in lines:
            told = client.ask(line)
            if told in LIMITS:
                return told
    return None


def cascade(client):
    """A rule whose actions trigger it again, so that a commit makes 4,000 changes a thousand times."""
    for line in [*FILLED, "create rule again on t when updated then update t set a = a + 1", "begin", "update t set a = a + 1"]:
        client.ask(line)
    expect("a cascade", client.ask("commit"), "no 91 NoMemory")


def long_transaction(client):
    """A transaction of many statements."""
    for line in [*FILLED, "begin"]:
        client.ask(line)
    need(until_limit(client, ["update t set a = a + 1"], 1000), "a long transaction has no limit")


def long_texts(client):
    """Rows of long texts, in one transaction after another."""
    client.ask(f"create table w ({', '.join(f'c{at} text' for at in range(8))})")
    row = ", ".join(f"'{letter * 250}'" for letter in "abcdefgh")
    need(until_limit(client, ["begin", f"insert into w values ({row})", "commit"], 20_000), "rows have no limit")


def long_replies(client):
    """Selects of many rows."""
    for line in FILLED:
        client.ask(line)
    need(until_limit(client, ["begin", "select a, a, a, a from t", "commit"], 10_000), "replies have no limit")


WAYS = (cascade, long_transaction, long_texts, long_replies)


def take(server, tenant, failed):
    """Has a tenant take memory in one of the ways."""
    try:
        with server.client(f"{tenant} 0") as client:
            WAYS[tenant % len(WAYS)](client)
    except (Closed, SystemExit) as why:
        failed.append(f"tenant {tenant}: {why}")


def main():
    program = program_of(sys.argv[1:])
    server = Server(program, "--tenants", str(GREEDY + 1), "--tenant-memory", str(SHARE), "--status", "0")
    try:
        before, failed = server.memory(), []
        takers = [threading.Thread(target=take, args=(server, tenant, failed)) for tenant in range(GREEDY)]
        for taker in takers:
            taker.start()
        with server.client(f"{GREEDY} 0") as client:
            for line, told in (("create table t (a int)", "ok"), ("begin", "ok"), ("insert into t values (1)", "ok 1"), ("commit", "done 0")):
                expect("a tenant beside greedy ones", client.ask(line), told)
        for taker in takers:
            taker.join()
        need(not failed, "; ".join(failed))
        most = server.peak_memory() - before
        need(is_unproved() or most <= 1.2 * GREEDY * SHARE * 1024, f"{most:,} KB more than before, where all shares are {GREEDY * SHARE * 1024:,}")
        server.end_well()
        print(f"{GREEDY} tenants with a share of {SHARE} MB that take what they can: {most:,} KB at most")
    finally:
        Server.kill_all()


if __name__ == "__main__":
    main()
