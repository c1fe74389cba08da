#!/usr/bin/env python3
"""A server that lacks memory lives on, and only whoever asks is refused. One that lacks threads ends.

    python3 -m bench.tests.starved_server [PROGRAM] [--many N]

PROGRAM is crates/starhost/out/starhost where no word is given. Four trials, each told in one line:

- each request for memory of a start is refused in turn: the server serves, or ends for want of memory or of a thread;
- each of N requests for memory (200, evenly spread) of a server is refused in turn while six clients are at work: it
  answers afterwards, ends well with status 0, and at most the connection whose request it was is closed, or the line is
  answered 91 or 92;
- all requests from the Nth on are refused for a while: the same, and who comes afterwards is served;
- a greedy tenant under a limit of the process's memory (`ulimit -v`): the others' sessions stay, and with
  --tenant-memory they are not even answered 91 or 92;
- a server gets each number of its threads and no more: it ends within seconds and tells why, whatever else it does
  while it serves (`--keys`, `--dump-to`).

It needs `cc`, which compiles refuse.c of bench/harness.
"""

import argparse
import hashlib
import os
import re
import subprocess
import tempfile
import time

from bench.harness import BUILT, Client, Closed, Server, fail, library, need

SCRIPT = [
    "create table t (a int, b text)", "create rule r on t when inserted then update t set a = a + 1 where a < 3", "begin",
    "insert into t values (1, 'x'), (2, 'y')", "select * from t", "commit", "begin", "insert into t select a, b from t", "rollback",
]
# how long something may take on a busy machine, in seconds
PATIENCE = 120
SHORT = ("no 91 NoMemory", "no 92 NotBegun")
# those of a server with four workers
THREADS = 5


def starved(program, *words, refuses=None, room=None, **refused):
    """A server whose requests for memory are refused by a library, or by a limit of its process."""
    shape = ["--tenants", "16", "--cells", "4", "--workers", "4"]
    return Server(program, *shape, *words, library=refuses, bytes_of_memory=room, **refused)


def visitor(server, tenant):
    """A client of a session of the tenant, whether it is opened or not."""
    if server.port is None:
        raise ConnectionRefusedError
    return Client(server.port, f"{tenant} 0", patience=PATIENCE)


def work(server, clients=6):
    """Lets some clients do their script by turns; how many were closed, and how many lines lacked memory."""
    closed = short = 0
    there = []
    for tenant in range(clients):
        try:
            client = visitor(server, tenant)
            if client.told == "ok":
                there.append(client)
            else:
                need(client.told in SHORT, f"a first line is answered {client.told}")
                short += 1
        except Closed:
            closed += 1
    for line in SCRIPT:
        for client in [*there]:
            try:
                short += client.ask(line) in SHORT
            except Closed:
                closed += 1
                there.remove(client)
    for client in there:
        client.close()
    return closed, short


def requests_of(server):
    """How many requests a server made that is told to end, and ends well."""
    status, last, log = server.end()
    need(status == 0 and last.startswith("trails 16 steps"), f"status {status}: {log[-300:]}")
    return int(log.split(" requests")[0].split()[-1])


def count_requests(program, refuses):
    """How many requests a run without refusals makes."""
    server = starved(program, refuses=refuses)
    need(work(server) == (0, 0), "a run without refusals lacks something")
    return requests_of(server)


def is_served(server):
    try:
        client = visitor(server, 15)
        served = client.told == "ok" and client.ask("begin") == "ok"
        client.close()
        return served
    except Closed:
        return False


def answers_afterwards(server, what):
    # the one request that is refused may be the first one's
    need(is_served(server) or is_served(server), f"{what}: a client that comes afterwards isn't served")


def one_by_one(program, refuses, requests, many):
    refused = 0
    for at in range(many):
        number = 1 + at * requests // many
        server = starved(program, refuses=refuses, REFUSED=number)
        try:
            closed, short = work(server)
        except ConnectionRefusedError:  # it has told why, before it served anybody
            status, _, log = server.end()
            need(status == 1 and "fault: " in log and "attached" not in log, f"request {number}: status {status}: {log[-300:]}")
            continue
        need(closed <= 1 and closed + short <= 2, f"request {number}: {closed} connections closed, {short} lines refused")
        answers_afterwards(server, f"request {number}")
        status, last, log = server.end()
        need(status == 0 and last.startswith("trails 16 steps"), f"request {number}: status {status}: {log[-300:]}")
        refused += closed + short
    print(f"each of {many} requests refused in turn: the server lives, {refused} connections or lines felt it")


def for_a_while(program, refuses, requests):
    for share in (0.3, 0.6, 0.9):
        first = int(requests * share)
        server = starved(program, refuses=refuses, REFUSED=first, UNTIL=first + 300)
        until = time.time() + PATIENCE
        while time.time() < until:
            closed, short = work(server)
            if closed == short == 0:
                break
        need(closed == short == 0, f"from request {first} on: it doesn't recover")
        answers_afterwards(server, f"from request {first} on")
        status, last, log = server.end()
        need(status == 0 and last.startswith("trails 16 steps"), f"from request {first} on: status {status}: {log[-300:]}")
    print("300 requests refused one after another: the server lives, and serves who comes afterwards")


def greedy(program):
    """A tenant that selects its largest rows again and again, beside one that goes on working."""
    for words, may_lack in (((), True), (("--tenant-memory", "100"), False)):
        server = starved(program, *words, room=700_000_000)
        other = visitor(server, 1)
        other.ask("create table t (a int)")
        eater = visitor(server, 0)
        eater.ask("create table big (a text, b text, c text, d text)")
        eater.ask("begin")
        eater.ask("insert into big values ('%s', '%s', '%s', '%s')" % (("x" * 250,) * 4))
        for _ in range(10):
            eater.ask("insert into big select a, b, c, d from big")
        lacks = 0
        until = time.time() + 3 * PATIENCE
        refused = 0
        while refused < 20 and time.time() < until:
            refused += eater.ask("select * from big") in SHORT + ("no 42 NoTransaction",)
            for line in ("begin", "insert into t values (1)", "rollback"):
                lacks += other.ask(line) in SHORT
        need(refused == 20, "the greedy tenant is never refused")
        need(may_lack or lacks == 0, f"another tenant lacked memory {lacks} times")
        third = visitor(server, 2)
        need(may_lack or third.told == "ok", f"a new client is answered {third.told}")
        for client in (eater, other, third):
            client.close()
        status, last, log = server.end()
        need(status == 0 and last.startswith("trails 16 steps"), f"status {status}: {log[-300:]}")
        print(f"a greedy tenant under a cap{' and --tenant-memory' if words else ''}: the server lives, another tenant lacked memory {lacks} times")


def end_of(server, what):
    """How a server ends by itself."""
    try:
        return server.end(PATIENCE)
    except subprocess.TimeoutExpired:
        server.kill()
        fail(f"{what}: it hangs")


def few_threads(program, refuses, room):
    """Servers that get some of their threads, all at once, since each waits for its threads for some seconds."""
    keys = f"{room}/keys"
    with open(keys, "w") as file:
        file.write(f"0 {hashlib.sha256(b'key').hexdigest()}\n")
    servers = []
    for threads in range(THREADS + 1):
        files = f"{room}/files{threads}"
        os.mkdir(files)
        kinds = {"plain": [], "keys": ["--keys", keys], "files": ["--dump-to", files]}
        servers += [(kind, threads, starved(program, *words, refuses=refuses, THREADS=threads)) for kind, words in kinds.items()]
    for kind, threads, server in servers:
        what = f"{kind}, {threads} of {THREADS} threads"
        status, last, log = end_of(server, what)
        if threads == THREADS:
            need(status == 0 and last.startswith("trails 16 steps"), f"{what}: status {status}: {log[-300:]}")
        else:
            need(status == 1 and "fault: cannot start a thread\n" in log, f"{what}: status {status}: {log[-300:]}")
    print(f"{len(servers)} servers with some of their threads: each serves, or ends and tells why")


def begins(program, refuses):
    """A server each of whose requests for memory at its start is refused in turn: it serves, or ends and tells that memory
    ran out, or that a thread, which needs memory, can't be started."""
    requests, ended = requests_of(starved(program, refuses=refuses)), 0
    for number in range(1, requests + 1):
        status, last, log = end_of(starved(program, refuses=refuses, REFUSED=number), f"request {number} of a start")
        if status == 0:
            need(last.startswith("trails 16 steps"), f"request {number} of a start: {log[-300:]}")
        else:
            need(status == 1 and re.search("fault: (out of memory|cannot start a thread)\n", log), f"request {number} of a start: status {status}: {log[-300:]}")
            ended += 1
    print(f"each of {requests} requests of a start refused in turn: {ended} servers end and tell why, the others serve")


def main():
    words = argparse.ArgumentParser()
    words.add_argument("program", nargs="?", default=BUILT)
    words.add_argument("--many", type=int, default=200)
    words = words.parse_args()
    with tempfile.TemporaryDirectory() as room:
        refuses = library("refuse", room)
        requests = count_requests(words.program, refuses)
        begins(words.program, refuses)
        one_by_one(words.program, refuses, requests, words.many)
        for_a_while(words.program, refuses, requests)
        few_threads(words.program, refuses, room)
    greedy(words.program)


if __name__ == "__main__":
    main()
