#!/usr/bin/env python3
"""A tenant goes on behind the end of its trail: it is renewed while its clients are served.

    python3 -m bench.tests.volumes [PROGRAM [LINES [SELECTS]]]

PROGRAM is crates/starhost/out/starhost where no word is given. Told in one line each: LINES lines (5,000,000) over one
connection, with rules, refused lines and selects, beside seven other sessions of the tenant that have transactions now and then;
what the server has in memory behind SELECTS selects (10,000) of 4,000 rows, where a tenant has a share of it; sixteen clients
of two tenants that are renewed again and again, and the longest wait of each tenant; a server with a journal that is killed
while its tenants are renewed: each transaction that was answered is there at its next start; and one that starts with a share
below what a tenant has: it is renewed, or its lines aren't begun, and all others go on. The last line of the first three servers
counts the steps of all volumes. The first reply that isn't as it is to be ends this with status 1.
"""

import random
import sys
import tempfile
import threading
import time
import urllib.request

from bench.harness import Closed, Server, expect, need, program_of

SETUP = [
    "create table t (a int)",
    "create table u (a int)",
    "create table w (a int)",
    "create rule copy on t when inserted then insert into u select a from inserted",
]
# lines, and what each is answered. Behind them the tables are what they were.
BLOCK = [
    ("begin", "ok"),
    ("insert into t values (1), (2)", "ok 2"),
    ("commit", "done 1\ncopy true"),
    ("select a from u", "no 42 NoTransaction"),
    ("begin", "ok"),
    ("select a from u where a > 1", "rows 1\n2"),
    ("delete from u", "ok 2"),
    ("delete from t", "ok 2"),
    ("insert into missing values (1)", "no 20 NoTable"),
    ("commit", "done 0"),
    ("begin", "ok"),
    ("insert into t values (3)", "ok 1"),
    ("rollback", "ok"),
]
# so many blocks are sent at once
BLOCKS = 500


def post(server, path):
    """The status of a request by which an operator asks for something."""
    request = urllib.request.Request(f"http://127.0.0.1:{server.status_port}{path}", method="POST")
    with urllib.request.urlopen(request, timeout=60) as answer:
        return answer.status


def prepare(server, first):
    """A client of this session that has made the tables."""
    client = server.client(first)
    expect("its first line", client.told, "ok")
    for line in SETUP:
        expect(line, client.ask(line), "ok")
    return client


def end_counted(server, tenants, connections, sessions, lines):
    """Ends a server that had so many connections and got so many lines behind their first ones. At each renewal so many sessions of
    the tenant were open. The last line counts each step of each volume: a line, and the `open` and the `end` of a session."""
    told, log = server.end_well()
    renewals = sum("renewed: tenant " in line for line in log)
    expect("the last line", told, f"trails {tenants} steps {lines + 2 * connections + 2 * sessions * renewals}")


class Neighbour(threading.Thread):
    """A session that has a transaction now and then. It notes the first reply that is wrong."""

    def __init__(self, server, first, over):
        super().__init__()
        self.client, self.over, self.wrong, self.times = server.client(first), over, None, 0

    def run(self):
        while not self.over.is_set() and self.wrong is None:
            told = [self.client.replies(line) for line in ("begin", "select * from w")]
            time.sleep(random.uniform(0, 0.02))
            told.append(self.client.replies("commit"))
            if told != [["ok"], ["rows 0"], ["done 0"]]:
                self.wrong = told
            self.times += 1
            time.sleep(random.uniform(0, 0.02))


def read_exactly(stream, wanted):
    """Reads as many bytes as are wanted, which have to be these."""
    at = 0
    while at < len(wanted):
        part = stream.recv(1 << 20)
        need(part, "the connection was closed")
        if part != wanted[at : at + len(part)]:
            sys.exit(f"a reply is wrong near {part[:200]!r}")
        at += len(part)


def life(program, lines):
    """Many lines over one connection, and others beside it."""
    server = Server(program, "--tenants", "1", "--cells", "1", "--status", "0", "--renew", "auto")
    client = prepare(server, "0 0")
    over = threading.Event()
    neighbours = [Neighbour(server, f"0 {session}", over) for session in range(1, 8)]
    for neighbour in neighbours:
        neighbour.start()
    sent = "".join(f"{line}\n" for line, _reply in BLOCK * BLOCKS).encode()
    wanted = "".join(f"{reply}\n" for _line, reply in BLOCK * BLOCKS).encode()
    count, began = 0, time.monotonic()
    while count < lines:
        sender = threading.Thread(target=client.stream.sendall, args=(sent,))
        sender.start()
        read_exactly(client.stream, wanted)
        sender.join()
        count += len(BLOCK) * BLOCKS
    took = time.monotonic() - began
    over.set()
    for neighbour in neighbours:
        neighbour.join()
        need(neighbour.wrong is None, f"a neighbour: {neighbour.wrong}")
    renewals = int(server.sample("filgwesha_renewals_total"))
    need(renewals >= count // 1_048_576, f"{renewals} renewals")
    memory = server.memory()
    need(memory < 600_000, f"{memory} KB")
    end_counted(server, 1, 8, 8, len(SETUP) + count + 3 * sum(neighbour.times for neighbour in neighbours))
    print(f"{count:,} lines over one connection in {took:.1f} s, {renewals} renewals, {sum(n.times for n in neighbours)} transactions beside them, {memory:,} KB")


def share(program, selects):
    """Replies that are kept take no more than a tenant's share."""
    server = Server(program, "--tenants", "1", "--cells", "1", "--status", "0", "--renew", "auto", "--tenant-memory", "64")
    client = server.client("0 0")
    for line in ("create table r (a int)", "begin"):
        expect(line, client.ask(line), "ok")
    for start in range(0, 4000, 500):
        values = ", ".join(f"({number})" for number in range(start, start + 500))
        expect("rows", client.ask(f"insert into r values {values}"), "ok 500")
    expect("commit", client.ask("commit"), "done 0")
    before, most = server.memory(), 0
    rows = "".join(f"{number}\n" for number in range(4000))
    wanted = f"ok\nrows 4000\n{rows}done 0\n".encode()
    for _time in range(selects):
        client.send("begin\nselect * from r\ncommit\n")
        read_exactly(client.stream, wanted)
        most = max(most, server.memory())
    after = server.memory() - before
    renewals = int(server.sample("filgwesha_renewals_total"))
    need(selects < 1000 or renewals > 0, "it was never renewed")
    need(after <= 1.2 * 64 * 1024, f"{after} KB more than before")
    end_counted(server, 1, 1, 1, 11 + 3 * selects)
    print(f"{selects:,} selects of 4,000 rows with a share of 64 MB: {after:,} KB more at the end, {most - before:,} KB at most, {renewals} renewals")


class Writer(threading.Thread):
    """A session that counts up in a table of its own. It notes its longest wait, and the first reply that is wrong."""

    def __init__(self, server, tenant, session, over):
        super().__init__()
        self.client, self.over, self.table = server.client(f"{tenant} {session}"), over, f"t{session}"
        self.tenant, self.made, self.lines, self.longest, self.wrong = tenant, 0, 0, 0.0, None

    def run(self):
        try:
            while not self.over.is_set() and self.wrong is None:
                if self.made % 1000 == 999:  # a table has at most 4,096 rows
                    self.empty()
                began = time.monotonic()
                told = [self.ask(line) for line in ("begin", f"insert into {self.table} values ({self.made})", "commit")]
                self.longest = max(self.longest, time.monotonic() - began)
                if told != ["ok", "ok 1", "done 0"]:
                    self.wrong = told
                else:
                    self.made += 1
        except Closed:
            self.wrong = "closed"

    def ask(self, line):
        self.lines += 1
        return self.client.ask(line)

    def empty(self):
        for line in ("begin", f"delete from {self.table}", "commit"):
            self.ask(line)


def writers_of(server, over):
    """Eight sessions of each of two tenants."""
    for tenant in range(2):
        with server.client(f"{tenant} 0") as client:
            for session in range(8):
                client.ask(f"create table t{session} (a int)")
    return [Writer(server, tenant, session, over) for tenant in range(2) for session in range(8)]


def beside(program):
    """Renewals under sixteen clients."""
    server = Server(program, "--tenants", "2", "--cells", "2", "--workers", "2", "--status", "0", "--renew", "auto")
    over = threading.Event()
    writers = writers_of(server, over)
    for writer in writers:
        writer.start()
    for number in range(40):
        expect("a renewal is asked for", post(server, f"/tenants/{number % 2}/renew"), 202)
        time.sleep(0.05)
    over.set()
    for writer in writers:
        writer.join()
        need(writer.wrong is None, f"a client: {writer.wrong}")
    renewals = int(server.sample("filgwesha_renewals_total"))
    need(renewals >= 10, f"{renewals} renewals")
    longest = [max(writer.longest for writer in writers if writer.tenant == tenant) for tenant in range(2)]
    end_counted(server, 2, 18, 8, 16 + sum(writer.lines for writer in writers))
    print(f"sixteen clients, {renewals} renewals: {sum(w.made for w in writers)} transactions, nobody closed; longest waits {longest[0] * 1000:.0f} and {longest[1] * 1000:.0f} ms")


def reached(server, writer):
    """How far a writer's table counts, which has what the writer was answered, in order, and at most one row more."""
    with server.client(f"{writer.tenant} 0") as client:
        client.ask("begin")
        have = [int(row) for row in client.replies(f"select * from {writer.table}")[1:]]
    if not have:  # it was emptied
        need(writer.made % 1000 in (0, 999), f"nothing is left of {writer.made}")
        return writer.made
    need(have == list(range(have[0], have[0] + len(have))), f"rows {have}")
    need(have[-1] + 1 in (writer.made, writer.made + 1), f"{writer.made} were answered, and {have[-1] + 1} are there")
    return have[-1] + 1


def killed(program, times):
    """A journal has what was answered, whatever was renewed meanwhile."""
    with tempfile.TemporaryDirectory() as folder:
        words = ["--tenants", "2", "--cells", "2", "--workers", "2", "--status", "0", "--journal", f"{folder}/journal", "--sync", "never"]
        renewals, writers = 0, []
        for _time in range(times):
            server = Server(program, *words)
            over = threading.Event()
            counts = [reached(server, writer) for writer in writers] or [0] * 16
            writers = writers_of(server, over)
            for writer, count in zip(writers, counts):
                writer.made = count
                writer.start()
            end = time.monotonic() + random.uniform(0.5, 1.5)
            while time.monotonic() < end:
                post(server, f"/tenants/{random.randrange(2)}/renew")
                time.sleep(0.02)
            renewals += int(server.sample("filgwesha_renewals_total"))
            server.kill()
            over.set()
            for writer in writers:
                writer.join()
        server = Server(program, *words)
        for writer in writers:
            reached(server, writer)
        server.end_well()
        need(renewals > 0, "nothing was renewed")
        print(f"{times} kills of a server with a journal, {renewals} renewals: what was answered is there")


def fill(program, words):
    """A server whose tenant 0 takes more than a megabyte, and its tenant 1 little. It is ended."""
    server = Server(program, *words, "--tenant-memory", "8")
    with server.client("0 0") as client:
        expect("a table", client.ask("create table t (a text)"), "ok")
        long = ", ".join(f"('{'x' * 240}')" for _row in range(16))
        for _time in range(400):
            told = [client.ask(line) for line in ("begin", f"insert into t values {long}", "delete from t", "commit")]
            expect("a long transaction", told, ["ok", "ok 16", "ok 16", "done 0"])
        told = [client.ask(line) for line in ("begin", "insert into t values ('kept')", "commit")]
        expect("a short transaction", told, ["ok", "ok 1", "done 0"])
    with server.client("1 0") as client:
        expect("a table", client.ask("create table t (a text)"), "ok")
    server.end_well()


def first_client(server):
    """A client of tenant 0, as soon as it is let in."""
    for _time in range(100):
        client = server.client("0 0")
        if client.told == "ok":
            return client
        expect("a tenant that isn't renewed yet", client.told, "no 92 NotBegun")
        client.close()
        time.sleep(0.1)
    sys.exit("a tenant over its share isn't renewed")


def smaller_share(program):
    """A start with a share below what a tenant has lets all others go on. That one is renewed, or its lines aren't begun."""
    with tempfile.TemporaryDirectory() as room:
        words = ["--tenants", "2", "--cells", "2", "--journal", f"{room}/journal", "--sync", "never"]
        fill(program, [*words, "--renew", "never"])
        server = Server(program, *words, "--renew", "never", "--tenant-memory", "1")
        with server.client("1 0") as client:
            expect("another tenant", client.ask("begin"), "ok")
        expect("a tenant over its share", server.client("0 0").told, "no 92 NotBegun")
        server.end_well()
        server = Server(program, *words, "--renew", "auto", "--tenant-memory", "1")
        with first_client(server) as client:
            expect("its transaction", client.ask("begin"), "ok")
            expect("its row", client.replies("select * from t"), ["rows 1", "'kept'"])
        _told, log = server.end_well()
        need(sum("renewed: tenant 0:" in line for line in log) == 1, f"renewals: {log[-3:]}")
        print("a start with a share below what a tenant has: that one is renewed, or its lines aren't begun, and others go on")


def main():
    words = sys.argv[1:]
    program = program_of(words)
    lines, selects = int(words[1]) if len(words) > 1 else 5_000_000, int(words[2]) if len(words) > 2 else 10_000
    random.seed(7)
    try:
        life(program, lines)
        share(program, selects)
        beside(program)
        killed(program, 5)
        smaller_share(program)
    finally:
        Server.kill_all()


if __name__ == "__main__":
    main()
