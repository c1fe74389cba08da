#!/usr/bin/env python3
"""Crowds a server: many connections, silent ones, ones that never read, and no descriptors left.

    python3 -m bench.tests.crowd [PROGRAM]

PROGRAM is crates/starhost/out/starhost where no word is given. Each crowd has a server of its own, with four workers where
nothing else is said, and is told in one line; the first that isn't served as it is to
be ends the program, with status 1. Those with a bound on time are tried up to three
times, and each miss is told. No server is left behind. Where a process may not have
so many descriptors, the large crowds are left out, and that is told.
"""

import fcntl
import os
import resource
import select
import socket
import struct
import subprocess
import sys
import termios
import threading
import time

from bench.harness import PATIENCE, Server, is_unproved, need, program_of, read_lines, say, tried, until

TRANSACTION = b"begin\ncommit\n"
LINES = 20_000
# Those of the largest crowd, in this process and in the server.
DESCRIPTORS = 2_500


def crowded(program, *words, workers=4, tenants=256, **options):
    """A server of so many tenants, with so many workers."""
    return Server(program, "--workers", str(workers), "--tenants", str(tenants), *words, has_input=False, **options)


def closes(stream, seconds):
    """Whether the server closes a connection in so many seconds."""
    return bool(select.select([stream], [], [], seconds)[0]) and stream.recv(10) == b""


def attached(server, count):
    """So many sessions that are open. Each one's first line is sent at once, since a server waits ten seconds for it."""
    streams = []
    for i in range(count):
        streams.append(server.connect())
        streams[i].sendall(f"{i // 8} {i % 8}\n".encode())
    for stream in streams:
        need(read_lines(stream, 1) == b"ok\n", "a session isn't opened")
    return streams


def rate(stream):
    """Lines a second, one at a time."""
    start, sent = time.perf_counter(), 0
    while sent < LINES and time.perf_counter() < start + 5:
        say(stream, b"begin\n")
        say(stream, b"rollback\n")
        sent += 2
    return sent / (time.perf_counter() - start)


def silent_ones(program):
    server = crowded(program, "--connections", "5")
    silent = [server.connect() for _ in range(4)]
    start = time.perf_counter()
    with server.connect() as stream:
        need(say(stream, b"0 0\nbegin\ncommit\n") == b"ok\nok\ndone 0\n", "the fifth client")
        millis = (time.perf_counter() - start) * 1e3
    for stream in silent:
        stream.close()
    told, _ = server.end_well()
    print(f"four silent clients: the fifth one is answered in {millis:.1f} ms; {told}")


def idle_ones(program):
    server = crowded(program)
    busy = server.connect()
    say(busy, b"255 0\n")
    alone = max(rate(busy) for _ in range(3))
    before = server.memory()
    idle = attached(server, 2_000)
    each = (server.memory() - before) / len(idle)
    beside = max(rate(busy) for _ in range(3))
    server.kill()
    print(f"2,000 idle sessions: {each:.1f} KB each; a busy one has {alone:,.0f} lines/s alone, {beside:,.0f} beside them: {beside / alone:.2f} times")


def all_at_once(program):
    server = crowded(program, "--connections", "2048")
    streams = attached(server, 2_048)
    start = time.perf_counter()
    for stream in streams:
        stream.sendall(TRANSACTION)
    for stream in streams:
        need(read_lines(stream, 2) == b"ok\ndone 0\n", "a transaction of many")
    seconds = time.perf_counter() - start
    for stream in streams:
        stream.sendall(b"end\n")
    for stream in streams:
        need(read_lines(stream, 1) == b"ok\n", "an end")
    told, _ = server.end_well()
    need(told == f"trails 256 steps {2048 * 4}", told)
    print(f"2,048 sessions at once: a transaction of each in {seconds * 1e3:.0f} ms; {told}")


def short_ones(program):
    server = crowded(program, "--connections", "1000")
    start = time.perf_counter()
    streams = [server.connect() for _ in range(1_000)]
    for i, stream in enumerate(streams):
        stream.sendall(f"{i // 8} {i % 8}\n".encode() + TRANSACTION)
        stream.shutdown(socket.SHUT_WR)
    for stream in streams:
        need(read_lines(stream, 4) == b"ok\nok\ndone 0\n", "one of a thousand")
        stream.close()
    seconds = time.perf_counter() - start
    told, _ = server.end_well()
    print(f"1,000 connections at once: served in {seconds * 1e3:.0f} ms; {told}")


def never_reads(program):
    server = crowded(program)
    others = attached(server, 100)
    stream = server.connect()
    say(stream, b"200 0\nbegin\n")
    say(stream, b"create table t (a int)\n")

    def turn():
        start = time.perf_counter()
        for other in others:
            other.sendall(b"begin\nrollback\n" * 50)
        for other in others:
            read_lines(other, 100)
        return 10_000 / (time.perf_counter() - start)

    alone = max(turn() for _ in range(3))
    stream.setblocking(False)
    sent = 0
    until = time.time() + 3
    while time.time() < until:
        _, writable, _ = select.select([], [stream], [], 0.2)
        if not writable:
            break
        try:
            sent += stream.send(b"select\n" * 4096)
        except BlockingIOError:
            break
    beside = max(turn() for _ in range(3))
    memory = server.memory()
    server.kill()
    print(f"a client that never reads: {sent:,} bytes are taken of it; 100 others have {alone:,.0f} lines/s before, {beside:,.0f} beside it; {memory:,} KB in all")


def reset(program):
    server = crowded(program, "--connections", "2")
    stream = server.connect()
    say(stream, b"7 3\n")
    stream.sendall(b"beg")
    stream.setsockopt(socket.SOL_SOCKET, socket.SO_LINGER, struct.pack("ii", 1, 0))
    time.sleep(0.1)
    stream.close()
    server.wait_for("closed: tenant 7, session 3")
    with server.connect() as stream:
        need(say(stream, b"7 3\nend\n") == b"ok\nok\n", "the session isn't free again")
    told, _ = server.end_well()
    # each session was opened and ended, and half a line is none
    need(told == "trails 256 steps 4", told)
    print(f"a reset in the middle of a line: its session is free for the next; {told}")


def no_descriptors(program):
    """Where silent clients have all descriptors, one that sends its first line is served: the oldest silent ones go."""
    server = crowded(program, descriptors=32)
    streams = [server.connect() for _ in range(60)]
    time.sleep(1)
    start = time.perf_counter()
    with server.connect() as stream:
        need(say(stream, b"0 0\nbegin\n") == b"ok\nok\n", "a client beside silent ones")
        millis = (time.perf_counter() - start) * 1e3
    need(millis < 1_000, f"a client beside silent ones waits {millis:.0f} ms")
    ticks = server.ticks()
    time.sleep(2)
    ticks, size = server.ticks() - ticks, os.fstat(server.log.fileno()).st_size
    for stream in streams:
        stream.close()
    server.kill()
    print(f"no descriptors left beside 60 silent clients: the next one is answered in {millis:.0f} ms; {ticks * 10} ms of processors in two seconds; {size} bytes of log")


class Dripping(threading.Thread):
    """Clients that send a byte of their first line now and then, and come again where they are turned away."""

    def __init__(self, server, count, pause):
        super().__init__(daemon=True)
        self.server, self.pause = server, pause
        self.streams = [server.connect() for _ in range(count)]
        self.stopped = threading.Event()

    def run(self):
        while not self.stopped.wait(self.pause):
            for place, stream in enumerate(self.streams):
                try:
                    stream.sendall(b"1")
                except OSError:
                    stream.close()
                    self.streams[place] = self.server.connect()


def dripping_ones(program, longer):
    """Beside clients that send their first lines byte by byte, others are let in at once."""
    server = crowded(program)
    crowd = Dripping(server, 300, 0.05)
    crowd.start()
    time.sleep(longer)
    waits = []
    for tenant in range(20):
        start = time.perf_counter()
        with server.connect() as stream:
            need(say(stream, f"{tenant} 0\n".encode()) == b"ok\n", "a client beside dripping ones")
        waits.append(time.perf_counter() - start)
    crowd.stopped.set()
    crowd.join()
    server.kill()
    need(max(waits) < 0.5, f"a client beside 300 dripping ones waits {max(waits):.3f} s")
    print(f"300 clients send a byte of a first line each 50 ms: 20 others are let in within {max(waits) * 1e3:.0f} ms")


def idle_end(program, longer):
    server = crowded(program, "--idle", str(longer), "--connections", "2")
    silent = server.connect()
    start = time.perf_counter()
    say(silent, b"3 3\n")
    need(closes(silent, 4 * longer), "an idle connection isn't closed in time")
    seconds = time.perf_counter() - start
    need(longer - 0.1 < seconds < 4 * longer, f"an idle connection is closed after {seconds:.1f} s")
    with server.connect() as stream:
        need(say(stream, b"3 3\nend\n") == b"ok\nok\n", "its session isn't free")
    told, _ = server.end_well()
    print(f"--idle {longer}: closed after {seconds:.1f} s; {told}")


# A condition that no two rows meet: ten sums of ninety terms. It stands within a query that names the rows around it, so
# it is walked for each two of them.
LONG = b"exists (select * from one z where %s or z.a < 0)" % b" or ".join([b"+".join([b"x.a", b"y.a"] * 45) + b" < 0"] * 10)
# A statement may look at 2^20 combinations, and at each pair of rows there is one more within that query.
MOST_ROWS = 724


def long_statement(stream, seconds):
    """A statement that takes so long, as told by shorter ones. Its table is made, and a transaction is open behind it."""

    def fill(table, rows):
        for first in range(0, rows, 256):
            values = ", ".join(f"({a})" for a in range(first, min(rows, first + 256))).encode()
            need(say(stream, b"insert into %s values %s\n" % (table, values)).startswith(b"ok "), "rows of a long statement")

    def statement(table):
        return b"select count(*) from %s x, %s y where %s\n" % (table, table, LONG)

    def time_of_few():
        start = time.perf_counter()
        stream.sendall(statement(b"few"))
        need(read_lines(stream, 2) == b"rows 1\n0\n", "a short statement")
        return time.perf_counter() - start

    say(stream, b"create table one (a int)\ncreate table few (a int)\ncreate table many (a int)\nbegin\n")
    need(say(stream, b"insert into one values (1)\n") == b"ok 1\n", "the row of a long statement")
    rows = 16
    fill(b"few", rows)
    # twice the rows take four times as long: the last one takes from a fortieth of the time on up to a tenth
    while time_of_few() < seconds / 40 and rows < MOST_ROWS:
        need(say(stream, b"insert into few select * from few\n") == b"ok %d\n" % rows, "twice the rows")
        rows *= 2
    # the least of several, some of which may meet another load of the machine
    least = min(time_of_few() for _ in range(4))
    fill(b"many", min(MOST_ROWS, round(rows * (seconds / least) ** 0.5)))
    return statement(b"many")


class Talker(threading.Thread):
    """Makes small transactions of a tenant, one line at a time, until it is told to stop, and keeps its longest wait."""

    def __init__(self, server, tenant):
        super().__init__(daemon=True)
        self.stream = server.connect()
        need(say(self.stream, f"{tenant} 0\n".encode()) == b"ok\n", "a talker")
        self.stopped = threading.Event()
        self.began = None
        self.longest = 0.0
        self.wrong = None

    def run(self):
        self.began = time.perf_counter()
        try:
            while not self.stopped.is_set():
                for line, reply in [(b"begin\n", b"ok\n"), (b"commit\n", b"done 0\n")]:
                    start = time.perf_counter()
                    if say(self.stream, line) != reply:
                        self.wrong = line
                    self.longest = max(self.longest, time.perf_counter() - start)
                time.sleep(0.05)
        except OSError as error:
            self.wrong = error


class Comer(threading.Thread):
    """Comes again and again as the last session of a tenant, and keeps its longest wait."""

    def __init__(self, server, tenants):
        super().__init__(daemon=True)
        self.server = server
        self.tenants = tenants
        self.stopped = threading.Event()
        self.began = None
        self.longest = 0.0
        self.wrong = None
        self.count = 0

    def run(self):
        self.began = time.perf_counter()
        try:
            while not self.stopped.is_set():
                tenant = self.tenants[self.count % len(self.tenants)]
                start = time.perf_counter()
                with self.server.connect() as stream:
                    if say(stream, f"{tenant} 7\nend\n".encode()) != b"ok\nok\n":
                        self.wrong = f"a client of tenant {tenant}"
                self.longest = max(self.longest, time.perf_counter() - start)
                self.count += 1
                time.sleep(0.05)
        except OSError as error:
            self.wrong = error


def talk_beside(server, busy, statement, crowd, held):
    """Has a crowd talk while a statement runs, for which some sessions wait: how long it takes. Whoever waits for it waits
    for more than half of it, since all begin in its first third; whoever doesn't waits for less, also on a busy machine."""
    # a machine that is busy from now on may take many times as long
    busy.settimeout(5 * PATIENCE)
    start = time.perf_counter()
    busy.sendall(statement)
    for stream in held:
        stream.sendall(b"select count(*) from many x, many y\n")
    for one in crowd:
        one.start()
    need(read_lines(busy, 2) == b"rows 1\n0\n", "the long statement")
    seconds = time.perf_counter() - start
    for one in crowd:
        one.stopped.set()
    for one in crowd:
        one.join()
    server.kill()
    wrong = [one.wrong for one in crowd if one.wrong is not None]
    need(not wrong, wrong)
    late = max(one.began for one in crowd) - start
    need(seconds > 1.5 and late < seconds / 3, f"the long statement took {seconds:.2f} s, and the last client began after {late:.2f} s")
    return seconds


def beside_a_long_statement(program, waiting, longer):
    server = crowded(program, "--cells", "8", workers=8, tenants=64)
    busy = server.connect()
    say(busy, b"0 0\n")
    statement = long_statement(busy, 3 * longer)
    others = [tenant for tenant in range(64) if tenant % 8 != 0][:48]
    talkers = [Talker(server, tenant) for tenant in others]
    comer = Comer(server, others)
    held = [server.connect() for _ in range(waiting)]
    for session, stream in enumerate(held):
        need(say(stream, f"0 {session + 1}\nbegin\n".encode()) == b"ok\nok\n", "a session beside the busy one")
    seconds = talk_beside(server, busy, statement, [*talkers, comer], held)
    longest = max(one.longest for one in talkers)
    need(longest < seconds / 2, f"a client of another cell waits {longest:.2f} s beside a statement of {seconds:.2f} s")
    need(comer.longest < seconds / 2, f"a new client of another cell waits {comer.longest:.2f} s beside a statement of {seconds:.2f} s")
    beside = f" and {waiting} sessions that wait for it" if waiting else ""
    print(f"48 clients beside a statement of {seconds:.1f} s{beside}: the longest wait is {longest * 1e3:.0f} ms, that of {comer.count} new ones {comer.longest * 1e3:.0f} ms")


def long_statement_alone(program, longer):
    beside_a_long_statement(program, 0, longer)


def long_statement_with_waiting_ones(program, longer):
    beside_a_long_statement(program, 7, longer)


def lines_in_time(busy, streams, heard, idle):
    """Sends lines of these clients, who were heard last at this time, until the busy one is answered: how often, if none
    of them was silent for so long."""
    sent, silent = 0, 0.0
    while not select.select([busy], [], [], 0.5)[0]:
        for stream in streams:
            stream.sendall(b"begin\nrollback\n")
        now = time.perf_counter()
        sent, silent, heard = sent + 1, max(silent, now - heard), now
    # the last ones may have been sent long before the statement was seen to end
    silent = max(silent, time.perf_counter() - heard)
    need(silent < idle - 0.2, f"on this machine clients were silent for {silent:.1f} s")
    return sent


def idle_beside_a_long_statement(program, longer):
    idle = longer
    server = crowded(program, "--idle", str(idle), "--cells", "4")
    busy = server.connect()
    say(busy, b"0 0\n")
    statement = long_statement(busy, 2 * idle + 1)
    # of the same cell and of others
    streams = [server.connect() for _ in range(21)]
    heard = time.perf_counter()
    for tenant, stream in enumerate(streams, 1):
        need(say(stream, f"{tenant} 0\n".encode()) == b"ok\n", "a client of its own tenant")
    busy.sendall(statement)
    start = time.perf_counter()
    sent = lines_in_time(busy, streams, heard, idle)
    need(read_lines(busy, 2) == b"rows 1\n0\n", "the long statement")
    seconds = time.perf_counter() - start
    need(seconds > 1.25 * idle and sent > 1, f"the long statement took {seconds:.2f} s")
    for stream in streams:
        need(read_lines(stream, 2 * sent) == b"ok\nok\n" * sent, "a client that had sent a line in time")
    closed = [line for line in server.told().splitlines() if "closed" in line or "idle" in line]
    server.kill()
    need(not closed, closed)
    print(f"--idle {idle} beside a statement of {seconds:.1f} s: none of 21 clients that send lines each half second is closed")


def idle_of_all_kinds(program, longer):
    idle = 2 * longer
    server = crowded(program, "--idle", str(idle))
    talker, silent, dripping, unnamed = [server.connect() for _ in range(4)]
    start = time.perf_counter()
    for session, stream in enumerate([talker, silent, dripping]):
        need(say(stream, f"3 {session}\n".encode()) == b"ok\n", "a session")
    ends = {}
    while len(ends) < 3 and time.perf_counter() - start < 30:
        for stream in select.select([each for each in (silent, dripping, unnamed) if each not in ends], [], [], 0.5)[0]:
            try:
                need(stream.recv(100) == b"", "an answer to nothing")
            except ConnectionResetError:
                pass
            ends[stream] = time.perf_counter() - start
        if dripping not in ends:
            try:
                dripping.send(b"b")
            except OSError:
                pass
        need(say(talker, b"begin\nrollback\n") == b"ok\nok\n", "a client that talks")
    first, last = idle - 0.1, idle + 3 * longer
    need(silent in ends and first < ends[silent] < last, f"a silent session isn't closed in time: {ends.get(silent)}")
    need(dripping in ends and first < ends[dripping] < last, f"a session isn't closed in time that sends a byte now and then, and no line: {ends.get(dripping)}")
    need(unnamed in ends and first < ends[unnamed], f"a connection isn't closed in time that never sends a line: {ends.get(unnamed)}")
    log = server.told()
    server.kill()
    for session in (1, 2):
        need(f"idle: tenant 3, session {session}" in log, log)
    need("idle: tenant 3, session 0" not in log and "failed" not in log, log)
    print(f"--idle {idle}: a talker stays; closed are a silent one after {ends[silent]:.1f} s, one that drips after {ends[dripping]:.1f} s, one that never sends after {ends[unnamed]:.1f} s")


def idle_transaction(program, longer):
    server = crowded(program, "--idle-transaction", str(longer))
    holder, other, without = [server.connect() for _ in range(3)]
    need(say(without, b"2 2\n") == b"ok\n", "a session without a transaction")
    need(say(other, b"2 1\n") == b"ok\n", "another session")
    lines = b"2 0\ncreate table t (a int)\nbegin\ninsert into t values (1)\n"
    start = time.perf_counter()
    need(say(holder, lines) == b"ok\nok\nok\nok 1\n", "a transaction")
    need(say(other, b"begin\ninsert into t values (2)\nrollback\n") == b"ok\nno 40 Locked t\nok\n", "a table that is locked")
    need(closes(holder, 4 * longer), "a transaction that idles isn't closed in time")
    seconds = time.perf_counter() - start
    need(longer - 0.1 < seconds < 4 * longer, f"a transaction that idles is closed after {seconds:.1f} s")
    need(say(other, b"begin\ninsert into t values (2)\nselect * from t\ncommit\n") == b"ok\nok 1\nrows 1\n2\ndone 0\n", "its locks aren't free")
    time.sleep(2 * longer)
    need(say(without, b"begin\nrollback\n") == b"ok\nok\n", "a session without a transaction is closed")
    log = server.told()
    server.kill()
    need("idle in a transaction: tenant 2, session 0" in log, log)
    need(log.count("idle") == 1, log)
    print(f"--idle-transaction {longer}: closed after {seconds:.1f} s, its locks are free, and a session without a transaction stays")


def large_table(server):
    """A session with a table of 8.4 MB, and what a select of it is answered."""
    stream = server.connect()
    say(stream, b"5 0\ncreate table t (a text, b text, c text, d text, e text, f text, g text, h text)\nbegin\n")
    rows = [", ".join(["'" + "abcdefghijklmnop"[(row + column) % 16] * 255 + "'" for column in range(8)]) for row in range(16)]
    for row in rows:
        need(say(stream, f"insert into t values ({row})\n".encode()) == b"ok 1\n", "a row of texts")
    for doubled in range(8):
        need(say(stream, b"insert into t select * from t\n") == b"ok %d\n" % (16 << doubled), "rows twice")
    # rows stand as they were made, each text in its quotes
    return stream, b"rows 4096\n" + (256 * "".join(row.replace("', '", "','") + "\n" for row in rows)).encode()


def slow_reader(program):
    server = crowded(program)
    stream, wanted = large_table(server)
    stream.sendall(b"select * from t\n")
    start = time.perf_counter()
    text = b""
    parts = 0
    while len(text) < len(wanted):
        part = stream.recv(65536)
        if not part:
            break
        text += part
        parts += 1
        time.sleep(0.5 if parts % 64 == 0 else 0.005)
    need(text == wanted, f"a large reply of {len(text)} bytes in place of {len(wanted)}, or others")
    need(say(stream, b"rollback\nend\n") == b"ok\nok\n", "the line behind a large reply")
    seconds = time.perf_counter() - start
    server.kill()
    print(f"a slow reader of {len(wanted):,} bytes: all of them in {seconds:.1f} s, and the next line is answered")


def unread_replies(program):
    server = crowded(program)
    stream, wanted = large_table(server)
    before = server.memory()
    stream.sendall(b"select * from t\n" * 20)
    server.rest()
    unread = server.memory() - before
    need(unread < 60_000, f"replies pile up: {unread:,} KB for a client that doesn't read")
    missing = 20 * len(wanted)
    while missing > 0:
        part = stream.recv(1 << 20)
        need(part, "a connection is closed that has replies")
        missing -= len(part)
    need(say(stream, b"rollback\n") == b"ok\n", "the line behind large replies")
    read = server.memory() - before
    # the trail keeps them once, and nothing else does
    need(read < (500_000 if is_unproved() else 250_000), f"sent replies are kept: {read:,} KB")
    server.kill()
    print(f"20 replies of {len(wanted):,} bytes: {unread:,} KB more while nobody reads them, {read:,} KB more behind them")


def other_address(program):
    # each machine has all of 127.*.*.*
    addresses = ["127.0.0.2"] + [word for word in subprocess.run(["hostname", "-I"], capture_output=True, text=True).stdout.split() if "." in word]
    server = crowded(program)
    for address in addresses:
        try:
            socket.create_connection((address, server.port), timeout=5)
        except OSError:
            continue
        sys.exit(f"wrong: a client of {address} is taken")
    server.kill()
    print(f"{len(addresses)} other addresses of this machine: no client is taken there")


def first_tenant(program):
    server = crowded(program, "--first-tenant", "300", "--connections", "4", tenants=2)
    for line, reply in [
        (b"300 0\ncreate table t (a int)\nend\n", b"ok\nok\nok\n"),
        (b"301 0\ndrop table t\nend\n", b"ok\nno 20 NoTable\nok\n"),
        (b"0 0\n", b"no 13 NoTenant\n"),
        (b"302 0\n", b"no 13 NoTenant\n"),
    ]:
        with server.connect() as stream:
            need(say(stream, line) == reply, f"--first-tenant 300: {line}")
    told, log = server.end_well()
    need(told == "trails 2 steps 6", told)
    need(any("attached: tenant 300, session 0" in line for line in log), log)
    print(f"--first-tenant 300: its tenants are served, and no others; {told}")


def log_levels(program):
    lines = {}
    for level in ("error", "warning", "info"):
        server = crowded(program, "--log", level, "--connections", "2")
        for line in (b"0 0\nend\n", b"x\n"):
            with server.connect() as stream:
                say(stream, line)
        _, log = server.end_well()
        lines[level] = [told_in(line) for line in log]
    need(lines["error"] == [], lines)
    need(len(lines["warning"]) == 1 and "turned away: BadLine" in lines["warning"][0], lines)
    need(len(lines["info"]) > 4, lines)
    print(f"--log: {len(lines['error'])}, {len(lines['warning'])} and {len(lines['info'])} lines at error, warning and info")


def tenant_memory(program):
    server = crowded(program, "--tenant-memory", "1")
    greedy, other = server.connect(), server.connect()
    need(say(greedy, b"1 0\ncreate table t (a text)\n") == b"ok\nok\n", "a greedy tenant")
    need(say(other, b"2 0\ncreate table t (a text)\n") == b"ok\nok\n", "a tenant beside it")
    row = b"insert into t values ('" + b"x" * 250 + b"')\n"
    lines = 0
    while lines < 10_000 and say(greedy, b"begin\n" + row + b"rollback\n") == b"ok\nok 1\nok\n":
        lines += 3
    need(100 < lines < 10_000, f"a greedy tenant has {lines} lines")
    need(say(greedy, b"begin\n") == b"no 92 NotBegun\n", "a line past the tenant's memory")
    need(say(other, b"begin\n" + row + b"commit\n") == b"ok\nok 1\ndone 0\n", "a tenant beside a greedy one")
    need(say(greedy, b"end\n") == b"ok\n", "the end of a greedy tenant's session")
    server.kill()
    print(f"--tenant-memory 1: a greedy tenant has {lines:,} lines, then NotBegun; the one beside it has all, and a session ends")


def input_end(program):
    server = Server(program, "--workers", "4", "--tenants", "256", "--connections", "0")
    for _ in range(3):
        with server.connect() as stream:
            need(say(stream, b"0 0\nend\n") == b"ok\nok\n", "one of any number of clients")
    stream = server.connect()
    say(stream, b"5 5\nbegin\n")
    server.process.stdin.write("noise\n")
    server.process.stdin.flush()
    until("it reads other input", lambda: fcntl.ioctl(server.process.stdin, termios.FIONREAD, b"\0" * 4) == b"\0" * 4)
    need(say(stream, b"rollback\n") == b"ok\n", "it goes on beside other input")
    start = time.perf_counter()
    told, log = server.end_well()
    need(told == "trails 256 steps 10", told)
    need(not any("accepted" in line for line in log), log)
    print(f"--until-input-ends: {told} in {(time.perf_counter() - start) * 1e3:.0f} ms")


def told_in(line):
    """What a line of the log tells behind its time."""
    return line.split("Z ", 1)[1]


def port_closes(program):
    server = crowded(program, "--connections", "3")
    streams = attached(server, 3)

    def refuses():
        try:
            server.connect().close()
        except ConnectionRefusedError:
            return True
        return False

    until("a fourth client is refused", refuses, 10)
    need(say(streams[0], b"begin\nend\n") == b"ok\nok\n", "one of three")
    for stream in streams:
        stream.close()
    told, log = server.end_well()
    # none of those that came before it was refused was taken
    need(sum(line.endswith(": connected") for line in log) == 3, log)
    print(f"--connections 3: a fourth client is refused; {told}")


def port_in_use(program):
    server = crowded(program)
    second = subprocess.run([program, "serve", "--port", str(server.port)], capture_output=True, text=True, timeout=60)
    server.kill()
    lines = second.stderr.splitlines()
    need(second.returncode == 1 and lines[-1] == "fault: cannot listen", second.stderr)
    need(len(lines) == 2 and f"port {server.port}" in lines[0], second.stderr)
    print(f"a port in use: {told_in(lines[0])}")


def unread_log(program):
    unread, log = os.pipe()
    fcntl.fcntl(log, fcntl.F_SETPIPE_SZ, 4096)
    server = crowded(program, "--connections", "401", log=log)
    start = time.perf_counter()
    for _ in range(400):
        with server.connect() as stream:
            need(say(stream, b"0 0\nend\n") == b"ok\nok\n", "a client beside a log that nobody reads")
    seconds = time.perf_counter() - start
    held = os.read(unread, 65536)
    with server.connect() as stream:
        say(stream, b"0 0\nend\n")
    told, _ = server.end_well()
    os.close(log)
    rest = os.read(unread, 65536).decode()
    need("lines were dropped" in rest, rest)
    dropped = next(line for line in rest.splitlines() if "dropped" in line)
    print(f"a log that nobody reads: 400 clients in {seconds * 1e3:.0f} ms, {len(held)} bytes of log; then: {told_in(dropped)}; {told}")


def full_trail(program):
    server = crowded(program, "--connections", "1")
    with server.connect() as stream:
        say(stream, b"9 0\n")
        for _ in range(1_024):
            say(stream, b"x\n" * 1100)
    told, log = server.end_well()
    warned = [line for line in log if "trail" in line]
    need(len(warned) == 2 and "has room for" in warned[0] and "is full" in warned[1], log)
    closed = next(line for line in log if "closed" in line)
    print(f"a trail that fills up: {told_in(warned[0])}; {told_in(warned[1])}; {told_in(closed)}; {told}")


# Statements that each busy tenant has in flight, and how long one takes, in seconds.
IN_FLIGHT = 64
STEP = 0.01


def longest_gap(left, least):
    """Reads what comes, until of each stream so many lines at most are left: the longest time between two parts."""
    last, longest = time.perf_counter(), 0.0
    while most := [stream for stream, lines in left.items() if lines > least]:
        ready = select.select([stream for stream, lines in left.items() if lines > 0], [], [], PATIENCE)[0]
        need(ready, f"{len(most)} busy tenants aren't served")
        now = time.perf_counter()
        longest, last = max(longest, now - last), now
        for stream in ready:
            left[stream] -= stream.recv(65536).count(b"\n")
    return longest


def calm_beside_busy_ones(program, longer):
    """Beside seven busy tenants of its cell, each with many statements in flight, a client waits for two of them at most."""
    server = crowded(program, "--cells", "1", workers=1, tenants=8)
    busy, statements = [], []
    for tenant in range(1, 8):
        busy.append(server.connect())
        say(busy[-1], f"{tenant} 0\n".encode())
        statements.append(long_statement(busy[-1], longer * STEP))
    calm = Talker(server, 0)
    start = time.perf_counter()
    for stream, statement in zip(busy, statements):
        stream.sendall(IN_FLIGHT * statement)
    left = {stream: 2 * IN_FLIGHT for stream in busy}
    # each has had a step, so the server knows who is busy
    longest_gap(left, 2 * IN_FLIGHT - 2)
    calm.start()
    step = longest_gap(left, 0)
    seconds = time.perf_counter() - start
    calm.stopped.set()
    calm.join()
    server.kill()
    need(calm.wrong is None, calm.wrong)
    need(calm.longest < 2 * step + 0.005, f"a calm client waits {calm.longest:.3f} s beside steps of {step:.3f} s")
    print(f"a calm client beside 7 busy ones of its cell, for {seconds:.1f} s: the longest wait is {calm.longest * 1e3:.0f} ms, the longest step {step * 1e3:.0f} ms")


# Those with a bound on time. On a machine that does much else, or is suddenly faster, one may miss it, so each is tried
# up to three times, with longer statements and times each time, and told.
TIMED = {idle_end, idle_beside_a_long_statement, long_statement_alone, long_statement_with_waiting_ones, idle_transaction, idle_of_all_kinds}
TIMED |= {calm_beside_busy_ones, dripping_ones}


def trial(crowd, program):
    if crowd not in TIMED:
        return crowd(program)
    return tried(crowd, [(program, longer) for longer in (1, 2, 3)], Server.kill_all)


def crowds():
    """Those for which there are descriptors."""
    _, most = resource.getrlimit(resource.RLIMIT_NOFILE)
    small = [silent_ones, reset, idle_end, input_end, port_closes, port_in_use, unread_log, full_trail, no_descriptors, dripping_ones, never_reads]
    small += [other_address, first_tenant, log_levels, slow_reader, unread_replies, tenant_memory, idle_transaction, idle_of_all_kinds]
    small += [idle_beside_a_long_statement, long_statement_alone, long_statement_with_waiting_ones, calm_beside_busy_ones]
    large = [short_ones, all_at_once, idle_ones]
    if most != resource.RLIM_INFINITY and most < DESCRIPTORS:
        print(f"large crowds are left out: they want {DESCRIPTORS} descriptors, and a process has {most} at most")
        return small
    resource.setrlimit(resource.RLIMIT_NOFILE, (DESCRIPTORS, most))
    return small + large


def main():
    program = program_of(sys.argv[1:])
    # what is told is there also where something ends this
    sys.stdout.reconfigure(line_buffering=True)
    try:
        for crowd in crowds():
            trial(crowd, program)
    finally:
        Server.kill_all()
    print(f"load {os.getloadavg()[0]:.1f}")


if __name__ == "__main__":
    main()
