#!/usr/bin/env python3
"""Tries a server with a journal: what was answered and committed is there after a restart.

    python3 -m bench.tests.journal [PROGRAM] [--kills N] [--cuts N] [--each] [--requests N] [--calls N] [--seed N]

PROGRAM is crates/starhost/out/starhost where no word is given. Eight clients make transactions while the server is killed
at some moment, N times (12), with each --sync in turn, and twice about when a segment of 1 MB is full; then it is started
with the same folder. Each line that was answered has to be a record, in its order, up to the last one behind which its
session had no transaction, and each tenant's dump has to be that of `run` over the records, with the sessions that were
open ended. Then the newest segment is cut at N places (60), or at each of its first 3,000 bytes (--each): a first part of
the records is found, or it is refused where it ends within its head or within a batch. Bytes that are written over it, and
single bits that are flipped, are refused, or the tables are the same. A segment that is missing, doubled, or of another
server is refused, and nothing in the folder is changed. N requests for memory (60) are refused in turn, alone or with those
behind them (refuse.c, compiled by cc): where a record lacks memory, replies wait. Each of N calls on files (40) fails in
turn (refuse_disk.c), with --sync always and second: the server ends with a fault, and what it answered is there. With
second there is a sync each second under load and one behind the last line, none of it while nothing comes, and one that
fails ends the server before its next reply to a commit; a run makes one before it ends. Of a run's file no more is cut off
than a crash leaves. A transaction of four lines waits for two syncs, those of its commit. While a tenant is dumped, those
of other cells commit. On a full disk replies that have to wait do until there is room. Then what can't be: two servers on
one folder, another number of tenants, another bound, and what is no folder of segments, which stays as it is. The first
thing that isn't as it is to be ends this with status 1.
"""

import argparse
import os
import random
import resource
import shutil
import subprocess
import tempfile
import threading
import time
import urllib.error
import urllib.request

from bench.harness import BUILT, Server, connect, is_unproved, library, more_lines, need, run, tried, until
from bench.segments import HEAD, blocks, bytes_of, newest, records, segments, write_segment
from bench.tests.generated import Maker

CLIENTS = 8
SYNCS = ("always", "second", "never")
EACH = 3000


def journaled(program, file, *words, tenants=16, limit=None, preloaded=None, **refused):
    """A server with a journal in this folder."""
    shape = ["--tenants", str(tenants), "--cells", "4", "--workers", "4", "--journal", file]
    return Server(program, *shape, *words, bytes_of_files=limit, library=preloaded, **refused)


class Client(threading.Thread):
    """It sends a line, and then waits for its answer. It notes the lines that were answered, and made; and how many of them a
    restart keeps for sure: up to the last one behind which its session had no transaction."""

    def __init__(self, server, tenant, session, lines):
        super().__init__()
        self.port, self.tenant, self.session, self.lines = server.port, tenant, session, lines
        self.answered, self.answers = [], 0
        self.bound, self.transacts = 0, False

    def run(self):
        try:
            self.talk()
        except (ConnectionError, TimeoutError):
            pass

    def talk(self):
        with connect(self.port) as stream:
            file = stream.makefile("rb")
            for line in [f"{self.tenant} {self.session}", *self.lines]:
                stream.sendall(line.encode() + b"\n")
                first = self.answer(file)
                if first is None:
                    return
                self.answers += 1
                # what lacked memory is recorded as what it did, if at all
                if not first.startswith((b"no 91", b"no 92")):
                    self.answered.append(line)
                self.note_transaction(line.split()[0], first)

    def note_transaction(self, word, reply):
        """Notes whether the session has a transaction behind a line."""
        if word == "begin" and reply.startswith(b"ok"):
            self.transacts = True
        if reply.startswith((b"rolledback", b"no 91")) or word in ("commit", "rollback") and not reply.startswith(b"no"):
            self.transacts = False
        if not self.transacts:
            self.bound = len(self.answered)

    @staticmethod
    def answer(file):
        """The first line of a reply, if all of it comes."""
        first = file.readline()
        lines = [first] + [file.readline() for _ in range(more_lines(first.decode()))]
        return first if all(line.endswith(b"\n") for line in lines) else None


def with_ends(found):
    """The lines for `run`, with the end of each session that is open."""
    opened = []
    for tenant, session, line in found:
        if line.split() == ["open"] and (tenant, session) not in opened:
            opened.append((tenant, session))
        if line.split() == ["end"] and (tenant, session) in opened:
            opened.remove((tenant, session))
    return [f"{t} {s} {line}" for t, s, line in found] + [f"{t} {s} end" for t, s in opened]


def has_in_order(lines, part):
    left = iter(lines)
    return all(line in left for line in part)


def states(program, file, room, may_refuse=False, tenants=16):
    """What a server that starts with the file has of each tenant, as scripts; None where it refuses the file."""
    folder = os.path.join(room, "states")
    shutil.rmtree(folder, ignore_errors=True)
    os.mkdir(folder)
    status, told, log = journaled(program, file, "--dump-to", folder, tenants=tenants).end()
    if may_refuse and status == 1 and log.splitlines()[-1] == "fault: cannot open journal":
        return None
    need(status == 0, f"a start: {status}, {told}, {log[-500:]}")
    found = {}
    for name in os.listdir(folder):
        with open(os.path.join(folder, name), encoding="latin-1") as script:
            found[int(name.split(".")[0])] = script.read()
    return found


def states_of(program, found, room, tenants=16):
    """What `run` has of each tenant behind these records."""
    folder = os.path.join(room, "wanted")
    shutil.rmtree(folder, ignore_errors=True)
    os.mkdir(folder)
    status, _, errors = run(program, f"dump --tenants {tenants} --into {folder}", with_ends(found))
    need(status == 0, f"dump --into: {errors}")
    wanted = {}
    for name in os.listdir(folder):
        with open(os.path.join(folder, name), encoding="latin-1") as script:
            wanted[int(name.split(".")[0])] = script.read()
    return wanted


def are_records(file, clients, before=0):
    """Each line that was answered is a record, in its order, behind so many that were there before, as far as it binds."""
    found = records(file)
    for client in clients:
        own = [line for tenant, session, line in found[before:] if (tenant, session) == (client.tenant, client.session)]
        wanted = ["open", *client.answered[1:client.bound]] if client.answered else []
        need(has_in_order(own, wanted), f"tenant {client.tenant}: lines that were answered aren't records: {wanted[-3:]} behind {own[-3:]}")
    return found


def survives_kills(program, room, kills, seed):
    dice = random.Random(seed)
    file = os.path.join(room, "killed")
    makers = [Maker(seed * 100 + at) for at in range(CLIENTS)]
    answered, found = 0, []
    for at in range(kills):
        server = journaled(program, file, "--sync", SYNCS[at % len(SYNCS)])
        clients = [Client(server, at // 2, at % 2, makers[at].lines(60)[1:-1] + ["begin"]) for at in range(CLIENTS)]
        for client in clients:
            client.start()
        time.sleep(dice.random() * 0.15)
        server.kill()
        for client in clients:
            client.join()
        found = are_records(file, clients, len(found))
        need(states(program, file, room) == states_of(program, found, room), "a start behind a kill has another state")
        answered += sum(len(client.answered) for client in clients)
    return answered, len(records(file)), file


def with_long_lines(lines):
    """So that segments get full soon: behind each line one that is long, and refused."""
    return [text for line in lines for text in (line, "select " + "x" * 4000)]


def survives_turns(program, room, turns):
    """The same with segments of 1 MB: it is killed about when the newest one is full, so many times."""
    file = os.path.join(room, "turned")
    found = []
    for at in range(turns):
        server = journaled(program, file, "--sync", SYNCS[at % len(SYNCS)], "--segment", "1")
        clients = [Client(server, own // 2, own % 2, with_long_lines(Maker(at * CLIENTS + own).lines(60)[1:-1])) for own in range(CLIENTS)]
        before = len(segments(file))
        for client in clients:
            client.start()
        until("its newest segment is full", lambda: len(segments(file)) > before)
        server.kill()
        for client in clients:
            client.join()
        found = are_records(file, clients, len(found))
        need(states(program, file, room) == states_of(program, found, room), "a start behind a kill at a turn has another state")
    return len(segments(file))


def crashed(data, dice):
    """What a crash may leave of a segment: its first blocks, and behind a shut gate a part of the next one, or other bytes."""
    places = blocks(data)
    at = dice.randrange(len(places))
    behind = data[places[at] + 1:places[at + 1]] if at + 1 < len(places) else b""
    part = behind[:dice.randint(0, len(behind))] if dice.random() < 0.7 else dice.randbytes(dice.randrange(40))
    return data[:places[at]] + dice.choice([b"", b"\x00" + part])


class Copied:
    """A folder with a copy of a journal, whose newest segment is written over."""

    def __init__(self, program, room, folder):
        self.program, self.room, self.folder = program, room, os.path.join(room, "copied")
        shutil.copytree(folder, self.folder)
        self.file = newest(self.folder)
        self.data = bytes_of(self.file)

    def starts(self, data, may_refuse):
        """The tables behind a start with such a newest segment; None where it is refused, and left as it is."""
        with open(self.file, "wb") as file:
            file.write(data)
        found = states(self.program, self.folder, self.room, may_refuse=may_refuse)
        need(found is not None or bytes_of(self.file) == data, "a segment that is refused is another one")
        return found

    def kept(self, data):
        """The tables that the records of such a newest segment make."""
        with open(self.file, "wb") as file:
            file.write(data)
        return states_of(self.program, records(self.folder), self.room)


def survives_cuts(copied, cuts, each, seed):
    """A segment as a crash leaves it has its records; one that is cut at any byte has a first part of them, or is refused."""
    dice, data, refused = random.Random(seed), copied.data, 0
    places = [0, 1, 7, 8, 9, HEAD - 1, HEAD, HEAD + 1, HEAD + 7, len(data) - 1, len(data)]
    places += range(EACH) if each else [dice.randrange(len(data)) for _ in range(cuts // 2)]
    parts = [(data[:place], place > 8 and (place < HEAD or place not in blocks(data))) for place in places]
    parts += [(crashed(data, dice), False) for _ in range(cuts // 2)] + [(data + dice.randbytes(9), False)]
    for part, ends_within in parts:
        has = copied.starts(part, ends_within)
        refused += has is None
        need(has is None or has == copied.kept(part), f"a segment that is cut to {len(part)} bytes has another state")
    return len(parts), refused


def tells_rot(copied, cuts, seed):
    """Bytes that are written over a segment, and single bits that are flipped: it is refused, or the tables are the same."""
    dice, data, refused = random.Random(seed), copied.data, 0
    whole = copied.kept(data)
    for at in range(cuts):
        place = dice.randrange(0 if at % 2 else HEAD, len(data))
        if at % 2:
            flipped = bytearray(data)
            flipped[place] ^= 1 << dice.randrange(8)
            has, wanted = copied.starts(bytes(flipped), True), whole
        else:
            has = copied.starts(data[:place] + dice.randbytes(dice.choice([1, 9, 300, 5000])), True)
            wanted = copied.kept(data[:max(end for end in blocks(data) if end <= place)] + b"\0")
        refused += has is None
        need(has is None or has == wanted, f"other bytes at {place}: another state")
    with open(copied.file, "wb") as file:
        file.write(data)
    return cuts, refused


def fails_well(program, room, refuses, calls, sync):
    """A call on a file that fails ends the server, with a fault; what it answered is there."""
    felt = 0
    for at in range(1, calls + 1):
        file = os.path.join(room, f"failed{at}{sync}")
        words = {"SHORT": 1} if at % 3 == 0 else {"REASON": 28} if at % 3 == 1 else {}
        server = journaled(program, file, "--sync", sync, preloaded=refuses, FAILED=at, **words)
        clients = []
        if server.port is not None:
            clients = [Client(server, tenant, 0, Maker(at * 10 + tenant).lines(5)[1:-1]) for tenant in range(3)]
            for client in clients:
                client.start()
            for client in clients:
                client.join()
        status, _, log = server.end()
        last = log.splitlines()[-2] if "calls on files" in log else log.splitlines()[-1]
        need(status in (0, 1), f"call {at} fails: status {status}: {log[-400:]}")
        if status == 1:
            felt += 1
            need(last in ("fault: journal failed", "fault: cannot open journal"), f"call {at} fails: {log[-400:]}")
        if os.path.exists(file):
            found = are_records(file, clients)
            need(states(program, file, room) == states_of(program, found, room), f"call {at} fails: another state behind it")
        else:
            need(not any(client.answered for client in clients), f"call {at} fails: answers without a file")
    return felt


LACKING = "journal: there is no memory"


def lacks_memory(program, room, many):
    """Where memory is lacking for a record, replies wait and are sent later; that is logged once."""
    refuses = library("refuse", room)

    def served(name, **refused):
        """The file, the clients, and the log."""
        file = os.path.join(room, f"lacking{name}")
        server = journaled(program, file, "--sync", "never", preloaded=refuses, **refused)
        clients = [Client(server, tenant, 0, Maker(tenant).lines(12)[1:-1]) for tenant in range(3)]
        for client in clients:
            client.run()
        status, told, log = server.end()
        need(status == 0 or "fault: out of memory\n" in log, f"{refused}: status {status}: {log[-300:]}")
        return file, clients, told, log

    def requests(name, clients):
        server = journaled(program, os.path.join(room, name), "--sync", "never", preloaded=refuses)
        return server.end()[2] if not clients else served(name)[3]

    first, last = (int(requests(name, clients).split(" requests")[0].split()[-1]) for name, clients in (("few", False), ("all", True)))
    waited = 0
    for at in range(many):
        request = first + (last - first) * at // many
        file, clients, told, log = served(at, REFUSED=request, UNTIL=request + (at % 4) * 20)
        found = are_records(file, clients)
        need(states(program, file, room) == states_of(program, found, room), f"request {request} is refused: another state behind it")
        if LACKING in log:
            waited += 1
            if at % 4 == 0:
                need(log.count(LACKING) == 1 and all(client.answers == len(client.lines) + 1 for client in clients), f"request {request} is refused: {log[-400:]}")
    need(waited > 0, "no record lacked memory")
    return waited


def syncs_in(noted):
    """When each sync was made, and when each write."""
    with open(noted) as file:
        calls = [line.split() for line in file]
    return [float(at) for name, at in calls if name == "fdatasync"], [float(at) for name, at in calls if name == "pwrite"]


def trial(part, program, room, refuses):
    """Does a part that has a bound on time, each time in a folder of its own."""
    folders = [os.path.join(room, f"{part.__name__}{at}") for at in range(3)]
    for folder in folders:
        os.mkdir(folder)
    return tried(part, [(program, folder, refuses) for folder in folders])


def syncs_by_seconds(program, room, refuses):
    """With --sync second: a sync each second while lines come, and one behind the last."""
    file, noted = os.path.join(room, "seconds"), os.path.join(room, "noted")
    server = journaled(program, file, "--sync", "second", preloaded=refuses, NOTED=noted)
    client = Client(server, 0, 0, ["create table t (a int)"])
    client.run()
    until = time.monotonic() + 4
    with server.connect() as stream:
        lines = stream.makefile("rb")
        stream.sendall(b"1 0\n")
        need(lines.readline() == b"ok\n", "a session")
        while time.monotonic() < until:
            stream.sendall(b"selec\n")
            need(lines.readline().startswith(b"no "), "a line that isn't one")
            time.sleep(0.005)
        time.sleep(3)
        syncs, writes = syncs_in(noted)
        between = [later - sooner for sooner, later in zip(syncs, syncs[1:])]
        need(len(syncs) >= 4 and all(0.9 < passed < 2 for passed in between), f"syncs under load: {between}")
        need(len(writes) > 20 * len(syncs), f"{len(writes)} writes, {len(syncs)} syncs")
        need(0 <= syncs[-1] - writes[-1] < 2, f"the last sync came {syncs[-1] - writes[-1]} seconds behind the last write")
    need(server.end()[0] == 0, "a server with --sync second")
    return len(syncs)


def tells_fault(log):
    """Whether a log tells why a journal isn't on the disk."""
    return any("journal: " in line and "are played" not in line for line in log.splitlines())


def replies_in(noted):
    """Of each write to a socket the calls on the journal since the one before."""
    with open(noted) as file:
        calls = [line.split()[0] for line in file if not line.startswith("write ")]
    replies, since = [], []
    for call in calls:
        if call == "sent":
            replies.append(since)
            since = []
        else:
            since.append(call)
    return replies


def syncs_by_commits(program, room, refuses):
    """Only what binds waits for the disk: over one connection a transaction of four lines is two syncs, both before the reply to
    its commit is sent, and its other replies are sent without one."""
    noted = os.path.join(room, "commits")
    server = journaled(program, os.path.join(room, "committed"), preloaded=refuses, NOTED=noted)
    Client(server, 0, 0, ["create table t (a int)"]).run()
    before = len(replies_in(noted))
    lines = ["begin", "insert into t values (1)", "select * from t", "commit"] * 20
    client = Client(server, 0, 1, lines)
    client.run()
    need(len(client.answered) == 81 and client.bound == 81, f"transactions: {client.answered[-3:]}")
    replies = replies_in(noted)[before:]
    need(len(replies) == 81, f"81 replies in {len(replies)} writes")
    # its session's `open` binds, too
    for line, calls in zip(["open", *lines], replies):
        wanted = ["pwrite", "fdatasync", "pwrite", "fdatasync"] if line in ("open", "commit") else []
        need(calls == wanted, f"before the reply to {line}: {calls}")
    need(server.end()[0] == 0, "a server whose commits wait")
    return 2 * 20


def feels_late_sync(program, room, refuses):
    """With --sync second: a sync that fails is told at once, and ends the server before its next reply."""
    file = os.path.join(room, "late")
    server = journaled(program, file, "--sync", "second", preloaded=refuses, ONLY="fdatasync", FAILED=2, UNTIL=99)
    with server.connect() as stream:
        lines = stream.makefile("rb")
        time.sleep(1.5)
        stream.sendall(b"0 0\n")
        need(lines.readline() == b"ok\n", "a session")
        until = time.monotonic() + 60
        while not tells_fault(server.told()):
            need(time.monotonic() < until, f"a sync that failed isn't told: {server.told()}")
            time.sleep(0.01)
        # what it tells is also noted then
        time.sleep(0.5)
        stream.sendall(b"begin\n")
        need(lines.readline() == b"ok\n", "a reply in a transaction")
        stream.sendall(b"commit\n")
        need(lines.readline() == b"", "a reply to a commit behind a sync that failed")
    status, _, log = server.end()
    told = [line for line in log.splitlines() if "calls on files" not in line]
    need(status == 1 and told[-1] == "fault: journal failed" and tells_fault(log), f"a sync that failed: {status}, {log[-400:]}")


def settles_a_run(program, room, refuses):
    """With --sync second a run syncs what it wrote before it ends, and fails where that sync does."""
    lines = b"0 0 open\n0 0 create table t (a int)\n0 0 begin\n0 0 insert into t values (1)\n0 0 commit\n"
    for name, refused in (("settled", {}), ("unsettled", {"ONLY": "fdatasync", "FAILED": "1"})):
        file, noted = os.path.join(room, name), os.path.join(room, f"noted-{name}")
        environment = {**os.environ, "LD_PRELOAD": refuses, "NOTED": noted, **refused}
        words = [program, "run", "--tenants", "1", "--journal", file, "--sync", "second"]
        ran = subprocess.run(words, input=lines, capture_output=True, env=environment)
        need(ran.returncode == (1 if refused else 0), f"a run with --sync second, {name}: status {ran.returncode}")
        need((b"fault: journal failed" in ran.stderr) == bool(refused), f"a run with --sync second, {name}: {ran.stderr!r}")
        if not refused:
            syncs, writes = syncs_in(noted)
            need(syncs and writes and syncs[-1] >= writes[-1], f"a run's last sync: {syncs}, its last write: {writes[-1:]}")


def blocks_of_run(data):
    """The places of the blocks of a run's file, and that behind the last one."""
    places = [0]
    while data[places[-1]] == 1:
        places.append(places[-1] + 5 + int.from_bytes(data[places[-1] + 1:places[-1] + 5], "big"))
    return places


def cuts_little(program, room):
    """Of a run's file no more is cut off than a crash leaves; where more stands behind its last whole block, it is refused and
    stays as it is. Returns how many were refused."""
    file, most = os.path.join(room, "run"), (1 << 20) + 5

    def run_on(lines=b""):
        words = [program, "run", "--tenants", "1", "--journal", file]
        return subprocess.run(words, input=lines, capture_output=True)

    need(run_on(b"0 0 open\n0 0 create table t (a int)\n0 0 insert into t values (1)\n0 0 end\n").returncode == 0, "a run with a journal")
    data = bytes_of(file)
    places = blocks_of_run(data)
    last, end = places[-2:]
    need(end == len(data) - 1, f"a run's file has {len(data)} bytes, and its blocks end at {end}")
    longer = bytearray(data)
    longer[places[1] + 2] ^= 1
    refused = [(data[:n], n - last) for n in range(last + 2, end)]
    refused += [(data + bytes(most + 1), most + 2), (bytes(longer), len(data) - places[1])]
    # the last line is the `end` of the session, which a start records where it isn't there
    taken = [data[:end], data + b"x" * 40, data + bytes(most), data[:last], data[:last + 1]]
    for begins, behind in refused:
        with open(file, "wb") as written:
            written.write(begins)
        ran = run_on()
        need(ran.returncode == 1 and ran.stderr.endswith(b"fault: cannot open journal\n"), f"a run's file of {len(begins)} bytes: {ran}")
        need(f"journal {file}: {behind} bytes stand behind its last whole block".encode() in ran.stderr, f"{behind} bytes: {ran.stderr!r}")
        need(bytes_of(file) == begins, "a run's file that was refused has changed")
    for begins in taken:
        with open(file, "wb") as written:
            written.write(begins)
        ran = run_on()
        need(ran.returncode == 0, f"a run's file as a crash leaves it, of {len(begins)} bytes: {ran}")
        need(bytes_of(file) == data, "behind a crash a run's file has other blocks")
    return len(refused)


def share_bounds_file(program, room):
    """With --tenant-memory a tenant writes no more than its share, also over several starts; others go on."""
    folder, share, long = os.path.join(room, "share"), 1 << 20, "select " + "x" * 4000
    for start in range(3):
        server = journaled(program, folder, "--sync", "never", "--tenant-memory", "1", "--renew", "never")
        greedy, other = Client(server, 0, start, [long] * 400), Client(server, 1, start, ["begin", "rollback"])
        greedy.run()
        size = sum(os.path.getsize(file) for file in segments(folder))
        need(size < share and greedy.answers == 401 - 400 * (start > 0), f"start {start}: {size} bytes, {greedy.answers} answers")
        other.run()
        need(len(other.answered) == 3, f"start {start}: beside a tenant that has taken its share: {other.answered}")
        need(server.end()[0] == 0, "a server with shares")
    return size


class Committing(threading.Thread):
    """Commits transactions over one connection until it is told to stop, and notes the longest wait for an answer."""

    def __init__(self, server, tenant):
        super().__init__()
        self.stream, self.tenant, self.server = server.connect(), tenant, server
        self.stops, self.longest, self.count = threading.Event(), 0.0, 0

    def run(self):
        file = self.stream.makefile("rb")
        self.stream.sendall(f"{self.tenant} 1\n".encode())
        need(file.readline() == b"ok\n", "a session")
        while not self.stops.is_set():
            for line in (b"begin", b"insert into c values (1)", b"commit"):
                began = time.monotonic()
                self.stream.sendall(line + b"\n")
                need(file.readline()[:2] in (b"ok", b"do"), "an answer beside a dump")
                self.longest = max(self.longest, time.monotonic() - began)
            self.count += 1
        self.stream.close()


def dump_of(server, tenant):
    """How long a tenant's dump takes, at a moment at which it has no transaction."""
    while True:
        began = time.monotonic()
        try:
            with urllib.request.urlopen(f"http://127.0.0.1:{server.status_port}/tenants/{tenant}/dump", timeout=300) as answer:
                need(len(answer.read()) > 1 << 16, "a long script")
                return time.monotonic() - began
        except urllib.error.HTTPError as error:
            need(error.code == 409, f"a dump: {error.code}")


def large_tenant(tables, columns):
    """Lines that make a tenant of so many tables of 4,096 rows with so many texts of 240 bytes."""
    names = [f"t{at}" for at in range(tables)]
    texts = [f"b{at}" for at in range(columns)]
    row = ", ".join(f"'{letter * 240}'" for letter in "abcdefgh"[:columns])
    made = [f"create table {name} (a int, {', '.join(f'{text} text' for text in texts)})" for name in ("u", *names)]
    doubled = ["insert into u select * from u"] * 10
    return [*made, "begin", f"insert into u values (1, {row})", *doubled, *[f"insert into {name} select * from u" for name in names] * 4, "commit"]


def dumps_keep_nobody(program, room):
    """While one tenant is dumped, those of other cells commit: the longest wait for an answer, and the shortest dump."""
    server = journaled(program, os.path.join(room, "dumped"), "--sync", "always", "--status", "0", tenants=4)
    large = large_tenant(2, 1) if is_unproved() else large_tenant(12, 4)
    for tenant in range(4):
        told = server.ask("\n".join([f"{tenant} 0", "create table c (a int)", *(large if tenant == 0 else []), ""]))
        need("no " not in told, f"tables: {told}")
    clients = [Committing(server, tenant) for tenant in range(4)]
    for client in clients:
        client.start()
    dumps = []
    for _ in range(3):
        for client in clients:
            client.longest = 0.0
        took = dump_of(server, 0)
        dumps.append((max(client.longest for client in clients[1:]), took))
    for client in clients:
        client.stops.set()
        client.join()
    need(server.end()[0] == 0, "a server whose tenant was dumped")
    need(all(waited < took / 2 for waited, took in dumps), f"while a tenant was dumped, others waited: {dumps}")
    return dumps


def fault(ended):
    status, out, log = ended
    need(status == 1 and out == "", f"status {status}, {out}, {log}")
    return log.splitlines()[-1], "\n".join(log.splitlines()[:-1])


def cannot_be(program, room):
    folder, other = os.path.join(room, "one"), os.path.join(room, "other")
    server = journaled(program, folder)
    client = Client(server, 0, 0, ["create table t (a int)"])
    client.start()
    client.join()

    def refuses(why, path, *words, **shape):
        told, log = fault(journaled(program, path, *words, **shape).end())
        need(told == "fault: cannot open journal" and why in log, f"{path}, {words}, {shape}: {told}, {log}")

    for words, shape in ((("--bound", "7"), {}), ((), {"tenants": 15}), ((), {})):
        refuses("another server has it open", folder, *words, **shape)
    need(server.end()[0] == 0, "a server beside whom others were refused")
    refuses("journal.000001 is of 16 tenants, bound 1000", folder, "--bound", "7")
    refuses("journal.000001 is of 16 tenants, bound 1000", folder, tenants=15)
    refuses("journal.000001 is of 16 tenants, bound 1000", folder, "--step-work", "1000")
    data = bytes_of(newest(folder))
    os.mkdir(other)
    write_segment(os.path.join(other, "next"), 2, 7, 16, [])
    strange = bytes_of(os.path.join(other, "next"))

    def refuses_files(why, **files):
        """A folder with these files is refused, and stays as it is."""
        tried = os.path.join(room, "tried")
        shutil.rmtree(tried, ignore_errors=True)
        os.mkdir(tried)
        for name, begins in files.items():
            with open(os.path.join(tried, name.replace("_", ".")), "wb") as written:
                written.write(begins)
        refuses(why, tried)
        there = {name: bytes_of(os.path.join(tried, name)) for name in os.listdir(tried)}
        need(there == {name.replace("_", "."): begins for name, begins in files.items()}, f"{why}, and there are other files")

    for why, begins in [
        ("it is no segment", data[:7] + b"3" + data[8:]),
        ("it is no segment", b"dear diary, this is no journal\n"),
        ("it is no segment", b"SQLite format 3\0" + bytes(4080)),
        ("it is damaged", data[:40] + b"\x01" + data[41:]),
        ("it ends within its head", data[:30]),
        ("it ends within a block", data[:-1] + b"\xff"),
    ]:
        refuses_files(f"journal.000001: {why}", journal_000001=begins)
    refuses_files("journal.000002: it hasn't the next number", journal_000001=data, journal_000002=data)
    refuses_files("journal.000002: it goes on behind another end", journal_000001=data, journal_000002=strange)
    refuses_files("journal.000002: it hasn't the next number", journal_000002=data)
    refuses_files("behind journal.000001 one is missing", journal_000001=data, journal_000003=data)
    refuses_files("journal.1 is no name of a segment", journal_000001=data, journal_1=data)
    file = os.path.join(room, "file")
    with open(file, "wb") as written:
        written.write(b"\x01\0\0\0\x14FILGJRN1" + bytes(13))
    refuses("it is no folder of segments", file)
    need(bytes_of(file).startswith(b"\x01\0\0\0\x14FILGJRN1"), "a journal of an earlier version is another file")
    refuses("No such file", room + "/none/one")
    need(states(program, folder, room)[0] == "create table t (a int)\n", "a folder that others couldn't open")


def full_disk(program, room):
    """Where a disk is full, replies that have to wait do, and the server goes on when there is room again. Returns how many lines
    were answered before."""
    file = os.path.join(room, "full")
    server = journaled(program, file, "--status", "0", limit=4000)
    made = ["create table t (a int, b text)"] + ["begin", f"insert into t values (1, '{'x' * 200}')", "commit"] * 30
    client = Client(server, 0, 0, made)
    client.start()
    server.wait_for("journal: no room: ")
    time.sleep(0.5)
    answered = client.answers
    commits = server.sample("filgwesha_journal_commits_total")
    need(commits > 0 and server.sample("filgwesha_journal_commit_seconds_total") > 0, f"{commits} commits")
    need(server.sample("filgwesha_journal_lacks_room") == 1, "a full disk is a sample")
    need(client.is_alive() and os.path.getsize(newest(file)) <= 4000, f"a full disk: {answered} answers, {server.told()}")
    resource.prlimit(server.process.pid, resource.RLIMIT_FSIZE, (resource.RLIM_INFINITY, resource.RLIM_INFINITY))
    client.join()
    need(server.sample("filgwesha_journal_lacks_room") == 0, "room again is a sample")
    need(server.sample("filgwesha_journal_commits_total") > commits and server.sample("filgwesha_journal_age_seconds") < 60, "commits behind it")
    status, _, log = server.end()
    need(status == 0 and len(client.answered) == len(made) + 1, f"room again: {status}, {len(client.answered)} answers, {log}")
    need([log.count(f"journal: {told}") for told in ("no room: ", "there is room again")] == [1, 1], f"a full disk is told once: {log}")
    found = are_records(file, [client])
    need(states(program, file, room) == states_of(program, found, room), "a full disk: another state behind it")
    return answered


def main():
    parser = argparse.ArgumentParser(description=__doc__, formatter_class=argparse.RawDescriptionHelpFormatter)
    parser.add_argument("program", nargs="?", default=BUILT)
    parser.add_argument("--kills", type=int, default=12)
    parser.add_argument("--cuts", type=int, default=60)
    parser.add_argument("--each", action="store_true")
    parser.add_argument("--calls", type=int, default=40)
    parser.add_argument("--requests", type=int, default=60)
    parser.add_argument("--seed", type=int, default=1)
    asked = parser.parse_args()
    program = os.path.abspath(asked.program)
    with tempfile.TemporaryDirectory() as room:
        answered, kept, folder = survives_kills(program, room, asked.kills, asked.seed)
        print(f"{asked.kills} kills: {answered} lines were answered, and all that bind are there; {kept} records")
        print(f"2 kills at a turn: {survives_turns(program, room, 2)} segments, and all that bind is there")
        copied = Copied(program, room, folder)
        parts, refused = survives_cuts(copied, asked.cuts, asked.each, asked.seed)
        print(f"{parts} parts of a segment: a first part of the records is found, or it ends within a batch: {refused} were refused")
        rotten, refused = tells_rot(copied, asked.cuts, asked.seed)
        print(f"{rotten} that were written over or have a flipped bit: {refused} were refused, the others have the same tables")
        refuses = library("refuse_disk", room)
        waited = lacks_memory(program, room, asked.requests)
        print(f"{asked.requests} requests for memory are refused in turn: what was answered is there; {waited} times replies waited for a record's")
        for sync in ("always", "second"):
            ended = fails_well(program, room, refuses, asked.calls, sync)
            print(f"--sync {sync}: each of {asked.calls} calls on files fails in turn: {ended} ended the server, and what it answered is there")
        print(f"--sync second: {trial(syncs_by_seconds, program, room, refuses)} syncs in 7 seconds, a second apart, the last behind the last line")
        print(f"--sync always: {syncs_by_commits(program, room, refuses)} syncs for 20 transactions of four lines over one connection")
        trial(feels_late_sync, program, room, refuses)
        settles_a_run(program, room, refuses)
        print(f"{cuts_little(program, room)} files of a run have more behind their last block than a crash leaves: refused, and as they were")
        cannot_be(program, room)
        waited, took = max(dumps_keep_nobody(program, room))
        print(f"while a tenant is dumped for {took:.1f} s, others wait for {waited:.2f} s at most")
        print(f"--tenant-memory 1: a greedy tenant's part of the journal is {share_bounds_file(program, room)} bytes over three starts")
        print(f"a full disk behind {full_disk(program, room)} answers: the next one waits until there is room, and all is there")


if __name__ == "__main__":
    main()
