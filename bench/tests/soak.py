#!/usr/bin/env python3
"""Soaks a server with random lines of many sessions, for so many minutes.

    python3 -m bench.tests.soak [--minutes M] [--clients N] [--seed S] [PROGRAM]

PROGRAM is crates/starhost/out/starhost where no word is given. Without other words it is one minute and 12 clients.
Some connections send lines of all kinds and read what they are answered: each
reply has the form of its line's, and a line between them whose reply has its own
number shows that they come in order. Others vanish in the middle, send half a
line, never read, or name no session. At the end the server has to end by itself,
with its last line. Told is one line: what was seen, and the server's peak memory.
"""

import argparse
import random
import re
import resource
import socket
import struct
import sys
import threading
import time

from bench.harness import BUILT, Server

TENANTS = 256
CONNECTIONS_A_MINUTE = 3_000
TIMEOUT = 60
WORDS = "open begin commit rollback process rules create drop table on when then insert into values delete from update set select where and not in exists".split()


class Wrong(Exception):
    """A reply that its line can't have."""


class Reading:
    """The lines that a connection is sent."""

    def __init__(self, stream):
        self.stream = stream
        self.bytes = b""

    def line(self):
        while b"\n" not in self.bytes:
            part = self.stream.recv(65536)
            if not part:
                raise Wrong(f"the end, behind {self.bytes!r}")
            self.bytes += part
        line, self.bytes = self.bytes.split(b"\n", 1)
        return line.decode()

    def reply(self):
        """The lines of the next reply."""
        first = self.line()
        counted = re.fullmatch(r"(?:rows|done|rolledback .*?) ?(\d+)", first)
        more = int(counted.group(1)) if counted else 0
        return [first] + [self.line() for _ in range(more)]


def value(chance):
    return chance.choice([str(chance.randrange(-9, 9)), str(chance.randrange(2**64)), "'x'", "''''", f"'{'y' * chance.randrange(260)}'"])


def row(chance):
    return f"({chance.randrange(-9, 99)}, '{chance.choice(['', 'x', 'yy'])}')"


def condition(chance, depth=0):
    kinds = [
        lambda: f"a {chance.choice(['=', '<>', '<', '<=', '>', '>='])} {value(chance)}",
        lambda: f"b in (select b from {chance.choice('tu')} where {condition(chance, depth + 1)})",
        lambda: f"exists (select * from {chance.choice('tuv')})",
        lambda: f"not ({condition(chance, depth + 1)} or {condition(chance, depth + 1)})",
        lambda: f"a < (select sum(a) from {chance.choice('tu')})",
    ]
    return chance.choice(kinds[: 1 if depth > 3 else None])()


def command(chance):
    table, rule = chance.choice("ttuuv"), f"r{chance.randrange(6)}"
    return chance.choice(
        [
            lambda: "begin",
            lambda: "commit",
            lambda: "rollback",
            lambda: f"insert into {table} values {', '.join(row(chance) for _ in range(chance.randrange(1, 20)))}",
            lambda: f"insert into {table} select * from {chance.choice('tu')} where {condition(chance)}",
            lambda: f"insert into {table} values ({value(chance)}, {value(chance)})",
            lambda: f"delete from {table} where {condition(chance)}",
            lambda: f"delete from {table}",
            lambda: f"update {table} set a = a + {chance.randrange(3)} where {condition(chance)}",
            lambda: f"update {table} set b = {value(chance)}, a = (select count(*) from u)",
            lambda: f"select * from {table} where {condition(chance)}",
            lambda: f"select x.a, y.b, 7 from {table} x, {chance.choice('tu')} y where x.a = y.a",
            lambda: f"select count(*) from {table}",
            lambda: f"create table {table} (a int, b text)",
            lambda: f"drop table {table}",
            lambda: f"create rule {rule} on {table} when inserted, updated(a) then delete from u where a in (select a from inserted)",
            lambda: f"create rule {rule} on {table} when deleted if select * from deleted where {condition(chance)} then insert into u select * from deleted",
            lambda: f"create rule {rule} on {table} when inserted then rollback precedes r0",
            lambda: f"create rule {rule} on {table} when updated then update {table} set a = a + 1 where a < 9",
            lambda: f"drop rule {rule}",
            lambda: f"{chance.choice(['activate', 'deactivate'])} rule {rule}",
            lambda: "create ruleset s",
            lambda: f"alter ruleset s {chance.choice(['addrules', 'delrules'])} {rule}, r1",
            lambda: chance.choice(["process rules", "process ruleset s", f"process rule {rule}"]),
            lambda: " ".join(chance.choice(WORDS) for _ in range(chance.randrange(1, 12))) + " ?",
            lambda: "".join(chr(chance.choice([0, 9, 13, 39, 40, 127, 200, 255])) for _ in range(chance.randrange(1, 99))),
            lambda: f"delete from t where {'(' * chance.randrange(30, 3000)}a = 1",
            lambda: "x" * chance.choice([4096, 4097, 9999]),
        ]
    )()


def fits(line, first):
    """Whether a reply may begin so."""
    if first.startswith("no "):
        return re.fullmatch(r"no \d\d [A-Z]\w+( \w+)?", first) is not None
    if len(line) > 4096:
        return False
    word = line.split()[0] if line.split() else ""
    if word in ("insert", "delete", "update"):
        return re.fullmatch(r"ok \d+", first) is not None
    if word == "select":
        return re.fullmatch(r"rows \d+", first) is not None
    if word in ("commit", "process"):
        return re.fullmatch(r"done \d+|rolledback (rule \w+|error \w+ \d\d \w+( \w+)?|limit) \d+", first) is not None
    return first == "ok"


class Soak:
    def __init__(self, port, connections, seed):
        self.port = port
        self.left = connections
        self.until = None
        self.seed = seed
        self.lock = threading.Lock()
        self.seen = dict.fromkeys(["steady", "vanished", "half a line", "never read", "no session", "refused"], 0)
        self.replies = 0
        self.marks = 0
        self.wrong = []

    def take(self):
        """A connection, as long as the server takes one."""
        with self.lock:
            if self.left == 0 or self.wrong:
                return None
            self.left -= 1
        return socket.create_connection(("127.0.0.1", self.port), timeout=TIMEOUT)

    def count(self, kind, replies=0, marks=0):
        with self.lock:
            self.seen[kind] += 1
            self.replies += replies
            self.marks += marks

    def client(self, number):
        chance = random.Random(self.seed * 1_000 + number)
        kinds = [self.steady] * 12 + [self.vanishes, self.sends_half, self.never_reads, self.names_nothing]
        try:
            while time.monotonic() < self.until:
                stream = self.take()
                if stream is None:
                    return
                with stream:
                    chance.choice(kinds)(chance, stream)
        except (Wrong, OSError, ValueError) as fault:
            self.wrong.append(f"client {number}: {fault!r}")

    def opens(self, chance, stream):
        """Opens some session, and gives what reads its replies."""
        stream.sendall(b"%d %d\n" % (chance.randrange(TENANTS), chance.randrange(8)))
        reading = Reading(stream)
        first = reading.line()
        if first == "ok":
            return reading
        if first not in ("no 45 AlreadyOpen", "no 90 TrailFull"):
            raise Wrong(f"a first line was answered {first!r}")
        self.count("refused")
        return None

    def asks(self, chance, stream, reading, lines):
        """Sends lines, and compares each reply's form. Some of them ask for a number of their own."""
        marks = 0
        text, wanted = [], []
        for line in lines:
            text.append(line)
            wanted.append(None)
            if chance.randrange(4) == 0:
                mark = str(chance.randrange(2**62))
                text += ["begin", f"select {mark} from m"]
                wanted += [None, mark]
        stream.sendall("".join(f"{line}\n" for line in text).encode("latin-1"))
        for line, mark in zip(text, wanted):
            reply = reading.reply()
            if reply[0].startswith("no 90"):
                continue
            if mark is None:
                if not fits(line, reply[0]):
                    raise Wrong(f"{line[:200]!r} was answered {reply[:3]}")
            elif reply != ["rows 1", mark]:
                raise Wrong(f"the line with {mark} was answered {reply[:3]}")
            else:
                marks += 1
        return len(text), marks

    def steady(self, chance, stream):
        reading = self.opens(chance, stream)
        if reading is None:
            return
        replies = marks = 0
        for _ in range(chance.randrange(1, 12)):
            asked = self.asks(chance, stream, reading, [command(chance) for _ in range(chance.randrange(1, 24))])
            replies, marks = replies + asked[0], marks + asked[1]
        if chance.randrange(2):
            stream.sendall(b"end\nbegin\n")
            if reading.reply() != ["ok"]:
                raise Wrong("an end isn't ok")
        else:
            stream.shutdown(socket.SHUT_WR)
        if reading.bytes or stream.recv(100):
            raise Wrong("a reply without a line")
        self.count("steady", replies + 1, marks)

    def vanishes(self, chance, stream):
        if self.opens(chance, stream) is not None:
            stream.sendall("".join(f"{command(chance)}\n" for _ in range(30)).encode("latin-1"))
            stream.setsockopt(socket.SOL_SOCKET, socket.SO_LINGER, struct.pack("ii", 1, 0))
            self.count("vanished")

    def sends_half(self, chance, stream):
        reading = self.opens(chance, stream)
        if reading is not None:
            stream.sendall(b"begin\nselect * from m where a")
            if chance.randrange(2):
                stream.shutdown(socket.SHUT_WR)
                if [reading.line(), reading.line()] != ["ok", "no 10 Syntax"]:
                    raise Wrong("half a line isn't refused")
            self.count("half a line")

    def never_reads(self, chance, stream):
        if self.opens(chance, stream) is None:
            return
        stream.setblocking(False)
        text = b"begin\n" + b"select x.a, x.b, y.b from t x, t y\n" * 5_000
        try:
            while text:
                text = text[stream.send(text) :]
        except OSError:
            pass  # the server takes no more before its replies are read
        time.sleep(0.2)
        self.count("never read")

    def names_nothing(self, chance, stream):
        line = chance.choice([b"x", b"", b"0 0 begin", b"256 0", b"0 8", b"00 0", b"\0\xff", b"x" * 5000, b"0 0\r"])
        stream.sendall(line + b"\n")
        if re.fullmatch(r"no 1[1234] \w+", Reading(stream).line()) is None:
            raise Wrong(f"{line!r} isn't refused")
        self.count("no session")

    def prepare(self):
        """Each tenant has a table of one row that no random line changes."""
        for tenant in range(TENANTS):
            with self.take() as stream:
                stream.sendall(b"%d 0\ncreate table m (a int)\nbegin\ninsert into m values (1)\ncommit\nend\n" % tenant)
                reading = Reading(stream)
                if [reading.line() for _ in range(6)] != ["ok", "ok", "ok", "ok 1", "done 0", "ok"]:
                    raise Wrong("a table can't be made")

    def use_up(self):
        """Connections that are left name no session."""
        while (stream := self.take()) is not None:
            with stream:
                stream.sendall(b"x\n")
                stream.recv(100)


def main():
    words = argparse.ArgumentParser(description=__doc__, formatter_class=argparse.RawDescriptionHelpFormatter)
    words.add_argument("--minutes", type=float, default=1)
    words.add_argument("--clients", type=int, default=12)
    words.add_argument("--seed", type=int, default=1)
    words.add_argument("program", nargs="?", default=BUILT)
    words = words.parse_args()
    connections = TENANTS + max(1_000, int(words.minutes * CONNECTIONS_A_MINUTE))
    shape = ["--tenants", str(TENANTS), "--cells", "16", "--workers", "16", "--connections", str(connections)]
    server = Server(words.program, *shape, has_input=False)
    soak = Soak(server.port, connections, words.seed)
    try:
        soak.prepare()
        soak.until = time.monotonic() + 60 * words.minutes
        clients = [threading.Thread(target=soak.client, args=(number,)) for number in range(words.clients)]
        for client in clients:
            client.start()
        for client in clients:
            client.join()
        soak.use_up()
    except (Wrong, OSError) as fault:
        soak.wrong.append(repr(fault))
    if soak.wrong:
        server.kill()
        sys.exit(soak.wrong[0])
    last, _ = server.end_well()
    most = resource.getrusage(resource.RUSAGE_CHILDREN).ru_maxrss
    if not re.fullmatch(rf"trails {TENANTS} steps \d+", last):
        sys.exit(f"the server ended with {last}")
    kinds = ", ".join(f"{count} {kind}" for kind, count in soak.seen.items())
    print(f"{words.minutes:g} minutes: {kinds}; {soak.replies} replies in order, {soak.marks} of them with their own number; {last}; {most / 1024:.0f} MB")


if __name__ == "__main__":
    main()
