#!/usr/bin/env python3
"""Visits a server whose tenants have keys.

    python3 -m bench.tests.keys [PROGRAM] [--guesses N]

PROGRAM is crates/starhost/out/starhost where no word is given. Told in one line each: who is let in and who isn't, and that
it makes no step; N guesses (10,000), one connection after another, while a client of another cell goes on; a file of
100,000 keys; a file that changes while the server runs, or becomes a FIFO; files that no server begins with; and `starhost key`. No log may
have a key in it. The first thing that isn't as it is to be ends this with status 1.
"""

import argparse
import hashlib
import os
import re
import subprocess
import tempfile
import threading
import time

from bench.harness import BUILT, PATIENCE, Server, expect, until

BAD_KEY = "no 15 BadKey\n"
LIMIT = 64


def digest(key):
    return hashlib.sha256(key.encode()).hexdigest()


def line_of(tenant, key):
    return f"{tenant} {digest(key)}\n"


def key_of(name):
    """A key of its own for each name, which no log has by chance."""
    return f"key-of-{name}-{hashlib.sha256(name.encode()).hexdigest()[:16]}"


def write(path, text):
    """Gives the file this text at once, and another time of change."""
    beside = f"{path}.new"
    with open(beside, "w") as file:
        file.write(text)
    before = os.stat(path).st_mtime_ns if os.path.exists(path) else 0
    if os.stat(beside).st_mtime_ns == before:
        os.utime(beside, ns=(before + 1_000_000, before + 1_000_000))
    os.rename(beside, path)


def keyed(program, path, *words, log="info"):
    """A server with this file of keys."""
    return Server(program, "--tenants", "16", "--log", log, *words, *(["--keys", path] if path else []))


def asked(server, first, lines=""):
    """What a client reads that sends this first line, these lines, and no more."""
    return server.ask(f"{first}\n{lines}")


def ended(server, keys=()):
    """Its last line, and its log, in which none of these keys may stand."""
    told, log = server.end_well()
    for key in keys:
        expect(f"the log has {key}", any(key in line for line in log), False)
    return told, "\n".join(log)


def who_is_let_in(program, folder):
    path = os.path.join(folder, "keys")
    one, other, more, late = (key_of(name) for name in ("one", "other", "more", "late"))
    longest = "x" * 128
    write(path, f"# those of two tenants\n\n{line_of(3, one)}  {line_of(3, more)}5 {digest(other).upper()} # the fifth\r\n"
                f"4 {digest(longest)}\n4 {digest('')}\n40 {digest(late)}\n")
    server = keyed(program, path)
    begins = "begin\nend\n"
    expect("the right key", asked(server, f"3 0 {one}", begins), "ok\nok\nok\n")
    expect("another of its keys", asked(server, f"3 1 {more}", begins), "ok\nok\nok\n")
    expect("the key of another tenant of its own", asked(server, f"5 0 {other}", begins), "ok\nok\nok\n")
    expect("the longest key", asked(server, f"4 0 {longest}", begins), "ok\nok\nok\n")
    refused = {
        "a wrong key": f"3 0 {one}x", "a part of the key": f"3 0 {one[:-1]}", "no key": "3 0", "an empty key": "4 0 ",
        "the digest for the key": f"3 0 {digest(one)}", "the key of another tenant": f"3 0 {other}", "two spaces": f"3 0  {one}",
        "a word behind the key": f"3 0 {one} x", "a key that is too long": f"3 0 {one}{'x' * 200}", "no names": "x",
        "a tenant without a line": f"0 0 {one}", "a tenant past the host's number": f"16 0 {one}", "a far one": f"999999999 0 {one}",
        "a session that no tenant has, with a wrong key": f"3 8 {other}", "an empty line": "",
    }
    for what, first in refused.items():
        expect(what, asked(server, first, begins), BAD_KEY)
    expect("a line that is too long", asked(server, f"3 0 {'x' * 5000}"), "no 11 TooLong\n")
    # who has a key learns what is wrong with the rest
    expect("a session that no tenant has", asked(server, f"3 8 {one}"), "no 14 NoSession\n")
    expect("a tenant that the host doesn't have, with its key", asked(server, f"40 0 {late}"), "no 13 NoTenant\n")
    with server.connect() as stream:
        stream.sendall(f"3 2 {one}\n".encode())
        until("a session", lambda: stream.recv(3) == b"ok\n")
        expect("a session that is open", asked(server, f"3 2 {one}"), "no 45 AlreadyOpen\n")
        expect("the same, with a wrong key", asked(server, f"3 2 {other}"), BAD_KEY)
    told, log = ended(server, [one, other, more, late, longest])
    # four sessions of three steps, and one of two
    expect("the steps", told, "trails 16 steps 14")
    expect("who was turned away", len(re.findall(r"port \d+: turned away: tenant 3, session 0: BadKey", log)) >= 4, True)
    return f"{len(refused)} refused"


def without_keys(program, folder):
    server = keyed(program, None)
    expect("no key is asked for", asked(server, "3 0", "end\n"), "ok\nok\n")
    expect("a key that isn't asked for", asked(server, f"3 0 {key_of('one')}"), "no 12 BadLine\n")
    expect("the steps", ended(server)[0], "trails 16 steps 2")
    return "as before"


class Client(threading.Thread):
    """It sends a line, and then waits for its answer, until it is told to stop."""

    def __init__(self, server, tenant, key):
        super().__init__()
        self.stream, self.goes, self.answered = server.connect(), True, 0
        self.file = self.stream.makefile("rb")
        self.say(f"{tenant} 0 {key}")

    def say(self, line):
        self.stream.sendall(line.encode() + b"\n")
        expect("a client of another tenant", self.file.readline(), b"ok\n")

    def run(self):
        while self.goes:
            self.say("begin")
            self.say("rollback")
            self.answered += 2

    def rate(self, seconds, work):
        """Its answers a second while this is done."""
        before, begun = self.answered, time.time()
        work()
        return (self.answered - before) / max(time.time() - begun, seconds)


def guesses(program, folder, count):
    path = os.path.join(folder, "guessed")
    own, wanted = key_of("own"), key_of("wanted")
    write(path, line_of(0, own) + line_of(1, wanted))
    server = keyed(program, path, "--cells", "2", "--workers", "2", log="error")
    client = Client(server, 0, own)
    client.start()
    alone = beside = 0

    def guess(numbers):
        for i in numbers:
            expect("a guess", asked(server, f"1 0 guess-{i}"), BAD_KEY)

    # by turns, since another load of the machine is to meet both
    for part in range(10):
        alone += client.rate(0.1, lambda: time.sleep(0.1)) / 10
        beside += client.rate(0.001, lambda: guess(range(part * count // 10, (part + 1) * count // 10))) / 10
    client.goes = False
    client.join()
    expect("it goes on beside", beside > alone / 20, True)
    expect("the key after all guesses", asked(server, f"1 0 {wanted}", "end\n"), "ok\nok\n")
    client.stream.close()
    ended(server, [own, wanted])
    return f"{count:,} guesses; a client beside has {beside:,.0f} answers/s, alone {alone:,.0f}"


def many_keys(program, folder):
    path = os.path.join(folder, "many")
    tenants, own = 100_000 // LIMIT, key_of("own-of-many")
    with open(path, "w") as file:
        for tenant in range(tenants):
            file.writelines(line_of(tenant, f"{tenant}.{i}") for i in range(LIMIT if tenant else LIMIT - 1))
        file.write(line_of(0, own))
    begun = time.time()
    server = keyed(program, path)
    started = time.time() - begun
    expect("the last of its keys", asked(server, f"0 0 {own}", "end\n"), "ok\nok\n")
    expect("the first of another tenant", asked(server, "15 0 15.0", "end\n"), "ok\nok\n")
    expect("a key of another tenant", asked(server, "15 0 14.0"), BAD_KEY)
    ended(server, [own])
    return f"{tenants * LIMIT:,} keys, begun after {started:.1f} s"


def changed_file(program, folder):
    """A file that changes, is bad, is gone and is good again, beside a session that stays open."""
    path = os.path.join(folder, "changing")
    old, new, last = (key_of(name) for name in ("old", "new", "last"))
    write(path, line_of(0, old))
    server = keyed(program, path)
    with server.connect() as stream:
        file = stream.makefile("rw")

        def say(line):
            file.write(f"{line}\n")
            file.flush()
            expect(f"{line} in a session that stays", file.readline(), "ok\n")

        say(f"0 7 {old}")
        begun = time.time()
        write(path, line_of(0, new))
        until("the new key", lambda: asked(server, f"0 0 {new}", "end\n") == "ok\nok\n")
        took = time.time() - begun
        expect("the old key", asked(server, f"0 0 {old}"), BAD_KEY)
        say("begin")
        write(path, f"{line_of(0, last)}x\n")
        until("a bad file is told", lambda: f"keys {path}: bad line 2" in server.told())
        time.sleep(2.5)
        expect("the keys stay", asked(server, f"0 0 {new}", "end\n"), "ok\nok\n")
        expect("none of a bad file's", asked(server, f"0 0 {last}"), BAD_KEY)
        os.remove(path)
        until("a file that is gone is told", lambda: server.told().count(f" keys {path}: ") == 3)
        time.sleep(2.5)
        expect("the keys stay where it is gone", asked(server, f"0 0 {new}", "end\n"), "ok\nok\n")
        write(path, line_of(0, last))
        until("the last key", lambda: asked(server, f"0 0 {last}", "end\n") == "ok\nok\n")
        say("rollback")
        say("end")
        file.close()
    told = re.findall(rf" keys {re.escape(path)}: (.*)", ended(server, [old, new, last])[1])
    expect("each change is told once", told[:2] + told[3:], ["read again", "bad line 2", "read again"])
    return f"a new key after {took:.1f} s"


def odd_files(program, folder):
    """A FIFO in the place of the file, which nobody may open, and then a file that only its inode tells from the first one."""
    path = os.path.join(folder, "odd")
    old, new = key_of("odd"), key_of("new")
    write(path, line_of(0, old))
    server, before = keyed(program, path), os.stat(path)
    os.remove(path)
    os.mkfifo(path)
    until("a FIFO is told", lambda: f"keys {path}: it isn't a regular file" in server.told())
    time.sleep(2.5)
    expect("the keys stay", asked(server, f"0 0 {old}", "end\n"), "ok\nok\n")
    beside = f"{path}.same"
    with open(beside, "w") as file:
        file.write(line_of(0, new))
    os.utime(beside, ns=(before.st_mtime_ns, before.st_mtime_ns))
    expect("the same length", os.stat(beside).st_size, before.st_size)
    os.rename(beside, path)
    until("the new key", lambda: asked(server, f"0 0 {new}", "end\n") == "ok\nok\n")
    expect("the old key", asked(server, f"0 0 {old}"), BAD_KEY)
    told = re.findall(rf" keys {re.escape(path)}: (.*)", ended(server, [old, new])[1])
    expect("each change is told once", told, ["it isn't a regular file", "read again"])
    os.remove(path)
    os.mkfifo(path)
    refused = subprocess.run([program, "serve", "--keys", path], capture_output=True, text=True, timeout=PATIENCE)
    expect("a FIFO at the start", (refused.returncode, "fault: no keys\n" in refused.stderr), (1, True))
    return "the keys stay beside a FIFO"


def bad_files(program, folder):
    path, good = os.path.join(folder, "bad"), line_of(0, key_of("good"))
    texts = {
        f"{good}\n3 00\n": 3, "x\n": 1, f"# 1\n{good}0\n": 3, f"0\t{digest('tab')}\n": 1, f"0  {digest('two spaces')}\n": 1,
        f"-1 {digest('minus')}\n": 1, f"1234567890 {digest('ten digits')}\n": 1, f"{good}0 {digest('cut')[:-1]}\n": 2,
        f"0 {digest('long')}0\n": 1, "".join(line_of(7, str(i)) for i in range(LIMIT + 1)): LIMIT + 1,
    }
    words = [program, "serve", "--connections", "1", "--keys", path]
    for text, number in texts.items():
        write(path, text)
        refused = subprocess.run(words, capture_output=True, text=True, timeout=PATIENCE)
        expect(f"status of {text[:60]!r}", refused.returncode, 1)
        expect(f"fault of {text[:60]!r}", f"fault: bad keys {number}\n" in refused.stderr, True)
    os.remove(path)
    refused = subprocess.run(words, capture_output=True, text=True, timeout=PATIENCE)
    expect("no file", (refused.returncode, "fault: no keys\n" in refused.stderr), (1, True))
    return f"{len(texts) + 1} refused"


def digests(program, folder):
    for key in ("abc", "x", "!~", "x" * 128):
        for text in (key, f"{key}\n", f"{key}\nsecond line\n"):
            told = subprocess.run([program, "key"], input=text, capture_output=True, text=True, timeout=PATIENCE)
            expect(f"the digest of {text!r}", (told.returncode, told.stdout), (0, f"{digest(key)}\n"))
    for text in ("", "\n", "two words\n", "x" * 129, "tab\t\n", "é\n", "carriage\r\n", "x" * 5000):
        told = subprocess.run([program, "key"], input=text, capture_output=True, text=True, timeout=PATIENCE)
        expect(f"no key: {text[:60]!r}", (told.returncode, told.stdout, told.stderr), (1, "", "fault: bad key\n"))
    return "as sha256 has them"


def main():
    words = argparse.ArgumentParser()
    words.add_argument("program", nargs="?", default=BUILT)
    words.add_argument("--guesses", type=int, default=10_000)
    given = words.parse_args()
    program = os.path.abspath(given.program)
    visits = [who_is_let_in, without_keys, lambda *which: guesses(*which, given.guesses), many_keys, changed_file, odd_files, bad_files, digests]
    names = ["who is let in", "without keys", "guesses", "many keys", "a changed file", "odd files", "bad files", "digests"]
    with tempfile.TemporaryDirectory() as folder:
        for name, visit in zip(names, visits):
            print(f"{name}: {visit(program, folder)}", flush=True)


if __name__ == "__main__":
    main()
