#!/usr/bin/env python3
"""Tries how a server is started and stopped where nobody looks.

    python3 -m bench.tests.night [PROGRAM]

PROGRAM is crates/starhost/out/starhost where no word is given. Told in one line each: `POST /stop` stops a server as
the end of its input does, and only whom the keys call status; `GET /ready` says that a server isn't ready while it
plays its journal, and that it is behind that, and each question that was begun before is answered; systemd's socket, by
a path and by a name without a file, hears when clients are let in and when the server stops; a stop while the rules of
one tenant run long writes all others at once, and a kill then leaves their files; and the tenant itself is written
where its rules have ended. The first thing that isn't as it is to be ends this with status 1.
"""

import contextlib
import hashlib
import os
import re
import socket
import subprocess
import sys
import tempfile
import time

from bench.harness import BUILT, PATIENCE, connect, expect, free_port, need, read_all, until
from bench.harness import Server as Plain
from bench.tests.status import PAIRS, WIDE, Server, run, say

# so many seconds something is to run that others don't wait for
LONG = 8


def told_by(server):
    """How a server ends that was told to stop."""
    told = server.process.communicate(timeout=PATIENCE)[0].strip()
    return server.process.returncode, re.sub(r"\d+$", "N", told)


def stops(program):
    """A stop that is posted: sessions are closed, and the last line is told."""
    for has_input in (False, True):
        server = Server(program, has_input=has_input)
        stream, file, reply = server.client("0 0")
        run(file, "create table t (a int)\nbegin\ninsert into t values (1)")
        expect("a stop", server.get("/stop", method="POST"), (202, b"told\n"))
        expect("a session behind a stop", file.read(), "")
        stream.close()
        file.close()
        if has_input:
            expect("its end", server.end()[0], 0)
        else:
            expect("its end", told_by(server), (0, "trails 16 steps N"))
    print("stop: posted, it ends a server with an input and one without, and each session is closed")


def stops_by_key(program):
    """Only whom the keys call status stops a server."""
    with tempfile.TemporaryDirectory() as folder:
        path = os.path.join(folder, "keys")
        with open(path, "w") as file:
            for who, key in ((0, "key-of-0"), ("status", "key-of-status")):
                file.write(f"{who} {hashlib.sha256(key.encode()).hexdigest()}\n")
        server = Server(program, "--keys", path, has_input=False)
        expect("a stop without a key", server.get("/stop", method="POST")[0], 401)
        expect("a stop by a tenant", server.get("/stop", method="POST", user="0", key="key-of-0")[0], 401)
        expect("the question whether it is ready", server.get("/ready"), (200, b"ready\n"))
        expect("a stop", server.get("/stop", method="POST", user="status", key="key-of-status")[0], 202)
        expect("its end", told_by(server), (0, "trails 16 steps N"))
    print("stop by key: only whom the keys call status stops a server; whether it is ready it tells anybody")


NOT_YET, READY = b"503\r\n\r\nnot yet\n", b"200\r\n\r\nready\n"
# so many questions whether a server is ready are half sent at any time
HALVES = 3


def half_asked(port):
    """A connection that has sent half of the question whether the server is ready."""
    stream = connect(port)
    stream.sendall(b"GET /ready HTTP/1.1\r\n")
    return stream


def answered(stream):
    """What the server answers where the other half is sent."""
    with stream:
        stream.sendall(b"Host: localhost\r\n\r\n")
        answer = read_all(stream)
    need(answer, "a request that was begun is answered")
    return answer[9:12] + answer[answer.index(b"\r\n\r\n"):]


def answers(port):
    """True if somebody answers at the port."""
    with contextlib.suppress(OSError):
        return bool(answered(half_asked(port)))
    return False


def answers_until_ready(port):
    """What a server answers until it is ready, where each question is begun some time before it is ended."""
    asked, seen = [], []
    while READY not in seen:
        asked.append(half_asked(port))
        if len(asked) > HALVES:
            seen.append(answered(asked.pop(0)))
        time.sleep(0.1)
    return seen + [answered(stream) for stream in asked]


def readies(program):
    """A server that plays a journal for a while isn't ready, and is behind that."""
    with tempfile.TemporaryDirectory() as folder:
        words = ["--journal", os.path.join(folder, "journal"), "--sync", "never"]
        server = Server(program, *words)
        stream, file, reply = server.client("0 0")
        run(file, f"{WIDE}\ncreate table hit (a int)")
        slow = f"begin\ninsert into hit {PAIRS.replace('*', 'x.a', 1)}5\ncommit"
        began, lines = time.monotonic(), 0
        while time.monotonic() < began + LONG / 2:
            run(file, slow)
            lines += 1
        stream.close()
        file.close()
        server.stop()
        port = free_port()
        begun = ["serve", "--until-input-ends", "--tenants", "16", "--status", str(port), *words]
        with subprocess.Popen([program, *begun], stdin=subprocess.PIPE, stdout=subprocess.PIPE, stderr=subprocess.DEVNULL, text=True) as started:
            until("it answers", lambda: answers(port))
            seen = answers_until_ready(port)
            need(started.stdout.readline().startswith("listening "), "it listens")
            ended = started.communicate(timeout=PATIENCE)[0]
        expect("a server that plays a journal", seen[0], NOT_YET)
        expect("what is answered until it is ready", seen, seen.count(NOT_YET) * [NOT_YET] + seen.count(READY) * [READY])
        expect("its end", (started.returncode, ended.startswith("trails 16 steps ")), (0, True))
    print(f"ready: 503 while {lines} slow commits of a journal are played, 200 behind them, and no question is lost between")


def notices(program):
    """What systemd hears of a server, with status pages and without."""
    with tempfile.TemporaryDirectory() as folder:
        for name in (os.path.join(folder, "notify"), f"@filgwesha-night-{os.getpid()}"):
            for words in ([], ["--status", "0"], ["--dump-to", folder]):
                with socket.socket(socket.AF_UNIX, socket.SOCK_DGRAM) as heard:
                    heard.bind(name.replace("@", "\0"))
                    heard.settimeout(PATIENCE)
                    server = Plain(program, *words, NOTIFY_SOCKET=name)
                    expect(f"what is heard at {name}", heard.recv(4096), b"READY=1\nSTATUS=clients are let in\n")
                    server.end_well()
                    if words:
                        expect("what is heard at the end", heard.recv(4096), b"STOPPING=1\nSTATUS=the tenants are written\n")
                if name[0] != "@":
                    os.remove(name)
    print("systemd's socket: READY=1 where clients are let in, STOPPING=1 where the server stops")


def long_commit(server, file):
    """Begins a commit whose rules run long."""
    run(file, f"{WIDE}\nbegin")
    began = time.monotonic()
    say(file, f"{PAIRS}-1")
    one = time.monotonic() - began
    run(file, "rollback")
    times = min(900, int(2 * LONG / one) + 1)
    rule = f"create rule again on t when inserted, updated(a) if {PAIRS}5 then update t set a = a + 1 where a < 900"
    run(file, f"create table t (a int)\n{rule}\nbegin\ninsert into t values ({900 - times})")
    file.write("commit\n")
    file.flush()


def texts_in(folder, names):
    """The texts of these files, as far as they are there."""
    texts = {}
    for name in names:
        with contextlib.suppress(FileNotFoundError):
            with open(os.path.join(folder, name), encoding="ascii") as file:
                texts[name] = file.read()
    return texts


def long_stop(program, is_killed):
    """A stop while one tenant's rules run: the others that are at rest are written meanwhile."""
    with tempfile.TemporaryDirectory() as folder:
        server = Plain(program, "--tenants", "8", "--cells", "4", "--workers", "2", "--dump-to", folder)
        clients = {tenant: (stream := server.connect(), stream.makefile("rw")) for tenant in (0, 1, 2, 6)}
        for tenant, (_, file) in clients.items():
            file.write(f"{tenant} 0\n")
            file.flush()
            expect(f"tenant {tenant}", file.readline(), "ok\n")
        # 2 and 6 have the worker of 0; 6 has a transaction, which isn't at rest
        for tenant in (1, 2, 6):
            run(clients[tenant][1], f"create table own{tenant} (a int)\nbegin\ninsert into own{tenant} values ({tenant})\ncommit")
        run(clients[6][1], "begin\ninsert into own6 values (7)")
        long_commit(server, clients[0][1])
        time.sleep(0.5)
        asked = time.monotonic()
        server.process.stdin.close()
        server.process.stdin = None
        wanted = {f"{t}.lines": f"create table own{t} (a int)\nbegin\ninsert into own{t} values ({t})\ncommit\n" for t in (1, 2)}
        until("the others are written", lambda: len(texts_in(folder, wanted)) == 2 or server.process.poll() is not None)
        took = time.monotonic() - asked
        expect("the files of others", (texts_in(folder, wanted), texts_in(folder, ["0.lines", "6.lines"])), (wanted, {}))
        need(server.process.poll() is None, "the rules of a tenant still run")
        if is_killed:
            server.kill()
        else:
            expect("its end", told_by(server), (0, "trails 8 steps N"))
            texts = texts_in(folder, [f"{t}.lines" for t in (0, 1, 2, 6)])
            expect("all files", sorted(texts), ["0.lines", "1.lines", "2.lines", "6.lines"])
            expect("a transaction that was open", texts["6.lines"], wanted["1.lines"].replace("own1", "own6").replace("(1)", "(6)"))
            need("insert into t values (900)" in texts["0.lines"], "the tenant is written behind its rules")
        for stream, file in clients.values():
            stream.close()
            file.close()
        expect("files behind the end", texts_in(folder, wanted), wanted)
    print(f"a long stop{', killed' if is_killed else ''}: the others are written {took:.1f} s behind it, while the rules of one run")


def main():
    program = os.path.abspath(sys.argv[1]) if len(sys.argv) > 1 else BUILT
    sys.stdout.reconfigure(line_buffering=True)
    try:
        stops(program)
        stops_by_key(program)
        readies(program)
        notices(program)
        long_stop(program, True)
        long_stop(program, False)
    finally:
        Server.kill_all()
        Plain.kill_all()


if __name__ == "__main__":
    main()
