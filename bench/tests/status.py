#!/usr/bin/env python3
"""Looks at the status pages of a server.

    python3 -m bench.tests.status [PROGRAM] [--write] [--shots FOLDER]

PROGRAM is crates/starhost/out/starhost where no word is given. Told in one line each: the pages of a small tenant and the
samples, byte by byte as bench/tests/status_pages has them (numbers that vary are written as N); what Prometheus' `promtool` says
of the samples, where it is installed; what is counted; the text of a line that wasn't begun; a ninth connection of a tenant; how old a session's last line is, and the server; slow lines; a page
while a step runs; a session that is ended; tenants that begin at another number; a tenant that is renewed, and one that renews itself; requests of other sites, and
those that name another machine; hostile requests, and silent connections while a client of the server goes on; half requests
beside which others are answered; whom keys let in. The first thing that isn't as it is to be ends this with status 1; what has
a bound on time is tried up to three times, and each miss is told. With --write the files of bench/tests/status_pages are written
anew, and with --shots a headless Chromium draws the pages to that folder.
"""

import argparse
import base64
import difflib
import hashlib
import os
import pathlib
import re
import resource
import select
import shutil
import socket
import subprocess
import sys
import tempfile
import time

from bench.harness import BUILT, PATIENCE, connect, expect, more_lines, need, read_all, tried, until
from bench.harness import Server as Program

PAGES = pathlib.Path(__file__).resolve().parent / "status_pages"
# how long it may take until a page tells what was done
SOON = 10
# a client whose first bytes come later than so many seconds may be let go unheard: the server waits for half a second
LATE = 0.4
LINES = """create table card (id int, balance int)
create table log (id int, was int, note text)
create rule note on card when updated(balance) then insert into log select o.id, o.balance, '<script>alert("1 & 2")</script>' from old-updated o
create rule trim on log when inserted then delete from log where was < 0
create rule back on log when deleted then update card set balance = 0 where balance < 0
create rule guard on card when inserted, deleted if select * from card where balance > 1000 then rollback
create rule sleeper on log when inserted then insert into card values (9, 9)
alter rule guard precedes note
alter rule trim follows note
deactivate rule sleeper
create ruleset nightly
alter ruleset nightly addrules note, trim
begin
insert into card values (1, 100), (2, 50)
commit
begin
update card set balance = balance - 30 where id = 1
"""
VARYING = [
    (rb"<dt>up</dt><dd>[^<]*", b"<dt>up</dt><dd>N"),
    (rb"<dt>memory</dt><dd>[^<]*", b"<dt>memory</dt><dd>N"),
    (rb"(?m)^filgwesha_uptime_seconds \d+", b"filgwesha_uptime_seconds N"),
    (rb"(?m)^process_resident_memory_bytes \d+", b"process_resident_memory_bytes N"),
    (rb"(?m)^(filgwesha_step_seconds_(?:bucket\{le=\"\d[\d.]*\"\}|sum)) [\d.]+", rb"\1 N"),
    (rb"\d+ s ago</td>", b"N s ago</td>"),
    (rb"(?m)^(filgwesha_worker_busy_seconds_total\{worker=\"\w+\"\}) [\d.]+", rb"\1 N"),
    (rb"(?s)(<h2>Workers</h2>.*?<tbody>\n)(.*?)(?=</tbody>)", lambda found: found[1] + re.sub(rb"\d+\.\d+", b"N", found[2])),
    (rb"(?s)(<h2>Slowest lines so far</h2>.*?<tbody>\n).*?(?=</tbody>)", rb"\1N\n"),
]


def soon(what, ask, wanted):
    """Asks until this is answered, since a page may tell what a tenant was while it is busy. What was answered last."""
    end = time.monotonic() + SOON
    while (seen := ask()) != wanted and time.monotonic() < end:
        time.sleep(0.05)
    expect(what, seen, wanted)
    return seen


class Server(Program):
    """A server with status pages."""

    def __init__(self, program, *words, **given):
        super().__init__(program, "--tenants", "16", "--status", "0", *words, **given)
        self.status = self.status_port

    def client(self, first):
        """A connection whose first line is this one, and was answered so, as a file of lines."""
        stream = self.connect()
        file = stream.makefile("rw")
        file.write(f"{first}\n")
        file.flush()
        return stream, file, file.readline()

    def sample(self, name):
        """The value of a sample of Prometheus."""
        found = re.search(rf"(?m)^{re.escape(name)} (\S+)$", self.get("/metrics")[1].decode())
        return float(found.group(1)) if found else None

    def knock(self):
        return connect(self.status)

    def stand_silent(self):
        """A connection that says nothing, also where it waits to be taken."""
        stream = socket.socket()
        stream.setblocking(False)
        stream.connect_ex(("127.0.0.1", self.status))
        return stream

    def raw_ask(self, first):
        """What is answered to a first line."""
        stream, file, reply = self.client(first)
        stream.close()
        file.close()
        return reply

    def raw(self, request, whole=True):
        """What is answered to these bytes. A client that was late, as one is that a busy machine holds up, asks again."""
        end = time.monotonic() + PATIENCE
        while True:
            answer, was_late = self.raw_once(request, whole)
            if answer or not was_late or time.monotonic() > end:
                return answer

    def raw_once(self, request, whole):
        """What is answered to these bytes, and whether they were sent late."""
        answer, began, sent = b"", time.monotonic(), None
        with self.knock() as stream:
            try:
                stream.sendall(request)
                sent = time.monotonic()
                if whole:
                    stream.shutdown(socket.SHUT_WR)
                while piece := stream.recv(65536):
                    answer += piece
            except OSError:  # it was let go before all was sent or read
                pass
        return answer, (sent or time.monotonic()) > began + LATE

    def get(self, path, method="GET", user=None, key=None, header="", host="127.0.0.1"):
        """The status and the body of a page, whose length and end are as they are to be."""
        head = f"{method} {path} HTTP/1.1\r\nHost: {host}\r\n{header}"
        if user is not None:
            head += f"Authorization: Basic {base64.b64encode(f'{user}:{key}'.encode()).decode()}\r\n"
        answer = self.raw(f"{head}\r\n".encode(), whole=False)
        if b"\r\n\r\n" not in answer:
            sys.exit(f"{method} {path}: {answer!r} is no answer")
        head, body = answer.split(b"\r\n\r\n", 1)
        length = int(re.search(rb"\r\nContent-Length: (\d+)\r\n", head + b"\r\n").group(1))
        expect(f"length of {path}", len(body), 0 if method == "HEAD" else length)
        expect(f"{path} is closed", b"\r\nConnection: close" in head, True)
        return int(head.split()[1]), body

    def stop(self):
        """Ends it, and gives what it wrote."""
        return self.end_well()[0]


def run(file, lines):
    """Sends lines, each of which is done."""
    for line in lines.splitlines():
        file.write(f"{line}\n")
        file.flush()
        reply = file.readline()
        if not reply.startswith(("ok", "done")):
            sys.exit(f"{line}: {reply!r}")
        for _ in range(more_lines(reply)):
            file.readline()


def without_numbers(server, path):
    """A page, whose numbers that vary are N."""
    status, page = server.get(path)
    expect(f"status of {path}", status, 200)
    for pattern, text in VARYING:
        page = re.sub(pattern, text, page)
    return page


def look(server, name, path, write):
    """Compares a page with the file of that name. It is asked for again for a while where it is another one."""
    file = PAGES / name
    if write:
        os.makedirs(PAGES, exist_ok=True)
        with open(file, "wb") as out:
            out.write(without_numbers(server, path))
    with open(file, "rb") as kept:
        wanted = kept.read()
    end = time.monotonic() + SOON
    while (page := without_numbers(server, path)) != wanted:
        if time.monotonic() > end:
            lines = difflib.unified_diff(wanted.decode().splitlines(), page.decode().splitlines(), name, path, lineterm="", n=0)
            sys.exit("\n".join(lines))
        time.sleep(0.05)
    return page


def pages(program, write, shots):
    server = Server(program)
    stream, file, reply = server.client("0 0")
    run(file, LINES)
    look(server, "host.html", "/", write)
    page = look(server, "tenant.html", "/tenants/0", write)
    expect("a text in a page", (b"<script" in page, b"&lt;script&gt;alert(&quot;1 &amp; 2&quot;)&lt;/script&gt;" in page), (False, True))
    samples = look(server, "metrics.txt", "/metrics", write)
    expect("a tenant that isn't hosted", server.get("/tenants/16")[0], 404)
    expect("an unused tenant's script", server.get("/tenants/3/dump"), (200, b""))
    expect("a busy tenant's script", server.get("/tenants/0/dump")[0], 409)
    taken = server.sample('filgwesha_tenant_bytes{tenant="0"}')
    run(file, "rollback")
    soon("changes behind a rollback", lambda: server.sample('filgwesha_tenant_log_changes{tenant="0"}'), 0)
    expect("bytes behind a rollback", server.sample('filgwesha_tenant_bytes{tenant="0"}') < taken, True)
    status, script = server.get("/tenants/0/dump")
    expect("a script", (status, script.splitlines()[0]), (200, b"create table card (id int, balance int)"))
    expect("HEAD", server.get("/", method="HEAD"), (200, b""))
    expect("POST", server.get("/", method="POST")[0], 405)
    if shots:
        shoot(server, shots)
    stream.close()
    file.close()
    server.stop()
    if shutil.which("promtool"):
        checked = subprocess.run(["promtool", "check", "metrics"], input=samples.replace(b" N\n", b" 1\n"), capture_output=True)
        expect("promtool", (checked.returncode, checked.stdout + checked.stderr), (0, b""))
        print("pages, samples and scripts: as they are to be; promtool finds nothing")
    else:
        print("pages, samples and scripts: as they are to be; promtool isn't here, so nobody else read the samples")


def shoot(server, folder):
    os.makedirs(folder, exist_ok=True)
    for name, path in (("host", "/"), ("tenant", "/tenants/0")):
        address = f"http://127.0.0.1:{server.status}{path}"
        words = ["chromium", "--headless", "--no-sandbox", "--disable-gpu", "--window-size=1300,1500", f"--screenshot={folder}/{name}.png", address]
        subprocess.run(words, check=True, capture_output=True, timeout=PATIENCE)


def say(file, line):
    """A line's reply: its first line."""
    file.write(f"{line}\n")
    file.flush()
    reply = file.readline()
    for _ in range(more_lines(reply)):
        file.readline()
    return reply


def counts(program):
    """Each line of a few is among the slowest, and refusals, considerations and rollbacks are counted."""
    server = Server(program)
    stream, file, reply = server.client("2 0")
    run(file, "create table t (a int)\ncreate rule r on t when inserted if select * from t where a > 9 then rollback")
    expect("a refusal", say(file, "select"), "no 10 Syntax\n")
    for line, begins in [("begin", "ok"), ("insert into t values (10)", "ok"), ("commit", "rolledback rule"), ("begin", "ok"), ("rollback", "ok"), ("begin", "ok")]:
        expect(line, say(file, line).startswith(begins), True)
    text = "select * from t where '<script>' = '\"&'"
    say(file, text)
    expect("a session that isn't there", server.raw_ask("2 8"), "no 14 NoSession\n")
    stream.close()
    file.close()
    until("a transaction that is left", lambda: server.sample('filgwesha_rollbacks_total{cause="end"}') == 1)
    wanted = {
        'filgwesha_rollbacks_total{cause="command"}': 1, 'filgwesha_rollbacks_total{cause="rule"}': 1,
        'filgwesha_rollbacks_total{cause="error"}': 0, 'filgwesha_rollbacks_total{cause="limit"}': 0,
        'filgwesha_refusals_total{number="10",name="Syntax"}': 1, 'filgwesha_refusals_total{number="14",name="NoSession"}': 1,
        "filgwesha_considerations_total": 1,
        'filgwesha_worker_lines_total{worker="2"}': 10, 'filgwesha_worker_connections_total{worker="2"}': 1,
        'filgwesha_worker_connections_open{worker="2"}': 0, 'filgwesha_worker_connections_total{worker="door"}': 1,
        "filgwesha_step_seconds_count": 10, 'filgwesha_step_seconds_bucket{le="+Inf"}': 10,
    }
    for name, value in wanted.items():
        soon(name, lambda: server.sample(name), value)
    page = server.get("/")[1]
    need(b"<td>10</td><td>Syntax</td>" in page, "a refusal has its name in the page")
    expect("a slow line in the page", (b"<script" in page, b"&lt;script&gt;&#39; = &#39;&quot;&amp;&#39;" in page), (False, True))
    server.stop()
    print(f"counts: {len(wanted)} samples are what was done")


def many_rows(file):
    """The reply to a commit behind a select of many rows, or to a select that isn't answered."""
    expect("a transaction", say(file, "begin"), "ok\n")
    told = say(file, "select * from w x, w y")
    return say(file, "commit") if told.startswith("rows") else told


def unbegun(program):
    """A line that isn't begun for want of a share is among the slowest with its text, too."""
    server = Server(program, "--tenant-memory", "1")
    expect("the limit of a tenant", server.sample("filgwesha_tenant_memory_limit_bytes"), 1 << 20)
    stream, file, reply = server.client("2 0")
    wide = ", ".join(f"({row}, '{'x' * 100}')" for row in range(32))
    run(file, f"create table w (a int, b text)\nbegin\ninsert into w values {wide}\ncommit")
    while (told := many_rows(file)) == "done 0\n":
        pass
    expect("a reply that takes more than is left", told, "no 91 NoMemory\n")
    while (told := say(file, "select * from w where a = 92")) == "no 42 NoTransaction\n":
        pass
    expect("a line that isn't begun", told, "no 92 NotBegun\n")
    need(b"<pre>select * from w where a = 92</pre>" in server.get("/")[1], "its text")
    until("it is counted", lambda: server.sample('filgwesha_refusals_total{number="92",name="NotBegun"}') == 1)
    stream.close()
    file.close()
    server.stop()
    print("a line that wasn't begun is among the slowest, with its text")


def ninth(program):
    """A ninth connection of a tenant: that eight are open is in the log, and it is counted by tenant, behind a renewal, too."""
    server = Server(program)
    clients = [server.client(f"4 {session}") for session in range(8)]
    expect("eight sessions", [reply for _, _, reply in clients], ["ok\n"] * 8)
    expect("another tenant's session", server.raw_ask("5 0"), "ok\n")
    full = "turned away: tenant 4, session 7: AlreadyOpen, as all eight sessions are open"
    refused = 'filgwesha_tenant_connections_turned_away_total{tenant="%d"}'
    for times in (1, 2):
        expect("a ninth connection", server.raw_ask("4 7"), "no 45 AlreadyOpen\n")
        until("it is told", lambda: server.told().count(full) == times)
        soon("it is counted", lambda: server.sample(refused % 4), times)
        expect("a renewal", server.get("/tenants/4/renew", method="POST")[0], 202)
        until("its next volume", lambda: server.sample('filgwesha_tenant_volume{tenant="4"}') == times)
    stream, file, _ = clients.pop()
    stream.close()
    file.close()
    until("its session is closed", lambda: "closed: tenant 4, session 7" in server.told())
    expect("a session that is open", server.raw_ask("4 0"), "no 45 AlreadyOpen\n")
    until("that is told", lambda: "turned away: tenant 4, session 0: AlreadyOpen\n" in server.told())
    expect("one that is free", server.raw_ask("4 7"), "ok\n")
    soon("those of tenant 4", lambda: server.sample(refused % 4), 3)
    expect("those of tenant 5", server.sample(refused % 5), 0)
    for stream, file, _ in clients:
        stream.close()
        file.close()
    server.stop()
    print("a ninth connection: the log tells that eight sessions are open, and a sample counts it by tenant")


def ages(program):
    """How long ago a session's last line was: as long as its client is silent, also where it is opened again."""
    began = time.monotonic()
    server = Server(program)
    listens = before = time.monotonic()
    stream, file, reply = server.client("3 2")
    for line, state in [(None, "open"), ("begin", "in a transaction"), ("select", "in a transaction"), ("end", "open")]:
        if line == "end":
            stream.close()
            file.close()
            until("the session is closed", lambda: server.sample('filgwesha_tenant_sessions_open{tenant="3"}') == 0)
            before = time.monotonic()
            stream, file, reply = server.client("3 2")
        elif line:
            before = time.monotonic()
            say(file, line)
        after = time.monotonic()
        time.sleep(1.2)
        asked = time.monotonic()
        page = server.get("/tenants/3")[1].decode()
        told = time.monotonic()
        found = re.search(rf'<tr><td>2</td><td>{state}</td><td class="n">(\d+) s ago</td></tr>', page)
        expect(f"a session behind {line}", found is not None, True)
        if not int(asked - after) <= int(found.group(1)) <= int(told - before) + 1:
            sys.exit(f"behind {line} a client is silent for {asked - after:.1f} s, and the page tells {found.group(1)} s")
    def newest():
        say(file, "select")
        found = re.search(r'<tr><td>2</td><td>open</td><td class="n">(\d+) s ago</td></tr>', server.get("/tenants/3")[1].decode())
        return found and int(found.group(1))

    # a second may begin between the line and the page, but not each time
    until("a line that just came is 0 s old", lambda: newest() == 0)
    asked = time.monotonic()
    up = server.sample("filgwesha_uptime_seconds")
    if not int(asked - listens) <= up <= time.monotonic() - began:
        sys.exit(f"a server that listens for {asked - listens:.1f} s is up for {up} s")
    stream.close()
    file.close()
    server.stop()
    print("ages: a session's last line is as old as its client is silent, and a server as it listens")


WIDE = "create table w (a int)\nbegin\n" + "".join("insert into w values " + ", ".join(f"({i})" for i in range(at, at + 250)) + "\n" for at in range(0, 1000, 250)) + "commit"
# a million pairs, each of which is looked at
PAIRS = "select * from w x, w y where x.a * y.a - x.a > 0 and x.a + y.a = "
# considered as often as a row of t is short of 900, each time at half the cost of such a line
AGAIN = f"""create table t (a int)
create rule again on t when inserted, updated(a) if {PAIRS}5 then update t set a = a + 1 where a < 900
begin"""
# so many seconds slow lines are sent, and so long at least a step is to run; in two of them a line is told, however fast
# the machine is
LONG = 2.5
# pages of a tenant that is busy, and by what one sees that they have what it was
OLD = {"/": b" s old</td>", "/tenants/0": b"The tenant is busy: this is what it was ", "/metrics": b'age_seconds{tenant="0"} '}


def slow_lines(server, file):
    """Sends slow lines for a while: how many of them are told, how many there were, and how long one took."""
    before, began, lines = len(server.told()), time.monotonic(), 0
    while lines < 3 or time.monotonic() < began + LONG:
        expect("a slow line", say(file, f"{PAIRS}-1"), "rows 0\n")
        lines += 1
    passed = time.monotonic() - began
    log = server.told()[before:]
    told = len(re.findall(r"slow: tenant 0, session 0: \d+ ms: select \* from w x, w y", log))
    if not 1 <= told <= min(lines, int(passed) + 2) or len(re.findall(r"slow lines more weren't told", log)) > told:
        sys.exit(f"of {lines} slow lines in {passed:.1f} s {told} are told: {log}")
    return told, lines, passed / lines


def timed(server, path):
    """What a page is answered, and how long it took."""
    start = time.monotonic()
    status, page = server.get(path)
    return status, page, time.monotonic() - start


def patience():
    """How long a page waits for a tenant that is busy: a hundred naps of a millisecond, which a busy machine makes longer."""
    start = time.monotonic()
    for _ in range(100):
        time.sleep(0.001)
    return time.monotonic() - start


def has_answer(stream):
    """Whether something has come that isn't read."""
    return bool(select.select([stream], [], [], 0)[0])


def beside_a_step(server, stream, most):
    """Looks at pages and ends the session while its step runs: how long a page took at most, which may be so long."""
    age = 'filgwesha_tenant_numbers_age_seconds{tenant="0"}'
    until("a step runs", lambda: server.sample(age) > 0 or has_answer(stream))
    shown = {path: timed(server, path) for path in OLD}
    others = [server.get("/tenants/4")[0], server.get("/tenants/0/dump")[0]]
    still = server.sample(age)
    took = {path: round(seconds, 3) for path, (_, _, seconds) in shown.items()}
    # whoever waits for a step is answered when it is over
    if has_answer(stream) or not still:
        sys.exit(f"a step is over before pages are there that took {took}")
    # its end ends the step, too, at its next consideration
    expect("the end of its session", server.get("/tenants/0/sessions/0/end", method="POST")[0], 202)
    for path, (status, page, _) in shown.items():
        expect(f"{path} while a step runs", (status, OLD[path] in page), (200, True))
    expect("another tenant of its cell, and its script", others, [409, 409])
    if max(took.values()) > most:
        sys.exit(f"pages took {took} while a step ran, and are to take {most:.3f} at most")
    return max(took.values())


def slow(program, longer):
    """Slow lines are logged, one of a second; while one runs pages have what they had, and it ends with its session."""
    server = Server(program, "--slow", "1")
    stream, file, reply = server.client("0 0")
    run(file, f"{WIDE}\nbegin")
    told, lines, one = slow_lines(server, file)
    alone = [timed(server, path)[2] for path in OLD]
    run(file, "rollback")
    run(file, AGAIN)
    # eight pages wait for it, so it is to run three times as long at least
    waits = patience()
    seconds = longer * max(LONG, 24 * waits)
    run(file, f"insert into t values ({900 - min(900, int(2 * seconds / one))})")
    # a machine that is busy from now on may take many times as long
    stream.settimeout(5 * PATIENCE)
    began = time.monotonic()
    file.write("commit\n")
    file.flush()
    took = beside_a_step(server, stream, 1 + 5 * (waits + max(alone)))
    read_all(stream)
    ran = time.monotonic() - began
    stream.close()
    file.close()
    until("it is told", lambda: "ended by an operator: tenant 0, session 0" in server.told())
    other, file, reply = server.client("0 0")
    expect("its session again", reply, "ok\n")
    soon("numbers anew", lambda: server.sample('filgwesha_tenant_numbers_age_seconds{tenant="0"}'), 0)
    other.close()
    file.close()
    server.stop()
    print(f"slow lines: {told} of {lines} told; pages took at most {took * 1000:.0f} ms beside a step of {ran:.1f} s, which its session's end cut short")


def numbered(program):
    """A server whose tenants begin at another number: each sample, page and end is that of the tenant of its number."""
    server = Server(program, "--first-tenant", "300")
    stream, file, reply = server.client("305 2")
    run(file, "create table t (a int)")
    expect("another session of that name", server.raw_ask("305 2"), "no 45 AlreadyOpen\n")
    for name, wanted in (("sessions_open", 1), ("connections_turned_away_total", 1), ("volume", 0)):
        soon(f"{name} of tenant 305", lambda: server.sample(f'filgwesha_tenant_{name}{{tenant="305"}}'), wanted)
        for other in (300, 304, 5):
            expect(f"{name} of tenant {other}", server.sample(f'filgwesha_tenant_{name}{{tenant="{other}"}}') or 0, 0)
    seen = r'<tr><td>2</td><td>open</td><td class="n">\d+ s ago</td></tr>'
    expect("its page", re.search(seen, server.get("/tenants/305")[1].decode()) is not None, True)
    expect("a page of no tenant", server.get("/tenants/5")[0], 404)
    expect("an end of no tenant's session", server.get("/tenants/5/sessions/2/end", method="POST")[0], 404)
    expect("a renewal", server.get("/tenants/305/renew", method="POST")[0], 202)
    until("its next volume", lambda: server.sample('filgwesha_tenant_volume{tenant="305"}') == 1)
    expect("an end", server.get("/tenants/305/sessions/2/end", method="POST")[0], 202)
    expect("its connection", file.read(), "")
    stream.close()
    file.close()
    server.stop()
    print("numbers: of a server whose tenants begin at 300 each is shown, counted, renewed and ended by its number")


def ends(program):
    """A session that is ended: its transaction is gone, its `end` is a step, and others go on."""
    server = Server(program)
    one, own, reply = server.client("1 3")
    two, other, reply = server.client("1 4")
    run(own, "create table t (a int)\nbegin\ninsert into t values (1)")
    path = "/tenants/1/sessions/3/end"
    expect("GET of an end", server.get(path)[0], 405)
    expect("an end from a page", server.get(path, method="POST", header="Origin: http://127.0.0.1\r\n")[0], 403)
    expect("GET of a stop", server.get("/stop")[0], 405)
    for missing in ("/tenants/1/sessions/5/end", "/tenants/1/sessions/8/end", "/tenants/16/sessions/0/end", "/tenants/1/sessions/3/", "/tenants/1/sessions/33/end"):
        expect(missing, server.get(missing, method="POST")[0] in (404, 405), True)
    before = server.sample('filgwesha_tenant_steps_total{tenant="1"}')
    expect("an end", server.get(path, method="POST")[0], 202)
    expect("its connection", own.read(), "")
    until("its step", lambda: server.sample('filgwesha_tenant_steps_total{tenant="1"}') == before + 1)
    expect("another session", say(other, "begin"), "ok\n")
    expect("its transaction is gone", say(other, "select * from t"), "rows 0\n")
    for stream, file in ((one, own), (two, other)):
        stream.close()
        file.close()
    until("it is told", lambda: "ended by an operator: tenant 1, session 3" in server.told())
    server.stop()
    print("an end: its connection is closed, its transaction is gone, and others go on")


def renewals(program):
    """A tenant that is renewed: its connections stay open, and one with a transaction is waited for."""
    server = Server(program)
    one, own, reply = server.client("1 3")
    two, other, reply = server.client("1 4")
    run(own, "create table t (a int)\nbegin\ninsert into t values (1)\ncommit")
    path = "/tenants/1/renew"
    expect("GET of a renewal", server.get(path)[0], 405)
    for missing in ("/tenants/16/renew", "/tenants/renew", "/tenants/1/renew/", "/tenants/1x/renew", "/tenants/1/sessions/3/renew"):
        expect(missing, server.get(missing, method="POST")[0] in (404, 405), True)
    volume = 'filgwesha_tenant_volume{tenant="1"}'
    expect("a tenant's first volume", server.sample(volume), 0)
    expect("a renewal", server.get(path, method="POST"), (202, b"told\n"))
    until("its next volume", lambda: server.sample(volume) == 1)
    until("it is told", lambda: "renewed: tenant 1: volume 0 ends" in server.told())
    expect("a transaction", say(own, "begin"), "ok\n")
    for _ in range(2):
        expect("a renewal beside a transaction", server.get(path, method="POST")[0], 202)
    until("it waits", lambda: "not renewed yet: tenant 1: a session has a transaction" in server.told())
    expect("its volume", server.sample(volume), 1)
    expect("a row that is there", say(own, "select * from t"), "rows 1\n")
    expect("its end", say(own, "rollback").startswith("ok"), True)
    until("its third volume", lambda: server.sample(volume) == 2)
    soon("renewals", lambda: server.sample("filgwesha_renewals_total"), 2)
    expect("renewals that failed", server.sample("filgwesha_renewals_failed_total"), 0)
    expect("its page", re.search(rb"<dt>volume</dt><dd>2</dd></div>\n<div><dt>renewed</dt><dd>\d+ s ago</dd>", server.get("/tenants/1")[1]) is not None, True)
    for stream, file in ((one, own), (two, other)):
        expect("its session", say(file, "begin"), "ok\n")
        expect("its row", say(file, "select * from t"), "rows 1\n")
        expect("its end", say(file, "rollback").startswith("ok"), True)
        stream.close()
        file.close()
    server.stop()
    print("renewals: two of them, one of which waited for a transaction, closed no connection")


def room(program):
    """A tenant whose replies take its share of memory several times over is renewed by itself, and no line of it is
    refused."""
    server = Server(program, "--renew", "auto", "--tenant-memory", "1")
    stream, file, reply = server.client("1 0")
    rows = [", ".join(f"({at + i}, 'twenty-two bytes of it')" for i in range(50)) for at in range(0, 500, 50)]
    run(file, "create table t (a int, b text)\nbegin\n" + "".join(f"insert into t values {values}\n" for values in rows) + "commit")
    taken = 0
    for _ in range(300):
        for line, reply in [("begin", "ok"), ("select * from t", "rows 500"), ("rollback", "ok")]:
            expect(line, say(file, line), f"{reply}\n")
        taken = max(taken, server.sample('filgwesha_tenant_bytes{tenant="1"}'))
    volume = server.sample('filgwesha_tenant_volume{tenant="1"}')
    expect("renewals by themselves", volume >= 3, True)
    expect("bytes within the share", taken <= 1.2 * 2**20, True)
    stream.close()
    file.close()
    server.stop()
    print(f"room: 300 replies in {volume + 1:.0f} volumes, none refused, in {taken / 2**20:.2f} of a share of 1 MB")


HERE = ["127.0.0.1", "127.0.0.1:{port}", "localhost", "localhost:1", "localhost:", "[::1]", "[::1]:{port}"]
ELSEWHERE = ["", "LOCALHOST", "rebound.example", "rebound.example:{port}", "127.0.0.1.rebound.example", "localhost.", "localhost:80x", "[::1", "x[::1]", "0.0.0.0:{port}"]
# what a browser tells of who asks
OTHERS = ["Origin: http://other.example", "Origin: null", "Origin: http://127.0.0.1:1", "Sec-Fetch-Site: cross-site", "Sec-Fetch-Site: same-site", "sec-fetch-site: x"]
OWN = ["Sec-Fetch-Site: none", "Sec-Fetch-Site: same-origin", "SEC-FETCH-SITE: none"]
EACH = [("/", "GET"), ("/metrics", "GET"), ("/tenants/0", "HEAD"), ("/tenants/0/dump", "GET"), ("/tenants/0/sessions/0/end", "POST"), ("/tenants/0/renew", "POST"), ("/ready", "GET"), ("/stop", "POST"), ("/nowhere", "GET")]


def strangers(program):
    """Who names another machine, or comes from a page of another site, gets one line and nothing else, and does nothing."""
    server = Server(program)
    stream, file, reply = server.client("0 0")
    for host in HERE:
        expect(f"host {host}", server.get("/metrics", host=host.format(port=server.status))[0], 200)
    for path, method in EACH:
        for host in ELSEWHERE:
            told = server.get(path, method, host=host.format(port=server.status))
            expect(f"{path} for host {host!r}", told, (403, b"" if method == "HEAD" else b"ask by 127.0.0.1, [::1] or localhost\n"))
        for header in OTHERS:
            told = server.get(path, method, header=f"{header}\r\n")
            expect(f"{path} with {header}", told, (403, b"" if method == "HEAD" else b"not from a page of another site\n"))
    for header in OWN:
        expect(f"a page with {header}", server.get("/tenants/0", header=f"{header}\r\n")[0], 200)
    expect("a request that names nobody", server.raw(b"GET /metrics HTTP/1.0\r\n\r\n")[9:12], b"200")
    expect("a session that nobody has ended", say(file, "begin"), "ok\n")
    stream.close()
    file.close()
    server.stop()
    print(f"strangers: {len(EACH) * (len(ELSEWHERE) + len(OTHERS))} requests from elsewhere got one line; {len(HERE)} names of this machine are known")


def half_requests(program, most):
    """A thousand connections with half a request each: pages and ends of sessions are answered all the same, in so many
    seconds at most."""
    server = Server(program)
    stream, file, reply = server.client("1 0")
    count = min(1_000, resource.getrlimit(resource.RLIMIT_NOFILE)[0] - 100)
    halves = [server.stand_silent() for _ in range(count)]
    for half in halves:
        try:
            half.sendall(b"GET /metrics HTTP/1.1\r\nHost: 127.0.0.1\r\n")
        except OSError:  # its place was given to another one
            pass
    took = []
    for path, method, status in [("/metrics", "GET", 200), ("/tenants/1/sessions/0/end", "POST", 202), ("/", "GET", 200)]:
        asked = time.monotonic()
        expect(f"{path} beside half requests", server.get(path, method)[0], status)
        took.append(time.monotonic() - asked)
    for half in halves:
        half.close()
    expect("its connection", file.read(), "")
    stream.close()
    file.close()
    server.stop()
    if max(took) > most:
        sys.exit(f"beside {count} half requests pages took {took} and are to take {most} s at most")
    print(f"half requests: beside {count} of them a page or an end is answered in {max(took) * 1000:.0f} ms at most")


def hostile_requests(server):
    """How many there were that are answered as they are to be."""
    wanted = [
        ("no request", b"\x00\x01\x02\r\n\r\n", b"400"),
        ("half a request", b"GET / HT", b""),
        ("no end of headers", b"GET / HTTP/1.1\r\n" + b"A: b\r\n" * 40, b""),
        ("too many headers", b"GET / HTTP/1.1\r\n" + b"A: b\r\n" * 80 + b"\r\n", b"400"),
        ("too long", b"GET /" + b"a" * 9000, b"431"),
        ("long headers", b"GET / HTTP/1.1\r\nA: " + b"b" * 60_000, b"431"),
        ("another method", b"DELETE / HTTP/1.1\r\n\r\n", b"405"),
        ("another page", b"GET /../../etc/passwd HTTP/1.1\r\n\r\n", b"404"),
        ("a large number", b"GET /tenants/99999999999999999999 HTTP/1.1\r\n\r\n", b"404"),
        ("a negative number", b"GET /tenants/-1 HTTP/1.1\r\n\r\n", b"404"),
        ("HTTP/1.0", b"GET / HTTP/1.0\r\n\r\n", b"200"),
        ("a page asked for twice", b"GET / HTTP/1.1\r\n\r\nGET / HTTP/1.1\r\n\r\n", b"200"),
    ]
    for what, request, status in wanted:
        expect(what, server.raw(request)[9:12], status)
    return len(wanted)


def inserts(file, count):
    """Inserts so many rows, by a line each: how long one line took, and the longest one."""
    longest, done, began = 0, 0, time.monotonic()
    while done < count and time.monotonic() < began + PATIENCE:
        sent = time.monotonic()
        run(file, f"insert into t values ({done})")
        longest = max(longest, time.monotonic() - sent)
        done += 1
    return (time.monotonic() - began) / done, longest


def hostile(program, longer):
    """Hostile requests, and silent connections, each of which the status port lets go in half a second, and for which no
    client waits."""
    server = Server(program)
    requests = hostile_requests(server)
    stream, file, reply = server.client("1 0")
    run(file, "create table t (a int)\nbegin")
    each_alone, alone = inserts(file, 200)
    silent = [server.stand_silent() for _ in range(min(1_000, resource.getrlimit(resource.RLIMIT_NOFILE)[0] - 100))]
    each, longest = inserts(file, 2_000)
    for knock in silent:
        knock.close()
    expect("a page behind silent connections", server.get("/metrics")[0], 200)
    if each > min(0.3, 0.1 + 10 * each_alone) or longest > longer + 5 * alone:
        sys.exit(f"beside silent connections a line took {each:.3f} s, {longest:.3f} at most; alone {each_alone:.3f}, {alone:.3f} at most")
    run(file, "commit")
    stream.close()
    file.close()
    server.stop()
    print(f"{requests} hostile requests, {len(silent)} silent connections: a client's lines took at most {longest * 1000:.0f} ms")


def keys(program):
    with tempfile.TemporaryDirectory() as folder:
        path = os.path.join(folder, "keys")
        with open(path, "w") as file:
            for who, key in ((0, "key-of-0"), (1, "key-of-1"), ("status", "key-of-status")):
                file.write(f"{who} {hashlib.sha256(key.encode()).hexdigest()}\n")
        server = Server(program, "--keys", path)
        for page in ("/", "/metrics", "/nowhere"):
            expect(f"{page} without a key", server.get(page)[0], 401)
            expect(f"{page} with a tenant's key", server.get(page, user="0", key="key-of-0")[0], 401)
            expect(f"{page} with a tenant's key as status", server.get(page, user="status", key="key-of-0")[0], 401)
            expect(f"{page} with its key", server.get(page, user="status", key="key-of-status")[0], 404 if page == "/nowhere" else 200)
        for page in ("/tenants/0", "/tenants/0/dump"):
            expect(f"{page} without a key", server.get(page)[0], 401)
            expect(f"{page} with another key", server.get(page, user="0", key="key-of-1")[0], 401)
            expect(f"{page} as another tenant", server.get(page, user="1", key="key-of-1")[0], 401)
            expect(f"{page} as status", server.get(page, user="status", key="key-of-status")[0], 401)
            expect(f"{page} with its key", server.get(page, user="0", key="key-of-0")[0], 200)
        page = "/tenants/0/sessions/0/end"
        expect("an end without a key", server.get(page, method="POST")[0], 401)
        expect("an end with another key", server.get(page, method="POST", user="1", key="key-of-1")[0], 401)
        expect("an end as status", server.get(page, method="POST", user="status", key="key-of-status")[0], 401)
        expect("an end of a session that isn't open", server.get(page, method="POST", user="0", key="key-of-0")[0], 404)
        page = "/tenants/0/renew"
        expect("a renewal without a key", server.get(page, method="POST")[0], 401)
        expect("a renewal with another key", server.get(page, method="POST", user="1", key="key-of-1")[0], 401)
        expect("a renewal as status", server.get(page, method="POST", user="status", key="key-of-status")[0], 401)
        expect("a renewal with its key", server.get(page, method="POST", user="0", key="key-of-0")[0], 202)
        expect("a tenant without keys", server.get("/tenants/5", user="5", key="key-of-0")[0], 401)
        told = server.raw(b"GET / HTTP/1.1\r\nAuthorization: Basic !!!\r\n\r\n")
        expect("no base64", (told[9:12], b'WWW-Authenticate: Basic realm="filgwesha"' in told), (b"401", True))
        server.stop()
    print("keys: a tenant's pages by its own keys, the others by those of status, none otherwise")


def trial(part, program):
    """Does a part that has a bound on time, with longer steps where it is missed."""
    return tried(part, [(program, longer) for longer in (1, 2, 4)], Server.kill_all)


def main():
    words = argparse.ArgumentParser(description=__doc__, formatter_class=argparse.RawDescriptionHelpFormatter)
    words.add_argument("program", nargs="?", default=BUILT)
    words.add_argument("--write", action="store_true")
    words.add_argument("--shots")
    asked = words.parse_args()
    # what is told is there also where something ends this
    sys.stdout.reconfigure(line_buffering=True)
    resource.setrlimit(resource.RLIMIT_NOFILE, (resource.getrlimit(resource.RLIMIT_NOFILE)[1],) * 2)
    try:
        pages(asked.program, asked.write, asked.shots)
        counts(asked.program)
        unbegun(asked.program)
        ninth(asked.program)
        ages(asked.program)
        trial(slow, asked.program)
        ends(asked.program)
        numbered(asked.program)
        renewals(asked.program)
        room(asked.program)
        strangers(asked.program)
        tried(half_requests, [(asked.program, most) for most in (1, 1, 2)], Server.kill_all)
        trial(hostile, asked.program)
        keys(asked.program)
    finally:
        Server.kill_all()


if __name__ == "__main__":
    main()
