#!/usr/bin/env python3
"""A step that runs for long says so while it runs, and an operator ends it.

    python3 -m bench.tests.long_steps [PROGRAM]

PROGRAM is crates/starhost/out/starhost where no word is given. The rules of one tenant run for longer than anybody waits. The
log names tenant, session, rule and line once; the page of the server shows them with seconds and considerations that grow; a
client of another cell is answered meanwhile. `POST .. end` for another session ends nothing. For that one, the step ends at its
next consideration: its commit is answered 91, the connection is closed, and what it did isn't there. Then the page shows no
step. The first thing that isn't as it is to be ends this with status 1.
"""

import re
import sys
import time
import urllib.request

from bench.harness import PATIENCE, Client, Closed, Server, expect, is_unproved, need, program_of, until

ROWS = ", ".join(f"({number})" for number in range(250))
# a million pairs are looked at in each consideration, with so many comparisons
COMPARISONS = " and ".join(["x.a * y.a >= x.a - x.a"] * (2 if is_unproved() else 100))
RULE = (
    "create rule again on t when inserted, updated(a)"
    f" if select * from w x, w y where {COMPARISONS} and x.a + y.a = 5"
    " then update t set a = a + 1 where a < 100000"
)
WIDE = ["create table w (a int)", "begin", *[f"insert into w values {ROWS}"] * 4, "commit", "create table t (a int)", RULE]
SHOWN = r"<h2>Running for more than a second</h2>.*?<td><a href=\"/tenants/0\">0</a></td><td>0</td><td class=\"n\">(\d+)</td><td class=\"n\">(\d+)</td><td>again</td><td><pre>commit</pre>"


def page(server):
    """The page of a server."""
    with urllib.request.urlopen(f"http://127.0.0.1:{server.status_port}/", timeout=PATIENCE) as told:
        return told.read().decode()


def shown(server):
    """Seconds and considerations of the step that the page shows, or None."""
    found = re.search(SHOWN, page(server), re.DOTALL)
    return found and (int(found[1]), int(found[2]))


def end(server, session):
    """Asks for the end of a session of tenant 0."""
    request = urllib.request.Request(f"http://127.0.0.1:{server.status_port}/tenants/0/sessions/{session}/end", method="POST")
    with urllib.request.urlopen(request, timeout=PATIENCE) as told:
        expect("an end that is asked for", told.status, 202)


def long_step(server):
    """Looks at a step that runs, and ends it."""
    beside = server.client("1 0")
    other = server.client("0 1")
    client = server.client("0 0")
    for line in [*WIDE, "begin", "insert into t values (0)"]:
        need(not client.ask(line).startswith("no"), line)
    began = time.monotonic()
    client.send("commit\n")
    server.wait_for("running: 0/0: more than a second")
    logged = time.monotonic() - began
    first = shown(server)
    need(first, "the page doesn't show a step that runs")
    until("the step goes on", lambda: (now := shown(server)) and now[0] > first[0] and now[1] > first[1])
    asked = time.monotonic()
    expect("a client of another cell", beside.ask("create table b (a int)"), "ok")
    waited = time.monotonic() - asked
    end(server, 1)
    time.sleep(1.5)
    need(shown(server), "the end of another session ended the step")
    asked = time.monotonic()
    end(server, 0)
    expect("a commit that is ended", client.line(), "no 91 NoMemory")
    took = time.monotonic() - asked
    try:
        need(client.line() is None, "a session that was ended is answered")
    except Closed:
        pass
    expect("how often it is logged", server.told().count("running: 0/0: more than a second"), 1)
    need(re.search(r"running: 0/0: more than a second, \d+ considerations, rule again: commit\n", server.told()), server.told()[-300:])
    need("Running for more" not in page(server), "the page shows a step that is over")
    with Client(server.port, "0 2") as anew:
        expect("a transaction behind it", anew.ask("begin"), "ok")
        expect("rows of a step that was ended", anew.ask("select * from t"), "rows 0")
    for one in (beside, other):
        one.stream.close()
    return logged, waited, took


def main():
    server = Server(program_of(sys.argv[1:]), "--tenants", "2", "--cells", "2", "--workers", "2", "--status", "0")
    try:
        logged, waited, took = long_step(server)
        server.end_well()
        print(f"a step of many seconds: logged after {logged:.1f} s, another cell waited {waited * 1000:.0f} ms, its end took {took:.2f} s")
    finally:
        Server.kill_all()


if __name__ == "__main__":
    main()
