#!/usr/bin/env python3
"""Tries the scripts that `starhost dump` writes.

    python3 -m bench.tests.dump [PROGRAM] [--tenants N] [--seed N]

PROGRAM is crates/starhost/out/starhost where no word is given. N tenants (120, or so many as are asked for) are made by
generated lines: tables made and dropped, rows of all kinds, rules made, altered, dropped, ordered and switched off,
rulesets; some of them at a limit. 120 of them have each command of docs/COMMANDS.md that defines something. Of each, the
script is dumped; it makes a fresh tenant whose own dump has to be the same bytes, and a tail of generated lines has to
be answered the same by both. Then what a dump can't do: a tenant with a transaction, one that isn't hosted, a writer
that takes nothing, or so many bytes and no more. Then each request for memory behind those of the input is refused in
turn (refuse.c, compiled by cc): a dump is whole, or there is none, and that is told. The first thing that isn't as it
is to be ends this with status 1.
"""

import argparse
import os
import re
import subprocess
import tempfile
import time

from bench.documents import commands
from bench.harness import BUILT, TOP, blocks_of, fail, file_size, library, run, transcript_of
from bench.tests.generated import Maker, of_tenant

QUOTES = "''" * 255


def at_limits(which):
    """A tenant with as much as it may have of something."""
    if which == "rules":
        lines = ["open", "create table t (a int)", "create table u (a int)"]
        lines += [f"create rule r{i} on t when inserted then insert into u values ({i})" for i in range(256)]
        lines += [f"drop rule r{i}" for i in range(0, 256, 3)] + [f"create rule q{i} on u when deleted then rollback" for i in range(80)]
        return lines + [f"alter rule r{i} precedes r{i + 3}" for i in range(1, 200, 3)] + ["deactivate rule q7", "end"]
    if which == "tables":
        lines = ["open"] + [f"create table t{i} (a int, b text)" for i in range(16)] + ["drop table t3", "drop table t0", "drop table t15"]
        return lines + ["create table u (b text)", "create table v (a int)", "end"]
    if which == "rulesets":
        lines = ["open", "create table t (a int)"] + [f"create rule r{i} on t when inserted then rollback" for i in range(200)]
        lines += [f"create ruleset s{i}" for i in range(16)]
        return lines + [f"alter ruleset s{i} addrules " + ", ".join(f"r{j}" for j in range(i, 200, i + 1)) for i in range(16)] + ["end"]
    if which == "rows":
        lines = ["open", "create table t (a int, b text)", "begin"]
        lines += ["insert into t values " + ", ".join(f"({i * 64 + j}, 'x{j}')" for j in range(64)) for i in range(64)]
        return lines + ["commit", "begin", "delete from t where a < 100", "commit", "begin", "insert into t values (1, 'y')", "commit", "end"]
    if which == "long rows":
        columns = ", ".join(f"c{i} text" for i in range(8))
        lines = ["open", f"create table t ({columns})", "begin"] + ["insert into t values (" + ", ".join(["''"] * 8) + ")"] * 3
        lines += [f"update t set c{i} = '{QUOTES}'" for i in range(8)]
        return lines + ["insert into t values (" + ", ".join(["'#1'"] * 8) + ")", "commit", "end"]
    condition = "select * from t where " + " or ".join(["a=1"] * 500)
    action = "update t set a=1 where " + " or ".join(["a=2"] * 500)
    lines = ["open", "create table t (a int)", "create rule r on t when inserted then rollback"]
    return lines + [f"alter rule r if {condition}", f"alter rule r then {action}", "deactivate rule r", "end"]


LIMITS = ["rules", "tables", "rulesets", "rows", "long rows", "long rule"]


def dumped(program, what, lines, numbered=False):
    status, script, errors = run(program, "dump", lines if numbered else of_tenant(0, lines))
    if status != 0 or errors:
        fail(f"{what}: dump ended with {status}, {errors.strip()}")
    return script.splitlines()


def is_alike(program, what, lines, tail):
    """The dump of the dump is the same, and so are the replies to the tail."""
    script = dumped(program, what, lines)
    if any(len(line) > 4096 for line in script):
        fail(f"{what}: a line is too long")
    again = ["open", *script, "end"]
    # a line of a run has the numbers in front of the command
    if all(len(line) <= 4092 for line in script):
        if dumped(program, what, again) != script:
            fail(f"{what}: the dump of the dump differs")
        told = run(program, "run", of_tenant(0, lines + tail))[1].splitlines()[-len(tail):]
        same = run(program, "run", of_tenant(0, again + tail))[1].splitlines()[-len(tail):]
        if told != same:
            at = next(i for i, (one, other) in enumerate(zip(told, same)) if one != other)
            fail(f"{what}: `{tail[at]}` is answered {told[at]} and {same[at]}")
    return len(script)


def faults(program):
    made = ["open", "create table t (a int)", "begin", "insert into t values (1)"]
    words = [
        ("dump", of_tenant(0, made), "fault: busy tenant 0\n"),
        ("dump --tenant 16", [], "fault: no tenant 16\n"),
        ("dump --tenant 2 --tenants 2", [], "fault: no tenant 2\n"),
    ]
    for asked, lines, wanted in words:
        ended = run(program, asked, lines)
        if ended != (1, "", wanted):
            fail(f"{asked}: {ended}")
    for asked, lines in [("dump --tenant 1", of_tenant(0, made)), ("dump", [])]:
        if run(program, asked, lines) != (0, "", ""):
            fail(f"{asked}: {run(program, asked, lines)}")
    ended = run(program, "dump --tenant 5", of_tenant(5, made[:2] + ["end"]) + of_tenant(0, made))
    if ended != (0, "create table t (a int)\n", ""):
        fail(f"one tenant of several: {ended}")
    with open("/dev/full", "wb") as full:
        text = "".join(line + "\n" for line in of_tenant(0, made + ["commit"])).encode()
        ended = subprocess.run([program, "dump"], input=text, stdout=full, stderr=subprocess.PIPE)
        if (ended.returncode, ended.stderr) != (1, b"fault: write failed\n"):
            fail(f"a full disk: {ended}")


def tour(program):
    """What docs/TOUR.md shows of a tenant that moves."""
    lines = (TOP / "examples/tour/a_tenant_moves.lines").read_text("ascii").splitlines()
    script = next(block for kind, block in blocks_of("docs/TOUR.md") if not kind and not transcript_of(block)).splitlines()
    if dumped(program, "the tour", lines, numbered=True) != script:
        fail("the script of the tour")
    further = ["begin", "update card set balance = 0 where id = 2", "commit", "begin", "select * from log"]
    told = run(program, "run", of_tenant(5, ["open", *script, *further]))[1].splitlines()
    if told[-6:] != of_tenant(5, ["ok 1", "done 1", "note true", "ok", "rows 1", "2,50,0"]):
        fail(f"the replies of the tour: {told}")


SMALL = ["open", "create table t (a int, b text)", "create table u (a int)", "drop table t", "create table v (b text, a int)"]
SMALL += ["begin", "insert into v values ('x', 1), ('it''s', -5)", "insert into u values (7)", "commit"]
SMALL += ["create rule r on v when inserted, updated(b) if select * from u where a > 3 then delete from u where a = 9; rollback"]
SMALL += ["create rule q on u when deleted then insert into v values ('y', 2) precedes r", "deactivate rule q"]
SMALL += ["create ruleset s", "alter ruleset s addrules r, q", "end"]


def writes_fail(program):
    """A file may have so many bytes and no more: what is there is a first part, and the fault is told."""
    text = "".join(line + "\n" for line in of_tenant(0, SMALL)).encode()
    whole = subprocess.run([program, "dump"], input=text, stdout=subprocess.PIPE, check=True).stdout
    for limit in range(0, len(whole), 7):
        with tempfile.TemporaryFile() as out:
            ended = subprocess.run([program, "dump"], input=text, stdout=out, stderr=subprocess.PIPE, preexec_fn=file_size(limit))
            out.seek(0)
            told = out.read()
        if (ended.returncode, ended.stderr) != (1, b"fault: write failed\n") or not whole.startswith(told):
            fail(f"a file of {limit} bytes: {ended}, {told}")


def requests_are_refused(program, room):
    """Each request for memory behind those of the input is refused in turn."""
    refuses = library("refuse", room)
    text = "".join(line + "\n" for line in of_tenant(0, SMALL)).encode()

    def refused(words, request):
        environment = {**os.environ, "LD_PRELOAD": refuses, "REFUSED": str(request)}
        ended = subprocess.run([program, words], input=text, stdout=subprocess.PIPE, stderr=subprocess.PIPE, env=environment)
        told, _, last = ended.stderr.rstrip(b"\n").rpartition(b"\n")
        return ended.returncode, ended.stdout, told, [int(number) for number in re.findall(rb"\d+", last)]

    before, (_, whole, _, counts) = refused("run", 0)[3][0], refused("dump", 0)
    lacking = 0
    for request in range(before + 1, counts[0] + 1):
        status, out, told, _ = refused("dump", request)
        if (status, out, told) == (1, b"", b"fault: out of memory"):
            lacking += 1
        elif (status, out, told) != (0, whole, b""):
            fail(f"request {request} is refused: {status}, {out}, {told}")
    return counts[0] - before, lacking


def largest(program):
    """The seconds for 16 tables of 4,096 rows of eight integers, without those for making them."""
    columns = ", ".join(f"c{i} int" for i in range(8))
    lines = ["open"] + [f"create table t{t} ({columns})" for t in range(16)]
    for t in range(16):
        rows = [f"insert into t{t} values " + ", ".join(f"({i}, {i * 7}, -{i}, 1000000, {t}, 0, 1, 2)" for i in range(k, k + 64)) for k in range(0, 4096, 64)]
        lines += ["begin", *rows, "commit"]
    lines += ["end"]
    begun = time.perf_counter()
    run(program, "run", of_tenant(0, lines))
    made = time.perf_counter()
    script = dumped(program, "the largest", lines)
    return time.perf_counter() - made - (made - begun), sum(len(line) + 1 for line in script)


def main():
    words = argparse.ArgumentParser()
    words.add_argument("program", nargs="?", default=BUILT)
    words.add_argument("--tenants", type=int, default=120)
    words.add_argument("--seed", type=int, default=1)
    asked = words.parse_args()
    tour(asked.program)
    faults(asked.program)
    writes_fail(asked.program)
    with tempfile.TemporaryDirectory() as room:
        requests, lacking = requests_are_refused(asked.program, room)
    print(f"{requests} requests for memory refused in turn: {lacking} dumps ended by it, the others are whole")
    count = 0
    for which in LIMITS:
        tail = ["open", "begin", "insert into t values (1)", "select count(*) from t", "commit", "end"]
        count += is_alike(asked.program, which, at_limits(which), tail)
    lacking = commands.definitions()
    for k in range(asked.tenants):
        maker = Maker(asked.seed * 1000 + k)
        lines = maker.lines(maker.dice.randrange(5, 60))
        lacking -= {" ".join(line.split()[:2]) for line in lines}
        count += is_alike(asked.program, f"tenant {k} of seed {asked.seed}", lines, maker.tail())
    if lacking and asked.tenants >= 120:
        fail(f"no generated tenant has {sorted(lacking)}")
    seconds, size = largest(asked.program)
    print(f"{asked.tenants + len(LIMITS)} tenants are dumped and made again, {count} lines; the largest, {size / 1e6:.1f} MB, in {seconds:.2f} s")


if __name__ == "__main__":
    main()
