#!/usr/bin/env python3
"""Tries `starhost compact`: a journal is written anew, as short as it can be.

    python3 -m bench.tests.compact [PROGRAM] [--calls N] [--seed N]

PROGRAM is crates/starhost/out/starhost where no word is given. Clients make 64 tenants; the new journal makes each of them
again, a second compaction gives the same bytes, and the old one stays as it was. Then what can't be: a new one that is
there already, an old one that is damaged, missing, empty, in use, or of other tenants or another bound, a full disk. A
journal of an earlier version, which is a file, makes the same folder.
Each of N calls on files (40) fails in turn, and then the program is killed in its place (refuse_disk.c, compiled by cc):
there is a whole new journal or none under the name, and the old one is what it was. At last a tenant whose trail is
nearly full takes lines again. The first thing that isn't as it is to be ends this with status 1.
"""

import argparse
import os
import shutil
import signal
import subprocess
import tempfile

from bench.harness import BUILT, file_size, library, need
from bench.tests.generated import Maker
from bench.segments import bytes_of, records, segments, write_file, write_segment
from bench.tests.journal import Client, journaled, states

TENANTS = 64
FULL = 1_048_576
CANNOT_OPEN, CANNOT_WRITE = "fault: cannot open journal", "fault: cannot write journal"


class Compactor:
    def __init__(self, program, refuses):
        self.program, self.refuses = program, refuses

    def __call__(self, old, new, *words, limit=None, **refused):
        """Its status, what it wrote, and its log."""
        environment = {**os.environ, **{name: str(value) for name, value in refused.items()}}
        if refused:
            environment["LD_PRELOAD"] = self.refuses
        words = [self.program, "compact", old, new, *(words or ("--tenants", str(TENANTS)))]
        ended = subprocess.run(words, stdout=subprocess.PIPE, stderr=subprocess.PIPE, text=True, preexec_fn=file_size(limit), env=environment, timeout=300)
        log = "\n".join(line for line in ended.stderr.splitlines() if "calls on files" not in line)
        return ended.returncode, ended.stdout, log


def whole(compact, old, new):
    """A compaction that goes well."""
    status, out, log = compact(old, new)
    need(status == 0 and out == "" and "fault" not in log, f"a compaction: {status}, {out}, {log}")


def files_of(path):
    """What a journal has, a folder or a file."""
    if os.path.isdir(path):
        return {os.path.basename(name): bytes_of(name) for name in segments(path)}
    return bytes_of(path)


def remove(path):
    if os.path.isdir(path):
        shutil.rmtree(path)
    else:
        os.remove(path)


def many_tenants(program, room, seed):
    """A journal of many tenants, of whom some were never opened."""
    old = os.path.join(room, "old")
    server = journaled(program, old, "--sync", "never", tenants=TENANTS)
    clients = [Client(server, tenant, session, Maker(seed * 1000 + tenant).lines(10)[1:-1]) for tenant in range(TENANTS - 4) for session in (tenant % 3,)]
    for client in clients:
        client.start()
    for client in clients:
        client.join()
    need(server.end()[0] == 0, "a server")
    return old


def is_short(compact, room, old):
    """The new journal makes the tenants again, and is as short as it can be."""
    new, newer = os.path.join(room, "new"), os.path.join(room, "newer")
    before = files_of(old)
    whole(compact, old, new)
    need(files_of(old) == before, "the old journal is another one")
    wanted = states(compact.program, old, room, tenants=TENANTS)
    need(len(wanted) == TENANTS - 4 and states(compact.program, new, room, tenants=TENANTS) == wanted, "the new journal makes other tenants")
    made = {}
    for tenant, session, line in records(new):
        made.setdefault(tenant, []).append((session, line))
    for tenant, script in wanted.items():
        lines = [(0, line) for line in ["open", *script.splitlines(), "end"]]
        need(made.get(tenant) == lines, f"tenant {tenant}: the new journal has {made.get(tenant)} in place of {lines}")
    need(made.keys() == wanted.keys(), "tenants that were never opened")
    whole(compact, new, newer)
    need(files_of(newer) == files_of(new), "a second compaction gives another file")
    return len(records(old)), len(records(new))


def cannot_be(compact, room, old):
    new, before = os.path.join(room, "none"), files_of(old)
    file = os.path.join(room, "file")
    write_file(file, TENANTS, [(0, 0, b"open"), (0, 0, b"create table t (a int)")])
    data = bytes_of(file)

    def refuses(why, told, old=old, new=new, words=()):
        status, out, log = compact(old, new, *words)
        lines = log.splitlines()
        need(status == 1 and out == "" and lines[-1] == told and len(lines) > 1, f"{why}: {status}, {out}, {log}")
        need(not os.path.exists(new + ".new"), f"{why}: something is left beside")

    there = os.path.join(room, "there")
    with open(there, "wb") as mine:
        mine.write(b"mine")
    for form in (old, file):
        refuses("a new file that is there", CANNOT_WRITE, old=form, new=there)
        need(bytes_of(there) == b"mine", "a file that was there is another one")
    taken = os.path.join(room, "taken")
    shutil.copytree(old, taken)
    refuses("a journal that is there", CANNOT_WRITE, new=taken)
    need(files_of(taken) == before, "a journal that was there is another one")
    refuses("no folder for it", CANNOT_WRITE, new=os.path.join(room, "nowhere", "new"))
    damaged = os.path.join(room, "damaged")
    for why, begins in (
        ("a length that no block has", data[:-1] + b"\x01\xff\xff\xff\xff" + data),
        ("a line of no session", data[:-1] + b"\x01" + (14).to_bytes(4, "big") + b"\0\0\0\0\7\0\0\0\5begin\0"),
        ("half a record", data[:-1] + b"\x01" + (8).to_bytes(4, "big") + b"\0\0\0\0\0\0\0\0\0"),
        ("no journal", b"\x01" + (5).to_bytes(4, "big") + b"hello\0"),
    ):
        with open(damaged, "wb") as other:
            other.write(begins)
        refuses(why, CANNOT_OPEN, old=damaged)
        need(bytes_of(damaged) == begins, f"{why}: the old journal is another one")
    rotten = os.path.join(room, "rotten")
    shutil.copytree(old, rotten)
    with open(segments(rotten)[0], "r+b") as other:
        other.seek(-20, os.SEEK_END)
        other.write(b"rot")
    refuses("a segment that is damaged", CANNOT_OPEN, old=rotten)
    refuses("no old journal", CANNOT_OPEN, old=os.path.join(room, "missing"))
    need(not os.path.exists(os.path.join(room, "missing")), "a journal that was missing")
    refuses("a folder without segments", CANNOT_OPEN, old=room)
    refuses("other tenants", CANNOT_OPEN, words=("--tenants", "63"))
    refuses("another bound", CANNOT_OPEN, words=("--tenants", "64", "--bound", "9"))
    server = journaled(compact.program, old, tenants=TENANTS)
    refuses("a journal in use", CANNOT_OPEN)
    need(server.end()[0] == 0, "a server beside a compaction")
    need(not os.path.exists(new) and files_of(old) == before, "what can't be has left something")


def full_disk(compact, room):
    """Some short lines make long rows, for which there is no room."""
    old, new = os.path.join(room, "short"), os.path.join(room, "long")
    lines = [b"open", b"create table t (a int, b text)", b"begin"]
    lines += [f"insert into t values ({at}, 'x')".encode() for at in range(300)] + [b"update t set b = '" + b"y" * 250 + b"'", b"commit", b"end"]
    write_file(old, TENANTS, [(0, 0, line) for line in lines])
    status, out, log = compact(old, new, limit=40_000)
    need(status == 1 and out == "" and log.splitlines()[-1] == CANNOT_WRITE and len(log.splitlines()) > 1, f"a full disk: {status}, {log}")
    need(not os.path.exists(new) and not os.path.exists(new + ".new"), "a full disk: something is left")
    whole(compact, old, new)
    need(os.path.getsize(new) > 70_000, "long rows")


def fails_well(compact, room, old, calls):
    """Of calls that fail, and of a program that is killed in their place, there is a whole new journal or none."""
    wanted, before = files_of(os.path.join(room, "new")), files_of(old)
    counts = {"FAILED": 0, "KILLED": 0}
    for how in counts:
        for at in range(1, calls + 1):
            new = os.path.join(room, f"{how}{at}")
            status, out, log = compact(old, new, **{how: at, "REASON": 28})
            need(out == "" and status in (0, 1, -signal.SIGKILL), f"{how} {at}: {status}, {log}")
            counts[how] += status != 0
            if status == 1:
                need(log.splitlines()[-1] in (CANNOT_OPEN, CANNOT_WRITE) and len(log.splitlines()) > 1, f"{how} {at}: {log}")
                need(not os.path.exists(new + ".new"), f"{how} {at}: something is left beside")
            if status == 0 or os.path.exists(new):
                need(files_of(new) == wanted, f"{how} {at}: half a journal")
            need(files_of(old) == before, f"{how} {at}: the old journal is another one")
            if not os.path.exists(new):
                whole(compact, old, new)
                need(files_of(new) == wanted, f"{how} {at}: another journal the next time")
            remove(new)
    return counts


def changes_form(compact, room, old):
    """A journal of an earlier version, which is a file, is written anew as a folder where one of its name is empty."""
    file, new = os.path.join(room, "earlier"), os.path.join(room, "later")
    entries = [(tenant, session, line.encode("latin-1")) for tenant, session, line in records(old)]
    write_file(file, TENANTS, entries)
    os.mkdir(new)
    whole(compact, file, new)
    need(files_of(new) == files_of(os.path.join(room, "new")), "a journal of an earlier version makes another one")


def full_trail(compact, room):
    """A trail that is nearly full is short again."""
    old, new = os.path.join(room, "full"), os.path.join(room, "emptied")
    table = b"create table t (a int)"
    lines = [b"open", table] + [b"begin", b"commit"] * ((FULL - 8) // 2) + [b"begin", b"insert into t values (7)", b"commit", b"end"]
    os.mkdir(old)
    write_segment(os.path.join(old, "journal.000001"), 1, 0, TENANTS, [(0, 0, line) for line in lines])

    def asked(folder):
        server = journaled(compact.program, folder, "--sync", "never", "--renew", "never", tenants=TENANTS)
        client = Client(server, 0, 0, ["begin", "commit"] * 10)
        client.told = []
        client.start()
        client.join()
        status, out, log = server.end()
        need(status == 0, f"a start: {log[-300:]}")
        return int(out.split()[-1])

    full = asked(old)
    need(full >= FULL, f"a full trail has {full} steps")
    whole(compact, old, new)
    need(asked(new) < 60, "the trail isn't short")
    return full


def main():
    parser = argparse.ArgumentParser(description=__doc__, formatter_class=argparse.RawDescriptionHelpFormatter)
    parser.add_argument("program", nargs="?", default=BUILT)
    parser.add_argument("--calls", type=int, default=40)
    parser.add_argument("--seed", type=int, default=1)
    asked = parser.parse_args()
    program = os.path.abspath(asked.program)
    with tempfile.TemporaryDirectory() as room:
        compact = Compactor(program, library("refuse_disk", room))
        old = many_tenants(program, room, asked.seed)
        before, after = is_short(compact, room, old)
        print(f"{TENANTS} tenants: {before} records are {after}, and make the same")
        cannot_be(compact, room, old)
        changes_form(compact, room, old)
        full_disk(compact, room)
        counts = fails_well(compact, room, old, asked.calls)
        print(f"of {asked.calls} calls on files, {counts['FAILED']} failed in turn, and {counts['KILLED']} killed it: a whole new journal or none")
        print(f"a trail of {full_trail(compact, room):,} steps is short")


if __name__ == "__main__":
    main()
