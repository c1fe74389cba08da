#!/usr/bin/env python3
"""How the time of the built program grows with the size of a load, beside sqlite3, by turns in one run.

    python3 -m bench.benchmarks.growth [--program PROGRAM] [--rounds N] [LOAD ..]

PROGRAM is crates/starhost/out/starhost where no word is given; sqlite3 is Debian's, with its tables in memory. Of most
loads the processor time counts, without that of the set-up, of workers the time on the clock; the least of N rounds (7).
What is printed for a load are the rows of its table in bench/documents/growth.md, in milliseconds.
"""

import argparse
import os
import subprocess
import tempfile
import time

from bench.benchmarks.beside_sqlite import Work, audit, rules, times_of
from bench.harness import BUILT

STATEMENTS = (50, 100, 200, 400, 800, 1600)
CONSIDERATIONS = (100, 200, 400, 800)
RULES = (4, 16, 64, 256)
TENANTS = (1, 4, 16, 64, 256)
WORKERS = (1, 2, 4)


def considerations(count):
    """A rule counts 100 rows up, one at each consideration; in SQLite a trigger that meets itself."""
    rows = ", ".join(["(0)"] * 100)
    rule = f"create rule r on t when inserted, updated if select * from t where a < {count} then update t set a = a + 1"
    trigger = f"when new.a < {count} begin update t set a = a + 1; update c set a = a + 1; end"
    lite = ["pragma recursive_triggers = on", "create table t (a int)", "create table c (a int)", "insert into c values (1)"]
    work = Work(["create table t (a int)", rule], [*lite, f"create trigger r after update on c for each row {trigger}"])
    # what begins the chain: in SQLite the first count up is the trigger's, too
    work.transaction(f"insert into t values {rows}")
    work.before_commit = ["update c set a = 0"]
    return work


def tenants(count, times=16_384):
    """Transactions of one insert and its delete, by tenants in turn; in SQLite each has a table of its own."""
    work = Work([], [f"create table t{tenant} (a int)" for tenant in range(count)])
    work.tenants = count
    for i in range(times):
        work.transaction(f"insert into t{i % count} values ({i})", f"delete from t{i % count}")
    return work


def tenants_text(work):
    """The same lines with the number of a tenant in front, whose table is named t."""

    def text(whole):
        lines = [f"{tenant} 0 {line}\n" for tenant in range(work.tenants) for line in ("open", "create table t (a int)")]
        for at in range(0, len(work.lines) if whole else 0, 4):
            tenant = at // 4 % work.tenants
            lines += [f"{tenant} 0 {line.replace(f't{tenant}', 't')}\n" for line in work.lines[at : at + 4]]
        return "".join(lines)

    return text


def tenants_of(count):
    work = tenants(count)
    work.star_text = tenants_text(work)
    return work


LOADS = {
    "statements": (STATEMENTS, lambda size: audit(times=max(1, 1600 // size), updates=size)),
    "considerations": (CONSIDERATIONS, considerations),
    "rules": (RULES, rules),
    "tenants": (TENANTS, tenants_of),
}


def joins(workers):
    """An input of 16 tenants that each join a table of 1,024 rows with itself, and the same work for each of 16 SQLites."""
    made = ["create table t (a int)", "begin", "insert into t values (1)", *["insert into t select a + 1 from t"] * 10]
    lines = [*made, "select count(*) from t x, t y where x.a < y.a", "commit"]
    star = "".join(f"{tenant} 0 {line}\n" for tenant in range(16) for line in lines)
    lite = "".join(f"{line};\n" for line in ["drop table if exists t", *lines] * (16 // workers))
    return star.encode(), lite.encode()


def clock(words, text, count=1):
    """The time until so many of these processes have ended."""
    with tempfile.TemporaryFile() as lines:
        lines.write(text)
        lines.flush()
        begun = time.perf_counter()
        started = []
        for _ in range(count):
            source = os.open(f"/proc/self/fd/{lines.fileno()}", os.O_RDONLY)
            started.append(subprocess.Popen(words, stdin=source, stdout=subprocess.DEVNULL))
            os.close(source)
        for process in started:
            process.wait()
        return time.perf_counter() - begun


def workers(program, rounds):
    for count in WORKERS:
        star, lite = joins(count)
        words = [program, "replay", "--cells", "16", "--workers", str(count)]
        both = [(clock(words, star), clock(["sqlite3", "-batch", ":memory:"], lite, count)) for _ in range(rounds)]
        print(row(count, *(min(times[at] for times in both) for at in (0, 1))), flush=True)


def row(size, ours, theirs):
    return f"| {size:,} | {1000 * ours:,.2f} | {1000 * theirs:,.2f} |"


def main():
    words = argparse.ArgumentParser(description=__doc__, formatter_class=argparse.RawDescriptionHelpFormatter)
    words.add_argument("--program", default=BUILT)
    words.add_argument("--rounds", type=int, default=7)
    words.add_argument("load", nargs="*")
    given = words.parse_args()
    for name in given.load or [*LOADS, "workers"]:
        print(f"{name}:")
        if name == "workers":
            workers(given.program, given.rounds)
            continue
        sizes, make = LOADS[name]
        for size in sizes:
            work = make(size)
            each = work.times if name == "statements" else 1
            print(row(size, *(spent / each for spent in times_of(given.program, work, given.rounds))), flush=True)


if __name__ == "__main__":
    main()
