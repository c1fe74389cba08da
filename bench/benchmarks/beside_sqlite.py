#!/usr/bin/env python3
"""The processor time of the built program beside that of sqlite3 on the same work, by turns in one run.

    python3 -m bench.benchmarks.beside_sqlite [--program PROGRAM] [--rounds N] [--instructions] [WORK ..]

PROGRAM is crates/starhost/out/starhost where no word is given; sqlite3 is Debian's. Both read their lines from a file, and
answer them into nothing; sqlite3 has its tables in memory. The time of the set-up alone is taken off, and the least of N
rounds (9) counts. A WORK is one of the table, or all of them. Printed is a row for each: the times of one transaction or
query, and the first as a part of the second. With --instructions valgrind counts instructions in place of time, of a tenth
of the work, whatever else the machine does. Where the two answer otherwise, or a line is refused, the program ends with
status 1.
"""

import argparse
import os
import re
import subprocess
import sys
import tempfile

from bench.harness import BUILT



class Work:
    """Lines for both programs: the set-up, then the work; and what SQLite does before each commit."""

    def __init__(self, star, lite, before_commit=()):
        self.star, self.lite, self.before_commit = list(star), list(lite), before_commit
        self.lines, self.times, self.tenants = [], 0, 1

    def transaction(self, *statements):
        self.lines += ["begin", *statements, "commit"]
        self.times += 1
        return self

    def queries(self, query, times):
        """In the transaction that the set-up has begun."""
        self.lines += [query] * times
        self.times += times
        return self

    def star_text(self, whole):
        return "".join(f"0 0 {line}\n" for line in ["open", *self.star, *(self.lines if whole else [])])

    def lite_text(self, whole):
        lines = list(self.lite)
        for line in self.lines if whole else []:
            if line == "commit":
                lines += self.before_commit
            lines.append(line)
        return "".join(f"{line};\n" for line in lines)


def rows_of(table, rows):
    """Inserts that fit into lines of 4,096 bytes."""
    part, size = [], 0
    for row in rows:
        text = "(" + ", ".join(map(str, row)) + ")"
        if size + len(text) > 3900:
            yield f"insert into {table} values {', '.join(part)}"
            part, size = [], 0
        part.append(text)
        size += len(text) + 2
    yield f"insert into {table} values {', '.join(part)}"


def row_triggers(table, columns):
    """SQLite has no net effects, so triggers for each row write down each change."""
    names = ", ".join(columns)

    def note(event, row, kind):
        values = ", ".join(f"{row}.{column}" for column in columns)
        put = f"insert into lg(rid, kind, {names}) values ({row}.rowid, {kind}, {values})"
        return f"create trigger l{kind} after {event} on {table} for each row begin {put}; end"

    made = f"create table lg (seq integer primary key, rid int, kind int, {' int, '.join(columns)} int)"
    return [made, note("insert", "new", 0), note("update", "new", 1), note("delete", "old", 2)]


def short(times=20_000):
    tables = [f"create table t{k} (a int, b int)" for k in range(5)]
    work = Work(tables, tables)
    for i in range(times):
        work.transaction(f"insert into t{i // 4096} values ({i}, {i % 97})")
    return work


def cascade(times=40):
    tables = ["create table dept (dno int)", "create table emp (eno int, dno int)"]
    rule = "create rule cascade on dept when deleted then delete from emp where dno in (select dno from deleted)"
    gone = "seq in (select min(seq) from lg group by rid having min(kind) > 0 and max(kind) = 2)"
    ends = [f"delete from emp where dno in (select dno from lg where {gone})", "delete from lg"]
    work = Work([*tables, rule], tables + row_triggers("dept", ["dno"]), ends)
    employees = [(64 * d + e, d) for d in range(64) for e in range(64)]
    for _ in range(times):
        work.transaction(*rows_of("dept", [(d,) for d in range(64)]), *rows_of("emp", employees))
        work.transaction("delete from dept")
    return work


def audit(times=2000, updates=4, rows=16):
    """Of 16 rows that are inserted and updated, what the transaction comes to is copied."""
    tables = ["create table t (id int, v int)", "create table audit (id int, v int)"]
    rules = [
        "create rule ai on t when inserted then insert into audit select id, v from inserted",
        "create rule au on t when updated then insert into audit select id, v from new-updated",
    ]
    last = "select id, v from lg where seq in (select max(seq) from lg group by rid having max(kind) < 2)"
    work = Work(tables + rules, tables + row_triggers("t", ["id", "v"]), [f"insert into audit {last}", "delete from lg"])
    for i in range(times):
        made = rows_of("t", [(j, 0) for j in range(rows)])
        changes = [f"update t set v = v + {k + 1} where id >= {rows * (i % 2)}" for k in range(updates)]
        work.transaction("delete from audit", "delete from t", *made, *changes)
    return work


def rules(count, times=10_000):
    """Four rules on the table that changes, and the others on fifteen more."""
    tables = [f"create table t{k} (a int)" for k in range(15)] + ["create table h (a int)"]
    star, lite = [], []
    for rule in range(count):
        on = f"t{0 if rule < 4 else 1 + rule % 14}"
        star.append(f"create rule r{rule} on {on} when inserted then insert into h select a from inserted where a < 0")
        put = "begin insert into h values (new.a); end"
        lite.append(f"create trigger r{rule} after insert on {on} for each row when new.a < 0 {put}")
    work = Work(tables + star, tables + lite)
    for i in range(times):
        change = "delete from t0" if i % 64 == 63 else f"update t0 set a = {i} where a = {i}"
        work.transaction(f"insert into t0 values ({i})", change)
    return work


def query(text, times):
    """Over two tables of 1,000 rows of a number and a text."""
    tables = ["create table t (a int, c text)", "create table u (b int, d text)"]
    rows = [*rows_of("t", [(i, f"'text {i % 97}'") for i in range(1000)])]
    rows += rows_of("u", [(i * 7 % 1000, f"'text {i % 89}'") for i in range(1000)])
    before = [*tables, "begin", *rows]
    return Work(before, before).queries(text, times)


# what makes the work, and how often it is done
WORKS = {
    "short": (short, 20_000),
    "cascade": (cascade, 40),
    "audit": (audit, 2000),
    "rules4": (lambda times: rules(4, times), 10_000),
    "rules256": (lambda times: rules(256, times), 10_000),
    "equal": (lambda times: query("select count(*) from t, u where t.a = u.b", times), 400),
    "in": (lambda times: query("select count(*) from t where a in (select b from u)", times), 400),
    "sum": (lambda times: query("select sum(a) from t where a > 10", times), 2000),
    "correlated": (lambda times: query("select count(*) from t where a < (select sum(b) from u where u.b < t.a)", times), 8),
    "rows": (lambda times: query("select * from t", times), 400),
    "unequal": (lambda times: query("select count(*) from t, u where t.a + 3 < u.b", times), 16),
    "long": (lambda times: query("select count(*) from t, u where " + " and ".join(["t.a < u.b + 900"] * 20), times), 8),
    "texts": (lambda times: query("select count(*) from t, u where t.c < u.d and u.d <> 'text 7'", times), 8),
}


def seconds(words, path, told=subprocess.DEVNULL):
    """The processor time of this program on the lines of this file."""
    with open(path, encoding="ascii") as lines:
        process = subprocess.Popen(words, stdin=lines, stdout=told, stderr=subprocess.DEVNULL)
        _, status, usage = os.wait4(process.pid, 0)
        process.returncode = status
    return usage.ru_utime + usage.ru_stime


def instructions(words, path):
    """How many of them the program takes on the lines of this file."""
    counted = ["valgrind", "--tool=callgrind", "--callgrind-out-file=/dev/null", *words]
    with open(path, encoding="ascii") as lines:
        told = subprocess.run(counted, stdin=lines, stdout=subprocess.DEVNULL, stderr=subprocess.PIPE, text=True).stderr
    return int(re.search(r"Collected : (\d+)", told)[1])


def answers(words, path):
    """The lines that the program answers, without numbers, and how many refuse."""
    with open(path, encoding="ascii") as lines:
        told = subprocess.run(words, stdin=lines, stdout=subprocess.PIPE, stderr=subprocess.STDOUT).stdout.decode()
    lines = [re.sub(r"^\d+ 0 ", "", line).replace("'", "").replace(",", "|") for line in told.splitlines()]
    refused = [line for line in lines if line.startswith(("no ", "rolledback")) or "rror" in line]
    return [line for line in lines if line and line[0].isdigit()], refused


def times_of(program, work, rounds, count=seconds):
    """The least processor seconds of the work by the program, and by sqlite3; or what else is counted."""
    both = [[program, "run", "--tenants", "256"], ["sqlite3", "-batch", ":memory:"]]
    with tempfile.TemporaryDirectory() as folder:
        for at, text_of in enumerate((work.star_text, work.lite_text)):
            for whole in (0, 1):
                with open(f"{folder}/{at}{whole}", "w", encoding="ascii") as lines:
                    lines.write(text_of(whole))
        told = [answers(words, f"{folder}/{at}1") for at, words in enumerate(both)]
        if told[0][1] or told[1][1] or told[0][0] != told[1][0]:
            sys.exit(f"refused: {told[0][1][:1]} {told[1][1][:1]}, or other answers")
        runs = [[[count(words, f"{folder}/{at}{whole}") for whole in (0, 1)] for at, words in enumerate(both)] for _ in range(rounds)]
    least = [[min(run[at][whole] for run in runs) for whole in (0, 1)] for at in (0, 1)]
    return [max(whole - before, 1e-6) for before, whole in least]


def main():
    words = argparse.ArgumentParser(description=__doc__, formatter_class=argparse.RawDescriptionHelpFormatter)
    words.add_argument("--program", default=BUILT)
    words.add_argument("--rounds", type=int, default=9)
    words.add_argument("--instructions", action="store_true")
    words.add_argument("work", nargs="*")
    given = words.parse_args()
    for name in given.work or WORKS:
        make, times = WORKS[name]
        if given.instructions:
            work = make(max(1, times // 10))
            counted = times_of(given.program, work, 1, instructions)
            each = [f"{count / work.times:14,.0f}" for count in counted]
        else:
            work = make(times)
            counted = times_of(given.program, work, given.rounds)
            each = [f"{1e6 * spent / work.times:10,.2f} us" for spent in counted]
        print(f"{name:10} {' '.join(each)} {counted[0] / counted[1]:6.2f}", flush=True)


if __name__ == "__main__":
    main()
