#!/usr/bin/env python3
"""Times the dearest statements, and weighs what a large transaction leaves.

    python3 -m bench.benchmarks.largest [PROGRAM]

PROGRAM is crates/starhost/out/starhost where no word is given; `rt run` in
crates/starhost builds it. A statement of as many comparisons as a line has room
for is evaluated on all combinations of 1,024 by 1,024 rows, once of integers and
once of equal texts of 255 bytes, and one that adds up as long a term; printed are
their seconds. Then one transaction
updates 4,096 rows 512 times and is rolled back; printed is the memory that the
program has in use before it, at its end, and after some thousand short ones
behind it, in megabytes.
"""

import subprocess
import sys
import time

from bench.harness import program_of

LINE = 4096 - len("0 0 ")


class Host:
    """The program, fed line by line for one tenant."""

    def __init__(self, program):
        self.process = subprocess.Popen([program, "run", "--tenants", "1"], stdin=subprocess.PIPE, stdout=subprocess.PIPE, text=True)

    def ask(self, *lines):
        """The first lines of the last line's reply."""
        self.process.stdin.write("".join(f"0 0 {line}\n" for line in lines))
        self.process.stdin.flush()
        return [self.process.stdout.readline() for _ in lines][-1]

    def megabytes(self):
        for line in open(f"/proc/{self.process.pid}/status"):
            if line.startswith("VmRSS"):
                return int(line.split()[1]) / 1024

    def close(self):
        self.process.stdin.close()
        self.process.stdout.close()
        self.process.wait()


def doubled(host, rows):
    """As many rows in t as wanted, a power of two, from the one that is there."""
    while rows > 1:
        host.ask("insert into t select * from t")
        rows //= 2


def seconds(program, column, value, line, answer):
    """How long this line takes over 1,024 rows that have this value in both columns."""
    host = Host(program)
    host.ask("open", f"create table t (a {column}, b {column})", "begin", f"insert into t values ({value}, {value})")
    doubled(host, 1024)
    start = time.perf_counter()
    host.process.stdin.write(f"0 0 {line}\n")
    host.process.stdin.flush()
    reply = host.process.stdout.readline() + host.process.stdout.readline()
    taken = time.perf_counter() - start
    host.close()
    if reply != f"0 0 rows 1\n0 0 {answer}\n":
        sys.exit(f"{line[:40]}: {reply}")
    return taken


def filled(first, more, last=""):
    """A line that begins and ends so, with as many of these between as a line has room for, and how many."""
    count = (LINE - len(first) - len(last)) // len(more)
    return first + more * count + last, count


def weigh(program):
    host = Host(program)
    host.ask("open", "create table t (a int)", "create table u (a int)", "begin", "insert into t values (1)")
    doubled(host, 4096)
    host.ask("commit")
    before = host.megabytes()
    host.ask("begin", *["update t set a = a + 1"] * 512)
    most = host.megabytes()
    host.ask("rollback")
    for _ in range(2000):
        host.ask("begin", "insert into u values (1)", "delete from u", "commit")
    after = host.megabytes()
    host.close()
    return before, most, after


def main():
    program = program_of(sys.argv[1:])
    line, more = filled("select count(*) from t x, t y where x.a=y.b", " and x.a=y.b")
    for column, value in ("int", "7"), ("text", "'" + "x" * 255 + "'"):
        taken = seconds(program, column, value, line, 2**20)
        print(f"{more + 1} comparisons of each of 2^20 combinations, {column}: {taken:.1f} s")
    line, more = filled("select sum(x.a", "+y.b", ") from t x, t y")
    taken = seconds(program, "int", "7", line, 7 * (more + 1) * 2**20)
    print(f"the sum of {more + 1} columns over 2^20 combinations: {taken:.1f} s")
    print("a transaction of 2^21 changes, rolled back: %.0f MB before, %.0f at its end, %.0f behind it" % weigh(program))


if __name__ == "__main__":
    main()
