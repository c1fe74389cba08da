#!/usr/bin/env python3
"""Times a replay with one worker and with more.

    python3 -m bench.benchmarks.replay [PROGRAM]

PROGRAM is crates/starhost/out/starhost where no word is given; `rt run` in
crates/starhost builds it. The input has 16 tenants with 1,024 rows each, which
join their table with itself: 2^20 combinations a line. Printed is, for each
number of workers, the best of five runs with the program's start in it, and
that time as a part of one worker's.
"""

import subprocess
import sys
import time

from bench.harness import program_of

RUNS = 5
TENANTS = 16
JOINS = 2
WORKERS = (1, 2, 4, 16)


def lines_of(tenant):
    """A tenant's rows, and its joins."""
    commands = ["create table t (a int)", "begin", "insert into t values (1)"]
    commands += ["insert into t select a + 1 from t"] * 10
    commands += ["select count(*) from t x, t y where x.a < y.a"] * JOINS
    commands += ["commit"]
    return [f"{tenant} 0 {command}\n" for command in commands]


def main():
    program = program_of(sys.argv[1:])
    text = "".join(line for tenant in range(TENANTS) for line in lines_of(tenant)).encode()
    replies, alone = None, None
    for workers in WORKERS:
        words = [program, "replay", "--cells", "16", "--workers", str(workers)]
        best = float("inf")
        for _ in range(RUNS):
            start = time.perf_counter()
            run = subprocess.run(words, input=text, stdout=subprocess.PIPE, check=True)
            best = min(best, time.perf_counter() - start)
            replies = replies or run.stdout
            if run.stdout != replies:
                sys.exit("two runs had other replies")
        alone = alone or best
        print(f"{workers:2} workers: {best * 1000:7.1f} ms, {best / alone:.2f} of one")


if __name__ == "__main__":
    main()
