#!/usr/bin/env python3
"""How the time of a commit grows with its changes: of twice as many considerations it is a few times as much.

    python3 -m bench.tests.growth [PROGRAM]

PROGRAM is crates/starhost/out/starhost where no word is given. One rule inserts rows, another one updates all rows each
time, and a third one waits behind both. So half as many considerations again make changes by their square, and a test
of the rule that waits may not walk over all of them at each consideration. Processor time counts, the least of some
rounds. What isn't as it is to be ends this with status 1.
"""

import os
import subprocess
import sys
import tempfile

from bench.harness import need, program_of, tried

SIZES = (500, 1000)
SECONDS = 4
TIMES = 5

LINES = [
    "open",
    "create table h (a int, b int)",
    "create table told (a int)",
    "create rule equal on h when inserted, updated then update h set b = a",
    "create rule more on h when inserted, deleted, updated (b) then insert into h values (1, 100), (1, 0), (-2, 5), (1, 1)",
    "create rule late on h when deleted, inserted, updated (a, b) then insert into told values (1) follows equal, more",
    "begin",
    "insert into h values (1, 2)",
    "commit",
]


def spent(program, considerations):
    """The processor time of a commit of so many considerations, which then ends by the limit."""
    with tempfile.TemporaryFile() as lines, tempfile.TemporaryFile() as replies:
        lines.write("".join(f"0 0 {line}\n" for line in LINES).encode())
        lines.seek(0)
        words = [program, "run", "--bound", str(considerations)]
        process = subprocess.Popen(words, stdin=lines, stdout=replies, stderr=subprocess.DEVNULL)
        _, process.returncode, usage = os.wait4(process.pid, 0)
        replies.seek(0)
        told = replies.read().decode().splitlines()
    ended = f"0 0 rolledback limit {considerations}"
    need(process.returncode == 0 and ended in told, f"status {process.returncode}, and no line '{ended}'")
    considered = [line.split()[2] for line in told[told.index(ended) + 1 :]]
    need(len(considered) == considerations and "late" not in considered, considered[:8])
    return usage.ru_utime + usage.ru_stime


def grows(program, rounds):
    """Holds the least times of these rounds to what they may be."""
    times = [min(spent(program, size) for _ in range(rounds)) for size in SIZES]
    need(times[1] <= TIMES * times[0], f"{times[1]:.2f} s for {SIZES[1]}, {times[0]:.2f} s for {SIZES[0]}")
    need(times[1] <= SECONDS, f"{times[1]:.2f} s for {SIZES[1]}")
    return times


def main():
    program = program_of(sys.argv[1:])
    half, whole = tried(grows, [(program, 2), (program, 4), (program, 8)])
    print(f"a commit of {SIZES[1]:,} considerations: {whole:.2f} s, {whole / half:.1f} times that of {SIZES[0]}")


if __name__ == "__main__":
    main()
