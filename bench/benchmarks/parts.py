#!/usr/bin/env python3
"""Times the reader by itself, in the built program.

    python3 -m bench.benchmarks.parts [PROGRAM]

PROGRAM is crates/starhost/out/starhost where no word is given. Each command has about 4,000 bytes and is sent again and
again to a session that isn't open: it is read, and then answered `no 44 NotOpen`. The time of as many lines of spaces
behind one letter is taken off. Printed are the megabytes of text that are read in a second, by the best of seven runs.
What is made is dropped in the same time.
"""

import subprocess
import sys
import time

from bench.harness import program_of

RUNS = 7
ROUNDS = 4_000
LENGTH = 4_080


def filled(start, part, between):
    """The start, and as many parts as the length has room for."""
    line = start + part(0)
    index = 1
    while len(line) + len(between) + len(part(index)) <= LENGTH:
        line += between + part(index)
        index += 1
    return line


def insert(row):
    return filled("insert into t values ", row, ", ")


def select(part):
    return filled("select a from t where ", part, " and ")


def wide(i):
    return "(" + ", ".join(str((i * 7919 + k * 104729) * 1_000_003 % 2**62) for k in range(8)) + ")"


COMMANDS = {
    "1 integer": insert(lambda i: f"({i % 1000})"),
    "2 integers": insert(lambda i: f"({i % 1000}, {i % 77})"),
    "8 integers": insert(wide),
    "integer and text": insert(lambda i: f"({i % 1000}, 'name {i % 77}')"),
    "2 texts": insert(lambda i: f"('k{i % 1000}', 'value {i % 77}')"),
    "condition": select(lambda i: [f"a = {i}", f"b < {i * 7}", f"t.a >= {i} + b"][i % 3]),
    "subqueries": select(lambda i: f"exists (select b from u where u.a = t.a and b > {i})"),
}


def seconds(program, command, answer):
    """The best time of all rounds."""
    text = f"0 0 {command}\n".encode() * ROUNDS
    best = float("inf")
    for _ in range(RUNS):
        start = time.perf_counter()
        told = subprocess.run([program], input=text, stdout=subprocess.PIPE, check=True).stdout
        best = min(best, time.perf_counter() - start)
        if told != f"0 0 {answer}\n".encode() * ROUNDS:
            sys.exit(f"{program}: {told[:100]!r}")
    return best


def main():
    program = program_of(sys.argv[1:])
    print(f"{'command':18} {'read MB/s':>10}")
    for name, command in COMMANDS.items():
        read = seconds(program, command, "no 44 NotOpen")
        other = seconds(program, "x".ljust(len(command)), "no 10 Syntax")
        print(f"{name:18} {len(command) * ROUNDS / max(read - other, 1e-6) / 1e6:10.0f}")


if __name__ == "__main__":
    main()
