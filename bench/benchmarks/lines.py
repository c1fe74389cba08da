#!/usr/bin/env python3
"""Times each of a file's lines by itself, in the built program.

    python3 -m bench.benchmarks.lines FILE [PROGRAM]

PROGRAM is crates/starhost/out/starhost where no word is given. The lines of FILE before its first empty line are played
once, those behind it in every round; those that begin with `!` are timed, each in runs of its own. A select is sent 64
times at once, any other line once, with a line behind it whose reply shows the end. Printed is the least time of seven
runs of four rounds, in microseconds, with the way through the pipes: some 20 for a line that is sent once.
"""

import subprocess
import sys
import time

from bench.harness import BUILT

RUNS, ROUNDS, SELECTS = 7, 4, 64
LAST, LAST_REPLY = b"0 0 last\n", b"0 0 no 10 Syntax\n"


class Program:
    def __init__(self, path):
        words = [path, "run", "--tenants", "1"]
        self.process = subprocess.Popen(words, stdin=subprocess.PIPE, stdout=subprocess.PIPE, bufsize=0)

    def play(self, lines, times=1):
        """The seconds until the replies to these lines have come, and how many of them were refused."""
        text = b"".join(f"0 0 {line}\n".encode() for line in lines) * times + LAST
        told = b""
        start = time.perf_counter()
        self.process.stdin.write(text)
        while not told.endswith(LAST_REPLY):
            told += self.process.stdout.read(1 << 20)
        return time.perf_counter() - start, told.count(b"\n0 0 no ") + told.startswith(b"0 0 no ") - 1

    def end(self):
        self.process.stdin.close()
        self.process.stdout.read()
        self.process.wait()


def microseconds(path, before, rounds, at):
    """Of a line of each round, and whether it was refused."""
    program = Program(path)
    program.play(before)
    spent = refused = 0
    times = SELECTS if rounds[at].startswith("!select") else 1
    for _ in range(ROUNDS):
        program.play(rounds[:at])
        seconds, wrong = program.play([rounds[at][1:]], times)
        spent, refused = spent + seconds, refused + wrong
        program.play(rounds[at + 1 :])
    program.end()
    return spent / (ROUNDS * times) * 1e6, refused


def main():
    if not 2 <= len(sys.argv) <= 3:
        sys.exit(__doc__)
    path = sys.argv[2] if len(sys.argv) == 3 else BUILT
    with open(sys.argv[1]) as file:
        lines = file.read().splitlines()
    gap = lines.index("")
    before, rounds = lines[:gap], lines[gap + 1 :]
    for at, line in enumerate(rounds):
        if not line.startswith("!"):
            continue
        # without the other timed selects, which change nothing
        kept = [one for place, one in enumerate(rounds) if place == at or not one.startswith("!select")]
        alone = [one if one is line else one.removeprefix("!") for one in kept]
        times = [microseconds(path, before, alone, alone.index(line)) for _ in range(RUNS)]
        print(f"{min(spent for spent, _ in times):12.1f}  {line[1:]}{'  (refused)' if times[0][1] else ''}")


if __name__ == "__main__":
    main()
