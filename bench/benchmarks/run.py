#!/usr/bin/env python3
"""Times the built program on streams of command lines.

    python3 -m bench.benchmarks.run [PROGRAM]

PROGRAM is crates/starhost/out/starhost where no word is given; `rt run` in
crates/starhost builds it. Each stream runs seven times; the best time counts,
with the program's start in it. Printed are lines per second, megabytes of
input per second, and the peak memory in megabytes.
"""

import io
import os
import subprocess
import sys
import tempfile
import time

from bench.benchmarks import streams
from bench.harness import program_of

RUNS = 7
COUNTS = {"short": 20_000, "rolled-back": 20_000, "long-inserts": 5_000, "selects": 300, "refused": 60_000}


def text_of(name):
    out = io.StringIO()
    streams.STREAMS[name](out.write, COUNTS[name])
    return out.getvalue().encode()


def run(program, path):
    """The seconds and the peak memory in kilobytes of one run."""
    start = time.perf_counter()
    with open(path, "rb") as source:
        process = subprocess.Popen([program], stdin=source, stdout=subprocess.DEVNULL)
        _, status, usage = os.wait4(process.pid, 0)
    seconds = time.perf_counter() - start
    if status != 0:
        sys.exit(f"{program} ended with status {status}")
    return seconds, usage.ru_maxrss


def main():
    program = program_of(sys.argv[1:])
    print(f"{'stream':14} {'lines/s':>12} {'MB/s':>8} {'peak MB':>8}")
    for name in streams.STREAMS:
        text = text_of(name)
        with tempfile.NamedTemporaryFile() as source:
            source.write(text)
            source.flush()
            runs = [run(program, source.name) for _ in range(RUNS)]
        seconds = min(r[0] for r in runs)
        lines = text.count(b"\n")
        print(f"{name:14} {lines / seconds:12,.0f} {len(text) / seconds / 1e6:8.1f} {max(r[1] for r in runs) / 1024:8.1f}")


if __name__ == "__main__":
    main()
