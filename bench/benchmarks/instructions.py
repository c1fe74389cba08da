#!/usr/bin/env python3
"""Where an instruction goes: those of a transaction, by crate, as valgrind counts them.

    python3 -m bench.benchmarks.instructions [PROGRAM] [--functions N] [--work WORK ..]

PROGRAM is crates/starhost/out/starhost where no word is given. A WORK is one of bench.benchmarks.beside_sqlite; short, audit
and cascade where none is named. Each is counted with so many transactions and with twice as many, and the difference is
what one takes. An instruction is its function's, where the compiler has left it one; a function of a library that is made
for a type of a crate is that crate's. Printed is a row for each crate; with --functions the N dearest functions of each work,
too.
"""

import argparse
import collections
import re
import subprocess
import sys
import tempfile

from bench.benchmarks.beside_sqlite import WORKS
from bench.harness import program_of

SCALES = {"short": 500, "audit": 50, "cascade": 2}
NAMED = re.compile(r"\((\d+)\)(?: (.*))?")
CRATE = re.compile(r"\b(sb_\w+|starhost)::")


def costs_of(path):
    """The instructions of each function by itself, of a file that callgrind wrote."""
    names, costs, function, is_call = {}, collections.Counter(), None, False
    with open(path, encoding="utf-8", errors="replace") as file:
        for line in file:
            if line.startswith("fn="):
                number, name = NAMED.match(line[3:].strip()).groups()
                names[number] = name or names[number]
                function = names[number]
            elif line.startswith(("cfn=", "cfi=", "cob=", "fi=", "fe=", "ob=", "fl=")):
                kind, rest = line.split("=", 1)
                found = NAMED.match(rest.strip())
                if kind == "cfn" and found and found[2]:
                    names[found[1]] = found[2]
            elif line.startswith("calls="):
                is_call = True
            elif line[:1].isdigit() or line[:1] in "+-*":
                # the line behind a call has what the called function took with all that it called
                if not is_call:
                    costs[function] += int(line.split()[1])
                is_call = False
    return costs


def counted(program, text):
    with tempfile.NamedTemporaryFile("w+", encoding="ascii") as lines, tempfile.NamedTemporaryFile() as found:
        lines.write(text)
        lines.flush()
        lines.seek(0)
        words = ["valgrind", "--tool=callgrind", f"--callgrind-out-file={found.name}", program, "run", "--tenants", "256"]
        run = subprocess.run(words, stdin=lines, stdout=subprocess.DEVNULL, stderr=subprocess.PIPE, text=True)
        if run.returncode:
            sys.exit(run.stderr[-2000:])
        return costs_of(found.name)


def each(program, name):
    """What one transaction of a work takes, by function."""
    times = SCALES.get(name, 4)
    once, twice = (WORKS[name][0](times * factor) for factor in (1, 2))
    costs = counted(program, twice.star_text(1))
    costs.subtract(counted(program, once.star_text(1)))
    return {function: cost / (twice.times - once.times) for function, cost in costs.items()}


def owner_of(function):
    found = CRATE.search(function)
    if found:
        return found[1]
    return "the libraries" if "::" in function or function.startswith("+") else "the C library"


def main():
    words = argparse.ArgumentParser(description=__doc__, formatter_class=argparse.RawDescriptionHelpFormatter)
    words.add_argument("program", nargs="*")
    words.add_argument("--functions", type=int, default=0)
    words.add_argument("--work", nargs="+", default=["short", "audit", "cascade"])
    asked = words.parse_args()
    found = {name: each(program_of(asked.program), name) for name in asked.work}
    table = {name: collections.Counter() for name in found}
    for name, costs in found.items():
        for function, cost in costs.items():
            table[name][owner_of(function)] += cost
    print(f"| Instructions of | {' | '.join(found)} |\n|---|{'---|' * len(found)}")
    owners = sorted({owner for costs in table.values() for owner in costs}, key=lambda owner: -table[asked.work[0]][owner])
    for owner in owners:
        if any(round(table[name][owner]) for name in found):
            print(f"| {owner} | {' | '.join(f'{table[name][owner]:,.0f}' for name in found)} |")
    print(f"| all | {' | '.join(f'{sum(table[name].values()):,.0f}' for name in found)} |")
    for name, costs in found.items():
        for function, cost in sorted(costs.items(), key=lambda pair: -pair[1])[: asked.functions]:
            print(f"{name:10} {cost:12,.0f} {function[:140]}")


if __name__ == "__main__":
    main()
