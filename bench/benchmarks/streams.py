#!/usr/bin/env python3
"""Streams of command lines for starhost.

    python3 -m bench.benchmarks.streams NAME COUNT > FILE

NAME is one of the streams below, COUNT how often its part is repeated. The
trail of a tenant has 1,048,576 entries at most, so a stream of more lines is
answered `no 90 TrailFull` from there on.
"""

import sys


def opening(write):
    write("0 0 open\n0 0 create table t (a int, b text)\n")


def short(write, count):
    """Transactions that insert one row each; each table takes 4,096 of them."""
    write("0 0 open\n")
    for table in range(16):
        write(f"0 0 create table t{table} (a int, b text)\n")
    for i in range(count):
        table = i // 4096 % 16
        write(f"0 0 begin\n0 0 insert into t{table} values ({i}, 'row {i}')\n0 0 commit\n")


def rolled_back(write, count):
    """Transactions that insert one row each and drop it."""
    opening(write)
    for i in range(count):
        write(f"0 0 begin\n0 0 insert into t values ({i}, 'row {i}')\n0 0 rollback\n")


def long_inserts(write, count):
    """Inserts of about 4,000 bytes, each rolled back."""
    opening(write)
    rows = ", ".join(f"({1000 + i}, 'row number {1000 + i}')" for i in range(145))
    for _ in range(count):
        write(f"0 0 begin\n0 0 insert into t values {rows}\n0 0 rollback\n")


def selects(write, count):
    """Reads of a table of 1,000 rows."""
    opening(write)
    write("0 0 begin\n")
    for i in range(10):
        rows = ", ".join(f"({100 * i + j}, 'row {100 * i + j}')" for j in range(100))
        write(f"0 0 insert into t values {rows}\n")
    for _ in range(count):
        write("0 0 select * from t\n")


def refused(write, count):
    """Lines that no grammar has."""
    opening(write)
    for i in range(count):
        write(f"0 0 selec * from t{i}\n")


STREAMS = {
    "short": short,
    "rolled-back": rolled_back,
    "long-inserts": long_inserts,
    "selects": selects,
    "refused": refused,
}


def main():
    name, count = sys.argv[1], int(sys.argv[2])
    STREAMS[name](sys.stdout.write, count)


if __name__ == "__main__":
    main()
