#!/usr/bin/env python3
"""Visits a server as clients of all kinds do, and tells what they saw.

    python3 -m bench.tests.visits [PROGRAM]

PROGRAM is crates/starhost/out/starhost where no word is given. Each visit is of a server of its own. A visit that goes
as it is to is told in one line; the first that doesn't ends the program.
"""

import socket
import struct
import sys
import time

from bench.harness import Server, expect, program_of
from bench.harness import read_lines as bytes_of_lines


def visited(program, *words):
    """A server for so many visits as its words say."""
    return Server(program, *words, has_input=False)


def read_lines(stream, count):
    return bytes_of_lines(stream, count).decode()


def one_client(program):
    server = visited(program, "--connections", "1")
    expect("replies", server.ask("0 0\nbegin\nend\n"), "ok\nok\nok\n")
    told, log = server.end_well()
    expect("last line", told, "trails 16 steps 3")
    return log


def first_lines(program):
    server = visited(program, "--connections", "6", "--tenants", "2")
    with server.connect() as stream:
        stream.sendall(b"1 0\n")
        expect("opened", read_lines(stream, 1), "ok\n")
        expect("open already", server.ask("1 0\nbegin\n"), "no 45 AlreadyOpen\n")
    expect("no tenant", server.ask("2 0\nbegin\n"), "no 13 NoTenant\n")
    expect("no session", server.ask("0 8\n"), "no 14 NoSession\n")
    expect("no names", server.ask("0 0 begin\n"), "no 12 BadLine\n")
    expect("too long", server.ask("x" * 5000 + "\n"), "no 11 TooLong\n")
    told, log = server.end_well()
    expect("last line", told, "trails 2 steps 2")
    return log


def gone_in_a_line(program):
    server = visited(program, "--connections", "2", "--workers", "1")
    with server.connect() as stream:
        stream.sendall(b"0 0\ncreate table t (a int)\nbegin\ninsert into t values (1)\ncomm")
    # the server has seen that the client is gone
    server.wait_for("closed: tenant 0, session 0")
    # the rest of a line counts as a line, and the transaction isn't committed
    expect("after it", server.ask("0 0\nbegin\nselect * from t\nend\n"), "ok\nok\nrows 0\nok\n")
    told, log = server.end_well()
    # without the open line where the fault was seen first
    expect("last line", told in ("trails 16 steps 9", "trails 16 steps 10"), True)
    return log


def gone_without_reading(program):
    server = visited(program, "--connections", "1001")
    with server.connect() as stream:
        stream.sendall(b"0 0\nbegin\n")
        # closed at once, with what it was sent unread
        stream.setsockopt(socket.SOL_SOCKET, socket.SO_LINGER, struct.pack("ii", 1, 0))
    asked = 1
    while (seen := server.ask("0 0\n")) == "no 45 AlreadyOpen\n" and asked < 1000:
        asked += 1
    expect("opened again", seen, "ok\n")
    for _ in range(asked, 1000):
        expect("no names", server.ask("x\n"), "no 12 BadLine\n")
    told, log = server.end_well()
    # of the first client's lines as many as were read before the fault
    expect("last line", told in [f"trails 16 steps {n}" for n in (2, 4, 5)], True)
    return log


def one_after_another(program):
    server = visited(program, "--connections", "1000")
    expect("first", server.ask("0 0\ncreate table t (a int)\n"), "ok\nok\n")
    for at in range(1, 1000):
        expect(f"visit {at}", server.ask(f"0 {at % 8}\nbegin\ninsert into t values ({at})\ncommit\n"), "ok\nok\nok 1\ndone 0\n")
    told, log = server.end_well()
    expect("last line", told, f"trails 16 steps {3 + 999 * 5}")
    return log


def seventeenth_is_served(program):
    server = visited(program, "--connections", "17", "--workers", "16", "--cells", "16")
    streams = [server.connect() for _ in range(16)]
    for tenant, stream in enumerate(streams):
        stream.sendall(f"{tenant} 0\n".encode())
        expect(f"client {tenant}", read_lines(stream, 1), "ok\n")
    expect("the seventeenth", server.ask("0 1\n"), "ok\n")
    for stream in streams:
        stream.close()
    told, log = server.end_well()
    expect("last line", told, f"trails 16 steps {17 * 2}")
    return log


def next_session_reads(program):
    server = visited(program, "--connections", "33")
    for tenant in range(16):
        lines = f"{tenant} 0\ncreate table t (a int)\nbegin\ninsert into t values ({tenant})\ncommit\n"
        expect(f"write {tenant}", server.ask(lines), "ok\nok\nok\nok 1\ndone 0\n")
    for tenant in range(16):
        lines = f"{tenant} 7\nbegin\nselect * from t\n"
        expect(f"read {tenant}", server.ask(lines), f"ok\nok\nrows 1\n{tenant}\n")
    expect("read again", server.ask("3 0\nbegin\nselect * from t\ncommit\nend\n"), "ok\nok\nrows 1\n3\ndone 0\nok\n")
    told, log = server.end_well()
    expect("last line", told, f"trails 16 steps {16 * 6 + 16 * 4 + 5}")
    return log


VISITS = [one_client, first_lines, gone_in_a_line, gone_without_reading, one_after_another, seventeenth_is_served, next_session_reads]


def main():
    program = program_of(sys.argv[1:])
    for visit in VISITS:
        start = time.perf_counter()
        log = visit(program)
        print(f"{visit.__name__.replace('_', ' ')}: {time.perf_counter() - start:.2f} s, {len(log)} lines of log")
        for line in log[:3]:
            print(f"    {line}")


if __name__ == "__main__":
    main()
