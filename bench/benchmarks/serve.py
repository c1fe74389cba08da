#!/usr/bin/env python3
"""Times the server over sockets of this machine.

    python3 -m bench.benchmarks.serve [PROGRAM]

PROGRAM is crates/starhost/out/starhost where no word is given. Each figure is the best of five runs, each on tenants of
their own. Printed are:

- one line at a time over one connection: the microseconds of a round trip, beside
  those of the same client with a small echo server, which `cc` compiles;
- 64 lines in flight over one connection: lines per second;
- four connections to tenants in four cells, each a client that selects, beside one:
  how many times as many lines per second;
- these four on four workers, beside one worker.
"""

import os
import subprocess
import sys
import tempfile
import threading
import time

from bench.harness import Server, connect, program_of

RUNS = 5
ROUND_TRIPS = 20_000
LINES = 60_000
IN_FLIGHT = 64
ROWS = 300
SELECTS = 100

ECHO = r"""
#include <netinet/in.h>
#include <netinet/tcp.h>
#include <stdio.h>
#include <sys/socket.h>
#include <unistd.h>
int main(void) {
    struct sockaddr_in at = {.sin_family = AF_INET, .sin_addr.s_addr = htonl(INADDR_LOOPBACK)};
    socklen_t size = sizeof at;
    int listener = socket(AF_INET, SOCK_STREAM, 0), on = 1;
    if (bind(listener, (struct sockaddr *)&at, size) || listen(listener, 8)) return 1;
    getsockname(listener, (struct sockaddr *)&at, &size);
    printf("listening %d\n", ntohs(at.sin_port));
    fflush(stdout);
    static char bytes[65536];
    for (;;) {
        int stream = accept(listener, 0, 0);
        setsockopt(stream, IPPROTO_TCP, TCP_NODELAY, &on, sizeof on);
        for (ssize_t n; (n = read(stream, bytes, sizeof bytes)) > 0;)
            if (write(stream, bytes, n) != n) return 1;
        close(stream);
    }
}
"""


class Echo:
    """A program that tells its port and sends back what it is sent."""

    def __init__(self, program):
        self.process = subprocess.Popen([program], stdin=subprocess.DEVNULL, stdout=subprocess.PIPE, stderr=subprocess.DEVNULL)
        self.port = int(self.process.stdout.readline().split()[1])

    def stop(self):
        self.process.kill()
        self.process.wait()


def starhost(program, cells=4, workers=4):
    return Server(program, "--cells", str(cells), "--workers", str(workers), "--tenants", "16", has_input=False)


def session(server, tenant):
    """A connection whose session is open."""
    stream = server.connect()
    say(stream, f"{tenant} 0\n".encode(), 1)
    return stream


def say(stream, lines, replies):
    """Sends these lines, and reads so many lines of replies."""
    stream.sendall(lines)
    while replies > 0:
        part = stream.recv(65536)
        if not part:
            sys.exit("the server closed a connection")
        replies -= part.count(b"\n")


def round_trip(stream):
    """The microseconds of a round trip."""
    lines = (b"begin\n", b"rollback\n")
    start = time.perf_counter()
    for i in range(ROUND_TRIPS):
        stream.sendall(lines[i % 2])
        stream.recv(64)
    return (time.perf_counter() - start) / ROUND_TRIPS * 1e6


def pipelined(stream):
    """Lines per second, with as many in flight all the time."""
    half = IN_FLIGHT // 2
    part = b"begin\nrollback\n" * (half // 2)
    start = time.perf_counter()
    stream.sendall(part + part)
    sent, answered = IN_FLIGHT, 0
    while answered < LINES:
        answered += stream.recv(65536).count(b"\n")
        while sent - answered <= half and sent < LINES:
            stream.sendall(part)
            sent += half
    return answered / (time.perf_counter() - start)


def fill(stream):
    """A table of some rows, and an open transaction."""
    rows = ", ".join(f"({i})" for i in range(ROWS))
    say(stream, f"create table t (a int)\nbegin\ninsert into t values {rows}\n".encode(), 3)


def selecting(server, tenants):
    """Lines per second of as many clients at once, each on a tenant of its own."""
    streams = [session(server, tenant) for tenant in tenants]
    for stream in streams:
        fill(stream)
    lines = b"select count(*) from t x, t y where x.a < y.a\n" * SELECTS
    clients = [threading.Thread(target=say, args=(stream, lines, 2 * SELECTS)) for stream in streams]
    start = time.perf_counter()
    for client in clients:
        client.start()
    for client in clients:
        client.join()
    seconds = time.perf_counter() - start
    for stream in streams:
        stream.close()
    return len(tenants) * SELECTS / seconds


def one_by_one(program):
    with tempfile.TemporaryDirectory() as folder:
        source, made = os.path.join(folder, "echo.c"), os.path.join(folder, "echo")
        with open(source, "w") as file:
            file.write(ECHO)
        subprocess.run(["cc", "-O2", "-o", made, source], check=True)
        echo, server = Echo(made), starhost(program)
        echoed, served = [], []
        for tenant in range(RUNS):
            with connect(echo.port) as stream:
                echoed.append(round_trip(stream))
            with session(server, tenant) as stream:
                served.append(round_trip(stream))
        echo.stop()
        server.kill()
    best, least = min(served), min(echoed)
    print(f"one line at a time: {best:.1f} us a round trip, an echo {least:.1f} us: {best / least:.2f} times")


def many_in_flight(program):
    server = starhost(program)
    rates = []
    for tenant in range(RUNS):
        with session(server, tenant) as stream:
            rates.append(pipelined(stream))
    server.kill()
    print(f"{IN_FLIGHT} lines in flight: {max(rates):,.0f} lines/s")


def four_beside_one(program):
    one, four = [], []
    for _ in range(RUNS):
        server = starhost(program)
        one.append(selecting(server, [4]))
        four.append(selecting(server, [0, 1, 2, 3]))
        server.kill()
    print(f"four tenants in four cells: {max(four):,.0f} lines/s, one {max(one):,.0f} lines/s: {max(four) / max(one):.2f} times")


def four_workers_beside_one(program):
    one, four = [], []
    for _ in range(RUNS):
        for workers, rates in ((1, one), (4, four)):
            server = starhost(program, 4, workers)
            rates.append(selecting(server, [0, 1, 2, 3]))
            server.kill()
    print(f"four workers: {max(four):,.0f} lines/s, one {max(one):,.0f} lines/s: {max(four) / max(one):.2f} times")


def main():
    program = program_of(sys.argv[1:])
    one_by_one(program)
    many_in_flight(program)
    four_beside_one(program)
    four_workers_beside_one(program)
    print(f"load {os.getloadavg()[0]:.1f}")


if __name__ == "__main__":
    main()
