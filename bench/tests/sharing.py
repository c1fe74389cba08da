#!/usr/bin/env python3
"""Two clients at once, of two tenants and of one: no insert is lost, and none is made twice.

    python3 -m bench.tests.sharing [PROGRAM]

PROGRAM is crates/starhost/out/starhost where no word is given. What isn't as it is to be ends this with status 1.
"""

import sys
import threading

from bench.harness import Client, Server, need, program_of

TIMES = 100


def shared(program, *words):
    """A server of two workers."""
    return Server(program, "--workers", "2", *words, has_input=False)


class Inserter(Client):
    """A client that notes what it was answered otherwise than it was to be."""

    def __init__(self, server, names):
        super().__init__(server.port, names)
        self.refused, self.made = [] if self.told == "ok" else [self.told], 0

    def expect(self, line, reply):
        if (told := self.ask(line)) != reply:
            self.refused.append(f"{line}: {told}")

    def insert(self):
        """Makes transactions of one insert each, and counts those that were answered `ok 1`."""
        for _ in range(TIMES):
            self.expect("begin", "ok")
            told = self.ask("insert into t values (1)")
            self.made += told == "ok 1"
            if told not in ("ok 1", "no 40 Locked t"):
                self.refused.append(f"insert: {told}")
            self.expect("commit", "done 0")


def insert_at_once(clients):
    threads = [threading.Thread(target=client.insert) for client in clients]
    for thread in threads:
        thread.start()
    for thread in threads:
        thread.join()


def of_two_tenants(program):
    server = shared(program, "--tenants", "2", "--cells", "2", "--connections", "2")
    clients = [Inserter(server, "0 0"), Inserter(server, "1 0")]
    for client in clients:
        client.expect("create table t (a int)", "ok")
    insert_at_once(clients)
    for client in clients:
        client.close()
        need(not client.refused and client.made == TIMES, client.refused)
    told = server.end_well()[0]
    need(told == f"trails 2 steps {2 * (3 * TIMES + 3)}", told)


def of_one(program):
    server = shared(program, "--tenants", "1", "--cells", "1", "--connections", "2")
    clients = [Inserter(server, "0 0"), Inserter(server, "0 1")]
    clients[0].expect("create table t (a int)", "ok")
    insert_at_once(clients)
    made = sum(client.made for client in clients)
    clients[1].expect("begin", "ok")
    counted = clients[1].replies("select count(*) from t")
    need(counted == ["rows 1", str(made)], f"{counted} rows, {made} inserts")
    for client in clients:
        client.close()
        need(not client.refused, client.refused)
    told = server.end_well()[0]
    need(told == f"trails 1 steps {2 * (3 * TIMES + 2) + 3}", told)
    return made


def main():
    program = program_of(sys.argv[1:])
    of_two_tenants(program)
    made = of_one(program)
    print(f"two clients at once: of two tenants {2 * TIMES} inserts, of one {made} beside {2 * TIMES - made} that met a lock")


if __name__ == "__main__":
    main()
