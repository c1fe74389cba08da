#!/usr/bin/env python3
"""Plays docs/SEVERAL_HOSTS.md: three hosts behind a balancer, and one host alone to compare with.

    python3 -m bench.tests.several_hosts.several_hosts [PROGRAM]

It needs HAProxy (2.6 or later), nc, socat, curl and the built program, crates/starhost/out/starhost where no other is given.
It starts three servers, the third of which has the tenants from 256 on, and the balancer as the page does, plays the same
lines of each of 40 tenants through the balancer and on one server alone, and compares the replies. Then it moves a tenant by
the page's commands, asks for tenants that the map doesn't name, and takes a host away: without a check, and with each of the
page's. At the end it says on one line what it saw."""

import concurrent.futures
import os
import pathlib
import re
import shutil
import socket
import subprocess
import sys
import tempfile
import threading
import time

from bench.harness import BUILT, TOP, free_port, read_all

# The last eight are on the host whose tenants begin at 256.
TENANTS = [*range(32), *range(300, 308)]
FIRST = 256

LINES = """create table dept (dno int)
create table emp (ename text, dno int)
create rule cascade on dept when deleted then delete from emp where dno in (select dno from deleted)
begin
insert into dept values (1), (2)
insert into emp values ('ann {tenant}', 1), ('bob', 2), ('cy', {tenant})
commit
begin
delete from dept where dno = 1
commit
begin
select * from emp
select dno from nowhere
end
"""


PAGE = (TOP / "docs/SEVERAL_HOSTS.md").read_text("ascii")
BLOCKS = re.findall(r"^```(\w*)\n(.*?)^```$", PAGE, re.M | re.S)
STARTED, MOVED = (text for kind, text in BLOCKS if kind == "sh")
CHECKS = [text for kind, text in BLOCKS if not kind]


class Host:
    """A server of 256 tenants, from this one on, with status pages."""

    def __init__(self, program, *words, first=0):
        for _try in range(9):  # until no other process has taken the free port meanwhile
            self.status = free_port()
            asked = [program, "serve", "--tenants", "256", "--first-tenant", str(first), "--status", str(self.status), *words]
            self.process = subprocess.Popen(asked, stdin=subprocess.DEVNULL, stdout=subprocess.PIPE, stderr=subprocess.DEVNULL, text=True)
            told = self.process.stdout.readline()
            if told:
                break
        self.port = int(told.split()[1])

    def stop(self):
        self.process.kill()
        self.process.wait()


def replies(port, tenant, lines, key=""):
    """What a client of the tenant is answered to the lines, up to the end of its connection."""
    with socket.create_connection(("127.0.0.1", port), timeout=20) as client:
        client.sendall(f"{tenant} 0{key}\n{lines}".encode("ascii"))
        client.shutdown(socket.SHUT_WR)
        return read_all(client).decode("ascii")


def play(port, number=lambda tenant: tenant):
    """The replies to the lines of each tenant, all at once; by which number the server has it."""
    found = {}

    def one(tenant):
        found[tenant] = replies(port, number(tenant), LINES.format(tenant=tenant))

    threads = [threading.Thread(target=one, args=(tenant,)) for tenant in TENANTS]
    for thread in threads:
        thread.start()
    for thread in threads:
        thread.join()
    return found


class Balancer:
    """HAProxy before these hosts, started by the page's commands, in each backend with this check."""

    def __init__(self, hosts, check=None):
        self.folder, self.front = tempfile.mkdtemp(), free_port()
        ports = {"FRONT=7400": f"FRONT={self.front}", **{f"HOST{at}=741{at + 1}": f"HOST{at}={host.port}" for at, host in enumerate(hosts)}}
        words = STARTED.replace("/srv/balancer", self.folder).replace("bench/", f"{TOP}/bench/")
        for word, with_port in ports.items():
            words = words.replace(word, with_port)
        copy, _folder, start = words.strip().splitlines()
        subprocess.run(copy, shell=True, check=True)
        with open(f"{self.folder}/tenants.map", "w", encoding="ascii") as tenants:
            tenants.writelines(f"{tenant} host1\n" for tenant in range(1, 32, 2))
            tenants.writelines(f"{tenant} host2\n" for tenant in range(FIRST, 2 * FIRST))
            tenants.writelines(f"{tenant} host0\n" for tenant in (6, 8))
        if check:
            self.check(hosts, check)
        self.process = subprocess.Popen(["sh", "-c", start.replace("haproxy -db", "exec haproxy -db")], cwd=self.folder, stderr=subprocess.DEVNULL)
        until = time.time() + 60
        while time.time() < until and self.process.poll() is None:
            with socket.socket() as probe:
                probe.settimeout(0.1)
                if probe.connect_ex(("127.0.0.1", self.front)) == 0:
                    return
            time.sleep(0.1)
        self.stop()
        raise SystemExit("haproxy doesn't listen")

    def check(self, hosts, check):
        """The configuration with the page's check in place of the line of each server."""
        path = pathlib.Path(self.folder, "haproxy.cfg")
        lines = []
        for line in path.read_text("ascii").splitlines():
            if found := re.match(r"  server (\w) .*HOST(\d)", line):
                name, at = found[1], int(found[2])
                line = check.replace("server a", f"server {name}").replace("HOST0", f"HOST{at}").replace("7421", str(hosts[at].status))
            lines.append(line)
        path.write_text("\n".join(lines) + "\n", "ascii")

    def tell(self, command):
        """A command to the balancer that runs."""
        words = ["socat", "-", "unix:admin.sock"]
        return subprocess.run(words, cwd=self.folder, input=f"{command}\n", capture_output=True, text=True).stdout

    def stop(self):
        self.process.kill()
        self.process.wait()
        shutil.rmtree(self.folder, ignore_errors=True)


def moves(balancer, hosts):
    """Whether the page's commands move tenant 6 with all it has, and nobody else."""
    words = MOVED.replace("7421", str(hosts[0].status)).replace("7412", str(hosts[1].port)).replace("7422", str(hosts[1].status))
    run = subprocess.run(["sh", "-e", "-c", words], cwd=balancer.folder, capture_output=True, text=True)
    lines = "begin\nselect * from emp\ndelete from dept\nrollback\nend\n"
    same = replies(hosts[0].port, 6, lines) == replies(hosts[1].port, 6, lines)
    changed = replies(balancer.front, 6, "begin\ninsert into dept values (77)\ncommit\nbegin\nselect * from dept\nend\n")
    there = replies(hosts[0].port, 6, "begin\nselect * from dept\nend\n")
    stays = replies(balancer.front, 8, "begin\nselect * from dept\nend\n")
    is_good = all(re.fullmatch(r"fresh|ok( \d+)?|done 0|no such session", line) for line in run.stdout.split("\n") if line)
    is_good &= run.stdout.startswith("fresh\n") and run.stdout.count("no such session\n") == 8
    return run.returncode == 0 and is_good and same and "rows 2\n2\n77\n" in changed and "rows 1\n2\n" in there and "rows 1\n2\n" in stays


def unnamed(balancer, hosts):
    """Whether a tenant without a line of the map is on the first host, until it gets one by add map."""
    made = replies(hosts[1].port, 40, "create table on_other (a int)\nend\n") == "ok\nok\nok\n"
    ask = "begin\nselect * from on_other\nend\n"
    first = replies(balancer.front, 40, ask) == "ok\nok\nno 20 NoTable\nok\n"
    balancer.tell("set map tenants.map 40 host1")
    still = replies(balancer.front, 40, ask) == "ok\nok\nno 20 NoTable\nok\n"
    balancer.tell("add map tenants.map 40 host1")
    there = replies(balancer.front, 40, ask) == "ok\nok\nrows 0\nok\n"
    return made and first and still and there and replies(balancer.front, 999, "begin\n") == "no 13 NoTenant\n"


def ended_within(front, tenant):
    """The seconds until a client of this tenant is disconnected without a reply."""
    begun = time.time()
    try:
        told = replies(front, tenant, "begin\n")
    except ConnectionResetError:
        told = ""
    return time.time() - begun if told == "" else 1e9


def down(program, check):
    """How long a client of a host that is gone waits, and whether the others go on."""
    hosts = [Host(program), Host(program), Host(program, first=FIRST)]
    balancer = Balancer(hosts, check)
    try:
        serves = all(replies(balancer.front, tenant, "end\n") == "ok\nok\n" for tenant in (6, 1, 300))
        time.sleep(1.5 if check else 0)
        serves &= all(replies(balancer.front, tenant, "end\n") == "ok\nok\n" for tenant in (6, 1, 300))
        hosts[1].stop()
        waited = ended_within(balancer.front, 1)
        for _try in range(15 if check else 0):
            if waited < 1:
                break
            time.sleep(1)
            waited = ended_within(balancer.front, 1)
        return waited if serves and replies(balancer.front, 6, "end\n") == "ok\nok\n" else 1e9
    finally:
        balancer.stop()
        for host in hosts:
            host.stop()


def with_keys(program):
    """Whether the check is content with a host that has keys, and a key goes through the balancer."""
    with tempfile.TemporaryDirectory() as room:
        digest = subprocess.run([program, "key"], input="secret", capture_output=True, text=True).stdout
        pathlib.Path(room, "keys").write_text(f"6 {digest}", "ascii")
        started = [Host(program, "--keys", f"{room}/keys") for _ in range(3)]
        hosts, found = started[:], []
        try:
            for check in CHECKS:
                balancer = Balancer(hosts, check)
                started.append(balancer)
                time.sleep(2.5)
                found.append(replies(balancer.front, 6, "end\n", " secret") == "ok\nok\n")
                found.append(replies(balancer.front, 6, "end\n") == "no 15 BadKey\n")
        finally:
            for one in started:
                one.stop()
        return all(found)


def main():
    program = os.path.abspath(sys.argv[1]) if len(sys.argv) > 1 else BUILT
    started = []
    try:
        alone = Host(program)
        started.append(alone)
        hosts = [Host(program), Host(program), Host(program, first=FIRST)]
        started += hosts
        balancer = Balancer(hosts)
        started.append(balancer)
        expected, found = play(alone.port, lambda tenant: tenant % FIRST), play(balancer.front)
        wrong = [tenant for tenant in TENANTS if found[tenant] != expected[tenant]]
        for tenant in wrong:
            print(f"tenant {tenant}: {found[tenant]!r} for {expected[tenant]!r}")
        moved, other = moves(balancer, hosts), unnamed(balancer, hosts)
        strange = replies(hosts[2].port, 6, "begin\n") == "no 13 NoTenant\n"
    finally:
        for one in started:
            one.stop()
    with concurrent.futures.ThreadPoolExecutor() as pool:
        asked = [pool.submit(down, program, check) for check in (None, *CHECKS)]
        keys, waits = with_keys(program), [one.result() for one in asked]
    print(f"{len(TENANTS)} tenants on three hosts, {len(wrong)} answered otherwise than on one host;", end=" ")
    print(f"a tenant of no number of a host: {strange}; one that is moved: {moved}; ones that the map doesn't name: {other};", end=" ")
    print(f"keys: {keys}; a host that is down, without a check and with two: {', '.join(f'{wait:.1f} s' for wait in waits)}")
    well = moved and other and strange and keys and 2 < waits[0] < 10 and max(waits[1:]) < 1
    return 0 if not wrong and well else 1


if __name__ == "__main__":
    sys.exit(main())
