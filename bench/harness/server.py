"""A server of the built program."""

import os
import re
import resource
import socket
import subprocess
import sys
import tempfile
import time
import urllib.request
from typing import NamedTuple

from bench.harness.client import Client, connect, read_all
from bench.harness.faults import file_size
from bench.harness.patience import PATIENCE, need, until


class Ended(NamedTuple):
    """How a server ended: its status, its last line, and its log."""

    status: int
    told: str
    log: str


def free_port():
    """A port at which nobody listens."""
    with socket.create_server(("127.0.0.1", 0)) as free:
        return free.getsockname()[1]


class Server:
    """A server at a free port. It stops where its input ends, if it has one. `port` is None where it doesn't listen.

    descriptors, bytes_of_files, bytes_of_memory: the most that its process may have
    library: what is loaded before the C library; further names are its environment
    log: where its log goes, if not to a file of its own"""

    running = []

    def __init__(
        self, program, *words, has_input=True, descriptors=None, bytes_of_files=None, bytes_of_memory=None, library=None, log=None, **environment
    ):
        def limited():
            file_size(bytes_of_files)()
            for what, most in ((resource.RLIMIT_NOFILE, descriptors), (resource.RLIMIT_AS, bytes_of_memory)):
                if most is not None:
                    resource.setrlimit(what, (most, most))

        names = {**os.environ, **{name: str(value) for name, value in environment.items()}}
        if library:
            names["LD_PRELOAD"] = library
        self.log = tempfile.TemporaryFile("w+")
        # a limit on its files isn't one on its log
        self.copier = None if bytes_of_files is None else subprocess.Popen(["cat"], stdin=subprocess.PIPE, stdout=self.log)
        self.process = subprocess.Popen(
            [program, "serve", *(["--until-input-ends"] if has_input else []), *words],
            stdin=subprocess.PIPE if has_input else subprocess.DEVNULL,
            stdout=subprocess.PIPE,
            stderr=log or (self.copier.stdin if self.copier else self.log),
            text=True,
            preexec_fn=limited,
            env=names,
        )
        Server.running.append(self)
        told = re.fullmatch(r"listening (\d+)\n", self.process.stdout.readline())
        self.port = int(told[1]) if told else None

    @property
    def status_port(self):
        """The port of its status pages, as its log tells."""
        return int(re.search(r"status pages at port (\d+)", self.told())[1])

    def connect(self):
        return connect(self.port)

    def client(self, first):
        """A client whose first line is this one."""
        return Client(self.port, first)

    def ask(self, lines):
        """What a client reads that sends these lines and no more."""
        with self.connect() as stream:
            try:
                stream.sendall(lines.encode())
                stream.shutdown(socket.SHUT_WR)
            except OSError:  # it was turned away before all was sent
                pass
            return read_all(stream).decode()

    def told(self):
        """Its log so far."""
        return os.pread(self.log.fileno(), 1 << 20, 0).decode()

    def sample(self, name):
        """The value of a sample at its status port."""
        with urllib.request.urlopen(f"http://127.0.0.1:{self.status_port}/metrics", timeout=PATIENCE) as answer:
            lines = answer.read().decode().splitlines()
        return next(float(line.split()[-1]) for line in lines if line.startswith(f"{name} "))

    def wait_for(self, text):
        """Waits until its log has this."""
        until(f"its log has: {text}", lambda: text in self.told())

    def end(self, patience=300):
        """Has its input end, and waits for its own end."""
        told = self.process.communicate(timeout=patience)[0].strip()
        if self.copier:
            self.copier.communicate()
        self.log.seek(0)
        return Ended(self.process.returncode, told, self.log.read())

    def end_well(self, patience=300):
        """The same, where it has to end with status 0: its last line, and the lines of its log."""
        ended = self.end(patience)
        if ended.status != 0:
            sys.exit(f"status {ended.status}: {ended.told!r} {ended.log[-500:]}")
        return ended.told, ended.log.splitlines()

    def kill(self):
        self.process.kill()
        self.process.communicate()

    @classmethod
    def kill_all(cls):
        """Leaves no server behind."""
        for server in cls.running:
            if server.process.poll() is None:
                server.kill()
        cls.running.clear()

    def memory(self):
        """What it has in memory, in KB."""
        with open(f"/proc/{self.process.pid}/status") as file:
            return next(int(line.split()[1]) for line in file if line.startswith("VmRSS"))

    def peak_memory(self):
        """The most that it has had in memory, in KB."""
        with open(f"/proc/{self.process.pid}/status") as file:
            return next(int(line.split()[1]) for line in file if line.startswith("VmHWM"))

    def ticks(self):
        """What it has taken of processors, in hundredths of a second."""
        with open(f"/proc/{self.process.pid}/stat") as file:
            fields = file.read().rsplit(") ", 1)[1].split()
        return int(fields[11]) + int(fields[12])

    def rest(self):
        """Waits until it has nothing to do: it takes nothing of processors for a second."""
        end, before = time.monotonic() + PATIENCE, -1
        while (now := self.ticks()) != before:
            need(time.monotonic() < end, f"it still works after {PATIENCE} s")
            before = now
            time.sleep(1)
