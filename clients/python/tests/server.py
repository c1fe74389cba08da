"""A server of its own for tests: the program that FILGWESHA_PROGRAM names, or the one that the checks have built."""

from __future__ import annotations

import os
import pathlib
import socket
import subprocess
import sys
import unittest

HERE = pathlib.Path(__file__).resolve().parent
sys.path.insert(0, str(HERE.parent))

PROGRAM = os.environ.get("FILGWESHA_PROGRAM", str(HERE.parents[2] / "crates/starhost/out/starhost"))


class Server:
    """A server on a free port."""

    def __init__(self, *words: str) -> None:
        with socket.create_server(("127.0.0.1", 0)) as free:
            self.status = free.getsockname()[1]
        words = (PROGRAM, "serve", "--tenants", "256", "--status", str(self.status), *words)
        self.process = subprocess.Popen(words, stdin=subprocess.DEVNULL, stdout=subprocess.PIPE, stderr=subprocess.DEVNULL, text=True)
        assert self.process.stdout
        self.port = int(self.process.stdout.readline().split()[1])

    def stop(self) -> None:
        self.process.kill()
        self.process.wait()
        assert self.process.stdout
        self.process.stdout.close()


@unittest.skipUnless(os.path.exists(PROGRAM), f"there is no program {PROGRAM}")
class ServerTest(unittest.TestCase):
    """A test with a server; each test takes a tenant that no other one has."""

    server: Server
    _tenants = iter(range(256))

    @classmethod
    def setUpClass(cls) -> None:
        cls.server = Server()

    @classmethod
    def tearDownClass(cls) -> None:
        cls.server.stop()

    def setUp(self) -> None:
        self.tenant = next(ServerTest._tenants)
