#!/usr/bin/env python3
"""The Python client on the built program: the commands that it knows, its tests, and the order system of examples/.

    python3 -m bench.tests.python_client [PROGRAM]

PROGRAM is crates/starhost/out/starhost where no word is given. It takes some seconds. The published tests of DB-API 2.0
are run where Debian's python3-postgresql has them, and it is said where it hasn't.
"""

import os
import subprocess
import sys

from bench.documents import commands
from bench.harness import TOP, program_of

TESTS = TOP / "clients" / "python" / "tests"


def check_words():
    """Of each command the client knows whether it belongs in a transaction or outside of one."""
    sys.path.insert(0, str(TOP / "clients" / "python"))
    from filgwesha import connection

    known = connection._WORK | connection._CATALOG
    if commands.first_words() != known:
        sys.exit(f"docs/COMMANDS.md and the Python client: one of them lacks {sorted(commands.first_words() ^ known)}")


def main():
    check_words()
    os.environ["FILGWESHA_PROGRAM"] = program_of(sys.argv[1:])
    tests = subprocess.run([sys.executable, "-m", "unittest", "discover", "-s", TESTS], capture_output=True, text=True, timeout=600)
    if tests.returncode != 0:
        sys.exit(tests.stderr)
    told = tests.stderr.strip().splitlines()
    print("python client:", told[-3], told[-1])
    if "NotThere" in subprocess.run([sys.executable, "-c", "import test_dbapi20; print(test_dbapi20.Published.__mro__)"], capture_output=True, text=True, cwd=TESTS).stdout:
        print("python client: the published tests of DB-API 2.0 aren't on this machine (Debian: python3-postgresql)")

    sys.path.insert(0, str(TESTS))
    import server

    running = server.Server()
    try:
        orders = TOP / "examples" / "orders"
        told = subprocess.run([sys.executable, orders / "orders.py", str(running.port)], capture_output=True, text=True, timeout=60)
        if told.returncode != 0 or told.stdout != (orders / "orders.stdout").read_text():
            sys.exit(f"examples/orders prints something else:\n{told.stdout}{told.stderr}")
    finally:
        running.stop()
    print("examples/orders: as stored")


if __name__ == "__main__":
    main()
