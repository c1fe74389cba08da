#!/usr/bin/env python3
"""Plays docs/CLIENTS.md on a server of the built program: what its example prints, and the bytes of its transcript.

    python3 -m bench.documents.clients [PROGRAM]

PROGRAM is crates/starhost/out/starhost where no word is given, which `rt run` or `rt ci` leaves there.
"""

import contextlib
import io
import re
import sys

from bench.harness import TOP, Server, connect, program_of

sys.path.insert(0, str(TOP / "clients" / "python"))


def blocks(kind):
    """The blocks of the page that begin with three quotes and this word."""
    found = re.findall(r"^```(\w*)\n(.*?)^```$", (TOP / "docs/CLIENTS.md").read_text("ascii"), re.M | re.S)
    return [text for its, text in found if its == kind]


def printed(port):
    """What the example prints."""
    names = {}
    exec(blocks("python")[0], names)
    with contextlib.redirect_stdout(io.StringIO()) as told:
        names["example"](port)
    return told.getvalue()


def read_back(port, transcript):
    """The transcript with what the server answers to its lines."""
    with connect(port) as stream:
        file = stream.makefile("rwb")
        lines = []
        for line in transcript.splitlines():
            if line.startswith("> "):
                file.write(line[2:].encode() + b"\n")
                file.flush()
                lines.append(line)
            else:
                lines.append("< " + file.readline().decode().rstrip("\n"))
        if file.read(1):
            sys.exit("the server says more than the transcript")
    return "\n".join(lines) + "\n"


def main():
    server = Server(program_of(sys.argv[1:]), "--connections", "2", has_input=False)
    try:
        transcript = next(block for block in blocks("text") if block.startswith("> "))
        for what, got, wanted in (
            ("the example", printed(server.port), blocks("")[0]),
            ("the transcript", read_back(server.port, transcript), transcript),
        ):
            if got != wanted:
                sys.exit(f"{what}:\n{got}wanted:\n{wanted}")
        server.end_well()
    finally:
        Server.kill_all()
    print("docs/CLIENTS.md: its example and its transcript are as printed there")


if __name__ == "__main__":
    main()
