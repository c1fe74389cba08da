"""What tests share: the built program, servers, clients, faults that are made, and how long something may take."""

from bench.harness.client import Client, Closed, connect, more_lines, read_all, read_lines, say
from bench.harness.faults import file_size, library
from bench.harness.patience import PATIENCE, expect, fail, need, tried, until
from bench.harness.program import BUILT, TOP, UNPROVED, is_unproved, program_of, run
from bench.harness.server import Ended, Server, free_port
from bench.harness.transcript import blocks_of, sessions_of, transcript_of

__all__ = [
    "BUILT",
    "PATIENCE",
    "TOP",
    "UNPROVED",
    "Client",
    "Closed",
    "Ended",
    "Server",
    "blocks_of",
    "connect",
    "expect",
    "fail",
    "file_size",
    "free_port",
    "is_unproved",
    "library",
    "more_lines",
    "need",
    "program_of",
    "read_all",
    "read_lines",
    "run",
    "say",
    "sessions_of",
    "transcript_of",
    "tried",
    "until",
]
