#!/usr/bin/env python3
"""Tries the words of a command line, the faults that end the program, and what a terminal is told.

    python3 -m bench.tests.words [PROGRAM]

PROGRAM is crates/starhost/out/starhost where no word is given. The first answer that isn't as it is to be ends this
with status 1.
"""

import dataclasses
import os
import pathlib
import select
import signal
import socket
import subprocess
import sys
import tempfile
import tty

from bench.harness import program_of

HELPS = pathlib.Path(__file__).resolve().parent / "help"

# What is allowed in a part's place.
ALLOWED = {
    "tenants": "1 to 256",
    "bound": "1 to 1000",
    "step-work": "1 to 4294967295",
    "tenant": "0 to 255",
    "into": "a folder, without --tenant",
    "cells": "1 to 16",
    "workers": "1 to 16",
    "port": "0 to 65535",
    "connections": "0 to 1000000",
    "idle": "0 to 86400",
    "idle-transaction": "0 to 86400",
    "first-tenant": "0 to 999999000",
    "tenant-memory": "0 to 1048576",
    "segment": "1 to 65536, with --journal",
    "journal": "a path, without --load",
    "sync": "always, second or never, with --journal",
    "renew": "auto or never",
    "status": "0 to 65535",
    "log": "error, warning or info",
    "slow": "0 to 86400000",
}

# A number past its range, and the words in front of it.
PAST = [
    ("--tenants 0", "run"),
    ("--tenants 257", ""),
    ("--bound 0", "replay"),
    ("--bound 1001", "run"),
    ("--step-work 0", "run"),
    ("--step-work 4294967296", "serve"),
    ("--cells 0", "serve"),
    ("--cells 17", "replay"),
    ("--workers 0", "replay"),
    ("--workers 17", "serve"),
    ("--port 65536", "serve"),
    ("--connections 1000001", "serve"),
    ("--idle 86401", "serve"),
    ("--idle x", "serve"),
    ("--idle-transaction 86401", "serve"),
    ("--first-tenant 999999001", "serve"),
    ("--tenant-memory 1048577", "serve"),
    ("--segment 0", "serve --journal x"),
    ("--segment 65537", "serve --journal x"),
    ("--log warn", "serve"),
    ("--status 65536", "serve"),
    ("--slow 86400001", "serve"),
    ("--renew always", "serve --journal x"),
    ("--tenants 4294967297", "run"),
    ("--tenants 01x", "run"),
    ("--tenant 256", "dump"),
    ("--tenant x", "dump"),
    ("--tenants 0", "dump"),
]

# What doesn't go with the words in front of it.
TOGETHER = [
    ("--into x", "dump --tenant 0"),
    ("--journal x", "run --load y"),
    ("--journal x", "serve --load y"),
    ("--sync always", "serve"),
    ("--segment 64", "serve"),
    ("--sync second", "run"),
    ("--sync often", "serve --journal x"),
    ("--sync seconds", "run --journal x"),
]

# An option of another command.
ELSEWHERE = [
    ("--cells 2", "run"),
    ("--workers 2", ""),
    ("--port 1", "run"),
    ("--port 1", "replay"),
    ("--connections 1", "replay"),
    ("--idle 1", "run"),
    ("--until-input-ends", ""),
    ("--idle-transaction 1", "replay"),
    ("--first-tenant 1", ""),
    ("--tenant-memory 1", "run"),
    ("--segment 1", "run --journal x"),
    ("--segment 1", "compact x y"),
    ("--status 0", "run"),
    ("--slow 1", "replay"),
    ("--renew auto", "run"),
    ("--renew never", "replay"),
    ("--log info", "run"),
    ("--tenants 2", "parse"),
    ("--cells 2", "parse"),
    ("--log info", "parse"),
    ("--tenant 0", "run"),
    ("--tenant 0", ""),
    ("--tenant 0", "serve"),
    ("--tenant 0", "replay"),
    ("--tenant 0", "parse"),
    ("--load x", "replay"),
    ("--load x", "parse"),
    ("--load x", "dump"),
    ("--dump-to x", "run"),
    ("--dump-to x", "replay"),
    ("--dump-to x", "parse"),
    ("--dump-to x", "dump"),
    ("--into x", "run"),
    ("--into x", ""),
    ("--into x", "serve"),
    ("--into x", "replay"),
    ("--into x", "parse"),
    ("--journal x", "replay"),
    ("--journal x", "dump"),
    ("--sync always", "replay"),
    ("--keys x", "run"),
    ("--keys x", "key"),
    ("--tenants 2", "key"),
    ("--cells 2", "compact x y"),
    ("--tenants 2", "journal check x"),
    ("--load x", "compact x y"),
    ("--tenant 0", "serve --load x"),
    ("--cells 2", "dump"),
    ("--port 1", "dump"),
    ("--log info", "dump"),
]

# An option in front of a command.
IN_FRONT = [
    ("--tenants 4", "serve --port 0"),
    ("--bound 0", "run"),
    ("--load x", "dump"),
    ("--journal x --sync often", "parse"),
]

# Words that clap refuses, with its reason, the usage that it tells, and what is near.
UNREAD = [
    ("run x y z", "unexpected argument 'x' found", "starhost run [OPTIONS]", None),
    ("serve x", "unexpected argument 'x' found", "starhost serve [OPTIONS]", None),
    ("key x y", "unexpected argument 'x' found", "starhost key", None),
    ("serve --port -1", "unexpected argument '-1' found", "starhost serve [OPTIONS]", None),
    ("serve --prt 1", "unexpected argument '--prt' found", "starhost serve --port <N>", "a similar argument exists: '--port'"),
    ("--nix", "unexpected argument '--nix' found", "starhost [OPTIONS] [COMMAND]", None),
    ("x", "unrecognized subcommand 'x'", "starhost [OPTIONS] [COMMAND]", None),
    ("serves", "unrecognized subcommand 'serves'", "starhost [OPTIONS] [COMMAND]", "a similar subcommand exists: 'serve'"),
    ("nonsense --help", "unrecognized subcommand 'nonsense'", "starhost [OPTIONS] [COMMAND]", None),
    ("--bound", "a value is required for '--bound <N>' but none was supplied", None, None),
    ("--bound 1 --bound 2", "the argument '--bound <N>' cannot be used multiple times", "starhost [OPTIONS] [COMMAND]", None),
    ("--help=3", "unexpected value '3' for '--help' found; no more were expected", "starhost --help", None),
    ("compact x", "the following required arguments were not provided:\n  <NEW>", "starhost compact <OLD> <NEW>", None),
    ("compact x y z", "unexpected argument 'z' found", "starhost compact [OPTIONS] <OLD> <NEW>", None),
    ("journal check", "the following required arguments were not provided:\n  <FOLDER>", "starhost journal <ACTION> <FOLDER>", None),
    ("journal check x y", "unexpected argument 'y' found", "starhost journal <ACTION> <FOLDER>", None),
]

# The greatest numbers and the least.
AT_THE_ENDS = [
    "run --tenants 256 --bound 1000",
    "run --tenants 1 --bound 1 --step-work 1",
    "run --step-work 4294967295",
    "replay --tenants 256 --bound 1000 --cells 16 --workers 16",
    "replay --tenants 1 --bound 1 --cells 1 --workers 1",
]
SERVED_AT_THE_ENDS = [
    "serve --port 0 --connections 1000000 --idle 86400 --idle-transaction 86400",
    "serve --connections 0 --idle 0 --idle-transaction 0 --until-input-ends",
    "serve --first-tenant 999999000 --tenant-memory 1048576 --log error",
    "serve --first-tenant 0 --tenant-memory 0 --log info --slow 0",
    "serve --slow 86400000",
    "serve --renew auto",
    "serve --renew never --status 0",
]

# A session whose lines have three refusals.
LINES = b"0 0 open\n0 0 selec\n0 9 open\nx\n0 0 end"
REPLIES = b"0 0 ok\n0 0 no 10 Syntax\n0 9 no 14 NoSession\n- - no 12 BadLine\n0 0 ok\n"
SUMMARY = b"lines 5, steps 3, no 10 Syntax: 1, no 12 BadLine: 1, no 14 NoSession: 1\n"

# Two sessions of two tenants.
SCRIPT = b"0 0 create table t (a int)\n1 0 create table t (b text)\n1 0 begin\n0 0 begin\n0 0 commit\n"
REPLAYED = b"0 0 ok\n0 0 ok\n0 0 done 0\n1 0 ok\n1 0 ok\ntrails 2 steps 9\n"


# Lines, each with what is told of it as a command.
PARSED = [
    (b"begin", b"ok"),
    (b"select * from", b"syntax 14"),
    (b"", b"syntax 1"),
    (b"insert into t values (1", b"syntax 24"),
    (b"x" * 5000, b"too long"),
    (b"a" * 4096, b"syntax 1"),
    (b"begin" + b" " * 4091, b"ok"),
    (b"begin" + b" " * 4092, b"too long"),
]

# Words and an input, and the fault that ends the program. Standard error has its line, and nothing else.
FAULTS = [
    ("replay --tenants 1", b"0 0 begin\n1 0 begin\n", b"bad line 2"),
    ("replay", b"0 0 begin\nx\n", b"bad line 2"),
    ("replay", b"0 8 begin\n", b"bad line 1"),
    ("replay", b"0 0 begin\n" + b"x" * 5000 + b"\n", b"bad line 2"),
    ("dump --tenants 1 --tenant 1", b"", b"no tenant 1"),
    ("dump --tenant 0", b"0 0 open\n0 0 begin\n", b"busy tenant 0"),
    ("key", b"two words\n", b"bad key"),
]

# Files for the faults that the log tells more of.
FILES = {"0.lines": b"begin\n", "bad.keys": b"x\n", "journal": b"\x01\xff\xff\xff\xff"}

# Words, and the fault that ends the program behind some lines of the log.
LOGGED_FAULTS = [
    ("run --load {folder}/none", b"no folder"),
    ("run --load {folder}", b"cannot load 0"),
    ("run --journal {folder}", b"cannot open journal"),
    ("run --journal {folder}/journal", b"cannot open journal"),
    ("dump --into {folder}/none", b"no folder"),
    ("serve --port {port}", b"cannot listen"),
    ("serve --port 0 --status {port}", b"cannot listen"),
    ("serve --port 0 --load {folder}/none", b"no folder"),
    ("serve --port 0 --load {folder}", b"cannot load 0"),
    ("serve --port 0 --dump-to {folder}/none", b"no folder"),
    ("serve --port 0 --journal {folder}/journal", b"cannot open journal"),
    ("serve --port 0 --keys {folder}/none", b"no keys"),
    ("serve --port 0 --keys {folder}/bad.keys", b"bad keys 1"),
    ("compact {folder}/none {folder}/other", b"cannot open journal"),
    ("journal check {folder}/none", b"cannot open journal"),
    ("journal check {folder}", b"cannot open journal"),
]


@dataclasses.dataclass
class Ended:
    status: int
    out: bytes
    errors: bytes


class Program:
    def __init__(self, path):
        self.path = path
        self.count = 0

    def run(self, words, text=b"", stdin=None, stdout=subprocess.PIPE):
        """Runs it to its end."""
        given = {"input": text} if stdin is None else {"stdin": stdin}
        ended = subprocess.run([self.path, *words.split()], stdout=stdout, stderr=subprocess.PIPE, timeout=120, **given)
        return Ended(ended.returncode, self.named(ended.stdout or b""), self.named(ended.stderr))

    def named(self, told):
        """What is told, by a program of the name `starhost`."""
        return told.replace(b"Usage: starhost.bin", b"Usage: starhost")

    def at_terminal(self, words, text, stdout=subprocess.PIPE):
        """The same with a terminal for standard error."""
        shown, terminal = os.openpty()
        tty.setraw(terminal)
        ended = subprocess.run([self.path, *words.split()], input=text, stdout=stdout, stderr=terminal, timeout=120)
        os.set_blocking(shown, False)
        try:
            told = os.read(shown, 65536)
        except OSError:
            told = b""
        os.close(terminal)
        os.close(shown)
        return Ended(ended.returncode, ended.stdout or b"", told)

    def listens(self, words):
        """Whether a server with these words tells its port."""
        with subprocess.Popen([self.path, *words.split()], stdin=subprocess.PIPE, stdout=subprocess.PIPE, stderr=subprocess.DEVNULL) as run:
            told = run.stdout.readline()
            run.send_signal(signal.SIGKILL)
        return told.startswith(b"listening ")

    def expect(self, what, ended, wanted):
        self.count += 1
        if ended != wanted:
            sys.exit(f"wrong: {what}: {ended} in place of {wanted}")


def is_allowed(number):
    """The line that refuses an option."""
    return f"error: {number} isn't allowed; allowed is {ALLOWED[number.split()[0][2:]]}\n".encode()


def told_of(why, usage, near):
    """What clap tells of words that it refuses."""
    parts = [f"error: {why}", *([f"  tip: {near}"] if near else []), *([f"Usage: {usage}"] if usage else []), "For more information, try '--help'."]
    return "\n\n".join(parts).encode() + b"\n"


def are_refused(program):
    for number, command in PAST + TOGETHER:
        words = f"{command} {number}"
        program.expect(words, program.run(words), Ended(2, b"", is_allowed(number)))
    # the first part in the order of the options is told, whatever stands first in the line
    words = "replay --workers x --cells 0"
    program.expect(words, program.run(words), Ended(2, b"", is_allowed("--cells 0")))
    words = "journal mend x"
    program.expect(words, program.run(words), Ended(2, b"", b"error: the word mend isn't allowed; allowed is check\n"))
    for option, command in ELSEWHERE:
        words = f"{command} {option}"
        ended = program.run(words)
        why = f"error: unexpected argument '{option.split()[0]}' found\n".encode()
        program.expect(words, (ended.status, ended.out, ended.errors.startswith(why)), (2, b"", True))
    for options, command in IN_FRONT:
        words, first = f"{options} {command}", " ".join(options.split()[:2])
        program.expect(words, program.run(words), Ended(2, b"", f"error: {first} has to stand behind the command\n".encode()))
    for words, why, usage, near in UNREAD:
        program.expect(words, program.run(words), Ended(2, b"", told_of(why, usage, near)))


def are_taken(program):
    for words in AT_THE_ENDS:
        tenants = int(words.split()[2])
        out = f"trails {tenants} steps 0\n".encode() if words.startswith("replay") else b""
        program.expect(words, program.run(words), Ended(0, out, b""))
    for words in SERVED_AT_THE_ENDS:
        program.expect(words, program.listens(words), True)


def are_answered(program):
    """The help of the program and of each command is the stored one, which fits into a terminal."""
    for path in sorted(HELPS.iterdir()):
        text = path.read_text()
        longest = max(len(line) for line in text.splitlines())
        program.expect(f"the longest line of {path.name} within 100", longest <= 100, True)
        command = "" if path.stem == "starhost" else path.stem
        for words in (f"{command} --help", f"{command} -h"):
            program.expect(words, program.run(words, LINES), Ended(0, text.encode(), b""))
    for words in ("--version", "-V"):
        program.expect(words, program.run(words, LINES), Ended(0, b"starhost 0.1\n", b""))


def faults_are_told(program):
    folder = os.open(HELPS, os.O_RDONLY)
    program.expect("read failed", program.run("run", stdin=folder), Ended(1, b"", b"fault: read failed\n"))
    program.expect("read failed, of a replay", program.run("replay", stdin=folder), Ended(1, b"", b"fault: read failed\n"))
    os.close(folder)
    with open("/dev/full", "wb") as full:
        ended = program.at_terminal("run", b"0 0 open\n", stdout=full)
        program.expect("write failed", ended, Ended(1, b"", b"lines 1, steps 1\nfault: write failed\n"))
        ended = program.run("replay", SCRIPT, stdout=full)
        program.expect("write failed, of a replay", ended, Ended(1, b"", b"fault: write failed\n"))
    for words, text, fault in FAULTS:
        program.expect(words, program.run(words, text), Ended(1, b"", b"fault: " + fault + b"\n"))


def faults_are_told_once(program):
    """Behind the log's lines of files, of keys and of ports there is one line, which has the fault."""
    with tempfile.TemporaryDirectory() as folder, socket.create_server(("127.0.0.1", 0)) as taken:
        paths = {"folder": folder, "port": taken.getsockname()[1]}
        for name, text in FILES.items():
            with open(os.path.join(folder, name), "wb") as file:
                file.write(text)
        for words, fault in LOGGED_FAULTS:
            words = words.format(**paths)
            ended = program.run(words)
            lines = ended.errors.splitlines(keepends=True)
            logged = [line for line in lines if line.startswith(b"[")]
            program.expect(f"the log of {words}", len(logged) > 0, True)
            told = Ended(ended.status, b"", b"".join(lines[len(logged):]))
            program.expect(words, told, Ended(1, b"", b"fault: " + fault + b"\n"))


def terminals_have_summaries(program):
    program.expect("a terminal", program.at_terminal("run", LINES), Ended(0, REPLIES, SUMMARY))
    program.expect("no terminal", program.run("run", LINES), Ended(0, REPLIES, b""))


def replies_come_at_once(program):
    """A reply is flushed before the next line is read."""
    with subprocess.Popen([program.path, "run"], stdin=subprocess.PIPE, stdout=subprocess.PIPE, bufsize=0) as run:
        for line, reply in [(b"0 0 open\n", b"0 0 ok\n"), (b"0 0 selec\n", b"0 0 no 10 Syntax\n"), (b"0 0 begin\n", b"0 0 ok\n")]:
            run.stdin.write(line)
            is_there = select.select([run.stdout], [], [], 60)[0]
            program.expect(f"the reply to {line}", run.stdout.read(100) if is_there else b"", reply)
        run.stdin.close()


def lines_are_parsed(program):
    text = b"".join(line + b"\n" for line, _ in PARSED)
    told = b"".join(told + b"\n" for _, told in PARSED)
    program.expect("parse", program.run("parse", text), Ended(0, told, b""))


def replays_are_alike(program):
    for workers in (1, 2, 16):
        words = f"replay --tenants 2 --cells 2 --workers {workers}"
        program.expect(words, program.run(words, SCRIPT), Ended(0, REPLAYED, b""))


PARTS = [
    are_refused,
    are_taken,
    are_answered,
    faults_are_told,
    faults_are_told_once,
    terminals_have_summaries,
    replies_come_at_once,
    replays_are_alike,
    lines_are_parsed,
]


def main():
    program = Program(program_of(sys.argv[1:]))
    for part in PARTS:
        part(program)
    print(f"words of a command line: {program.count} answers are as they are to be")


if __name__ == "__main__":
    main()
