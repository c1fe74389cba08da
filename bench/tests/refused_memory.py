#!/usr/bin/env python3
"""Plays scripts on the built program with each request for memory refused in turn.

    python3 -m bench.tests.refused_memory [--built FOLDER] [NAME ..]

The scripts are the blocks of crates/sb_scripts/stdin whose lines are a stream's, and those of refused_scripts beside
this file; NAME is how the header of one begins, behind `# `. Each is played once for each request that the process
makes, from the first to the last, with that request refused (refuse.c, compiled by cc, gcc or clang). One process plays
a script: at each request a child goes on with the refusal, and the process waits for it and goes on without. A replay
has several threads, and is run anew for each request.

What a run has to answer comes from a second run of the same lines with ample memory. There each line that was answered
NoMemory is a `rollback` if its session had a transaction, and else a line that is refused as Syntax; each that was
answered NotBegun is left out; all other replies have to be equal. So a session has no transaction and no lock behind
NoMemory, and nothing has changed behind NotBegun. Beyond that: one refused request is told by one reply at most, and a
tenant that has no such reply has the replies of a run in which nothing is refused. A run that ends with the fault
`out of memory` has to have written a first part of what was to be written.

Calls that no line makes are made by tests of sb_tests. Those of PRESSED say what may be answered on a host where any
request may be refused, and are run anew for each request. Those of MARKED put calls that take no memory between two
marks: all requests from the first to the second are refused, and the tests have to pass. None of these calls asks for
memory; one test does between its marks, so that a refusal there is seen.

The programs stand where `rt ci` leaves them, or in FOLDER.
"""

import argparse
import collections
import concurrent.futures
import dataclasses
import itertools
import os
import pathlib
import re
import signal
import subprocess
import sys
import tempfile
import threading

from bench.harness import TOP, library

CRATES = TOP / "crates"
SCRIPTS = [CRATES / "sb_scripts/stdin", pathlib.Path(__file__).resolve().parent / "refused_scripts"]

LINES = 3_000  # a script of more lines isn't played
LONGEST = 900  # so many seconds a script may take
TESTED = "sb_tests"  # the crate of both
MARKED = ("cells::", "events::", "hosts::", "logs::", "priority::", "rules::", "tables::")
ASKING = "cells::a_step_without_memory_is_not_begun"
PRESSED = ("pressed::",)
TOGETHER = 32  # so many requests are refused side by side
MOST_WRONG = 100  # no more are looked for
SHOWN = 5  # so many wrong runs of a script are told

FAULT = b"fault: out of memory\n"
NO_MEMORY = b"no 91 NoMemory"
NOT_BEGUN = b"no 92 NotBegun"
REFUSED_TEXT = b"?"


class Wrong(Exception):
    """A run that isn't as it has to be."""


@dataclasses.dataclass
class Script:
    name: str
    settings: dict
    lines: list

    def words(self):
        """The program's words."""
        if "workers" in self.settings:
            names = ("tenants", "cells", "workers")
            return ["replay"] + [word for name in names for word in (f"--{name}", self.settings[name])]
        return ["run", "--tenants", self.settings.get("tenants", "1"), "--bound", self.settings.get("bound", "1000")]

    def is_played(self):
        """Whether its lines are a stream that the program reads to its end."""
        other = {"fails", "room", "each"} & self.settings.keys()
        in_range = all(self.settings.get(name) != "0" for name in ("tenants", "bound"))
        return not other and in_range and self.settings.get("lines", "shared") == "shared" and len(self.lines) <= LINES

    def input(self, lines):
        text = b"".join(line + b"\n" for line in lines)
        return text[: len(text) - int(self.settings.get("cut", 0))]

    def in_order(self, lines):
        """The lines in the order of their replies: a replay writes them session by session."""
        if "workers" not in self.settings:
            return lines
        return sorted(lines, key=lambda line: [int(word) for word in line.split(b" ")[:2]])


@dataclasses.dataclass
class Run:
    status: int
    out: bytes
    fault: bytes
    requests: int
    refused: int
    marks: int = 0


def reserved_words():
    """The words that are no names, as sb_scripts has them."""
    with open(os.path.join(CRATES, "sb_scripts/src/repeat.rt"), "rb") as file:
        found = re.search(rb'RESERVED: &str =\s+"([^"]*)"', file.read())
    return found[1].split(b" ") if found else []


def filled(line, at, word):
    """A line with what stands in braces written out, where it is one of several."""

    def form(found):
        name, _, rest = found[1].partition(b" ")
        if found[1] == b"#":
            return str(at).encode()
        if found[1] == b"%":
            return word
        if name in (b"byte", b"bytes"):
            return bytes([int(rest) + (at if name == b"bytes" else 0)])
        times, _, text = found[1].partition(b"|")
        return text * int(times)

    return re.sub(rb"\{([^}]*)\}", form, line)


def written_out(line):
    """The lines that a line of a script stands for."""
    if line.startswith(b"*"):
        digits, _, rest = line[1:].partition(b" ")
        return [filled(rest, at, b"") for at in range(int(digits))]
    if line.startswith(b"%"):
        return [filled(line[1:], 0, word) for word in reserved_words()]
    return [filled(line, 0, b"")]


def scripts_of(path):
    found = []
    with open(path, "rb") as file:
        for line in file.read().split(b"\n"):
            if line.startswith(b"#"):
                words = line.decode()[1:].split()
                settings = dict(word.split("=") for word in words if "=" in word)
                found.append(Script(" ".join(words), settings, []))
            elif line:
                found[-1].lines.extend(written_out(line))
    return found


class Player:
    """Runs of a program over the library that refuses."""

    def __init__(self, refuses):
        self.refuses = refuses

    def environment(self, settings):
        given = {name: str(value) for name, value in settings.items() if value}
        return {"PATH": os.environ["PATH"], "LD_PRELOAD": self.refuses, **given}

    def run(self, words, text, **settings):
        ended = subprocess.run(words, input=text, env=self.environment(settings), capture_output=True, timeout=120)
        told = re.fullmatch(rb"(.*?)(\d+) requests, (\d+) refused, (\d+) marks\n", ended.stderr, re.S)
        if told is None:
            raise Wrong(f"status {ended.returncode}: {ended.stderr[-200:]}")
        return Run(ended.returncode, ended.stdout, told[1], *map(int, told.groups()[1:]))

    def each(self, words, text, **settings):
        """Refuses each request in turn; then the run in which none is refused."""
        told, tell = os.pipe()
        with tempfile.TemporaryFile() as given:
            given.write(text)
            given.seek(0)
            how = {"stdin": given, "stdout": subprocess.DEVNULL, "stderr": subprocess.DEVNULL, "start_new_session": True}
            process = subprocess.Popen(words, env=self.environment({**settings, "EACH": tell}), pass_fds=[tell], **how)
        os.close(tell)
        late = threading.Timer(LONGEST, os.killpg, [process.pid, signal.SIGKILL])
        late.start()
        number = None
        with open(told, "rb", buffering=1 << 20) as records:
            while head := records.readline():
                number, status, refused, out, fault = map(int, head.split())
                yield Run(os.waitstatus_to_exitcode(status), records.read(out), records.read(fault), number, refused)
        late.cancel()
        process.wait()
        if number != 0:
            raise Wrong("it doesn't come to its end")

    def tests(self, program, names):
        """The tests of a program whose names begin so."""
        listed = subprocess.run([program, "--list"], capture_output=True, text=True, check=True).stdout
        return [test for test in re.findall(r"(\S+): test\n", listed) if test.startswith(names)]


def following(head):
    """How many lines of a reply stand behind its first one."""
    words = head.split(b" ")[2:]
    return int(words[-1]) if words[:1] in ([b"rows"], [b"done"], [b"rolledback"]) else 0


def replies(out):
    """The whole replies of a text, and what stands behind them."""
    lines = out.split(b"\n")
    found, at = [], 0
    while at < len(lines) - 1:
        end = at + 1 + following(lines[at])
        if end > len(lines) - 1:
            break
        found.append(b"\n".join(lines[at:end]) + b"\n")
        at = end
    return found, b"\n".join(lines[at:])


def first_reply(text):
    """The first reply of a text, if it is there whole."""
    end = text.find(b"\n")
    for _ in range(following(text[:end]) if end >= 0 else 0):
        end = text.find(b"\n", end + 1)
        if end < 0:
            break
    return text[: end + 1] if end >= 0 else None


def said(reply):
    """What a reply says first, without the numbers in front."""
    return reply.split(b"\n")[0].split(b" ", 2)[2]


def met(reply):
    return said(reply) in (NO_MEMORY, NOT_BEGUN)


def whose(reply):
    """The tenant and the session, or two dashes."""
    return tuple(reply.split(b" ")[:2])


def transactions(lines, replies):
    """Before each line, the sessions that have a transaction."""
    begun, found = frozenset(), []
    for line, reply in zip(lines, replies):
        found.append(begun)
        who, command, answer = whose(reply), line.split()[2:], said(reply)
        if command == [b"begin"] and answer == b"ok":
            begun |= {who}
        is_over = command in ([b"commit"], [b"rollback"], [b"end"]) and not answer.startswith(b"no ")
        if is_over or answer.startswith(b"rolledback "):
            begun -= {who}
    return found


def of_tenant(out, tenant):
    return b"".join(line + b"\n" for line in out.split(b"\n") if line.startswith(tenant + b" "))


class Judge:
    """What the runs of one script have to answer."""

    def __init__(self, player, program, script):
        self.player, self.program, self.script = player, program, script
        self.known = {}
        self.lines = script.in_order(script.lines)
        self.ample = self.play(0)
        if self.ample.status != 0:
            raise Wrong(f"status {self.ample.status} where nothing is refused")
        self.replies = self.whole(self.ample.out)
        if any(met(reply) for reply in self.replies):
            raise Wrong("NoMemory or NotBegun where nothing is refused")
        self.ends = list(itertools.accumulate(map(len, self.replies), initial=0))
        self.tenants = {whose(reply)[0] for reply in self.replies}
        self.begun = transactions(self.lines, self.replies)

    def play(self, number):
        text = self.script.input(self.script.lines)
        pieces = self.script.settings.get("pieces")
        return self.player.run([self.program] + self.script.words(), text, REFUSED=number, PIECES=pieces)

    def each(self):
        text = self.script.input(self.script.lines)
        return self.player.each([self.program] + self.script.words(), text, PIECES=self.script.settings.get("pieces"))

    def whole(self, out):
        """The whole replies to lines; a replay's last line is none."""
        return replies(out)[0][: len(self.lines)]

    def answers(self, lines):
        """What is written for these lines with ample memory."""
        pieces = self.script.settings.get("pieces")
        run = self.player.run([self.program] + self.script.words(), self.script.input(lines), PIECES=pieces)
        if run.status != 0:
            raise Wrong(f"the second run has status {run.status}")
        if NO_MEMORY in run.out or NOT_BEGUN in run.out:
            raise Wrong("NoMemory or NotBegun in the second run, in which nothing is refused")
        return run.out

    def first_other(self, out):
        """The place of the first reply that isn't that of the run in which nothing is refused."""
        low, high = 0, len(self.replies)
        while low < high:
            middle = (low + high + 1) // 2
            low, high = (middle, high) if out.startswith(self.ample.out[: self.ends[middle]]) else (low, middle - 1)
        return low

    def in_place_of(self, at, reply):
        """The line of the second run in place of one that was answered NoMemory; none for NotBegun."""
        if said(reply) == NOT_BEGUN:
            return []
        who = b" ".join(whose(reply))
        if self.lines[at] == who + b" end" and self.replies[at] == who + b" ok\n":
            raise Wrong("NoMemory for the end of an open session")
        return [who + b" " + (b"rollback" if whose(reply) in self.begun[at] else REFUSED_TEXT)]

    def expected(self, at, reply):
        """What is written where one line is answered for want of memory, by a second run."""
        if (at, reply) not in self.known:
            other = self.in_place_of(at, reply)
            told = self.answers(self.lines[:at] + other + self.lines[at + 1 :])
            before, later = told[: self.ends[at]], told[self.ends[at] :]
            if other:
                instead = first_reply(later)
                if said(instead) not in (b"ok", b"no 10 Syntax"):
                    raise Wrong(f"the second run answers {other[0]} by {instead}")
                later = later[len(instead) :]
            self.known[at, reply] = before + reply + later
        return self.known[at, reply]

    def look(self, run):
        """How a run with a refused request ended, or what is wrong with it."""
        has_ended = run.status == 1 and run.fault == FAULT
        if not has_ended and (run.status != 0 or run.fault):
            raise Wrong(f"status {run.status}: {run.fault[-200:]}")
        at = self.first_other(run.out)
        reply = first_reply(run.out[self.ends[at] :])
        is_met = reply is not None and at < len(self.lines) and met(reply)
        if is_met and not run.refused:
            raise Wrong("a reply tells of a refused request, and none was refused")
        expected = self.expected(at, reply) if is_met else self.ample.out
        if not (expected.startswith(run.out) if has_ended else expected == run.out):
            raise Wrong(difference(run.out, expected))
        if is_met:
            self.look_at_others(run.out, whose(reply)[0])
        return "ended" if has_ended else "refused" if is_met else "same"

    def look_at_others(self, out, troubled):
        """A tenant without NoMemory and NotBegun is answered as where nothing is refused."""
        for tenant in self.tenants - {troubled}:
            if not of_tenant(self.ample.out, tenant).startswith(of_tenant(out, tenant)):
                raise Wrong(f"tenant {tenant.decode()} has other replies than its own")


def difference(out, expected):
    pairs = list(zip(out.split(b"\n"), expected.split(b"\n")))
    at = next((place for place, (line, other) in enumerate(pairs) if line != other), len(pairs))
    return f"line {at + 1} of the replies: {pairs[at] if at < len(pairs) else 'one has no more'}"


def sweep(play, look, pool):
    """Runs anew with each request refused, until a run meets none: how the runs ended, and what was wrong."""
    counts, wrong = collections.Counter(), []

    def one(number):
        refused = 1
        try:
            run = play(number)
            refused = run.refused
            return refused, look(run)
        except Wrong as why:
            return refused, why

    first, refused = 1, 1
    while refused and len(wrong) < MOST_WRONG:
        numbers = range(first, first + TOGETHER)
        for number, (refused, how) in zip(numbers, pool.map(one, numbers)):
            if isinstance(how, Wrong):
                wrong.append(f"request {number}: {how}")
            elif refused:
                counts[how] += 1
        first += TOGETHER
    return counts, wrong


def sweep_by_children(judge):
    """The same by one process, whose child goes on with each refusal. Runs that are alike are looked at once."""
    counts, wrong, known = collections.Counter(), [], {}
    for run in judge.each():
        key = run.status, run.out, run.fault, run.refused
        if key not in known:
            try:
                known[key] = judge.look(run)
            except Wrong as why:
                known[key] = why
        how = known[key]
        if isinstance(how, Wrong):
            wrong.append(f"request {run.requests}: {how}")
        elif run.refused:
            counts[how] += 1
    return counts, wrong


def told(name, counts, wrong):
    """Tells of a script's runs, and gives the number of wrong ones."""
    parts = ", ".join(f"{counts[how]} {how}" for how in ("same", "refused", "ended"))
    print(f"{name}: {parts}" + (f", {len(wrong)} WRONG" if wrong else ""), flush=True)
    for line in wrong[:SHOWN]:
        print(f"  {line}", flush=True)
    return len(wrong)


def played(player, program, script, pool):
    """How the runs of a script ended, and what was wrong."""
    try:
        judge = Judge(player, program, script)
        return sweep(judge.play, judge.look, pool) if "workers" in script.settings else sweep_by_children(judge)
    except Wrong as why:
        return collections.Counter(), [str(why)]


def play_scripts(player, arguments, pool):
    found = [script for path in SCRIPTS for script in scripts_of(path)]
    scripts = [script for script in found if script.is_played()]
    if arguments.names:
        scripts = [script for script in scripts if script.name.startswith(tuple(arguments.names))]
    wrong = 0
    with concurrent.futures.ThreadPoolExecutor(os.cpu_count()) as several:
        results = several.map(lambda script: played(player, arguments.program, script, pool), scripts)
        for script, result in zip(scripts, results):
            wrong += told(script.name, *result)
    print(f"{len(scripts)} scripts of {len(found)}: the others fail at an end, are no stream, or have more than {LINES} lines")
    return wrong


def look_at_test(run):
    if run.status != 0:
        raise Wrong(f"status {run.status}: {(run.out + run.fault)[-300:]}")
    return "same"


def press(player, arguments, pool):
    """Runs tests of hosts with each request refused."""
    wrong = 0
    program = arguments.tests(TESTED)
    for test in player.tests(program, PRESSED):
        play = lambda number: player.run([program, test], b"", REFUSED=number)
        wrong += told(test, *sweep(play, look_at_test, pool))
    return wrong


def run_marked(player, arguments):
    """Runs tests with all requests between marks refused."""
    wrong = []
    marks = 0
    program = arguments.tests(TESTED)
    for test in player.tests(program, MARKED):
        try:
            run = player.run([program, test], b"", MARKED=1)
            look_at_test(run)
            if (run.refused > 0) != (test == ASKING) or run.marks % 2:
                raise Wrong(f"{run.refused} requests between {run.marks} marks")
            marks += run.marks
        except Wrong as why:
            wrong.append(f"{test}: {why}")
    counts = {"same": marks // 2}
    return told("calls that take no memory", collections.Counter(counts), wrong)


class Arguments:
    def __init__(self):
        parser = argparse.ArgumentParser()
        parser.add_argument("--built")
        parser.add_argument("names", nargs="*")
        given = parser.parse_args()
        self.names, self.built = given.names, given.built
        self.program = self.path("starhost", "starhost")

    def path(self, crate, file):
        return os.path.abspath(os.path.join(self.built or os.path.join(CRATES, crate, "out"), file))

    def tests(self, crate):
        return self.path(crate, f"{crate}_tests")


def main():
    arguments = Arguments()
    with tempfile.TemporaryDirectory() as folder:
        player = Player(library("refuse", folder))
        with concurrent.futures.ThreadPoolExecutor(os.cpu_count()) as pool:
            wrong = play_scripts(player, arguments, pool)
            if not arguments.names:
                wrong += press(player, arguments, pool)
                wrong += run_marked(player, arguments)
    spent = sum(os.times()[:4]) / 60
    print(f"each request refused; {spent:.1f} processor minutes; {wrong} runs were wrong")
    sys.exit(1 if wrong else 0)


if __name__ == "__main__":
    main()
