#!/usr/bin/env python3
"""Plays what pages print, on the built program: sessions with their replies, and commands of a shell.

    python3 -m bench.documents.printed [PROGRAM]

PROGRAM is crates/starhost/out/starhost where no word is given. Of README and of FIRST_RULES, TOUR, RECIPES, COMMANDS, OPERATING and
SEVERAL_HOSTS in docs/ each block is played, and each command line that stands in backticks; of CLIENTS it is
bench/documents/clients.py that does. A block that nothing here plays is told, and so is a row of what the language lacks
without a line that shows it. `nc`, HAProxy and systemd-analyze are used where they are installed, and it is said where
they aren't.
"""

import contextlib
import os
import pathlib
import re
import shutil
import signal
import socket
import subprocess
import sys
import tempfile

from bench.harness import TOP, blocks_of, is_unproved, program_of, sessions_of, transcript_of

PAGES = ("README.md", "docs/FIRST_RULES.md", "docs/TOUR.md", "docs/RECIPES.md", "docs/COMMANDS.md", "docs/OPERATING.md", "docs/SEVERAL_HOSTS.md")
BUILT = "crates/starhost/out/starhost"

# What shows a row of the table in COMMANDS, by the words that it begins with; two tables and a rule are there.
ROWS = "open|create table t (a int, b text)|create table u (a int)"
LACKS = {
    "keys": ["create table k (a int unique)", "create table k (a int check (a < 2))", "create table k (a int references t)"],
    "NULL": ["insert into t values (null, '')", "create table k (a int default 0)"],
    "letters": ["insert into t values (1, '\xe9')"],
    "`-` before": ["select -a from t"],
    "division": ["select a / 2 from t", "select (a + 1) * 2 from t"],
    "arithmetic with a query": ["update t set a = a - (select sum(a) from u)"],
    "`!=`": ["select a from t where a != 1", "select a from t where a between 1 and 2"],
    "lists in": ["select a from t where a in (1, 2)"],
    "`like`": ["select a from t where b like 'a'", "select b || b from t"],
    "names for": ["select a as x from t"],
    "`group by`": [f"select {item} from t" for item in ("min(a)", "max(a)", "avg(a)", "distinct a")] + ["select a from t group by a"],
    "two of": ["select count(*), sum(a) from t"],
    "`order by`": ["select a from t order by a"],
    "`limit`": ["select a from t limit 1", "select a from t offset 1"],
    "more than two": ["select count(*) from t, t x, u", "select t.a from t join u on t.a = u.a", "select a from t union select a from u"],
    "column lists": ["insert into t (a, b) values (1, '')"],
    "`alter table`": ["alter table t add c int"],
    "savepoints": ["savepoint s"],
    "comments": ["begin -- now", "begin\t", "begin\r", "BEGIN"],
}
# shown by a line of its own, or by another one's refusal
OTHERWISE = ("waiting for", "`select` outside")


def worked_session():
    """The first session that sb_scripts plays, and its replies: `a_whole_session` of sb_wire's proofs computes it, too."""
    scripts, replies = ((TOP / "crates/sb_scripts" / name).read_text("latin-1") for name in ("stdin", "stdout"))
    title, _, lines = scripts.split("\n\n")[1].partition("\n")
    told = replies.split(f"{title}\n", 1)[1].partition("# ")[0]
    return f"{lines}\n", told


def readme_session():
    """The lines of README's example, and the program's answer."""
    rows = transcript_of(next(text for kind, text in blocks_of("README.md") if not kind))
    lines = "".join(f"{command}\n" for command, _replies in rows)
    return lines, "".join(f"0 0 {line}\n" for _command, replies in rows for line in replies)


class Player:
    def __init__(self, program):
        self.program, self.faults, self.played = os.path.abspath(program), [], set()
        self.example = None

    def need(self, holds, what):
        if not holds:
            self.faults.append(what)

    def answers(self, lines, *words):
        told = subprocess.run([self.program, *words], input=lines.encode("latin-1"), stdout=subprocess.PIPE, timeout=60)
        return told.stdout.decode("ascii")

    def session(self, name, lines, wanted):
        got = self.answers(lines)
        self.need(got == wanted, f"{name}:\n{got}wanted:\n{wanted}")
        self.played |= {lines, wanted}

    def readme(self):
        self.example, told = readme_session()
        self.session("README.md", self.example, told)
        self.played.add(next(text for kind, text in blocks_of("README.md") if not kind))

    def sessions(self, name):
        """The sessions of a page, whose commands are files of examples/, too."""
        for section, block, rows in sessions_of(f"docs/{name.upper()}.md"):
            lines = "".join(f"0 0 {command}\n" for command, _replies in [("open", []), *rows])
            told = "".join(f"0 0 {line}\n" for _command, replies in [("open", ["ok"]), *rows] for line in replies)
            file = TOP / "examples" / name / f"{section}.lines"
            self.need(file.is_file() and file.read_text("ascii") == lines, f"{file}: other lines than the page has")
            self.session(f"docs/{name.upper()}.md: {section}", lines, told)
            self.played.add(block)

    def tour(self):
        script = next(text for kind, text in blocks_of("docs/TOUR.md") if not kind and not transcript_of(text))
        written = re.search(r"`(starhost dump --tenant 0 [^`]*)`", (TOP / "docs/TOUR.md").read_text("utf-8"))[1]
        moved, orders = (text for kind, text in blocks_of("docs/TOUR.md") if kind == "sh")
        with tempfile.TemporaryDirectory() as room:
            self.shell(room, written.replace("examples/", f"{TOP}/examples/"))
            self.need(pathlib.Path(room, "0.lines").read_text() == script, "docs/TOUR.md: another script of the tenant")
            told = self.shell(room, moved)
            self.need(told == "5 0 ok\n" * 3 + "5 0 ok 2\n5 0 done 0\n" + "5 0 ok\n" * 2, f"docs/TOUR.md: the tenant that moved: {told}")
        with socket.create_server(("127.0.0.1", 0)) as free:
            port = free.getsockname()[1]
        told = self.shell(TOP, orders.replace("7411", str(port)))
        self.need(told.split("\n", 1)[1].startswith((TOP / "examples/orders/orders.stdout").read_text("ascii")), f"docs/TOUR.md: {told}")
        self.played |= {script, moved, orders}

    def lacks(self):
        page = (TOP / "docs/COMMANDS.md").read_text("utf-8")
        rows = page.split("## What the language lacks")[1].split("\n\n")[2].splitlines()[2:]
        for row in rows:
            begin = row.removeprefix("| ")
            found = next((lines for word, lines in LACKS.items() if begin.startswith(word)), [])
            self.need(found or begin.startswith(OTHERWISE), f"docs/COMMANDS.md: nothing shows {begin}")
            for line in found:
                told = self.lines_of(ROWS.split("|") + ["begin", line])[-1]
                self.need(told == "no 10 Syntax", f"docs/COMMANDS.md: {line}: {told}")
        self.need(self.lines_of(["open", "create table t (a int)", "select a from t"])[-1] == "no 42 NoTransaction", "select")
        # the block has the forms of rules
        self.played |= {text for kind, text in blocks_of("docs/COMMANDS.md") if not kind}

    def lines_of(self, lines):
        told = self.answers("".join(f"0 0 {line}\n" for line in lines)).splitlines()
        return [line.removeprefix("0 0 ") for line in told]

    def shell(self, room, text, status=0):
        """What a text of a shell prints."""
        words = text.replace(BUILT, self.program)
        words = re.sub(r"(^|[\s(;|])starhost (?=[a-z])", rf"\1{self.program} ", words)
        run = subprocess.run(["sh", "-c", words], cwd=room, stdout=subprocess.PIPE, stderr=subprocess.PIPE, timeout=60)
        self.need(run.returncode == status, f"{text.strip()}: {run.stderr.decode()}")
        return run.stdout.decode("ascii")

    @contextlib.contextmanager
    def server(self, room, text):
        """The port of a server that a text of a shell starts: a free one in place of the page's."""
        words = text.replace(BUILT, self.program).replace("--port 7411", "--port 0")
        if is_unproved() and "ulimit -v" in words:
            print("what pages print: no limit on memory, since this program checks while it runs")
            words = re.sub(r"ulimit -v \d+; ", "", words)
        started = subprocess.Popen(["sh", "-c", words], cwd=room, stdin=subprocess.DEVNULL, stdout=subprocess.PIPE,
                                   stderr=subprocess.DEVNULL, text=True, start_new_session=True)
        try:
            yield int(started.stdout.readline().split()[1])
        finally:
            os.killpg(started.pid, signal.SIGKILL)
            started.wait()

    def visit(self, room, text, port):
        """What `nc` prints of a text that a page sends to a server."""
        return self.shell(room, text.replace("7411", str(port)))

    def operating(self):
        page = (TOP / "docs/OPERATING.md").read_text("utf-8")
        shells = [text for kind, text in blocks_of("docs/OPERATING.md") if kind == "sh"]
        with tempfile.TemporaryDirectory() as room:
            pathlib.Path(room, "lines").write_text("5 0 open\n5 0 create table t (a int)\n5 0 begin\n5 0 insert into t values (7)\n5 0 commit\n5 0 end\n")
            pathlib.Path(room, "more").write_text("5 1 open\n5 1 begin\n5 1 select * from t\n5 1 end\n")
            os.mkdir(f"{room}/FOLDER")
            serve, caught, upgrade, dump, key, capped = shells
            self.shell(room, dump)
            self.need(pathlib.Path(room, "5.lines").read_text().startswith("create table t"), "docs/OPERATING.md: a dump")
            if shutil.which("nc"):
                sent = re.search(r"`(\(echo 5 0;[^`]*)`", page)[1]
                for text in (serve, capped):
                    with self.server(room, text) as port:
                        told = self.visit(room, sent, port)
                    self.need(told == "ok\nok\nok\nok 1\ndone 0\nok\n", f"docs/OPERATING.md: {told}")
                if shutil.which("curl"):
                    self.backup(room, page, sent)
            else:
                print("what pages print: no nc on this machine")
            self.caught_signal(room, caught)
            self.new_key(room, key)
            for span in ("starhost dump --into FOLDER < lines", "starhost run --load FOLDER < more"):
                self.need(f"`{span}`" in page, f"docs/OPERATING.md: {span}")
                told = self.shell(room, span)
            self.need(told == "5 1 ok\n5 1 ok\n5 1 rows 1\n5 1 7\n5 1 ok\n", f"docs/OPERATING.md: {told}")
            self.shell(room, "starhost run --journal FILE < lines")
            self.need("5 1 7\n" in self.shell(room, "starhost run --journal FILE < more"), "docs/OPERATING.md: a run with a journal")
            self.shell(room, "starhost run --tenants 64 --journal old.journal < lines")
            changed, shortened = re.findall(r"`(starhost compact [^`]*)`", page)
            self.shell(room, f"mkdir journal && {changed}")
            self.shell(room, f"{shortened} && rm -r journal && mv shorter journal")
            self.shell(room, upgrade)
            self.need(pathlib.Path(room, "tenants/5.lines").read_bytes() == pathlib.Path(room, "5.lines").read_bytes(), "docs/OPERATING.md: an upgrade")
            self.unit(room)
        self.played |= set(shells)

    def caught_signal(self, room, text):
        """A shell that catches a signal ends its server, which then writes its tenants."""
        words = text.replace(BUILT, self.program).replace("--port 7411", "--port 0")
        with subprocess.Popen(["sh", "-c", words], cwd=room, stdout=subprocess.PIPE, stderr=subprocess.PIPE, text=True) as shell:
            port = int(shell.stdout.readline().split()[1])
            with socket.create_connection(("127.0.0.1", port), timeout=60) as stream:
                stream.sendall(b"5 0\ncreate table t (a int)\n")
                told = stream.makefile("rb")
                self.need([told.readline(), told.readline()] == [b"ok\n", b"ok\n"], "docs/OPERATING.md: a server that a shell stops")
                shell.terminate()
                out, errors = shell.communicate(timeout=60)
        ended = shell.returncode, out.startswith("trails 16 steps "), pathlib.Path(room, "stop").exists()
        self.need(ended == (0, True, False), f"docs/OPERATING.md: {ended}: {errors[-300:]}")
        self.need(pathlib.Path(room, "tenants/5.lines").read_text() == "create table t (a int)\n", "docs/OPERATING.md: its tenants")
        shutil.rmtree(pathlib.Path(room, "tenants"))

    def new_key(self, room, text):
        """The key that a page makes opens its tenant, and no other one does."""
        keys = pathlib.Path(room, "keys")
        keys.write_text("# keys\n")
        self.shell(room, text)
        self.need(re.fullmatch(r"# keys\n5 [0-9a-f]{64}\n", keys.read_text()), "docs/OPERATING.md: a new key")
        if shutil.which("nc"):
            with self.server(room, f"{BUILT} serve --port 7411 --keys keys") as port:
                told = [self.visit(room, f"echo 5 0 {words} | nc -N 127.0.0.1 7411", port) for words in ("$(cat key.txt)", "another")]
            self.need(told == ["ok\n", "no 15 BadKey\n"], f"docs/OPERATING.md: a new key: {told}")

    def backup(self, room, page, sent):
        """The dump that the status port gives of a tenant that has been sent its lines."""
        asked = re.search(r"`(curl -sf [^`]*)`", page)[1]
        with socket.create_server(("127.0.0.1", 0)) as free:
            status = free.getsockname()[1]
        with self.server(room, f"{BUILT} serve --port 7411 --tenants 64 --status {status}") as port:
            self.visit(room, sent, port)
            self.shell(room, asked.replace("7412", str(status)).replace("5.lines", "asked"))
        self.need(pathlib.Path(room, "asked").read_bytes() == pathlib.Path(room, "5.lines").read_bytes(), f"docs/OPERATING.md: {asked}")

    def unit(self, room):
        """systemd finds no fault in the unit that docs/OPERATING.md explains."""
        if not shutil.which("systemd-analyze"):
            print("what pages print: no systemd-analyze on this machine")
            return
        unit = pathlib.Path(room, "filgwesha.service")
        text = (TOP / "examples/filgwesha.service").read_text("ascii")
        unit.write_text(text.replace("/usr/local/bin/starhost", self.program))
        run = subprocess.run(["systemd-analyze", "verify", "--man=no", unit], capture_output=True, text=True)
        told = [line for line in run.stderr.splitlines() if "filgwesha" in line]
        self.need(not told, f"examples/filgwesha.service: {told}")

    def several_hosts(self):
        blocks = blocks_of("docs/SEVERAL_HOSTS.md")
        if shutil.which("haproxy") and shutil.which("socat") and shutil.which("nc"):
            run = subprocess.run([sys.executable, "-m", "bench.tests.several_hosts.several_hosts", self.program])
            self.need(run.returncode == 0, "bench/tests/several_hosts/several_hosts.py")
        else:
            print("what pages print: no haproxy, socat or nc on this machine, so docs/SEVERAL_HOSTS.md isn't played")
        self.played |= {text for _kind, text in blocks}

    def first_commands(self):
        """Those of the README that need no proof, and the session that `rt ci` plays on the program."""
        text = next(text for kind, text in blocks_of("README.md") if kind == "sh")
        self.need("(cd crates/starhost && rt try < ../../examples/card.lines)" in text and "./check" in text, "README.md: two commands")
        self.played.add(text)
        self.need((TOP / "examples/card.lines").read_text("ascii") == self.example, "examples/card.lines: other lines than README.md has")
        stored, wanted = ((TOP / "crates/starhost" / name).read_text("ascii") for name in ("stdin", "stdout"))
        self.need((stored, wanted) == worked_session(), "crates/starhost/stdin: it isn't the first session of sb_scripts")
        self.session("crates/starhost/stdin", stored, wanted)
        self.answers("0 0 open\n0 0 end\n", "replay")
        if shutil.which("rt"):
            logic = subprocess.run(["rt", "version"], stdout=subprocess.PIPE, text=True).stdout.split()[-1]
            self.need(f"`{logic}`" in (TOP / "README.md").read_text("utf-8"), f"README.md: the logic is {logic}")

    def left(self):
        for page in PAGES:
            for _kind, text in blocks_of(page):
                self.need(text in self.played, f"{page}: nothing plays {text.splitlines()[0]}")


def main():
    player = Player(program_of(sys.argv[1:]))
    player.readme()
    player.first_commands()
    for name in ("first_rules", "tour", "recipes"):
        player.sessions(name)
    player.tour()
    player.lacks()
    player.operating()
    player.several_hosts()
    player.left()
    for fault in player.faults:
        print(fault)
    print(f"what pages print: {len(player.faults)} faults")
    return 1 if player.faults else 0


if __name__ == "__main__":
    sys.exit(main())
