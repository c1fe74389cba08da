#!/usr/bin/env python3
"""Plays the shell of the Python client in a terminal (tmux), as somebody types who sees it for the first time.

    python3 -m bench.tests.shell_in_terminal [PROGRAM]

The sessions of docs/TOUR.md, a table, history and editing, a command on several lines, a statement that is interrupted,
a server that is lost and comes back. PROGRAM is crates/starhost/out/starhost where no word is given. Where there is no
tmux nothing is played, and that is said.
"""

import os
import shutil
import subprocess
import sys
import tempfile
import time

from bench.harness import TOP, Server, program_of, sessions_of



class Terminal:
    """A terminal of tmux, with a home of its own."""

    def __init__(self, home):
        self.name = f"filgwesha-{os.getpid()}"
        self.tmux = ["tmux", "-L", self.name]
        environment = {**os.environ, "HOME": home, "PYTHONPATH": str(TOP / "clients/python"), "PS1": "$ ", "TERM": "xterm"}
        subprocess.run([*self.tmux, "-f", "/dev/null", "new-session", "-d", "-x", "160", "-y", "500", "sh"], env=environment, check=True)

    def keys(self, *keys):
        subprocess.run([*self.tmux, "send-keys", *keys], check=True)

    def type(self, line):
        # a word's last `;` would end the command of tmux
        held = line[:-1] + "\\;" if line.endswith(";") else line
        subprocess.run([*self.tmux, "send-keys", "-l", held], check=True)
        self.keys("Enter")

    def screen(self):
        return subprocess.run([*self.tmux, "capture-pane", "-p", "-S", "-2000"], check=True, capture_output=True, text=True).stdout

    def wait_for(self, text, seconds=20):
        """Waits until the last lines of the screen have the text."""
        until = time.time() + seconds
        while text.rstrip() not in self.screen():
            if time.time() > until:
                sys.exit(f"the shell doesn't show {text!r}:\n{self.screen()[-1500:]}")
            time.sleep(0.05)

    def end(self):
        subprocess.run([*self.tmux, "kill-server"], stderr=subprocess.DEVNULL)


def start(program, port=0):
    return Server(program, "--port", str(port), has_input=False)


def tour():
    """The sessions of the tour: their commands without numbers, and the rows that they end with."""
    for _section, _block, rows in sessions_of("docs/TOUR.md"):
        yield [command for command, _replies in rows], rows[-1][1][-1]


def play(terminal, program):
    server = start(program)
    port = server.port
    shell = f"{sys.executable} -m filgwesha"
    for tenant, (commands, last) in enumerate(tour()):
        terminal.type(f"clear; {shell} {tenant} --port {port}")
        terminal.wait_for(f"{tenant}.0=> ")
        for number, command in enumerate(commands):
            terminal.type(command + ";")
            terminal.wait_for(f"{command};"[-60:])
        terminal.wait_for(last.split(",")[-1].strip("'"))
        terminal.wait_for(" row")
        terminal.type("\\q")
        time.sleep(0.2)
    print("tour: its sessions end with the rows that it shows")

    terminal.type(f"clear; {shell} 10 --port {port}")
    terminal.wait_for("10.0=> ")
    terminal.type("create table item (name text, stock int);")
    terminal.type("insert into item values ('cup', 5),")
    terminal.wait_for("-> ")
    terminal.type("  ('a cook''s knife', 12);")
    terminal.wait_for("ok, 2 rows")
    terminal.type("select name, stock from item;")
    terminal.wait_for("     name      | stock\n---------------+-------\ncup           |     5\na cook's knife |    12"[:14].strip())
    terminal.wait_for("(2 rows)")
    terminal.keys("Up")
    time.sleep(0.2)
    terminal.keys("BSpace", "BSpace", "BSpace", "BSpace", "BSpace")
    terminal.type("item where stock > 5;")
    terminal.wait_for("(1 row)")
    print("a table, a command on several lines, history and editing")

    terminal.type("select nam from item;")
    terminal.wait_for("22 NoColumn")
    terminal.type("begin;")
    terminal.wait_for("10.0=*> ")
    terminal.type("create table big (a int);")
    terminal.wait_for("41 InTransaction")
    terminal.type("create tables;")
    terminal.wait_for("10 Syntax")
    terminal.type("rollback;")
    terminal.type("create table big (a int);")
    terminal.type("insert into big values (1);")
    for _ in range(10):
        terminal.type("insert into big select a from big;")
    terminal.wait_for("ok, 512 rows")
    terms = " or ".join(["x.a < y.a"] * 250)
    terminal.type(f"select count(*) from big x, big y where {terms};")
    time.sleep(0.3)
    terminal.keys("C-c")
    terminal.wait_for("interrupted: the session was ended", 60)
    terminal.type("select count(*) from big;")
    terminal.wait_for(" 1024", 120)
    print("an interrupted statement, and a new session behind it")

    server.kill()
    terminal.type("select name from item;")
    terminal.wait_for("the next command opens a new session")
    terminal.type("select name from item;")
    terminal.wait_for("can't reach 127.0.0.1")
    server = start(program, port)
    terminal.type("create table item (a int);")
    terminal.type("select count(*) from item;")
    terminal.wait_for("    0")
    terminal.keys("C-d")
    server.kill()
    print("a lost server, and one that is there again")


def main():
    if not shutil.which("tmux"):
        print("there is no tmux: the shell isn't played in a terminal")
        return
    program = program_of(sys.argv[1:])
    with tempfile.TemporaryDirectory() as home:
        terminal = Terminal(home)
        try:
            play(terminal, program)
        finally:
            terminal.end()


if __name__ == "__main__":
    main()
