"""A shell for a tenant, as psql is one for PostgreSQL."""

from __future__ import annotations

import argparse
import os
import pydoc
import re
import shutil
import subprocess
import sys
import time
from collections.abc import Iterable, Iterator
from typing import NamedTuple, Optional, TextIO

from . import errors
from .connection import Connection, Cursor, connect
from .editing import with_editing
from .errors import Error, OperationalError, ProgrammingError
from .literals import line_of, parts
from .schema import Schema, schema_of
from .status import dump
from .tables import expanded, table

HELP = """\
A command ends with `;` at the end of a line, and may stand on several lines. A `;` inside of a line parts the actions
of a rule. A statement outside of a transaction is a transaction of its own; `begin;` begins one.

  \\i FILE     run the commands of a file (one a line where no line of it ends with `;`)
  \\d          the tables with their columns, by the server's status port
  \\d TABLE    a table's columns and rules
  \\x          rows one value a line, or as tables again
  \\timing     how long each command takes, or no longer
  \\tables     the tables, by the server's status port
  \\rules      the rules, by the server's status port
  \\dump       the tenant as the commands that make it, by the server's status port
  \\q          leave (so does the end of the input)
  \\?          this

The server's docs/COMMANDS.md has all commands.
"""


class Stopped(Exception):
    """A command was refused, and the shell was told to stop then."""


class Command(NamedTuple):
    """A command of a file, and the number of its first line."""

    text: str
    line: int


class Shell:
    """A tenant's session, and how what it answers is shown."""

    def __init__(self, words: argparse.Namespace, out: TextIO, is_typed: bool = False) -> None:
        self.words = words
        self.out = out
        self.is_typed = is_typed
        self.stops = words.stop or not (is_typed or words.go_on)
        self.is_expanded = False
        self.has_timing = False
        self.connection: Optional[Connection] = None
        self.known: Optional[Schema] = None
        self.place = ""

    # ---- the session

    def open(self) -> Connection:
        """The session, which is opened anew where it is lost."""
        if self.connection is None or not self.connection.is_open:
            words = self.words
            key = os.environ.get("FILGWESHA_KEY")
            self.connection = connect(words.host, words.port, words.tenant, words.session, key, autocommit=True)
        return self.connection

    def close(self) -> None:
        if self.connection is not None:
            self.connection.close()

    def prompt(self, is_first: bool) -> str:
        """`3.0=> `, with a star inside of a transaction, and `-> ` on further lines."""
        connection = self.connection
        if connection is None or not connection.is_open:
            return f"{self.words.tenant}.?=> " if is_first else "-> "
        star = "*" if connection.in_transaction else ""
        return f"{connection.tenant}.{connection.session}{'=' if is_first else '-'}{star}> "

    # ---- commands

    def run(self, command: str) -> bool:
        """Runs a command, or a line with a backslash. Whether the shell goes on. Raises Stopped where it is to."""
        try:
            if command.startswith("\\"):
                return self.run_own(command)
            self.run_command(command)
        except KeyboardInterrupt:
            self.tell("interrupted: the session was ended, and its transaction rolled back")
        except Error as error:
            self.tell_error(command, error)
            if self.stops:
                raise Stopped from None
        return True

    def run_command(self, command: str) -> None:
        connection = self.open()
        connection.considered = []
        if command.lstrip().startswith(("create", "alter", "drop")):
            self.known = None
        start = time.perf_counter()
        cursor = connection.cursor().execute(command)
        taken = time.perf_counter() - start
        self.show(cursor, line_of(command))
        if self.has_timing:
            self.tell(f"time: {taken * 1000:.3f} ms")

    def run_own(self, line: str) -> bool:
        """Runs a line that begins with a backslash. Whether the shell goes on."""
        word, _, rest = line.partition(" ")
        if word == "\\q":
            return False
        if word == "\\x":
            self.is_expanded = not self.is_expanded
            self.tell(f"rows one value a line: {'on' if self.is_expanded else 'off'}")
        elif word == "\\timing":
            self.has_timing = not self.has_timing
            self.tell(f"timing: {'on' if self.has_timing else 'off'}")
        elif word == "\\i":
            self.run_file(rest.strip())
        elif word in ("\\tables", "\\rules", "\\dump"):
            self.show_script(word)
        elif word == "\\d":
            self.describe(rest.strip())
        elif word in ("\\?", "\\h", "\\help"):
            self.out.write(HELP)
        else:
            self.tell(f"there is no {word}; \\? shows what there is")
        return True

    def run_file(self, path: str) -> None:
        """Runs the commands of a file. What is refused is told with its place."""
        try:
            with open(path, encoding="ascii", errors="replace") as file:
                commands = list(commands_of(file.read().splitlines()))
        except OSError as error:
            raise ProgrammingError(f"can't read {path}: {error.strerror}") from None
        outer = self.place
        try:
            for command in commands:
                self.place = f"{path}:{command.line}: "
                if not self.run(command.text):
                    return
        finally:
            self.place = outer

    # ---- what has a name

    def script(self) -> str:
        """The tenant's script, by the status port."""
        if self.words.status is None:
            raise ProgrammingError("that needs the server's status port: start the shell with --status PORT")
        return dump(self.words.host, self.words.status, self.words.tenant, os.environ.get("FILGWESHA_KEY"))

    def schema(self) -> Schema:
        """What has a name in the tenant, as it was when something was last defined."""
        if self.known is None:
            self.known = schema_of(self.script())
        return self.known

    def names(self) -> set[str]:
        """The names that Tab completes, as far as they can be had."""
        try:
            return self.schema().names if self.words.status is not None else set()
        except Error:
            return set()

    def describe(self, name: str) -> None:
        """Shows all tables with their columns, or one with its rules."""
        schema = self.schema()
        if name and name not in schema.tables:
            raise ProgrammingError(f"there is no table {name}")
        for one in [name] if name else schema.tables:
            self.tell(f"{one} ({', '.join(schema.tables[one])})")
        for line in schema.rules.get(name, []):
            self.tell(f"  {line}")

    # ---- what is shown

    def show(self, cursor: Cursor, line: str) -> None:
        if cursor.description is not None:
            rows = cursor.fetchall()
            names = self.names_of(cursor, line, len(rows[0]) if rows else 0)
            self.page((expanded if self.is_expanded else table)(names, rows))
        elif cursor.rowcount >= 0:
            self.tell(f"ok, {cursor.rowcount} row{'' if cursor.rowcount == 1 else 's'}")
        else:
            self.tell("ok")
        self.show_trace(cursor.connection.considered)

    def names_of(self, cursor: Cursor, line: str, width: int) -> list[str]:
        """What heads the columns. Those of a `*` have their tables' names, as far as these can be had."""
        names = [column[0] for column in cursor.description or ()]
        sources = re.search(r"select \* from ([a-z_][^()]*?)(?: where .*)?$", line)
        if sources is None or self.words.status is None:
            return names
        try:
            columns = [column for source in sources[1].split(",") for column in self.schema().columns(source.split()[0])]
        except Error:
            return names
        return columns if len(columns) == width or (width == 0 and columns) else names

    def page(self, text: str) -> None:
        """Shows a text, by a pager where it is longer than the terminal."""
        if self.is_typed and text.count("\n") >= shutil.get_terminal_size().lines - 1:
            pydoc.pager(text)
        else:
            self.tell(text)

    def show_trace(self, considered: errors.Trace) -> None:
        """What was considered at the last assertion point."""
        if considered:
            self.tell("considered: " + ", ".join(f"{rule} {verdict}" for rule, verdict in considered))

    def show_script(self, word: str) -> None:
        """The tenant's script, or its tables or rules alone."""
        begins = {"\\tables": ("create table ",), "\\rules": ("create rule ", "alter rule ", "deactivate rule ")}.get(word, ("",))
        for line in self.script().splitlines():
            if line.startswith(begins):
                self.tell(line)

    def tell_error(self, command: str, error: Error) -> None:
        self.tell(f"{self.place}{error}")
        if self.place:
            self.tell(f"  {line_of(command)}")
        if isinstance(error, errors.RolledBack):
            self.show_trace(error.considered)
        if error.name == "Syntax":
            self.point_at(command)
        if isinstance(error, OperationalError) and (self.connection is None or not self.connection.is_open):
            self.tell("the next command opens a new session")

    def point_at(self, command: str) -> None:
        """Where the command stops being one, as far as the server's program can be asked."""
        program = self.words.starhost or shutil.which("starhost")
        line = line_of(command)
        if not program:
            return
        try:
            told = subprocess.run([program, "parse"], input=line + "\n", capture_output=True, text=True, timeout=10, check=True).stdout.split()
        except (OSError, subprocess.SubprocessError):
            return
        if len(told) == 2 and told[0] == "syntax":
            self.tell(f"  {line}\n  {' ' * (int(told[1]) - 1)}^")

    def tell(self, text: str) -> None:
        self.out.write(text + "\n")
        self.out.flush()


def ends_command(text: str) -> bool:
    """Whether a `;` outside of quotes ends the text, so that the command is whole."""
    try:
        last = [(quoted, part) for quoted, part in parts(text)][-1:]
    except ProgrammingError:
        return False
    return bool(last) and not last[0][0] and last[0][1].rstrip().endswith(";")


def commands_of(lines: Iterable[str]) -> Iterator[Command]:
    """The commands of a file: each up to a `;` at the end of a line, or one a line where there is none."""
    lines = list(lines)
    one_a_line = not any(line.rstrip().endswith(";") for line in lines)
    held, first = "", 1
    for number, line in enumerate(lines, 1):
        if not held and (line.startswith("\\") or one_a_line):
            if line.strip():
                yield Command(line.strip(), number)
            continue
        if not held.strip():
            held, first = "", number
        held += line + "\n"
        if ends_command(held):
            yield Command(held.strip()[:-1].rstrip(), first)
            held = ""
    if held.strip():
        yield Command(held.strip(), first)


def typed(shell: Shell) -> Iterator[str]:
    """The commands that somebody types, line by line."""
    held = ""
    while True:
        try:
            line = input(shell.prompt(not held))
        except KeyboardInterrupt:
            print()
            held = ""
            continue
        except EOFError:
            print()
            return
        if not held and line.startswith("\\"):
            yield line.strip()
            continue
        held += line + "\n"
        if ends_command(held):
            yield held.strip()[:-1].rstrip()
            held = ""
        elif not held.strip():
            held = ""


def read_words(words: Optional[list[str]] = None) -> argparse.Namespace:
    parser = argparse.ArgumentParser(prog="filgwesha", description="A shell for a tenant of a Filgwesha server. FILGWESHA_KEY holds its key.")
    parser.add_argument("tenant", type=int)
    parser.add_argument("session", type=int, nargs="?", help="0 to 7, or else the first that is free")
    parser.add_argument("--host", default="127.0.0.1")
    parser.add_argument("--port", type=int, default=7411)
    parser.add_argument("--status", type=int, metavar="PORT", help="the server's status port, for \\d, \\dump and what Tab completes")
    parser.add_argument("--starhost", metavar="PROGRAM", help="the server's program, which knows where a syntax error lies")
    parser.add_argument("--stop", action="store_true", help="stop with status 1 at the first command that is refused, as a script does")
    parser.add_argument("--go-on", action="store_true", help="go on behind a command that is refused, as a terminal does")
    return parser.parse_args(words)


def main(words: Optional[list[str]] = None) -> int:
    """Runs the shell. Its status is 1 where the session can't be opened, or it stopped at a command that was refused."""
    is_typed = sys.stdin.isatty()
    shell = Shell(read_words(words), sys.stdout, is_typed)
    try:
        shell.open()
    except Error as error:
        print(f"filgwesha: {error}", file=sys.stderr)
        return 1
    if is_typed:
        with_editing(shell.names)
        shell.tell("\\? shows help, \\q leaves")
    piped = (command.text for command in commands_of([] if is_typed else sys.stdin.read().splitlines()))
    try:
        for command in typed(shell) if is_typed else piped:
            if not shell.run(command):
                break
    except Stopped:
        return 1
    finally:
        shell.close()
    return 0
