"""Connections and cursors, as DB-API 2.0 (PEP 249) has them."""

from __future__ import annotations

import re
import socket
from collections.abc import Iterable, Iterator, Sequence
from typing import Any, Optional

from . import errors
from .description import Column, columns_of
from .errors import InterfaceError, NotSupportedError, OperationalError, ProgrammingError, Trace
from .literals import Value, line_of, sendable
from .wire import Done, No, Ok, Reply, RolledBack, Rows, Wire

SESSIONS = 8
"""How many sessions a tenant has: 0 to 7."""

_ALREADY_OPEN = 45
_NO_MEMORY = 91
_FIRST_WORD = re.compile(r"[a-z]*")
_WORK = {"select", "insert", "delete", "update", "process"}
_CATALOG = {"create", "drop", "alter", "activate", "deactivate"}


def connect(
    host: str = "127.0.0.1",
    port: int = 7411,
    tenant: int = 0,
    session: Optional[int] = None,
    key: Optional[str] = None,
    *,
    autocommit: bool = False,
    timeout: Optional[float] = None,
) -> Connection:
    """Opens a session of a tenant: the one that is named, or the first of 0 to 7 that is free.

    `key` is the tenant's key, where the server asks for one. `timeout` is in seconds, for connecting and for each
    reply. Raises OperationalError where the server can't be reached or the session is open already.
    """
    numbers = range(SESSIONS) if session is None else [session]
    for number in numbers:
        wire = _dial(host, port, timeout)
        reply = wire.call(sendable(f"{tenant} {number}" + (f" {key}" if key is not None else "")))
        if isinstance(reply, Ok):
            return Connection(wire, tenant, number, autocommit)
        wire.close()
        if not isinstance(reply, No):
            raise InterfaceError(f"what came is no reply to a first line: {reply}")
        if reply.number != _ALREADY_OPEN or number == numbers[-1]:
            raise errors.refusal(*reply)
    raise AssertionError("there is a session to try")


def _dial(host: str, port: int, timeout: Optional[float]) -> Wire:
    try:
        stream = socket.create_connection((host, port), timeout)
    except OSError as error:
        raise OperationalError(f"can't reach {host}:{port}: {error}") from error
    stream.setsockopt(socket.IPPROTO_TCP, socket.TCP_NODELAY, 1)
    return Wire(stream)


class Connection:
    """A session of a tenant (PEP 249).

    Without `autocommit` a `begin` is sent by itself before the first statement outside of a transaction. With it each
    statement outside of a transaction is a transaction of its own. Commands that create, drop, alter, activate or
    deactivate belong outside: a transaction that began by itself and has only read is ended before one, and in another
    one they are refused by the server as 41 InTransaction.

    `considered` is the trace of the last assertion point: rules in the order in which they were considered, each with
    `"true"`, `"false"` or `"error"`.
    """

    Warning = errors.Warning
    Error = errors.Error
    InterfaceError = errors.InterfaceError
    DatabaseError = errors.DatabaseError
    DataError = errors.DataError
    OperationalError = errors.OperationalError
    IntegrityError = errors.IntegrityError
    InternalError = errors.InternalError
    ProgrammingError = errors.ProgrammingError
    NotSupportedError = errors.NotSupportedError

    def __init__(self, wire: Wire, tenant: int, session: int, autocommit: bool) -> None:
        self._wire = wire
        self.tenant = tenant
        self.session = session
        self.autocommit = autocommit
        self.considered: Trace = []
        self._in_transaction = False
        self._has_only_read = False

    @property
    def is_open(self) -> bool:
        """Whether commands can be sent."""
        return self._wire.is_open

    @property
    def in_transaction(self) -> bool:
        """Whether a transaction is open."""
        return self._in_transaction

    def cursor(self) -> Cursor:
        """A new cursor (PEP 249). Raises InterfaceError where the connection is closed."""
        if not self.is_open:
            raise InterfaceError("the connection is closed")
        return Cursor(self)

    def begin(self) -> None:
        """Begins a transaction. Raises ProgrammingError (41) inside one."""
        self.send("begin")

    def commit(self) -> None:
        """Processes the rules and commits (PEP 249), where a transaction is open.

        Raises IntegrityError where a rule has rolled the transaction back.
        """
        self._need_open()
        if self._in_transaction:
            self.send("commit")

    def rollback(self) -> None:
        """Undoes the transaction (PEP 249), where one is open."""
        self._need_open()
        if self._in_transaction:
            self.send("rollback")

    def process_rules(self) -> Trace:
        """Processes all rules in the middle of the transaction, and gives what was considered."""
        return self._process("process rules")

    def process_ruleset(self, name: str) -> Trace:
        """Processes the rules of a ruleset."""
        return self._process(f"process ruleset {name}")

    def process_rule(self, name: str) -> Trace:
        """Processes one rule."""
        return self._process(f"process rule {name}")

    def close(self) -> None:
        """Ends the session (PEP 249). An open transaction is rolled back."""
        if self.is_open:
            try:
                self._wire.call("end")
            except errors.Error:
                pass  # it has gone, and its session with it
            self._wire.close()

    def __enter__(self) -> Connection:
        return self

    def __exit__(self, kind: object, error: object, trace: object) -> None:
        """Commits, or rolls back where an error goes through. The connection stays open."""
        if not self.is_open:
            return
        if kind is None:
            self.commit()
        else:
            self.rollback()

    def send(self, line: str) -> Reply:
        """Sends one command as it is, and gives its reply. Raises the error that a refusal is."""
        reply = self._wire.call(sendable(line))
        word = word_of(line)
        self._follow(word, reply)
        if isinstance(reply, No):
            raise errors.refusal(*reply)
        if isinstance(reply, RolledBack):
            raise errors.rolled_back(*reply)
        return reply

    def execute_line(self, line: str) -> Reply:
        """Sends one command in the transaction that it needs, or outside of one."""
        word = word_of(line)
        if word in _CATALOG and self._in_transaction and self._has_only_read:
            self.send("rollback")
        if word not in _WORK or self._in_transaction:
            return self.send(line)
        self.send("begin")
        self._has_only_read = True
        if not self.autocommit:
            return self.send(line)
        try:
            reply = self.send(line)
        except errors.Error:
            if self.is_open and self._in_transaction:
                self.send("rollback")
            raise
        self.send("commit")
        return reply

    def _process(self, line: str) -> Trace:
        self.execute_line(line)
        return self.considered

    def _need_open(self) -> None:
        if not self.is_open:
            raise InterfaceError("the connection is closed")

    def _follow(self, word: str, reply: Reply) -> None:
        """Whether a transaction is open behind this reply, and what was considered last."""
        if isinstance(reply, (Done, RolledBack)):
            self.considered = reply.considered
        if word == "begin" and isinstance(reply, Ok):
            self._in_transaction, self._has_only_read = True, False
        elif word in ("insert", "delete", "update", "process") and not isinstance(reply, No):
            self._has_only_read = False
        if word in ("commit", "rollback", "end") and isinstance(reply, (Ok, Done)):
            self._in_transaction = False
        if isinstance(reply, RolledBack) or isinstance(reply, No) and reply.number == _NO_MEMORY:
            self._in_transaction = False
        if word == "end" and isinstance(reply, Ok):
            self._wire.close()


def word_of(line: str) -> str:
    """The first word of a command."""
    match = _FIRST_WORD.match(line.lstrip(" "))
    return match[0] if match else ""


class Cursor:
    """A cursor (PEP 249). The rows of a select are all there at once, 4,096 at most."""

    def __init__(self, connection: Connection) -> None:
        self.connection = connection
        self.arraysize = 1
        self.description: Optional[Sequence[Column]] = None
        self.rowcount = -1
        self._rows: Optional[list[tuple[Value, ...]]] = None
        self._next = 0
        self._is_closed = False

    def execute(self, operation: str, parameters: Sequence[object] = ()) -> Cursor:
        """Sends a command (PEP 249): each `?` outside of quotes stands for a parameter, an int or a str.

        Raises what the server refuses as an error of PEP 249, and NotSupportedError, DataError or ProgrammingError
        where nothing can be sent.
        """
        self._need_open()
        self.description, self.rowcount, self._rows, self._next = None, -1, None, 0
        line = line_of(operation, parameters)
        reply = self.connection.execute_line(line)
        if isinstance(reply, Rows):
            self._rows = reply.rows
            self.rowcount = len(reply.rows)
            self.description = columns_of(line, reply.rows)
        elif isinstance(reply, Ok) and reply.count is not None:
            self.rowcount = reply.count
        return self

    def executemany(self, operation: str, rows: Iterable[Sequence[object]]) -> Cursor:
        """Sends the command once for each row of parameters (PEP 249); `rowcount` is their sum."""
        count = 0
        for parameters in rows:
            self.execute(operation, parameters)
            if self._rows is not None:
                raise ProgrammingError("executemany is for commands that give no rows")
            count += max(self.rowcount, 0)
        self.rowcount = count
        return self

    def fetchone(self) -> Optional[tuple[Value, ...]]:
        """The next row, or None behind the last one. Raises ProgrammingError where there was no select."""
        rows = self._selected()
        if self._next == len(rows):
            return None
        self._next += 1
        return rows[self._next - 1]

    def fetchmany(self, size: Optional[int] = None) -> list[tuple[Value, ...]]:
        """The next `size` rows, `arraysize` without it."""
        rows = self._selected()
        found = rows[self._next : self._next + (self.arraysize if size is None else size)]
        self._next += len(found)
        return found

    def fetchall(self) -> list[tuple[Value, ...]]:
        """The rows that are left."""
        return self.fetchmany(len(self._selected()))

    def __iter__(self) -> Iterator[tuple[Value, ...]]:
        return self

    def __next__(self) -> tuple[Value, ...]:
        row = self.fetchone()
        if row is None:
            raise StopIteration
        return row

    def setinputsizes(self, sizes: Any) -> None:
        """Does nothing, as PEP 249 allows."""

    def setoutputsize(self, size: Any, column: Any = None) -> None:
        """Does nothing, as PEP 249 allows."""

    def callproc(self, name: str, parameters: Sequence[object] = ()) -> None:
        """There are no stored procedures."""
        raise NotSupportedError("there are no stored procedures")

    def close(self) -> None:
        """Gives the rows up (PEP 249)."""
        self._rows = None
        self._is_closed = True

    def __enter__(self) -> Cursor:
        return self

    def __exit__(self, kind: object, error: object, trace: object) -> None:
        self.close()

    def _need_open(self) -> None:
        if self._is_closed:
            raise InterfaceError("the cursor is closed")
        if not self.connection.is_open:
            raise InterfaceError("the connection is closed")

    def _selected(self) -> list[tuple[Value, ...]]:
        self._need_open()
        if self._rows is None:
            raise ProgrammingError("no select was executed")
        return self._rows
