"""The protocol: a command is a line, and each line gets one reply."""

from __future__ import annotations

import re
import socket
from typing import NamedTuple, Optional, Union

from .errors import InterfaceError, OperationalError, Trace
from .literals import Value, values_of

NAME = r"[a-z_][a-z0-9_]{0,31}"

_COUNT = r"(0|[1-9][0-9]{0,9})"
_NO = re.compile(rf"no ([1-9][0-9]) ([A-Za-z]+)(?: ({NAME}))?")
_BY_RULE = re.compile(rf"rolledback rule ({NAME}) {_COUNT}")
_BY_ERROR = re.compile(rf"rolledback error ({NAME}) ([1-9][0-9]) ([A-Za-z]+) {_COUNT}")
_BY_LIMIT = re.compile(rf"rolledback limit {_COUNT}")
_CONSIDERED = re.compile(rf"({NAME}) (true|false|error)")


class Ok(NamedTuple):
    """`ok`, or `ok <count>` of an insert, a delete or an update."""

    count: Optional[int] = None


class Rows(NamedTuple):
    """`rows <n>` and n rows."""

    rows: list[tuple[Value, ...]]


class Done(NamedTuple):
    """`done <k>` and k considerations."""

    considered: Trace


class RolledBack(NamedTuple):
    """`rolledback rule|error|limit ..` and its considerations."""

    kind: str
    rule: Optional[str]
    number: Optional[int]
    name: Optional[str]
    considered: Trace


class No(NamedTuple):
    """`no <number> <name>`, with a table where it is Locked."""

    number: int
    name: str
    table: Optional[str]


Reply = Union[Ok, Rows, Done, RolledBack, No]


class Wire:
    """A connection's lines. What isn't a reply to the byte closes it: nothing is guessed."""

    def __init__(self, stream: socket.socket) -> None:
        self._socket: Optional[socket.socket] = stream
        self._file = stream.makefile("rb")

    @property
    def is_open(self) -> bool:
        return self._socket is not None

    def call(self, line: str) -> Reply:
        """Sends a line, and gives its reply. Raises OperationalError where the server has gone."""
        if self._socket is None:
            raise InterfaceError("the connection is closed")
        try:
            self._socket.sendall(line.encode("ascii") + b"\n")
            return self._reply()
        except OSError as error:
            self.close()
            raise OperationalError(f"the server has gone: {error}") from error
        except ValueError as error:
            self.close()
            raise InterfaceError(f"what came is no reply: {error}") from error
        except BaseException:
            # the reply is still to come, so the next one would be taken for it
            self.close()
            raise

    def close(self) -> None:
        if self._socket is not None:
            self._file.close()
            self._socket.close()
            self._socket = None

    def _line(self) -> str:
        line = self._file.readline()
        if not line.endswith(b"\n"):
            raise ConnectionError("it has closed the connection")
        return line[:-1].decode("ascii")

    def _reply(self) -> Reply:
        first = self._line()
        if first == "ok":
            return Ok()
        if match := re.fullmatch(rf"ok {_COUNT}", first):
            return Ok(int(match[1]))
        if match := re.fullmatch(rf"rows {_COUNT}", first):
            return Rows([values_of(self._line()) for _ in range(int(match[1]))])
        if match := re.fullmatch(rf"done {_COUNT}", first):
            return Done(self._trace(match[1]))
        if match := _NO.fullmatch(first):
            return No(int(match[1]), match[2], match[3])
        if match := _BY_RULE.fullmatch(first):
            return RolledBack("rule", match[1], None, None, self._trace(match[2]))
        if match := _BY_ERROR.fullmatch(first):
            return RolledBack("error", match[1], int(match[2]), match[3], self._trace(match[4]))
        if match := _BY_LIMIT.fullmatch(first):
            return RolledBack("limit", None, None, None, self._trace(match[1]))
        raise ValueError(first)

    def _trace(self, count: str) -> Trace:
        considered = []
        for _ in range(int(count)):
            line = self._line()
            match = _CONSIDERED.fullmatch(line)
            if not match:
                raise ValueError(line)
            considered.append((match[1], match[2]))
        return considered
