"""Values as literals of the command language, and commands as one line of it."""

from __future__ import annotations

import re
from collections.abc import Iterator, Sequence
from typing import Union

from .errors import DataError, NotSupportedError, ProgrammingError

Value = Union[int, str]

LINE_LIMIT = 4096
"""The most bytes of a command."""

TEXT_LIMIT = 255
"""The most bytes of a text."""

_PARTS = re.compile(r"'(?:[^']|'')*'|[^']+|'")
_PRINTABLE = re.compile(r"[ -~]*")
_LITERAL = re.compile(r"'((?:[ -&(-~]|'')*)'|(0|-?[1-9][0-9]*)")


def literal(value: object) -> str:
    """The value as a literal. Raises DataError where no literal can hold it, NotSupportedError for another type."""
    if isinstance(value, int):
        if not -(2**63) <= value < 2**63:
            raise DataError(f"an integer has 64 bits: {value}")
        return str(int(value))
    if isinstance(value, str):
        if not _PRINTABLE.fullmatch(value):
            raise DataError(f"a text is made of printable ASCII: {value!r}")
        if len(value) > TEXT_LIMIT:
            raise DataError(f"a text has at most {TEXT_LIMIT} bytes, and not {len(value)}")
        return "'" + value.replace("'", "''") + "'"
    raise NotSupportedError(f"a value is an int or a str, and not {type(value).__name__}")


def parts(operation: str) -> Iterator[tuple[bool, str]]:
    """The texts in quotes, and what stands between them: whether it is in quotes, and the part."""
    for part in _PARTS.findall(operation):
        if part == "'":
            raise ProgrammingError("a quote isn't closed")
        yield part.startswith("'"), part


def line_of(operation: str, parameters: Sequence[object] = ()) -> str:
    """The command as one line: each `?` outside of quotes is a parameter's literal, line ends and tabs are spaces.

    Raises ProgrammingError where the parameters are too many or too few, or the line can't be sent.
    """
    values = [literal(value) for value in parameters]
    used = 0
    line = []
    for quoted, part in parts(operation):
        if quoted:
            line.append(part)
            continue
        pieces = re.sub(r"[\r\n\t]", " ", part).split("?")
        for place, piece in enumerate(pieces):
            if place > 0:
                if used == len(values):
                    raise ProgrammingError(f"the command has more than {used} places for parameters")
                line.append(values[used])
                used += 1
            line.append(piece)
    if used < len(values):
        raise ProgrammingError(f"the command has {used} places for {len(values)} parameters")
    return sendable("".join(line).strip(" "))


def sendable(line: str) -> str:
    """The line itself. Raises ProgrammingError where it isn't printable ASCII of at most 4,096 bytes."""
    if not _PRINTABLE.fullmatch(line):
        raise ProgrammingError("a command is made of printable ASCII")
    if len(line) > LINE_LIMIT:
        raise ProgrammingError(f"a command has at most {LINE_LIMIT} bytes, and not {len(line)}")
    return line


def values_of(row: str) -> tuple[Value, ...]:
    """The values of a row's line. Raises ValueError where it isn't one."""
    found: list[Value] = []
    at = 0
    while True:
        match = _LITERAL.match(row, at)
        if not match:
            raise ValueError(row)
        text, number = match.groups()
        found.append(text.replace("''", "'") if number is None else _integer(number))
        at = match.end()
        if at == len(row):
            return tuple(found)
        if row[at] != ",":
            raise ValueError(row)
        at += 1


def _integer(digits: str) -> int:
    value = int(digits)
    if not -(2**63) <= value < 2**63:
        raise ValueError(digits)
    return value
