"""What can go wrong: the exceptions of DB-API 2.0 (PEP 249), with the server's refusals as their subclasses.

An error that the server told has its `number` and its `name`, as `10` and `"Syntax"`.
"""

from __future__ import annotations

from typing import Optional

Trace = list[tuple[str, str]]
"""The considerations of an assertion point in order: a rule's name, and `"true"`, `"false"` or `"error"`."""


class Warning(Exception):  # noqa: A001, PEP 249 names it so
    """PEP 249 asks for it. The server warns of nothing."""


class Error(Exception):
    """The base of all errors of this module."""

    number: Optional[int] = None
    name: Optional[str] = None


class InterfaceError(Error):
    """This module was used wrongly, or what came isn't a reply: the connection is closed then."""


class DatabaseError(Error):
    """The base of what has to do with the database."""


class DataError(DatabaseError):
    """30 Overflow, 31 TooBig, 32 TooManyRows; or a value that no literal can hold."""


class OperationalError(DatabaseError):
    """The server can't be reached, is out of memory or room, or another session is in the way."""


class IntegrityError(DatabaseError):
    """A rule has rolled the transaction back."""


class InternalError(DatabaseError):
    """PEP 249 asks for it. Nothing raises it."""


class ProgrammingError(DatabaseError):
    """The command is wrong, or comes at the wrong time."""


class NotSupportedError(DatabaseError):
    """The language has no such thing, as NULL or a date."""


class Locked(OperationalError):
    """40: another session of the tenant has the table. Nobody waits: roll back, and try again."""

    table: Optional[str] = None


class Busy(OperationalError):
    """43: another session has a transaction, and the command defines something. Try again."""


class RolledBack:
    """What an error has that ended its transaction at an assertion point."""

    rule: Optional[str] = None
    considered: Trace = []


class RolledBackByRule(RolledBack, IntegrityError):
    """A `rollback` action of the rule ran."""


class RolledBackByLimit(RolledBack, OperationalError):
    """A rule was still triggered after as many considerations as the server allows."""


class RolledBackByLock(RolledBack, Locked):
    """The rule's condition or an action of it found a table locked."""


class RolledBackByData(RolledBack, DataError):
    """The rule's condition or an action of it was refused as Overflow, TooBig or TooManyRows."""


def class_of(number: int) -> type[DatabaseError]:
    """The class of a refusal."""
    if number == 40:
        return Locked
    if number == 43:
        return Busy
    if 30 <= number <= 32:
        return DataError
    if number in (44, 45) or number >= 90:
        return OperationalError
    return ProgrammingError


def refusal(number: int, name: str, table: Optional[str] = None) -> DatabaseError:
    """The exception of the reply `no <number> <name>`, with its table where it is Locked."""
    error = class_of(number)(f"{number} {name}" + (f": {table}" if table else ""))
    error.number, error.name = number, name
    if isinstance(error, Locked):
        error.table = table
    return error


def rolled_back(kind: str, rule: Optional[str], number: Optional[int], name: Optional[str], considered: Trace) -> DatabaseError:
    """The exception of a reply `rolledback ..`: by a rule's action, by its refusal, or by the limit."""
    made: dict[str, type[DatabaseError]] = {"rule": RolledBackByRule, "limit": RolledBackByLimit}
    kinds = made.get(kind) or (RolledBackByLock if number == 40 else RolledBackByData)
    why = f"by rule {rule}" if kind == "rule" else f"rule {rule} was refused: {number} {name}" if kind == "error" else "too many considerations"
    error = kinds(f"rolled back: {why}")
    error.number, error.name = number, name
    assert isinstance(error, RolledBack)
    error.rule, error.considered = rule, considered
    return error
