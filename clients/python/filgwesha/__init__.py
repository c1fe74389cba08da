"""A driver for Filgwesha, a server for active databases, by DB-API 2.0 (PEP 249).

    connection = filgwesha.connect("127.0.0.1", 7411, tenant=3)
    cursor = connection.cursor()
    cursor.execute("insert into item values (?, ?)", (1, "a cook's knife"))
    connection.commit()
    print(connection.considered)

Values are ints of 64 bits and strs of printable ASCII of at most 255 bytes. `python3 -m filgwesha TENANT` is a shell.
"""

from __future__ import annotations

import datetime
from time import localtime

from .connection import Connection, Cursor, connect
from .description import BINARY, DATETIME, NUMBER, ROWID, STRING
from .errors import (
    Busy,
    DatabaseError,
    DataError,
    Error,
    IntegrityError,
    InterfaceError,
    InternalError,
    Locked,
    NotSupportedError,
    OperationalError,
    ProgrammingError,
    RolledBack,
    RolledBackByData,
    RolledBackByLimit,
    RolledBackByLock,
    RolledBackByRule,
    Trace,
    Warning,
)
from .pool import Pool, retry_locked

apilevel = "2.0"
threadsafety = 1
paramstyle = "qmark"

# PEP 249 asks for these. The language has no dates and no bytes, so what they make is refused as a parameter.
Date = datetime.date
Time = datetime.time
Timestamp = datetime.datetime
Binary = bytes


def DateFromTicks(ticks: float) -> datetime.date:
    """A date from seconds since the epoch (PEP 249)."""
    return Date(*localtime(ticks)[:3])


def TimeFromTicks(ticks: float) -> datetime.time:
    """A time of day from seconds since the epoch (PEP 249)."""
    return Time(*localtime(ticks)[3:6])


def TimestampFromTicks(ticks: float) -> datetime.datetime:
    """A time from seconds since the epoch (PEP 249)."""
    return Timestamp(*localtime(ticks)[:6])


__all__ = [
    "BINARY", "Binary", "Busy", "Connection", "Cursor", "DATETIME", "DataError", "DatabaseError", "Date", "DateFromTicks", "Error",
    "IntegrityError", "InterfaceError", "InternalError", "Locked", "NUMBER", "NotSupportedError", "OperationalError", "Pool",
    "ProgrammingError", "ROWID", "RolledBack", "RolledBackByData", "RolledBackByLimit", "RolledBackByLock", "RolledBackByRule",
    "STRING", "Time", "TimeFromTicks", "Timestamp", "TimestampFromTicks", "Trace", "Warning", "apilevel", "connect", "paramstyle",
    "retry_locked", "threadsafety",
]
