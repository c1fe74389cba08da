"""What the server leaves out and a client can give: transactions that are tried again, and a tenant's sessions shared."""

from __future__ import annotations

import functools
import queue
import random
import time
from collections.abc import Iterator
from contextlib import contextmanager
from typing import Any, Callable, Optional, TypeVar

from . import errors
from .connection import SESSIONS, Connection, connect

Work = TypeVar("Work", bound=Callable[..., Any])


def retry_locked(tries: int, pause: float = 0.005) -> Callable[[Work], Work]:
    """Makes a function whose first argument is a connection a transaction that is tried again where a lock is taken.

    The function's statements are committed at its end. Where a table is locked, also inside a rule, the transaction is
    rolled back, and all of it tried again after a while that grows from `pause` seconds, `tries` times in all. Each try
    is a few entries of the tenant's trail. Raises the last Locked.
    """

    def around(work: Work) -> Work:
        @functools.wraps(work)
        def transaction(connection: Connection, *args: Any, **words: Any) -> Any:
            for attempt in range(tries):
                try:
                    with connection:
                        return work(connection, *args, **words)
                except errors.Locked:
                    if attempt + 1 == tries:
                        raise
                time.sleep(random.uniform(0, pause * 2 ** min(attempt, 10)))
            raise ValueError("it is tried once at least")

        return transaction  # type: ignore[return-value]

    return around


class Pool:
    """Some sessions of a tenant, for many threads: each has one at a time, and gives it back.

    A session that is lost is opened anew when it is asked for.
    """

    def __init__(
        self, host: str, port: int, tenant: int, size: int = SESSIONS, key: Optional[str] = None, timeout: Optional[float] = None
    ) -> None:
        if not 1 <= size <= SESSIONS:
            raise errors.ProgrammingError(f"a tenant has {SESSIONS} sessions")
        self._connect = functools.partial(connect, host, port, tenant, key=key, timeout=timeout)
        self._places: queue.LifoQueue[Optional[Connection]] = queue.LifoQueue()
        for _ in range(size):
            self._places.put(None)

    @contextmanager
    def connection(self, timeout: Optional[float] = None) -> Iterator[Connection]:
        """A session to work with: what is open at the end is committed, or rolled back where an error goes through.

        Waits for one where all are in use, `timeout` seconds at most. Raises OperationalError where none comes back.
        """
        try:
            held = self._places.get(timeout=timeout)
        except queue.Empty:
            raise errors.OperationalError("all sessions of the pool are in use") from None
        try:
            if held is None or not held.is_open:
                held = None
                held = self._connect()
            with held:
                yield held
        finally:
            self._places.put(held)

    def close(self) -> None:
        """Ends the sessions that are not in use."""
        while True:
            try:
                held = self._places.get_nowait()
            except queue.Empty:
                return
            if held is not None:
                held.close()
