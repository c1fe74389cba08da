"""How long something may take, and what is to hold."""

import sys
import time

# How long something may take on a busy machine, in seconds.
PATIENCE = 60


def fail(what):
    """Ends the test."""
    sys.exit(f"wrong: {what}")


def need(holds, what):
    """Ends the test where this doesn't hold."""
    if not holds:
        fail(what)


def expect(what, seen, wanted):
    """Ends the test where something else is seen than is wanted."""
    if seen != wanted:
        sys.exit(f"{what}: {seen!r} in place of {wanted!r}")


def until(what, holds, patience=PATIENCE):
    """Waits until this holds."""
    end = time.monotonic() + patience
    while not holds():
        need(time.monotonic() < end, f"not in {patience} s: {what}")
        time.sleep(0.01)


def tried(part, attempts, clean_up=lambda: None):
    """Does a part that has a bound on time, once with each of these lists of arguments, until it goes well. A busy machine
    may miss the bound, so each miss is told, and the last one ends the test."""
    *first, last = attempts
    for words in first:
        try:
            return part(*words)
        except (SystemExit, OSError) as missed:
            print(f"once more, since: {missed!r}")
            clean_up()
    return part(*last)
