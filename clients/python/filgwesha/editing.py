"""How a line is edited at a terminal: history, and what Tab completes."""

from __future__ import annotations

import atexit
import os
from collections.abc import Callable, Iterable
from typing import Optional

HISTORY = "~/.filgwesha_history"
WORDS = """abort activate addrules alter and begin commit count create deactivate delete deleted delrules drop exists false
follows from if in insert inserted int into new-updated nopriority not old-updated on or order precedes process rollback
rule ruleset select set sum table text then update updated values when where""".split()
OWN = [r"\?", r"\d", r"\dump", r"\i", r"\q", r"\rules", r"\tables", r"\timing", r"\x"]
DELIMITERS = " \t\n,;()=<>+*'"


def completions(word: str, is_first: bool, names: Iterable[str]) -> list[str]:
    """What a word may become: a line of the shell's own, a word of the language, or a name of the tenant."""
    if word.startswith("\\"):
        return [own for own in OWN if is_first and own.startswith(word)]
    return sorted({choice for choice in (*WORDS, *names) if choice.startswith(word)})


def with_editing(names: Callable[[], Iterable[str]]) -> None:
    """Editing, history and completion, where the terminal has them."""
    try:
        import readline
    except ImportError:
        return
    path = os.path.expanduser(HISTORY)
    try:
        readline.read_history_file(path)
    except OSError:
        pass
    readline.set_history_length(2_000)
    atexit.register(lambda: _keep(readline, path))

    def complete(word: str, state: int) -> Optional[str]:
        found = completions(word, readline.get_begidx() == 0, names())
        return found[state] if state < len(found) else None

    readline.set_completer_delims(DELIMITERS)
    readline.set_completer(complete)
    readline.parse_and_bind("tab: complete")


def _keep(readline: object, path: str) -> None:
    try:
        readline.write_history_file(path)  # type: ignore[attr-defined]
    except OSError:
        pass
