"""The columns of a select's rows, as far as its items name them."""

from __future__ import annotations

import re
from collections.abc import Sequence
from typing import Any, Optional

from .literals import Value, parts

Column = tuple[str, Any, None, None, None, None, None]
"""A name, a type, and five parts of PEP 249 that the language hasn't."""


class _Type:
    """A type object of PEP 249, equal to the types that it stands for."""

    def __init__(self, name: str, *types: type) -> None:
        self.name = name
        self._types = types

    def __eq__(self, other: object) -> bool:
        return self is other or other in self._types

    def __hash__(self) -> int:
        return hash(self.name)

    def __repr__(self) -> str:
        return self.name


STRING = _Type("STRING", str)
NUMBER = _Type("NUMBER", int)
BINARY = _Type("BINARY")
DATETIME = _Type("DATETIME")
ROWID = _Type("ROWID")

_NAMED = re.compile(r"(?:[a-z_][a-z0-9_]*|old-updated|new-updated)\.([a-z_][a-z0-9_]*)|([a-z_][a-z0-9_]*)")


def columns_of(line: str, rows: Sequence[Sequence[Value]]) -> Sequence[Column]:
    """What PEP 249 calls the description: a column's own name, `count`, `sum`, or the expression's text.

    `*` names nothing: its columns are `column_1`, `column_2` .., or one `*` where no row tells how many they are.
    """
    names = names_of(line)
    if names == ["*"] and rows:
        names = [f"column_{place + 1}" for place in range(len(rows[0]))]
    return [(name, _type_of(place, rows), None, None, None, None, None) for place, name in enumerate(names)]


def names_of(line: str) -> list[str]:
    """The names of a select's items."""
    items = _items(line)
    if items == ["*"]:
        return items
    return [_name(item) for item in items]


def _items(line: str) -> list[str]:
    """The texts between `select` and the first `from`."""
    items = [""]
    for quoted, part in parts(line.strip(" ")[len("select") :]):
        if quoted:
            items[-1] += part
            continue
        before, ends, _ = _before_from(part)
        first, *others = before.split(",")
        items[-1] += first
        items.extend(others)
        if ends:
            break
    return [item.strip(" ") for item in items]


def _before_from(part: str) -> tuple[str, bool, str]:
    match = re.search(r"(?<![a-z0-9_.-])from(?![a-z0-9_])", part)
    return (part[: match.start()], True, part[match.end() :]) if match else (part, False, "")


def _name(item: str) -> str:
    match = _NAMED.fullmatch(item)
    if match:
        return match[1] or match[2]
    word = re.match(r"(count|sum) *\(", item)
    return word[1] if word else item


def _type_of(place: int, rows: Sequence[Sequence[Value]]) -> Optional[_Type]:
    if not rows:
        return None
    return NUMBER if isinstance(rows[0][place], int) else STRING
