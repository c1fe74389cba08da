"""Rows as text: aligned under their headings, or one value a line."""

from __future__ import annotations

from collections.abc import Sequence

from .literals import Value


def table(names: Sequence[str], rows: Sequence[Sequence[Value]]) -> str:
    """Rows under their headings: integers to the right, texts to the left."""
    texts = [[str(value) for value in row] for row in rows]
    widths = [max([len(name), *(len(row[place]) for row in texts)]) for place, name in enumerate(names)]
    lines = [" | ".join(name.center(width) for name, width in zip(names, widths)), "-+-".join("-" * width for width in widths)]
    for row, cells in zip(rows, texts):
        lines.append(" | ".join(_cell(value, text, width) for value, text, width in zip(row, cells, widths)))
    return "\n".join(line.rstrip() for line in lines) + f"\n{_count(len(rows))}"


def expanded(names: Sequence[str], rows: Sequence[Sequence[Value]]) -> str:
    """One value a line, behind its heading."""
    width = max((len(name) for name in names), default=0)
    lines = []
    for number, row in enumerate(rows):
        lines.append(f"-[ row {number + 1} ]-")
        lines.extend(f"{name.ljust(width)} | {value}".rstrip() for name, value in zip(names, row))
    return "\n".join([*lines, _count(len(rows))])


def _cell(value: Value, text: str, width: int) -> str:
    return text.rjust(width) if isinstance(value, int) else text.ljust(width)


def _count(rows: int) -> str:
    return f"({rows} row{'' if rows == 1 else 's'})"
