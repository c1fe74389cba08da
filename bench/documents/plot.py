#!/usr/bin/env python3
"""Draws docs/growth.svg from the tables of bench/documents/growth.md.

    python3 -m bench.documents.plot [--check]

A panel for each table: the size along the bottom, milliseconds upwards, both by powers, so a straight line that rises by one
decade a decade is time in proportion to the size. A column of the table is a line. With --check nothing is written, and the
status is 1 where the file isn't what would be written.
"""

import math
import re
import sys

from bench.harness import TOP

PAGE, PLOT = TOP / "bench/documents/growth.md", TOP / "docs/growth.svg"
WIDE, HIGH, ACROSS = 280, 220, 3
LEFT, RIGHT, ABOVE, BELOW = 48, 14, 34, 40
COLOURS = ("#0969da", "#9a6700", "#57606a")


def tables(text):
    """Title, names of columns, and rows of numbers of each table behind a title of the second rank."""
    for title, body in re.findall(r"^## (.*?)\n(.*?)(?=^## |\Z)", text, re.M | re.S):
        rows = [[cell.strip() for cell in line.strip("|").split("|")] for line in body.splitlines() if line.startswith("|")]
        yield title, rows[0], [[float(cell.replace(",", "")) for cell in row] for row in rows[2:]]


def ticks(low, high):
    """Powers of ten from one to the other, with what is twice and five times as large where they are few."""
    powers = range(math.floor(math.log10(low)), math.ceil(math.log10(high)) + 1)
    for factors in ((1,), (1, 3), (1, 2, 5)):
        found = [factor * 10.0**power for power in powers for factor in factors if low <= factor * 10.0**power <= high * 1.001]
        if len(found) >= 3:
            break
    return found


def number(value):
    return f"{value:,.0f}" if value >= 1 else f"{value:g}"


def panel(title, names, rows, at):
    """The parts of one panel, from its corner on."""
    x0, y0 = at % ACROSS * WIDE, at // ACROSS * HIGH
    sizes = [row[0] for row in rows]
    times = [time for row in rows for time in row[1:]]
    low, high = min(times) / 1.3, max(times) * 1.3

    def across(size):
        span = math.log(sizes[-1] / sizes[0])
        return x0 + LEFT + (WIDE - LEFT - RIGHT) * math.log(size / sizes[0]) / span

    def up(time):
        return y0 + HIGH - BELOW - (HIGH - ABOVE - BELOW) * math.log(time / low) / math.log(high / low)

    yield f'<text x="{x0 + LEFT}" y="{y0 + 18}" font-weight="bold">{title}</text>'
    yield f'<text class="small" x="{x0 + WIDE - RIGHT}" y="{y0 + HIGH - 8}" text-anchor="end">{names[0]}</text>'
    yield f'<text class="small" x="{x0 + 6}" y="{y0 + 18}">ms</text>'
    for time in ticks(low, high):
        yield f'<path class="grid" d="M{x0 + LEFT},{up(time):.1f} H{x0 + WIDE - RIGHT}"/>'
        yield f'<text class="small" x="{x0 + LEFT - 5}" y="{up(time) + 4:.1f}" text-anchor="end">{number(time)}</text>'
    for size in sizes:
        yield f'<text class="small" x="{across(size):.1f}" y="{y0 + HIGH - BELOW + 15}" text-anchor="middle">{number(size)}</text>'
    for column, name in enumerate(names[1:], 1):
        points = [(across(row[0]), up(row[column])) for row in rows]
        colour = COLOURS[column - 1]
        yield f'<path fill="none" stroke="{colour}" stroke-width="2" d="M{" L".join(f"{x:.1f},{y:.1f}" for x, y in points)}"/>'
        yield from (f'<circle cx="{x:.1f}" cy="{y:.1f}" r="3" fill="{colour}"/>' for x, y in points)


def picture(panels):
    names = dict.fromkeys(name for _title, columns, _rows in panels for name in columns[1:])
    rank = -(-(len(panels) + 1) // ACROSS)
    parts = [f'<rect width="{ACROSS * WIDE}" height="{rank * HIGH}" fill="#ffffff"/>']
    for at, (title, columns, rows) in enumerate(panels):
        parts += panel(title, columns, rows, at)
    x, y = len(panels) % ACROSS * WIDE + LEFT, len(panels) // ACROSS * HIGH + 60
    for at, name in enumerate(names):
        parts.append(f'<path stroke="{COLOURS[at]}" stroke-width="2" d="M{x},{y + 24 * at} h24"/>')
        parts.append(f'<text x="{x + 32}" y="{y + 24 * at + 5}">{name}</text>')
    parts.append(f'<text class="small" x="{x}" y="{y + 24 * len(names) + 10}">both scales by powers; lower is faster</text>')
    return (
        f'<svg xmlns="http://www.w3.org/2000/svg" viewBox="0 0 {ACROSS * WIDE} {rank * HIGH}" font-family="sans-serif" font-size="14">\n'
        "  <title>Time against size, from the tables of bench/documents/growth.md</title>\n"
        "  <style>.small { font-size: 12px; fill: #57606a; } .grid { stroke: #d0d7de; }</style>\n"
        + "".join(f"  {part}\n" for part in parts)
        + "</svg>\n"
    )


def main():
    if sys.argv[1:] not in ([], ["--check"]):
        sys.exit(__doc__)
    drawn = picture(list(tables(PAGE.read_text("utf-8"))))
    if not sys.argv[1:]:
        PLOT.write_text(drawn, "utf-8")
        return 0
    same = PLOT.exists() and PLOT.read_text("utf-8") == drawn
    print(f"docs/growth.svg: {'as the tables are' if same else 'not what bench/documents/plot.py draws of the tables'}")
    return 0 if same else 1


if __name__ == "__main__":
    sys.exit(main())
