#!/usr/bin/env python3
"""Draws the pictures of the documents: docs/parts.svg and docs/transaction.svg.

    python3 -m bench.documents.pictures [--check]

The first has the parts of a server, the second the life of a transaction, with the example of README. Their colours are
those of a light or a dark page. With --check nothing is written, and the status is 1 where a file isn't what would be
written.
"""

import sys

from bench.harness import TOP

STYLE = """\
  <style>
    .ground { fill: #ffffff; }
    text { fill: #1f2328; }
    .box { fill: #f6f8fa; stroke: #57606a; }
    .if { fill: #ffffff; stroke: #57606a; stroke-dasharray: 5 4; }
    .cell { fill: #ddf4ff; stroke: #0969da; }
    .tenant { fill: #ffffff; stroke: #0969da; }
    .shared { fill: #fff8c5; stroke: #9a6700; }
    .line { stroke: #57606a; fill: none; marker-end: url(#tip); }
    .tip { fill: #57606a; }
    .dashed { stroke-dasharray: 5 4; }
    .small { font-size: 12px; fill: #57606a; }
    .code { font-family: monospace; font-size: 12px; }
    @media (prefers-color-scheme: dark) {
      .ground { fill: #0d1117; }
      text { fill: #e6edf3; }
      .box { fill: #161b22; stroke: #8b949e; }
      .if { fill: #0d1117; stroke: #8b949e; }
      .cell { fill: #0c2d6b; stroke: #58a6ff; }
      .tenant { fill: #0d1117; stroke: #58a6ff; }
      .shared { fill: #341a00; stroke: #d29922; }
      .line { stroke: #8b949e; }
      .tip { fill: #8b949e; }
      .small { fill: #8b949e; }
    }
  </style>
  <defs>
    <marker id="tip" viewBox="0 0 8 8" refX="7" refY="4" markerWidth="7" markerHeight="7" orient="auto">
      <path class="tip" d="M0,0 L8,4 L0,8 z"/>
    </marker>
  </defs>
"""


class Picture:
    """A picture of so many units, with a title."""

    def __init__(self, wide, high, title):
        self.wide, self.high, self.title, self.parts = wide, high, title, []

    def text(self, x, y, text, kind=None, bold=False):
        kinds = f' class="{kind}"' if kind else ""
        weight = ' font-weight="bold"' if bold else ""
        text = text.replace("&", "&amp;").replace("<", "&lt;")
        self.parts.append(f'<text{kinds} x="{x}" y="{y}"{weight}>{text}</text>')

    def box(self, x, y, wide, high, lines=(), kind="box"):
        """A box with lines: a text, or a text and its kind."""
        self.parts.append(f'<rect class="{kind}" x="{x}" y="{y}" width="{wide}" height="{high}" rx="5"/>')
        for at, line in enumerate(lines):
            text, own = line if isinstance(line, tuple) else (line, None)
            self.text(x + 12, y + 22 + 18 * at, text, own)

    def arrow(self, path, kind="line"):
        self.parts.append(f'<path class="{kind}" d="{path}"/>')

    def drawn(self):
        head = f'<svg xmlns="http://www.w3.org/2000/svg" viewBox="0 0 {self.wide} {self.high}" font-family="sans-serif" font-size="14">\n'
        ground = f'  <rect class="ground" width="{self.wide}" height="{self.high}"/>\n'
        return head + f"  <title>{self.title}</title>\n" + STYLE + ground + "".join(f"  {part}\n" for part in self.parts) + "</svg>\n"


def parts_of_a_server():
    to = Picture(880, 470, "The parts of a server: clients, the door, workers, cells, tenants, the journal, the status port")
    for x, head in ((20, "clients"), (180, "the door"), (376, "workers"), (566, "cells, each behind a lock")):
        to.text(x, 30, head, bold=True)
    for y, tenant in ((52, 0), (122, 4), (202, 1), (272, 5)):
        to.box(20, y, 104, 34, [f"tenant {tenant}"])
    to.box(20, 386, 104, 48, [("a browser,", "small"), ("Prometheus", "small")], "if")
    to.box(180, 122, 136, 114, ["accepts, reads", "the first line,", "hands over to its", "worker"])
    to.box(180, 386, 136, 48, ["the status port", ("with --status", "small")], "if")
    for y, worker in ((82, 0), (280, 1)):
        to.box(376, y, 124, 56, [f"worker {worker}", ("its connections", "small")])
    to.box(376, 176, 124, 66, ["the journal", ("with --journal:", "small"), ("before replies", "small")], "if")
    for y, cell, tenants in ((48, 0, (0, 4)), (224, 1, (1, 5))):
        to.box(566, y, 296, 150, [f"cell {cell}"], "cell")
        for x, tenant in zip((580, 720), tenants):
            to.box(x, y + 34, 128, 48, [f"tenant {tenant}", ("tables, rules, trail", "small")], "tenant")
        to.box(580, y + 92, 268, 48, ["one change log, one rule index", ("for both; the log over raw memory", "small")], "shared")
    for path in ("M124,69 L178,150", "M124,139 L178,168", "M124,219 L178,190", "M124,289 L178,212", "M316,160 L374,116", "M316,200 L374,298"):
        to.arrow(path)
    for path in ("M500,110 L564,110", "M500,308 L564,308"):
        to.arrow(path)
    for path in ("M438,138 L438,174", "M438,280 L438,244", "M124,408 L178,408", "M316,408 L714,408 L714,376"):
        to.arrow(path, "line dashed")
    told = "Two cells of a server. What is proved of a cell: a tenant of it that never ran out of memory is answered as by an engine that it has for itself."
    to.text(20, 458, told, "small")
    return to.drawn()


def life_of_a_transaction():
    to = Picture(880, 400, "The life of a transaction: begin, statements, net effect, consideration of rules, commit")
    for x, head in ((20, "begin, statements"), (266, "commit: net effect"), (480, "consideration"), (706, "end")):
        to.text(x, 30, head, bold=True)
    lines = ["begin", "update card .. id = 1", "update card .. id = 1", "update card .. id = 2", "update card .. id = 2", "commit"]
    to.box(20, 48, 196, 126, [(line, "code") for line in lines])
    to.box(20, 206, 196, 112, ["change log", ("card 1: 100 to 70", "code"), ("card 1: 70 to 100", "code"), ("card 2: 50 to 60", "code"), ("card 2: 60 to 80", "code")], "shared")
    to.box(266, 48, 164, 92, ["card 1: nothing", "card 2: 50 to 80", ("the first change and", "small"), ("the last one count", "small")], "cell")
    to.box(266, 206, 164, 112, ["triggered", ("rules whose triggers", "small"), ("meet the net effect", "small"), ("since their last", "small"), ("consideration", "small")], "cell")
    to.box(480, 48, 186, 92, ["the first rule in order", ("by precedes and follows:", "small"), ("note", "code"), ("its condition: true", "small")])
    to.box(480, 206, 186, 112, ["its action", ("insert into log", "code"), ("2, 50, 80", "code"), ("is in the change log,", "small"), ("and may trigger rules", "small")])
    to.box(706, 48, 156, 92, ["done 1, note true", ("no rule is triggered:", "small"), ("locks are released,", "small"), ("changes are forgotten", "small")])
    to.box(706, 206, 156, 112, ["rolledback ..", ("a rule's rollback, an", "small"), ("error, or too many", "small"), ("considerations: all", "small"), ("changes are undone", "small")], "if")
    to.arrow("M118,174 L118,204")
    to.arrow("M216,240 L240,240 L240,94 L264,94")
    to.arrow("M348,140 L348,204")
    to.arrow("M430,240 L454,240 L454,94 L478,94")
    to.arrow("M573,140 L573,204")
    to.arrow("M573,318 L573,346 L348,346 L348,320", "line dashed")
    to.arrow("M666,262 L704,262", "line dashed")
    to.arrow("M392,206 L392,178 L686,178 L686,94 L704,94", "line dashed")
    to.text(366, 366, "again, until no rule is triggered, or as often as --bound allows", "small")
    to.text(20, 388, "The example of README. The session may have rules considered sooner, by process; an assertion point is a process or a commit.", "small")
    return to.drawn()


PICTURES = {"docs/parts.svg": parts_of_a_server, "docs/transaction.svg": life_of_a_transaction}


def main():
    if sys.argv[1:] not in ([], ["--check"]):
        sys.exit(__doc__)
    status = 0
    for name, draw in PICTURES.items():
        path = TOP / name
        if not sys.argv[1:]:
            path.write_text(draw(), "utf-8")
            continue
        same = path.exists() and path.read_text("utf-8") == draw()
        print(f"{name}: {'as' if same else 'not'} what bench/documents/pictures.py draws")
        status |= not same
    return status


if __name__ == "__main__":
    sys.exit(main())
