#!/usr/bin/env python3
"""Looks at the status pages in a real browser.

    python3 -m bench.tests.pages [PROGRAM] [--shots FOLDER]

PROGRAM is crates/starhost/out/starhost where no word is given. The sessions of docs/TOUR.md that have rules are played on a
server, each by a tenant of its own, and some rules that trigger each other by another; and a headless Chromium draws the host's page and the pages of these tenants. What it
makes of them is checked: that the tables have what was played, that each rule has one box in the picture with its name in
it, that boxes stand apart and inside, that arrows begin and end at boxes, that cycles are red, and that the drawing has
something on it. The first thing that isn't as it is to be ends this with status 1. Where there is no Chromium, that is said,
and nothing is checked. With --shots the drawings stay in that folder.
"""

import argparse
import html.parser
import os
import re
import shutil
import struct
import subprocess
import tempfile
import zlib

from bench.harness import BUILT, Server, expect, more_lines, sessions_of

BROWSERS = ("chromium", "chromium-browser", "google-chrome")
# how long something may take on a busy machine, in seconds
PATIENCE = 120
# rules of which some trigger others, some on a cycle, with an order
CHAINED = """open
create table card (id int, balance int)
create table log (id int, was int)
create table total (was int)
create rule note on card when updated(balance) then insert into log select o.id, o.balance from old-updated o
create rule trim on log when inserted then delete from log where was < 0
create rule back on log when deleted then update card set balance = 0 where balance < 0
create rule tally on log when inserted then insert into total select was from inserted
create rule guard on card when inserted, deleted if select * from card where balance > 1000 then rollback
alter rule guard precedes note
alter rule trim precedes tally"""


def sessions():
    """The blocks of the tour that create rules, as lines of (tenant, session, command)."""
    blocks = [["open", *(command for command, _replies in rows)] for _section, _block, rows in sessions_of("docs/TOUR.md")]
    return [[["0", "0", command] for command in block] for block in blocks if any(command.startswith("create rule") for command in block)]


def rules_behind(block):
    """The rules that there are behind a block, in order of creation."""
    rules = []
    for _, _, command in block:
        verb, kind, name = (command.split() + ["", ""])[:3]
        if (verb, kind) == ("create", "rule"):
            rules.append(name)
        elif (verb, kind) == ("drop", "rule"):
            rules.remove(name)
    return rules


def play(server, tenant, lines):
    """Plays the lines of a block, whose tenants and sessions are sessions of this tenant."""
    clients = {}
    for at, session, command in lines:
        if command == "open":
            clients[at, session] = server.connect().makefile("rw")
            command = f"{tenant} {len(clients) - 1}"
        file = clients[at, session]
        file.write(f"{command}\n")
        file.flush()
        for _ in range(more_lines(file.readline())):
            file.readline()
    return clients


class Page(html.parser.HTMLParser):
    """What a browser made of a page: the rows of its tables, and the picture."""

    def __init__(self, text):
        super().__init__()
        self.rows, self.boxes, self.names, self.paths, self.svg, self.scripts = {}, [], [], [], None, 0
        self.heading, self.cell, self.of = "", None, None
        self.feed(text)

    def handle_starttag(self, tag, attributes):
        has = dict(attributes)
        if tag in ("h1", "h2"):
            self.heading, self.of = "", "heading"
        elif tag == "tr":
            self.rows.setdefault(self.heading, []).append([])
        elif tag in ("td", "th"):
            self.cell = ""
        elif tag == "svg":
            self.svg = [float(number) for number in has["viewbox"].split()]
        elif tag == "rect":
            self.boxes.append((has["class"], *(float(has[name]) for name in ("x", "y", "width", "height"))))
        elif tag == "text":
            self.names.append([has.get("class"), float(has["x"]), float(has["y"]), ""])
            self.of = "name"
        elif tag == "path" and "marker-end" in has:
            self.paths.append((has["class"], [float(number) for number in re.findall(r"-?[\d.]+", has["d"])]))
        elif tag == "script":
            self.scripts += 1

    def handle_endtag(self, tag):
        if tag in ("td", "th") and self.cell is not None:
            self.rows[self.heading][-1].append(self.cell)
            self.cell = None
        elif tag in ("h1", "h2", "text"):
            self.of = None

    def handle_data(self, data):
        if self.of == "heading":
            self.heading += data
        elif self.of == "name":
            self.names[-1][3] += data
        elif self.cell is not None:
            self.cell += data

    def body(self, heading):
        """The rows of a table without its head."""
        return self.rows.get(heading, [[]])[1:]


def browse(browser, folder, address, *words):
    base = [browser, "--headless", "--no-sandbox", "--disable-gpu", "--disable-dev-shm-usage", f"--user-data-dir={folder}/profile"]
    return subprocess.run([*base, *words, address], check=True, capture_output=True, timeout=PATIENCE).stdout


def page_of(browser, folder, address):
    """What a browser makes of a page. The status port lets a client go that is silent for half a second, as a browser may be
    on a busy machine: it looks again."""
    for _ in range(5):
        text = browse(browser, folder, address, "--dump-dom").decode()
        if "<title>Filgwesha" in text:
            break
    return Page(text)


def drawn(path):
    """How many kinds of rows of pixels a drawing has: a blank one has one."""
    with open(path, "rb") as file:
        data = file.read()
    expect("a drawing", data[:8], b"\x89PNG\r\n\x1a\n")
    width, height = struct.unpack(">II", data[16:24])
    at, packed = 8, b""
    while at < len(data):
        length, kind = struct.unpack(">I4s", data[at:at + 8])
        packed += data[at + 8:at + 8 + length] if kind == b"IDAT" else b""
        at += length + 12
    rows = zlib.decompress(packed)
    size = len(rows) // height
    return width, height, len({rows[i * size + 1:(i + 1) * size] for i in range(height)})


def touches(box, x, y):
    """Whether a point is at a box, or some pixels beside it."""
    _, left, top, width, height = box
    return left - 6 <= x <= left + width + 6 and top - 6 <= y <= top + height + 6


def check_picture(page, rules):
    left, top, width, height = page.svg
    expect("boxes", len(page.boxes), len(rules))
    for kind, x, y, w, h in page.boxes:
        expect("a box is in the picture", left <= x and x + w <= left + width and top <= y and y + h <= top + height, True)
    for i, (_, x, y, w, h) in enumerate(page.boxes):
        for _, u, v, s, t in page.boxes[:i]:
            expect("boxes stand apart", x + w <= u or u + s <= x or y + h <= v or v + t <= y, True)
    names = [name for name in page.names if name[0] != "word"]
    expect("names in the picture", sorted(name[3] for name in names), sorted(rules))
    for _, x, y, name in names:
        expect(f"{name} is in a box", sum(touches(box, x, y) for box in page.boxes), 1)
    for kind, points in page.paths:
        for x, y in (points[:2], points[-2:]):
            expect(f"an arrow's end at {x}, {y}", any(touches(box, x, y) for box in page.boxes), True)
    red = [box for box in page.boxes if "cycle" in box[0].split()]
    expect("words of cycles", sum(name[0] == "word" for name in page.names), len(red))
    expect("cycles have red arrows", any(kind == "loop" for kind, _ in page.paths), bool(red))


def main():
    words = argparse.ArgumentParser(description=__doc__, formatter_class=argparse.RawDescriptionHelpFormatter)
    words.add_argument("program", nargs="?", default=BUILT)
    words.add_argument("--shots")
    asked = words.parse_args()
    browser = next(filter(None, map(shutil.which, BROWSERS)), None)
    if browser is None:
        print("pages: there is no Chromium here, so nobody looked at them in a browser")
        return
    server, open_sessions = Server(os.path.abspath(asked.program), "--tenants", "64", "--status", "0"), []
    played = [*sessions(), [("0", "0", line) for line in CHAINED.splitlines()]]
    for tenant, lines in enumerate(played):
        open_sessions.append(play(server, tenant, lines))
    base, arrows, cycles = f"http://127.0.0.1:{server.status_port}", 0, 0
    with tempfile.TemporaryDirectory(ignore_cleanup_errors=True) as folder:
        shots = asked.shots or folder
        os.makedirs(shots, exist_ok=True)
        host = page_of(browser, folder, f"{base}/")
        expect("tenants", [row[0] for row in host.body("Tenants")], [str(tenant) for tenant in range(len(played))])
        expect("workers", [row[0] for row in host.body("Workers")], ["0", "1", "2", "3", "door"])
        lines = sum(int(row[3]) for row in host.body("Workers"))
        expect("lines", lines, sum(command != "open" for block in played for _, _, command in block))
        expect("slowest lines", len(host.body("Slowest lines so far")), 10)
        for tenant, block in enumerate(played):
            page = page_of(browser, folder, f"{base}/tenants/{tenant}")
            rules = [row[0] for row in page.body("Rules")]
            expect(f"rules of tenant {tenant}", rules, rules_behind(block))
            expect("scripts", page.scripts, 0)
            if rules:
                check_picture(page, rules)
            arrows += len(page.paths)
            cycles += any("cycle" in box[0].split() for box in page.boxes)
        for name, path in (("host", "/"), *((f"tenant-{tenant}", f"/tenants/{tenant}") for tenant in range(len(played) if asked.shots else 1))):
            file = os.path.join(shots, f"{name}.png")
            browse(browser, folder, f"{base}{path}", "--window-size=1300,1500", f"--screenshot={file}")
            width, height, kinds = drawn(file)
            expect(f"a drawing of {path}", (width, height, kinds > 100), (1300, 1500, True))
    expect("arrows", (arrows, cycles), (7, 1))
    for clients in open_sessions:
        for file in clients.values():
            file.close()
    server.end_well()
    print(f"pages: {len(played)} tenants in {os.path.basename(browser)}: their rules have boxes that stand apart, {arrows} arrows, {cycles} with a cycle")


if __name__ == "__main__":
    main()
