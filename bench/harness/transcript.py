"""Sessions as pages print them: each command with its reply to the right of it."""

import re

from bench.harness.program import TOP

BLOCK = re.compile(r"^```(\w*)\n(.*?)^```$", re.M | re.S)
COMMAND = re.compile(r"(.*?) {3,}(\S.*)")


def blocks_of(page):
    """The blocks of a page: what kind, and the text."""
    return BLOCK.findall((TOP / page).read_text("utf-8"))


def transcript_of(block):
    """The commands of a block, each with the lines of its reply. A comma, colon or semicolon with a blank behind it parts
    these. A line that begins with blanks goes on with the line above it, or is its reply. Nothing if a command has none."""
    rows = []
    for line in block.splitlines():
        if line.startswith(" ") and rows:
            rows[-1] += ("   " if line.startswith(" " * 30) else " ") + line.strip()
        else:
            rows.append(line)
    pairs = [COMMAND.fullmatch(row) for row in rows]
    return [(pair[1], re.split("[,:;] ", pair[2])) for pair in pairs] if all(pairs) else []


def sessions_of(page):
    """The sections of a page that are a session, each with the name of its file in examples/, its block, and the session.
    The session's `open` isn't on the page."""
    found = []
    for section in re.split("^## ", (TOP / page).read_text("utf-8"), flags=re.M)[1:]:
        title = section.split("\n", 1)[0]
        numbered = re.match(r"(\d+)\. ", title)
        name = numbered[1] if numbered else re.sub(r"\W+", "_", title.lower()).strip("_")
        blocks = [block for kind, block in BLOCK.findall(section) if not kind]
        found += [(name, block, transcript_of(block)) for block in blocks if transcript_of(block)]
    return found
