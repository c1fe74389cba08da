"""The commands that docs/COMMANDS.md lists, for programs that have to know all of them."""

import re

from bench.harness import TOP

PAGE = TOP / "docs/COMMANDS.md"
TABLE = r"^## ([^\n]*)\n(?:(?!^## ).)*?^\| Command \|[^\n]*\n\|[-|]*\n((?:\|[^\n]*\n)+)"


def forms():
    """Each command's form, with the heading that it stands under: those of a table's first column."""
    tables = re.findall(TABLE, PAGE.read_text("ascii"), re.M | re.S)
    return [(heading, form) for heading, rows in tables for row in rows.splitlines() for form in re.findall(r"`([a-z][^`]*)`", row.split("|")[1])]


def works(form):
    """Whether it works in a transaction, where those that define what has a name are refused."""
    return form.split()[0] in ("insert", "delete", "update", "select", "process")


def definitions():
    """The first two words of each command that defines what has a name."""
    return {" ".join(form.split()[:2]) for heading, form in forms() if not heading.startswith("Sessions") and not works(form)}


def first_words():
    """The first word of each command but those that open a session, begin a transaction or end one of the two."""
    return {form.split()[0] for heading, form in forms() if not heading.startswith("Sessions")}
