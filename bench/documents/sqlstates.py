#!/usr/bin/env python3
"""Whether the table of crates/sb_postgres/README.md is that of the code: each SQLSTATE of src/told/sqlstate.rt there with
its name, and with the refusals that have it, in the order of the code.

    python3 -m bench.documents.sqlstates

It prints one line, before it the rows that differ, and fails where there is one."""

import re
import sys

from bench.harness import TOP

CODE = re.compile(r'SqlState::(\w+) => "(\w{5})"')
REFUSAL = re.compile(r"^ *Refusal::(\w+)(?:\(_\))?(?: if defines)? => SqlState::(\w+),", re.MULTILINE)
ROW = re.compile(r"^\| (\w{5}) \| (\w+) \| ([\w, ]*?) ?\|", re.MULTILINE)


def name_of(variant):
    """`SyntaxError` is `syntax_error`."""
    return re.sub(r"(?<!^)([A-Z])", r"_\1", variant).lower()


def rows_of_code(text):
    refusals = {}
    for refusal, variant in REFUSAL.findall(text):
        refusals.setdefault(variant, []).append(refusal)
    return [(code, name_of(variant), ", ".join(refusals.get(variant, []))) for variant, code in CODE.findall(text)]


def main():
    code = rows_of_code((TOP / "crates/sb_postgres/src/told/sqlstate.rt").read_text(encoding="utf-8"))
    page = ROW.findall((TOP / "crates/sb_postgres/README.md").read_text(encoding="utf-8"))
    differ = [f"only in the code: {row}" for row in code if row not in page] + [f"only on the page: {row}" for row in page if row not in code]
    if not differ and code != page:
        differ = ["the rows stand in another order"]
    for line in differ:
        print(line)
    print(f"{len(code)} SQLSTATEs, {len(differ)} differences")
    return 1 if differ or not code else 0


if __name__ == "__main__":
    sys.exit(main())
