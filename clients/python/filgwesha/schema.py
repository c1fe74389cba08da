"""The tables, columns and rules of a tenant, as its script has them."""

from __future__ import annotations

import re
from dataclasses import dataclass, field

_TABLE = re.compile(r"create table ([a-z_][a-z0-9_]*) \((.*)\)")
_RULE = re.compile(r"create rule ([a-z_][a-z0-9_]*) on ([a-z_][a-z0-9_]*) ")
_RULESET = re.compile(r"create ruleset ([a-z_][a-z0-9_]*)")


@dataclass
class Schema:
    """What has a name in a tenant."""

    tables: dict[str, list[str]] = field(default_factory=dict)
    """The columns of each table, each a name and a type."""
    rules: dict[str, list[str]] = field(default_factory=dict)
    """The lines of each table's rules."""
    names: set[str] = field(default_factory=set)
    """All names: of tables, columns, rules and rulesets."""

    def columns(self, table: str) -> list[str]:
        """The names of a table's columns."""
        return [column.split(" ")[0] for column in self.tables.get(table, [])]


def schema_of(script: str) -> Schema:
    """What a tenant's script defines."""
    schema = Schema()
    for line in script.splitlines():
        if found := _TABLE.fullmatch(line):
            schema.tables[found[1]] = [column.strip() for column in found[2].split(",")]
            schema.names |= {found[1], *schema.columns(found[1])}
        elif found := _RULE.match(line):
            schema.rules.setdefault(found[2], []).append(line)
            schema.names.add(found[1])
        elif found := _RULESET.match(line):
            schema.names.add(found[1])
    return schema
