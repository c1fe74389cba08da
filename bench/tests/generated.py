"""Lines of tenants that are made by chance."""

import random

COLUMNS = 4


def of_tenant(tenant, lines, session=0):
    return [f"{tenant} {session} {line}" for line in lines]


class Maker:
    """Generates the lines of one tenant. What it knows of the tenant is a guess: a refused line is as good as another."""

    def __init__(self, seed):
        self.dice = random.Random(seed)
        self.tables = {}
        self.rules = {}
        self.rulesets = set()
        self.count = 0

    def name(self, letter):
        self.count += 1
        return f"{letter}{self.count}"

    def value(self, kind):
        if kind == "int":
            return str(self.dice.choice([0, 1, -1, 7, 12, 99, 9223372036854775807, -9223372036854775808, self.dice.randrange(-1000, 1000)]))
        return "'" + self.dice.choice(["", "a", "it''s", "; --", "insert into", "x" * 40, "''" * 9, str(self.dice.randrange(30))]) + "'"

    def table(self):
        return self.dice.choice(sorted(self.tables)) if self.tables else "t0"

    def rule(self):
        return self.dice.choice(sorted(self.rules)) if self.rules else "r0"

    def ruleset(self):
        return self.dice.choice(sorted(self.rulesets)) if self.rulesets else "s0"

    def row(self, table):
        return "(" + ", ".join(self.value(kind) for kind in self.tables.get(table, ["int"])) + ")"

    def create_table(self):
        table = self.name("t")
        kinds = [self.dice.choice(["int", "int", "text"]) for _ in range(self.dice.randrange(1, COLUMNS + 1))]
        self.tables[table] = kinds
        return "create table " + table + " (" + ", ".join(f"c{i} {kind}" for i, kind in enumerate(kinds)) + ")"

    def condition(self, table, rule=False):
        kinds = self.tables.get(table, ["int"])
        place = self.dice.randrange(len(kinds))
        comparison = f"c{place} {self.dice.choice(['=', '<', '>', '<=', '<>'])} {self.value(kinds[place])}"
        other = self.table()
        return self.dice.choice([
            comparison,
            f"not ({comparison})",
            f"{comparison} or {comparison}",
            f"exists (select * from {other} as o where o.c0 = {table}.c0)" if not rule else comparison,
            f"(c{place} in (select c0 from {other}))",
        ])

    def change(self, table=None):
        table = table or self.table()
        kinds = self.tables.get(table, ["int"])
        place = self.dice.randrange(len(kinds))
        rows = ", ".join(self.row(table) for _ in range(self.dice.randrange(1, 6)))
        return self.dice.choice([
            f"insert into {table} values {rows}",
            f"insert into {table} values {rows}",
            f"delete from {table} where {self.condition(table)}",
            f"update {table} set c{place} = {self.value(kinds[place])} where {self.condition(table)}",
        ])

    def triggers(self):
        return self.dice.choice(["inserted", "deleted", "updated", "updated(c0)", "inserted, deleted", "inserted, updated(c0)"])

    def actions(self):
        return self.dice.choice(["rollback", self.change(), f"{self.change()}; {self.change()}", f"{self.change()}; rollback"])

    def create_rule(self):
        rule, table = self.name("r"), self.table()
        words = f"create rule {rule} on {table} when {self.triggers()}"
        if self.dice.random() < 0.6:
            words += f" if select * from {self.table()} where 1 = {self.dice.randrange(2)}"
        words += f" then {self.actions()}"
        if self.rules and self.dice.random() < 0.4:
            words += f" {self.dice.choice(['precedes', 'follows'])} {self.rule()}"
        self.rules[rule] = table
        return words

    def alter_rule(self):
        rule = self.rule()
        table = self.rules.get(rule, "t0")
        return f"alter rule {rule} " + self.dice.choice([
            f"if select count(*) from {table}",
            f"then {self.actions()}",
            f"if select * from {table} then {self.actions()}",
            f"precedes {self.rule()}",
            f"follows {self.rule()}",
            f"nopriority {self.rule()}",
        ])

    def drop_rule(self):
        rule = self.rule()
        self.rules.pop(rule, None)
        return f"drop rule {rule}"

    def drop_table(self):
        table = self.table()
        if table in self.rules.values():
            return f"select count(*) from {table}"
        self.tables.pop(table, None)
        return f"drop table {table}"

    def create_ruleset(self):
        ruleset = self.name("s")
        self.rulesets.add(ruleset)
        return f"create ruleset {ruleset}"

    def members(self):
        return f"alter ruleset {self.ruleset()} {self.dice.choice(['addrules', 'addrules', 'delrules'])} {self.rule()}, {self.rule()}"

    def definition(self):
        make = self.dice.choices(
            [self.create_table, self.create_rule, self.alter_rule, self.drop_rule, self.drop_table, self.create_ruleset, self.members,
             lambda: f"deactivate rule {self.rule()}", lambda: f"activate rule {self.rule()}", lambda: f"drop ruleset {self.ruleset()}"],
            [3, 5, 5, 2, 1, 1, 3, 2, 1, 0.3])[0]
        return make()

    def transaction(self):
        lines = ["begin"] + [self.change() for _ in range(self.dice.randrange(1, 6))]
        if self.rulesets and self.dice.random() < 0.3:
            lines.append(f"process ruleset {self.ruleset()}")
        return lines + [self.dice.choice(["commit", "commit", "commit", "rollback"])]

    def lines(self, count):
        out = ["open"]
        for _ in range(count):
            out += [self.definition()] if self.dice.random() < 0.5 else self.transaction()
        return out + ["end"]

    def tail(self):
        out = ["open"]
        for _ in range(12):
            out += self.transaction()
            out += ["begin", f"select * from {self.table()}", "commit"]
            if self.dice.random() < 0.5:
                out.append(self.definition())
        return out + [f"drop rule {self.rule()}", f"alter rule {self.rule()} nopriority {self.rule()}"] + self.transaction() + ["end"]
