#!/usr/bin/env python3
"""How long a step takes that has a budget: the dearest that are known, and what a search makes of them.

    python3 -m bench.tests.step_work [--work N] [--seconds N] [--seed N] [--table] [PROGRAM]

PROGRAM is crates/starhost/out/starhost where no word is given. A step is the last line of a script: a statement, or a
commit with the rules that it considers. The search changes a step at random, its tables, its condition or its rules, and
goes on from those that took longest. It looks for N seconds (40), and begins with what is known to be dear. The processor
time of the step counts. If one takes more than 1.5 seconds for each 2^26 units of work, it is printed, and this ends with
status 1. Where a loop of Python takes longer than on a processor of 2.5 GHz, a step may take as much longer. With --table
the dearest step is looked for at several budgets, and what is printed are rows of the table in docs/OPERATING.md.
"""

import argparse
import dataclasses
import glob
import os
import random
import select
import subprocess
import time

from bench.harness import BUILT, need

WORK = 2**26
SECONDS = 1.5
# seconds of `slowness`'s loop on a processor for which SECONDS holds
LOOP = 0.085
LINE = 4096 - len("0 0 ")
COMPARISONS = ("{0}.a={1}.b", "{0}.a<{1}.b", "{0}.c={1}.c", "{0}.c<{1}.c", "{0}.a+{1}.b*{0}.b<{1}.a", "{0}.a<>7")
SOURCES = ("t", "u", "one", "none")
KINDS = ("count", "sum", "rows", "delete", "update", "insert", "commit", "chain", "refill")


@dataclasses.dataclass(frozen=True)
class Step:
    """A script's tables, and its last line. A condition is a comparison (`aliases`, `form`), a chain of conditions with a
    connective between them, a `not`, or a subquery of one source."""

    kind: str = "count"
    rows: int = 1024
    others: int = 1024
    text: int = 255
    texts: int = 1
    differ: bool = False
    rules: int = 1
    condition: tuple = ("compare", 0, 1, 0)


# ---- what a step is written as


def condition_text(condition, scope):
    """A condition where these aliases are to be seen."""
    head, *rest = condition
    if head == "compare":
        first, second, form = rest
        return COMPARISONS[form % len(COMPARISONS)].format(scope[first % len(scope)], scope[second % len(scope)])
    if head in ("or", "and"):
        return "(" + f" {head} ".join(condition_text(part, scope) for part in rest) + ")"
    if head == "not":
        return f"not {condition_text(rest[0], scope)}"
    source, inner = rest
    alias = f"s{len(scope)}"
    where = f"{SOURCES[source % len(SOURCES)]} {alias} where {condition_text(inner, [*scope, alias])}"
    return f"exists(select*from {where})" if head == "exists" else f"{scope[-1]}.a in(select {alias}.b from {where})"


def last_lines(step):
    """What is said before the step's last line, and that line."""
    both, own = condition_text(step.condition, ["x", "y"]), condition_text(step.condition, ["t"])
    if step.kind in ("commit", "chain"):
        test = f" if select * from t x, inserted y where {both}" if step.kind == "commit" else f" if select * from t where {own}"
        then = "insert into u select * from one" if step.kind == "commit" else "update t set b = a, a = b"
        triggers = "inserted" if step.kind == "commit" else "inserted, updated"
        made = [f"create rule r{n} on t when {triggers}{test} then {then}" for n in range(step.rules)]
        return ["commit", *made, "begin", "insert into t select * from one"], "commit"
    if step.kind == "refill":
        actions = "; ".join(["update one set a = a + 1", *["insert into t select * from u", "delete from t"] * 3])
        return ["delete from t", "commit", f"create rule r on one when updated then {actions}", "begin", "update one set a = 0"], "commit"
    waits = [f"create rule r{n} on t when deleted, updated (c) then rollback" for n in range(step.rules)]
    line = {
        "count": f"select count(*) from t x, u y where {both}",
        "sum": f"select sum(x.a*x.b+y.b) from t x, u y where {both}",
        "rows": f"select x.c from t x, u y where {both}",
        "delete": f"delete from t where {own}",
        "update": f"update t set a = a + 1, b = b * a where {own}",
        "insert": f"insert into t select {', '.join(f'x.{name}' for name in columns(step))} from t x, u y where {both}",
    }[step.kind]
    return ["commit", *waits, "begin"], line


def columns(step):
    """The names of its tables' columns: two integers, and texts."""
    return ["a", "b", "c", "d", "e", "f", "g", "h"][: 2 + step.texts]


def value(step, number):
    text = "x" * max(1, step.text - 4) + (f"{number:04}" if step.differ else "same")
    return f"(7, {number}{f', {text[:255]!r}' * step.texts})"


def doubled(step, table, number, rows):
    """A table of as many rows, a power of two, from the one that is put in first."""
    texts = ", ".join(columns(step)[2:])
    more = [f"insert into {table} select a, b + {2**n}, {texts} from {table}" for n in range(rows.bit_length() - 1)]
    return [f"insert into {table} values {value(step, number)}", *more]


def script_of(step):
    """The lines before the last one, and the last one."""
    named = ", ".join(f"{name} {'int' if name in 'ab' else 'text'}" for name in columns(step))
    tables = [f"create table {name} ({named})" for name in SOURCES]
    filled = doubled(step, "t", 1, step.rows) + doubled(step, "u", 2, step.others) + doubled(step, "one", 3, 1)
    before, last = last_lines(step)
    return ["open", *tables, "begin", *filled, *before], last


# ---- a step is played


def processor_seconds(process):
    total = 0
    for name in glob.glob(f"/proc/{process.pid}/task/*/schedstat"):
        with open(name) as file:
            total += int(file.read().split()[0])
    return total / 1e9


def slowness():
    """How many times as long as there a loop takes here, and at least once."""
    taken = []
    for _time in range(7):
        begun, found = time.process_time(), 0
        for number in range(1_000_000):
            found ^= number * 7 & 1023
        taken.append(time.process_time() - begun)
    return max(1, min(taken) / LOOP)


def ask(process, lines, patience):
    """The replies to these lines, or None if they don't come in time. Another tenant's line tells that they are all there."""
    text = "".join(f"0 0 {line}\n" for line in lines) + "1 0 open\n1 0 end\n"
    process.stdin.write(text.encode())
    process.stdin.flush()
    told, end = b"", time.monotonic() + patience
    while not told.endswith(b"1 0 ok\n1 0 ok\n"):
        if not select.select([process.stdout], [], [], max(0, end - time.monotonic()))[0]:
            return None
        more = os.read(process.stdout.fileno(), 2**20)
        need(more, f"the program ended at {lines[-1]}")
        told += more
    return told.decode().splitlines()[:-2]


def play(program, work, step, patience=60):
    """The processor time of a step, and the first line of its reply; None if it can't be said in a line."""
    if not is_written(step):
        return None
    before, last = script_of(step)
    words = [program, "run", "--tenants", "2", *(["--step-work", str(work)] if work else [])]
    with subprocess.Popen(words, stdin=subprocess.PIPE, stdout=subprocess.PIPE, stderr=subprocess.DEVNULL) as process:
        try:
            need(ask(process, before, patience) is not None, f"not made in {patience} s: the tables of {last[:80]}")
            begun = processor_seconds(process)
            told = ask(process, [last], patience)
            return processor_seconds(process) - begun, told[0] if told else "no reply in time"
        finally:
            process.kill()


# ---- a step is changed


def any_condition(chance, depth=0):
    """A small condition; subqueries nest three deep."""
    head = chance.choice(("compare", "compare", "or", "and", "not", "exists", "in"))
    if head == "compare" or depth > 6:
        return ("compare", chance.randrange(4), chance.randrange(4), chance.randrange(len(COMPARISONS)))
    if head in ("or", "and"):
        return (head, any_condition(chance, depth + 1), any_condition(chance, depth + 1))
    if head == "not":
        return (head, any_condition(chance, depth + 1))
    return (head, chance.randrange(len(SOURCES)), any_condition(chance, depth + 3))


def changed_condition(chance, condition):
    """One part is replaced, said twice, or put into something."""
    head, *rest = condition
    parts = [at for at, part in enumerate(rest) if isinstance(part, tuple)]
    if parts and chance.random() < 0.7:
        at = chance.choice(parts)
        return (head, *rest[:at], changed_condition(chance, rest[at]), *rest[at + 1 :])
    way = chance.randrange(5)
    if way == 0:
        return any_condition(chance)
    if way == 1 and head in ("or", "and"):
        return (head, *rest, *rest)
    if way == 2:
        return (chance.choice(("or", "and")), condition, condition)
    if way == 3:
        return (chance.choice(("exists", "in")), chance.randrange(len(SOURCES)), condition)
    return (chance.choice(("or", "and")), condition, any_condition(chance))


def changed(chance, step):
    """A step that differs in one respect."""
    which = chance.choice(("kind", "rows", "others", "text", "texts", "differ", "rules") + 4 * ("condition",))
    new = {
        "kind": lambda: chance.choice(KINDS),
        "rows": lambda: 2 ** chance.randrange(13),
        "others": lambda: 2 ** chance.randrange(11),
        "text": lambda: chance.choice((1, 16, 255)),
        "texts": lambda: chance.randrange(1, 7),
        "differ": lambda: not step.differ,
        "rules": lambda: chance.choice((1, 2, 8, 64, 255)),
        "condition": lambda: changed_condition(chance, step.condition),
    }[which]()
    return dataclasses.replace(step, **{which: new})


def is_written(step):
    """True if its lines aren't too long."""
    before, last = script_of(step)
    return max(len(line) for line in (*before, last)) <= LINE


def longest(step, joint, part, around=lambda condition: condition):
    """The step whose condition has as many of these parts as its line has room for."""

    def of(count):
        return dataclasses.replace(step, condition=around((joint, *[part] * count)))

    count = 1
    while is_written(of(count + 1)):
        count += 1
    return of(count)


def known():
    """The dearest shapes that are known."""
    outward = ("compare", 2, 0, 0)
    for joint, part in (("or", ("compare", 0, 1, 3)), ("and", ("compare", 0, 1, 2))):
        yield longest(Step(), joint, part)
        for head in ("exists", "in"):
            yield longest(Step(), joint, part, lambda chain, head=head, joint=joint: (joint, chain, (head, 2, outward)))
            yield longest(Step(), joint, part, lambda chain, head=head: (head, 2, chain))
        yield longest(Step(kind="chain"), joint, part)
        yield longest(Step(kind="commit", rules=255), joint, part)
    yield Step(kind="sum")
    for texts in (1, 6):
        yield Step(kind="insert", rows=32, others=64, texts=texts, condition=("compare", 0, 0, 1))
        yield Step(kind="chain", rows=2048, texts=texts)
        yield Step(kind="refill", rows=1, others=2048, texts=texts)
    for rules in (1, 255):
        yield Step(kind="update", rows=4096, rules=rules)
        yield Step(kind="delete", rows=4096, rules=rules)
        yield Step(kind="chain", rows=2048, rules=rules)
        yield Step(kind="chain", rows=1, rules=rules)


# ---- the search


def within(program, work, step):
    """The step over as many rows as the budget allows, at most as many as it has, and how it was played."""
    while True:
        played = play(program, work, step)
        if played is None or not played[1].startswith("0 0 no 31 ") or max(step.rows, step.others) == 1:
            return step, played
        larger = "rows" if step.rows >= step.others else "others"
        step = dataclasses.replace(step, **{larger: getattr(step, larger) // 2})


def search(program, work, seconds, seed):
    """The dearest step that was found, and its time."""
    chance, end, found = random.Random(seed), time.monotonic() + seconds, []
    for shape in known():
        step, played = within(program, work, shape)
        need(played, f"no line can say {step.kind}")
        found.append((played[0], len(found), step, played[1]))
    while time.monotonic() < end:
        found = sorted(found, reverse=True)[:12]
        step, played = within(program, work, changed(chance, chance.choice(found)[2]))
        if played and played[0] > found[-1][0]:
            found.append((played[0], chance.random(), step, played[1]))
    _, _, step, _ = max(found)
    taken, reply = min(play(program, work, step) for _ in range(3))
    return taken, step, reply


def tell_table(program, given):
    print("| `--step-work` | seconds |\n|---|---|")
    for power in (20, 23, 26, 29, 32):
        work = min(2**power, 2**32 - 1)
        taken, step, reply = search(program, work, given.seconds, given.seed)
        print(f"| {work:,} | {taken:.2f} |   <!-- {step.kind}, {reply} -->", flush=True)


def main():
    words = argparse.ArgumentParser(description=__doc__, formatter_class=argparse.RawDescriptionHelpFormatter)
    words.add_argument("--work", type=int, default=WORK)
    words.add_argument("--seconds", type=float, default=40)
    words.add_argument("--seed", type=int, default=96)
    words.add_argument("--table", action="store_true")
    words.add_argument("program", nargs="?", default=BUILT)
    given = words.parse_args()
    if given.table:
        return tell_table(given.program, given)
    most = SECONDS * given.work / WORK * slowness()
    taken, step, reply = search(given.program, given.work, given.seconds, given.seed)
    need(taken <= most, f"{taken:.2f} s for {reply}: {script_of(step)}")
    print(f"the dearest step of {given.work:,} units of work: {taken:.2f} s, a {step.kind}")


if __name__ == "__main__":
    main()
