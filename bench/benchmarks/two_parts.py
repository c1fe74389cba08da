#!/usr/bin/env python3
"""two_parts.py PROGRAM ..: long conditions beside a subquery or an `in`, or within one, on each program by turns in one run.

Prints for each statement the least time of the runs of each program (the whole run less one without the statement), and
the answers.
"""
import subprocess
import sys
import time

LIMIT = 4096 - len("0 0 ")


def filled(name, columns, make, count):
    lines = [f"insert into {name} values " + ", ".join(make(i) for i in range(k, min(k + 32, count))) for k in range(0, count, 32)]
    return [f"create table {name} ({columns})"], lines


MADE, FILLED = [], []
for made, lines in (
    filled("t", "a int, c text", lambda i: f"({i}, 'text {i % 97}')", 1024),
    filled("u", "b int, d text", lambda i: f"({(i * 7) % 1024}, 'text {i % 89}')", 512),
    filled("e", "k int", lambda i: f"({i + 5})", 1),
    filled("n", "k int", lambda i: "", 0),
):
    MADE += made
    FILLED += lines
HEAD = ["open"] + MADE + ["begin"] + FILLED


def long(head, one, joint, tail, at_end=True):
    """As many comparisons as a line has room for, and the tail behind or before them."""
    room = LIMIT - len(head) - len(tail) - len(joint) - 2
    count = room // (len(one) + len(joint))
    chain = joint.join([one] * count)
    text = f"{head}{chain}{joint}{tail}" if at_end else f"{head}{tail}{joint}{chain}"
    return text, count


COUNTED = "select count(*)from t,u"


def statements():
    for name, joint, one in (("or", " or ", "c='a'"), ("and", " and ", "c<'z'")):
        for what, tail in (
            ("alone", one),
            ("exists over one row", "exists(select*from e where k=a)"),
            ("exists over none", "exists(select*from n where k=a)"),
            ("in", "a in(select k from e)"),
            ("not in", "not a in(select k from e)"),
        ):
            for end in (True, False):
                if what == "alone" and not end:
                    continue
                text, count = long(f"{COUNTED} where ", one, joint, tail, end)
                yield f"{count} {name}, {what}{'' if end else ' first'}", text
        text, count = long(f"{COUNTED} where exists(select*from e where ", one, joint, "k=a)")
        yield f"{count} {name}, within an exists", text


def run(program, lines):
    text = "".join(f"0 0 {line}\n" for line in lines).encode()
    begun = time.perf_counter()
    told = subprocess.run([program], input=text, stdout=subprocess.PIPE, stderr=subprocess.DEVNULL).stdout
    return time.perf_counter() - begun, told.decode(errors="replace").strip().split("\n")[-1]


programs = sys.argv[1:]
empty = {program: min(run(program, HEAD)[0] for _ in range(2)) for program in programs}
print({program: round(took, 3) for program, took in empty.items()})
for name, text in statements():
    assert len(text) <= LIMIT, (name, len(text))
    found = []
    for program in programs:
        took, answer = run(program, HEAD + [text])
        found.append(f"{took - empty[program]:9.3f} s {answer}")
    print(f"{name:40} {'   '.join(found)}", flush=True)
