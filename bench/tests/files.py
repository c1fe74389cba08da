#!/usr/bin/env python3
"""Tries what writes tenants to files, and what reads them: a server, a dump of all, and a run.

    python3 -m bench.tests.files [PROGRAM] [--tenants N] [--seed N]

PROGRAM is crates/starhost/out/starhost where no word is given. N tenants (24, or so many as are asked for) are made by
generated lines over connections to a server that writes them to a folder when it stops. Each file has to be the script
that `dump` writes of the same lines. A server that reads the folder answers a tail of generated lines as `run` does behind
the first ones, and writes the same files. Then what goes wrong: a line that isn't a script's, a file that can't be read,
folders that aren't there, a file that may have so many bytes and no more, and a server that is killed while it writes:
there is never a part of a file under its name. A link under
that name isn't followed, and a second process is refused on the folder. The same of `dump --into` and `run --load`: each tenant that the input
opened is written, but one with a transaction, and a run on the files answers as one that goes on. The first thing that isn't as it is to be ends this with status 1.
"""

import argparse
import os
import subprocess
import tempfile
import time

from bench.harness import BUILT, Server, fail, file_size, run
from bench.tests.generated import Maker, of_tenant

FIRST = 700


def served(program, words, limit=None):
    """A server whose tenants begin at another number than 0."""
    return Server(program, "--first-tenant", str(FIRST), *words, bytes_of_files=limit)


def told_to(server, tenant, lines):
    """All replies to the lines, in a session of the tenant."""
    return server.ask("".join(f"{line}\n" for line in [f"{FIRST + tenant} 0", *lines])).splitlines()


def told_alone(program, lines):
    """What `run` answers, without the numbers."""
    return [line.split(" ", 2)[2] for line in run(program, "run", of_tenant(0, lines))[1].splitlines()]


def files_in(folder):
    out = {}
    for name in sorted(os.listdir(folder)):
        with open(os.path.join(folder, name), encoding="ascii") as file:
            out[name] = file.read()
    return out


def fault_of(ended):
    """The last line of standard error, and the log's lines before it."""
    status, _, errors = ended
    *log, last = errors.splitlines()
    return status, last, "\n".join(log)


def are_kept(program, tenants, seed, room):
    """All tenants are written, read, go on as if they had never been away, and are written again."""
    first, second = os.path.join(room, "first"), os.path.join(room, "second")
    os.mkdir(first)
    os.mkdir(second)
    makers = [Maker(seed * 1000 + tenant) for tenant in range(tenants)]
    # a session is opened and ended by its connection
    lines = [maker.lines(20)[1:-1] for maker in makers]
    server = served(program, ["--dump-to", first])
    for tenant in range(tenants):
        told_to(server, tenant, lines[tenant])
    ended = server.end()
    if ended[0] != 0 or not ended[1].startswith("trails 16 steps "):
        fail(f"a server that writes: {ended}")
    wanted = {f"{FIRST + t}.lines": run(program, "dump", of_tenant(0, ["open", *lines[t]]))[1] for t in range(tenants)}
    if files_in(first) != wanted:
        fail("the files aren't the scripts")
    with open(os.path.join(first, "notes"), "w", encoding="ascii") as file:
        file.write("left alone\n")
    server = served(program, ["--load", first, "--dump-to", second])
    ended = server.end()
    if ended[0] != 0 or files_in(second) != wanted:
        fail(f"a server that reads and writes: {ended}")
    server = served(program, ["--load", first])
    for tenant in range(tenants):
        tail = makers[tenant].tail()[1:-1]
        told = told_to(server, tenant, tail)
        whole = told_alone(program, ["open", *lines[tenant], "end", "open", *tail])
        if told[1:] != whole[len(whole) - len(told) + 1:]:
            fail(f"tenant {tenant} goes on otherwise: {told}")
    ended = server.end()
    if ended[0] != 0:
        fail(f"a server that reads: {ended}")
    return sum(len(text) for text in wanted.values())


def tells_folder(ended, path):
    """Whether the log says why there is no folder at this path."""
    return f"no folder {path}: " + ("it is a file" if path == __file__ else "") in ended[2]


def loads_fail(program, room):
    folder = os.path.join(room, "bad")
    os.mkdir(folder)
    for kind, number in [("serve", FIRST), ("run", 0)]:
        a_load_fails(program, kind, folder, number + 5)
    for words in (["--load", folder + "/none"], ["--dump-to", folder + "/none"], ["--load", __file__], ["--dump-to", __file__]):
        ended = served(program, words).end()
        if fault_of(ended)[:2] != (1, "fault: no folder") or ended[1] or not tells_folder(ended, words[1]):
            fail(f"{words}: {ended}")
    for words in (f"run --load {folder}/none", f"run --load {__file__}", f"dump --into {folder}/none", f"dump --into {__file__}"):
        ended = run(program, words, ["0 0 open"])
        if fault_of(ended)[:2] != (1, "fault: no folder") or ended[1] or not tells_folder(ended, words.split()[-1]):
            fail(f"{words}: {ended}")


def a_load_fails(program, kind, folder, number):
    """A server or a run on a folder whose one file is bad."""

    def ended():
        return served(program, ["--load", folder]).end() if kind == "serve" else run(program, f"run --load {folder}", ["0 0 open"])

    path = os.path.join(folder, f"{number}.lines")
    bad = [("create table t (a int)\nnonsense\n", "line 2 is answered no 10 Syntax"), ("x" * 5000 + "\n", "line 1 is answered nothing")]
    bad += [("begin\ninsert into t values (1)\n", "line 2 is answered no "), ("\n", "line 1 is answered no 10 Syntax")]
    bad += [("create table t (a int)\nbegin\n", "it stops inside a transaction"), ("create table t (a int)\nend\n", "it ends its session")]
    for text, why in bad:
        with open(path, "w", encoding="ascii") as file:
            file.write(text)
        out = ended()
        status, last, log = fault_of(out)
        if (status, last, out[1]) != (1, f"fault: cannot load {number}", "") or why not in log:
            fail(f"{kind} on {text[:40]!r}: {status}, {last}, {log}")
    os.remove(path)
    os.mkdir(path)
    status, last, _ = fault_of(ended())
    if (status, last) != (1, f"fault: cannot load {number}"):
        fail(f"{kind} on a folder for a file: {status}, {last}")
    os.rmdir(path)
    # a last line without an end is a line
    with open(path, "w", encoding="ascii") as file:
        file.write("create table t (a int)")
    if ended()[0] != 0:
        fail(f"{kind} on a line without an end")
    os.remove(path)


def writes_fail(program, room):
    """A file may have so many bytes: the others are written, and what stood under its name stays."""
    folder = os.path.join(room, "full")
    os.mkdir(folder)
    names = [f"{FIRST}.lines", f"{FIRST + 1}.lines"]
    with open(os.path.join(folder, names[1]), "w", encoding="ascii") as file:
        file.write("create table before (a int)\n")
    server = served(program, ["--dump-to", folder], limit=200)
    told_to(server, 1, [f"create table t{i} (a int, b text, c int)" for i in range(9)])
    told_to(server, 0, ["create table t (a int)"])
    ended = server.end()
    if fault_of(ended)[:2] != (1, f"fault: cannot write {FIRST + 1}"):
        fail(f"a full disk: {ended}")
    if files_in(folder) != {names[0]: "create table t (a int)\n", names[1]: "create table before (a int)\n"}:
        fail(f"files on a full disk: {files_in(folder)}")


def links_are_not_followed(program, room):
    """A link under the name of a file that is written goes, and what it leads to stays."""
    folder, other = os.path.join(room, "linked"), os.path.join(room, "other")
    os.mkdir(folder)
    with open(other, "w", encoding="ascii") as file:
        file.write("left alone\n")
    os.symlink(other, os.path.join(folder, f"{FIRST}.lines.new"))
    server = served(program, ["--dump-to", folder])
    told_to(server, 0, ["create table t (a int)"])
    ended = server.end()
    with open(other, encoding="ascii") as file:
        left = file.read()
    wanted = {f"{FIRST}.lines": "create table t (a int)\n"}
    if ended[0] != 0 or files_in(folder) != wanted or left != "left alone\n":
        fail(f"a link at a file that is written: {ended}, {files_in(folder)}, {left}")


def folders_are_locked(program, room):
    """A folder to which a server writes is no other process's."""
    folder = os.path.join(room, "locked")
    os.mkdir(folder)
    server = served(program, ["--dump-to", folder])
    others = [served(program, ["--dump-to", folder]).end(), run(program, f"dump --into {folder}", ["0 0 open"])]
    for ended in others:
        if fault_of(ended)[:2] != (1, "fault: no folder") or f"no folder {folder}: another process writes to it" not in ended[2]:
            fail(f"a second process on a folder: {ended}")
    first = server.end()
    behind = served(program, ["--dump-to", folder]).end()
    if (first[0], behind[0]) != (0, 0):
        fail(f"servers on a folder one after another: {first}, {behind}")


def dumps_are_run(program, tenants, seed, room):
    """All tenants of an input are written, and a run on the files answers a tail as one that goes on."""
    folder = os.path.join(room, "into")
    os.mkdir(folder)
    makers = [Maker(seed * 1000 + 500 + tenant) for tenant in range(tenants)]
    # tenant 1 isn't opened
    opened = [tenant for tenant in range(tenants) if tenant != 1]
    before = [line for tenant in opened for line in of_tenant(tenant, makers[tenant].lines(20))]
    words = f"dump --into {folder}"
    ended = run(program, words, before)
    wanted = {f"{tenant}.lines": run(program, f"dump --tenant {tenant}", before)[1] for tenant in opened}
    if ended != (0, "", "") or files_in(folder) != wanted:
        fail(f"a dump of all: {ended}")
    tail = [line for tenant in range(tenants) for line in of_tenant(tenant, makers[tenant].tail())]
    told, whole = run(program, f"run --load {folder}", tail), run(program, "run", before + tail)
    if told[0] != 0 or not whole[1].endswith(told[1]) or len(told[1].splitlines()) < len(tail):
        fail(f"a run on files: {told}")
    # a transaction at the end
    busy = before + of_tenant(2, ["open", "begin"], 3)
    os.remove(os.path.join(folder, "0.lines"))
    ended = run(program, words, busy)
    if fault_of(ended)[:2] != (1, "fault: busy tenant 2") or "tenant 2 isn't written" not in ended[2] or ended[1] != "":
        fail(f"a dump of a busy tenant: {ended}")
    if files_in(folder) != wanted:
        fail("a busy tenant leaves its file, and the others are written")
    return sum(len(text) for text in wanted.values())


def limited_dump(program, folder, lines, limit):
    """A dump of all where no file may have more bytes."""
    text = "".join(line + "\n" for line in lines).encode()
    words = [program, "dump", "--into", folder]
    ended = subprocess.run(words, input=text, stdout=subprocess.PIPE, stderr=subprocess.PIPE, preexec_fn=file_size(limit), timeout=300)
    return ended.returncode, ended.stdout.decode(), ended.stderr.decode()


def dumps_fail(program, room):
    """A file may have so many bytes, for each number of them: it is there as a whole, or as it was before."""
    folder = os.path.join(room, "limited")
    os.mkdir(folder)
    lines = of_tenant(0, ["open", "create table t (a int)", "end"]) + of_tenant(1, ["open", "create table long (a int, b text)", "end"])
    whole = {"0.lines": "create table t (a int)\n", "1.lines": "create table long (a int, b text)\n"}
    before = {name: "create table before (a int)\n" for name in whole}
    for limit in range(0, 40, 3):
        for name, text in before.items():
            with open(os.path.join(folder, name), "w", encoding="ascii") as file:
                file.write(text)
        ended = limited_dump(program, folder, lines, limit)
        wanted = {name: text if len(text) <= limit else before[name] for name, text in whole.items()}
        lacking = [name for name, text in whole.items() if len(text) > limit]
        if files_in(folder) != wanted or ended[0] != (1 if lacking else 0):
            fail(f"files of at most {limit} bytes: {ended}, {files_in(folder)}")
        if lacking and fault_of(ended)[1] != f"fault: cannot write {lacking[0].split('.')[0]}":
            fail(f"files of at most {limit} bytes: {ended}")


def kills_leave_whole_files(program, room, count):
    """A server that is killed at some moment of its writing leaves each file as it was, or as it is to be."""
    folder = os.path.join(room, "killed")
    os.mkdir(folder)
    wanted = {}
    lines = ["create table t (a int, b text)", "begin"]
    lines += ["insert into t values " + ", ".join(f"({i}, 'x{i}')" for i in range(k, k + 64)) for k in range(0, 2048, 64)] + ["commit"]
    text = run(program, "dump", of_tenant(0, ["open", *lines]))[1]
    for kill in range(count):
        for name in os.listdir(folder):
            os.remove(os.path.join(folder, name))
        server = served(program, ["--dump-to", folder])
        for tenant in range(8):
            told_to(server, tenant, lines)
        server.process.stdin.close()
        time.sleep(0.01 * kill)
        server.process.kill()
        server.process.wait()
        for name, told in files_in(folder).items():
            if name.endswith(".lines"):
                wanted[name] = wanted.get(name, 0) + 1
                if told != text:
                    fail(f"{name} is no whole script")
    return sum(wanted.values())


def main():
    parser = argparse.ArgumentParser(description=__doc__, formatter_class=argparse.RawDescriptionHelpFormatter)
    parser.add_argument("program", nargs="?", default=BUILT)
    parser.add_argument("--tenants", type=int, default=16)
    parser.add_argument("--seed", type=int, default=1)
    asked = parser.parse_args()
    program = os.path.abspath(asked.program)
    with tempfile.TemporaryDirectory() as room:
        count = are_kept(program, min(asked.tenants, 16), asked.seed, room)
        loads_fail(program, room)
        writes_fail(program, room)
        links_are_not_followed(program, room)
        folders_are_locked(program, room)
        count += dumps_are_run(program, min(asked.tenants, 16), asked.seed, room)
        dumps_fail(program, room)
        whole = kills_leave_whole_files(program, room, 20)
    print(f"files of tenants: {count} bytes are written and read, {whole} files stand whole behind kills")


if __name__ == "__main__":
    main()
