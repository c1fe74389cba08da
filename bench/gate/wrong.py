#!/usr/bin/env python3
"""Tries the wrong bodies that ./check doesn't try.

    ./check --wrong [--since COMMIT] [CRATE ..]

They stand in crates/NAME/wrong, as files of the form of those in must-fail/. The crates that are named, and those that
they stand on, are copied from the work tree to a folder that goes away again. There the wrong bodies of the named
crates are laid beside those of their must-fail/, and `rt ci` proves all of these crates and tries them. It fails where a
wrong body is proved, or can't be tried.

Where no crate is named, it takes the crates whose files differ from those of COMMIT (origin/main), and tells which.
So it costs the proofs of the named crates and of those below them, for each named crate one proof more, and a bit for
each wrong body.
"""

import argparse
import glob
import os
import shutil
import subprocess
import sys
import tempfile

from bench.harness import TOP



def lines_of(*words):
    return subprocess.run(["git", *words], cwd=TOP, capture_output=True, text=True, check=True).stdout.splitlines()


def files():
    """Those of the work tree, and no file that git leaves out."""
    listed = lines_of("ls-files", "--cached", "--others", "--exclude-standard")
    return [name for name in listed if os.path.isfile(os.path.join(TOP, name))]


def changed(since):
    """The crates with a file that isn't as it was."""
    others = lines_of("ls-files", "--others", "--exclude-standard", "crates")
    parts = [name.split("/") for name in lines_of("diff", "--name-only", since, "--", "crates") + others]
    return sorted({names[1] for names in parts if len(names) > 2})


def stood_on():
    """Of each crate the line that lists it, and the crates of the project that it names."""
    with open(os.path.join(TOP, "crates.txt")) as file:
        lines = [line for line in file if ":" in line.partition("#")[0]]
    listed = {line.split(":")[0].split()[0]: line for line in lines}
    return {name: (line, [word for word in line.split(":")[1].split() if word in listed]) for name, line in listed.items()}


def with_those_below(crates):
    """The lines of crates.txt that list these crates and all that they stand on, by the crate."""
    listed, found, left = stood_on(), {}, list(crates)
    while left:
        name = left.pop()
        if name not in found:
            found[name], below = listed[name]
            left += below
    return found


def laid_out(folder, crates):
    """Copies these crates and those below them, and gives how many wrong bodies were laid out."""
    listed = with_those_below(crates)
    for name in files():
        parts = name.split("/")
        if parts == ["HANDLES"] or parts[0] == "crates" and parts[1] in listed and (parts[1] in crates or parts[2] != "must-fail"):
            to = os.path.join(folder, name)
            os.makedirs(os.path.dirname(to), exist_ok=True)
            shutil.copy2(os.path.join(TOP, name), to)
    with open(os.path.join(folder, "crates.txt"), "w") as file:
        file.writelines(listed.values())
    count = 0
    for crate in crates:
        for edit in glob.glob(f"{folder}/crates/{crate}/wrong/*.edit"):
            to = f"{folder}/crates/{crate}/must-fail"
            os.makedirs(to, exist_ok=True)
            shutil.move(edit, to)
            count += 1
    return count


def tried(folder):
    """Whether all wrong bodies were refused."""
    is_well = True
    with subprocess.Popen(["rt", "ci"], cwd=folder, stdout=subprocess.PIPE, stderr=subprocess.STDOUT, text=True) as run:
        for line in run.stdout:
            print(line, end="", flush=True)
            is_well = is_well and "BAD EDIT" not in line
    return is_well and run.returncode == 0


def main():
    parser = argparse.ArgumentParser(prog="./check --wrong", description=__doc__, formatter_class=argparse.RawDescriptionHelpFormatter)
    parser.add_argument("--since", metavar="COMMIT", default="origin/main")
    parser.add_argument("crates", metavar="CRATE", nargs="*")
    given = parser.parse_args()
    named = given.crates or changed(given.since)
    unknown = [crate for crate in given.crates if not os.path.isdir(os.path.join(TOP, "crates", crate))]
    if unknown:
        sys.exit(f"no crate: {' '.join(unknown)}")
    crates = [crate for crate in named if glob.glob(os.path.join(TOP, "crates", crate, "wrong/*.edit"))]
    if not crates:
        print(f"no wrong bodies of {' '.join(named) or 'a crate that changed'}")
        return 0
    with tempfile.TemporaryDirectory(prefix="wrong-") as folder:
        print(f"{laid_out(folder, crates)} wrong bodies of {' '.join(crates)}", flush=True)
        is_well = tried(folder)
    print("all were refused" if is_well else "FAILED: a wrong body was proved or can't be tried, or a crate isn't proved")
    return 0 if is_well else 1


if __name__ == "__main__":
    sys.exit(main())
