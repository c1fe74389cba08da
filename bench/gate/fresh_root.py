#!/usr/bin/env python3
"""Tries README's commands as whoever has just come: in a root that has Debian's base and what README says to install.

    python3 -m bench.gate.fresh_root FOLDER [--deb FILE] [--quick]

FOLDER, which has to be empty or new, gets the root; it takes root's rights, debootstrap and a mirror of Debian. The commit is
cloned there, and README's first command has to print what README shows; with --quick `./check --quick` has to pass there,
too. With --deb the package is installed there instead: its program has to answer the same, `systemd-analyze` to find
nothing in its unit, and its client to be answered by its server. The root is left for who wants to look at it.
"""

import argparse
import contextlib
import os
import pathlib
import re
import subprocess
import sys
import time

from bench.documents.printed import readme_session
from bench.harness import TOP, need

SUITE = "bookworm"
VISIT = """\
starhost serve --port 7411 --connections 1 > /tmp/told &
sleep 1
printf 'create table t (a int);\\nbegin;\\ninsert into t values (7);\\nselect * from t;\\ncommit;\\n' | filgwesha 0 --port 7411
wait
"""


def kit():
    """The folder of Rattle's toolchain, whose command is `rt`."""
    found = subprocess.run(["rt", "doc"], stdout=subprocess.PIPE, text=True, check=True).stdout.strip()
    return pathlib.Path(found).parent


class Root:
    """A root of Debian's own, in a folder."""

    def __init__(self, folder, packages):
        self.folder = folder
        words = ["debootstrap", "--variant=minbase", f"--include={','.join(packages)}", SUITE, folder]
        subprocess.run(words, stdout=subprocess.DEVNULL, check=True)

    @contextlib.contextmanager
    def mounted(self, *read_only):
        """The root with /proc and /dev and what is mounted there, and folders of this machine that it may read, under their own
        names."""
        places = [("/proc", []), ("/dev", []), *((str(path), ["-o", "ro"]) for path in read_only)]
        mounted = []
        try:
            for path, options in places:
                inside = self.folder / path.lstrip("/")
                inside.mkdir(parents=True, exist_ok=True)
                subprocess.run(["mount", "--rbind", *options, path, inside], check=True)
                mounted.append(inside)
            yield
        finally:
            for inside in reversed(mounted):
                subprocess.run(["umount", "--lazy", inside], check=True)

    def told(self, text):
        """What a text of a shell prints in there, as a user who has just logged in."""
        words = ["env", "-i", "HOME=/root", "LANG=C.UTF-8", f"PATH={os.defpath}:/usr/sbin:/sbin:/usr/local/bin"]
        run = subprocess.run(["chroot", self.folder, *words, "sh", "-c", text], stdout=subprocess.PIPE, text=True)
        need(run.returncode == 0, f"{text.splitlines()[0]} ends well: {run.stdout[-2000:]}")
        return run.stdout


def packages_of_readme():
    """What README says to install first."""
    return re.search(r"`apt-get install ([a-z0-9 -]+)`", (TOP / "README.md").read_text("utf-8"))[1].split()


def tries_clone(root, quick):
    """README's first command on a fresh clone, and `./check --quick`."""
    where = kit()
    (root.folder / "usr/local/bin/rt").symlink_to(where / "bin/rt")
    subprocess.run(["git", "clone", "--quiet", f"file://{TOP}", root.folder / "root/filgwesha"], check=True)
    with root.mounted(where):
        begun = time.monotonic()
        answered = root.told("cd /root/filgwesha/crates/starhost && rt try < ../../examples/card.lines")
        need(answered == readme_session()[1], f"the first command prints what README shows: {answered}")
        print(f"fresh root: the first command answers, {time.monotonic() - begun:.0f} s")
        if quick:
            begun = time.monotonic()
            root.told("cd /root/filgwesha && ./check --quick")
            print(f"fresh root: ./check --quick passes, {time.monotonic() - begun:.0f} s")


def tries_package(root, deb):
    """The Debian package: installed, its example, its unit, its client beside its server."""
    (root.folder / "root/filgwesha.deb").write_bytes(deb.read_bytes())
    with root.mounted():
        root.told("apt-get install -y /root/filgwesha.deb")
        answered = root.told("starhost < /usr/share/doc/filgwesha/examples/card.lines")
        need(answered == readme_session()[1], f"the package's program answers as README shows: {answered}")
        root.told("apt-get install -y --no-install-recommends systemd && systemd-analyze verify --man=no filgwesha.service")
        need("7" in root.told(VISIT), "the client is answered by the server")
        root.told("apt-get remove -y filgwesha && ! command -v starhost")
    print("fresh root: the package is installed, answers, and is removed")


def main():
    words = argparse.ArgumentParser(description=__doc__, formatter_class=argparse.RawDescriptionHelpFormatter)
    words.add_argument("folder", type=pathlib.Path)
    words.add_argument("--deb", type=pathlib.Path)
    words.add_argument("--quick", action="store_true")
    asked = words.parse_args()
    folder = asked.folder.resolve()
    if folder.exists() and any(folder.iterdir()):
        print(f"{folder} has files: nothing is written there")
        return 2
    if asked.deb:
        tries_package(Root(folder, ["ca-certificates"]), asked.deb)
    else:
        tries_clone(Root(folder, packages_of_readme()), asked.quick)
    return 0


if __name__ == "__main__":
    sys.exit(main())
