#!/usr/bin/env python3
"""Packs the program: what is installed, as a Debian package and as an archive.

    ./check --package FOLDER
    python3 -m bench.gate.package FOLDER [--program PROGRAM] [--gate LINE]

FOLDER, which has to be empty or new, gets `filgwesha_VERSION_amd64.deb` (program, unit, manual pages, documents,
examples, Python client), an archive with the same, the client as a wheel, SHA256SUMS, and BUILT: the commit, the logic, and what the gate said last. PROGRAM is
crates/starhost/out/starhost where no word is given. The same commit and program make the same bytes.
"""

import argparse
import gzip
import hashlib
import os
import pathlib
import shutil
import subprocess
import sys
import tempfile

from bench.gate.completion import completion
from bench.gate.help_text import Item, items, sections
from bench.gate.manual import manual
from bench.harness import BUILT, TOP

CLIENT = TOP / "clients" / "python"
ABOUT = {"starhost": "a server for active databases", "filgwesha": "a shell for a tenant of a Filgwesha server"}
CONTROL = """\
Package: filgwesha
Version: {version}
Section: database
Priority: optional
Architecture: amd64
Maintainer: Filgwesha maintainers <maintainers@users.noreply.filgwesha.example>
Depends: libc6 (>= 2.34), libgcc-s1
Recommends: python3, curl
Installed-Size: {size}
Description: server for active databases
 Filgwesha holds up to 256 tenants, each with a small database of its own in
 memory. Rules watch inserts, deletes and updates, and see the net effect of a
 whole transaction, as in Starburst's rule system. Most of what it promises is
 proved.
"""
COPYRIGHT = """\
Format: https://www.debian.org/doc/packaging-manuals/copyright-format/1.0/
Upstream-Name: filgwesha

Files: *
Copyright: Filgwesha maintainers
License: Expat
"""
CHANGES = """\
filgwesha ({version}) unstable; urgency=medium

  * Built from commit {commit}.

 -- Filgwesha maintainers <maintainers@users.noreply.filgwesha.example>  {date}
"""
SHELL = "#!/usr/bin/python3\nimport sys\n\nfrom filgwesha.shell import main\n\nsys.exit(main())\n"


def said(*words, **given):
    """What a command prints, in one line."""
    return subprocess.run(words, check=True, capture_output=True, text=True, cwd=TOP, **given).stdout.strip()


class Commit:
    """The commit that is packed: its version is its day and its number."""

    def __init__(self, program):
        self.number = said("git", "rev-parse", "HEAD")
        self.epoch = int(said("git", "log", "-1", "--format=%ct"))
        self.day = said("git", "log", "-1", "--format=%cs")
        self.mail_date = said("git", "log", "-1", "--format=%cD")
        self.release = said(program, "--version").split()[1]
        self.version = f"{self.release}+git{self.day.replace('-', '')}.{self.number[:8]}"


def put(path, data, mode=0o644):
    """Writes a file, and the folders above it."""
    path.parent.mkdir(parents=True, exist_ok=True)
    path.write_bytes(data if isinstance(data, bytes) else data.encode())
    path.chmod(mode)


def packed(data):
    """Data as gzip has it, without the time."""
    return gzip.compress(data.encode(), 9, mtime=0)


def put_program(root, program):
    """The program without what only a debugger reads, and the client."""
    put(root / "usr/bin/starhost", pathlib.Path(program).read_bytes(), 0o755)
    subprocess.run(["strip", "--strip-unneeded", "--remove-section=.comment", root / "usr/bin/starhost"], check=True)
    put(root / "usr/bin/filgwesha", SHELL, 0o755)
    for path in sorted((CLIENT / "filgwesha").iterdir()):
        if path.suffix == ".py" or path.name == "py.typed":
            put(root / "usr/lib/python3/dist-packages/filgwesha" / path.name, path.read_bytes())


def helps_of(program):
    """What the program prints for --help, and what each of its commands does."""
    text = said(program, "--help")
    commands = dict(sections(text)[1])["Commands"]
    return text, {item.name: said(program, item.name, "--help") for item in items(commands) if isinstance(item, Item)}


def put_manuals(root, program, commit):
    """A manual page of each program and command, and what bash completes."""
    text, helps = helps_of(program)
    shell = [sys.executable, "-m", "filgwesha", "--help"]
    shell_help = said(*shell, env={**os.environ, "PYTHONPATH": str(CLIENT), "COLUMNS": "80"})
    pages = {"starhost": (ABOUT["starhost"], text), "filgwesha": (ABOUT["filgwesha"], shell_help)}
    for name, help_text in helps.items():
        about = help_text.splitlines()[0]
        pages[f"starhost-{name}"] = (about[0].lower() + about[1:].rstrip(":"), help_text)
    for name, (about, help_text) in pages.items():
        page = manual(name, about, help_text.replace("starhost.bin", "starhost"), f"Filgwesha {commit.release}", commit.day)
        put(root / f"usr/share/man/man1/{name}.1.gz", packed(page))
    put(root / "usr/share/bash-completion/completions/starhost", completion("starhost", text, helps))


def put_documents(root, commit):
    """The unit, the documents and the examples."""
    unit = (TOP / "examples/filgwesha.service").read_text().replace("/usr/local/bin/", "/usr/bin/")
    put(root / "lib/systemd/system/filgwesha.service", unit)
    folder = root / "usr/share/doc/filgwesha"
    licence = "".join(f" {line.strip() or '.'}\n" for line in (TOP / "LICENSE").read_text().splitlines())
    put(folder / "copyright", f"{COPYRIGHT}{licence}")
    changes = CHANGES.format(version=commit.version, commit=commit.number, date=commit.mail_date)
    put(folder / "changelog.gz", packed(changes))
    listed = said("git", "ls-files", "README.md", "docs", "examples").splitlines()
    for name in listed:
        put(folder / name, (TOP / name).read_bytes())


def date_all(root, epoch):
    """Gives all files and folders the time of the commit."""
    for path in [root, *root.rglob("*")]:
        if path.is_dir():
            path.chmod(0o755)
        os.utime(path, (epoch, epoch))


def debian(root, commit, folder):
    """Makes the Debian package of what is to be installed."""
    files = sorted(path for path in root.rglob("*") if path.is_file())
    size = sum(-(-path.stat().st_size // 1024) for path in files)
    sums = "".join(f"{hashlib.md5(path.read_bytes()).hexdigest()}  {path.relative_to(root)}\n" for path in files)
    put(root / "DEBIAN/md5sums", sums)
    put(root / "DEBIAN/control", CONTROL.format(version=commit.version, size=size))
    date_all(root, commit.epoch)
    name = f"filgwesha_{commit.version}_amd64.deb"
    said("dpkg-deb", "--root-owner-group", "-Zgzip", "--build", str(root), str(folder / name), env=with_epoch(commit))
    shutil.rmtree(root / "DEBIAN")
    return name


def with_epoch(commit):
    return {**os.environ, "SOURCE_DATE_EPOCH": str(commit.epoch)}


def archive(root, commit, folder):
    """Makes the archive of what is to be installed."""
    date_all(root, commit.epoch)
    top = f"filgwesha-{commit.version}"
    order = ["--sort=name", "--owner=0", "--group=0", "--numeric-owner", f"--mtime=@{commit.epoch}"]
    said("tar", *order, f"--transform=s,^[.],{top},", "-C", str(root), "-czf", str(folder / f"{top}.tar.gz"), ".")
    return f"{top}.tar.gz"


def wheel(commit, folder):
    """Makes the client's wheel."""
    code = f"import build_backend; print(build_backend.build_wheel({str(folder)!r}))"
    return said(sys.executable, "-c", code, env={**with_epoch(commit), "PYTHONPATH": str(CLIENT)})


def package(folder, program, gate):
    """Packs the program into an empty folder, or one that isn't there. The digests of what was made."""
    folder.mkdir(parents=True, exist_ok=True)
    if any(folder.iterdir()):
        sys.exit(f"{folder} has files: nothing is written there")
    commit = Commit(program)
    with tempfile.TemporaryDirectory() as room:
        root = pathlib.Path(room) / "root"
        put_program(root, program)
        put_manuals(root, program, commit)
        put_documents(root, commit)
        names = [debian(root, commit, folder), archive(root, commit, folder), wheel(commit, folder)]
    logic = said("rt", "version") if shutil.which("rt") else "rt isn't there"
    put(folder / "BUILT", f"filgwesha {commit.version}: commit {commit.number}; {logic}; {gate}\n")
    sums = "".join(f"{hashlib.sha256((folder / name).read_bytes()).hexdigest()}  {name}\n" for name in [*names, "BUILT"])
    put(folder / "SHA256SUMS", sums)
    return sums


def main():
    parser = argparse.ArgumentParser(description=__doc__, formatter_class=argparse.RawDescriptionHelpFormatter)
    parser.add_argument("folder", type=pathlib.Path)
    parser.add_argument("--program", default=BUILT)
    parser.add_argument("--gate", default="the gate wasn't run")
    given = parser.parse_args()
    os.umask(0o022)
    print(package(given.folder, given.program, given.gate), end="")


if __name__ == "__main__":
    main()
