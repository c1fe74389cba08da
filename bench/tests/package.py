#!/usr/bin/env python3
"""Tries what `./check --package` makes.

    python3 -m bench.tests.package [PROGRAM]

PROGRAM is crates/starhost/out/starhost where no word is given. Told in one line each: two runs make the same bytes;
the program of the Debian package answers examples/card.lines as the built one does, and lintian finds no error in the
package, where it is installed; its unit is one by `systemd-analyze`, and its manual pages, one for each command, have no
fault by `man`, where these are; bash completes commands and options; the client is installed from its sources and from its wheel without a network. The first thing that isn't as
it is to be ends this with status 1.
"""

import os
import pathlib
import shutil
import subprocess
import sys
import tempfile

from bench.gate.package import package
from bench.harness import TOP, expect, need, program_of


# lines, with what bash completes at their ends
COMPLETED = [
    ("starhost se", "serve"),
    ("starhost serve --po", "--port"),
    ("starhost serve --idle-", "--idle-transaction"),
    ("starhost parse --t", ""),
    ("starhost --vers", "--version"),
    ("starhost run --load u", "usr"),
]


def ended(*words, **given):
    """A command's status, and all that it wrote."""
    done = subprocess.run([str(word) for word in words], stdout=subprocess.PIPE, stderr=subprocess.STDOUT, text=True, **given)
    return done.returncode, done.stdout


def makes_same_bytes(program, room):
    """Packs twice, and compares."""
    folders = [room / "first", room / "second"]
    for folder in folders:
        package(folder, program, "the gate wasn't run")
    names = sorted(path.name for path in folders[0].iterdir())
    for name in names:
        need((folders[0] / name).read_bytes() == (folders[1] / name).read_bytes(), f"{name} is the same twice")
    expect("the digests", ended("sha256sum", "--check", "--quiet", "SHA256SUMS", cwd=folders[0]), (0, ""))
    print(f"package: two runs make the same {len(names)} files")
    return folders[0]


def judged(tool, *words):
    """Has a tool look, where it is installed."""
    if shutil.which(tool):
        status, told = ended(tool, *words)
        need(status == 0, f"{tool} finds no error: {told}")
        return f"{tool} finds no error"
    return f"{tool} isn't on this machine"


def installs(program, folder, room):
    """What the Debian package would install works."""
    deb, root = next(folder.glob("*.deb")), room / "root"
    expect("its files", ended("dpkg-deb", "-x", deb, root), (0, ""))
    card = (TOP / "examples/card.lines").read_bytes()
    answers = [subprocess.run([path], input=card, capture_output=True).stdout for path in (program, root / "usr/bin/starhost")]
    expect("what the installed program answers", answers[1], answers[0])
    told = [judged("lintian", "--fail-on", "error", deb)]
    pages = sorted((root / "usr/share/man/man1").iterdir())
    told += [judged("systemd-analyze", "verify", "--man=no", unit_for(root, room))]
    for page in pages:
        if shutil.which("man"):
            expect(f"faults of {page.name}", faults_of(page), "")
    for line, wanted in COMPLETED:
        expect(f"what is completed of {line}", completed(root, line), wanted)
    print(f"package: {len(pages)} manual pages; {len(COMPLETED)} words completed; {'; '.join(told)}")


def completed(root, line):
    """What bash completes at the end of a line."""
    words = line.split(" ")
    script = root / "usr/share/bash-completion/completions/starhost"
    code = f"source {script}; COMP_WORDS=({' '.join(words[:-1])} '{words[-1]}'); COMP_CWORD={len(words) - 1}; _starhost; echo ${{COMPREPLY[@]}}"
    return subprocess.run(["bash", "-c", code], capture_output=True, text=True, cwd=root).stdout.strip()


def faults_of(page):
    """What `man` warns of in a manual page."""
    shown = subprocess.run(["man", "--warnings", "-l", page], stdin=subprocess.DEVNULL, capture_output=True, text=True)
    return shown.stderr


def unit_for(root, room):
    """The unit with the program where it was unpacked."""
    unit = room / "filgwesha.service"
    unit.write_text((root / "lib/systemd/system/filgwesha.service").read_text().replace("/usr/bin/starhost", str(root / "usr/bin/starhost")))
    return unit


def installs_client(folder, room):
    """pip installs the client without a network."""
    alone = {**os.environ, "PIP_NO_INDEX": "1", "PIP_DISABLE_PIP_VERSION_CHECK": "1", "PYTHONPATH": ""}
    for name, given in (("sources", TOP / "clients/python"), ("wheel", next(folder.glob("*.whl")))):
        home = room / name
        expect("an environment", ended(sys.executable, "-m", "venv", home)[0], 0)
        status, told = ended(home / "bin/pip", "install", "-q", given, env=alone)
        need(status == 0, f"the client is installed from its {name}: {told}")
        need(ended(home / "bin/filgwesha", "--help", env=alone)[1].startswith("usage: filgwesha"), "its command")
    print("package: the client is installed from its sources and from its wheel, without a network")


def main():
    program = program_of(sys.argv[1:])
    with tempfile.TemporaryDirectory() as room:
        folder = makes_same_bytes(program, pathlib.Path(room))
        installs(program, folder, pathlib.Path(room))
        installs_client(folder, pathlib.Path(room))


if __name__ == "__main__":
    main()
