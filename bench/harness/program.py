"""The built program, and where the project lies."""

import os
import pathlib
import subprocess

TOP = pathlib.Path(__file__).resolve().parents[2]
BUILT = str(TOP / "crates/starhost/out/starhost")


# set by ./check --quick: the programs were built without proofs, so they check while they run, and take more memory
UNPROVED = "FILGWESHA_UNPROVED"


def is_unproved():
    """True if the programs check while they run."""
    return os.environ.get(UNPROVED) == "1"


def program_of(words):
    """The program that the first of these words names, or the one that the checks have built."""
    return os.path.abspath(words[0]) if words else BUILT


def run(program, words, lines):
    """Runs the program on these lines: its status, what it wrote, and what it wrote on standard error."""
    text = "".join(line + "\n" for line in lines).encode()
    ended = subprocess.run([program, *words.split()], input=text, stdout=subprocess.PIPE, stderr=subprocess.PIPE, timeout=300)
    return ended.returncode, ended.stdout.decode(), ended.stderr.decode()
