#!/usr/bin/env python3
"""Whether the promise stands apart: each file of specs/ says in its first line that it is a part of the promise or of the machine, and a
part of the promise uses no part of the machine, but for those that are on what a machine has kept. It prints how many there are of
each, and fails where one of the two isn't so."""

import re
import sys

from bench.harness import TOP

CRATES = TOP / "crates"
WORDS = ("Promise", "Machine")
# what came to a connection, and what was noted of a trail, is the machine's to tell
ON_WHAT_IS_KEPT = {("sb_connection", "Admission"), ("sb_durable", "RecordedTrails")}
HEAD = re.compile(rf"-- ({'|'.join(WORDS)}): \S")
USE = re.compile(r"^(?:pub )?use Rattle\.(\w+)\.specs\.(\w+)", re.MULTILINE)


def main():
    texts = {}
    for file in sorted(CRATES.glob("*/specs/*.antt")):
        if file.stem != "Lib":
            texts[file.parent.parent.name, file.stem] = file.read_text(encoding="utf-8")
    words, faults = {}, []
    for name, text in texts.items():
        head = HEAD.match(text)
        words[name] = head and head[1]
        if not head:
            faults.append(f"{'/'.join(name)}: begins with neither word")
    for name, text in texts.items():
        for used in USE.findall(text):
            if words[name] == "Promise" and words.get(used) == "Machine" and name not in ON_WHAT_IS_KEPT:
                faults.append(f"{'/'.join(name)}: a promise that uses {'/'.join(used)}")
    print(*faults, sep="\n", end="\n" * bool(faults))
    print(", ".join(f"{word}: {[*words.values()].count(word)} files" for word in WORDS))
    return 1 if faults else 0


if __name__ == "__main__":
    sys.exit(main())
