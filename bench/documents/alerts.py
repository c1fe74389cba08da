#!/usr/bin/env python3
"""Whether the alert rules and the dashboard of examples/ name only metrics and labels that a server has. Where promtool is on the machine it
checks the rules, too; where it isn't, that is told.

    python3 -m bench.documents.alerts"""

import json
import re
import shutil
import subprocess
import sys

from bench.harness import TOP

ALERTS, DASHBOARD = TOP / "examples/alerts.yml", TOP / "examples/dashboard.json"
SOURCE = TOP / "crates/sb_status/src/markup_texts.rt"
METRIC = re.compile(r"\b((?:filgwesha|process)_[a-z_]+)")
SELECTED = re.compile(r"\b((?:filgwesha|process)_[a-z_]+)\{([^}]*)\}")
# those that Prometheus adds, and that a histogram has
LABELS = {"instance", "job", "le"}


def metrics():
    """Each metric that a server has, with its labels."""
    text = SOURCE.read_text("ascii")
    found = {name: set() for name in METRIC.findall(text)}
    for name, label in re.findall(r"\b((?:filgwesha|process)_[a-z_]+)\{([a-z]+)=", text):
        found[name].add(label)
    return found


def expressions():
    """The name of each file, and the expressions of its rules or panels."""
    rules = re.sub(r"(?m)^ *(#|summary:|action:).*$", "", ALERTS.read_text("utf-8"))
    panels = json.loads(DASHBOARD.read_text("utf-8"))
    asked = [target["expr"] for panel in panels["panels"] for target in panel["targets"]]
    asked += [variable["definition"] for variable in panels["templating"]["list"] if "definition" in variable]
    return [(ALERTS.name, rules), *((DASHBOARD.name, text) for text in asked)]


def faults_of(text, known):
    for name in METRIC.findall(text):
        if name not in known:
            yield f"no server has {name}"
    for name, selectors in SELECTED.findall(text):
        for label in re.findall(r"([a-z]+) *(?:=|!)", selectors):
            if label not in known.get(name, set()) | LABELS:
                yield f"{name} has no label {label}"


def main():
    known = metrics()
    faults = [f"{file}: {fault}" for file, text in expressions() for fault in faults_of(text, known)]
    print(*faults, sep="\n", end="\n" * bool(faults))
    named = {name for _, text in expressions() for name in METRIC.findall(text)}
    print(f"alerts and dashboard: {len(named)} of {len(known)} metrics are named")
    if not shutil.which("promtool"):
        print("the alert rules weren't checked by promtool (Debian: prometheus)")
    elif subprocess.run(["promtool", "check", "rules", ALERTS], stdout=subprocess.DEVNULL).returncode:
        return 1
    return 1 if faults else 0


if __name__ == "__main__":
    sys.exit(main())
