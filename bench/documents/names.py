#!/usr/bin/env python3
"""Whether what documents name is there: each function, type, clause, definition, crate and file in backticks that
README.md, docs/ and the crates' READMEs name stands under that name in the crates' sources or specs. In the pages for
users a name may also be one of the Python client, of a program or a file of the project, or of a block of the page.

    python3 -m bench.documents.names [FILE..]

`Type::call` is a function of that type. A clause is one of a function that its paragraph names, in a README one of its
crate's. Where a paragraph of docs/PROVED.md names crates, its names are theirs. It prints one line, before it the names
that aren't there, and fails where there is one."""

import pathlib
import re
import sys
from collections import defaultdict

from bench.harness import TOP

FOR_USERS = {"CLIENTS.md", "COMMANDS.md", "FIRST_RULES.md", "OPERATING.md", "RECIPES.md", "SEVERAL_HOSTS.md", "TOUR.md"}
# words of the language that the code is written in, of its toolchain, and of the documents themselves
WORDS = {"requires", "ensures", "Promise", "Machine", "None", "Some", "Copy", "Send", "Sync", "match", "Debug", "PartialEq", "Lts"}
WORDS |= {"stdin", "stdout", "cc", "callgrind"}
# what users' pages name of other programs, and a word of the log
OTHERS = {"stunnel", "MemoryMax", "connected"}
NO_FILE = re.compile(r"FOLDER/.*|.*out/.*|origin/main|[0-9a-f]{16}")

BLOCK = re.compile(r"^ *(?:pub(?:\(crate\))? )?(impl|trait|struct|enum)\b(.*)")
OWNER = re.compile(r"(?:<[^{]*?> )?(?:.* for )?(\w+)")
# behind the parameters of a block that stand on lines of their own
LONG_OWNER = re.compile(r"^> (?:.* for )?(\w+)")
FUNCTION = re.compile(r"^ *(?:pub(?:\(crate\))? )?(?:const )?(?:unsafe )?fn (\w+)")
LABEL = re.compile(r"^ *(?:ensures|requires) (\w+) \{")
DECLARED = re.compile(r"^ *(?:pub(?:\(crate\))? )?(?:unsafe )?(?:struct|enum|trait|type|const|mod|static) (\w+)")
VARIANT = re.compile(r"^    (?:pub(?:\(crate\))? )?(\w+)(?: \{|\(|,|:)")
SPEC = re.compile(r"^ *(?:(?:pub|abbrev|unfoldable|record|data) )*(\w+)(?: [({].*)? :")
CALLED = re.compile(r"\b(\w+)::(\w+)\(")
USED = re.compile(r"^ *(?:pub )?use ([^;]+);", re.MULTILINE)
SPAN = re.compile(r"`([^`\n]+)`")
PATH = re.compile(r"[\w.]+(?:/[\w.]+)+")
NAME = re.compile(r"[A-Za-z_]\w*")


def crates_below():
    """Of each crate those that it stands on, and itself."""
    lines = [line.split(":") for line in (TOP / "crates.txt").read_text(encoding="utf-8").splitlines() if ":" in line]
    direct = {name.split()[0]: set(uses.split()) for name, uses in lines}
    below = {}

    def of(name):
        if name not in below:
            below[name] = {name}.union(*(of(used) for used in direct[name] if used in direct))
        return below[name]

    for name in direct:
        of(name)
    return below


class Code:
    """The names of all crates, each with the crates that have it; calls by type or module; clauses by function."""

    def __init__(self):
        self.names, self.calls, self.labels = defaultdict(set), set(), defaultdict(set)
        self.below = crates_below()
        for crate in sorted((TOP / "crates").iterdir()):
            self.names[crate.name].add(crate.name)
            for file in sorted(crate.glob("src/**/*.rt")):
                self.names[file.stem].add(crate.name)
                self.read_source(crate.name, file.stem, file.read_text(encoding="utf-8"))
            for file in sorted(crate.glob("specs/*.antt")):
                self.names[file.stem].add(crate.name)
                self.read_specs(crate.name, file.read_text(encoding="utf-8"))
            for file in sorted(crate.glob("proofs/*.antt")):
                self.names[file.stem].add(crate.name)

    def read_source(self, crate, module, text):
        owner = function = None
        for line in text.splitlines():
            if found := LONG_OWNER.match(line):
                owner = found[1]
            elif line != "impl<" and (found := BLOCK.match(line)):
                owner = OWNER.match(found[2].strip())[1] if found[2].strip() else None
            elif line == "}":
                owner = None
            if found := FUNCTION.match(line):
                function = found[1]
                self.names[function].add(crate)
                self.calls.add((owner if owner and line.startswith("    ") else module, function))
            elif found := LABEL.match(line):
                self.labels[function].add(found[1])
                self.labels[crate].add(found[1])
            elif found := DECLARED.match(line) or VARIANT.match(line):
                # a field that is the crate's own is no word for a reader
                if found[1][0].isupper() or not line.startswith("    ") or line.startswith("    pub "):
                    self.names[found[1]].add(crate)
        self.calls |= set(CALLED.findall(text))
        for used in USED.findall(text):
            for name in NAME.findall(used):
                self.names[name].add(crate)

    def read_specs(self, crate, text):
        for line in text.splitlines():
            if found := SPEC.match(line):
                self.names[found[1]].add(crate)


def words_of_the_language():
    """The words of commands, options and replies: whatever stands in backticks on their page."""
    page = (TOP / "docs/COMMANDS.md").read_text(encoding="utf-8")
    reserved = re.search(r"Reserved words: `([^`]+)`", page)[1]
    return set(reserved.split()) | {word for span in SPAN.findall(page) for word in span.split()}


def is_there(code, words, name, crates):
    """Whether this name is one of the code, of these crates if there are any, or of the language."""
    if "::" in name:
        owner, call = name.split("::")[-2:]
        return (owner, call) in code.calls
    has = code.names.get(name, set())
    return bool(has & crates if crates and has else has) or name in words or name in WORDS


def crates_of(page, part, code):
    """Whose names a paragraph may use, or none where it may use any: in PROVED those of the crates that it names, in a crate's
    README its own, those of the crates below it, and those of other crates that the paragraph names."""
    if page.name == "PROVED.md":
        return set(re.findall(r"\b(sb_\w+|starhost)\b", part))
    if page.parent.parent.name == "crates":
        return code.below[page.parent.name] | set(re.findall(r"\b(sb_\w+|starhost)\b", part))
    return set()


def words_of_users(text):
    """The words of the Python client and of the programs, the names of files, and what stands in the blocks of a page."""
    blocks = re.findall(r"^```.*?^```", text, re.DOTALL | re.MULTILINE)
    files = [file for folder in ("clients", "bench", "examples") for file in (TOP / folder).rglob("*.*") if file.is_file()]
    texts = blocks + [file.read_text(encoding="utf-8") for file in files if file.suffix in (".py", ".c", ".cfg", ".service")]
    return {word for text in texts for word in re.findall(r"\w+", text)}


def has_file(page, path, spans):
    """Whether the path leads somewhere from the top, the page or a crate that is named, with or without its ending."""
    named = {TOP / "crates" / span.split("/")[0] for span in spans if span.startswith(("sb_", "starhost"))}
    for begin in (TOP, TOP / "crates", page.parent, *named):
        if any((begin / f"{path}{end}").exists() for end in ("", ".antt", ".rt", ".md")):
            return True
    return False


def faults_of(page, code, words):
    """The names of a page that aren't there, each with the begin of its paragraph."""
    text = page.read_text(encoding="utf-8")
    if "](" in text:
        text = re.sub(r"\[([^\]]*)\]\([^)]*\)", r"\1", text)
    text = re.sub(r"^```.*?^```", "", text, flags=re.DOTALL | re.MULTILINE)
    others = words_of_users(page.read_text(encoding="utf-8")) | OTHERS if page.name in FOR_USERS else set()
    for part in re.split(r"\n\s*\n|\n(?=[-*|#] )", text):
        spans = SPAN.findall(part.replace("\n", " "))
        crates = crates_of(page, part, code)
        labels = set()
        for found in re.finditer(r"clauses? (`\w+`(?:(?:,| and|, and) `\w+`)*)", part.replace("\n", " ")):
            labels |= set(SPAN.findall(found[1]))
        calls = {span.split("::")[-1] for span in spans} | {page.parent.name}
        for span in dict.fromkeys(spans):
            if span in others or NO_FILE.fullmatch(span):
                continue
            if span in labels:
                if not any(span in code.labels.get(call, ()) for call in calls):
                    yield f"clause {span}", part
            elif PATH.fullmatch(span):
                if not has_file(page, span, spans):
                    yield span, part
            elif re.fullmatch(r"\w+(?:::\w+)*", span) and NAME.match(span):
                if not is_there(code, words, span, crates):
                    yield span, part


def main():
    pages = [pathlib.Path(name).resolve() for name in sys.argv[1:]]
    if not pages:
        pages = [TOP / "README.md", *sorted(TOP.glob("docs/*.md")), *sorted(TOP.glob("crates/*/README.md"))]
    code, words, faults = Code(), words_of_the_language(), 0
    for page in pages:
        for name, part in faults_of(page, code, words):
            faults += 1
            print(f"{page.relative_to(TOP)}: {name}: {' '.join(part.split())[:60]}")
    print(f"{len(pages)} pages, {faults} names that aren't there")
    return 1 if faults else 0


if __name__ == "__main__":
    sys.exit(main())
