"""What programs print for --help, by its parts."""

import dataclasses
import re

HEAD = re.compile(r"([Uu]sage|[A-Za-z][\w ,]*(?=:$)):(?: (.*))?")
ITEM = re.compile(r" {2,6}((?:-\w, )?[-\w]+(?: <\w+>| [A-Z]+)?|<\w+>)(?:  +(.*))?$")


@dataclasses.dataclass
class Item:
    """A command or an option, with what it means."""

    name: str
    lines: list

    @property
    def words(self):
        """Its words without what stands for a value."""
        return [word for word in re.split(r"[ ,]+", self.name) if word[0] == "-" or word.islower()]

    @property
    def value(self):
        """What its value is called, if it has one."""
        found = re.search(r"<(\w+)>| ([A-Z]+)$", self.name)
        return found and (found[1] or found[2])


def sections(text):
    """The parts of a help text, each with its head and its lines. What stands under no head describes the program."""
    parts, described = [], []
    for line in text.splitlines():
        head = HEAD.fullmatch(line)
        if head:
            parts.append((head[1], [head[2]] if head[2] else []))
        elif parts and (not line or line[0] == " "):
            parts[-1][1].append(line)
        else:
            described.append(line)
            if line.endswith("."):
                described.append("")
    return described, parts


def items(lines):
    """The commands or options of a part, and the lines that stand for themselves."""
    out = []
    for line in lines:
        item = ITEM.match(line)
        if item:
            out.append(Item(item[1], [item[2]] if item[2] else []))
        elif line.strip() and out and isinstance(out[-1], Item):
            out[-1].lines.append(line.strip())
        else:
            out.append(line.strip())
    return out
