"""Manual pages from what programs print for --help."""

from bench.gate.help_text import Item, items, sections


def escaped(text):
    """A text as roff reads it."""
    text = text.replace("\\", "\\e").replace("-", "\\-")
    return f"\\&{text}" if text[:1] in (".", "'") else text


def paragraphs(lines):
    """Lines as roff, where an empty one begins a paragraph, and a command or an option has a tag."""
    out = []
    for line in lines:
        if isinstance(line, Item):
            out += [".TP", f".B {escaped(line.name)}", *map(escaped, line.lines)]
        else:
            out.append(escaped(line) or ".PP")
    return out


def section_lines(head, lines):
    """A part as roff."""
    if head == "Examples":
        return [".SH EXAMPLES", ".nf", *[escaped(line.strip()) for line in lines if line.strip()], ".fi"]
    name = "SYNOPSIS" if head.lower() == "usage" else head.upper()
    return [f".SH {name}", *paragraphs(items(lines))]


def manual(name, about, text, version, date):
    """The manual page of a program or of a command."""
    described, parts = sections(text)
    lines = [f'.TH {name.upper()} 1 "{date}" "{version}" "User Commands"', ".SH NAME", f"{escaped(name)} \\- {escaped(about)}"]
    lines += section_lines(*parts[0]) + [".SH DESCRIPTION", *paragraphs(described)]
    for head, body in parts[1:]:
        lines += section_lines(head, body)
    followed = zip(lines, [*lines[1:], ".SH"])
    return "".join(f"{line}\n" for line, behind in followed if line != ".PP" or behind[:3] not in (".SH", ".TP", ".PP"))
