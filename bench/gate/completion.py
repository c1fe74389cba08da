"""What bash completes of a command line, from what the program prints for --help."""

from bench.gate.help_text import Item, items, sections

# what stands for an option's value
FILES = {"FOLDER": "-d", "FILE": "-f", "OLD": "-f", "NEW": "-f"}
SCRIPT = """\
# bash completion of {name}, made of its help
_{name}() {{
    local command=${{COMP_WORDS[1]}} last=${{COMP_WORDS[COMP_CWORD - 1]}} word=${{COMP_WORDS[COMP_CWORD]}} words
    case $last in
{values}    esac
    [ "$COMP_CWORD" -eq 1 ] && command=
    case $command in
{commands}    *) words="{all}" ;;
    esac
    COMPREPLY=($(compgen -W "$words" -- "$word"))
}}
complete -o default -F _{name} {name}
"""


def listed(text):
    """The commands and options of a help text."""
    return [item for head, lines in sections(text)[1] if head != "Examples" for item in items(lines) if isinstance(item, Item)]


def words_of(listed_items):
    """The words that may stand there."""
    return " ".join(word for item in listed_items for word in item.words)


def completion(name, text, helps):
    """The script of a program with this help, and with these of its commands."""
    options = [item for help_text in [text, *helps.values()] for item in listed(help_text)]
    values = {}
    for item in options:
        if item.value in FILES and item.words:
            values[item.words[-1]] = FILES[item.value]
    cases = "".join(f'    {option}) COMPREPLY=($(compgen {how} -- "$word")); return ;;\n' for option, how in sorted(values.items()))
    commands = "".join(f'    {command}) words="{words_of(listed(help_text))}" ;;\n' for command, help_text in helps.items())
    return SCRIPT.format(name=name, values=cases, commands=commands, all=words_of(listed(text)))
