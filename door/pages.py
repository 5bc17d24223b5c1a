"""The help: all commands, helpers and words of the script, and a page for each command and word."""
from door import table
from door.place import as_called, documents
from door.words import usage_of, whole_usage

END = """
Without files a command reads standard input, and the name - stands for it. With -o FILE what a command or a
helper writes goes to that file, whole or not at all, and else to standard output. Behind flown and start stand
names of positions alone: files and options come before.
"""
# How wide the words of a value are.
WIDTH = 14


def help_row(words, does, example):
    """One row: its words, what it does, its example."""
    return as_called(f"  ./osp {words}\n      {does}\n      as in  {example}\n")


def value_text(row):
    """What a value says, and which numbers it may be."""
    _, numbers, left_out, does = row
    bounds = ", from {} to {}".format(*numbers.split()) if numbers else ""
    return f"{does}{bounds}{f'; {left_out} where it is not given' if left_out else ''}"


def value_row(words, row):
    """One value."""
    return f"  {words:{WIDTH}}{value_text(row)}\n"


def help_text():
    """The whole help."""
    return "".join(
        [
            "osp plans the path that is likeliest to find a drifting target, and checks such plans.\n",
            "\nProved commands:\n",
            *(help_row(usage_of(it), it[2], it[3]) for it in table.COMMANDS),
            "\nTheir values:\n",
            *(value_row(it[0], it) for it in table.VALUES),
            "\nHelpers, which are tested and not proved:\n",
            *(help_row(*it) for it in table.HELPERS),
            "\nBesides:\n",
            *(help_row(*it) for it in table.OWN),
            END,
            f"{documents()}/FORMATS.md has the texts, and COMMANDS.md what each exit status says.\n",
        ]
    )


def values_in(command, words):
    """The rows of the values that stand among the words of a command."""
    own = [it[0].removeprefix(f"{command} ") for it in table.VALUES]
    rows = [table.value_of(command, it) for it in own if it in words]
    return "".join(value_row(it[0].removeprefix(f"{command} "), it) for at, it in enumerate(rows) if it not in rows[:at])


def command_page(row):
    """The page of a command, and of the helper of its name where there is one."""
    name, reads = table.first(row), row[1].replace(" ", ", then ", 1)
    text = f"usage: ./osp {whole_usage(row)}\n\n{name} {row[2]}\n\n"
    said = "what is written goes to this file, whole or not at all, and else to standard output"
    more = f"\nIt reads {reads}; without the name of a file standard input, and the name - stands for it.\n" if reads else ""
    helper = table.found(table.HELPERS, name)
    behind = as_called("\n./osp {}\n{}\nas in  {}\n".format(*helper)) if helper else ""
    return as_called(text) + values_in(name, row[0]) + f"  {'-o FILE':{WIDTH}}{said}\n{more}" + as_called(f"\nas in  {row[3]}\n") + behind


def page_text(name):
    """The page of a command, or of one of the script's own words."""
    if row := table.found(table.COMMANDS, name):
        return command_page(row)
    return as_called("usage: ./osp {}\n\n{}\nas in  {}\n".format(*table.found(table.OWN, name)))
