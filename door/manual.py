"""The page for man, from the same tables as the help."""
from door import building, table
from door.pages import value_text
from door.words import usage_of

ABOUT = (
    "A boat, a drone or an aircraft goes from cell to cell and looks for somebody who drifts. osp computes the path that is likeliest to "
    "find them within so many periods, with its exact chance and a record of why no path is better, and checks such plans."
)
PROVED = (
    "What its commands write is proved, down to the bytes that they read and write. The helpers stand before and behind the proved "
    "program; they are tested."
)
TARGET = (
    "What is written goes to this file, whole or not at all: a file beside it takes its place at the end. Where the command refuses, the "
    "file stays as it was. Of a symbolic link, the file that it names is replaced."
)
INPUT = (
    "Files may stand anywhere behind the command. Where none is named, standard input is read: a scenario, and for the commands that "
    "judge, a plan behind it. The name - stands for standard input, and -- ends the options, so that what follows are files. Behind flown and start "
    "stand names of positions alone: files and options come before."
)
ENDS = "These are those of the commands; a helper ends with 0 where it wrote its answer, and explain as the program itself ends."
DOCUMENTS = "the documents: README.md, docs/COMMANDS.md with all words and statuses, docs/FORMATS.md with all texts, and examples/"


def roff(text):
    """A text as roff takes it: hyphens that can be copied, and nothing that is an escape or a request."""
    found = text.replace("\\", "\\e").replace("-", "\\-").replace("./osp", "osp")
    return f"\\&{found}" if found.startswith((".", "'")) else found


def section(name, *lines):
    """A section with its lines."""
    return [f".SH {name}", *lines]


def item(head, text):
    """A paragraph with a head."""
    return [".TP", f".B {roff(str(head))}", roff(text)]


def items(rows):
    """A paragraph for each row of heads and texts."""
    return [line for head, text in rows for line in item(head, text)]


def manual_text(documents, day):
    """The page, for documents in this folder, on this day."""
    lines = [
        f'.TH OSP 1 {roff(day)} "osp {building.version()}" "User Commands"',
        *section("NAME", roff("osp - plans a search for somebody who drifts, and shows why no plan is better")),
        *section("SYNOPSIS", ".B osp", ".I COMMAND", "[\\fIWORDS\\fR ...] [\\fB\\-o\\fR \\fIFILE\\fR]"),
        *section("DESCRIPTION", roff(ABOUT), ".PP", roff(PROVED)),
        *section("COMMANDS", *items((usage_of(it), it[2]) for it in table.COMMANDS)),
        *section("HELPERS", *items(it[:2] for it in table.HELPERS)),
        *section("OTHER WORDS", *items(it[:2] for it in table.OWN)),
        *section("OPTIONS", *items((it[0], value_text(it)) for it in table.VALUES), *item("-o FILE", TARGET)),
        *section("FILES AND STANDARD INPUT", roff(INPUT)),
        *section("EXIT STATUS", *items(table.STATUSES), ".PP", roff(ENDS)),
        *section("ENVIRONMENT", *item("TMPDIR", "the folder for temporary files, /tmp where it is not set")),
        *section("FILES", *item(documents, DOCUMENTS)),
        *section("EXAMPLES", roff(f"In {documents}:"), ".PP", ".nf", *(roff(it[3]) for it in table.COMMANDS), ".fi"),
    ]
    return "".join(f"{it}\n" for it in lines)
