"""The texts that the documents and the examples say an answer of, and what the program answers to them."""
import functools
import os
import re
import tempfile
import unittest

from tests.house import EXAMPLES, TOP, Ran, read, run
from tests.words import ROWS

# The command whose plans stand beside the scenarios of examples/: by one worker the tree is always the same.
PLAN = ["plan", "--workers", "1"]

# The reports that stand beside the plans, by their endings.
REPORTS = {".report": ["report"], ".report.json": ["report", "--json", "yes"]}


# What is made of a scenario of examples/, by its file: the command, with one worker where it searches, the scenario, and the names.
MADE = {
    "drifting-grid-flown.made": ("replan --workers 1", "drifting-grid", "flown r0c1 r0c2 r0c3"),
    "night-two.made": ("duo --workers 1", "night", "start landing"),
    "night-flown.map": ("map", "night", "flown cliff cliff"),
}


class Text(unittest.TestCase):
    """A case: an input for the program, and what it has to answer. What the script is asked for it, where that names files, is `asked`."""

    def __init__(self, name, words, given, status, out=None, err="", asked=None):
        super().__init__()
        self.name, self.words, self.given, self.status, self.out, self.err, self.asked = name, words, given, status, out, err, asked

    def shortDescription(self):
        return self.name

    @property
    def compiles(self):
        """Whether the case compiles the sources."""
        return not is_built()

    def answer(self):
        """What is answered: by the script, or else by what `rt try` answered before."""
        if not is_built() and not is_the_scripts(self):
            return TRIED[tuple(self.words), self.given]
        return run([f"{TOP}/osp", *(self.asked or self.words)], b"" if self.asked else self.given, cwd=TOP)

    def runTest(self):
        ran = self.answer().gives(self.status, self.out)
        self.assertEqual(ran.err, self.err)


class Shown(Text):
    """A command of a document: what it writes is what the document shows, up to the last of so many lines, if any."""

    def __init__(self, name, words, given, lines, shown, asked):
        super().__init__(name, words, given, None, asked=asked)
        self.lines, self.shown = lines, shown

    def runTest(self):
        ran = self.answer()
        lines = (ran.out + ran.err).splitlines(True)
        self.assertEqual("".join(lines[: self.lines or None]), self.shown)


class Spelled(Text):
    """Words for the program itself, and whether they spell a command."""

    def __init__(self, words, is_command):
        super().__init__(f"the program's words: {' '.join(words)}", words, b"", None)
        self.is_command = is_command

    def answer(self):
        """What the program answers, without the script."""
        return run([f"{TOP}/crates/osp/out/osp", *self.words]) if is_built() else super().answer()

    def runTest(self):
        ran = self.answer()
        if self.is_command:
            self.assertNotEqual(ran.status, 2)
            self.assertNotIn("usage", ran.err)
        else:
            self.assertEqual((ran.status, ran.out, ran.err), (2, "", f"{USAGE}\n"))


LAKE = b"""scenario 1
horizon 2
parts 1 4 10
grid 2 2
start r0c0
first r1c1 1
spread 1
rate 3
end
"""
USAGE = "usage: osp plan [--workers N] [--nodes N] / check / report [--json yes] / make NUMBER / drill NUMBER [--workers N] / convert / gap [--workers N] [--nodes N] / checkgap / replan [--workers N] [--nodes N] flown NAME .. / map flown NAME .. / duo [--workers N] [--nodes N] start NAME"


def rows():
    """The table "you wrote, it says, do this" of docs/COMMANDS.md: what stands in the first column, and its cases."""
    two, plan = read(f"{EXAMPLES}/two-cells.scenario"), read(f"{EXAMPLES}/two-cells.plan")
    other = read(f"{EXAMPLES}/small-lake.plan")
    shorter = read(f"{EXAMPLES}/waiting-target.plan")
    lake = lambda old, new: LAKE.replace(old, new)
    bad = lambda words, given, says: (words, given, 3, "", says)
    return [
        ("`rate 0.3`", [bad("plan", lake(b"rate 3", b"rate 0.3"), "bad scenario: line 8 BadNumber")]),
        ("`rate 30%`", [bad("plan", lake(b"rate 3", b"rate 30%"), "bad scenario: line 8 BadNumber")]),
        ("a note behind a line: `horizon 2 # two periods`", [bad("plan", lake(b"horizon 2", b"horizon 2 # two periods"), "bad scenario: line 2 BadLine")]),
        ("a byte order mark before `scenario 1`", [bad("plan", b"\xef\xbb\xbf" + LAKE, "bad scenario: line 1 NotText")]),
        ("a comment after `end`", [bad("plan", LAKE + b"# a note\n", "bad scenario: line 10 Rest"), ("check", two + b"# a note\n" + plan, 4, "", "bad plan: line 1 BadLine")]),
        ("a scenario without a last line feed, put before a plan by `cat`", [bad("check", two.rstrip(b"\n") + plan, f"bad scenario: line {two.count(10)} BadLine")]),
        ("a plan with carriage returns", [("check", two + plan.replace(b"\n", b"\r\n"), 4, "", "bad plan: line 1 BadLine")]),
        ("a plan with an empty line", [("check", two + plan.replace(b"nodes", b"\nnodes"), 4, "", "bad plan: line 4 BadLine")]),
        ("the plan of another scenario", [("check", two + other, 4, "", "bad plan: line 2 UnknownName"), ("check", read(f"{EXAMPLES}/waiting-longer.scenario") + shorter, 1, "rejected 2 PathIllegal\n", "")]),
    ]


def table_of_commands():
    """The rows of that table, as docs/COMMANDS.md has them."""
    with open(f"{TOP}/docs/COMMANDS.md", encoding="utf-8") as file:
        part = file.read().split("| you wrote | it says | do this |\n", 1)[1]
    found = []
    for line in part.splitlines()[1:]:
        if not line.startswith("|"):
            break
        found.append([it.strip() for it in line.strip("|").split(" | ")])
    return found


def without_lines(says):
    return re.sub(r"line \d+ ", "line N ", says)


def texts_of_rows():
    """The cases of the table, and what the table and its cases don't have in common."""
    stated = {wrote: without_lines(says) for wrote, says, *_ in table_of_commands()}
    texts, wrong = [], [f"no case for the row of docs/COMMANDS.md: {it}" for it in stated if it not in dict(rows())]
    for wrote, cases in rows():
        for at, (words, given, status, out, err) in enumerate(cases):
            says = without_lines(out + err).strip()
            if f"`{says}`" not in stated.get(wrote, ""):
                wrong.append(f"docs/COMMANDS.md doesn't say `{says}` of: {wrote}")
            name = f"you wrote {wrote}{f' ({at + 1})' if at else ''}"
            texts.append(Text(name, words.split(), given, status, out, f"{err}\n" if err else ""))
    return texts, wrong


def names_of_examples():
    """The files of examples/, and those of its folder of situations, where plans have no reports beside them."""
    return [it for it in sorted(os.listdir(EXAMPLES)) if it != "situations"], [f"situations/{it}" for it in sorted(os.listdir(f"{EXAMPLES}/situations"))]


def texts_of_examples():
    """Each scenario of examples/ gives the plan beside it, that plan is accepted, and its reports are those beside it; and
    what is lacking there."""
    texts, wrong = [], []
    names, situations = names_of_examples()
    for name in names + situations:
        stem, kind = os.path.splitext(name)
        given = read(f"{EXAMPLES}/{name}")
        if kind == ".scenario" and not given.startswith(b"# "):
            wrong.append(f"examples/{name} doesn't begin with a comment on what it stands for")
        if kind == ".scenario" and not os.path.exists(f"{EXAMPLES}/{stem}.plan"):
            wrong.append(f"examples/{name} has no plan beside it")
        elif kind == ".scenario":
            plan = read(f"{EXAMPLES}/{stem}.plan")
            texts.append(Text(f"the plan of examples/{name}", PLAN, given, 0, plan.decode()))
            texts.append(Text(f"the check of examples/{stem}.plan", ["check"], given + plan, 0, "accepted\n"))
            for ending, words in REPORTS.items():
                if os.path.exists(f"{EXAMPLES}/{stem}{ending}"):
                    report = read(f"{EXAMPLES}/{stem}{ending}").decode()
                    texts.append(Text(f"examples/{stem}{ending}", words, given + plan, 0, report))
                elif name not in situations:
                    wrong.append(f"examples/{name} has no {ending[1:]} beside it")
    return texts, wrong


def texts_of_made():
    """Each made scenario of examples/ with its plan, and each map, is what its command writes, and such a plan is accepted; and
    what is lacking there, or in examples/README.md, which has the command."""
    there = [it for it in names_of_examples()[0] if it.endswith((".made", ".map"))]
    wrong = [f"no command is known of examples/{it}" for it in there if it not in MADE]
    texts, told = [], read(f"{EXAMPLES}/README.md").decode()
    for name, (command, of, names) in MADE.items():
        if name not in there:
            wrong.append(f"there is no examples/{name}")
            continue
        shown = f"./osp {command.split()[0]} examples/{of}.scenario {names}\n"
        if shown not in told or f"`{name}`" not in told:
            wrong.append(f"examples/README.md doesn't have `{name}`, or its command: {shown}")
        made = read(f"{EXAMPLES}/{name}")
        texts.append(Text(f"examples/{name}", [*command.split(), *names.split()], read(f"{EXAMPLES}/{of}.scenario"), 0, made.decode()))
        if name.endswith(".made"):
            texts.append(Text(f"the check of examples/{name}", ["check"], made, 0, "accepted\n"))
    return texts, wrong


def texts_of_limits():
    """As many cells and positions as there may be. One position covers nothing, two cover all cells, and miss half of what is
    there; the least of these two is written."""
    cells, positions = [f"c{it}" for it in range(200)], [f"p{it}" for it in range(200)]
    everywhere = "".join(f" {it} 1" for it in cells)
    lines = ["scenario 2", "horizon 1", "parts 200 1 2", *(f"cell {it}" for it in cells), *(f"position {it}" for it in positions)]
    lines += ["start p0", f"first{everywhere}", "moves p0 p2 p1 p0", *(f"moves {it} {it}" for it in positions[1:])]
    lines += [f"drift {it} {it} 1" for it in cells]
    lines += ["look p0", f"look p1{everywhere}", f"look p2{everywhere}", *(f"look {it}" for it in positions[3:]), "end"]
    plan = "plan 2\npath p1\nchance 200 400\nnodes 4\nB\nW 0\nW 200\nW 200\nend\n"
    return [Text("200 cells, and 200 positions to look from", PLAN, "".join(f"{it}\n" for it in lines).encode(), 0, plan)]


# A command of a document, from the top of the repository: `$ ./osp WORDS`, which may name files, perhaps with `< FILE` behind
# it or `cat FILES |` before it, and with `| head -n N` behind it.
COMMAND = re.compile(r"(?:cat (?P<files>[^|<>;]+) \| )?\./osp(?P<words>(?: [\w./=-]+)*)(?: < (?P<file>\S+))?(?: \| head -n (?P<lines>\d+))?")


def documents():
    """The names of the documents."""
    own = ["README.md", "CONTRIBUTING.md", "SECURITY.md", "CHANGELOG.md", "examples/README.md"]
    return own + [f"docs/{it}" for it in sorted(os.listdir(f"{TOP}/docs")) if it.endswith(".md")]


def shown_in(text):
    """Each command of a document that stands behind "$ " in a block, with what stands below it."""
    found = []
    for block in re.findall(r"^```\n(\$ .*?)^```", text, re.M | re.S):
        found += re.findall(r"^\$ (.*)\n((?:(?!\$ ).*\n)*)", block, re.M)
    return found


def shown_by(name, command, out):
    """The case of a command that a document shows with what it writes, or None where no case can run it."""
    found = COMMAND.fullmatch(command)
    if not found:
        return None
    asked = found["words"].split()
    named = [it for it in asked if os.path.isfile(f"{TOP}/{it}")]
    files = named or (found["files"] or found["file"] or "/dev/null").split()
    given = b"".join(read(os.path.join(TOP, it)) for it in files)
    words = [it for it in asked if it not in named]
    return Shown(f"{name}: {command}", words, given, int(found["lines"] or 0), out, asked if named else None)


def texts_of_documents():
    """Each command that a document shows with what it writes, and what no case can run."""
    texts, wrong = [], []
    for name in documents():
        for command, out in shown_in(read(f"{TOP}/{name}").decode()):
            text = shown_by(name, command, out)
            if text:
                texts.append(text)
            else:
                wrong.append(f"{name}: {command}")
    return texts, wrong


@functools.cache
def is_built():
    """Whether ./osp runs a program that was built from these sources: that needs no rt."""
    ran = run([f"{TOP}/osp", "plan"], read(f"{EXAMPLES}/one-cell.scenario"), env={"PATH": "/usr/bin:/bin"})
    return ran.status == 0 and ran.err == ""


def is_the_scripts(text):
    """Whether the script answers a text by itself: it is shown with a line of the script's own."""
    return isinstance(text, Shown) and text.shown.startswith("osp: ")


def texts_of_words():
    """Words for the program itself: it takes those that the script takes, and no others. (By `rt try` each text takes seconds: there one
    answer to wrong words is enough.)"""
    return [Spelled(it.words, not it.wrong) for it in ROWS] if is_built() else [Spelled(["fly"], False)]


@functools.cache
def texts():
    """All texts."""
    return [*texts_of_rows()[0], *texts_of_examples()[0], *texts_of_made()[0], *texts_of_limits(), *texts_of_words(), *texts_of_documents()[0]]


# What `rt try` answers to the words and the input of each text, where there is no built program.
TRIED = {}


def setUpModule():
    """Lets `rt try`, which compiles once for all, answer the texts of this module where there is no built program."""
    if is_built():
        return
    asked = [it for it in texts() if not is_the_scripts(it)]
    with tempfile.TemporaryDirectory(prefix="front-door-") as folder:
        for at, text in enumerate(asked):
            for ending, what in (("", text.given), (".args", "".join(f"{it}\n" for it in text.words).encode())):
                with open(f"{folder}/case-{at:03}{ending}", "wb") as file:
                    file.write(what)
        done = run(["rt", "try", "--cases", folder], cwd=f"{TOP}/crates/osp")
    outs = re.split(r"^== case-\d+\n", done.out, flags=re.M)[1:]
    errs = re.findall(r"((?:.*\n)*?)case=case-\d+ run=ended status=(\d+) .*\n", done.err)
    if not len(asked) == len(outs) == len(errs):
        raise AssertionError(f"rt try answered {len(outs)} of {len(asked)} texts: {done.err[-600:]}")
    for text, out, (err, status) in zip(asked, outs, errs):
        TRIED[tuple(text.words), text.given] = Ran(int(status), out.encode(), err.encode())
