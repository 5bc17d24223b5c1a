"""The tables of the front door. Help, the words that are taken, what is read, the man page and the completion are all written from them."""

# The commands of the proved program, a row each: its words, the files that stand for what it reads, what it does, an
# example. A command is added by a row here and nothing else.
# In the words, [--NAME VALUE] may be left out, capitals stand for a value (VALUES says which), and from a word in
# small letters on all words are the program's: the names of positions, one, or several where the row ends with two dots.
COMMANDS = [
    (
        "plan [--workers N] [--nodes N]",
        "SCENARIO",
        "writes the best path, its exact chance, and records that show why no path is better",
        "./osp plan examples/two-cells.scenario",
    ),
    (
        "gap [--workers N] [--nodes N]",
        "SCENARIO",
        "writes a path and its chance, and a ceiling that no path exceeds, with the records that show why",
        "./osp gap --nodes 40 examples/drifting-grid.scenario",
    ),
    (
        "check",
        "SCENARIO PLAN",
        "says whether the plan is accepted, and else the first reason against it",
        "./osp check examples/two-cells.scenario examples/two-cells.plan",
    ),
    (
        "checkgap",
        "SCENARIO PLAN",
        "says whether what gap wrote is accepted, and else the first reason against it",
        "./osp checkgap examples/two-cells.scenario examples/two-cells.gap",
    ),
    (
        "report [--json yes]",
        "SCENARIO PLAN",
        "shows the chance period by period, and where the target may be if nothing is found",
        "./osp report examples/two-cells.scenario examples/two-cells.plan",
    ),
    (
        "convert",
        "SCENARIO PLAN",
        "writes the accepted plan anew, in the version of the text that plan writes",
        "./osp convert examples/two-cells.scenario examples/two-cells-1.plan",
    ),
    (
        "replan [--workers N] [--nodes N] flown NAME ..",
        "SCENARIO",
        "writes the scenario that goes through the positions flown so far, and then on, with its best plan behind it",
        "./osp replan examples/drifting-grid.scenario flown r0c1 r0c2 r0c3",
    ),
    (
        "map flown NAME ..",
        "SCENARIO",
        "shows where the target may be behind each of the looks so far, if they found nothing",
        "./osp map examples/night.scenario flown cliff cliff",
    ),
    (
        "duo [--workers N] [--nodes N] start NAME",
        "SCENARIO",
        "writes the scenario of two searchers, the other of whom starts at this position, with its best plan behind it",
        "./osp duo examples/night.scenario start landing",
    ),
    (
        "make NUMBER",
        "",
        "writes a made scenario of 5 by 5 cells and 8 periods, for drills",
        "./osp make 7",
    ),
    (
        "drill NUMBER [--workers N]",
        "",
        "makes that scenario, plans it, checks the plan, and says what came of it",
        "./osp drill 7",
    ),
]

# The values among these words, a row each: the words, perhaps with their command before them; the least and the most
# number, where it is one; what is taken where they are left out; what it says.
VALUES = [
    (
        "--workers N",
        "1 16",
        "4",
        "how many threads search at once",
    ),
    (
        "--nodes N",
        "1 1048576",
        "1048576",
        "how many records a plan may have",
    ),
    (
        "gap --nodes N",
        "1 65536",
        "65536",
        "how many records there may be before prefixes wait",
    ),
    (
        "--json yes",
        "",
        "",
        "the report as one line of JSON",
    ),
    (
        "NUMBER",
        "0 18446744073709551615",
        "",
        "the number from which the scenario is made",
    ),
    (
        "flown NAME ..",
        "1 32",
        "",
        "the names of the positions looked from so far, in their order",
    ),
    (
        "start NAME",
        "",
        "",
        "the name of the position where the other searcher starts",
    ),
]

# The helpers, a row each: their words, what they do, an example. They are programs of the folder desk/, which take
# these words themselves. They are tested, and not proved.
HELPERS = [
    (
        "draft SITUATION.toml",
        "writes a scenario from a situation: times, reports, currents, wind, the searcher",
        "./osp draft lake.toml -o lake.scenario",
    ),
    (
        "trial SITUATION.toml [PLAN ..] [--path NAME,NAME,..] [--pattern NAME] [--of SCENARIO] [--count N] [--seed N] [--tracks FILE] "
        "[--json yes]",
        "flies paths over simulated drifts, and says what they find beside what their plans say",
        "./osp trial lake.toml lake.plan --pattern all",
    ),
    (
        "vary SITUATION.toml PLAN [--nodes N] [--json yes]",
        "says what a plan finds where the situation is otherwise, and what it costs to be wrong",
        "./osp vary lake.toml lake.plan",
    ),
    (
        "plan --seconds N | --minutes N [SCENARIO] [--workers N] [--json yes]",
        "writes the best plan that can be had in so long, or a gap plan with a ceiling that no path exceeds",
        "./osp plan --seconds 60 lake.scenario -o lake.plan",
    ),
    (
        "next SCENARIO [PLAN] [--flown K | --flown NAME,NAME,..] [--horizon N]",
        "writes the scenario that goes on where the first K periods of the plan, or looks from these positions, found nothing",
        "./osp next lake.scenario lake.plan --flown 4 -o later.scenario",
    ),
    (
        "show SCENARIO [PLAN] [--of SCENARIO] [--trial FILE] [--from HH:MM --minutes N]",
        "writes a page for a browser: the map, the path, and the chances period by period",
        "./osp show lake.scenario lake.plan -o lake.html",
    ),
    (
        "brief SCENARIO [PLAN] [--of SCENARIO] [--trial FILE] [--from HH:MM --minutes N]",
        "writes the same as plain text, for a radio or a tasking form",
        "./osp brief lake.scenario lake.plan --from 19:30 --minutes 15",
    ),
    (
        "chart SCENARIO [PLAN] [--of SCENARIO] [--from TIME --minutes N] [--form NAME]",
        "writes the path for a plotter or a map, as GPX, KML or GeoJSON by the ending of the name behind -o",
        "./osp chart lake.scenario lake.plan -o lake.gpx",
    ),
    (
        "page",
        "writes a page to plan in: one file for any browser, which carries the proved program",
        "./osp page -o osp.html",
    ),
    (
        "split DEPTH SCENARIO FOLDER [--jobs N]",
        "makes a folder of jobs for several machines: a part of the plan for each way to begin with DEPTH looks",
        "./osp split 2 lake.scenario lake.parts",
    ),
    (
        "join FOLDER",
        "checks the parts that these jobs wrote, sees that none is missing, and says the best path and its chance",
        "./osp join lake.parts",
    ),
    (
        "explain SCENARIO [PLAN | flown NAME .. | start NAME]",
        "says what is wrong with a scenario, a plan, or names of positions, and what to write",
        "./osp explain lake.scenario",
    ),
]

# The script's own words, a row each: the words, what they do, an example.
OWN = [
    (
        "build",
        "proves and builds the program; until then each run compiles first, and is unproved",
        "./osp build",
    ),
    (
        "install [PREFIX]",
        "installs the proved program with all that belongs to it, in /usr/local where no PREFIX is given",
        "./osp install ~/.local",
    ),
    (
        "release [FOLDER]",
        "writes a tarball and a Debian package of the proved program, in out/ where no FOLDER is given",
        "./osp release",
    ),
    (
        "--version",
        "says the version, its commit, and which kit proved the program and when",
        "./osp --version",
    ),
    (
        "--help",
        "shows this text",
        "./osp --help",
    ),
]

# How a run of the program ends, a row each: the exit status, and what it says.
STATUSES = [
    (0, "the answer was written"),
    (1, "the plan is not accepted; check and checkgap write why, report and convert say it on standard error"),
    (2, "the words spell no command, and nothing was read"),
    (3, "what was read is not the text of a scenario"),
    (4, "what follows the scenario is not the text of a plan, or for checkgap of a gap plan"),
    (5, "the input could not be read"),
    (6, "the output could not be written"),
    (7, "memory ran out"),
    (8, "the search came to more records than --nodes allows"),
    (9, "the input is too long"),
    (10, "the scenario has no such positions behind flown, or none that can be forced; one word says the cause"),
    (11, "the scenario has no such position behind start, or is too large for two searchers; one word says the cause"),
    (12, "plan --seconds: the time is over, and what was written is a gap plan, which checkgap accepts"),
    (13, "plan --seconds: the time was over before there was anything to write"),
    (70, "not the program, but the script failed, and one line says why"),
]

# Besides 0, the statuses at which what was written is an answer, and is kept behind -o.
ANSWERS = {
    "check": (1,),
    "checkgap": (1,),
    "explain": (1, 3, 4, 8, 9, 10, 11),
}

# Who makes the packages, and hears of faults.
MAINTAINER = "osp maintainers <maintainers@users.noreply.jusingap.example>"


def first(row):
    """The word by which a row is found."""
    return row[0].split(" ", 1)[0]


def found(rows, word):
    """The row of a table whose first word this is, or None."""
    return next((it for it in rows if first(it) == word), None)


def value_of(command, words):
    """The row of a value by its words, behind this command or any; or None."""
    for wanted in (f"{command} {words}", words):
        for it in VALUES:
            if it[0] == wanted:
                return it
    return None
