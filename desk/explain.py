"""./osp explain SCENARIO [PLAN | flown NAME .. | start NAME]: what is wrong with a scenario, with a plan, or with names for `replan`
and `duo`, all of it, and what to write; and what may not be meant.

The first line is the program's own verdict, and the exit status is that of its answer. All below it is this helper's.
"""
import collections
import math
import os
import re

from desk import accepted, advice, alone, faults, forms, paths, program, quoting, rejection, running, unmade, wording
from desk.limits import MOST_SCENARIO
from desk.status import Status
from desk.words import BadWords, Words

WORDS = Words(
    "explain",
    "explain SCENARIO [PLAN | flown NAME .. | start NAME]",
    "says what is wrong with a scenario, a plan, or names of positions, and what to write",
    ("SCENARIO", "the scenario's file"),
    ("PLAN", "the file of a plan or of a gap plan"),
    ("flown NAME ..", "the names of the positions looked from so far, as replan and map take them; nothing stands behind them"),
    ("start NAME", "the name of the position where another searcher starts, as duo takes it"),
)
# How many lines with faults are shown, and how many faults of one line.
MOST_SHOWN = 200
MOST_IN_LINE = 6
# Of which kinds faults are told together, and from how many on.
ALIKE, MANY = ("BadNumber", "OverLimit", "WrongSum", "PartOver", "DoubleName"), 3
# What is said where this helper has another opinion than the program.
OWN = "(this helper's own verdict is: {}. The program's holds; please tell the project, with the file)"


def asked(words, given, told):
    """The status of the program, and its verdict in one line. What the front door says of the run, as that it is unproved, is said
    once (`told`)."""
    try:
        answer = program.ask(words, given)
    except OSError as why:
        raise accepted.Refused(Status.FAILED, f"cannot run {accepted.shown(program.OSP)}: {why.strerror or why}") from None
    lines = answer.err.decode("utf-8", "replace").splitlines()
    for it in lines:
        if it.startswith("osp: ") and it not in told:
            told.append(it)
            running.say(it)
    if not 0 <= answer.status < Status.FAILED:
        raise accepted.Refused(Status.FAILED, f"the program gave no answer to {words[0]}")
    own = [it for it in lines if not it.startswith("osp: ")]
    return answer.status, answer.out.decode("ascii", "replace").split("\n")[0] if answer.out else "".join(own[-1:])


def program_verdict(scenario, plan):
    """The program's status and its verdict on a scenario, or on a scenario and a plan.

    `check`, and `checkgap` where a gap plan was given, reads up to the line `end`; where it finds a fault in the scenario, `plan` is asked of the scenario alone, so that the
    line is one of this file. `plan` with one record at most is quick: it refuses a wrong text, and else ends with 0 or 8.
    """
    told = []
    if plan is not None:
        status, line = asked([accepted.check_of(plan)], accepted.joined(scenario, plan), told)
        if status != Status.BAD_SCENARIO:
            return status, line
    status, line = asked(["plan", "--workers", "1", "--nodes", "1"], scenario[: MOST_SCENARIO + 1], told)
    return (Status.DONE, "the scenario is right") if status in (Status.DONE, Status.TOO_MANY_RECORDS) else (status, line)


def names_verdict(scenario, names):
    """The program's status and its verdict on the words `flown NAME ..` or `start NAME` for a scenario. With one record at most
    `replan` and `duo` are quick, too."""
    words = [unmade.COMMANDS[names[0]], "--workers", "1", "--nodes", "1", *names]
    status, line = asked(words, scenario[: MOST_SCENARIO + 1], [])
    return (Status.DONE, "the scenario is right, and so are the names") if status in (Status.DONE, Status.TOO_MANY_RECORDS) else (status, line)


# ---- what is printed


def of_line(text_lines, line, says):
    """What is said of a line, behind the line itself."""
    here = text_lines[line - 1] if 0 < line <= len(text_lines) else None
    head = f"line {line:,}: " + (quoting.line(here) if here is not None else "(behind the last line)")
    return [head, *(f"    {it}" for it in says)]


def families(found, text_lines):
    """The faults, those of one kind in lines of one keyword together where they are many: numbers and sums that are wrong alike."""
    told = {}
    for it in found:
        word = wording.split(text_lines[it.line - 1])[:1] if it.kind in ALIKE and it.line <= len(text_lines) else None
        told.setdefault((it.kind, *word) if word else id(it), []).append(it)
    for family in told.values():
        yield from [family] if len(family) >= MANY else ([it] for it in family)


def of_family(family):
    """What is said of faults that are told together: the first of them, and how many more there are."""
    first, *more = family
    same = f" (the same in {quoting.lines(first.more)})" if first.more else ""
    if more:
        lines = sorted({line for it in more for line in (it.line, *it.more)})
        same += f" (and {quoting.counted(len(lines), 'more line')} such as this: {quoting.lines(lines)})"
    return f"{first.kind}: {first.says}{same}"


def of_faults(found, text_lines):
    """All faults: each line with what is wrong with it."""
    by_line = {}
    for family in families(found, text_lines):
        by_line.setdefault(family[0].line, []).append(of_family(family))
    told = []
    for line, says in list(by_line.items())[:MOST_SHOWN]:
        more = len(says) - MOST_IN_LINE
        told += of_line(text_lines, line, says if more < 2 else [*says[:MOST_IN_LINE], f"and {more:,} more in this line"])
    if len(by_line) > MOST_SHOWN:
        told.append(f"and faults in {len(by_line) - MOST_SHOWN:,} more lines")
    return [*told, quoting.counted(sum(1 + len(it.more) for it in found), "fault")]


def of_scenario(text, line):
    """What is said of a scenario that the program refuses with this line."""
    if len(text) > MOST_SCENARIO:
        return []
    found = faults.survey(text)
    told = of_faults(found, faults.lines_of(text)) if found else []
    own = f"bad scenario: line {found[0].line} {found[0].kind}" if found else "right"
    if own != line:
        told.append(OWN.format(own))
    return told


# The letters of records, and what stands behind their count.
RECORDS = {
    b"B": ("branch", "branches"),
    b"W": ("whole path", "whole paths"),
    b"M": ("mean bound", "mean bounds"),
    b"T": ("tangent bound", "tangent bounds"),
    b"E": ("edge bound", "edge bounds"),
    b"X": ("exchange bound", "exchange bounds"),
    b"D": ("two-look bound", "two-look bounds"),
    b"O": ("prefix that waits", "prefixes that wait"),
}


def sizes(sc, plan):
    """How many legal prefixes a scenario has, by counting the walks of each length, and how many records of each kind a plan has."""
    counts, kinds = paths.counts(sc, math.inf), collections.Counter(letter for letter, *_ in plan.records)
    told = [quoting.counted(kinds[letter], *names) for letter, names in RECORDS.items() if kinds[letter]]
    yield f"legal prefixes: {sum(counts):,}, from the empty one to {counts[-1]:,} whole paths of {quoting.counted(sc.horizon, 'period')}"
    yield f"records: {len(plan.records):,}, of them {', '.join(told)}"


def exchanges(sc, plan):
    """What the exchange bounds of a plan say, by the shortest prefix that has one."""
    found = [(prefix, position) for letter, _, prefix, reference in plan.records if letter == b"X" for position in reference]
    if found:
        prefix, position = min(found, key=lambda it: len(it[0]))
        way, by = rejection.path_of(sc, prefix), quoting.name(sc.positions[position])
        yield f"an exchange bound, such as that of {way}: whatever comes behind it, by {by} in period {len(prefix) - 1} the same end finds at least as much"


def of_right(text, plan=None):
    """The warnings of a right scenario, and of its accepted plan its size, what its exchanges say, and its warnings."""
    try:
        sc, _ = forms.read_scenario(text, plan is None)
    except forms.Fault as fault:
        return [OWN.format(f"bad scenario: {fault}")]
    told, size = advice.warnings(sc), []
    if plan and len(plan) < rejection.MOST_BYTES:
        read = forms.read_plan(plan, sc, forms.family_of(plan))
        size = [*sizes(sc, read), *exchanges(sc, read)]
        # Of a gap plan whose path may not be the best nothing is said.
        told += advice.about_plan(sc, read) if read.ceiling == read.value else []
    return [*size, *(f"perhaps not meant: {it}" for it in told)]


def of_plan(scenario, plan, status, line):
    """What is said of a plan that the program doesn't accept."""
    rest = [it for it in faults.survey(scenario) if it.kind == "Rest"] if len(scenario) <= MOST_SCENARIO else []
    if rest:
        return ["of the scenario's file:", *of_faults(rest, faults.lines_of(scenario)), "what stands there was read as the plan"]
    sc, _ = forms.read_scenario(scenario, False)
    plan = plan.lstrip(b" \t\r\n")
    found = re.fullmatch(r"(?:rejected|bad plan: line) ([0-9]+) ([A-Za-z]+)", line)
    if not found:
        return []
    at, why = int(found[1]), found[2]
    says = rejection.because(sc, plan, at, why) if status == Status.WRONG else [rejection.no_plan(sc, plan, at, why)]
    return ["of the plan's file:", *of_line(plan.split(b"\n"), at, says)]


def of_names(scenario, names, line):
    """What is said of names that the program refuses with this line."""
    word, *names = names[0], *map(os.fsencode, names[1:])
    try:
        sc, _ = forms.read_scenario(scenario, True)
    except forms.Fault as fault:
        return [OWN.format(f"bad scenario: {fault}")]
    found = unmade.faults(sc, word, names)
    told = [f"    {kind}: {says}" for kind, says in found]
    own = f"bad {'flown' if word == 'flown' else 'duo'}: {found[0][0]}" if found else "right"
    if own != line:
        told.append(OWN.format(own))
    return [*told, quoting.counted(len(found), "fault")]


def of_words(names):
    """What is said of names that are no words of the program."""
    found = unmade.of_words(names[0], list(map(os.fsencode, names[1:])))
    return [f"    {it}" for it in found] or [f"    this program has no command {unmade.COMMANDS[names[0]]}"]


def explained(scenario, plan, status, line):
    """All that is said behind the verdict."""
    if status == Status.DONE:
        return of_right(scenario, plan)
    if status == Status.BAD_SCENARIO:
        return of_scenario(scenario, line)
    if status in (Status.WRONG, Status.BAD_PLAN):
        return of_plan(scenario, plan, status, line)
    if status == Status.TOO_LONG and len(scenario) > MOST_SCENARIO:
        return [f"a scenario has at most {MOST_SCENARIO:,} bytes, and this one has more"]
    return []


def taken(words):
    """The files and the names of the words. A plan of the name `flown` or `start` is given as ./flown. Raises BadWords."""
    at = 1 if words[1:2] and words[1] in unmade.COMMANDS else len(words)
    files, names = WORDS.taken(words[:at])[0], words[at:]
    if len(names) == 1:
        raise BadWords(f"names of positions stand behind {names[0]}")
    if not 1 <= len(files) <= (1 if names else 2):
        raise BadWords(f"one scenario is explained, perhaps with one plan, and here are {len(files)} files")
    return files, names


def is_made(text):
    """Whether a text has a plan behind its scenario."""
    return accepted.parted(text)[1].startswith((b"plan ", b"gap "))


def told_of(files, names):
    """The exit status and all lines for these files and names."""
    scenario, plan = [*map(accepted.read_file, files), None][:2]
    if names and is_made(scenario):
        # (With names the plan behind a scenario, as replan writes it, is left out.)
        scenario = alone.scenario_of(files[0], scenario)[0]
    status, line = names_verdict(scenario, names) if names else program_verdict(scenario, plan)
    if status in (Status.BAD_FLOWN, Status.BAD_PAIR):
        return status, [line, *of_names(scenario, names, line)]
    if status == Status.WRONG_WORDS and names:
        return status, [line or "these are no words of the program", *of_words(names)]
    return status, [line, *explained(scenario, plan, status, line)]


def main(words):
    """Runs the helper; answers its exit status."""
    try:
        status, lines = told_of(*taken(words))
    except BadWords as wrong:
        return WORDS.refuse(wrong)
    except accepted.Refused as why:
        running.say(f"osp explain: {why.said}")
        return why.status
    return running.write("".join(f"{it}\n" for it in lines)) or status
