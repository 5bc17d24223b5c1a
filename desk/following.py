"""./osp next SCENARIO [PLAN] [--flown K | --flown NAME,NAME,..] [--horizon N]: the scenario from there on, where so many periods of an
accepted plan, or looks from these positions, found nothing.

The plan is asked of the program's `check` first. The scenario goes to standard output; what was rounded, and what its chances
mean, to standard error.
"""
import dataclasses
import math
import os
import shlex

from desk import accepted, alone, comments, derived, forms, layout, onward, percent, quoting, running, unmade, writing
from desk.accepted import Refused
from desk.limits import MOST_NAMES, MOST_PERIODS, MOST_SCENARIO
from desk.squares import squares
from desk.status import Status
from desk.words import BadWords, Words

WORDS = Words(
    "next",
    "next SCENARIO [PLAN] [--flown K | --flown NAME,NAME,..] [--horizon N]",
    "writes the scenario that goes on where the first K periods of the plan, or looks from these positions, found nothing",
    ("SCENARIO", "the scenario's file, or one that has its plan behind it, as replan and duo write both"),
    ("PLAN", "the file of a plan or of a gap plan; none where --flown has names"),
    ("--flown K", "how many of its periods were flown, all where it is not given; or the names of the positions that were looked from, "
                  "with commas between them, whether moves lead there or not"),
    ("--horizon N", "how many periods the new scenario has; what is left of the old ones where it is not given"),
)
# The line of a scenario that `draft` made, before those of its situation.
DRAFTED = b"\n# " + comments.SITUATION + b"\n"
# From what share of the mass that is left on the rounding is called coarse.
COARSE = (1, 1000)


@dataclasses.dataclass
class Asked:
    """What the words ask for: the files of a scenario and its plan, or the one that has both; K and N or None each; and the names of the
    positions that were flown, in place of a plan and K, or None."""

    files: list
    flown: int | None
    horizon: int | None
    names: list | None = None


def taken(words):
    """What the words ask for. Raises BadWords."""
    files, found = WORDS.taken(words)
    flown, horizon = found["--flown"], found["--horizon"]
    horizon = None if horizon is None else WORDS.number("--horizon", horizon, 1, MOST_PERIODS)
    if not 1 <= len(files) <= 2:
        raise BadWords("a scenario's file and a plan's are needed, or one file with both")
    if files.count("-") > 1:
        raise BadWords("standard input can be read once, and stands for one file")
    if flown is None or flown.isdecimal():
        return Asked(files, None if flown is None else WORDS.number("--flown", flown, 1, MOST_PERIODS), horizon)
    names = flown.split(",")
    if len(files) == 2:
        raise BadWords("names of positions behind --flown stand in place of a plan: leave the plan out, or write how many of its periods were flown")
    if len(names) > MOST_NAMES or not all(names):
        raise BadWords(f"behind --flown stand 1 to {MOST_NAMES} names with a comma between two, as in --flown r2c2,r1c2")
    return Asked(files, None, horizon, names)


def periods(sc, flown, horizon):
    """How many periods were flown, how many follow, and why so many."""
    flown = sc.horizon if flown is None else flown
    if flown > sc.horizon:
        raise Refused(Status.WRONG_WORDS, f"--flown is 1 to {sc.horizon}, the periods of the plan")
    if horizon is not None:
        return flown, horizon, "as --horizon says"
    if flown < sc.horizon:
        return flown, sc.horizon - flown, f"what is left of {sc.horizon}"
    return flown, sc.horizon, "as many as before, since nothing of the old horizon is left"


def places(text, sc):
    """The comments of a scenario that say where its cells, their squares and its positions lie, without their number signs."""
    placed = {*sc.names, *sc.positions, *squares(sc).names}
    found = (layout.AT.fullmatch(it.strip(b" \t\r")) for it in text.split(b"\n"))
    return [it[0].removeprefix(b"#").strip() for it in found if it and it[1] in placed]


def decimal(share):
    """A positive share with two digits, rounded up, as in 0.00026; 0 as it is."""
    if share == 0:
        return "0"
    digits = 1
    while share * 10**digits < 10:
        digits += 1
    units = math.ceil(share * 10**digits)
    return f"{units // 10**digits}.{units % 10**digits:0{digits}}"


def replan(sc, flown, name, is_made=False):
    """The words that plan what comes behind these positions, by a scenario in a file of this name, which may have a plan behind it."""
    names = " ".join(shlex.quote(quoting.name(sc.positions[it])) for it in flown)
    return f"./osp replan {name} flown {names}" if is_made else f"./osp replan flown {names} < {name}"


def told(sc, path, flown, why, it, is_draft):
    """What is said on standard error of the scenario from there on. `is_draft` says whether `draft` made the one before."""
    new, p1 = it.sc, it.found
    at = quoting.name(sc.positions[new.start])
    yield f"behind period {flown} of {sc.horizon}: the searcher starts at {at}, and the horizon is {quoting.counted(new.horizon, 'period')} ({why})"
    if flown + new.horizon > sc.horizon:
        yield f"periods behind period {sc.horizon} have the looks of period {sc.horizon}, and the drift of the last step before it"
        if is_draft:
            yield (
                f"that drift is counted from tracks that end at period {sc.horizon}, and says little of what comes behind it: rather draft the "
                f"situation anew with more periods, and plan the rest by {replan(sc, path[:flown], 'THAT_SCENARIO')}"
            )
    p2 = f"{p1} + {1 - p1}*P2"
    yield f"P1, the chance that the {quoting.counted(flown, 'period')} flown find the target, is {percent.cut(p1.numerator, p1.denominator)} percent: {p1}"
    yield f"chances from here (P2) hold given that nothing was found; together they are P1 + (1 - P1)*P2 = {p2}"
    a = f"A is {new.parts[0]:,}"
    if it.moved == 0:
        yield f"{a}: nothing was rounded"
        return
    yield f"{a}, the finest that D {new.parts[1]}, G {new.parts[2]} and this horizon leave: the share of no cell was rounded by more than {decimal(it.largest)}"
    yield f"the chance of a path from here (P2) is off by {decimal(it.moved)} at most"
    if it.moved * COARSE[1] > COARSE[0]:
        yield "that is coarse: a smaller --horizon rounds less"


def exactly(sc, path, flown, name, is_made):
    """What is said of the rest of the same horizon: the words that plan it exactly, or why none do. `name` is the scenario's file, and
    `is_made` whether that has a plan behind it."""
    head = f"for what is left of the same {quoting.counted(sc.horizon, 'period')} replan is exact, and shows that no path that begins so is better"
    try:
        derived.forced(sc, path[:flown])
    except derived.Refused as why:
        return f"{head}; but not here: bad flown: {why}"
    return f"{head}: {replan(sc, path[:flown], 'SCENARIO' if name == '-' else quoting.shell(name), is_made)}"


def text_of(sc, old, flown, it, what):
    """The text of the scenario from there on, read again and found to be that scenario. `what` was flown."""
    head = f"From behind period {flown} of {what} of {quoting.counted(sc.horizon, 'period')}, whose looks found nothing until then (osp next)."
    given = f"Chances hold given that. These looks find the target with {percent.cut(it.found.numerator, it.found.denominator)} percent."
    text = writing.scenario_text(it.sc, [head, given, *comments.carried(old, flown, it.sc.horizon), *places(old, sc)])
    if len(text) > MOST_SCENARIO:
        raise Refused(Status.TOO_LONG, f"the new text has {len(text):,} bytes, and {MOST_SCENARIO:,} are the most: take a smaller --horizon")
    if forms.read_scenario(text, True)[0].key() != it.sc.key():
        raise Refused(Status.FAILED, "the new text isn't what it should be; please tell the project, with both files")
    return text


def planned(files):
    """The scenario of these files, the path of its accepted plan, the scenario's text and the program's note. Of a scenario that forces a
    flown prefix the one that it was made of. Raises Refused."""
    scenario, plan = accepted.texts(files)
    if len(files) == 1 and not plan:
        raise Refused(Status.BAD_PLAN, "no plan stands behind the scenario: name the plan's file, or write the positions behind --flown")
    given = accepted.joined(scenario, plan)
    note = accepted.accept(given, plan)
    try:
        sc, behind = forms.read_scenario(given, False)
        path = forms.read_plan(behind.lstrip(b" \t\r\n"), sc, forms.family_of(plan)).path
    except forms.Fault as fault:
        raise Refused(Status.FAILED, f"what osp {accepted.check_of(plan)} accepted isn't understood: {fault}") from None
    return *alone.unforced(sc, path), scenario, note


def named(file, names):
    """The scenario of a file, the positions that were flown, by their names, and the scenario's text. Raises Refused."""
    scenario, _ = accepted.texts([file])
    try:
        sc, _ = alone.unforced(forms.read_scenario(scenario, False)[0], [])
    except forms.Fault as fault:
        raise Refused(Status.BAD_SCENARIO, f"bad scenario: {fault}") from None
    given = list(map(os.fsencode, names))
    for _, says in unmade.about_names(sc, given):
        raise Refused(Status.BAD_FLOWN, f"--flown: {says}")
    return sc, [sc.positions.index(it) for it in given], scenario, ""


def no_moves(sc, flown):
    """A line on the first period in which the searcher was where no move of the scenario leads, or none."""
    for kind, says in unmade.about_moves(sc, [sc.positions[it] for it in flown]):
        if kind == "NotLegal":
            return [f"{says}: its look counts all the same"]
    return []


def followed(asked):
    """The text of the scenario from there on, and what is said of it. Raises Refused."""
    sc, path, scenario, note = planned(asked.files) if asked.names is None else named(asked.files[0], asked.names)
    flown, horizon, why = periods(sc, asked.flown or len(path), asked.horizon)
    try:
        it = onward.onward(sc, path, flown, horizon)
    except onward.NoWay as no:
        raise Refused(no.status, str(no)) from None
    exact = [exactly(sc, path, flown, asked.files[0], len(asked.files) == 1 and asked.names is None)] if flown + horizon == sc.horizon else []
    lines = [*no_moves(sc, path[:flown]), *told(sc, path, flown, why, it, DRAFTED in scenario), *exact]
    what = "a plan" if asked.names is None else "a search"
    return text_of(sc, scenario, flown, it, what), [*filter(None, [note]), *(f"osp next: {line}" for line in lines)]


def main(words):
    """Runs the helper; answers its exit status."""
    try:
        text, said = followed(taken(words))
    except BadWords as wrong:
        return WORDS.refuse(wrong)
    except Refused as why:
        running.say(f"osp next: {why.said}")
        return why.status
    for line in said:
        running.say(line)
    return running.write_bytes(text)
