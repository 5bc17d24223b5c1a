"""Why a plan or a gap plan isn't accepted, in words: what stands at the line that the program names, and what would be right there."""
from desk import forms, paths, quoting, verdict

# The longest plan that is read here, in bytes, and the longest of which all records are checked, in records times cells times
# periods: each takes some seconds.
MOST_BYTES = 64 << 20
MOST_CHECKED = 400_000
RECORDS = {
    b"B": "a branch",
    b"W": "a whole path",
    b"M": "a mean bound",
    b"T": "a tangent bound",
    b"E": "an edge bound",
    b"X": "an exchange bound",
    b"D": "a two-look bound",
    b"O": "a prefix that waits",
}
BOUNDS = {b"M": "mean", b"T": "tangent", b"E": "edge", b"X": "exchange", b"D": "two-look"}
# The number of a prefix that waits, by the letter of the bound by which it does.
CEILINGS = {b"M": "their mean bound", b"E": "the lesser of their edge bound and the whole weight"}
PLAN = "a plan isn't mended by hand: `./osp plan` makes it anew, and `./osp gap` a gap plan"


def path_of(sc, path):
    """Positions by their names."""
    return " ".join(quoting.name(sc.positions[it]) for it in path)


def beginning(sc, prefix):
    """A prefix in words."""
    return f"the paths that begin with {path_of(sc, prefix)}" if prefix else "all paths"


def number_of(plan, line):
    """The number of the record in a line, from 0 on."""
    return line - plan.dialect.line_of(0)


def due_before(sc, plan, count):
    """The prefixes that are due behind so many records, the next one last."""
    due = [[]]
    for letter, _, prefix, _ in plan.records[:count]:
        due.pop()
        if letter == b"B":
            due += [[*prefix, it] for it in reversed(sc.moves[prefix[-1] if prefix else sc.start])]
    return due


def about_path(sc, plan, _line):
    """A path that doesn't follow the moves, or has another length than the horizon."""
    at = sc.start
    for t, position in enumerate(plan.path, 1):
        if position not in sc.moves[at]:
            here, there = quoting.name(sc.positions[at]), quoting.name(sc.positions[position])
            moves = quoting.listed([quoting.name(sc.positions[it]) for it in sc.moves[at]])
            return f"the path goes from {here} to {there} in period {t}, and the moves from {here} are {moves}: is it the plan of another scenario?"
        at = position
    return f"the path has {quoting.counted(len(plan.path), 'position')}, and the horizon is {quoting.counted(sc.horizon, 'period')}"


def about_value(sc, plan, _line):
    return f"`chance` states {plan.value}, and the path {path_of(sc, plan.path)} finds {paths.value(sc, plan.path)} of {paths.weight(sc)}"


def about_weight(sc, plan, _line):
    return f"`chance` states the weight {plan.weight}, and it is A·D^(T-1)·G^T = {paths.weight(sc)}"


def about_missing(sc, plan, line):
    """A prefix that has no record."""
    due = due_before(sc, plan, number_of(plan, line))
    said = f"a record for {beginning(sc, due[-1])} is due here" if due else "a record is due here"
    if number_of(plan, line) < len(plan.records):
        return f"{said}, and one for {beginning(sc, plan.records[number_of(plan, line)][2])} stands in its place: a path without record may be better"
    return f"{said}, and `end` stands in its place: a path without record may be better"


def about_extra(sc, plan, line):
    """A record whose prefix isn't due."""
    due = due_before(sc, plan, number_of(plan, line))
    said = f"this record is for {beginning(sc, plan.records[number_of(plan, line)][2])}, "
    return said + (f"and one for {beginning(sc, due[-1])} is due here" if due else "and none is due any more")


def about_whole(sc, plan, line):
    """A record of a whole path with a wrong length or value."""
    letter, stated, prefix, _ = plan.records[number_of(plan, line)]
    if letter == b"X" and len(prefix) < sc.horizon:
        asks = f"an exchange asks for {verdict.EXCHANGES_FROM} periods or more, and for a prefix of 2 positions or more"
        return f"{asks}: here the horizon is {quoting.counted(sc.horizon, 'period')}, and the prefix has {quoting.counted(len(prefix), 'position')}"
    if letter == b"D" and len(prefix) < sc.horizon:
        return f"a two-look bound asks for {verdict.TWO_LOOKS_FROM} periods or more: here the horizon is {quoting.counted(sc.horizon, 'period')}"
    if letter != b"W":
        return f"{RECORDS[letter]} stands at {path_of(sc, prefix)}, which is a whole path: it takes a record W with its value"
    if len(prefix) != sc.horizon:
        return f"a whole path has {quoting.counted(sc.horizon, 'position')}, and {path_of(sc, prefix)} has {len(prefix)}"
    return f"the path {path_of(sc, prefix)} is stated to find {stated}, and it finds {paths.value(sc, prefix)} of {paths.weight(sc)}"


def about_rate(sc, _plan, _line):
    parts = sorted({part for t in range(1, sc.horizon + 1) for it in range(len(sc.positions)) for part in sc.look(t, it).values()})
    return f"a tangent bound holds where all looks miss equally often, and here they miss {quoting.listed([str(it) for it in parts])} of {sc.parts[2]}"


def about_reference(sc, plan, line):
    """A path that a tangent can't be at, or a position that can't take the place of a prefix's last but one."""
    letter, _, prefix, reference = plan.records[number_of(plan, line)]
    if letter == b"T":
        return f"the tangent's path {path_of(sc, reference)} isn't a legal path that belongs to {beginning(sc, prefix)}"
    (position,) = reference
    here, period = quoting.name(sc.positions[position]), len(prefix) - 1
    if position == prefix[-2]:
        return f"{path_of(sc, prefix)} has {here} in period {period} itself: an exchange puts another position there"
    before, own, behind = [sc.start, *prefix][-3:]
    way = (before, position) if position not in sc.moves[before] else (position, behind)
    why = " to ".join(quoting.name(sc.positions[it]) for it in way)
    return f"{here} can't take the place of {quoting.name(sc.positions[own])} in period {period}: no move leads from {why}"


def about_bound(sc, plan, line):
    """A bound that isn't the prefix's."""
    letter, stated, prefix, reference = plan.records[number_of(plan, line)]
    right = verdict.right(sc, letter, prefix, reference)
    way = "less: a better path might hide behind it" if stated < right else "more"
    return f"{RECORDS[letter]} of {stated} is stated for {beginning(sc, prefix)}; the right one is {right}, and what is stated is {way}"


def about_cut(sc, plan, line):
    """A record that leaves room for a better path."""
    letter, stated, prefix, reference = plan.records[number_of(plan, line)]
    if letter == b"X":
        value, other = verdict.standing(sc, plan, letter, prefix, reference)
        over = f"over {path_of(sc, other)}, which finds {value} by then,"
        return f"{over} the exchange bound of {beginning(sc, prefix)} is {stated}: one of them may find more than the same behind the other, so that records below are needed"
    if letter == b"W":
        better = "more" if stated > plan.value else "as much, and has smaller position numbers"
        return f"the path {path_of(sc, prefix)} finds {stated}, which is {better}: the plan's path finds {plan.value} and isn't the best"
    value = plan.value * (sc.parts[2] if letter == b"T" else 1)
    what = f"the plan's path finds {plan.value}" + (f", {value} in the tangent's parts" if letter == b"T" else "")
    return f"the {BOUNDS[letter]} bound of {beginning(sc, prefix)} is {stated}, and {what}: it leaves room for a better path, so that records below are needed"


def about_waiting(sc, plan, line):
    """A number of a prefix that waits which isn't its ceiling."""
    _, stated, prefix, _ = plan.records[number_of(plan, line)]
    right = verdict.ceiling(sc, prefix, plan.dialect.waits_by)
    what = "the value of this path" if len(prefix) == sc.horizon else CEILINGS[plan.dialect.waits_by]
    others = [version.decode() for version, it in forms.GAPS.items() if verdict.ceiling(sc, prefix, it.waits_by) == stated]
    way = f"that of `{others[0]}`" if others else "less: a better path might hide behind it" if stated < right else "more"
    return f"{beginning(sc, prefix)} wait with the number {stated}; what none of them exceeds is {right}, {what}, and what is stated is {way}"


def about_ceiling(_sc, plan, _line):
    waiting = [bound for letter, bound, *_ in plan.records if letter == b"O"]
    return f"`ceiling` states {plan.ceiling}, and the greatest of the path's value and of the numbers that wait is {max([plan.value, *waiting])}"


ABOUT = {
    "PathIllegal": about_path,
    "ValueWrong": about_value,
    "WeightWrong": about_weight,
    "MissingChild": about_missing,
    "NotChild": about_extra,
    "WholeWrong": about_whole,
    "NoOneRate": about_rate,
    "ReferenceWrong": about_reference,
    "BoundWrong": about_bound,
    "NotCut": about_cut,
    "WaitingWrong": about_waiting,
    "CeilingWrong": about_ceiling,
}


def second_opinion(sc, plan, line, why):
    """What this helper's own checker says of the whole plan, where it is short enough."""
    if len(plan.records) * len(sc.names) * sc.horizon > MOST_CHECKED:
        return "the plan is too long for this helper's own checker to go through it: the line and the reason are the program's alone"
    own = verdict.first_reason(sc, plan)
    return None if own == (line, why) else f"this helper's own checker says {own or 'accepted'}: please tell the project, with both files"


def because(sc, text, line, why):
    """What is said of a rejection: a list of texts. `text` is the plan's."""
    if len(text) > MOST_BYTES:
        return [f"the plan has {len(text):,} bytes, too many for this helper to look into it"]
    try:
        plan = forms.read_plan(text, sc, forms.family_of(text))
        told = [ABOUT[why](sc, plan, line), second_opinion(sc, plan, line, why)]
    except (forms.Fault, KeyError, IndexError) as fault:
        return [f"this helper can't follow the program's reason ({fault!r}): please tell the project, with both files"]
    return [it for it in told if it]


# ---- texts that are no plan

BAD = {
    "EarlyEnd": "the plan ends in the middle: it was cut off",
    "BadLine": "this isn't the line that is due here",
    "BadNumber": "a field isn't a whole number as the plan's text has it, or not the number of a position",
    "TooManyNodes": "more than {most:,} records are announced",
    "WrongCount": "the number of records isn't that of the line `nodes`",
    "Rest": "something stands behind `end`",
    "NoPlace": "this record is one too many: no path is left for it",
    "StillOpen": "`end` stands here, and records are still due: some are missing",
}


def no_plan(sc, text, line, kind):
    """What is said of a text that is no plan, for its first fault."""
    lines = text.split(b"\n")
    here = lines[line - 1] if line <= len(lines) else b""
    if not text.strip():
        return "the plan's file is empty"
    if b"\r" in here:
        return "the line ends with a carriage return: `tr -d '\\r' < PLAN` takes them off"
    if kind == "UnknownName":
        lacking = [quoting.field(it) for it in dict.fromkeys(here.split(b" ")[1:]) if it not in sc.positions]
        return f"this scenario has no position {quoting.listed(lacking)}: is it the plan of another one?"
    if kind == "BadLine" and line == 1:
        hint = ": that is a scenario; the scenario comes first, and then the plan" if here.startswith((b"scenario", b"#")) else ""
        plans, gaps = (quoting.either([f"`{it.decode()}`" for it in family]) for family in (forms.PLANS, forms.GAPS))
        return f"a plan begins with {plans}, and a gap plan with {gaps}{hint}"
    if kind == "BadLine" and not here:
        return "the line is empty, and a plan has no empty lines"
    most = max(it.most for it in forms.family_of(text).values())
    return f"{BAD[kind].format(most=most)}; {PLAN}"
