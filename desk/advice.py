"""Warnings of a scenario that is right and perhaps not meant. Numbers are exact; shares are printed in percent, cut off."""
from desk import paths, percent, quoting, verdict
from desk.squares import row_and_column, squares
from desk.states import LOST

# From what share of the person on at the edge of a grid it is told.
EDGE = (1, 10)


def drifting(sc):
    """Where the target is in each period if nobody looks: masses by cell, in parts of A·D^(t-1) in period t, for t from 1 on."""
    found = [sc.first]
    for t in range(1, sc.horizon):
        found.append(verdict.spread(sc, found[-1], t))
    return found


def reached(sc):
    """The positions that the searcher can be at in each period, from 1 on."""
    here, found = {sc.start}, []
    for _ in range(sc.horizon):
        here = {to for it in here for to in sc.moves[it]}
        found.append(here)
    return found


def seen(sc, reach):
    """The cells in which some look can find the target, by period, where the searcher goes to the right place."""
    g = sc.parts[2]
    return [{cell for it in here for cell, part in sc.look(t, it).items() if part < g} for t, here in enumerate(reach, 1)]


def ever_seen(sc):
    """The cells in which a look from some position in some period can find the target, reached or not."""
    return set().union(*seen(sc, [range(len(sc.positions))] * sc.horizon))


def beyond(sc, covered):
    """How much of the target never comes into a covered cell in its period, and the whole: parts of A·D^(T-1)."""
    left = sc.first
    for t, cells in enumerate(covered, 1):
        left = [0 if cell in cells else mass for cell, mass in enumerate(left)]
        left = verdict.spread(sc, left, t) if t < sc.horizon else left
    return sum(left), sc.parts[0] * sc.parts[1] ** (sc.horizon - 1)


def names(sc, cells, among):
    """The names of the squares of these cells in a list. It says `part of` where others of `among`, which has them all, are in the square."""
    told = []
    for name, own in zip(squares(sc).names, squares(sc).cells):
        found = cells.intersection(own)
        if found:
            told.append(("" if found == among.intersection(own) else "part of ") + quoting.name(name))
    return quoting.listed(told)


def about_misses(sc):
    """Most looks miss more than half, where they find best: perhaps a probability of detection stands in place of the miss."""
    g = sc.parts[2]
    best = [min(look.values()) for t in range(1, sc.horizon + 1) for it in range(len(sc.positions)) if (look := sc.look(t, it))]
    poor = [it for it in best if 2 * it > g]
    if 2 * len(poor) <= len(best):
        return
    part = max(sorted(set(poor)), key=poor.count)
    yield (
        f"most looks miss more often than they find: {part} of {g}. The part says how often a look misses: "
        f"for a probability of detection of {part} of {g}, write {g - part}"
    )


def about_start(sc):
    """The searcher can't leave its start."""
    if sc.horizon > 1 and sc.moves[sc.start] == [sc.start]:
        name = quoting.name(sc.positions[sc.start])
        yield f"the searcher can't leave {name}, where it starts: its row of moves names {name} alone"


def about_reach(sc, covered, mass):
    """No look can find anything, or much of the target is never where a look can find it."""
    lost, whole = beyond(sc, covered)
    if lost == whole:
        yield "no look can find the target: the searcher is never where a look covers a cell that the target may be in. Look at `moves` and `start`"
        return
    if 2 * lost > whole:
        yield f"at most {percent.cut(whole - lost, whole)} percent can be found: the rest is never in a cell that a look can cover in time"
    there = {cell for here in mass for cell, it in enumerate(here) if it and sc.names[cell] != LOST}
    missed = there - ever_seen(sc)
    if missed:
        yield f"no look from any position covers {names(sc, missed, there)}, where the target may be"


def about_periods(sc, covered, mass):
    """Periods in which no look finds anything. (Where it is all of them, that was told.)"""
    blind = [t for t, (cells, here) in enumerate(zip(covered, mass), 1) if not any(here[it] for it in cells)]
    if 0 < len(blind) < sc.horizon:
        told = quoting.runs(blind)
        yield f"in period{'s' if len(blind) > 1 else ''} {told} no look can find anything, wherever the searcher goes"


def about_cells(sc, mass):
    """Squares that the target never comes to in any part, but for what is lost."""
    own = squares(sc)
    never = [name for name, cells in zip(own.names, own.cells) if cells and name != LOST and not any(here[it] for here in mass for it in cells)]
    if never:
        rounded = ", or what does was rounded away" if own.is_finer else ""
        yield f"the target is never in {quoting.listed([quoting.name(it) for it in never])}: no drift leads there in time{rounded}"


def edge(sc):
    """The cells at the edge of an area of squares with names such as r3c4, in the outermost rows, where there are three or more, and
    columns; and what is lost over it. Nothing where some cell has another name."""
    own = squares(sc)
    places = {at: row_and_column(name) for at, name in enumerate(own.names) if name != LOST}
    if not places or not all(places.values()):
        return set()
    ends = [(min(them), max(them)) for them in zip(*places.values())]
    wide = [(first, last) if last - first > 1 else (None, None) for first, last in ends]
    inner = {at for at, place in places.items() if not any(it in end for it, end in zip(place, wide))}
    return {cell for at, cells in enumerate(own.cells) if at not in inner for cell in cells}


def about_edge(sc, mass):
    """Much of the target is at the edge of a grid in the last period, from where it might have gone further, or is lost over it."""
    here, cells = mass[-1], edge(sc)
    part, whole = sum(here[it] for it in cells), sum(here)
    if part * EDGE[1] > whole * EDGE[0]:
        where = "at the edge of the grid or lost" if LOST in sc.names else "at the edge of the grid"
        yield (
            f"{percent.cut(part, whole)} percent of the target is {where} in the last period, if nobody looks: "
            "where the water goes on there, take in a margin"
        )


def warnings(sc):
    """What may not be meant in a right scenario, a text each."""
    mass, covered = drifting(sc), seen(sc, reached(sc))
    told = [about_misses(sc), about_start(sc), about_reach(sc, covered, mass), about_periods(sc, covered, mass)]
    return [it for each in (*told, about_cells(sc, mass), about_edge(sc, mass)) for it in each]


def about_plan(sc, plan):
    """What may not be meant of an accepted plan."""
    if plan.value == 0:
        return ["the best path finds nothing: its chance is 0"]
    if plan.value == paths.weight(sc):
        return ["the plan's path finds the target for certain: are the looks so good?"]
    return []
