"""What a draft says of itself: the comments of its scenario, and the lines on standard error."""
import math
import re

from desk import ashore, detection, earth, layout, margins, moments, percent, placing, quoting, rounding, sun, twofold
from desk.chain import deviations
from desk.comments import OF_SITUATION, SITUATION, of_times
from desk.geometry import decimal
from desk.rounded import name_of
from desk.shares import BASE
from desk.states import FINEST

# From which largest rounding of a look on, and from which total variation on, a note is made; and from how many times the width of the
# tracks on that the chain has at the first look.
COARSE = 0.02
APART = 0.1
WIDER = 1.2
ADVICE = "fewer and longer periods leave more room for denominators, and so do smaller ones in [parts] for what you know less well"


def places(shares, states):
    """Where each state and position lies, by name: metres east and south of the north-west corner. What is lost is drawn apart."""
    found = {name: states.middle(name) for name in states.names}
    for it in shares.positions:
        found[name_of(it)] = shares.given.searcher.base if it == BASE else shares.grid.middle(it)
    return found


def comments(text, shares, drift, told):
    """The comments of a scenario: what it stands for, the situation line by line, what is `told` first of all (facts), and its places."""
    yield titled(shares.given.title) if shares.given.title else "A scenario by osp draft."
    yield SITUATION
    for line in text.splitlines():
        yield OF_SITUATION + b" " + line
    yield from told
    yield from earth.comments(shares.grid.frame)
    yield naming(drift.states)
    for name, (east, south) in places(shares, drift.states).items():
        yield b"at %s %s %s" % (name, decimal(east).encode("ascii"), decimal(south).encode("ascii"))


def titled(title):
    """A title as a comment: in quotes where it begins as another comment that is read, of places, times or the situation."""
    return f'"{title}"' if re.match(r"at\b|earth\b|\d+ periods? of|\||The situation, from", title.strip()) else title


def naming(states):
    """How places are named, and where the lines behind this one have them."""
    told = "Names by row and column: r0 is the northmost row, c0 the westmost column"
    if states.finer > 1:
        told += f"; of each square, parts 01 to {states.finer**2} row by row from its north-west"
    return f"{told}. {layout.HEAD.decode('ascii')}"


def parts(draft):
    """The denominators, and the largest rounding by each."""
    a, d, g = draft.scenario.parts
    largest = [percent.up_of(it) for it in (draft.first, draft.drift, draft.look)]
    told = f"of the first distribution is {largest[0]} percent, of the drift {largest[1]}, of the looks {largest[2]}"
    return f"parts {a} {d} {g}: the largest rounding {told}"


def truth(drift, draft):
    """How the scenario's chain is like the tracks: what they were counted into, the total variation at each look, and how wide both are."""
    states, tracks = drift.states, drift.tracks
    inside = [count for look in drift.looks for count in look.values()]
    finer = f"parts of a cell ({states.finer} by {states.finer})" if states.finer > 1 else "cells"
    told = f"on average {sum(inside) // len(inside):,} tracks are in one that has any at a look, and {min(inside):,} at least"
    yield from tracks.said[:1]
    yield f"{quoting.counted(tracks.count, 'track')} {tracks.origin}, counted in {len(states.parts)} {finer}{' and lost' * states.is_lost}: {told}"
    told = " ".join(f"{float(it):.3f}" for it in draft.off)
    yield f"total variation between the scenario's drift and the tracks, look by look: {told}"
    last = draft.scenario.horizon
    for t, when in {1: "first", last: "last"}.items() if last > 1 else [(1, "only")]:
        found = deviations(draft.chain, drift, t)
        if found:
            (east, south), (of_east, of_south) = [[f"{it:.0f}" for it in each] for each in found]
            yield f"standard deviations at the {when} look: {east} m east and {south} m south, of the tracks {of_east} and {of_south}"


def facts(shares, drift, draft):
    """What comments and lines both say: times, denominators and rounding, and how true they are."""
    return [of_times(shares.given.times, shares.given.periods), parts(draft), *truth(drift, draft)]


def lines(shares, drift, draft, told):
    """The lines to say: what is `told` first of all (facts), how many periods would fit, detection, what is at the edge and
    who is held by land, and warnings."""
    sc = draft.scenario
    yield from told
    yield from (f"{drift.tracks.file}: {it}" for it in drift.tracks.said[1:])
    yield from placing.notes(shares.grid)
    yield from reports(shares.given)
    yield from sun.notes(shares.given)
    yield from shares.given.ways.lines(shares.given.clock)
    most = rounding.most_periods(sc.parts)
    yield f"with these parts {most} periods fit at most, {most - sc.horizon} more than these" + (
        "" if most > sc.horizon else "; for more, give smaller ones, as in [parts] drift = 20 and look = 10"
    )
    yield from detections(shares)
    yield from edge(shares, drift)
    yield from ashore.lines(shares.grid, drift.tracks)
    yield twofold.line(shares.given, sc)
    yield from warnings(shares, draft)
    yield from blurred(shares.given, drift, draft)


def reports(given):
    """When each report was taken to be, and how long before the search begins."""
    for at, it in enumerate(given.reports, 1):
        times = [it.minutes] if it.until is None else [it.minutes, it.until]
        when = " to ".join(given.clock.told(time) + given.clock.day(time) for time in times)
        ages = " to ".join(moments.lasting(abs(time)) for time in times)
        yield f"report {at} is of {when}, {ages} {'before' if it.minutes <= 0 else 'after'} the begin of the search"


def detections(shares):
    """The probabilities of detection: of a look in its own cell, and beside."""
    for at, where in ((0, "in its own cell"), (1, "in each cell beside its course")):
        found = [1 - it[at] for it in shares.misses if it[at] is not None]
        if found:
            least, most = percent.up_of(min(found)), percent.up_of(max(found))
            yield f"a look finds {least if least == most else f'{least} to {most}'} percent of what is {where}"


def edge(shares, drift):
    """What of the tracks is in the squares at the border of the area, and what has left it."""
    states, count = drift.states, drift.tracks.count
    border = {at for at, (square, _) in enumerate(states.parts) if shares.grid.is_edge(square)}
    first, last = (percent.up_of(sum(look.get(it, 0) for it in border) / count) for look in (drift.looks[0], drift.looks[-1]))
    yield f"in the cells at the edge of the area are {first} percent at the first look, and {last} at the last, if no look finds anything"
    lost = drift.looks[-1].get(len(states.parts), 0)
    if states.is_lost:
        yield f"{percent.up_of(lost / count)} percent have left the area by the last look"
    share = (lost + sum(drift.looks[-1].get(it, 0) for it in border)) / count
    if share > margins.MUCH:
        yield margins.note(shares.given, share)


def warnings(shares, draft):
    """What the draft may not say well."""
    if any(it < detection.SURE for pair in shares.misses for it in pair if it is not None):
        yield "note: a look finds more than 99 percent; larger cells or shorter periods say more of such a searcher"
    if draft.look > COARSE:
        yield f"note: looks are rounded coarsely; {ADVICE}"
    if max(draft.off) > APART:
        when = 1 + max(range(len(draft.off)), key=draft.off.__getitem__)
        yield f"note: at look {when} the scenario has {percent.up_of(max(draft.off))} percent of the person elsewhere than the tracks; {ADVICE}"


def blurred(given, drift, draft):
    """Whether states are coarse for these tracks. The look is the first one, since later the tracks lie farther apart, or at land or at the
    edge, where all in a state stay in it."""
    found = deviations(draft.chain, drift, 1)
    ours, theirs = (math.hypot(*it) for it in found) if found else (0, 0)
    if 0 < WIDER * theirs <= ours:
        wider = f"{100 * (ours / theirs - 1):.0f} percent wider than the tracks at the first look, {ours:.0f} m and not {theirs:.0f}"
        more = "a larger [tracks] finer, " * (given.tracks.finer is not None and drift.states.finer < FINEST)
        yield (
            f"note: the scenario's drift is {wider}: states are coarse for so narrow a drift, and a plan may promise more than it finds, "
            f"which trial says; {more}fewer periods, or smaller cells in a smaller area make them finer"
        )
