"""What is flown over simulated drifts: the paths of plans, paths that words name, and patterns, each with what a scenario's own sums say
of it."""
import dataclasses
import math
import os
from fractions import Fraction

from desk import accepted, draft, forms, geometry, masses, paths, patterns, percent, seats
from desk.accepted import Refused
from desk.status import Status
from desk.ways import BASE

# What a name of a position should be.
POSITIONS = "the positions are its squares without land, as r5c2, and base where the searcher comes from one"


@dataclasses.dataclass(frozen=True)
class Flight:
    """A path and what a scenario says of it.

    `places` are the names of the positions by period, for each searcher, and `looks` the squares of them by period; `value` out of `weight`
    is the chance that its plan says, and `says` what the scenario's own sums say by period. `is_plan` tells a plan from other paths;
    `notes` are sentences on what isn't as it should be.
    """

    name: str
    places: tuple
    looks: tuple
    value: int
    weight: int
    says: tuple
    is_plan: bool = False
    notes: tuple = ()

    @property
    def chance(self):
        """The chance that the plan says."""
        return Fraction(self.value, self.weight)

    @property
    def path(self):
        """The positions by period, in words."""
        return [" and ".join(it) for it in self.places]


class Field:
    """A situation with the scenario whose sums are held against drifts: the one that `draft` makes of it, or one that is given."""

    def __init__(self, given, scenario):
        self.given, self.text = given, scenario
        self.sc = forms.read_scenario(scenario, alone=False)[0]
        squares = {geometry.name_of(it): it for it in given.grid.cells()}
        self.squares = squares if given.searcher.base is None else {**squares, BASE: None}

    def numbers(self, names, whose):
        """The positions of names by number, one for each period. Raises Refused, with `whose` path it is."""
        self.check(names, whose)
        return [self.sc.positions.index(it.encode("ascii")) for it in names]

    def check(self, names, whose):
        """Raises Refused where names of positions aren't those of the situation, or aren't one for each period."""
        other = next((it for it in names if it not in self.squares), None)
        if other is not None:
            raise Refused(Status.WRONG, f"{whose} isn't one of this situation: it names {shown(other)}, and {POSITIONS}")
        if len(names) != self.given.periods:
            counts = f"its path has {len(names)} periods, and the situation {self.given.periods}"
            raise Refused(Status.WRONG, f"{whose} isn't one of this situation: {counts}")

    def legs(self, path):
        """A note on the first leg of a path that is no move of the scenario, or none."""
        before = [self.sc.start, *path]
        for t, (at, to) in enumerate(zip(before, path), 1):
            if to not in self.sc.moves[at]:
                one, other = (self.sc.positions[it].decode("ascii") for it in (at, to))
                return (f"its leg of period {t}, from {one} to {other}, isn't a move of the scenario",)
        return ()


def shown(name):
    """A name that may hold anything, short and in ASCII."""
    text = ascii(name)[1:-1]
    return text if len(text) <= 24 else text[:21] + ".."


def told(name):
    """The name of a file without its folder, as text that can be printed."""
    return accepted.shown(os.path.basename(name)) if name != "-" else "standard input"


def field(given, text, of, own):
    """The field of a situation and its text, with the scenario of the file `of` where one is named; `own` answers the tracks from which it
    is drafted. Raises Refused, and BadSituation."""
    if of is None:
        return Field(given, draft.scenario_of(given, text, own())[0])
    try:
        found = Field(given, accepted.read_file(of))
    except forms.Fault as fault:
        raise Refused(Status.BAD_SCENARIO, f"--of {told(of)} isn't a scenario: line {fault.line} {fault.kind}") from None
    names = {it.decode("ascii") for it in found.sc.positions}
    if names != set(found.squares) or found.sc.horizon != given.periods:
        raise Refused(Status.WRONG, f"--of {told(of)} isn't a scenario of this situation: {given.periods} periods, and {POSITIONS}")
    return found


def sums(sc, path):
    """What a path finds by a scenario's own sums: the value, the whole weight, and the shares by period."""
    frames, whole = masses.frames(sc, path)[1:], paths.weight(sc)
    return frames[-1].so_far, whole, tuple(Fraction(it.found, whole) for it in frames)


# ---- plans


def of_plan(at, name, text):
    """The flight of a plan or a gap plan, alone or with a scenario before it, of a file of this name. Raises Refused."""
    whose = told(name)
    rest = text.lstrip(b" \t\r\n")
    if rest[:4] in (b"plan", b"gap "):
        names = rest.split(b"\n", 2)[1:2]
        words = names[0].decode("ascii", "replace").split(" ") if names else []
        if words[:1] == ["path"]:
            at.check(words[1:], whose)
        return in_seats(at, whose, at.sc, seats.seats(at.sc), head(whose, at.sc, rest), at.legs)
    try:
        sc, behind = forms.read_scenario(text, alone=False)
    except forms.Fault as fault:
        why = f"line {fault.line} {fault.kind}"
        raise Refused(Status.BAD_SCENARIO, f"{whose} is neither a plan nor a scenario with its plan behind it: {why}") from None
    plan = head(whose, sc, behind.lstrip(b" \t\r\n"))
    try:
        return in_seats(at, whose, sc, seats.seats(sc, at.sc), plan, lambda _: ())
    except seats.NotOf:
        return in_seats(at, whose, sc, seats.seats(sc), plan, lambda _: ())


def head(whose, sc, text):
    """What the lines before the records of a plan say. Raises Refused."""
    try:
        plan = accepted.head(text, sc)
        length, is_whole = len(plan.path), plan.weight > 0
    except (forms.Wrong, AttributeError) as why:
        raise Refused(Status.BAD_PLAN, f"{whose} isn't a plan of this scenario: {why if isinstance(why, forms.Wrong) else 'EarlyEnd'}") from None
    if length != sc.horizon or not is_whole:
        raise Refused(Status.BAD_PLAN, f"{whose} isn't a plan of this scenario: its path has {length} periods, and the scenario {sc.horizon}")
    return plan


def in_seats(at, whose, sc, who, plan, legs):
    """The flight of a plan of a scenario whose seats are these."""
    if who.is_numbered:
        why = "the places of its two searchers have numbers, since it wasn't made of the scenario that was taken here"
        raise Refused(Status.WRONG, f"{whose} isn't one of this situation: {why}; --of SCENARIO names another one")
    places = tuple(who.names[it] for it in plan.path)
    for searcher in range(who.count):
        at.check([it[searcher] for it in places], whose)
    value, whole, says = sums(sc, plan.path)
    notes = legs(plan.path)
    if Fraction(value, whole) != Fraction(plan.value, plan.weight):
        cut = percent.cut(value, whole)
        notes += (f"the plan is of another scenario: by the sums of the one that was taken here its path finds {cut} percent",)
    return Flight(whose, places, at_squares(at, places), plan.value, plan.weight, says, True, notes)


def at_squares(at, places):
    """The squares by period of these names; the base is none."""
    return tuple(tuple(at.squares[it] for it in names if it != BASE) for names in places)


# ---- paths and patterns


def of_numbers(at, name, path, notes=()):
    """The flight of a path by numbers of positions."""
    places = tuple((at.sc.positions[it].decode("ascii"),) for it in path)
    return Flight(name, places, at_squares(at, places), *sums(at.sc, path), False, (*at.legs(path), *notes))


def of_path(at, name, word):
    """The flight of a path as words have it: r5c2,r4c3,.. Raises Refused."""
    return of_numbers(at, name, at.numbers(word.split(","), f"--path {shown(word)}"))


def mean_place(look):
    """The mean of the places of a look that are in the area, or None where there are none."""
    inside = [it for it in look if it is not None]
    return tuple(math.fsum(it) / len(inside) for it in zip(*inside)) if inside else None


def nearest_square(grid, place):
    """The square without land whose middle is nearest to a place; of equal ones the first."""
    middles = ((it, grid.middle(it)) for it in grid.cells())
    return min(middles, key=lambda it: sum((float(a) - b) * (float(a) - b) for a, b in zip(it[1], place)))[0]


@dataclasses.dataclass(frozen=True)
class Datum:
    """Where patterns are drawn: their setting, and the look at which the searcher can first be at the datum."""

    setting: patterns.Setting
    look: int


def datum(at, tracks):
    """The datum of drifts: the square of their mean place at the first look at which the searcher can be there. Raises Refused."""
    grid, sc = at.given.grid, at.sc
    means = [mean_place(it) for it in tracks.looks]
    for t, mean in enumerate(means, 1):
        square = mean and nearest_square(grid, mean)
        steps = square and patterns.way(sc.moves, sc.start, sc.positions.index(geometry.name_of(square).encode("ascii")))
        if steps is not None and len(steps) <= t:
            return Datum(setting(at, tracks, means, square, t), t)
    raise Refused(Status.WRONG, "no pattern can be flown: the searcher doesn't come to the mean place of the drifts in these periods")


def side_of(east, south):
    """The side to which a displacement goes most, as rows south and columns east; the north where it is none."""
    if abs(east) > abs(south):
        return 0, 1 if east > 0 else -1
    return 1 if south > 0 else -1, 0


def setting(at, tracks, means, square, t):
    """What patterns are drawn on, with this square as datum at look t."""
    given, who = at.given, at.given.searcher
    drift = (b - a for a, b in zip(means[t - 1], [it for it in means if it][-1]))
    places = [it for look in tracks.looks[t - 1 :] for it in look if it]
    middle = mean_place(places)
    east, south = (math.fsum((it[axis] - middle[axis]) * (it[axis] - middle[axis]) for it in places) for axis in (0, 1))
    return patterns.Setting(
        rows=given.grid.rows,
        columns=given.grid.columns,
        datum=square,
        heading=side_of(*drift),
        is_along=east >= south,
        count=given.periods - t + 1,
        near=who.start or given.grid.square_at(who.base),
    )


def of_pattern(at, name, where):
    """The flight of a pattern from a datum. Raises Refused where no square of it can be reached."""
    grid, sc = at.given.grid, at.sc
    squares = [it for it in patterns.PATTERNS[name].squares(where.setting) if grid.is_water(it)]
    targets = [sc.positions.index(geometry.name_of(it).encode("ascii")) for it in squares]
    path = patterns.flown(sc.moves, sc.start, targets, sc.horizon)
    if path is None:
        raise Refused(Status.WRONG, f"the pattern {name} can't be flown: the searcher doesn't come to its squares")
    return of_numbers(at, name, path)
