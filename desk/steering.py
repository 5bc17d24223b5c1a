"""What a crew steers by: where the searchers go period by period, course and distance, and how they search a square."""
import dataclasses
import math

from desk import detection, earth, geometry, quoting
from desk.squares import row_and_column
from desk.ways import BASE

# From how much longer than the straight line on, in sides of a square, a way is one around land.
AROUND = 1e-6


@dataclasses.dataclass(frozen=True)
class Stop:
    """Where a searcher is behind the move of a period (0: at the start): the name of its position, and its place in metres and on the
    earth, each None where it isn't known."""

    period: int
    name: str
    metres: tuple | None
    on_earth: earth.Place | None


@dataclasses.dataclass(frozen=True)
class Leg:
    """The way from one stop to the next: its true course in degrees from 0 to below 360, and metres, straight ahead; and the metres of the
    way around land, or None where the straight way is open, or isn't known to be closed."""

    course: float
    metres: float
    around: float | None = None

    @property
    def is_stay(self):
        return self.metres < 0.5


def stop(search, comments, source, name, period=0):
    """The Stop at a position of the scenario by which a search is told, which is None where it isn't known."""
    metres = None if source is None else comments.places.get(search.seats.of.positions[source])
    return Stop(period, name, metres, comments.on_earth(metres))


def stops(search, comments, who):
    """The Stops of a searcher (0, 1) of an accepted search, the start first."""
    seats = search.seats
    return [stop(search, comments, seats.sources[it.position][who], seats.names[it.position][who], it.period) for it in search.frames]


def leg(one, other, given=None):
    """The Leg between two Stops; None where a place isn't known. `given` is the situation, or None: it knows land."""
    if one.metres is None or other.metres is None:
        return None
    if one.on_earth and other.on_earth:
        return Leg(*earth.way(one.on_earth, other.on_earth), around(one, other, given))
    east, south = (to - at for at, to in zip(one.metres, other.metres))
    return Leg(math.degrees(math.atan2(east, -south)) % 360, math.hypot(east, south), around(one, other, given))


def position_of(name):
    """The position of a situation's searcher that has a name: a square, or BASE; None for others."""
    return BASE if name == BASE else row_and_column(name.encode("ascii"))


def around(one, other, given):
    """The metres of the shortest way over water between two Stops, where it isn't straight."""
    begin, end = position_of(one.name), position_of(other.name)
    if given is None or not given.grid.land or begin is None or end in (None, BASE) or not given.grid.is_water(end):
        return None
    length = given.ways.lengths(begin).get(end)
    is_longer = length is not None and length > given.ways.straight(begin, end) + AROUND
    return length * float(given.grid.side) if is_longer else None


def legs_of(side, metres):
    """How many parallel legs a searcher makes in a square of a side, when it goes so many metres, and how long each is.

    Legs are as far from each other as the side over their number, S, and the outer ones, and the ends of all, lie S/2 inside of the square,
    as in the parallel sweep of the IAMSAR manual, volume II: together with the ways between them n legs are n * side - S long. One leg
    goes through the middle, along the whole square. Their number is the one whose length is nearest to the metres.
    """
    least = max(1, int(metres / side))
    count = min((least, least + 1), key=lambda n: (abs((side if n == 1 else n * side - side / n) - metres), n))
    return count, side - side / count if count > 1 else min(side, metres)


def how(given):
    """How a square is searched, as a sentence."""
    who, side = given.searcher, float(given.grid.side)
    count, long = legs_of(side, float(geometry.metres(who.speed, who.search_minutes)))
    head = f"Search each square for {geometry.decimal(who.search_minutes)} minutes at {geometry.decimal(who.speed)} knots"
    course = f", {who.course}" if who.course else ""
    if count == 1:
        return f"{head}: one leg of {long:.0f} m through its middle{course}."
    apart = side / count
    return f"{head}: {count} legs of {long:.0f} m, {apart:.0f} m apart{course}, and {apart / 2:.0f} m inside of its edges."


def widths(given, flown, horizon):
    """The sweep widths in the periods behind so many flown ones, as a sentence: their means, by what light and sight leave of them."""
    periods, by_width = given.periods, {}
    for t in range(1, horizon + 1):
        ends = given.minutes * min(flown + t, periods)
        seen = detection.factor(given.visibility, ends - given.minutes, ends)
        by_width.setdefault(f"{float(given.searcher.sweep_width * seen):.0f} m", []).append(t)
    if len(by_width) == 1:
        return f"The sweep width is {next(iter(by_width))}."
    told = (f"{width} in period{'s' if len(its) > 1 else ''} {quoting.runs(its)}" for width, its in by_width.items())
    return f"The sweep width is {', '.join(told)}."


def searching(comments, horizon):
    """How squares are searched, as sentences; none where the situation isn't known."""
    if comments.given is None:
        return []
    flown = comments.flown()
    return [how(comments.given), *([] if flown is None else [widths(comments.given, flown, horizon)])]
