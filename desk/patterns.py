"""Search patterns from a datum as the IAMSAR manual, volume II, names them, with one square in each period: what a plan is held against.

A pattern is a list of squares to look from, in order. Its legs are drawn on the squares of the area, so that the track spacing is a
square's side. The pattern stands still; its datum is counted to the time at which the searcher can first be there.
"""
import dataclasses
import itertools
import math
from fractions import Fraction

# The sine of 60 degrees, to four digits: it is used for squares alone.
SINE_60 = Fraction(8660, 10_000)
# The corners of a sector search by their bearings from the datum, in sixths of a turn to the right of the first leg, in the order in which
# they are flown: out, across, back through the datum, and so on; each turn is 120 degrees to the right. None is the datum.
SECTOR = (0, 1, None, 4, 5, None, 2, 3, None)
# How many legs a sector search has, each as long as its radius.
SECTOR_LEGS = 9


@dataclasses.dataclass(frozen=True)
class Setting:
    """What patterns are drawn on: the `rows` and `columns` of the area; the `datum`, a square; the `heading` of the first leg, a pair of
    rows south and columns east (one of the four sides); whether the long side of a rectangle `is_along` the rows, from west to east; how
    many squares the pattern may have; and the square `near`, from whose side a rectangle is begun."""

    rows: int
    columns: int
    datum: tuple
    heading: tuple
    is_along: bool
    count: int
    near: tuple


def to_the_right(heading):
    """The heading after a turn of 90 degrees to the right."""
    return heading[1], -heading[0]


def expanding_square(setting):
    """SS: from the datum legs of 1, 1, 2, 2, 3, 3, .. squares, each 90 degrees to the right of the one before."""
    (row, column), heading = setting.datum, setting.heading
    found = [(row, column)]
    for leg in range(4 * max(setting.rows, setting.columns)):
        for _ in range(leg // 2 + 1):
            row, column = row + heading[0], column + heading[1]
            found.append((row, column))
        heading = to_the_right(heading)
    return found


def span(middle, length, most):
    """So many numbers around a middle, moved or cut so that they are from 0 to below `most`."""
    length = min(length, most)
    first = min(max(middle - (length - 1) // 2, 0), most - length)
    return range(first, first + length)


def rectangle(setting):
    """The rows and the columns of the search area of PS and CS: as many squares around the datum as may be flown, at most, nearly as
    wide as long, and within the area."""
    short = math.isqrt(setting.count)
    long = setting.count // short
    row, column = setting.datum
    sizes = (short, long) if setting.is_along else (long, short)
    return span(row, sizes[0], setting.rows), span(column, sizes[1], setting.columns)


def lanes(setting, is_along):
    """The squares of the rectangle in legs to and fro, along its rows or along its columns, from the corner nearest to where the
    searcher comes from."""
    rows, columns = rectangle(setting)
    corners = itertools.product((rows[0], rows[-1]), (columns[0], columns[-1]))
    first = min(corners, key=lambda it: sum((a - b) ** 2 for a, b in zip(it, setting.near)))
    rows, columns = (it if it[0] == begins else it[::-1] for it, begins in zip((rows, columns), first))
    legs, across = (rows, columns) if is_along else (columns, rows)
    found = [(leg, it) for at, leg in enumerate(legs) for it in (across[::-1] if at % 2 else across)]
    return found if is_along else [(row, column) for column, row in found]


def parallel(setting):
    """PS: legs along the long side of a rectangle around the datum, from a corner."""
    return lanes(setting, setting.is_along)


def creeping_line(setting):
    """CS: legs along the short side of that rectangle, from a corner."""
    return lanes(setting, not setting.is_along)


def nearest(value):
    """The nearest whole number; of two the one that is further from 0."""
    return math.floor(abs(value) + Fraction(1, 2)) * (1 if value > 0 else -1)


def on_circle(sixths, radius):
    """The point of a circle at a bearing in sixths of a turn to the right of the first leg: how far ahead and how far to the right."""
    ahead = (1, Fraction(1, 2), Fraction(-1, 2), -1, Fraction(-1, 2), Fraction(1, 2))[sixths]
    right = (0, SINE_60, SINE_60, 0, -SINE_60, -SINE_60)[sixths]
    return ahead * radius, right * radius


def sector(setting):
    """VS: nine legs of a radius, which go through the datum three times. The radius is as many squares as the periods allow, at least 1."""
    radius = max((setting.count - 1) // SECTOR_LEGS, 1)
    corners = [(0, 0) if it is None else on_circle(it, radius) for it in SECTOR]
    found = [setting.datum]
    for one, other in itertools.pairwise([(0, 0), *corners]):
        for step in range(1, radius + 1):
            ahead, right = (nearest(a + (b - a) * Fraction(step, radius)) for a, b in zip(one, other))
            aside = to_the_right(setting.heading)
            found.append(tuple(at + ahead * on + right * off for at, on, off in zip(setting.datum, setting.heading, aside)))
    return found


@dataclasses.dataclass(frozen=True)
class Pattern:
    """A pattern: its code in the manual, and what draws it."""

    code: str
    squares: object


PATTERNS = {
    "expanding-square": Pattern("SS", expanding_square),
    "parallel": Pattern("PS", parallel),
    "creeping-line": Pattern("CS", creeping_line),
    "sector": Pattern("VS", sector),
}


# ---- how a searcher goes through it


def way(moves, here, to):
    """The positions behind `here` on a shortest way to another one by these moves (lists by position), of equal ones by the first moves;
    None where no way leads there."""
    before, reached = {here: None}, [here]
    for at in reached:
        for it in moves[at]:
            if it not in before:
                before[it] = at
                reached.append(it)
    if to not in before:
        return None
    found = []
    while to != here:
        found.append(to)
        to = before[to]
    return found[::-1]


def flown(moves, start, targets, periods):
    """The positions to look from, one in each period, of a searcher who goes from the start through the targets in order by these moves,
    and through them again where periods are left. It looks from each position on its way. Targets to which no way leads are left out.
    None where none can be reached.
    """
    path, here = [], start
    while len(path) < periods:
        before = len(path)
        for to in targets:
            steps = ([to] if to in moves[here] else []) if to == here else way(moves, here, to) or []
            path += steps
            here = path[-1] if path else start
        if len(path) == before:
            return None
    return path[:periods]
