"""Where the area of a situation lies on the earth: its place of reference, places in degrees as metres, and what to say of both."""
import math
from fractions import Fraction

from desk import earth
from desk.keys import BadSituation

# How many metres the farthest corner of an area may lie from its place of reference.
MOST_AWAY = 5_000_000
# How many metres a place may lie from the north-west corner, along each axis.
MOST_METRES = 1_000_000
# Places in degrees are taken to the millimetre, so that the last digits of a library are in no draft.
PART = 1000
# From which ratio of the longest side of a square to the shortest on, and from how many degrees between up and true north on, a note is
# made.
UNEVEN = 1.01
TURNED = 1.0
CORNERS = ("north-west", "north-east", "south-east", "south-west")


def frame(table, grid):
    """Where the grid of the values of [area] lies on the earth: an earth.Frame, or None where nothing says it. Raises BadSituation, and
    packages.Lacking."""
    named = [key for key in ("north_west", "centre") if table[key]]
    if not named:
        return None
    if len(named) > 1:
        raise BadSituation("[area] centre: either it or north_west should stand, as in north_west = [57.725, 10.58]")
    key = named[0]
    width, height = corners(grid)[2]
    middle = (width / 2, height / 2) if key == "centre" else (0.0, 0.0)
    found = earth.Frame(*map(float, table[key]), *middle)
    away = max(math.dist(it, middle) for it in corners(grid))
    if away > MOST_AWAY:
        told = f"the area reaches {away / 1000:,.0f} km from it, and {MOST_AWAY // 1000:,} are the most"
        raise BadSituation(f"[area] {key}: {told}; take fewer or smaller cells, as in cell_size = 500")
    earth.geodesics()
    return found


def corners(grid):
    """The corners of a grid in metres, by CORNERS."""
    width, height = float(grid.columns * grid.side), float(grid.rows * grid.side)
    return [(0.0, 0.0), (width, 0.0), (width, height), (0.0, height)]


def in_metres(key, place, grid):
    """A place of a situation in metres of its area: one of a text, or a pair of numbers that can be degrees in an area on the earth, is
    laid out there; any other pair is metres already. Raises BadSituation."""
    is_told = isinstance(place, earth.Place)
    if grid.frame is None:
        if is_told:
            raise BadSituation(f"{key}: it is a place on the earth, so [area] north_west should stand, as in north_west = [57.725, 10.58]")
        return place
    if not is_told and not earth.is_place(*place):
        return place
    found = grid.frame.to_area(*place)
    if max(map(abs, found)) > MOST_METRES:
        told = f"it should be within {MOST_METRES // 1000:,} km of the area's north-west corner, which is at {earth.told(*grid.frame.to_earth(0, 0))}"
        raise BadSituation(f"{key}: {told}; it is taken for a latitude and a longitude, and is {earth.told(*map(float, place))}")
    return tuple(Fraction(round(it * PART), PART) for it in found)


def placed(table, where, grid):
    """The values of a table by key, with its places in metres. Raises BadSituation."""
    found = {key: in_metres(f"{where} {key}", table[key], grid) for key in ("at", "base") if table.get(key)}
    if table.get("track"):
        found["track"] = tuple(in_metres(f"{where} track", it, grid) for it in table["track"])
        if any(one == other for one, other in zip(found["track"], found["track"][1:])):
            raise BadSituation(f"{where} track: each place should be another than the one before it")
    return {**table, **found}


def notes(grid):
    """The lines to say of an area on the earth: its corners, and by how much squares and north are off."""
    if grid.frame is None:
        return
    places = zip(CORNERS, corners(grid))
    yield "the area on the earth: " + ", ".join(f"{name} corner {earth.told(*grid.frame.to_earth(*place))}" for name, place in places)
    least, most = extremes(grid)
    if most > least * UNEVEN:
        told = f"the sides of squares are {least:,.0f} to {most:,.0f} m long on the earth, more than 1 percent apart"
        yield f"note: {told}; take a smaller area, or give its centre"
    turned = {name: grid.frame.up(*place) for name, place in zip(CORNERS, corners(grid))}
    far = max(turned, key=lambda it: abs(turned[it]))
    if abs(turned[far]) > TURNED:
        told = f"up in the area is true north at its place of reference alone; at the {far} corner it points to {turned[far] % 360:05.1f} degrees"
        yield f"note: {told}, and currents and winds are laid out by what is up"


def extremes(grid):
    """The shortest and the longest side on the earth, in metres, of the squares in the corners and of that at the place of reference:
    lengths are off the more the farther a square is from there."""
    last = grid.rows - 1, grid.columns - 1
    squares = {(0, 0), (0, last[1]), last, (last[0], 0), grid.nearest(grid.square_at((grid.frame.east, grid.frame.south)))}
    sides = [it for square in squares for it in sides_of(grid, square)]
    return min(sides), max(sides)


def sides_of(grid, square):
    """The lengths on the earth of the sides of a square, in metres."""
    x, y = square[1] * grid.side, square[0] * grid.side
    around = [grid.frame.to_earth(x + east * grid.side, y + south * grid.side) for east, south in ((0, 0), (1, 0), (1, 1), (0, 1))]
    return [earth.way(one, other)[1] for one, other in zip(around, around[1:] + around[:1])]
