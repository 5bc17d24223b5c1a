"""Where squares, cells and positions lie: by comments `# at NAME X Y` of a scenario, else by names such as r3c4, else nowhere."""
import dataclasses
import re

from desk.markup import filled
from desk.squares import row_and_column, squares
from desk.states import LOST

# The sentence that leads to the comments of places.
HEAD = b"Metres east and south of the north-west corner:"
AT = re.compile(rb"#[ \t]*at[ \t]+([A-Za-z0-9_-]{1,24})[ \t]+(-?[0-9]{1,9}(?:\.[0-9]{1,9})?)[ \t]+(-?[0-9]{1,9}(?:\.[0-9]{1,9})?)")
# How many sides of a square a map may be long or wide.
MOST_ACROSS = 200
# How many sides of a square a position may lie outside of the squares and still be drawn.
MOST_OUTSIDE = 2
# The most parts of a square side by side that are looked for, and how far from the middle of one, in parts, a cell may be: places have
# two digits.
MOST_PARTS = 9
NEAR = 0.06


class NoPlaces(Exception):
    """There can't be a map. It says why."""


@dataclasses.dataclass
class Layout:
    """The middles of squares, cells and positions by number, x to the right (east) and y down (south), and the side of a square.

    They are in metres where comments say them, else in squares. A square without cells, or a position, that isn't drawn has None.
    `finer` says how many parts side by side make a square that has parts: 1 where nothing says where in its square a cell lies.
    """

    squares: list
    cells: list
    positions: list
    side: float
    metres: bool
    finer: int


def places_told(text):
    """The places that comments `# at NAME X Y` give: metres east and south of some corner, by name. A name's last line counts."""
    found = (AT.fullmatch(line.strip(b" \t\r")) for line in text.split(b"\n"))
    return {it[1]: (float(it[2]), float(it[3])) for it in found if it}


def places_named(names):
    """The places that names such as r3c4 give, by name: the column to the right, the row down. What is lost is apart, east of them."""
    found = ((it, row_and_column(it)) for it in names)
    places = {name: (float(it[1]), float(it[0])) for name, it in found if it}
    if LOST in names and places:
        east, south = map(max, zip(*places.values()))
        places[LOST] = east + 1.5, south
    return places


def distance(one, other):
    """How far two middles are apart: squares with a side up to it don't overlap."""
    return max(abs(one[0] - other[0]), abs(one[1] - other[1]))


def side_of(places):
    """The greatest side of squares around all these middles that don't overlap."""
    apart = [distance(one, other) for at, one in enumerate(places) for other in places[:at]]
    if 0 in apart:
        raise NoPlaces(filled("same_place"))
    side = min(apart, default=1.0)
    if max(apart, default=0) > side * MOST_ACROSS:
        raise NoPlaces(filled("too_far"))
    return side


def covered(sc, position):
    """The cells that looks from a position cover in any period."""
    looks = (sc.look(t, position) for t in range(1, sc.horizon + 1))
    return sorted({cell for look in looks for cell, part in look.items() if part < sc.parts[2]})


def place_of(sc, position, places, cells):
    """Where a position lies: its own place, else the middle of the cells that it covers, else None."""
    own = places.get(sc.positions[position])
    seen = [cells[it] for it in covered(sc, position)]
    if own is None and seen:
        own = sum(x for x, _ in seen) / len(seen), sum(y for _, y in seen) / len(seen)
    return own


def is_near(place, drawn, side):
    """Whether a place lies among the squares, or not far outside of them."""
    ranges = [(min(it), max(it)) for it in zip(*drawn)]
    return all(least - side * MOST_OUTSIDE <= at <= most + side * MOST_OUTSIDE for at, (least, most) in zip(place, ranges))


def parts_of(own, places, cells, side):
    """How many parts side by side make a square, by the least number for which each cell of a square with parts is in the middle of one.

    `own` are the squares, `places` their middles, `cells` those of the cells. 1 where no number up to MOST_PARTS fits.
    """
    away = [(cells[cell][axis] - places[at][axis]) / side + 1 / 2 for at in own.split for cell in own.cells[at] for axis in (0, 1)]
    fits = (count for count in range(2, MOST_PARTS + 1) if all(abs(it * count % 1 - 1 / 2) < NEAR and 0 < it < 1 for it in away))
    return next(fits, 1) if away else 1


def layout(sc, text):
    """The layout of a scenario with this text. Raises NoPlaces where not each square has a place, or no map can be drawn of them."""
    own, told = squares(sc), places_told(text)
    lying = [own.names[it] for it in own.filled()]
    metres = all(it in told for it in lying)
    named = told if metres else places_named([*own.names, *sc.positions])
    lacking = next((it for it in lying if it not in named), None)
    if lacking is not None:
        raise NoPlaces(filled("no_place", noun=own.noun, name=lacking.decode("ascii")))
    places = [named.get(it) for it in own.names]
    drawn = [it for it in places if it]
    side = side_of(drawn)
    cells, finer = [places[it] for it in own.of_cells()], 1
    if metres and all(it in told for it in sc.names):
        within = [told[it] for it in sc.names]
        finer = parts_of(own, places, within, side)
        cells = within if finer > 1 else cells
    positions = [place_of(sc, it, named, cells) for it in range(len(sc.positions))]
    near = [it if it and is_near(it, drawn, side) else None for it in positions]
    return Layout(places, cells, near, side, metres and len(drawn) > 1, finer)
