"""The states of a drafted scenario: where a person may be, in squares as fine as the searcher's or finer. docs/PLANNING.md says how.

A name begins with that of the searcher's square: r3c4 where a state is a whole square, else r3c4-01 and so on, row by row from the
north-west. What has left the area is in the state `lost`.
"""
import math
import re
from fractions import Fraction

from desk import geometry
from desk.limits import MOST_CELLS
from desk.keys import BadSituation

LOST = b"lost"
# The most states side by side in a square, and of how many spots its side is made: each of 1 to FINEST divides it.
FINEST = 4
SPOTS = math.lcm(*range(1, FINEST + 1))
OF_SQUARE = re.compile(rb"(r\d{1,3}c\d{1,3})-\d\d", re.ASCII)


def square_of(name):
    """The name of the square that holds the state of a name, both as bytes: r3c4 of r3c4-01. Other names are themselves."""
    found = OF_SQUARE.fullmatch(name)
    return found[1] if found else name


class Spots:
    """Places as numbers of spots: small squares, row by row, of which SPOTS by SPOTS make a square of the area."""

    def __init__(self, grid):
        self.side = float(grid.side)
        self.rows, self.columns = grid.rows * SPOTS, grid.columns * SPOTS

    def number_of(self, place):
        """The spot that holds a place, in metres east and south; beyond the border of the area, or on its last line, the nearest spot.
        None, the place of who is lost, stays None."""
        if place is None:
            return None
        # The division comes first, as Grid.square_at has it: the product by SPOTS never reaches a whole number that the quotient didn't.
        row, column = int(place[1] / self.side * SPOTS), int(place[0] / self.side * SPOTS)
        return min(max(row, 0), self.rows - 1) * self.columns + min(max(column, 0), self.columns - 1)

    def part(self, spot, finer):
        """The part of the area that holds a spot, where `finer` by `finer` parts make a square: the square, and the part's number in it,
        from 0 on, row by row."""
        row, column = divmod(spot, self.columns)
        inside = row % SPOTS * finer // SPOTS * finer + column % SPOTS * finer // SPOTS
        return (row // SPOTS, column // SPOTS), inside


class States:
    """The states that tracks reach, `finer` by `finer` of them in a square; with LOST behind them where somebody can be lost.

    `parts` are pairs of a square and a number in it, ascending, and `names` theirs, as bytes.
    """

    def __init__(self, grid, is_lost, reached, finer):
        """`reached` are the spots that tracks reach, without None."""
        self.grid, self.is_lost, self.finer, self.spots = grid, is_lost, finer, Spots(grid)
        parts = {it: self.spots.part(it, finer) for it in reached}
        self.parts = sorted(set(parts.values()))
        self.names = [self.name_of(*it) for it in self.parts] + [LOST] * is_lost
        self.numbers = {it: at for at, it in enumerate(self.parts)}
        # The states of spots; that of None is LOST.
        self.of_spots = {spot: self.numbers[part] for spot, part in parts.items()}
        if is_lost:
            self.of_spots[None] = len(self.parts)

    def name_of(self, square, inside):
        """The name of a part of a square, as bytes."""
        return (geometry.name_of(square) + (f"-{inside + 1:02}" if self.finer > 1 else "")).encode("ascii")

    def number_of(self, place):
        """The number of the state that holds a place, or None where there is none: no track came there. None is the place of who is lost."""
        if place is None:
            return self.of_spots.get(None)
        return self.numbers.get(self.spots.part(self.spots.number_of(place), self.finer))

    def middle(self, name):
        """Where a state is drawn, in metres: its middle. LOST is drawn apart, east of the area at its south."""
        if name == LOST:
            return self.grid.middle((self.grid.rows - 1, self.grid.columns + Fraction(1, 2)))
        (row, column), inside = self.parts[self.names.index(name)]
        south, east = divmod(inside, self.finer)
        return self.grid.finer(self.finer).middle((row * self.finer + south, column * self.finer + east))

    def within(self, square):
        """The numbers of the states in a square, ascending."""
        inside = (self.numbers.get((square, it)) for it in range(self.finer**2))
        return [it for it in inside if it is not None]


def fitting(grid, is_lost, reached, asked=None):
    """The numbers of states side by side in a square of which at most 200 are reached, the finest first; that which is asked for alone,
    where one is. Raises BadSituation where none fits."""
    spots = Spots(grid)
    counts = {it: len({spots.part(spot, it) for spot in reached}) + is_lost for it in range(FINEST, 0, -1)}
    fit = [it for it, count in counts.items() if count <= MOST_CELLS]
    if not fit:
        told = f"the tracks reach {counts[1]} cells{', lost among them' * is_lost}, and {MOST_CELLS} are the most"
        raise BadSituation(f"[area] rows: {told}; take fewer, larger cells, as in rows = 7")
    if asked is None:
        return fit
    told = f"with {asked} the tracks reach {counts[asked]} states{', lost among them' * is_lost}, and {MOST_CELLS} are the most"
    if asked not in fit:
        raise BadSituation(f"[tracks] finer: {told}; take a smaller number, as in finer = {fit[0]}")
    return [asked]
