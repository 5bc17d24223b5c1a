"""Metres, bearings and the squares of a search area. North is up: row 0 is the northmost, column 0 the westmost.

Places are pairs of metres east and south of the area's north-west corner, displacements pairs of metres east and south.
"""
import dataclasses
import math
from fractions import Fraction

# The international nautical mile, in metres (First International Extraordinary Hydrographic Conference, Monaco, 1929).
NAUTICAL_MILE = 1852
# Sines and cosines are rounded to this part. The displacement of a day at 10 knots is wrong by less than a millimetre by it.
SINE_PART = 10**9


def decimal(value):
    """A number of metres, minutes or knots with up to two digits behind the point."""
    return f"{float(value):.2f}".rstrip("0").rstrip(".")


def metres(knots, minutes):
    """The metres that a speed in knots makes in so many minutes, exactly."""
    return Fraction(knots) * NAUTICAL_MILE * Fraction(minutes) / 60


def displacement(length, towards):
    """A displacement of so many metres towards a true bearing in degrees (0 north, 90 east). Its sine and cosine are floats, rounded."""
    angle = math.radians(towards)
    east, north = (Fraction(round(it * SINE_PART), SINE_PART) for it in (math.sin(angle), math.cos(angle)))
    return length * east, -length * north


@dataclasses.dataclass(frozen=True)
class Grid:
    """Squares of a side in metres, in rows and columns. Those of land, as pairs (row, column), are no cells. `frame` says where they lie
    on the earth (desk.earth.Frame), or is None."""

    rows: int
    columns: int
    side: Fraction
    land: frozenset = frozenset()
    frame: object = None

    def cells(self):
        """The squares that aren't land, row by row."""
        squares = ((row, column) for row in range(self.rows) for column in range(self.columns))
        return [it for it in squares if it not in self.land]

    def contains(self, square):
        """Whether a pair of a row and a column is in the area, land or not."""
        return 0 <= square[0] < self.rows and 0 <= square[1] < self.columns

    def is_water(self, square):
        return self.contains(square) and square not in self.land

    def is_edge(self, square):
        """Whether a square lies at the border of the area."""
        return square[0] in (0, self.rows - 1) or square[1] in (0, self.columns - 1)

    def nearest(self, square):
        """The square of the area that is nearest to one that may lie outside of it."""
        return min(max(square[0], 0), self.rows - 1), min(max(square[1], 0), self.columns - 1)

    def middle(self, square):
        """Where a square's middle is, also that of one outside of the area."""
        return (square[1] + Fraction(1, 2)) * self.side, (square[0] + Fraction(1, 2)) * self.side

    def square_at(self, place):
        """The square that holds a place in metres. A place on a line between two belongs to the one east or south of it."""
        return math.floor(place[1] / self.side), math.floor(place[0] / self.side)

    def finer(self, count):
        """The same area in squares of which `count` by `count` make one of these."""
        land = frozenset((row * count + it // count, column * count + it % count) for row, column in self.land for it in range(count * count))
        return Grid(self.rows * count, self.columns * count, self.side / count, land, self.frame)

    def neighbours(self, square, ways):
        """The cells beside a square, 4 by its sides or 8 by its sides and corners. None is reached between two corners of land."""
        row, column = square
        found = []
        for south in (-1, 0, 1):
            for east in (-1, 0, 1):
                to = row + south, column + east
                is_way = to != square if ways == 8 else abs(south) + abs(east) == 1
                is_open = self.is_water((row, column + east)) or self.is_water((row + south, column))
                if is_way and is_open and self.is_water(to):
                    found.append(to)
        return found


def name_of(square):
    """The name of a square, as text: r2c3 is in the third row from the north and the fourth column from the west."""
    return f"r{square[0]}c{square[1]}"
