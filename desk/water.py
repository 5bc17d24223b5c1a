"""The area as floats: where a track that goes straight on ends, between land and the edge of the area.

Places are pairs of metres east and south of the area's north-west corner.
"""
import math

# Where land may be near, a track goes in parts of less than a square, and where such a part may touch land, in so many parts of it.
FINER_PARTS = 16
# What is held at the edge of the area is so many metres inside of it, and so many metres are between what is clear of land and land.
INSIDE = 0.001


class Water:
    """The water of a grid, and whether what leaves it is lost."""

    def __init__(self, grid, is_lost):
        self.is_lost, self.side, self.columns = is_lost, float(grid.side), grid.columns
        self.width, self.height = float(grid.columns * grid.side), float(grid.rows * grid.side)
        self.cells = grid.cells()
        # Whether the last way of `gone` ended before land.
        self.is_aground = False
        # By square, and by squares of a ring around the area: whether it isn't land.
        self.ring = [(row, column) not in grid.land for row in range(-1, grid.rows + 1) for column in range(-1, grid.columns + 1)]
        # By square: how many metres one may go from anywhere in it along both axes, and come to no land. Nobody is on land.
        squares = ((row, column) for row in range(grid.rows) for column in range(grid.columns))
        self.clear = [self.reach(grid, it) if it not in grid.land else 0.0 for it in squares]

    def reach(self, grid, square):
        """How many metres are surely between a place in a square and land, along one of the axes."""
        squares = min((max(abs(square[0] - row), abs(square[1] - column)) for row, column in grid.land), default=math.inf)
        return (squares - 1) * self.side - INSIDE

    def at(self, x, y):
        """The number in the ring of the square that holds a place."""
        return (math.floor(y / self.side) + 1) * (self.columns + 2) + math.floor(x / self.side) + 1

    def is_inside(self, x, y):
        return 0 <= x < self.width and 0 <= y < self.height

    def is_water(self, x, y):
        """Whether a place is in the area and not on land."""
        return self.is_inside(x, y) and self.ring[self.at(x, y)]

    def held(self, x, y):
        """A place in the area; for one that isn't, None where that is lost, and else the nearest place in the area."""
        if self.is_inside(x, y):
            return x, y
        if self.is_lost:
            return None
        return min(max(x, 0.0), self.width - INSIDE), min(max(y, 0.0), self.height - INSIDE)

    def nearest(self, x, y):
        """The place that isn't on land nearest to one in the area, a little inside of its square; of equal ones that of the first square."""
        low, high = INSIDE, self.side - INSIDE
        near = ((min(max(x, column * self.side + low), column * self.side + high), row * self.side) for row, column in self.cells)
        near = ((east, min(max(y, south + low), south + high)) for east, south in near)
        return min(near, key=lambda it: (it[0] - x) * (it[0] - x) + (it[1] - y) * (it[1] - y))

    def gone(self, place, east, south):
        """Where a track ends that would go straight so many metres from a place; None where it leaves the area and is lost.

        It goes from square to square. Where it would enter land, or pass between two corners of land, it stays; what is held at the edge
        of the area goes along the edge. `is_aground` says then whether it stays before land.
        """
        x, y = place
        self.is_aground = False
        far = self.clear[int(y / self.side) * self.columns + int(x / self.side)]
        if -far < east < far and -far < south < far:
            return self.held(x + east, y + south)
        count = int(max(abs(east), abs(south)) / self.side) + 1
        east, south = east / count, south / count
        for left in reversed(range(count)):
            to = x + east, y + south
            place, self.is_aground = (self.held(*to), False) if self.is_open(x, y, *to) else self.along_land(x, y, east, south)
            if place is None or self.is_aground:
                return place
            if not self.is_inside(*to):
                # Along the edge goes what is left of the way.
                limits = zip((east, south), to, (self.width, self.height))
                return self.gone(place, *(left * by if 0 <= at < limit else 0.0 for by, at, limit in limits))
            x, y = place
        return x, y

    def is_open(self, x, y, east, south):
        """Whether no square between two places, that are less than a square apart along each axis, is land."""
        ring, side, wide = self.ring, self.side, self.columns + 2
        west, north = math.floor(x / side) + 1, (math.floor(y / side) + 1) * wide
        east, south = math.floor(east / side) + 1, (math.floor(south / side) + 1) * wide
        return ring[north + east] and ring[south + west] and ring[south + east]

    def along_land(self, x, y, east, south):
        """Where a track ends that goes so many metres, in parts, until a part would enter land; and whether one would."""
        ring, east, south = self.ring, east / FINER_PARTS, south / FINER_PARTS
        for _ in range(FINER_PARTS):
            to = x + east, y + south
            if not ring[self.at(*to)] or not (ring[self.at(x, to[1])] or ring[self.at(to[0], y)]):
                return (x, y), True
            to = self.held(*to)
            if to is None:
                return None, False
            if not ring[self.at(*to)]:
                return (x, y), True
            x, y = to
        return (x, y), False
