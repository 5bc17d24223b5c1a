"""Where and when a person was by a report: times and places by random draws, places not on land."""
import bisect
import itertools
import math

from desk.draws import Circle, Normal
from desk.keys import BadSituation

# How many places are drawn at most on the mean until one is in the area and not on land, and how many before that mean is known.
MOST_TRIES, FIRST_TRIES = 100, 20_000
EVERYWHERE = ((-math.inf, math.inf),) * 2


class Square:
    """Anywhere in a square of a side in metres, given by its row and its column."""

    def __init__(self, square, side):
        (self.row, self.column), self.side = map(float, square), side

    def drawn(self, draw):
        return (self.column + draw()) * self.side, (self.row + draw()) * self.side


class Line:
    """Anywhere along a line through places, in equal parts of its length, or at the one place."""

    def __init__(self, places):
        self.places = places
        legs = zip(places, places[1:])
        self.lengths = [0.0, *itertools.accumulate(math.sqrt((x - a) ** 2 + (y - b) ** 2) for (a, b), (x, y) in legs)]

    def drawn(self, draw):
        if len(self.places) == 1:
            return self.places[0]
        along = draw() * self.lengths[-1]
        at = min(bisect.bisect_right(self.lengths, along), len(self.places) - 1)
        (a, b), (x, y) = self.places[at - 1 : at + 1]
        share = (along - self.lengths[at - 1]) / (self.lengths[at] - self.lengths[at - 1])
        return a + share * (x - a), b + share * (y - b)


class Reported:
    """The report of a number from 1 on: draws of its time and its place."""

    def __init__(self, report, number, water):
        self.number, self.water, self.tries = number, water, 0
        self.since, self.until = float(report.minutes), float(report.minutes if report.until is None else report.until)
        places = [tuple(float(it) for it in place) for place in report.track or [report.place]]
        self.where = Square(report.square, water.side) if report.is_square else Line(places)
        x, y = places[0]
        # Where the middle of the error is one place, what is outside of the area needn't be drawn.
        bounds = EVERYWHERE if report.track else ((-x, water.width - x), (-y, water.height - y))
        self.error = self.around(report, bounds)

    @staticmethod
    def around(report, bounds):
        """The error of the position, or None where there is none."""
        if report.probable_error:
            return Normal(float(report.probable_error), bounds)
        return Circle(float(report.radius), bounds) if report.radius else None

    def time(self, draw):
        """The minutes after the begin of the search at which they were there."""
        return self.since + (self.until - self.since) * draw() if self.until > self.since else self.since

    def place(self, draw):
        """A place where they were. Raises BadSituation where hardly any is in the area and not on land."""
        while self.tries > -FIRST_TRIES:
            self.tries -= 1
            x, y = self.where.drawn(draw)
            if self.error:
                east, south = self.error.drawn(draw)
                x, y = x + east, y + south
            if self.water.is_water(x, y):
                self.tries += MOST_TRIES
                return x, y
        why = f"hardly one of {MOST_TRIES} of its places is in the area and not on land; it should be smaller, as in radius = 400"
        raise BadSituation(f"[[report]] {self.number} radius or probable_error: {why}")
