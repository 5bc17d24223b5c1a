"""How often a look misses: the random search formula, and what visibility does to the sweep width."""
import math
from fractions import Fraction

from desk import geometry

# Exponentials are floats, rounded to this part.
CHANCE_PART = 10**12
# A miss below this is so seldom that the search could do with less effort in a cell.
SURE = Fraction(1, 100)


def coverage(sweep_width, speed, minutes, side):
    """The coverage of a square: the area that a searcher sweeps, over the square's area. Exact.

    `sweep_width` and `side` are in metres, `speed` in knots, `minutes` is the time that it searches.
    """
    return sweep_width * geometry.metres(speed, minutes) / (side * side)


def miss(covered):
    """The chance that a search of this coverage misses what is there: exp(-coverage), 1 less the probability of detection.

    The random search formula of Koopman (Search and Screening, 1946; also in the IAMSAR manual, volume II): detection is
    1 - exp(-W v t / A). It is a float, rounded.
    """
    return Fraction(round(math.exp(-min(covered, 700)) * CHANCE_PART), CHANCE_PART)


def factor(visibility, begins, ends):
    """The factor of the sweep width between two times in minutes: the mean of each of the `moments.Steps`, multiplied."""
    return math.prod((it.mean(begins, ends) for it in visibility), start=Fraction(1))


def beside(square, course):
    """The two squares beside a course through a square."""
    row, column = square
    if course == "east-west":
        return [(row - 1, column), (row + 1, column)]
    return [(row, column - 1), (row, column + 1)]


def misses(situation, t):
    """How often the look of period t misses in the searcher's own cell, and (or None) in the cells beside its course."""
    who = situation.searcher
    seen = factor(situation.visibility, situation.minutes * (t - 1), situation.minutes * t)
    widths = [who.sweep_width, who.beside]
    return [None if it is None else miss(coverage(it * seen, who.speed, who.search_minutes, situation.grid.side)) for it in widths]


def covered(situation, misses, square):
    """How often a look from a square misses, by square that it covers; `misses` are those of its period."""
    own, aside = misses
    found = {square: own}
    if aside is not None:
        found.update((it, aside) for it in beside(square, situation.searcher.course) if situation.grid.is_water(it))
    return found
