"""What looks find of simulated drifts: by period and in all, with standard errors, and why that differs from what a plan says.

The chance that a drift is missed is exact: the product of the misses of the looks that cover its place. So what is found is a mean over the
drifts of a number from 0 to 1, and its standard error is the sample standard deviation over the root of their count.
"""
import dataclasses
import math

from desk import detection, states


@dataclasses.dataclass(frozen=True)
class Estimate:
    """A mean over drifts, and its standard error."""

    mean: float
    error: float


def estimate(values):
    """The mean of values, one for each drift, and its standard error."""
    mean = math.fsum(values) / len(values)
    squares = ((it - mean) * (it - mean) for it in values)
    return Estimate(mean, math.sqrt(math.fsum(squares) / max(len(values) - 1, 1) / len(values)))


@dataclasses.dataclass(frozen=True)
class Finds:
    """What looks find: `periods` what those of each period find that no look before them found, `so_far` what all up to there find; and
    by drift the chance `missed` that no look finds it."""

    periods: tuple
    so_far: tuple
    missed: list

    @property
    def total(self):
        return self.so_far[-1]


def less(one, other):
    """How much more the looks of one find than those of another: the mean of the differences by drift."""
    return estimate([b - a for a, b in zip(one.missed, other.missed)])


class Drifts:
    """The tracks of a situation by the squares in which they are at each look."""

    def __init__(self, given, tracks):
        self.given, self.count, self.seed = given, tracks.count, tracks.seed
        self.spots = states.Spots(given.grid)
        self.at = [[self.spots.number_of(it) for it in look] for look in tracks.looks]
        self.squares = [self.parts(look, 1) for look in self.at]
        self.misses = [detection.misses(given, t) for t in range(1, given.periods + 1)]

    def parts(self, look, finer):
        """Where the drifts are at a look, as squares with the number of a part of the square; None for what is lost."""
        known = {it: it if it is None else self.spots.part(it, finer) for it in set(look)}
        return [known[it] for it in look]

    def missed(self, t, squares):
        """By drift the chance that the looks of a period from these squares all miss it."""
        seen = {}
        for it in squares:
            for square, miss in detection.covered(self.given, self.misses[t - 1], it).items():
                seen[square, 0] = seen.get((square, 0), 1.0) * float(miss)
        return [seen.get(it, 1.0) for it in self.squares[t - 1]]

    def found(self, looks, finer=None):
        """What looks find, given as the squares of each period from which searchers look.

        With `finer` the drifts forget where they come from, as a chain does whose states are so many parts along a square's side: behind
        each look all drifts of a state are as likely to have been missed.
        """
        left, periods, so_far = [1.0] * self.count, [], []
        for t, squares in enumerate(looks, 1):
            after = [a * b for a, b in zip(left, self.missed(t, squares))]
            periods.append(estimate([a - b for a, b in zip(left, after)]))
            so_far.append(estimate([1 - it for it in after]))
            left = after if finer is None else averaged(after, self.parts(self.at[t - 1], finer))
        return Finds(tuple(periods), tuple(so_far), left)


def averaged(values, groups):
    """For each value the mean of those of its group."""
    members = {}
    for value, group in zip(values, groups):
        members.setdefault(group, []).append(value)
    means = {group: math.fsum(it) / len(it) for group, it in members.items()}
    return [means[it] for it in groups]


# By the number of states along a square's side, one with states about half as large.
HALVED = {1: 2, 2: 4, 3: 6, 4: 12}


def finer_of(given, own, sc):
    """How many states along a square's side a scenario has that was drafted of these drifts; None where it was of others."""
    reached = {spot for look in own.at for spot in look} - {None}
    found = (it for it in HALVED if states.States(given.grid, given.is_lost, reached, it).names == sc.names)
    return next(found, None)
