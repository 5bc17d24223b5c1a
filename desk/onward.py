"""The scenario from a period on, where the looks so far found nothing: what is left of the target, drifted to the next look.

All masses are whole numbers and all chances Fractions; only the new first distribution is rounded, and how much is told.
"""
import copy
import dataclasses
import math
from fractions import Fraction

from desk import forms, limits, paths, rounding, verdict
from desk.status import Status




class NoWay(Exception):
    """There is no scenario from there on: the exit status, and why."""

    def __init__(self, status, why):
        super().__init__(why)
        self.status = status


@dataclasses.dataclass
class Onward:
    """The scenario from there on.

    `found` is the chance of the periods that were flown (P1). `largest` is by how much the share of a cell was rounded at most,
    and `moved` how much of the mass was put elsewhere in all: the chance of no path is off by more. Both are parts of the mass
    that is left. `finest` is the greatest A with which the new horizon fits into 128 bits.
    """

    sc: forms.Scenario
    found: Fraction
    largest: Fraction
    moved: Fraction
    finest: int


def extended(sc, horizon):
    """The scenario with another horizon. Behind the old one, each step is as its last step (behind the last period but one), and
    each look as those of its last period."""
    longer, last = copy.copy(sc), sc.horizon
    longer.horizon = horizon
    longer.drift_in, longer.looks_in = dict(sc.drift_in), dict(sc.looks_in)
    for t in range(last, horizon + 1):
        longer.drift_in.update({(t, it): sc.row(last - 1, it) for it in range(len(sc.names))})
    for t in range(last + 1, horizon + 1):
        longer.looks_in.update({(t, it): sc.look(last, it) for it in range(len(sc.positions))})
    return longer


def moved_up(longer, flown):
    """The rows of a scenario behind so many periods: its period flown+1 is the new period 1. Its first distribution isn't set."""
    sc = forms.Scenario()
    sc.names, sc.positions, sc.moves = longer.names, longer.positions, longer.moves
    sc.horizon = longer.horizon - flown
    sc.drift = {it: longer.row(flown + 1, it) for it in range(len(sc.names))}
    sc.looks = {it: longer.look(flown + 1, it) for it in range(len(sc.positions))}
    for t in range(2, sc.horizon + 1):
        rows = {(t, it): longer.row(flown + t, it) for it in sc.drift} if t < sc.horizon else {}
        looks = {(t, it): longer.look(flown + t, it) for it in sc.looks}
        sc.drift_in.update({at: row for at, row in rows.items() if row != sc.drift[at[1]]})
        sc.looks_in.update({at: look for at, look in looks.items() if look != sc.looks[at[1]]})
    return sc


def denominator(masses, horizon, parts):
    """The new A: with which nothing is rounded, where it fits into 128 bits; else the finest that fits. And the finest."""
    finest = rounding.greatest(limits.MOST_PART, lambda it: forms.is_narrow(horizon, (it, *parts[1:])))
    if finest == 0:
        most = rounding.most_periods((1, *parts[1:]))
        raise NoWay(Status.WRONG_WORDS, f"{horizon} periods don't fit into 128 bits with D {parts[1]} and G {parts[2]}; {most} would")
    return min(sum(masses) // math.gcd(*masses), finest), finest


def onward(sc, path, flown, horizon):
    """What is to be searched behind the first `flown` periods of a path, in so many more."""
    longer = extended(sc, flown + horizon)
    value, masses = verdict.after(longer, path[:flown])
    if not any(masses):
        raise NoWay(Status.WRONG, f"the looks of {flown} periods find the target for certain: nothing is left to search")
    new = moved_up(longer, flown)
    whole, finest = denominator(masses, horizon, sc.parts)
    new.parts, new.start = (whole, *sc.parts[1:]), path[flown - 1]
    shares = dict(enumerate(masses))
    parts = rounding.largest_remainder(shares, whole)
    new.first = [parts.get(it, 0) for it in shares]
    changes = [Fraction(part, whole) - Fraction(mass, sum(masses)) for part, mass in zip(new.first, masses)]
    found = Fraction(value, paths.weight(longer))
    return Onward(new, found, rounding.largest_error(shares, parts, whole), sum(it for it in changes if it > 0), finest)
