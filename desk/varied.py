"""Situations as they may be otherwise: one thing at a time is more or less than a situation says, by its own error or by a default."""
import dataclasses
import math
from fractions import Fraction

from desk import geometry, moments

# By which share a current, a wind, a leeway or a sweep width is varied whose error no key states.
SHARE = Fraction(1, 5)
# Shares of a speed are rounded to this part.
PART = 10**9
# What is said of such a share.
NO_KEY = "a default, since no key states it"
# The sides to which places are moved, as metres east and south.
SIDES = {"north": (0, -1), "east": (1, 0), "south": (0, 1), "west": (-1, 0)}


@dataclasses.dataclass(frozen=True)
class Variation:
    """A situation in which one thing is otherwise: what that is, which way (more, less, or the side to which places are moved), by how much
    in words, the keys that state so much, what is taken where no key does, in words, and whether persons drift as before."""

    what: str
    way: str
    by: str
    keys: tuple
    given: object
    default: str | None = None
    drifts_as_before: bool = False

    @property
    def reason(self):
        """Why it is by so much, in words."""
        told = [f"by {' and '.join(self.keys)}"] if self.keys else []
        return ", else ".join(told + [self.default] * (self.default is not None))


def variations(given):
    """The Variations of a desk.situation.Situation, in the order in which they are told."""
    return [*currents(given), *winds(given), *leeways(given), *sweep_widths(given), *places(given)]


def both(what, by, keys, changed):
    """More and less of a thing; `changed(sign)` is the situation with so much more of it, or with a sign of -1 less."""
    return [Variation(what, way, by, keys, changed(sign), None if keys else NO_KEY) for way, sign in (("more", 1), ("less", -1))]


def with_drift(given, **changes):
    """The situation with another drift."""
    return dataclasses.replace(given, drift=dataclasses.replace(given.drift, **changes))


def percent(share):
    """A share in words."""
    return f"{float(share) * 100:.4g} %"


# ---- what drives a person


def faster(steps, error, sign):
    """Velocities by steps of time, each faster along its own direction by an error in metres a minute, or by SHARE where that is 0; with a
    sign of -1 slower, and so perhaps turned round. Slack water stays slack."""

    def changed(velocity):
        share = Fraction(round(error / math.hypot(*map(float, velocity)) * PART), PART) if error else SHARE
        return tuple(it * (1 + sign * share) for it in velocity)

    return moments.Steps(tuple((since, changed(it) if any(it) else it) for since, it in steps.rows))


def driving(given, what, name, error):
    """More and less of the velocities of a drift's field of this name, with the standard deviation of its key."""
    steps = getattr(given.drift, name)
    if steps is None:
        return []
    by = f"{error * 60 / geometry.NAUTICAL_MILE:.4g} knots" if error else percent(SHARE)
    keys = (f"{name}_error",) if error else ()
    return both(what, by, keys, lambda sign: with_drift(given, **{name: faster(steps, error, sign)}))


def currents(given):
    """More and less current."""
    return driving(given, "current", "current", given.drift.current_error)


def winds(given):
    """More and less wind."""
    return driving(given, "wind", "wind", given.drift.wind_error)


def leeways(given):
    """More and less leeway: by its error straight downwind, or by SHARE of all of it."""
    drift = given.drift
    if drift.wind is None:
        return []
    if drift.leeway_error:
        error = Fraction(round(drift.leeway_error * PART), PART)
        by = f"{percent(error)} of the wind's speed"
        return both("leeway", by, ("leeway_error",), lambda sign: with_drift(given, downwind=drift.downwind + sign * error))

    def changed(sign):
        factor = 1 + sign * SHARE
        return with_drift(given, downwind=drift.downwind * factor, crosswind=drift.crosswind * float(factor))

    return both("leeway", percent(SHARE), (), changed)


# ---- the searcher


def sweep_widths(given):
    """More and less sweep width, in the searcher's own cell and beside its course. No key states an error of it."""

    def changed(sign):
        who, factor = given.searcher, 1 + sign * SHARE
        beside = None if who.beside is None else who.beside * factor
        return dataclasses.replace(given, searcher=dataclasses.replace(who, sweep_width=who.sweep_width * factor, beside=beside))

    found = both("sweep width", percent(SHARE), (), changed)
    return [dataclasses.replace(it, drifts_as_before=True) for it in found]


# ---- where they were

# What is said where no key states how far a place is off.
HALF = "half the side of a cell by default"


def error_of(report, side):
    """By how many metres the place of a report may be off, and the key that states it or None: half of all are within so many. Where there
    is neither a probable error nor a radius it is half the side of a cell."""
    if report.probable_error:
        return report.probable_error, "probable_error"
    if report.radius:
        # A circle of half the area has the radius over the root of 2.
        return Fraction(round(float(report.radius) / math.sqrt(2) * PART), PART), "radius"
    return side / 2, None


def places(given):
    """The places of all reports, or of the tracks of a file, moved to each side."""
    side, told = given.grid.side, given.tracks.ensemble
    if told is not None:
        by, half = f"{geometry.decimal(side / 2)} m", float(side / 2)
        return [Variation("the tracks", way, by, (), with_tracks(given, told.moved(*(it * half for it in to))), HALF) for way, to in SIDES.items()]
    errors = [error_of(it, side) for it in given.reports]
    by = ", ".join(f"{geometry.decimal(metres)} m" + f" (report {at})" * (len(errors) > 1) for at, (metres, _) in enumerate(errors, 1))
    keys, default = tuple(dict.fromkeys(key for _, key in errors if key)), HALF if any(key is None for _, key in errors) else None
    return [Variation("places", way, by, keys, moved(given, errors, *to), default) for way, to in SIDES.items()]


def with_tracks(given, told):
    """The situation with other tracks of its file."""
    return dataclasses.replace(given, tracks=dataclasses.replace(given.tracks, ensemble=told))


def moved(given, errors, east, south):
    """The situation with each report moved by its error, to a side."""
    reports = (it.moved(east * metres, south * metres, given.grid.side) for it, (metres, _) in zip(given.reports, errors))
    return dataclasses.replace(given, reports=tuple(reports))
