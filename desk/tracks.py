"""Drifts of a situation: the tracks of single persons in continuous places, from which everything else is counted. They are simulated, or
are those of another drift model's file.

Places are pairs of floats, in metres east and south of the area's north-west corner. All draws come from `random.Random(seed).random()`,
one track after the other, so the same situation has the same tracks on every machine.
"""
import bisect
import dataclasses
import itertools
import math
import random
from fractions import Fraction
from typing import NamedTuple

from desk import draws
from desk.reported import Reported
from desk.water import Water

# The most steps before the first look. Where a report is older than so many periods, a step is several periods.
MOST_BEFORE = 48
# Behind how many tracks it is told how many there are.
TOLD = 1000


@dataclasses.dataclass(frozen=True)
class Tracks:
    """Drifts of a situation. `looks[t - 1]` has, for each track, its place at the look of period t: metres east and south of
    the north-west corner as a pair of floats, or None where it has left the area and is lost. They were simulated from `seed`, or where that
    is None are those of the `file` of a name, of which `said` are lines to say. Of simulated ones `ashore[t - 1]` has, ascending, the
    numbers (from 0 on) of those that land stopped in their last way before the look of period t."""

    count: int
    seed: int | None
    looks: tuple
    file: str | None = None
    said: tuple = ()
    ashore: tuple = ()

    @property
    def origin(self):
        """Where they come from, in words."""
        return f"from seed {self.seed}" if self.file is None else f"of {self.file}"


class Leg(NamedTuple):
    """A time in which current and wind are steady: its minutes, the displacement in metres by current and leeway, and that of the air."""

    minutes: float
    east: float
    south: float
    air_east: float
    air_south: float

    def lasting(self, minutes):
        """A part of this leg, of so many minutes."""
        part = minutes / self.minutes
        return Leg(minutes, self.east * part, self.south * part, self.air_east * part, self.air_south * part)


class Step(NamedTuple):
    """A time whose spread is drawn once: when it ends, its minutes, the most metres of the spread to each side, and its legs."""

    ends: float
    minutes: float
    spread: float
    legs: tuple

    def behind(self, begins):
        """What is left of this step from a time in it on. What is random adds up by its squares, so its spread is by the root of time."""
        minutes, ends, kept = self.ends - begins, self.ends - self.minutes, []
        for it in self.legs:
            ends += it.minutes
            if ends > begins:
                kept.append(it.lasting(min(ends - begins, it.minutes)))
        return Step(self.ends, minutes, self.spread * math.sqrt(minutes / self.minutes), tuple(kept))


# ---- the drift that all have in common


def timeline(given):
    """The steps from the earliest report on: T lists, of the steps until the look of each period. A period is one step; before the
    first look, where there would be too many, several are."""
    first, earliest = given.look_time(1), min(it.minutes for it in given.reports)
    periods = (first - earliest) / given.minutes
    together = max(math.ceil(periods / MOST_BEFORE), 1)
    ends = [first - given.minutes * together * it for it in reversed(range(math.ceil(periods / together)))]
    before = [step_of(given, *it) for it in zip([earliest, *ends], ends)]
    return [before, *([step_of(given, given.look_time(t), given.look_time(t + 1))] for t in range(1, given.periods))]


def step_of(given, begins, ends):
    """The step between two times in minutes. Its displacements are exact, also of a tide that turns in it, and floats at the end."""
    drift = given.drift
    steady = [it for it in (drift.current, drift.wind) if it]
    turns = {since for it in steady for since, _ in it.rows if since is not None and begins < since < ends}
    times = [begins, *sorted(turns), ends]
    legs = (leg_of(drift, *it) for it in zip(times, times[1:]))
    spread = float(drift.spread) * math.sqrt((ends - begins) / given.minutes)
    return Step(float(ends), float(ends - begins), spread, tuple(legs))


def leg_of(drift, begins, ends):
    """The leg between two times in minutes."""
    current, air = (it.moved(begins, ends) if it else (Fraction(0), Fraction(0)) for it in (drift.current, drift.wind))
    moved = (at + drift.downwind * by for at, by in zip(current, air))
    return Leg(*(float(it) for it in (ends - begins, *moved, *air)))


# ---- what a person has of their own


class Person:
    """What stays with a person: draws of the error of the current and of the wind in metres a minute, of the downwind leeway as a share of
    the wind's speed; and the side to which they go from straight downwind, 1 the right and -1 the left, until it changes."""

    def __init__(self, drift, begins, draw):
        self.draw, self.rate, self.to_right = draw, drift.rate, drift.crosswind
        current, self.wind = (draws.pair(it, draw) for it in (drift.current_error, drift.wind_error))
        self.leeway = drift.leeway_error * draws.normal(draw()) if drift.leeway_error else 0.0
        self.drift = tuple(by + (float(drift.downwind) + self.leeway) * air for by, air in zip(current, self.wind))
        self.side = (1 if draw() < 0.5 else -1) if drift.crosswind else 0
        self.turns = begins + draws.waiting(drift.rate, draw) if drift.rate else math.inf

    def moves(self, steps):
        """The moves of this person in steps, as plain_moves has them."""
        return [(it.spread, self.moved(it.legs, it.minutes) if it.ends <= self.turns else self.turned(it)) for it in steps]

    def moved(self, legs, whole):
        """The moves of legs in which the side doesn't change, of a step of so many minutes."""
        more, right = self.leeway, self.side * self.to_right
        a_minute_east, a_minute_south = self.drift[0] - right * self.wind[1], self.drift[1] + right * self.wind[0]
        return [
            (
                east + minutes * a_minute_east + more * air_east - right * air_south,
                south + minutes * a_minute_south + more * air_south + right * air_east,
                minutes / whole,
            )
            for minutes, east, south, air_east, air_south in legs
        ]

    def turned(self, step):
        """The moves of a step in which the side changes. A leg is cut where it does."""
        found, begins = [], step.ends - step.minutes
        for leg in step.legs:
            ends, left = begins + leg.minutes, leg
            while self.turns < ends:
                found += self.moved([leg.lasting(self.turns - begins)], step.minutes)
                begins, left = self.turns, leg.lasting(ends - self.turns)
                self.side, self.turns = -self.side, self.turns + draws.waiting(self.rate, self.draw)
            found += self.moved([left], step.minutes)
            begins = ends
        return found


def plain_moves(steps):
    """The moves of all who have nothing of their own: of each step the spread, and of each leg the metres east and south and its share of
    the step's minutes."""
    return [(it.spread, [(leg.east, leg.south, leg.minutes / it.minutes) for leg in it.legs]) for it in steps]


# ---- tracks


def made(given, count=None, seed=None, tell=None):
    """The tracks of a situation (desk.situation.Situation): those of its file where it names one, and else simulated ones."""
    told = given.tracks.ensemble
    if told is None:
        return simulated(given, count, seed, tell)
    looks, said = told.within(Water(given.grid, given.is_lost))
    return Tracks(told.count, None, looks, told.name, said)


def simulated(given, count=None, seed=None, tell=None):
    """Simulated tracks of a situation; count and seed as it says unless they are given. `tell` is told from time to time how many there
    are."""
    count, seed = given.tracks.count if count is None else count, given.tracks.seed if seed is None else seed
    draw, water = random.Random(seed).random, Water(given.grid, given.is_lost)
    reports = [Reported(it, at, water) for at, it in enumerate(given.reports, 1)]
    total = sum(it.weight for it in given.reports)
    limits = [float(it / total) for it in itertools.accumulate(it.weight for it in given.reports)]
    drifts = Drifts(given)
    looks, ashore = (tuple([] for _ in range(given.periods)) for _ in range(2))
    for done in range(count):
        if tell and done % TOLD == 0:
            tell(done)
        report = reports[bisect.bisect_right(limits, draw())]
        begins, place = report.time(draw), report.place(draw)
        track((looks, ashore), place, drifts.moves(begins, draw), water, draw)
    return Tracks(count, seed, looks, ashore=ashore)


class Drifts:
    """The moves of persons by the times at which they begin."""

    def __init__(self, given):
        self.drift, (self.before, *self.later) = given.drift, timeline(given)
        self.ends = [it.ends for it in self.before]
        self.plain_before, *self.plain_later = (plain_moves(it) for it in (self.before, *self.later))

    def moves(self, begins, draw):
        """T lists, of the moves until the look of each period, of somebody who drifts from a time on."""
        at = bisect.bisect_right(self.ends, begins)
        first = [it.behind(begins) for it in self.before[at : at + 1]]
        if self.drift.is_own:
            person = Person(self.drift, begins, draw)
            return [person.moves(it) for it in (first + self.before[at + 1 :], *self.later)]
        return [plain_moves(first) + self.plain_before[at + 1 :], *self.plain_later]


def track(lists, place, drifts, water, draw):
    """Puts a track's place at each look behind those of the others, and its number into the lists of the looks at which land holds it;
    `lists` are both, by look."""
    gone, water.is_aground = water.gone, False
    for found, ashore, moves in zip(*lists, drifts):
        for spread, legs in moves if place else ():
            aside, down = (spread * (2 * draw() - 1), spread * (2 * draw() - 1)) if spread else (0.0, 0.0)
            for east, south, share in legs:
                place = place and gone(place, east + share * aside, south + share * down)
        if place and water.is_aground:
            ashore.append(len(found))
        found.append(place)
