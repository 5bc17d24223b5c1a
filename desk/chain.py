"""A chain of states that goes as simulated tracks go: its distribution at each look is theirs, but for rounding. docs/PLANNING.md says how."""
import collections
import dataclasses
import math
from fractions import Fraction

from desk import rounding
from desk.states import Spots, States, fitting
from desk.tracks import Tracks


@dataclasses.dataclass(frozen=True)
class Drift:
    """Tracks on states, all by number of state: `looks[t - 1]` is {state: tracks} at the look of period t, and `steps[t - 1]`
    {state: {state at the next look: tracks}}."""

    tracks: Tracks
    states: States
    looks: list
    steps: list


@dataclasses.dataclass(frozen=True)
class Chain:
    """A chain in parts A and D: `first` {state: parts of A}, and `rows[t - 1]` {state: {state at the next look: parts of D}} of the states that
    have tracks at the look of period t. `masses[t - 1]` {state: mass} is what is where then if no look finds anything, in parts of
    `wholes[t - 1]`, which is A * D^(t-1)."""

    first: dict
    rows: list
    masses: list
    wholes: list


def drifts(given, tracks):
    """The Drift of a situation's tracks, on the finest states that fit first, and then on coarser ones. Raises BadSituation where none fit."""
    number_of = Spots(given.grid).number_of
    spots = [[number_of(it) for it in look] for look in tracks.looks]
    reached = set().union(*spots) - {None}
    for finer in fitting(given.grid, given.is_lost, reached, given.tracks.finer):
        states = States(given.grid, given.is_lost, reached, finer)
        numbers = [[states.of_spots[it] for it in look] for look in spots]
        yield Drift(tracks, states, [counted(it) for it in numbers], [steps(*pair) for pair in zip(numbers, numbers[1:])])


def counted(things):
    """How often each thing stands in a list, in ascending order of the things."""
    return dict(sorted(collections.Counter(things).items()))


def steps(here, there):
    """How many tracks go from each state to each other; both lists have the state of each track."""
    found = {}
    for (state, to), count in counted(zip(here, there)).items():
        found.setdefault(state, {})[to] = count
    return found


def chain(drift, a, d):
    """The chain of a Drift in parts of `a` and `d`. Its rows are so rounded that its masses follow the tracks (rounding.carried)."""
    first = rounding.largest_remainder(drift.looks[0], a)
    made = Chain(first, [], [first], [a])
    for step in drift.steps:
        rows = rounding.carried(step, made.masses[-1], d, made.wholes[-1], drift.tracks.count)
        made.rows.append(rows)
        made.masses.append(after(rows, made.masses[-1]))
        made.wholes.append(made.wholes[-1] * d)
    return made


def after(rows, masses):
    """The masses behind a step with these rows."""
    found = {}
    for state, mass in masses.items():
        for to, part in rows[state].items():
            found[to] = found.get(to, 0) + mass * part
    return found


def variations(made, drift):
    """For each look the total variation between a chain and the tracks of its Drift: the share of all that one of them has in other states
    than the other, exactly. It is half the sum of the differences by state."""
    count = drift.tracks.count
    for masses, whole, tracks in zip(made.masses, made.wholes, drift.looks):
        apart = sum(abs(masses.get(it, 0) * count - tracks.get(it, 0) * whole) for it in masses.keys() | tracks.keys())
        yield Fraction(apart, 2 * count * whole)


def deviations(made, drift, t):
    """The standard deviations in metres, east and south, of the chain and of the tracks at the look of period t, but for what is lost; None
    where all is. The chain's persons are anywhere in their states."""
    states, found = drift.states, []
    within = [(mass, states.middle(states.names[it])) for it, mass in made.masses[t - 1].items() if it < len(states.parts)]
    places = [(1, it) for it in drift.tracks.looks[t - 1] if it is not None]
    for weighed, side in ((within, float(states.grid.side) / states.finer), (places, 0.0)):
        if not weighed:
            return None
        found.append([math.sqrt(variance([(mass, float(it[axis])) for mass, it in weighed]) + side**2 / 12) for axis in (0, 1)])
    return found


def variance(weighed):
    """The variance of numbers by their weights."""
    total = sum(mass for mass, _ in weighed)
    shares = [(mass / total, it) for mass, it in weighed]
    mean = math.fsum(share * it for share, it in shares)
    return math.fsum(share * (it - mean) ** 2 for share, it in shares)
