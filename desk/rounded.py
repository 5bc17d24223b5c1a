"""The scenario of a situation: its shares as whole parts of denominators that are chosen for the truth of its plans, and how far it is off."""
import dataclasses
from fractions import Fraction

from desk import forms, geometry, rounding
from desk.chain import Chain, chain, variations
from desk.shares import BASE
from desk.situation import BadSituation


@dataclasses.dataclass
class Rounded:
    """A scenario and its chain. `off` has for each look the total variation between chain and tracks; then the largest rounding of a share
    of the first distribution, of a row of the drift, and of a miss of a look, each as a share of 1."""

    scenario: forms.Scenario
    chain: Chain
    off: list
    first: Fraction
    drift: Fraction
    look: Fraction


def name_of(position):
    """The name of a position, as bytes."""
    return (BASE if position == BASE else geometry.name_of(position)).encode("ascii")


def denominators(given, shares, drift):
    """The denominators A, D, G of the scenario of a situation's Shares and Drift. Raises BadSituation where none fit."""
    a, d, g = given.parts
    a = a or rounding.exact(drift.looks[0], rounding.MOST_TRIED) or rounding.MOST_TRIED
    # Where all that is in a state goes to one other, nothing is rounded.
    d = d or (1 if all(len(row) == 1 for step in drift.steps for row in step.values()) else None)
    misses = sorted({it for pair in shares.misses for it in pair if it is not None})
    found = rounding.denominators(given.periods, (a, d, g), misses, lambda d: float(max(variations(chain(drift, a, d), drift))))
    if found is None:
        told = ", ".join(f"{name} = {it}" for name, it in zip(("first", "drift", "look"), given.parts) if it)
        why = f"{given.periods} periods don't fit into 128 bits with {told}"
        raise BadSituation(f"[parts]: {why}; leave numbers out or take smaller ones, as in drift = 20")
    return found


def rounded(shares, drift):
    """The scenario of a situation's Shares and Drift, with what was rounded. Raises BadSituation."""
    given, states = shares.given, drift.states
    sc = forms.Scenario()
    sc.horizon = given.periods
    sc.parts = denominators(given, shares, drift)
    made = chain(drift, *sc.parts[:2])
    sc.names, sc.positions, sc.start = states.names, [name_of(it) for it in shares.positions], shares.start()
    sc.moves = dict(enumerate(shares.moves))
    sc.first = [made.first.get(it, 0) for it in range(len(sc.names))]
    put_drift(sc, made)
    first = rounding.largest_error(drift.looks[0], made.first, sc.parts[0])
    rows = [rounding.largest_error(row, made.rows[t][it], sc.parts[1]) for t, step in enumerate(drift.steps) for it, row in step.items()]
    return Rounded(sc, made, list(variations(made, drift)), first, max(rows, default=Fraction(0)), put_looks(sc, shares, states))


def put_drift(sc, made):
    """Puts the rows of a chain into a scenario. A state without tracks at a look, where the chain has no mass either, has the row of the
    first look at which it has some; one that has none before the last look stays."""
    for t, rows in enumerate(made.rows, 1):
        for state, row in rows.items():
            if sc.drift.setdefault(state, row) != row:
                sc.drift_in[t, state] = row
    for state in range(len(sc.names)):
        sc.drift.setdefault(state, {state: sc.parts[1]})


def put_looks(sc, shares, states):
    """Puts the looks of each period into a scenario; answers their largest rounding."""
    largest, whole = Fraction(0), sc.parts[2]
    for t, misses in enumerate(shares.misses, 1):
        largest = max([largest, *(rounding.miss_error(it, whole) for it in misses if it is not None)])
        for at, position in enumerate(shares.positions):
            parts = {state: rounding.nearest_miss(it, whole) for state, it in shares.look(misses, position, states).items()}
            if t == 1:
                sc.looks[at] = parts
            elif parts != sc.looks[at]:
                sc.looks_in[t, at] = parts
    return largest
