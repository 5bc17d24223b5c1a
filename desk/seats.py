"""Who stands where at a position of a scenario that `replan` or `duo` made: one searcher whose first periods are flown, or two.

The scenario from which such a one was made is made out of it again, and desk.derived has to make the same of that: no name alone
makes a position a flown one, or a pair.
"""
import copy
import dataclasses
import math

from desk import derived, forms, limits


class NotOf(Exception):
    """A scenario isn't made of the one that is said to be behind it. It says why."""


@dataclasses.dataclass
class Seats:
    """Where the searchers are, one or two, by the number of a position of a scenario.

    `of` is the scenario that it was made of, or the scenario itself. `sources` has for each position and each searcher the number of
    the position of `of`, or None where two or more look alike; `names` has their names, which are numbers where it `is_numbered`.
    `flown` is how many periods are flown.
    """

    of: forms.Scenario
    sources: list
    names: list
    flown: int = 0
    is_numbered: bool = False

    @property
    def count(self):
        """How many searchers there are."""
        return len(self.names[0])

    def where(self, position, period=0):
        """The names of a position in words; behind those of a flown period it says so."""
        return " and ".join(self.names[position]) + (" (flown)" if 0 < period <= self.flown else "")


def is_same(sc, other):
    """Whether two scenarios have the same plans, by their names, too."""
    return sc.key() == other.key()


def names_of(sc, rows):
    """The names behind the numbers of positions, row by row."""
    return [tuple(sc.positions[it].decode("ascii") for it in row) for row in rows]


# ---- a flown prefix


def without_flown(sc, count):
    """The scenario without the positions from `count` on. Its start isn't set."""
    own = copy.copy(sc)
    own.positions = sc.positions[:count]
    own.moves, own.looks = ({at: row for at, row in rows.items() if at < count} for rows in (sc.moves, sc.looks))
    own.looks_in = {at: row for at, row in sc.looks_in.items() if at[1] < count}
    return own


def seen_from(sc, position):
    """What the looks from a position cover, period by period, in a form that can be compared."""
    return tuple(tuple(sorted(sc.covered(t, position).items())) for t in range(1, sc.horizon + 1))


def narrowed(sc, fits):
    """Of sets of positions for a walk to go through, one behind another, those positions that some such walk does go through."""
    for at in range(1, len(fits)):
        fits[at] &= {to for it in fits[at - 1] for to in sc.moves[it]}
    for at in range(len(fits) - 1, 0, -1):
        fits[at - 1] = {it for it in fits[at - 1] if fits[at] & set(sc.moves[it])}
    return fits


def a_walk(sc, fits):
    """The walk that takes the least position each time."""
    walk = [min(fits[0])]
    for here in fits[1:]:
        walk.append(min(here & set(sc.moves[walk[-1]])))
    return walk


def behind_flown(sc, old):
    """The seats of a scenario that forces a flown prefix, or None. Where several walks look alike, any of them was flown."""
    count = sc.start
    flown = len(sc.positions) - count - 1
    own = old or without_flown(sc, count)
    if flown < 1 or len(own.positions) != count or sc.positions[count:] != [b"flown-%d" % it for it in range(flown + 1)]:
        return None
    if any(to >= count for row in own.moves.values() for to in row):
        return None
    looks = [seen_from(sc, it) for it in range(count + flown + 1)]
    fits = [{own for own in range(count) if looks[own] == here} for here in looks[count:]]
    fits[0] &= {old.start} if old else fits[0]
    fits[-1] &= {it for it in range(count) if own.moves[it] == sc.moves[count + flown]}
    fits = narrowed(own, fits)
    if not all(fits):
        return None
    own = copy.copy(own)
    own.start, *walk = a_walk(own, fits)
    if not forces(own, walk, sc):
        return None
    sources = [*range(count), *(min(it) if len(it) == 1 else None for it in fits)]
    told = (sc.positions[at] if it is None else own.positions[it] for at, it in enumerate(sources))
    return Seats(own, [(it,) for it in sources], [(it.decode("ascii"),) for it in told], flown)


def forces(own, flown, sc):
    """Whether a scenario is the one that forces a flown prefix."""
    try:
        return is_same(derived.forced(own, flown), sc)
    except derived.Refused:
        return False


# ---- two searchers


def root(part):
    """The square root of a part that two searchers at one position miss, or one more than the greatest where it has none."""
    found = math.isqrt(part)
    return found if found * found == part else limits.MOST_PART + 1


def one_of_two(sc, count):
    """The scenario of one of the two searchers, by the pairs of a position with itself. Its positions are named by their numbers."""
    one = copy.copy(sc)
    own = [it * count + it for it in range(count)]
    one.positions, one.start = [b"%d" % it for it in range(count)], sc.start // count
    one.parts = (*sc.parts[:2], root(sc.parts[2]))
    one.moves = {at: sorted({to // count for to in sc.moves[it]}) for at, it in enumerate(own)}
    looks = {(t, at): {cell: root(part) for cell, part in sc.covered(t, it).items()} for t in range(1, sc.horizon + 1) for at, it in enumerate(own)}
    one.looks = {at: row for (t, at), row in looks.items() if t == 1}
    one.looks_in = {at: row for at, row in looks.items() if at[0] > 1}
    return one


def of_two(sc, old):
    """The seats of a scenario of two searchers, or None."""
    count = math.isqrt(len(sc.positions))
    if sc.positions != [b"p%d-%d" % (one, other) for one in range(count) for other in range(count)]:
        return None
    one = old or one_of_two(sc, count)
    first, second = divmod(sc.start, count)
    try:
        if len(one.positions) != count or one.start != first or not is_same(derived.product(one, second), sc):
            return None
    except derived.Refused:
        return None
    pairs = [divmod(it, count) for it in range(count * count)]
    return Seats(one, pairs, names_of(one, pairs), is_numbered=old is None)


# ---- any of them


def flown_by_two(sc, old):
    """The seats of a scenario that forces a flown prefix of one of two searchers, or None."""
    flown = behind_flown(sc, None)
    pairs = flown and of_two(flown.of, old)
    if not pairs:
        return None
    sources = [(None, None) if it is None else pairs.sources[it] for (it,) in flown.sources]
    names = [own * 2 if it is None else pairs.names[it] for (it,), own in zip(flown.sources, flown.names)]
    return Seats(pairs.of, sources, names, flown.flown, pairs.is_numbered)


def seats(sc, old=None):
    """The seats of a scenario; `old` is the one that it was made of, if that is given. Raises NotOf where it wasn't."""
    found = flown_by_two(sc, old) or behind_flown(sc, old) or of_two(sc, old)
    if found is None and old is not None:
        raise NotOf("replan and duo make no such scenario of it")
    alone = [(it,) for it in range(len(sc.positions))]
    return found or Seats(sc, alone, names_of(sc, alone))
