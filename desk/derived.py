"""Scenarios that are made of a scenario, and the map of where the target may be, from docs/FORMATS.md and docs/DEFINITIONS.md alone."""
import copy

from desk import masses, paths, percent
from desk.forms import is_narrow
from desk.limits import MOST_CELLS, MOST_IN_PAIRS, MOST_MOVES, MOST_PART


class Refused(Exception):
    """Why there is no such scenario: the first cause that holds."""


def need(holds, why):
    if not holds:
        raise Refused(why)


def numbers_of(sc, names):
    """The numbers of positions by their names."""
    need(all(it in sc.positions for it in names), "UnknownName")
    return [sc.positions.index(it) for it in names]


def with_searcher(sc, positions, start, moves, looks, denominator):
    """A scenario with the same target; looks are by period and position."""
    made = copy.copy(sc)
    made.positions, made.start, made.moves = positions, start, moves
    made.parts = (*sc.parts[:2], denominator)
    made.looks = {it: looks(1, it) for it in range(len(positions))}
    made.looks_in = {(t, it): looks(t, it) for t in range(2, sc.horizon + 1) for it in range(len(positions))}
    return made


def sources(sc, flown):
    """The positions that those of the scenario that forces a flown prefix stand for."""
    return [*range(len(sc.positions)), sc.start, *flown]


def forced(sc, flown):
    """The scenario in which the searcher first goes through the positions of a flown prefix, which isn't empty, and then on from there."""
    need(paths.is_legal(sc, flown), "NotLegal")
    count, k = len(sc.positions), len(flown)
    need(count + k + 1 <= MOST_CELLS, "TooManyPositions")
    names = [b"flown-%d" % it for it in range(k + 1)]
    need(not set(names) & set(sc.positions), "NameTaken")
    source = sources(sc, flown)
    moves = dict(sc.moves)
    moves.update({count + it: [count + it + 1] for it in range(k)})
    moves[count + k] = sc.moves[flown[-1]]
    return with_searcher(sc, [*sc.positions, *names], count, moves, lambda t, it: sc.look(t, source[it]), sc.parts[2])


def unforced(sc, flown, path):
    """The path of a scenario that a path of the forced one stands for."""
    source = sources(sc, flown)
    return [source[it] for it in path]


def both(sc, t, one, other):
    """What two looks in a period miss together, by cell; of a cell that isn't named they miss all."""
    g = sc.parts[2]
    first, second = sc.look(t, one), sc.look(t, other)
    return {it: first.get(it, g) * second.get(it, g) for it in first.keys() | second.keys()}


def product(sc, second):
    """The scenario of two searchers, the other of whom starts at a position: its positions are pairs of positions."""
    count, most = len(sc.positions), max(map(len, sc.moves.values()))
    need(count <= MOST_IN_PAIRS, "TooManyPositions")
    need(most * most <= MOST_MOVES, "TooManyMoves")
    g = sc.parts[2]
    need(g * g <= MOST_PART, "TooFine")
    need(is_narrow(sc.horizon, (*sc.parts[:2], g * g)), "TooWide")
    pairs = [(one, other) for one in range(count) for other in range(count)]
    moves = {at: [to * count + other for to in sorted(sc.moves[one]) for other in sorted(sc.moves[two])] for at, (one, two) in enumerate(pairs)}
    names = [b"p%d-%d" % it for it in pairs]
    return with_searcher(sc, names, sc.start * count + second, moves, lambda t, it: both(sc, t, *pairs[it]), g * g)


def map_text(sc, flown):
    """The map of the masses that a flown prefix, which isn't empty, leaves period by period, as bytes."""
    need(paths.is_legal(sc, flown), "NotLegal")
    whole, lines = paths.weight(sc), [b"map 1"]
    for frame in masses.frames(sc, flown)[1:]:
        lines.append(b"period %d %s" % (frame.period, sc.positions[frame.position]))
        lines += [b"left %s %d %s" % (name, mass, percent.cut(mass, whole).encode()) for name, mass in zip(sc.names, frame.left)]
    return b"".join(it + b"\n" for it in [*lines, b"end"])
