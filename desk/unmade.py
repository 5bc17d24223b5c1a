"""Why `replan`, `map` and `duo` make nothing of names of positions: each fault of a flown prefix or of a second start, and what to write.

A fault is a kind, as the program names it, and a text. They stand in the order in which the program asks for their kinds.
"""
from desk import forms, limits, quoting, rounding, wording
from desk.limits import FINEST_LOOK, LONGEST_NAME, MOST_MOVES_EACH, MOST_NAMES
from desk.states import square_of


def of_words(word, names):
    """What is wrong with names behind `flown` or `start` before any scenario is asked: a list of texts."""
    told = []
    if word == "start" and len(names) != 1:
        told.append(f"one name stands behind `start`, and here are {len(names):,}")
    if len(names) > MOST_NAMES:
        told.append(f"at most {MOST_NAMES} names stand behind `flown`, and here are {len(names):,}")
    for it in dict.fromkeys(names):
        if not (forms.NAME.match(it) and 1 <= len(it) <= LONGEST_NAME):
            told.append(f"{quoting.field(it)} can't be a name: names have 1 to 24 letters, digits, `_` and `-`")
    return told


def about_names(sc, names):
    """Names that no position has."""
    for it in dict.fromkeys(names):
        if it in sc.positions:
            continue
        meant = square_of(it) if square_of(it) in sc.positions else wording.near(it, sc.positions)
        hint = f": is {quoting.name(meant)} meant?" if meant else ": it is a cell" if it in sc.names else ""
        yield "UnknownName", f"{quoting.field(it)} isn't a position{hint}"


def moves_from(sc, position):
    """The moves from a position in words."""
    return quoting.listed([quoting.name(sc.positions[it]) for it in sc.moves[position]])


def about_moves(sc, names):
    """Moves between positions that the scenario doesn't have, and periods behind the last one."""
    numbers = {name: at for at, name in enumerate(sc.positions)}
    way = [sc.start, *(numbers.get(it) for it in names)]
    for t, (one, other) in enumerate(zip(way, way[1:]), 1):
        if None not in (one, other) and other not in sc.moves[one]:
            here, there = (quoting.name(sc.positions[it]) for it in (one, other))
            start = f" (the searcher starts at {here}; the first name is where it looks from in period 1)" if t == 1 else ""
            yield "NotLegal", f"period {t} goes from {here} to {there}, and the moves from {here} are {moves_from(sc, one)}{start}"
    more = len(names) - sc.horizon
    if more > 0:
        out = "the last name" if more == 1 else f"the last {more} names"
        yield "NotLegal", f"{quoting.counted(len(names), 'name')} stand here, and the horizon is {quoting.counted(sc.horizon, 'period')}: leave out {out}"


def elsewhere(names):
    """What to do where the searcher was where no move leads."""
    said = ",".join(map(quoting.name, names))
    return f"where it was there all the same, `./osp next SCENARIO --flown {said}` goes on from there: it takes any positions"


def about_flown(sc, names):
    """All faults of a flown prefix that `replan` is asked to force."""
    yield from about_names(sc, names)
    moves, is_known = list(about_moves(sc, names)), all(it in sc.positions for it in names)
    for kind, says in moves:
        yield kind, f"{says}; {elsewhere(names)}" if (kind, says) == moves[0] and is_known and len(names) <= sc.horizon else says
    count, more = len(sc.positions), len(names) + 1
    if count + more > limits.MOST_CELLS:
        room = limits.MOST_CELLS - count - 1
        fit = f"{quoting.counted(room, 'flown period')} would fit" if room > 0 else "none would fit; `next` needs no more positions"
        yield "TooManyPositions", f"{count} positions and {more} flown ones are {count + more}, and {limits.MOST_CELLS} are the most: {fit}"
    taken = [it for it in (b"flown-%d" % at for at in range(more)) if it in sc.positions]
    if taken:
        who, (verb, them) = quoting.listed([quoting.name(it) for it in taken]), ("is", "it") if len(taken) == 1 else ("are", "them")
        yield "NameTaken", f"{who} {verb} named as flown positions would be: give {them} another name in the scenario"


def about_pair(sc, names):
    """All faults of a second searcher's start and of the scenario that two searchers are asked of."""
    yield from about_names(sc, names)
    count, (a, d, g) = len(sc.positions), sc.parts
    if count > limits.MOST_IN_PAIRS:
        most = f"two searchers can have {limits.MOST_IN_PAIRS} at most"
        yield "TooManyPositions", f"there are {count} positions, and {most}: take larger cells, or leave positions out"
    for at in range(count):
        moves = len(sc.moves[at])
        if moves > MOST_MOVES_EACH:
            told = f"two searchers there {moves * moves} together, and {limits.MOST_MOVES} are the most: at most {MOST_MOVES_EACH} each"
            yield "TooManyMoves", f"{quoting.name(sc.positions[at])} has {moves} moves, {told}"
    if g > FINEST_LOOK:
        yield "TooFine", f"G is {g:,}, and with two searchers at most {FINEST_LOOK:,}: take a smaller third number of `parts`, and smaller parts of looks"
    if not forms.is_narrow(sc.horizon, (a, d, g * g)):
        fit = rounding.most_periods((a, d, g * g))
        told = f"{quoting.counted(fit, 'period')} would fit" if fit else "no horizon fits"
        yield "TooWide", f"{quoting.counted(sc.horizon, 'period')} with parts {a} {d} {g}*{g} don't fit into 128 bits: {told}, or take smaller parts"


ABOUT = {"flown": about_flown, "start": about_pair}
COMMANDS = {"flown": "replan", "start": "duo"}


def faults(sc, word, names):
    """All faults of the names behind `flown` or `start`: pairs of a kind and a text."""
    return list(ABOUT[word](sc, names))
