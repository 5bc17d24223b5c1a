"""Paths of a scenario by exact whole numbers: their values, how many there are, and the best of them all."""


def weight(sc):
    """The whole weight W, of which values are parts."""
    a, d, g = sc.parts
    return a * d ** (sc.horizon - 1) * g**sc.horizon


def is_legal(sc, prefix):
    """Whether a list of positions follows the moves from the start, and isn't longer than the horizon."""
    before = [sc.start, *prefix]
    return len(prefix) <= sc.horizon and all(to in sc.moves[at] for at, to in zip(before, prefix))


def is_path(sc, path):
    """Whether it does, and is as long as the horizon."""
    return len(path) == sc.horizon and is_legal(sc, path)


def looked(sc, belief, t, position):
    """What a look from a position in period t finds in each cell that it covers, before the masses missed so far get the look's
    denominator."""
    return {cell: belief[cell] * (sc.parts[2] - part) for cell, part in sc.look(t, position).items()}


def drifted(sc, belief, t):
    """The masses of the period after period t, where a look finds nothing anywhere."""
    after = [0] * len(belief)
    for cell, mass in enumerate(belief):
        if mass:
            for to, part in sc.row(t, cell).items():
                after[to] += mass * part * sc.parts[2]
    return after


def without(sc, after, t, found):
    """The masses of the period after period t, without what a look found in period t."""
    left = list(after)
    for cell, mass in found.items():
        for to, part in sc.row(t, cell).items():
            left[to] -= mass * part
    return left


def scale(sc, length):
    """What a mass found in the period of that number counts for in the value of a whole path."""
    return (sc.parts[1] * sc.parts[2]) ** (sc.horizon - length)


def value(sc, path):
    """The value of a path: how much of the whole weight it finds."""
    belief, total = sc.first, 0
    for t, position in enumerate(path, 1):
        found = looked(sc, belief, t, position)
        total += sum(found.values()) * scale(sc, t)
        belief = without(sc, drifted(sc, belief, t), t, found)
    return total


def counts(sc, most):
    """How many legal prefixes there are of each length from 0 on, up to the length where there are more than so many."""
    ways = {sc.start: 1}
    found = [1]
    while len(found) <= sc.horizon and found[-1] <= most:
        after = {}
        for position, count in ways.items():
            for to in sc.moves[position]:
                after[to] = after.get(to, 0) + count
        ways = after
        found.append(sum(ways.values()))
    return found


def prefixes(sc, length):
    """All legal prefixes of a length, in ascending order."""
    found = [[]]
    for _ in range(length):
        found = [[*it, to] for it in found for to in sc.moves[it[-1] if it else sc.start]]
    return found


def best(sc):
    """The greatest value of a path, and the first path in ascending order that has it."""
    top = None

    def walk(prefix, total, belief):
        nonlocal top
        t = len(prefix) + 1
        after = drifted(sc, belief, t) if t < sc.horizon else None
        for position in sc.moves[prefix[-1] if prefix else sc.start]:
            found = looked(sc, belief, t, position)
            more = total + sum(found.values()) * scale(sc, t)
            if after is not None:
                walk([*prefix, position], more, without(sc, after, t, found))
            elif top is None or more > top[0]:
                top = more, [*prefix, position]

    walk([], 0, sc.first)
    return top
