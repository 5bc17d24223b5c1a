"""A checker of plans and gap plans of its own, written from docs/FORMATS.md and from what the bounds are, by exact whole numbers."""
import functools

from desk import paths

# How many looks the bound of a letter remembers: the mean bound, the edge bound, and the two-look bound.
MEMORIES = {b"M": 0, b"E": 1, b"D": 2}
# From so many periods on prefixes are asked for one that stands in for them, and for their two-look bound.
EXCHANGES_FROM = TWO_LOOKS_FROM = 4


def greatest(sc, position, rewards):
    """The greatest sum of rewards of a walk from a position, which has a reward by position for each period."""
    later = [0] * len(sc.positions)
    for here in reversed(rewards):
        later = [max(here[to] + later[to] for to in sc.moves[it]) for it in range(len(later))]
    return later[position]


def after(sc, prefix):
    """The value of a prefix, and the masses in the period behind it."""
    belief, total = sc.first, 0
    for t, position in enumerate(prefix, 1):
        found = paths.looked(sc, belief, t, position)
        total += sum(found.values()) * paths.scale(sc, t)
        belief = paths.without(sc, paths.drifted(sc, belief, t), t, found)
    return total, belief


def spread(sc, belief, t):
    """The masses of the period after period t, without a look."""
    later = [0] * len(belief)
    for cell, mass in enumerate(belief):
        for to, part in sc.row(t, cell).items():
            later[to] += mass * part
    return later


def found(sc, belief, t, position):
    """What a look from a position in period t finds in all."""
    return sum(paths.looked(sc, belief, t, position).values())


def rewards(sc, length, masses):
    """What each look behind a prefix of that length finds of the masses in the period behind it, after no other look, by period and
    position."""
    d, g = sc.parts[1:]
    rows = []
    for t in range(length + 1, sc.horizon + 1):
        scale = d ** (sc.horizon - t) * g ** (sc.horizon - length - 1)
        rows.append([found(sc, masses, t, it) * scale for it in range(len(sc.positions))])
        masses = spread(sc, masses, t)
    return rows


def through(sc, prefix, memory):
    """The bound that remembers so many looks, of the paths that go on from a prefix by each of its moves, by these positions: each later
    look counts as if so many looks just before it, of those behind the prefix, were the only other later looks."""
    d, g = sc.parts[1:]
    total, belief = after(sc, prefix)

    @functools.cache
    def left(t, recent):
        """The masses in period t behind the prefix and these looks just before, the latest first, with None for a period without a look."""
        if t == len(prefix) + 1:
            return belief
        last, *others = recent or [None]
        before = left(t - 1, tuple(others))
        if last is None:
            return spread(sc, before, t - 1)
        return paths.without(sc, [it * g for it in left(t, (None, *others))], t - 1, paths.looked(sc, before, t - 1, last))

    @functools.cache
    def sums(t, position, recent):
        """The greatest sums from period t on of what each look finds, by the moves from a position, behind the looks that are remembered."""
        masses, scale = left(t, recent), d ** (sc.horizon - t) * g ** (sc.horizon - len(prefix) - len(recent) - 1)
        return {it: found(sc, masses, t, it) * scale + rest(t + 1, it, (it, *recent)[:memory]) for it in sc.moves[position]}

    def rest(t, position, recent):
        """The greatest of them, or nothing behind the horizon."""
        return max(sums(t, position, recent).values()) if t <= sc.horizon else 0

    return {it: total + more for it, more in sums(len(prefix) + 1, prefix[-1] if prefix else sc.start, ()).items()}


def remembering(sc, prefix, memory):
    """The bound that remembers so many looks: the greatest of those through each move."""
    return max(through(sc, prefix, memory).values()) if len(prefix) < sc.horizon else paths.value(sc, prefix)


def factors(sc, t, position):
    """How often a look from a position misses in period t, by where the target is."""
    look = sc.look(t, position)
    return [look.get(it, sc.parts[2]) for it in range(len(sc.names))]


def gains(sc, path):
    """What one more look finds that all looks of a path missed, by period and position."""
    count = len(sc.names)
    before = [sc.first]
    for t, position in enumerate(path[:-1], 1):
        before.append(spread(sc, [mass * it for mass, it in zip(before[-1], factors(sc, t, position))], t))
    behind = [[1] * count]
    for t in range(len(path) - 1, 0, -1):
        missed = [mass * it for mass, it in zip(behind[0], factors(sc, t + 1, path[t]))]
        behind.insert(0, [sum(part * missed[to] for to, part in sc.row(t, it).items()) for it in range(count)])
    gained = []
    for t, (position, mass, rest) in enumerate(zip(path, before, behind), 1):
        left = [here * miss * later for here, miss, later in zip(mass, factors(sc, t, position), rest)]
        gained.append([found(sc, left, t, it) for it in range(len(sc.positions))])
    return gained


def tangent(sc, prefix, path):
    """The tangent bound at a path: its value, and what a change of its looks behind the prefix brings at most."""
    rewards = gains(sc, path)[len(prefix) :]
    own = sum(reward[it] for reward, it in zip(rewards, path[len(prefix) :]))
    best = greatest(sc, prefix[-1] if prefix else sc.start, rewards)
    return sc.parts[2] * paths.value(sc, path) + best - own


def has_exchanges(sc, prefix):
    """Whether a prefix is asked for one that stands in for it: there are four periods or more, it has a last position but one, and a look
    may follow it."""
    return sc.horizon >= EXCHANGES_FROM and 2 <= len(prefix) < sc.horizon


def exchanged(prefix, position):
    """A prefix with a position in place of its last but one."""
    return [*prefix[:-2], position, prefix[-1]]


def takes_place(sc, prefix, position):
    """Whether a position may take the place of a prefix's last but one: it is another, and what comes of it is legal."""
    return position != prefix[-2] and paths.is_legal(sc, exchanged(prefix, position))


def exchange(sc, prefix, other):
    """The exchange bound of a prefix over another one: its value, and the greatest sum of the rewards of its lead, which is how much more
    mass there is in a cell behind it than behind the other, and 0 where there is less."""
    total, belief = after(sc, prefix)
    lead = [max(mass - it, 0) for mass, it in zip(belief, after(sc, other)[1])]
    return total + greatest(sc, prefix[-1], rewards(sc, len(prefix), lead))


def stands_in(sc, other, prefix):
    """Whether a prefix as long as another stands in for it: with its value it cuts the other's exchange bound."""
    return is_cut(exchange(sc, prefix, other), after(sc, other)[0], prefix, other)


def has_one_rate(sc):
    """Whether all looks that can find miss alike."""
    looks = [sc.look(t, it) for t in range(1, sc.horizon + 1) for it in range(len(sc.positions))]
    return len({part for look in looks for part in look.values()} - {sc.parts[2]}) <= 1


def is_cut(bound, value, prefix, path):
    """Whether a bound leaves no room for a better path."""
    return bound < value or bound == value and prefix > path[: len(prefix)]


def right(sc, letter, prefix, reference):
    """The bound that a record of this letter has to state."""
    if letter == b"X":
        return exchange(sc, prefix, exchanged(prefix, *reference))
    return remembering(sc, prefix, MEMORIES[letter]) if letter in MEMORIES else tangent(sc, prefix, reference)


def standing(sc, plan, letter, prefix, reference):
    """The value and the path that have to cut the bound of a record of this letter: those of the plan, or of an exchange those of the prefix
    with its position."""
    if letter == b"X":
        other = exchanged(prefix, *reference)
        return after(sc, other)[0], other
    return plan.value * (sc.parts[2] if letter == b"T" else 1), plan.path


def is_reference(sc, letter, prefix, reference):
    """Whether what a record refers to may be that: of a tangent a path that begins with the prefix, of an exchange a position that takes
    the place of its last but one."""
    if letter == b"T":
        return paths.is_path(sc, reference) and reference[: len(prefix)] == prefix
    return letter != b"X" or takes_place(sc, prefix, *reference)


def ceiling(sc, prefix, waits_by):
    """What no path finds more than that begins with a prefix, by the bound of this letter: the value of a whole path, and else the mean
    bound, or the lesser of the edge bound and the whole weight."""
    if len(prefix) == sc.horizon:
        return paths.value(sc, prefix)
    bound = remembering(sc, prefix, MEMORIES[waits_by])
    return bound if waits_by == b"M" else min(bound, paths.weight(sc))


def reason(sc, plan, letter, bound, prefix, reference):
    """What is wrong with a record in itself, if anything."""
    if letter == b"O":
        return "WaitingWrong" if bound != ceiling(sc, prefix, plan.dialect.waits_by) else None
    if (letter == b"W") != (len(prefix) == sc.horizon) or letter == b"W" and bound != paths.value(sc, prefix):
        return "WholeWrong"
    if letter == b"W":
        return "NotCut" if bound > plan.value or bound == plan.value and prefix < plan.path else None
    if letter == b"X" and not has_exchanges(sc, prefix) or letter == b"D" and sc.horizon < TWO_LOOKS_FROM:
        return "WholeWrong"
    if letter == b"T" and not has_one_rate(sc):
        return "NoOneRate"
    if not is_reference(sc, letter, prefix, reference):
        return "ReferenceWrong"
    if letter != b"B" and bound != right(sc, letter, prefix, reference):
        return "BoundWrong"
    value, path = standing(sc, plan, letter, prefix, reference)
    return "NotCut" if letter != b"B" and not is_cut(bound, value, prefix, path) else None


def head_reason(sc, plan):
    """The line and what is wrong before the records, if anything."""
    if not paths.is_path(sc, plan.path):
        return 2, "PathIllegal"
    if plan.value != paths.value(sc, plan.path):
        return 3, "ValueWrong"
    return (3, "WeightWrong") if plan.weight != paths.weight(sc) else None


def last_reason(plan):
    """The line of the ceiling and what is wrong with it, if anything: it is the greatest of the value and the numbers that wait."""
    waiting = [bound for letter, bound, *_ in plan.records if letter == b"O"]
    return (4, "CeilingWrong") if plan.ceiling != max([plan.value, *waiting]) else None


def first_reason(sc, plan):
    """The line and the first reason against a plan or a gap plan, if any."""
    if wrong := head_reason(sc, plan):
        return wrong
    due = [[]]
    for line, (letter, bound, prefix, reference) in enumerate(plan.records, plan.dialect.line_of(0)):
        if not due or prefix < due[-1]:
            return line, "NotChild"
        if prefix > due[-1]:
            return line, "MissingChild"
        if wrong := reason(sc, plan, letter, bound, prefix, reference):
            return line, wrong
        due.pop()
        if letter == b"B":
            due += [[*prefix, it] for it in reversed(sc.moves[prefix[-1] if prefix else sc.start])]
    return (plan.dialect.line_of(len(plan.records)), "MissingChild") if due else last_reason(plan)
