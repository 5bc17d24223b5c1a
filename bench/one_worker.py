"""The plan, or the gap plan, that one worker makes, by exact whole numbers. Written from the rules, over desk/ and nothing of the program.

One worker's plan follows from the rules: it closes the last prefix of its private stack, or else the first task of its own
deque, under the best standing that it knows by then. The children of a prefix that branches and is shorter than half the horizon
go into the deque, all but the least; all others go on the stack, the least of them on top. Where the horizon is 4 or more a
scout flies first, and a prefix that neither its mean, its tangent nor its edge bound closes under the standing is closed by the best of
the prefixes that stand in for it; where none does, by the bound that remembers two looks.

For a gap plan only so many records are made, and the prefixes that are left then wait: by their mean bounds, and where the horizon is 4
or more by their edge bounds. From there on it goes by another order, too: of the prefixes that wait the worker closes the one with the
greatest number, which is the edge bound of its parent through it, and of equals the least. But behind every tenth record it goes down:
to the child with the greatest number, again and again until one doesn't branch.
"""
import collections
import heapq

from desk import derived, paths, verdict
from desk.forms import GAPS, gap_line, plan_line, read_scenario
from desk.writing import scenario_text

# From so many periods on a scout flies.
SCOUTED_FROM = 4
# So many tasks a deque takes in its life.
MOST_PUTS = 4096
# From so many periods on a gap plan goes by the greatest number; and behind how many records each time it goes down.
GREATEST_FROM = 4
DOWN_EVERY = 10


# ---- how a search begins: the greedy opening, the reference of a prefix, and the scout


def moves(sc, prefix):
    """The moves behind a prefix."""
    return sc.moves[prefix[-1] if prefix else sc.start]


def reached(sc, prefix):
    """The least path by which the mean bound of a prefix reaches its greatest sum."""
    total, belief = verdict.after(sc, prefix)
    found = verdict.rewards(sc, len(prefix), belief)
    rest = [[0] * len(sc.positions)]
    for here in reversed(found):
        rest.insert(0, [max(here[to] + rest[0][to] for to in sc.moves[it]) for it in range(len(here))])
    path = list(prefix)
    for here, later in zip(found, rest[1:]):
        path.append(min(moves(sc, path), key=lambda to: (-here[to] - later[to], to)))
    if found:
        assert total + rest[0][prefix[-1] if prefix else sc.start] == verdict.remembering(sc, prefix, 0)
    return path


def opening(sc):
    """The greedy path: at each period the least of the moves that find most."""
    path, belief = [], sc.first
    for t in range(1, sc.horizon + 1):
        best = min(moves(sc, path), key=lambda to: (-verdict.found(sc, belief, t, to), to))
        belief = paths.without(sc, paths.drifted(sc, belief, t), t, paths.looked(sc, belief, t, best))
        path.append(best)
    return path


def looked_at(sc, sign=1):
    """All paths that the scout looks at, with their values, in the order in which it does. With sign -1 it makes the greatest
    of the moves that are alike, which is wrong."""
    prefix, seen = [], []
    while len(prefix) < sc.horizon:
        tries = [(it, reached(sc, [*prefix, it])) for it in moves(sc, prefix)]
        worth = {it: paths.value(sc, path) for it, path in tries}
        seen += [(worth[it], path) for it, path in tries]
        prefix.append(min(worth, key=lambda it: (-worth[it], sign * it)))
    return seen


def first_of_best(standings):
    """The greatest value, and the least path that has it."""
    return min(standings, key=lambda it: (-it[0], it[1]))


def scout(sc, sign=1):
    """What the scout answers: a value and a path."""
    first = opening(sc)
    return first_of_best([(paths.value(sc, first), first), *looked_at(sc, sign)])


# ---- the worker


def better(standing, other):
    """Whether a standing, a value and a path, is better than another."""
    return standing[0] > other[0] or standing[0] == other[0] and standing[1] < other[1]


def stand_in(sc, prefix):
    """Of the positions with which a prefix, in place of its last but one, stands in for itself, the one with which it finds most, the least
    of equals; or None."""
    others = [verdict.exchanged(prefix, it) for it in range(len(sc.positions)) if verdict.takes_place(sc, prefix, it)]
    best = sorted(others, key=lambda it: (-verdict.after(sc, it)[0], it))
    return next((it[-2] for it in best if verdict.stands_in(sc, it, prefix)), None)


def closed(sc, prefix, standing):
    """How a prefix is closed under a standing: the letter of the record, and what stands behind it."""
    value, path = standing
    if len(prefix) == sc.horizon:
        return "W", [paths.value(sc, prefix)]
    mean = verdict.remembering(sc, prefix, 0)
    if verdict.is_cut(mean, value, prefix, path):
        return "M", [mean]
    if verdict.has_one_rate(sc):
        reference = reached(sc, prefix)
        tangent = verdict.tangent(sc, prefix, reference)
        if verdict.is_cut(tangent, value * sc.parts[2], prefix, path):
            return "T", [tangent, *reference]
    edge = verdict.remembering(sc, prefix, 1)
    if verdict.is_cut(edge, value, prefix, path):
        return "E", [edge]
    position = stand_in(sc, prefix) if verdict.has_exchanges(sc, prefix) else None
    if position is not None:
        return "X", [verdict.exchange(sc, prefix, verdict.exchanged(prefix, position)), position]
    two_look = verdict.remembering(sc, prefix, 2) if sc.horizon >= verdict.TWO_LOOKS_FROM else None
    return ("D", [two_look]) if two_look is not None and verdict.is_cut(two_look, value, prefix, path) else ("B", [])


class DepthFirst:
    """The prefixes that wait, as the worker keeps them for a plan: its stack, its deque, and how often it has put."""

    def __init__(self, sc):
        self.sc, self.stack, self.deque, self.puts = sc, [[]], collections.deque(), 0

    def __len__(self):
        return len(self.stack) + len(self.deque)

    def waiting(self):
        return [*self.stack, *self.deque]

    def take(self):
        """The prefix that is closed next."""
        return self.stack.pop() if self.stack else self.deque.popleft()

    def put(self, prefix, letter, _count):
        """Shares the children of a prefix that branches, or keeps them."""
        if letter != "B":
            return
        least, *others = ([*prefix, it] for it in moves(self.sc, prefix))
        if 2 * len(prefix) < self.sc.horizon:
            taken = min(len(others), MOST_PUTS - self.puts)
            self.deque += others[:taken]
            self.puts += taken
            self.stack += [*others[taken:], least]
        else:
            self.stack += [*reversed(others), least]


class GreatestFirst:
    """The prefixes that wait, as the worker keeps them for a gap plan: each behind its number, below 0; and of a prefix that was closed just
    before, and below which it goes down, the children."""

    def __init__(self, sc):
        self.sc, self.others, self.below, self.is_down = sc, [(0, [])], [], False

    def __len__(self):
        return len(self.others) + len(self.below)

    def waiting(self):
        return [prefix for _, prefix in [*self.others, *self.below]]

    def take(self):
        """The prefix that is closed next."""
        first = heapq.heappop(self.below or self.others)
        for it in self.below:
            heapq.heappush(self.others, it)
        self.below = []
        return first[1]

    def put(self, prefix, letter, count):
        """Keeps the children of a prefix that branches, behind so many records."""
        self.is_down = letter == "B" and (self.is_down or count % DOWN_EVERY == 0)
        numbers = verdict.through(self.sc, prefix, verdict.MEMORIES[b"E"]) if letter == "B" else {}
        for position, number in numbers.items():
            heapq.heappush(self.below if self.is_down else self.others, (-number, [*prefix, position]))


class Worker:
    """One worker: the prefixes that wait, in their order, the standing that it uses, and its records by prefix."""

    def __init__(self, sc, order=DepthFirst):
        first = opening(sc)
        self.sc, self.order, self.records = sc, order(sc), {}
        self.standing = scout(sc) if sc.horizon >= SCOUTED_FROM else (paths.value(sc, first), first)

    def go(self, most=None):
        """Closes prefixes until there are none, or so many are closed."""
        while self.order and len(self.records) != most:
            prefix = self.order.take()
            letter, rest = closed(self.sc, prefix, self.standing)
            self.records[tuple(prefix)] = letter, rest
            if letter == "W" and better((rest[0], prefix), self.standing):
                self.standing = rest[0], prefix
            self.order.put(prefix, letter, len(self.records))
        return self


def gap_worker(sc, most):
    """The worker that made a gap plan, with so many records at most."""
    return Worker(sc, GreatestFirst if sc.horizon >= GREATEST_FROM else DepthFirst).go(most)


def lines_of(sc, worker, first, more, records):
    """A plan's text with this first line, and more lines behind the chance."""
    value, path = worker.standing
    yield first
    yield " ".join(["path", *(sc.positions[it].decode() for it in path)])
    yield f"chance {value} {paths.weight(sc)}"
    yield from more
    yield f"nodes {len(records)}"
    for _, (letter, rest) in sorted(records.items()):
        yield " ".join([letter, *map(str, rest)])
    yield "end"


def text_of(sc, worker):
    """The plan as text."""
    return lines_of(sc, worker, plan_line(sc).decode(), [], worker.records)


def gap_of(sc, worker):
    """The gap plan as text: what the worker has left waits, with what no path below it exceeds."""
    first = gap_line(sc)
    waiting = {tuple(it): ("O", [verdict.ceiling(sc, it, GAPS[first].waits_by)]) for it in worker.order.waiting()}
    ceiling = max([worker.standing[0], *(number for _, (number,) in waiting.values())])
    return lines_of(sc, worker, first.decode(), [f"ceiling {ceiling}"], {**worker.records, **waiting})


def as_bytes(lines):
    return "".join(f"{it}\n" for it in lines).encode()


def plan_text(sc):
    """The plan's text as bytes, which `plan --workers 1` writes."""
    return as_bytes(text_of(sc, Worker(sc).go()))


def gap_text(sc, most):
    """The gap plan's text as bytes, which `gap --workers 1` writes with so many records at most."""
    return as_bytes(gap_of(sc, gap_worker(sc, most)))


def made_text(sc, command, names):
    """What `replan` and `duo` write by one worker, of a scenario and names of positions: the scenario that they make, as bytes, and its
    plan. Raises derived.Refused."""
    at = derived.numbers_of(sc, names)
    text = scenario_text(derived.forced(sc, at) if command == "replan" else derived.product(sc, *at))
    return text, plan_text(read_scenario(text, True)[0])
