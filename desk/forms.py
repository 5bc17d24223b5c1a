"""A reader of scenarios, plans and gap plans of its own, written from docs/FORMATS.md and not from the program."""
import re
from typing import NamedTuple

from desk.limits import LONGEST_NAME, MOST_CELLS, MOST_GAP_NODES, MOST_MOVES, MOST_NODES, MOST_PART, MOST_PERIODS

# What any line may hold that says something.
TEXT = frozenset(range(0x20, 0x7F)) | {9, 13}
DECIMAL = re.compile(rb"(?:0|[1-9][0-9]*)\Z")
NAME = re.compile(rb"[A-Za-z0-9_-]*\Z")


class Fault(Exception):
    """The first fault of a text."""

    def __init__(self, line, kind):
        super().__init__(line, kind)
        self.line, self.kind = line, kind


class Wrong(Exception):
    """The kind of a fault, before its line is known."""


def number(field, least, most):
    """The number of a field. What is above the most is told only when all numbers of the line are known to be numbers."""
    if not DECIMAL.match(field):
        raise Wrong("BadNumber")
    value = int(field) if len(field) <= 40 else 10**40
    if value < least:
        raise Wrong("BadNumber")
    return value, value > most


def numbers(fields, least, most):
    found = [number(it, least, most) for it in fields]
    if any(over for _, over in found):
        raise Wrong("OverLimit")
    return [it for it, _ in found]


def need(holds, kind):
    if not holds:
        raise Wrong(kind)


def is_narrow(horizon, parts):
    """Whether all sums of a scenario fit into 128 bits, with its horizon and its three denominators."""
    a, d, g = parts
    return (horizon + 10) * a * d ** (horizon - 1) * g ** (horizon + 1) < 2**127


class Scenario:
    """A scenario: names of cells and of positions, horizon, denominators, start; by cell its first part and its drift; by position
    its moves, and what a look from there covers; and the rows of single periods."""

    def __init__(self):
        self.names, self.positions, self.moves, self.drift, self.looks = [], [], {}, {}, {}
        self.drift_in, self.looks_in = {}, {}

    def row(self, t, cell):
        """Where the target goes from a cell in the step after period t, with its parts."""
        return self.drift_in.get((t, cell), self.drift[cell])

    def look(self, t, position):
        """The cells that a look from a position in period t covers, with the parts that it misses."""
        return self.looks_in.get((t, position), self.looks[position])

    def covered(self, t, position):
        """The row of a look without the cells of which it misses all."""
        return {cell: part for cell, part in self.look(t, position).items() if part < self.parts[2]}

    def key(self):
        """All that its plans depend on. A cell of which a look misses all counts as one that it doesn't cover."""
        moves = (tuple(self.moves[it]) for it in range(len(self.positions)))
        drift = (tuple(sorted(self.row(t, it).items())) for t in range(1, self.horizon) for it in range(len(self.names)))
        looks = (tuple(sorted(self.covered(t, it).items())) for t in range(1, self.horizon + 1) for it in range(len(self.positions)))
        names = tuple(self.names), tuple(self.positions)
        return self.horizon, self.parts, names, self.start, tuple(self.first), tuple(moves), tuple(drift), tuple(looks)


class ScenarioReader:
    """Takes the lines of a scenario, one after another."""

    # How many fields stand behind a keyword.
    FIELDS = {
        b"scenario": lambda n: n == 1,
        b"horizon": lambda n: n == 1,
        b"parts": lambda n: n == 3,
        b"cell": lambda n: n == 1,
        b"grid": lambda n: n == 2,
        b"start": lambda n: n == 1,
        b"first": lambda n: n >= 2 and n % 2 == 0,
        b"moves": lambda n: n >= 1,
        b"drift": lambda n: n >= 3 and n % 2 == 1,
        b"overlook": lambda n: n == 2,
        b"spread": lambda n: n == 1,
        b"rate": lambda n: n == 1,
        b"end": lambda n: n == 0,
        b"position": lambda n: n == 1,
        b"driftin": lambda n: n >= 4 and n % 2 == 0,
        b"look": lambda n: n % 2 == 1,
        b"lookin": lambda n: n >= 2 and n % 2 == 0,
    }
    # The rows of each version.
    ROWS = {
        1: [b"moves", b"drift", b"overlook", b"spread", b"rate", b"end"],
        2: [b"moves", b"drift", b"driftin", b"look", b"lookin", b"end"],
    }

    def __init__(self):
        self.due = [b"scenario"]
        self.ended = False
        self.grid = None
        self.numbers, self.places = {}, {}
        self.sc = Scenario()

    def take(self, line):
        line = line.strip(b" \t\r")
        if not line or line.startswith(b"#"):
            return
        need(TEXT.issuperset(line), "NotText")
        word, *fields = re.split(rb"[ \t\r]+", line)
        need(word in self.due, "BadLine")
        need(self.FIELDS[word](len(fields)), "BadLine")
        getattr(self, "take_" + word.decode())(fields)

    def known(self, positions, cells):
        """The numbers of names that stand in the places of positions, and of those in the places of cells."""
        need(all(it in self.places for it in positions) and all(it in self.numbers for it in cells), "UnknownName")
        return [self.places[it] for it in positions], [self.numbers[it] for it in cells]

    def take_scenario(self, fields):
        need(fields in ([b"1"], [b"2"]), "BadLine")
        self.version = int(fields[0])
        if self.version == 1:
            # The positions are the cells.
            self.places, self.sc.positions = self.numbers, self.sc.names
        self.due = [b"horizon"]

    def take_horizon(self, fields):
        (self.sc.horizon,) = numbers(fields, 1, MOST_PERIODS)
        self.due = [b"parts"]

    def take_parts(self, fields):
        self.sc.parts = tuple(numbers(fields, 1, MOST_PART))
        self.due = [b"cell", b"grid"] if self.version == 1 else [b"cell"]

    def take_cell(self, fields):
        self.add_named(fields, self.numbers, self.sc.names)
        self.due = [b"cell", b"start" if self.version == 1 else b"position"]

    def take_position(self, fields):
        self.add_named(fields, self.places, self.sc.positions)
        self.due = [b"position", b"start"]

    @staticmethod
    def add_named(fields, numbers, names):
        (name,) = fields
        need(NAME.match(name), "BadLine")
        need(len(name) <= LONGEST_NAME and len(names) < MOST_CELLS, "OverLimit")
        need(name not in numbers, "DoubleName")
        numbers[name] = len(names)
        names.append(name)

    def take_grid(self, fields):
        rows, columns = numbers(fields, 1, 200)
        need(rows * columns <= MOST_CELLS, "OverLimit")
        self.grid = rows, columns
        for row in range(rows):
            for column in range(columns):
                self.add_named([b"r%dc%d" % (row, column)], self.numbers, self.sc.names)
        for cell in range(rows * columns):
            self.sc.moves[cell] = sorted([cell, *self.sides(cell)])
        self.due = [b"start"]

    def sides(self, cell):
        rows, columns = self.grid
        row, column = divmod(cell, columns)
        around = [(row - 1, column), (row + 1, column), (row, column - 1), (row, column + 1)]
        return [r * columns + c for r, c in around if 0 <= r < rows and 0 <= c < columns]

    def take_start(self, fields):
        (self.sc.start,), _ = self.known(fields, [])
        self.due = [b"first"]

    def take_first(self, fields):
        parts = numbers(fields[1::2], 1, MOST_PART)
        _, cells = self.known([], fields[0::2])
        need(len(set(cells)) == len(cells), "DoubleName")
        need(sum(parts) == self.sc.parts[0], "WrongSum")
        self.sc.first = [0] * len(self.sc.names)
        for cell, part in zip(cells, parts):
            self.sc.first[cell] = part
        self.due = self.ROWS[self.version]

    def take_moves(self, fields):
        need(len(fields) - 1 <= MOST_MOVES, "OverLimit")
        (position, *moves), _ = self.known(fields, [])
        need(len(set(moves)) == len(moves), "DoubleName")
        need(position not in self.sc.moves, "DoubleRow")
        need(moves, "NoMove")
        self.sc.moves[position] = sorted(moves)

    def take_drift(self, fields):
        parts = numbers(fields[2::2], 1, MOST_PART)
        _, (cell, *cells) = self.known([], [fields[0], *fields[1::2]])
        self.add_drift(self.sc.drift, cell, cells, parts)

    def take_driftin(self, fields):
        (period, *parts) = self.with_period(fields[0], self.sc.horizon - 1, fields[3::2], 1)
        _, (cell, *cells) = self.known([], [fields[1], *fields[2::2]])
        self.add_drift(self.sc.drift_in, (period, cell), cells, parts)

    def add_drift(self, rows, place, cells, parts):
        need(len(set(cells)) == len(cells), "DoubleName")
        need(place not in rows, "DoubleRow")
        need(sum(parts) == self.sc.parts[1], "WrongSum")
        rows[place] = dict(zip(cells, parts))

    @staticmethod
    def with_period(period, last, parts, least):
        """The number of a period, and those of parts; each kind of fault is asked of all before the next."""
        found = [number(period, 1, last), *(number(it, least, MOST_PART) for it in parts)]
        need(not any(over for _, over in found), "OverLimit")
        return [it for it, _ in found]

    def take_look(self, fields):
        parts = numbers(fields[2::2], 0, MOST_PART)
        (position,), cells = self.known(fields[:1], fields[1::2])
        self.add_look(self.sc.looks, position, cells, parts)

    def take_lookin(self, fields):
        (period, *parts) = self.with_period(fields[0], self.sc.horizon, fields[3::2], 0)
        (position,), cells = self.known(fields[1:2], fields[2::2])
        self.add_look(self.sc.looks_in, (period, position), cells, parts)

    def add_look(self, rows, place, cells, parts):
        need(len(set(cells)) == len(cells), "DoubleName")
        need(place not in rows, "DoubleRow")
        need(all(it <= self.sc.parts[2] for it in parts), "PartOver")
        rows[place] = dict(zip(cells, parts))

    def take_overlook(self, fields):
        (part,) = numbers(fields[1:], 0, MOST_PART)
        _, (cell,) = self.known([], fields[:1])
        self.add_look(self.sc.looks, cell, [cell], [part])

    def take_spread(self, fields):
        need(self.grid, "BadLine")
        (part,) = numbers(fields, 0, MOST_PART)
        need(not self.sc.drift, "DoubleRow")
        whole = self.sc.parts[1]
        rows = {cell: self.sides(cell) for cell in range(len(self.sc.names))}
        need(all(len(it) * part <= whole for it in rows.values()), "WrongSum")
        for cell, sides in rows.items():
            row = {**dict.fromkeys(sides, part), cell: whole - len(sides) * part}
            self.sc.drift[cell] = {to: it for to, it in row.items() if it > 0}

    def take_rate(self, fields):
        (part,) = numbers(fields, 0, MOST_PART)
        need(not self.sc.looks, "DoubleRow")
        need(part <= self.sc.parts[2], "PartOver")
        self.sc.looks = {it: {it: part} for it in range(len(self.sc.names))}

    def take_end(self, fields):
        need(len(self.sc.drift) == len(self.sc.names), "MissingRow")
        need(all(len(it) == len(self.sc.positions) for it in (self.sc.moves, self.sc.looks)), "MissingRow")
        need(is_narrow(self.sc.horizon, self.sc.parts), "TooWide")
        self.ended = True


def read_scenario(text, alone):
    """The scenario at the front of a text, and what stands behind it; or its first fault."""
    lines = text.split(b"\n")
    ends = len(lines) if lines[-1] else len(lines) - 1
    reader = ScenarioReader()
    used = 0
    for at, line in enumerate(lines[:ends], 1):
        used += len(line) + 1
        try:
            if not reader.ended:
                reader.take(line)
            else:
                need(not line.strip(b" \t\r"), "Rest")
        except Wrong as wrong:
            raise Fault(at, str(wrong)) from None
        if reader.ended and not alone:
            break
    if not reader.ended:
        raise Fault(ends + 1, "EarlyEnd")
    return reader.sc, text[used:]


class Dialect(NamedTuple):
    """What the dialects of plan text differ in: the version, the keywords of the lines before the records, the most records, their
    letters, whether their prefixes stand on their lines, and the letter of the bound by which a prefix waits, if any may."""

    version: int
    head: tuple
    most: int
    letters: tuple
    has_prefixes: bool = False
    waits_by: bytes | None = None

    def line_of(self, record):
        """The line of the record of a number from 0 on, behind the first line and the head."""
        return 2 + len(self.head) + record


# Each family of texts: its dialects by their first lines.
PLAN_HEAD, GAP_HEAD = (b"path", b"chance", b"nodes"), (b"path", b"chance", b"ceiling", b"nodes")
LETTERS = (b"B", b"W", b"M", b"T")
PLANS = {
    b"plan 1": Dialect(1, PLAN_HEAD, MOST_NODES, LETTERS, has_prefixes=True),
    b"plan 2": Dialect(2, PLAN_HEAD, MOST_NODES, (*LETTERS, b"E")),
    b"plan 3": Dialect(3, PLAN_HEAD, MOST_NODES, (*LETTERS, b"E", b"X", b"D")),
}
GAPS = {
    b"gap 1": Dialect(1, GAP_HEAD, MOST_GAP_NODES, (*LETTERS, b"E", b"O"), waits_by=b"M"),
    b"gap 2": Dialect(2, GAP_HEAD, MOST_GAP_NODES, (*LETTERS, b"E", b"X", b"D", b"O"), waits_by=b"E"),
}
# From so many periods on plans are written in version 3, and gap plans in version 2.
LATEST_FROM = 4


def plan_line(sc):
    """The first line of a plan of this scenario as it is written."""
    return b"plan 3" if sc.horizon >= LATEST_FROM else b"plan 2"


def gap_line(sc):
    """The first line of a gap plan of this scenario as it is written."""
    return b"gap 2" if sc.horizon >= LATEST_FROM else b"gap 1"


def family_of(text):
    """The family that a text is to be of, by its first word."""
    return GAPS if text.lstrip(b" \t\r\n").startswith(b"gap") else PLANS


class Plan:
    """A plan or a gap plan: its dialect, path, value and weight, its ceiling, which is the value of a plan, and of each record the
    letter, the number if any, the prefix and the reference: a tangent's path, an exchange's position, and else nothing."""


def wide(field):
    """The number of a field that has 128 bits."""
    value, over = number(field, 0, 2**128 - 1)
    need(not over, "BadNumber")
    return value


class PlanReader:
    """Takes the lines of a text of one of the families, one after another."""

    # For each letter, whether a number stands before its positions, and the reference that ends them: so many horizons of positions, and
    # so many positions.
    ALONE = (1, 0, 0)
    RECORDS = {b"B": (0, 0, 0), b"W": ALONE, b"M": ALONE, b"T": (1, 1, 0), b"E": ALONE, b"X": (1, 0, 1), b"D": ALONE, b"O": ALONE}

    def __init__(self, sc, family=PLANS):
        self.sc, self.family = sc, family
        self.positions = {b"%d" % it: it for it in range(len(sc.positions))}
        self.plan = Plan()
        self.plan.records = []
        self.ended = False
        # Where prefixes are left out, those that are expected, the next one last.
        self.expected = [[]]

    def take(self, line, at):
        if at == 1:
            need(line in self.family, "BadLine")
            self.dialect = self.plan.dialect = self.family[line]
            return
        word, *fields = line.split(b" ")
        need(all(fields), "BadLine")
        if at < self.dialect.line_of(0):
            need(word == self.dialect.head[at - 2], "BadLine")
            getattr(self, "take_" + word.decode())(fields)
        elif word == b"end":
            self.take_end(fields)
        else:
            self.take_record(word, fields)

    def take_path(self, fields):
        need(1 <= len(fields) <= MOST_PERIODS, "BadLine")
        need(all(it in self.sc.positions for it in fields), "UnknownName")
        self.plan.path = [self.sc.positions.index(it) for it in fields]

    def take_chance(self, fields):
        need(len(fields) == 2, "BadLine")
        self.plan.value, self.plan.weight = [wide(it) for it in fields]
        self.plan.ceiling = self.plan.value

    def take_ceiling(self, fields):
        need(len(fields) == 1, "BadLine")
        self.plan.ceiling = wide(fields[0])

    def take_nodes(self, fields):
        need(len(fields) == 1, "BadLine")
        self.plan.nodes = wide(fields[0])
        need(self.plan.nodes <= self.dialect.most, "TooManyNodes")

    def take_end(self, fields):
        need(not fields, "BadLine")
        need(len(self.plan.records) == self.plan.nodes, "WrongCount")
        need(self.dialect.has_prefixes or not self.expected, "StillOpen")
        self.ended = True

    def take_record(self, word, fields):
        need(word in self.dialect.letters, "BadLine")
        count, paths, positions = self.RECORDS[word]
        reference = paths * self.sc.horizon + positions
        longest = self.sc.horizon if self.dialect.has_prefixes else 0
        need(count + reference <= len(fields) <= count + longest + reference, "BadLine")
        bound = wide(fields[0]) if count else None
        need(all(it in self.positions for it in fields[count:]), "BadNumber")
        need(len(self.plan.records) < self.plan.nodes, "WrongCount")
        need(self.dialect.has_prefixes or self.expected, "NoPlace")
        named = [self.positions[it] for it in fields[count:]]
        ends = len(named) - reference
        prefix = named[:ends] if self.dialect.has_prefixes else self.place(word)
        self.plan.records.append((word, bound, prefix, named[ends:]))

    def place(self, word):
        """The prefix of a record that leaves it out: the one that is expected."""
        prefix = self.expected.pop()
        if word == b"B" and len(prefix) < self.sc.horizon:
            self.expected += [[*prefix, it] for it in reversed(self.sc.moves[prefix[-1] if prefix else self.sc.start])]
        return prefix


def in_version(text, sc, first):
    """The text of a plan in the version of this first line, or as it is where that has no letter for a record."""
    plan, dialect = read_plan(text, sc), PLANS[first]
    if any(letter not in dialect.letters for letter, *_ in plan.records):
        return text
    rows = []
    for letter, bound, prefix, reference in plan.records:
        numbers = [*([] if bound is None else [bound]), *(prefix if dialect.has_prefixes else []), *reference]
        rows.append(b" ".join([letter, *(b"%d" % it for it in numbers)]))
    return b"\n".join([first, *text.split(b"\n")[1:4], *rows, b"end", b""])


def read_plan(text, sc, family=PLANS):
    """The plan that a text of a family is, or its first fault."""
    *lines, rest = text.split(b"\n")
    reader = PlanReader(sc, family)
    for at, line in enumerate(lines, 1):
        if reader.ended:
            raise Fault(at, "Rest")
        try:
            reader.take(line, at)
        except Wrong as wrong:
            raise Fault(at, str(wrong)) from None
    if reader.ended and not rest:
        return reader.plan
    raise Fault(len(lines) + 1, "Rest" if reader.ended else "EarlyEnd")
