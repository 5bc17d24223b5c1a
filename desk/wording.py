"""What is wrong with the fields of a line of a scenario, in words: each fault with its kind of docs/FORMATS.md and what to write."""
import collections
import dataclasses
import difflib
import re

from desk import numerals, quoting
from desk.forms import DECIMAL, NAME
from desk.limits import LONGEST_NAME, MOST_CELLS, MOST_MOVES, MOST_PART, MOST_PERIODS
from desk.states import square_of

# The kinds of fault that a line's fields can have, in the order in which they are asked.
KINDS = "BadLine BadNumber OverLimit UnknownName DoubleName DoubleRow WrongSum PartOver NoMove".split()
# How a line is written, by its keyword.
USAGE = {
    b"scenario": "scenario 1",
    b"horizon": "horizon T",
    b"parts": "parts A D G",
    b"cell": "cell NAME",
    b"grid": "grid ROWS COLUMNS",
    b"position": "position NAME",
    b"start": "start NAME",
    b"first": "first NAME PART ..",
    b"moves": "moves NAME NAME ..",
    b"drift": "drift NAME NAME PART ..",
    b"driftin": "driftin PERIOD NAME NAME PART ..",
    b"look": "look POSITION CELL PART ..",
    b"lookin": "lookin PERIOD POSITION CELL PART ..",
    b"overlook": "overlook NAME PART",
    b"spread": "spread PART",
    b"rate": "rate PART",
    b"end": "end",
}
# Where the rows of a line are kept in a Scenario, and what one of them is called.
KEPT = {b"moves": "moves", b"drift": "drift", b"driftin": "drift_in", b"look": "looks", b"lookin": "looks_in", b"overlook": "looks"}


LOOK_ALIKES = bytes.maketrans(b"lIoO", b"1100")


class Unknown:
    """A number that isn't known, since its line is wrong. Every comparison with it comes out as if nothing were wrong."""

    def __eq__(self, other):
        return True

    def __ge__(self, other):
        return True

    def __lt__(self, other):
        return False

    def __sub__(self, other):
        return self

    def __gt__(self, other):
        return True

    def __le__(self, other):
        return True

    __hash__ = object.__hash__


UNKNOWN = Unknown()


@dataclasses.dataclass
class Shape:
    """What the fields of a line stand for.

    `periods` are fields with the last period that they may name, `parts` those of parts, of which the least is `least` and the
    denominator has the place `whole` in the line `parts`; `sums` says that they have to sum to it. `positions` and `cells` are
    names, `once` those that may stand once, and `row` the fields of which a second row isn't allowed.
    """

    periods: list = dataclasses.field(default_factory=list)
    parts: list = dataclasses.field(default_factory=list)
    least: int = 0
    whole: int = 2
    sums: bool = False
    positions: list = dataclasses.field(default_factory=list)
    cells: list = dataclasses.field(default_factory=list)
    once: list = dataclasses.field(default_factory=list)
    row: list = dataclasses.field(default_factory=list)


def shape(sc, word, its):
    """The shape of a line that names cells or positions. Its number of fields has to be right."""
    match word:
        case b"start":
            return Shape(positions=its)
        case b"first":
            return Shape(parts=its[1::2], least=1, whole=0, sums=True, cells=its[0::2], once=its[0::2])
        case b"moves":
            return Shape(positions=its, once=its[1:], row=its[:1])
        case b"drift":
            return Shape(parts=its[2::2], least=1, whole=1, sums=True, cells=[its[0], *its[1::2]], once=its[1::2], row=its[:1])
        case b"driftin":
            rest = shape(sc, b"drift", its[1:])
            return dataclasses.replace(rest, periods=[(its[0], sc.horizon - 1)], row=its[:2])
        case b"look":
            return Shape(parts=its[2::2], positions=its[:1], cells=its[1::2], once=its[1::2], row=its[:1])
        case b"lookin":
            rest = shape(sc, b"look", its[1:])
            return dataclasses.replace(rest, periods=[(its[0], sc.horizon)], row=its[:2])
        case b"overlook":
            return Shape(parts=its[1:], cells=its[:1], row=its[:1])
    return Shape()


def split(line):
    """The keyword and the fields of a line that says something, or None."""
    line = line.strip(b" \t\r")
    return None if not line or line.startswith(b"#") else re.split(rb"[ \t\r]+", line)


def is_number(field, least):
    """Whether a field is a plain decimal of at least so much."""
    return bool(DECIMAL.match(field)) and (least == 0 or field != b"0")


def over(field, most):
    """Whether a plain decimal is above a limit. (Digits beyond any limit aren't read.)"""
    return len(field) > 40 or int(field) > most


def near(wanted, names):
    """The name that is spelled most like another one, or None. Letters that look like digits come first: r1cl for r1c1."""
    if (alike := wanted.translate(LOOK_ALIKES)) in names:
        return alike
    by_text = {it.decode("ascii", "replace"): it for it in names}
    found = difflib.get_close_matches(wanted.decode("ascii", "replace")[: quoting.MOST_FIELD], by_text, 1, 0.6)
    return by_text[found[0]] if found else None


class Words:
    """The faults of one line's fields. `reader` knows what stood before: names, rows and denominators."""

    def __init__(self, reader, word, fields):
        self.reader, self.sc, self.word, self.fields = reader, reader.sc, word, fields
        self.shape = shape(reader.sc, word, fields)
        self.found = []

    def tell(self, kind, says):
        self.found.append((kind, says))

    def all(self):
        """The faults of the line as pairs of a kind and what is said, in the order in which kinds are asked."""
        special = getattr(self, "about_" + self.word.decode("ascii"), None)
        if special:
            special()
        self.numbers()
        self.names()
        self.doubles()
        self.sums()
        return sorted(self.found, key=lambda it: KINDS.index(it[0]))

    def number(self, field, least, most, what, whole=None, at=None):
        """Tells a field that isn't a number or is above its limit. Whether it is a number within its limit."""
        if not is_number(field, least):
            self.tell("BadNumber", numerals.said(field, least, whole, at))
        elif over(field, most):
            self.tell("OverLimit", f"{quoting.field(field)} is too much: {what} is at most {most:,}")
        else:
            return True
        return False

    def numbers(self):
        """The periods and the parts of a line."""
        it = self.shape
        for field, last in it.periods:
            if last is not UNKNOWN and last == 0 and is_number(field, 1):
                self.tell("OverLimit", "with one period there is no step from a period to the next: leave this line out")
            elif not is_number(field, 1):
                self.tell("BadNumber", numerals.said(field, 1))
            elif over(field, last):
                what = "the step after the last period but one" if self.word == b"driftin" else "the last period"
                self.tell("OverLimit", f"period {quoting.name(field)} is too late: {what} is {last}")
        for field in it.parts:
            self.number(field, it.least, MOST_PART, "a part", self.sc.parts[it.whole], it.whole)

    def names(self):
        """The names of a line that nothing has."""
        for fields, known, other, noun in self.places():
            for field in dict.fromkeys(fields):
                if field not in known:
                    self.tell("UnknownName", unknown(field, known, other, noun, self.reader))

    def places(self):
        """The fields in the places of positions and of cells, with the names that are known there and elsewhere."""
        cells, positions = self.reader.numbers, self.reader.places
        noun = "position" if self.reader.version == 2 else "cell"
        return (self.shape.positions, positions, cells, noun), (self.shape.cells, cells, positions, "cell")

    def doubles(self):
        """A name that stands twice in a line, and a second row."""
        for field, count in collections.Counter(self.shape.once).items():
            if count > 1:
                self.tell("DoubleName", f"{quoting.name(field)} stands {'twice' if count == 2 else f'{count} times'}: {self.merged(field)}")
        place = self.reader.place(self.word, self.shape.row)
        if place is not None and place in getattr(self.sc, KEPT[self.word]):
            self.tell("DoubleRow", self.second_row(self.reader.rows_at.get((KEPT[self.word], place))))

    def second_row(self, at):
        """What is said of a second row of one sort, where the first is at a line."""
        if at and split(self.reader.lines[at - 1]) == [self.word, *self.fields]:
            return "the same line stands further up: take one of the two away"
        period = f" for period {int(self.shape.row[0])}" if len(self.shape.row) > 1 else ""
        sort = "look" if self.word == b"lookin" else "drift" if self.word == b"driftin" else self.word.decode("ascii")
        name = quoting.name(self.shape.row[-1])
        return f"{name} has its {sort} row{period}{by_line(at)} already: take one of the two away"

    def merged(self, field):
        """What to write in place of a name that stands twice."""
        parts = [part for name, part in zip(self.shape.once, self.shape.parts) if name == field]
        if not self.shape.sums or not all(is_number(it, 1) and not over(it, MOST_PART) for it in parts):
            return "once is enough"
        return f"as once it is {field.decode('ascii')} {sum(int(it) for it in parts)}"

    def sums(self):
        """Parts that don't sum to their denominator, and parts of a look above G."""
        it, whole = self.shape, self.sc.parts[self.shape.whole] if self.shape.parts else UNKNOWN
        if not all(is_number(field, it.least) and not over(field, MOST_PART) for field in it.parts):
            return
        parts = [int(field) for field in it.parts]
        if it.sums and sum(parts) != whole and whole is not UNKNOWN:
            self.tell("WrongSum", self.wrong_sum(parts, whole))
        if not it.sums and any(part > whole for part in parts) and whole is not UNKNOWN:
            self.tell("PartOver", f"a look misses at most {whole} of {whole}, and {max(parts)} is more: G is the third number of `parts`")

    def wrong_sum(self, parts, whole):
        """What is said of parts that sum to something else than their denominator."""
        letter, lacks = "AD"[self.shape.whole], whole - sum(parts)
        said = f"the parts sum to {sum(parts)}, and {letter} is {whole}: "
        said += f"{lacks} more {'has' if lacks == 1 else 'have'} to go somewhere" if lacks > 0 else f"{-lacks} too much"
        if self.word == b"first":
            return said
        cell = self.shape.cells[0]
        stays = sum(part for name, part in zip(self.shape.once, parts) if name == cell)
        if stays + lacks < 1 or cell not in self.reader.numbers:
            return said
        return f"{said}; where the rest stays, it is `{cell.decode('ascii')} {stays + lacks}`" + (f" in place of {stays}" if stays else "")

    def about_scenario(self):
        self.tell("BadLine", f"the version is 1 or 2, and not {quoting.field(self.fields[0])}")

    def about_horizon(self):
        self.number(self.fields[0], 1, MOST_PERIODS, "the number of periods")

    def about_parts(self):
        for field, letter in zip(self.fields, "ADG"):
            self.number(field, 1, MOST_PART, f"the denominator {letter}")

    def about_grid(self):
        sizes = [self.number(it, 1, 200, "the number of rows or columns") for it in self.fields]
        if all(sizes) and int(self.fields[0]) * int(self.fields[1]) > MOST_CELLS:
            cells = int(self.fields[0]) * int(self.fields[1])
            self.tell("OverLimit", f"the grid has {cells:,} cells, and {MOST_CELLS} are the most: take larger cells, or a smaller area")

    def about_cell(self):
        self.named(self.sc.names, self.reader.numbers)

    def about_position(self):
        self.named(self.sc.positions, self.reader.places)

    def named(self, names, numbers):
        """The faults of a line that gives a name."""
        (name,), noun = self.fields, self.word.decode("ascii")
        if not NAME.match(name):
            self.tell("BadLine", f"a name has letters, digits, `_` and `-` alone, and {quoting.field(name)} has something else")
        if len(name) > LONGEST_NAME:
            self.tell("OverLimit", f"a name has at most 24 letters, and this one has {len(name):,}")
        if len(names) >= MOST_CELLS:
            self.tell("OverLimit", f"there are at most {MOST_CELLS} {noun}s, and this is one more")
        if name in numbers:
            self.tell("DoubleName", f"the {noun} {quoting.name(name)} is named already: take one of the two lines away, or give it another name")

    def about_moves(self):
        if len(self.fields) - 1 > MOST_MOVES:
            self.tell("OverLimit", f"{len(self.fields) - 1:,} moves, and {MOST_MOVES} are the most")
        if len(self.fields) == 1:
            name = quoting.name(self.fields[0])
            self.tell("NoMove", f"a searcher at {name} has to go somewhere: `moves {name} {name}` lets it stay")

    def about_spread(self):
        if not self.reader.grid:
            self.tell("BadLine", "`spread` stands behind a `grid` alone: write a `drift` line for each cell")
            return
        self.shorthand("drift", "drift")
        part = self.fields[0]
        whole = self.sc.parts[1]
        sides = max(len(self.reader.sides(it)) for it in range(max(1, len(self.sc.names))))
        if self.number(part, 0, MOST_PART, "a part", whole, 1) and whole is not UNKNOWN and sides * int(part) > whole:
            most = f"at most `spread {whole // sides}`, or a larger second number of `parts`"
            self.tell("WrongSum", f"a cell with {sides} side neighbours would give away {sides} times {int(part)}, and D is {whole}: {most}")

    def about_rate(self):
        self.shorthand("looks", "overlook")
        part, whole = self.fields[0], self.sc.parts[2]
        if self.number(part, 0, MOST_PART, "a part", whole, 2) and whole is not UNKNOWN and int(part) > whole:
            self.tell("PartOver", f"a look misses at most {whole} of {whole}, and {int(part)} is more: G is the third number of `parts`")

    def shorthand(self, rows, word):
        """Tells that a line for all cells stands beside rows of single ones."""
        if taken := getattr(self.sc, rows):
            this, where = self.word.decode("ascii"), by_line(self.reader.rows_at.get((rows, min(taken))))
            says = f"`{this}` gives every cell its row, and a cell has it{where} already: write `{this}`, or a line `{word}` for each cell"
            self.tell("DoubleRow", says)


def by_line(at):
    """By which line something is given, if that is known."""
    return f" by line {at}" if at else ""


def by_square(field, known):
    """Where a square is named in the place of its parts, or a part in the place of its square: what to write."""
    if square_of(field) != field:
        return f", a part of {quoting.name(square_of(field))}" if square_of(field) in known else ""
    parts = [quoting.name(it) for it in known if square_of(it) == field]
    return f", and its parts are the cells {quoting.listed(parts)}" if parts else ""


def unknown(field, known, other, noun, reader):
    """What is said of a name that nothing has, in the place of a cell or a position. `reader` guesses what is meant."""
    grid = reader.grid_size
    said = f"{quoting.field(field)} isn't a {noun}"
    if field in other:
        return f"{said}: it is a {'cell' if noun == 'position' else 'position'}{by_square(field, known)}"
    if grid and re.fullmatch(rb"r[0-9]+c[0-9]+", field):
        return f"{said}: the grid has r0c0 to r{grid[0] - 1}c{grid[1] - 1}, since rows and columns count from 0"
    if meant := reader.near(field, known):
        return f"{said}: is {quoting.name(meant)} meant?"
    if not NAME.match(field) or len(field) > LONGEST_NAME:
        return f"{said}, and can't be: names have at most 24 letters, digits, `_` and `-`"
    return f"{said}: it needs a line `{noun} {quoting.name(field)}`, or is another one meant?"
