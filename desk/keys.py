"""The keys of a situation: the tables of its TOML file, what each value should be, an example of it, and what takes it."""
import dataclasses
import datetime
import difflib
import re
from decimal import Decimal
from fractions import Fraction

from desk import earth, moments
from desk.limits import MOST_CELLS, MOST_PART, MOST_PERIODS

# The most squares of an area, with its land.
MOST_SQUARES = 1000
# The most places of a trackline.
MOST_PLACES = 50
SQUARE = re.compile(r"r(\d{1,3})c(\d{1,3})", re.ASCII)


# Values as people write them: a number in quotes, perhaps with a comma; a time such as 7:30 or 19.30; UTC as it is named; what stands between two
# squares.
PLAIN = re.compile(r"\s*-?\d{1,12}(?:[.,]\d{1,12})?\s*", re.ASCII)
CLOCK = re.compile(r"\b(\d{1,2})[:.h](\d\d)\b|\b(\d\d)(\d\d)\Z", re.ASCII)
ZONE = re.compile(r"\s*(?:UTC|GMT|[zZ]|\+00:?00)\s*\Z", re.ASCII)
# The first and the last day of the calendar, on which another zone's day may be none.
ENDS = datetime.date.min, datetime.date.max
BETWEEN = re.compile(r"\s*(?:\.{1,3}|\u2026|-|\u2013|:|\bto\b)\s*")


class BadSituation(Exception):
    """What is wrong with a situation, in one line."""


@dataclasses.dataclass(frozen=True)
class Key:
    """A key of a table: its name, what its value should be, an example of the value, and what makes a value of what TOML gave.

    `take` raises ValueError where the value isn't one.
    """

    name: str
    what: str
    example: str
    take: object
    needed: bool = False

    def told(self):
        return f"it should be {self.what}, as in {self.name} = {self.example}"


def shown(value):
    """A value in a line: short, and in ASCII."""
    if isinstance(value, dict):
        return "a table"
    if isinstance(value, list):
        return "an array"
    if isinstance(value, int) and abs(value) >= 10**30:
        return "a number with too many digits"
    text = ascii(value) if isinstance(value, str) else str(value)
    return text if len(text) <= 40 else text[:36] + " .."


def take_table(table, where, keys):
    """The values of a table by key; None where a key that isn't needed is lacking. Raises BadSituation."""
    if isinstance(table, list) and where[1:2] != "[":
        raise BadSituation(f"{where}: it stands once, so its first line should be {where}, and is [{where}]")
    if not isinstance(table, dict):
        raise BadSituation(f"{where}: it should be a table, as in examples/situations/kayaker.toml, and is {shown(table)}")
    names = [it.name for it in keys]
    unknown = next((it for it in table if it not in names), None)
    if unknown is not None:
        raise BadSituation(f"{where} {shown(unknown)}: there is no such key{meant(unknown, where, names)}; {where} has {', '.join(names)}")
    return {key.name: take_key(table, where, key) for key in keys}


def meant(unknown, where, names):
    """What a key may have been meant for that a table doesn't have: another one of its keys, or a key of other tables."""
    near = difflib.get_close_matches(unknown, names, 1)
    tables = [name for name, its in TABLES.items() if name != where and any(it.name == unknown for it in its)]
    if tables:
        return f", and it belongs to {' or '.join(tables)}"
    return f", and {near[0]} may be meant" if near else ""


def take_key(table, where, key):
    """The value of a key; None where it is lacking and not needed. Raises BadSituation."""
    if key.name not in table:
        if key.needed:
            raise BadSituation(f"{where} {key.name} is lacking: {key.told()}")
        return None
    value = table[key.name]
    try:
        return key.take(value)
    except (ValueError, OverflowError):
        again = next((written(it) for it in likely(value) if takes(key, it)), None)
        instead = f"; write {key.name} = {again}" if again else ""
        raise BadSituation(f"{where} {key.name}: {key.told()}, and is {shown(value)}{instead}") from None


def likely(value):
    """What a wrong value was perhaps meant to be: without quotes or brackets, or with them, in small letters, with two dots between the
    squares of a block, with a colon and two digits in a time."""
    if isinstance(value, datetime.datetime) and value.tzinfo and value.date() not in ENDS:
        yield f"{value.astimezone(datetime.timezone.utc):%Y-%m-%d %H:%M:%S}Z"
    if isinstance(value, str) and len(value) <= 40:
        yield ZONE.sub("Z", value)
        yield from (Decimal(it) for it in [value.strip().replace(",", ".")] if PLAIN.fullmatch(it))
        yield from (meaning for word, meaning in (("true", True), ("yes", True), ("false", False), ("no", False)) if word == value.lower())
        yield CLOCK.sub(lambda it: f"{int(it[1] or it[3]):02}:{it[2] or it[4]}", value)
        yield from (value.lower(), [dotted(value)])
    if isinstance(value, list) and len(value) == 1:
        yield value[0]
    if isinstance(value, list) and all(isinstance(it, str) for it in value):
        yield [dotted(it) for it in value]


def dotted(value):
    """A block of squares as it is written, in small letters and with two dots."""
    return BETWEEN.sub("..", value.lower())


def takes(key, value):
    try:
        key.take(value)
        return True
    except (ValueError, OverflowError):
        return False


def written(value):
    """A value as TOML has it, in ASCII; None where it is long."""
    if isinstance(value, list):
        text = "[" + ", ".join(written(it) or "" for it in value) + "]"
    else:
        text = f'"{value}"' if isinstance(value, str) else str(value).lower()
    return text if len(text) <= 80 and text.isascii() else None


# ---- what values are


def is_short(value):
    """Whether a Decimal has few digits as a fraction. (That of 1e-999999 would have a million.)"""
    return value.is_finite() and len(value.as_tuple().digits) <= 30 and (value == 0 or abs(value.adjusted()) <= 12)


def number(least, most, above=False):
    """Takes an exact number from `least` to `most`, or above `least`."""

    def take(value):
        if isinstance(value, bool) or not isinstance(value, (int, Decimal)):
            raise ValueError("no number")
        if isinstance(value, Decimal) and not is_short(value):
            raise ValueError("not finite, or too many digits")
        if not (least <= value <= most) or above and value == least:
            raise ValueError("out of its range")
        return Fraction(value)

    return take


def whole(least, most):
    """Takes a whole number from `least` to `most`."""

    def take(value):
        if isinstance(value, bool) or not isinstance(value, int) or not least <= value <= most:
            raise ValueError("no whole number in its range")
        return value

    return take


def one_of(*words):
    def take(value):
        if isinstance(value, bool) or value not in words:
            raise ValueError("none of these")
        return value

    return take


def truth(value):
    if not isinstance(value, bool):
        raise ValueError("neither true nor false")
    return value


def text(value):
    if not isinstance(value, str) or len(value) > 200 or not value.isprintable():
        raise ValueError("no text of one line")
    return value


def track_file(value):
    if not text(value).endswith((".csv", ".nc")):
        raise ValueError("no name of a file of tracks")
    return value


def square(value):
    """A pair of row and column, of a name such as r2c3."""
    found = SQUARE.fullmatch(value) if isinstance(value, str) else None
    if not found or max(int(it) for it in found.groups()) >= MOST_CELLS:
        raise ValueError("no cell")
    return int(found[1]), int(found[2])


def block(value):
    """The first and the last square of a name such as r2c3, or of a block such as r0c0..r2c3."""
    first, dots, last = value.partition("..") if isinstance(value, str) else (value, "", "")
    return square(first), square(last if dots else first)


def squares(value):
    """The squares of a list of names such as r2c3, and of blocks such as r0c0..r2c3, from one corner to the other."""
    if not isinstance(value, list) or len(value) > MOST_SQUARES:
        raise ValueError("no list, or a long one")
    found = set()
    for each in value:
        first, last = block(each)
        rows, columns = (end + 1 - begin for begin, end in zip(first, last))
        if min(rows, columns) < 1 or rows * columns > MOST_SQUARES:
            raise ValueError("no block from its north-west corner to its south-east corner, or a large one")
        found |= {(row, column) for row in range(first[0], last[0] + 1) for column in range(first[1], last[1] + 1)}
    return frozenset(found)


def pair(value, *ranges):
    """Two numbers of a list, each in its range."""
    if not isinstance(value, list) or len(value) != 2:
        raise ValueError("no pair")
    return tuple(number(*ends)(it) for it, ends in zip(value, ranges))


def place(value):
    """A pair of metres east and south of the north-west corner, or of numbers that an area on the earth takes as degrees; or the
    earth.Place of a text."""
    metres = -1_000_000, 1_000_000
    return earth.spelled(value) if isinstance(value, str) else pair(value, metres, metres)


def on_earth(value):
    """The earth.Place of a pair of a latitude and a longitude in degrees, or of a text."""
    return earth.spelled(value) if isinstance(value, str) else earth.Place(*pair(value, (-90, 90), (-180, 180)))


def places(value):
    """A list of 2 to MOST_PLACES places, each another than the one before it."""
    if not isinstance(value, list) or not 2 <= len(value) <= MOST_PLACES:
        raise ValueError("no list, or a short or long one")
    found = tuple(place(it) for it in value)
    if any(one == other for one, other in zip(found, found[1:])):
        raise ValueError("a place twice")
    return found


TITLE = Key("title", "a text of one line, up to 200 characters", '"Kayaker off the point"', text)
TIME = "a time, or a date and a time, local or (with Z) in UTC"
SEARCH = (
    Key("begins", TIME, '"19:30"', moments.moment, True),
    Key("minutes", "the minutes of a period, from 1 to 1440", "15", number(1, 1440), True),
    Key("periods", "a whole number from 1 to 32", "8", whole(1, MOST_PERIODS)),
    Key("until", TIME, '"21:30"', moments.moment),
)
ON_EARTH = "a latitude and a longitude: a pair of degrees, north and east positive, or a text"
LAND = '["r0c0", "r5c4..r6c6"]'
AREA = (
    Key("cell_size", "the side of a cell in metres, from 1 to 100000", "500", number(1, 100_000), True),
    Key("rows", "a whole number from 1 to 200", "7", whole(1, MOST_CELLS), True),
    Key("columns", "a whole number from 1 to 200", "7", whole(1, MOST_CELLS), True),
    Key("land", "a list of cells, or of blocks of cells from the north-west one to the south-east one", LAND, squares),
    Key("edge", '"lost" or "stays"', '"lost"', one_of("stays", "lost")),
    Key("north_west", ON_EARTH, "[57.725, 10.58]", on_earth),
    Key("centre", ON_EARTH, '"57-43.5N 10-35.0E"', on_earth),
)
PLACE = "a pair of metres east and south of the area's north-west corner, or in an area on the earth a latitude and a longitude"
REPORT = (
    Key("cell", "the name of a cell", '"r2c3"', square),
    Key("at", PLACE, "[1750, 1250]", place),
    Key("track", "a list of 2 to 50 such places, one after the other", "[[400, 3100], [2600, 1200]]", places),
    Key("radius", "metres from 0 to 100000", "400", number(0, 100_000)),
    Key("probable_error", "metres above 0 and up to 100000", "300", number(0, 100_000, True)),
    Key("weight", "a number above 0 and up to 1000000", "2", number(0, 1_000_000, True)),
    Key("time", TIME, '"18:45"', moments.moment, True),
    Key("until", TIME, '"19:05"', moments.moment),
)
CURRENT = (
    Key("begins", TIME, '"18:00"', moments.moment),
    Key("knots", "a number from 0 to 20", "0.6", number(0, 20), True),
    Key("towards", "the true bearing in degrees, from 0 to 360, that the water goes to", "45", number(0, 360), True),
)
WIND = (
    Key("begins", TIME, '"18:00"', moments.moment),
    Key("knots", "a number from 0 to 100", "12", number(0, 100), True),
    Key("from", "the true bearing in degrees, from 0 to 360, that the wind comes from", "270", number(0, 360), True),
)
DRIFT = (
    Key("spread", "metres from 0 to 100000", "100", number(0, 100_000)),
    Key("leeway", "a share of the wind's speed, from 0 to 1", "0.03", number(0, 1)),
    Key("current_error", "knots from 0 to 20", "0.2", number(0, 20)),
    Key("wind_error", "knots from 0 to 100", "3", number(0, 100)),
    Key("leeway_error", "a share of the wind's speed, from 0 to 1", "0.005", number(0, 1)),
    Key("divergence", "degrees from 0 to 90", "20", number(0, 90)),
    Key("jibing", "a chance in an hour, from 0 to 0.9", "0.04", number(0, Fraction(9, 10))),
)
SEARCHER = (
    Key("start", "the name of a cell", '"r6c3"', square),
    Key("base", f"{PLACE}, outside of the area", "[-2000, 1500]", place),
    Key("enters", "a list of cells, or of blocks of cells, where it comes into the area from its base", '["r0c0..r6c0"]', squares),
    Key("leaves", f"{TIME}, up to the search's begin", '"19:10"', moments.moment),
    Key("speed", "the knots at which it searches, above 0 and up to 1000", "8", number(0, 1000, True), True),
    Key("sweep_width", "metres above 0 and up to 100000", "300", number(0, 100_000, True), True),
    Key("search_minutes", "the minutes of a period in which it searches, above 0 and up to a period", "12", number(0, 1440, True)),
    Key("reaches", "4 (cells by their sides) or 8 (by their corners, too)", "4", one_of(4, 8)),
    Key("stays", "true or false: whether it may stay for a period", "true", truth),
    Key("swath", "a table with course and sweep_width", '{ course = "east-west", sweep_width = 150 }', lambda it: it),
)
SWATH = (
    Key("course", '"east-west" or "north-south"', '"east-west"', one_of("east-west", "north-south"), True),
    Key("sweep_width", "metres above 0 and up to 100000", "150", number(0, 100_000, True), True),
)
LIGHT = (
    Key("sunrise", TIME, '"05:10"', moments.moment),
    Key("sunset", TIME, '"20:45"', moments.moment),
    Key("night", "the factor of the sweep width by night, from 0 to 1", "0.3", number(0, 1), True),
)
VISIBILITY = (
    Key("begins", TIME, '"20:15"', moments.moment),
    Key("factor", "the factor of the sweep width, from 0 to 10", "0.5", number(0, 10), True),
)
PARTS = tuple(Key(it, "a whole number from 1 to 1000000", "20", whole(1, MOST_PART)) for it in ("first", "drift", "look"))
TRACKS = (
    Key("count", "a whole number from 1000 to 200000", "20000", whole(1000, 200_000)),
    Key("seed", "a whole number from 1 to 1000000", "1", whole(1, MOST_PART)),
    Key("finer", "a whole number from 1 to 4", "2", whole(1, 4)),
    Key("file", "the name of a file of tracks that ends in .csv or .nc", '"ensemble.csv"', track_file),
)
TABLES = {
    "[search]": SEARCH,
    "[area]": AREA,
    "[[report]]": REPORT,
    "[[current]]": CURRENT,
    "[[wind]]": WIND,
    "[drift]": DRIFT,
    "[searcher]": SEARCHER,
    "[searcher.swath]": SWATH,
    "[light]": LIGHT,
    "[[visibility]]": VISIBILITY,
    "[parts]": PARTS,
    "[tracks]": TRACKS,
}
