"""Reads a situation: a TOML file that says what is known in metres, knots, degrees and times. docs/PLANNING.md has its keys."""
import dataclasses
import datetime
import functools
import os
import re
import tomllib
from decimal import Decimal, InvalidOperation
from fractions import Fraction

from desk import draws, geometry, keys, moments, placing, recorded, ways
from desk.ensemble import Ensemble, at_looks
from desk.limits import MOST_CELLS, MOST_MOVES, MOST_PERIODS
from desk.keys import BadSituation, shown, take_key, take_table

# The longest file that is read, in bytes; no situation needs more, and the scenario repeats it. The longest line: the time that
# tomllib takes for a key a.b.c grows by the square of its length, and a key stands on one line.
LONGEST = 65_536
LONGEST_LINE = 1_000
# The most tables of one name, and the most reports.
MOST_ROWS = 200
MOST_REPORTS = 20
# How many tracks are simulated by default.
COUNT = 20_000
TOP = ("title", "search", "area", "report", "current", "wind", "drift", "searcher", "light", "visibility", "parts", "tracks")
# The tables in whose place tracks of a file stand.
DRIFTING = ("report", "current", "wind", "drift")
# A time such as 19:30, which TOML takes with seconds alone.
BARE_TIME = re.compile(rb"=\s*(?:\d{4}-\d\d-\d\d[ T])?\d{1,2}:\d\dZ?\s*(?:#|$)")
# What a line that isn't TOML may have, and how it should be.
AT_LINE = re.compile(r"at line (\d+)")
SLIPS = (
    (re.compile("[\u201c\u201d\u201e\u2018\u2019]".encode()), 'has curved quotes; they are straight, as in start = "r6c3"'),
    (re.compile(rb"=\s*-?\d+,\d"), "has a comma in a number; it has a point, as in knots = 0.6"),
    (re.compile(rb"=\s*-?[\d.]+\s*(?:[A-Za-z%/]|\xc2\xb0)"), "has a unit behind a number; it has none, as in speed = 8"),
    (re.compile(rb"=\s*(?!true|false|inf|nan)[A-Za-z]"), 'has a text without quotes; it stands in them, as in start = "r6c3"'),
    (re.compile(rb"^\s*[A-Za-z_]+\s*:"), "has a colon behind a key; an equals sign stands there, as in rows = 7"),
)
# What lines of a fault have in common.
AS_IN = "as in examples/situations/kayaker.toml"
NEAREST = 'a time without a date is the one nearest to the begin of the search, and a date is given as in begins = "2026-07-05 03:00"'


@dataclasses.dataclass(frozen=True)
class Report:
    """Where the person may have been so many minutes after the begin of the search (before it, a number below 0), or at some time from
    then to `until`.

    They were at a place or, where there is a track, somewhere along the line through its places; or around it, by the radius of a circle
    or by a probable error in metres. Where there is neither a track, a radius nor a probable error, they were anywhere in a square.
    """

    minutes: Fraction
    weight: Fraction
    square: tuple
    place: tuple
    radius: Fraction | None = None
    probable_error: Fraction | None = None
    track: tuple | None = None
    until: Fraction | None = None

    @property
    def is_square(self):
        return self.radius is None and self.probable_error is None and self.track is None

    def moved(self, east, south, side):
        """The same report, so many metres farther east and south. Its square, of this side, may then lie between those of the area."""
        line = self.track and tuple((x + east, y + south) for x, y in self.track)
        square, place = (self.square[0] + south / side, self.square[1] + east / side), (self.place[0] + east, self.place[1] + south)
        return dataclasses.replace(self, square=square, place=place, track=line)


@dataclasses.dataclass(frozen=True)
class Drift:
    """How the person drifts: the velocities of the current and of the air by steps of time (or None), the leeway straight downwind and
    to a side as shares of the wind's speed, the spread in metres to each side in a period; and what a person has of their own: standard
    deviations of the current and the wind along each axis in metres a minute, and of the downwind leeway as a share of the wind's
    speed, and how often in a minute the side of the leeway changes."""

    current: moments.Steps | None
    wind: moments.Steps | None
    downwind: Fraction
    crosswind: float
    spread: Fraction
    current_error: float
    wind_error: float
    leeway_error: float
    rate: float

    @property
    def is_own(self):
        """Whether persons have anything of their own."""
        return any((self.crosswind, self.current_error, self.wind_error, self.leeway_error))


@dataclasses.dataclass(frozen=True)
class Searcher:
    """The searcher: the square or, outside of the area, the base where it is at first, and how many minutes before the begin it leaves
    that; its speed in knots, its sweep widths in metres in its own cell and (or None) in the cells beside its course, and the minutes
    that it searches in each period. It reaches the 4 or 8 cells around one, or (None) as many as time allows."""

    start: tuple | None
    base: tuple | None
    enters: frozenset
    ahead: Fraction
    speed: Fraction
    sweep_width: Fraction
    search_minutes: Fraction
    reaches: int | None
    stays: bool
    course: str | None
    beside: Fraction | None


@dataclasses.dataclass(frozen=True)
class TrackChoice:
    """How many tracks are simulated, from which seed, and how many states make the side of a square, or None where that is open. Or (None
    where there is no file) the tracks of another drift model, in place of those."""

    count: int
    seed: int
    finer: int | None
    ensemble: Ensemble | None = None


@dataclasses.dataclass(frozen=True)
class Situation:
    """A situation, with times in minutes after the begin of the search, velocities in metres east and south a minute."""

    title: str
    clock: moments.Clock
    minutes: Fraction
    periods: int
    grid: geometry.Grid
    is_lost: bool
    reports: tuple
    drift: Drift
    searcher: Searcher
    visibility: tuple
    parts: tuple
    tracks: TrackChoice
    # When night ends and begins by [light], as typed: pairs of "sunset" or "sunrise" and its minutes.
    light: tuple = ()

    @property
    def times(self):
        """When its periods are."""
        return moments.Times(self.clock, self.minutes)

    def look_time(self, t):
        """When the look of period t counts as made: at the end of the period."""
        return self.minutes * t

    @functools.cached_property
    def ways(self):
        """The searcher's ways."""
        return ways.Ways(self.grid, self.searcher, self.minutes)


def need(holds, key, why):
    """Raises BadSituation, with a key and what it should be, where something doesn't hold."""
    if not holds:
        raise BadSituation(f"{key}: {why}")


def parsed(given):
    """The tables of a TOML file given as bytes. Raises BadSituation."""
    if len(given) > LONGEST:
        raise BadSituation(f"the file is longer than {LONGEST:,} bytes; a situation has a few dozen lines, {AS_IN}")
    for at, line in enumerate(given.split(b"\n"), 1):
        if len(line) > LONGEST_LINE:
            raise BadSituation(f"line {at} is longer than {LONGEST_LINE:,} bytes; a list may go over several lines, {AS_IN}")
    try:
        return tomllib.loads(given.decode("utf-8-sig"), parse_float=Decimal)
    except UnicodeDecodeError:
        raise BadSituation(f"the file isn't text in UTF-8; save it as plain text, {AS_IN}") from None
    except RecursionError:
        raise BadSituation(f"tables or lists stand too deep in each other; no key needs more than two, {AS_IN}") from None
    except (ValueError, InvalidOperation, OverflowError) as wrong:
        raise BadSituation(f"the file isn't TOML: {why_not(given, str(wrong))}") from None


def why_not(given, said):
    """Why a text isn't TOML: a time without quotes, which is the likeliest fault, or what the parser said, on one line in ASCII."""
    for at, line in enumerate(given.split(b"\n"), 1):
        if BARE_TIME.search(line):
            return f'line {at} has a time without quotes; it stands in them, as in begins = "19:30"'
    at = AT_LINE.search(said)
    if at and said.startswith("Cannot overwrite"):
        return f"line {at[1]} gives a key that its table has already; each stands once, as in rows = 7"
    slip = at and next((why for form, why in SLIPS if form.search(given.split(b"\n")[int(at[1]) - 1])), None)
    if slip:
        return f"line {at[1]} {slip}"
    said = "".join(it if it.isprintable() else " " for it in said)
    return f"{ascii(said)[1:-1][:120]}; a line is as in rows = 7"


def rows_of(tables, name, most=MOST_ROWS):
    """The tables of [[name]]. Raises BadSituation."""
    rows = tables.get(name, [])
    need(not isinstance(rows, dict), f"[{name}]", f"each such table should have [[{name}]] as its first line, in two brackets on each side")
    is_right = isinstance(rows, list) and len(rows) <= most
    need(is_right, f"[[{name}]]", f"it should be up to {most} tables, each with [[{name}]] as its first line, and is {shown(rows)}")
    return rows


def situation(given, folder=""):
    """The situation that a file given as bytes says; files that it names are in this folder, or aren't read where that is None. Raises
    BadSituation, and packages.Lacking."""
    tables = parsed(given)
    for it in tables:
        need(it in TOP, shown(it), f"there is no such table{keys.meant(it, '', TOP)}; a situation has {', '.join(TOP)}")
    for it in ("search", "area", "searcher"):
        need(it in tables, f"[{it}] is lacking", f"it should be a table, {AS_IN}")
    title = take_key(tables, "the file's", keys.TITLE)
    search = take_table(tables["search"], "[search]", keys.SEARCH)
    clock, minutes = moments.Clock(search["begins"]), search["minutes"]
    periods = how_many(search, clock)
    grid, is_lost = area(tables["area"])
    chosen = track_choice(tables)
    told = reports(tables, clock, grid, minutes) if chosen.count else ()
    found = Situation(
        title=title or "",
        clock=clock,
        minutes=minutes,
        periods=periods,
        grid=grid,
        is_lost=is_lost,
        reports=told,
        drift=drift(tables, clock, min((it.minutes for it in told), default=Fraction(0))),
        searcher=searcher(tables["searcher"], clock, grid, minutes),
        visibility=visibility(tables, clock, minutes * periods),
        parts=tuple(take_table(tables.get("parts", {}), "[parts]", keys.PARTS).values()),
        tracks=chosen,
        light=tuple(turns(take_table(tables["light"], "[light]", keys.LIGHT), clock).items()) if "light" in tables else (),
    )
    found.ways.check(clock)
    if chosen.count or folder is None:
        return found
    told = recorded_at(os.path.join(folder, tables["tracks"]["file"]), found)
    return dataclasses.replace(found, tracks=dataclasses.replace(chosen, ensemble=told))


def minutes_of(key, how, it, *rest):
    """The minutes of a moment by one of the clock's ways. Raises BadSituation where it has a date or a zone that the begin lacks."""
    try:
        return how(it, *rest)
    except moments.Unclear as why:
        raise BadSituation(f"{key}: {why}") from None


def past(where, key, clock, it):
    """The minutes of a moment that is up to the begin where it has no date. Raises BadSituation where it might be later as well."""
    date = (clock.begins.date or datetime.date(2026, 7, 5)) - datetime.timedelta(days=1)
    written = f'{key} = "{date} {moments.Clock(it).told(0)}"' + ("" if clock.begins.date else ", in begins too")
    told = f"it is later than the search's begin at {clock.told(0)}; where it was on the day before, write the date, as in {written}"
    minutes = minutes_of(f"{where} {key}", clock.past, it)
    need(not clock.is_ahead(it), f"{where} {key}", f"{told}; else let the search begin later")
    return minutes


def how_many(search, clock):
    """The number of periods, as given or as fit until the end."""
    is_one = (search["periods"] is None) != (search["until"] is None)
    need(is_one, "[search] periods", 'either it or until should stand, as in periods = 8 or until = "21:30"')
    if search["until"] is None:
        return search["periods"]
    periods = minutes_of("[search] until", clock.after, search["until"]) // search["minutes"]
    need(1 <= periods <= MOST_PERIODS, "[search] until", f"it should leave 1 to 32 periods, as in periods = 8, and leaves {periods}")
    return periods


def area(table):
    """The grid, and whether what leaves it is lost."""
    it = take_table(table, "[area]", keys.AREA)
    land, is_lost = it["land"] or frozenset(), it["edge"] != "stays"
    grid = geometry.Grid(it["rows"], it["columns"], it["cell_size"], land)
    squares = grid.rows * grid.columns
    told = f"rows times columns should be at most {keys.MOST_SQUARES} with land, {AS_IN}, and is {squares}"
    need(squares <= keys.MOST_SQUARES, "[area] rows", told)
    for each in sorted(land):
        last = geometry.name_of((grid.rows - 1, grid.columns - 1))
        need(grid.contains(each), "[area] land", f"it should be in the area, whose last cell is {last}, and names {geometry.name_of(each)}")
    count = squares - len(land)
    told = f"rows times columns without land should be 1 to {MOST_CELLS} cells, {AS_IN}, and is {count}"
    need(1 <= count <= MOST_CELLS, "[area] rows", told)
    return dataclasses.replace(grid, frame=placing.frame(it, grid)), is_lost


def reports(tables, clock, grid, minutes):
    """The reports; their first look is so many minutes after the begin."""
    rows = rows_of(tables, "report", MOST_REPORTS)
    need(rows, "[[report]] is lacking", 'at least one should say where the person was, as in cell = "r2c3" with time = "18:45"')
    return tuple(report(it, f"[[report]] {at}", clock, grid, minutes) for at, it in enumerate(rows, 1))


def report(table, where, clock, grid, minutes):
    """A report. Raises BadSituation where it is of another time than it may be, or not in a cell."""
    it = placing.placed(take_table(table, where, keys.REPORT), where, grid)
    named = [key for key in ("cell", "at", "track") if it[key] is not None]
    need(len(named) == 1, f"{where} cell", 'one of it, at and track should stand, as in cell = "r2c3" or at = [1750, 1250]')
    is_one = it["radius"] is None or it["probable_error"] is None
    need(is_one, f"{where} probable_error", "either it or radius should stand, as in probable_error = 300")
    since, until = report_times(it, where, clock, minutes)
    squares = [it["cell"]] if it["cell"] else [grid.square_at(place) for place in it["track"] or [it["at"]]]
    for square in squares:
        told = f"it should be in a cell of the area that isn't land, and is in {geometry.name_of(square)}"
        need(grid.is_water(square), f"{where} {named[0]}", told)
    place = grid.middle(squares[0]) if it["cell"] else (it["track"] or [it["at"]])[0]
    radius = Fraction(0) if it["at"] and not it["probable_error"] and it["radius"] is None else it["radius"]
    return Report(since, it["weight"] or Fraction(1), squares[0], place, radius, it["probable_error"], it["track"], until)


def report_times(it, where, clock, minutes):
    """When a report's time begins, and when it ends or None where it is one moment."""
    found = {key: past(where, key, clock, it[key]) for key in ("time", "until") if it[key]}
    for key, time in found.items():
        told = f"it should be at most two days before the search begins, and not after its first look at {clock.told(minutes)}"
        need(-2 * moments.DAY <= time <= minutes, f"{where} {key}", told)
    since, until = found["time"], found.get("until")
    need(until is None or since < until, f"{where} until", f'it should be after time, which is {clock.told(since)}, as in until = "19:05"')
    return since, until


def steps(tables, name, its_keys, clock, value):
    """The rows of [[name]] as steps of time, with a value of each row; None where there are none."""
    found = []
    for at, row in enumerate(rows_of(tables, name), 1):
        where = f"[[{name}]] {at}"
        it = take_table(row, where, its_keys)
        begins = it["begins"]
        need(begins or at == 1, f"{where} begins is lacking", f"only the first row may be without it, as in begins = {its_keys[0].example}")
        since = minutes_of(f"{where} begins", clock.nearest, begins) if begins else None
        is_later = at == 1 or found[-1][0] is None or since > found[-1][0]
        need(is_later, f"{where} begins", f"rows should stand in the order of time; {NEAREST}")
        found.append((since, value(it)))
    return moments.Steps(tuple(found)) if found else None


def drift(tables, clock, earliest):
    """How the person drifts, with current and wind known from the time that is the earliest asked for."""
    it = take_table(tables.get("drift", {}), "[drift]", keys.DRIFT)
    current = steps(tables, "current", keys.CURRENT, clock, lambda row: velocity(row["knots"], row["towards"]))
    wind = steps(tables, "wind", keys.WIND, clock, lambda row: velocity(row["knots"], row["from"] + 180))
    check_wind(it, wind)
    known((("current", current), ("wind", wind)), clock, earliest)
    # Of a vector a unit long: what is left of it straight ahead, and to the right.
    right, back = geometry.displacement(it["leeway"] or Fraction(0), it["divergence"] or 0)
    return Drift(
        current=current,
        wind=wind,
        downwind=-back,
        crosswind=float(right),
        spread=it["spread"] or Fraction(0),
        current_error=float(geometry.metres(it["current_error"] or 0, 1)),
        wind_error=float(geometry.metres(it["wind_error"] or 0, 1)),
        leeway_error=float(it["leeway_error"] or 0),
        rate=draws.rate(float(it["jibing"] or 0)) / 60,
    )


def check_wind(it, wind):
    """Raises BadSituation where keys of [drift] lack what they are about."""
    is_right = wind is None or it["leeway"] is not None
    need(is_right, "[drift] leeway is lacking", "with [[wind]] it should be a share of the wind's speed, from 0 to 1, as in leeway = 0.03")
    for key in ("wind_error", "leeway_error", "divergence", "jibing"):
        need(wind or not it[key], f"[drift] {key}", "it should stand with [[wind]], as in [[wind]] with knots = 12 and from = 270")
    need(it["divergence"] or not it["jibing"], "[drift] jibing", "it should stand with divergence, as in divergence = 20")


def velocity(knots, towards):
    """Metres east and south a minute, of knots towards a bearing in degrees."""
    return geometry.displacement(geometry.metres(knots, 1), towards)


def known(named, clock, earliest):
    """Those of the named steps that there are. Raises BadSituation where one of them isn't known at the earliest time asked for."""
    for name, it in named:
        if it and not it.is_known(earliest):
            asked, first = clock.told(earliest), clock.told(it.rows[0][0])
            why = f"it should be at or before {asked}, the first time that is asked for, and is {first}; {NEAREST}"
            raise BadSituation(f"[[{name}]] 1 begins: {why}")
    return tuple(it for _, it in named if it)


def searcher(table, clock, grid, minutes):
    """The searcher. Raises BadSituation where its place, its ways or its times contradict the area and the periods."""
    it = placing.placed(take_table(table, "[searcher]", keys.SEARCHER), "[searcher]", grid)
    swath = {} if it["swath"] is None else take_table(it["swath"], "[searcher.swath]", keys.SWATH)
    check_places(it, grid)
    is_within = it["search_minutes"] is None or it["search_minutes"] <= minutes
    need(is_within, "[searcher] search_minutes", "it should be at most the minutes of a period, as in search_minutes = 12")
    return Searcher(
        start=it["start"],
        base=it["base"],
        enters=it["enters"] or frozenset(),
        ahead=ahead(it, clock),
        speed=it["speed"],
        sweep_width=it["sweep_width"],
        search_minutes=ways.search_minutes(grid, it["speed"], minutes, it["reaches"], it["search_minutes"]),
        reaches=it["reaches"],
        stays=it["stays"] is not False,
        course=swath.get("course"),
        beside=swath.get("sweep_width"),
    )


def ahead(it, clock):
    """How many minutes before the begin of the search it leaves its base."""
    if it["leaves"] is None:
        return Fraction(0)
    need(it["base"], "[searcher] leaves", "it should stand where base does, and only there")
    time = past("[searcher]", "leaves", clock, it["leaves"])
    told = f"it should be at most a day before the search begins at {clock.told(0)}, and not after that"
    need(-moments.DAY <= time <= 0, "[searcher] leaves", told)
    return -time


def check_places(it, grid):
    """Raises BadSituation where the searcher's start, or its base and where it enters, aren't what they should be."""
    start, base, enters = it["start"], it["base"], it["enters"]
    is_one = (start is None) != (base is None)
    need(is_one, "[searcher] start", 'either it or base should stand, as in start = "r6c3" or base = [-2000, 1500]')
    is_both = (base is None) == (enters is None)
    need(is_both, "[searcher] enters", 'it should stand where base does, and only there, as in enters = ["r0c0..r6c0"]')
    for key, squares in (("start", [start] if start else []), ("enters", sorted(enters or []))):
        for each in squares:
            need(grid.is_water(each), f"[searcher] {key}", f"it should be in the area and not on land, and names {geometry.name_of(each)}")
    if base:
        need(1 <= len(enters) <= MOST_MOVES, "[searcher] enters", f'it should name 1 to {MOST_MOVES} cells, as in enters = ["r0c0..r6c0"]')
        is_outside = not grid.contains(grid.square_at(base))
        told = 'it should be outside of the area, as in base = [-2000, 1500]; inside it is a start, as in start = "r6c3"'
        need(is_outside, "[searcher] base", told)


def visibility(tables, clock, ends):
    """The factors of the sweep width by steps until the search ends: of what is seen, and of day and night."""
    seen = steps(tables, "visibility", keys.VISIBILITY, clock, lambda row: row["factor"])
    light = daylight(tables["light"], clock, ends) if "light" in tables else None
    return known((("visibility", seen), ("light", light)), clock, Fraction(0))


def daylight(table, clock, ends):
    """The factor of the sweep width by day, 1, and by night, between sunset and sunrise of each day until the search ends."""
    it = take_table(table, "[light]", keys.LIGHT)
    need(it["sunset"] or it["sunrise"], "[light] sunset", 'it or sunrise should stand, as in sunset = "20:45"')
    before = {"sunset": Fraction(1), "sunrise": it["night"]}
    after = {"sunset": it["night"], "sunrise": Fraction(1)}
    first = turns(it, clock)
    if len(first) == 1:
        ((key, since),) = first.items()
        check_half_day(key, since, clock, ends)
        return moments.Steps(((None, before[key]), (since, after[key])))
    differ = (first["sunset"] - first["sunrise"]) % moments.DAY
    need(differ, "[light] sunset", 'it should be another time than sunrise, as in sunset = "20:45" with sunrise = "05:10"')
    return moments.Steps(tuple(sorted((each, after[key]) for key, since in first.items() for each in moments.daily(since, ends))))


def turns(it, clock):
    """The minutes of sunset and sunrise by their keys, of the values of [light]."""
    return {key: minutes_of(f"[light] {key}", clock.nearest, it[key]) for key in ("sunset", "sunrise") if it[key]}


def check_half_day(key, since, clock, ends):
    """Raises BadSituation where the search goes on for more than half a day after a sunset or a sunrise without the other."""
    other = {"sunset": "sunrise", "sunrise": "sunset"}[key]
    example = next(it.example for it in keys.LIGHT if it.name == other)
    told = f"the search ends at {clock.told(ends)}, more than 12 hours after {key}, so both should stand, as in {other} = {example}"
    need(ends <= since + moments.DAY // 2, f"[light] {other} is lacking", told)


def track_choice(tables):
    """How tracks are simulated; with a count of 0 where a file has them."""
    it = take_table(tables.get("tracks", {}), "[tracks]", keys.TRACKS)
    if it["file"] is None:
        return TrackChoice(it["count"] or COUNT, it["seed"] or 1, it["finer"])
    other = next((key for key in ("count", "seed") if it[key]), None)
    need(other is None, f"[tracks] {other}", "it shouldn't stand with file, since the tracks of a file are taken as they are")
    for name in DRIFTING:
        told = "it shouldn't stand with [tracks] file, whose tracks say where the person was and how they drift"
        need(name not in tables, f"[{name}]" if name == "drift" else f"[[{name}]]", told)
    return TrackChoice(0, 0, it["finer"])


def recorded_at(path, given):
    """The Ensemble of the file of a path at the looks of a situation. Raises BadSituation, and packages.Lacking."""
    looks = [float(given.look_time(t)) for t in range(1, given.periods + 1)]
    return at_looks(recorded.recorded(path, given.clock, given.grid.frame), given.clock, looks)
