"""Reads files of tracks of another drift model: CSV with the columns id, time and x, y or lat, lon, and netCDF as OpenDrift writes it.
docs/PLANNING.md has what they hold."""
import array
import csv
import dataclasses
import datetime
import errno
import functools
import hashlib
import io
import math
import mmap
import os
import re
import warnings
from fractions import Fraction

from desk import accepted, fields, moments, packages, placing, reading
from desk.ensemble import Course, wrong
from desk.keys import shown

# The most tracks of a file, the most places of all of them, with those that are lacking, and the most times of a netCDF file.
MOST_TRACKS, MOST_PLACES, MOST_TIMES = 200_000, 10_000_000, 100_000
# The columns of a CSV file: those of places in metres or in degrees, and the least and the greatest number of each.
NEEDED = ("id", "time")
METRES, DEGREES = ("x", "y"), ("lon", "lat")
LIMITS = {"x": (-1e7, 1e7), "y": (-1e7, 1e7), "lon": (-720.0, 720.0), "lat": (-90.0, 90.0)}
COLUMNS = "its first line should name the columns id, time and x, y in metres of the area, or id, time, lat, lon"
VARIABLES = "it should have the dimensions trajectory and time, the variables lon and lat over both, and time, as OpenDrift writes them"
TIME = re.compile(r"\d{4}-\d\d-\d\d[T ]\d\d:\d\d(?::\d\d(?:[.,]\d{1,9})?)?(?:Z|[+-]\d\d(?::?\d\d)?)?", re.ASCII)
WRITTEN = "time should be in ISO 8601, as in 2026-07-04T19:30:00"
# What stands for no number.
NO_NUMBERS = ("", "nan", "--")
# The longest line of a CSV file, in characters; with what a netCDF file begins.
LONGEST_LINE = 65_536
BEGINS_NETCDF = b"\x89HDF\r\n\x1a\n", b"CDF"
# Of how many tracks a netCDF file is read at once.
AT_ONCE = 1000
# The kinds of numbers, and the attributes by which the values of a variable are read, each with how many numbers it may have.
NUMERIC = ("f", "i", "u")
READ_BY = {"add_offset": [1], "scale_factor": [1], "valid_min": [1], "valid_max": [1], "valid_range": [2], "missing_value": range(1, 100)}
# How many nodes of a lattice are in a degree, and from which latitude on there is none.
IN_DEGREE, POLAR = 100, 89.9


@dataclasses.dataclass(frozen=True)
class Recorded:
    """What the file of a name has: the courses of its tracks, but for those without any place, and how many these are; its first and its last time in
    minutes after the begin of the search; what makes metres of two coordinates; and the file's checksum."""

    name: str
    courses: list
    empty: int
    begins: float
    ends: float
    metres: object
    digest: str


def recorded(path, clock, frame=None):
    """What the file of a path has, in minutes of a clock; degrees become metres by an earth.Frame. Raises BadSituation, and
    packages.Lacking."""
    name = "standard input" if path == "-" else accepted.shown(os.path.basename(path))
    try:
        with reading.seekable(path) as file:
            begins = file.tell()
            digest = hashlib.file_digest(file, "sha256").hexdigest()
            file.seek(begins)
            if is_netcdf(path, file):
                return of_netcdf(name, file, clock, frame, digest)
            with io.TextIOWrapper(io.BufferedReader(file), encoding="utf-8-sig", newline="") as text:
                return Table(name, csv.reader(lines(name, text)), clock, frame).recorded(digest)
    except OSError as why:
        raise wrong(name, f"it can't be read: {reading.why(why)}") from None
    except reading.TooLong:
        raise wrong(name, f"what is no file has at most {reading.MOST_KEPT:,} bytes, and this one has more") from None
    except (UnicodeDecodeError, csv.Error):
        raise wrong(name, "it isn't a CSV file in UTF-8") from None


def is_netcdf(path, file):
    """Whether an open file, at its begin, is taken for one of netCDF: by its name, or as a pipe by what it begins with."""
    if path.endswith((".nc", ".csv")):
        return path.endswith(".nc")
    begins, told = file.tell(), file.read(len(BEGINS_NETCDF[0]))
    file.seek(begins)
    return told.startswith(BEGINS_NETCDF)


def lines(name, text):
    """The lines of an open text, with their line feeds. Raises BadSituation where one is long."""
    at = 1
    while line := text.readline(LONGEST_LINE + 1):
        if len(line) > LONGEST_LINE:
            raise wrong(name, f"line {at:,} is longer than {LONGEST_LINE:,} characters")
        yield line
        at += 1


# ---- places and times


class Lattice:
    """Metres of an area for many places in degrees: those of an earth.Frame at the nodes of a lattice of a hundredth of a degree, and
    linear along both axes between them. What is second in the coordinates is left out: within 100 km of the frame's place it is off by 2
    centimetres at most (tested). The metres are rounded, so that the last digits of a library are in no draft."""

    def __init__(self, frame):
        self.frame = frame
        self.node = functools.cache(lambda row, column: frame.to_area(row / IN_DEGREE, column / IN_DEGREE))

    def metres(self, longitude, latitude):
        """The metres east and south of a place."""
        return tuple(round(it * placing.PART) / placing.PART for it in self.exactly(longitude, latitude))

    def exactly(self, longitude, latitude):
        """The same, not rounded."""
        if abs(latitude) > POLAR:
            return self.frame.to_area(latitude, longitude)
        row, column = math.floor(latitude * IN_DEGREE), math.floor(longitude * IN_DEGREE)
        north, east = latitude * IN_DEGREE - row, longitude * IN_DEGREE - column
        nodes = (self.node(row, column), self.node(row, column + 1), self.node(row + 1, column), self.node(row + 1, column + 1))
        shares = ((1 - north) * (1 - east), (1 - north) * east, north * (1 - east), north * east)
        return tuple(math.fsum(share * it[axis] for share, it in zip(shares, nodes)) for axis in (0, 1))


def in_metres(name, frame, pair):
    """What makes metres of the two coordinates of a file's places. Raises BadSituation where these are degrees and there is no frame."""
    if pair == METRES:
        return lambda x, y: (x, y)
    if frame is None:
        why = "its places are latitudes and longitudes, and the area has none; give it one, as in [area] north_west = [57.725, 10.58]"
        raise wrong(name, why)
    return Lattice(frame).metres


def unwrapped(longitudes):
    """The longitudes of a track, each by whole turns as near to the one before it as can be."""
    found = []
    for it in longitudes:
        found.append(it - 360 * round((it - found[-1]) / 360) if found else it)
    return found


def course(pair, minutes, easts, souths, status=""):
    """The course of a track with these coordinates."""
    return Course(minutes, unwrapped(easts) if pair == DEGREES else easts, souths, status)


def minute_of(name, clock, moment):
    """The minutes from the begin of the search to a moment (datetime.datetime, in UTC or local). Raises BadSituation where the begin lacks a
    date or is local, and the moment isn't."""
    is_utc = moment.tzinfo is not None
    if not 1900 <= moment.year < 2200:
        raise wrong(name, f"time should be of a year from 1900 to 2199, and is of {moment.year}")
    if is_utc:
        moment = moment.astimezone(datetime.timezone.utc).replace(tzinfo=None)
    of_day = moment - datetime.datetime.combine(moment.date(), datetime.time())
    minute = Fraction(of_day // datetime.timedelta(microseconds=1), 60_000_000)
    try:
        return float(clock.dated(moments.Moment(minute, moment.date(), is_utc)))
    except moments.Unclear as why:
        raise wrong(name, f"time: {why}") from None


def many(name, tracks, places):
    """Raises BadSituation where there are too many tracks or places."""
    if tracks > MOST_TRACKS or places > MOST_PLACES:
        raise wrong(name, f"it has too many tracks or places: {MOST_TRACKS:,} tracks and {MOST_PLACES:,} places are the most")


# ---- CSV


class Table:
    """The rows of a CSV file of a name, in minutes of a clock."""

    def __init__(self, name, rows, clock, frame):
        self.name, self.rows, self.clock, self.frame = name, rows, clock, frame
        self.tracks, self.times, self.count = {}, {}, 0
        names = [it.strip().lower() for it in next(rows, [])]
        pairs = [pair for pair in (METRES, DEGREES) if all(names.count(it) == 1 for it in (*NEEDED, *pair))]
        if len(pairs) != 1:
            raise wrong(name, COLUMNS)
        self.pair = pairs[0]
        self.at = [names.index(it) for it in (*NEEDED, *self.pair)]

    def recorded(self, digest):
        """What the rows have."""
        metres = in_metres(self.name, self.frame, self.pair)
        for row in self.rows:
            if row:
                self.take(row)
        if not self.times:
            raise wrong(self.name, "it has no track")
        courses = [self.course(name, *it) for name, it in self.tracks.items() if it]
        times = self.times.values()
        return Recorded(self.name, courses, len(self.tracks) - len(courses), min(times), max(times), metres, digest)

    def fault(self, why):
        return wrong(self.name, f"line {self.rows.line_num}: {why}")

    def take(self, row):
        """Takes a row: its place goes to its track, unless it has none."""
        if len(row) <= max(self.at):
            raise self.fault(f"it has {len(row)} columns, and the first line has more")
        name, time, *pair = (row[it].strip() for it in self.at)
        minute = self.minute(time)
        track = self.tracks.setdefault(name, ())
        self.count += 1
        many(self.name, len(self.tracks), self.count)
        if any(it.lower() in NO_NUMBERS for it in pair):
            return
        if not track:
            track = self.tracks[name] = tuple(array.array("d") for _ in range(3))
        for to, value in zip(track, (minute, *map(self.number, self.pair, pair))):
            to.append(value)

    def minute(self, text):
        """The minutes of a time."""
        if text not in self.times:
            try:
                moment = datetime.datetime.fromisoformat(text) if TIME.fullmatch(text) else None
            except ValueError:
                moment = None
            if moment is None:
                raise self.fault(f"{WRITTEN}, and is {shown(text)}")
            self.times[text] = minute_of(self.name, self.clock, moment)
        return self.times[text]

    def number(self, column, text):
        """The number of a column."""
        try:
            value = float(text)
        except ValueError:
            value = math.nan
        least, most = LIMITS[column]
        if not least <= value <= most:
            raise self.fault(f"{column} should be a number from {least:.0f} to {most:.0f}, and is {shown(text)}")
        return value

    def course(self, name, minutes, easts, souths):
        """The course of a track, in the order of its times."""
        order = sorted(range(len(minutes)), key=minutes.__getitem__)
        times = [minutes[it] for it in order]
        twice = next((one for one, other in zip(times, times[1:]) if one == other), None)
        if twice is not None:
            raise wrong(self.name, f"track {shown(name)} has two places at {self.clock.told(twice)}")
        return course(self.pair, times, [easts[it] for it in order], [souths[it] for it in order])


# ---- netCDF


def of_netcdf(name, file, clock, frame, digest):
    """What an open netCDF file of a name and a checksum has. Raises BadSituation and packages.Lacking."""
    netcdf = packages.module("netCDF4", "python3-netcdf4", "a netCDF file of tracks needs the package")
    try:
        with warnings.catch_warnings(), dataset(netcdf, file) as data:
            # (The package warns of attributes that it doesn't use.)
            warnings.simplefilter("ignore")
            if other := fields.told(data):
                raise wrong(name, f"{other}; of tracks {VARIABLES}")
            metres = in_metres(name, frame, DEGREES)
            told = Variables(name, data, minutes_of(name, netcdf, data, clock))
            courses, empty = told.courses()
    except (OSError, RuntimeError) as why:
        if "malloc" in str(why) or getattr(why, "errno", None) == errno.ENOMEM:
            raise MemoryError from None
        # (So it says that a file is none, or that it is cut.)
        raise wrong(name, "it isn't a whole netCDF file") from None
    return Recorded(name, courses, empty, told.minutes[0], told.minutes[-1], metres, digest)


def dataset(netcdf, file):
    """The open netCDF file as the package has it. One without a name, a pipe's, it takes from memory alone. Raises OSError."""
    if os.fstat(file.fileno()).st_nlink:
        return netcdf.Dataset(f"/proc/self/fd/{file.fileno()}")
    return netcdf.Dataset("pipe", memory=mmap.mmap(file.fileno(), 0, access=mmap.ACCESS_READ))


def minutes_of(name, netcdf, data, clock):
    """The times of a netCDF file in minutes of a clock. By the conventions for such files (CF) they are UTC."""
    time = data.variables.get("time")
    if time is None or time.dimensions != ("time",) or not time.size or not is_numeric(time):
        raise wrong(name, VARIABLES)
    if time.size > MOST_TIMES:
        raise wrong(name, f"it has {time.size:,} times, and {MOST_TIMES:,} are the most")
    check_attributes(name, time)
    try:
        calendar = getattr(time, "calendar", "standard")
        found = netcdf.num2date(time[:].tolist(), time.units, calendar, only_use_cftime_datetimes=False, only_use_python_datetimes=True)
    except (AttributeError, TypeError, ValueError, OverflowError):
        raise wrong(name, "time should be in units such as seconds since 1970-01-01 00:00:00, without a gap") from None
    minutes = [minute_of(name, clock, it.replace(tzinfo=datetime.timezone.utc)) for it in found]
    if any(one >= other for one, other in zip(minutes, minutes[1:])):
        raise wrong(name, "time should ascend")
    return minutes


class Variables:
    """The variables of a netCDF file, at times in minutes."""

    def __init__(self, name, data, minutes):
        self.name, self.minutes = name, minutes
        self.places = [self.over_both(data, it) for it in DEGREES]
        self.status = None if "status" not in data.variables else self.over_both(data, "status")
        self.count = data.dimensions["trajectory"].size
        many(name, self.count, self.count * len(minutes))
        self.meanings = meanings(self.status)

    def over_both(self, data, name):
        """The variable of a name, which is over trajectories and times."""
        found = data.variables.get(name)
        if found is None or sorted(found.dimensions) != ["time", "trajectory"] or not is_numeric(found):
            raise wrong(self.name, VARIABLES if name in DEGREES else f"{name} should be numbers over trajectory and time, as lon and lat are")
        check_attributes(self.name, found)
        return found

    def rows(self, variable, begin):
        """The values of some tracks from a number on, by track and time; None where one is masked."""
        ends = begin + AT_ONCE
        try:
            found = variable[begin:ends] if variable.dimensions[0] == "trajectory" else variable[:, begin:ends].T
        except (ArithmeticError, AttributeError, LookupError, TypeError, ValueError):
            raise wrong(self.name, f"{variable.name} has attributes by which it can't be read") from None
        return found.tolist()

    def courses(self):
        """The courses of all tracks that have a place, and how many have none."""
        found, empty = [], 0
        for begin in range(0, self.count, AT_ONCE):
            lons, lats = (self.rows(it, begin) for it in self.places)
            states = self.rows(self.status, begin) if self.status is not None else [[None] * len(self.minutes)] * len(lons)
            for track, rows in enumerate(zip(lons, lats, states), begin):
                kept = [it for it in zip(self.minutes, *rows) if is_number(it[1]) and is_number(it[2])]
                self.check(track, kept)
                empty += not kept
                if kept:
                    minutes, easts, norths, states_of = map(list, zip(*kept))
                    found.append(course(DEGREES, minutes, easts, norths, self.meanings.get(states_of[-1], "")))
        return found, empty

    def check(self, track, kept):
        """Raises BadSituation where a place of a track isn't one on the earth."""
        for at, name in enumerate(DEGREES, 1):
            least, most = LIMITS[name]
            other = next((it[at] for it in kept if not least <= it[at] <= most), None)
            if other is not None:
                why = f"{name} should be a number from {least:.0f} to {most:.0f}, and is {shown(other)}"
                raise wrong(self.name, f"trajectory {track} (the first is 0): {why}")


def is_numeric(variable):
    """Whether the values of a variable are plain numbers, and neither texts nor lists of numbers."""
    return getattr(variable.datatype, "kind", None) in NUMERIC


def check_attributes(name, variable):
    """Raises BadSituation where an attribute by which the values of a variable are read isn't as many numbers as it should be."""
    for its, counts in READ_BY.items():
        value = getattr(variable, its, None)
        is_number_of = getattr(getattr(value, "dtype", None), "kind", None) in NUMERIC and value.size in counts
        if value is not None and not is_number_of:
            told = {1: "one number", 2: "two numbers"}.get(counts[-1], "numbers")
            raise wrong(name, f"{its} of {variable.name} should be {told}, and is {shown(str(value))}")


def is_number(value):
    """Whether a value of a variable is there: neither masked nor not a number."""
    return value is not None and value == value


def meanings(status):
    """What the numbers of the variable status mean, by its flag_values and flag_meanings; nothing where these don't fit each other."""
    words = str(getattr(status, "flag_meanings", "")).split()
    values = getattr(status, "flag_values", range(len(words)))
    values = values.tolist() if hasattr(values, "tolist") else values
    values = list(values) if isinstance(values, (list, range)) else [values]
    return dict(zip(values, words)) if len(values) == len(words) else {}
