"""Places on the earth: latitude and longitude beside the metres of an area, and how both are read and written.

Latitudes and longitudes are degrees on the ellipsoid of WGS 84, north and east positive. An area is laid out by the azimuthal
equidistant projection about a place of reference (Snyder, Map Projections: A Working Manual, U.S. Geological Survey, 1987, section
25): a place so many metres east and south of the reference lies at the end of the geodesic that begins there with this bearing and
has this length. Geodesics are those of geographiclib (Karney, Algorithms for geodesics, Journal of Geodesy 87, 2013), which are
right to some nanometres.

What the projection is off by. From the place of reference all ways and bearings are exact. At a distance d from it, lengths along
the way to it are exact, and lengths across are longer in the area than on the earth by a factor of 1 + d*d / (6*R*R), with R = 6371
km: 0.004 percent at 100 km, 1 percent at 1,560 km. Up in the area is true north at the place of reference; d metres east or west of
it up is off by the convergence of the meridians, some d/R * tan(latitude) radians: 0.5 degrees at 36 km and 57 degrees north. `Frame.up`
says it exactly.
"""
import dataclasses
import math
import re
import typing
from fractions import Fraction

from desk import packages

# A latitude or a longitude as people write it: 57.725, 57 43.5 or 57-43-30, with or without the signs of the units. Its groups are
# whole degrees and their part, whole minutes and their part, seconds.
ANGLE = r"""(\d{1,3})(?:(\.\d{1,12})°?|°?|(?:° ?|[ -])(\d{1,2})(?:(\.\d{1,12})'?|'?|(?:' ?|[ -])(\d{1,2}(?:\.\d{1,12})?)"?))"""
BEHIND = re.compile(f"{ANGLE} ?([NS]),? ?{ANGLE} ?([EW])", re.ASCII)
BEFORE = re.compile(f"([NS]) ?{ANGLE},? ?([EW]) ?{ANGLE}", re.ASCII)
PLAIN = re.compile(r"(-?\d{1,3}(?:\.\d{1,12})?)°? ?, ?(-?\d{1,3}(?:\.\d{1,12})?)°?", re.ASCII)
# What is taken for the signs of degrees, minutes and seconds.
SIGNS = str.maketrans({"º": "°", "˚": "°", "’": "'", "′": "'", "´": "'", "”": '"', "″": '"', "–": "-"})
# Minutes of a degree are written in thousandths: one is 1.86 metres at most.
THOUSANDTHS = 60_000
# What geographiclib is needed for, when it lacks.
NEEDS = "places on the earth need the package"


# A comment of a scenario that says where a place of its area is: its latitude, its longitude, its metres east and south.
NUMBER = r"[ \t]+(-?[0-9]{1,9}(?:\.[0-9]{1,12})?)"
LINE = re.compile(f"#[ \t]*earth{NUMBER}{NUMBER}(?:{NUMBER}{NUMBER})?".encode("ascii"))


# The sentence that leads to it.
HEAD = b"Latitude and longitude (WGS 84) of a place, and its metres east and south of the north-west corner:"


class Place(typing.NamedTuple):
    """A place on the earth, in degrees."""

    latitude: Fraction
    longitude: Fraction


def degrees(groups):
    """The degrees of the groups of an ANGLE, exactly. Raises ValueError where minutes or seconds are 60 or more."""
    whole, part, minutes, of_minute, seconds = (Fraction(it or 0) for it in groups)
    if minutes >= 60 or seconds >= 60:
        raise ValueError("no minutes or seconds of a degree")
    return whole + part + (minutes + of_minute) / 60 + seconds / 3600


def is_place(latitude, longitude):
    """Whether two numbers can be a latitude and a longitude: from -90 to 90, and from -180 to 180."""
    return -90 <= latitude <= 90 and -180 <= longitude <= 180


def checked(latitude, longitude):
    """The Place of a latitude and a longitude. Raises ValueError where they can't be such."""
    if not is_place(latitude, longitude):
        raise ValueError("no latitude and longitude")
    return Place(latitude, longitude)


def spelled(text):
    """The Place of a text such as 57°43.5'N 10°35.0'E, 57-43-30N 010-35-00E or 57.725, 10.583, exactly. Raises ValueError at another
    text."""
    plain = " ".join(text.translate(SIGNS).replace("''", '"').upper().split())
    if found := PLAIN.fullmatch(plain):
        return checked(*map(Fraction, found.groups()))
    if found := BEHIND.fullmatch(plain):
        sides, angles = found.group(6, 12), (found.groups()[:5], found.groups()[6:11])
    elif found := BEFORE.fullmatch(plain):
        sides, angles = found.group(1, 7), (found.groups()[1:6], found.groups()[7:])
    else:
        raise ValueError("no place on the earth")
    return checked(*(degrees(it) * (-1 if side in "SW" else 1) for side, it in zip(sides, angles)))


def angle(value, digits, sides):
    """An angle in degrees as whole degrees of so many digits and minutes, behind them its side: N and S, or E and W."""
    thousandths = round(abs(value) * THOUSANDTHS)
    whole, rest = divmod(thousandths, THOUSANDTHS)
    return f"{whole:0{digits}}°{rest // 1000:02}.{rest % 1000:03}'{sides[value < 0 < thousandths]}"


def told(latitude, longitude):
    """A place as it is told over a radio: 57°43.500'N 010°35.000'E."""
    return f"{angle(latitude, 2, 'NS')} {angle(longitude, 3, 'EW')}"


def geodesics():
    """The geodesics of WGS 84. Raises packages.Lacking where geographiclib isn't there."""
    return packages.module("geographiclib.geodesic", "python3-geographiclib", NEEDS).Geodesic.WGS84


@dataclasses.dataclass(frozen=True)
class Frame:
    """Where an area lies on the earth: the latitude and the longitude in degrees of the place of reference, which is so many metres
    `east` and `south` of the area's north-west corner. Its methods raise packages.Lacking where geographiclib isn't there."""

    latitude: float
    longitude: float
    east: float = 0.0
    south: float = 0.0

    def to_earth(self, east, south):
        """The latitude and the longitude (from -180 to 180) in degrees of a place in metres east and south of the corner."""
        x, y = float(east) - self.east, float(south) - self.south
        found = geodesics().Direct(self.latitude, self.longitude, math.degrees(math.atan2(x, -y)), math.hypot(x, y))
        return found["lat2"], found["lon2"]

    def to_area(self, latitude, longitude):
        """The metres east and south of the corner of a place in degrees. Longitudes that differ by whole turns are the same."""
        found = geodesics().Inverse(self.latitude, self.longitude, float(latitude), float(longitude))
        bearing = math.radians(found["azi1"])
        return self.east + found["s12"] * math.sin(bearing), self.south - found["s12"] * math.cos(bearing)

    def up(self, east, south):
        """The true bearing in degrees, from -180 to 180, of the area's up at a place in metres: 0 at the place of reference."""
        x, y = float(east) - self.east, float(south) - self.south
        bearing = math.degrees(math.atan2(x, -y))
        found = geodesics().Direct(self.latitude, self.longitude, bearing, math.hypot(x, y))
        return (found["azi2"] - bearing + 180) % 360 - 180


def way(one, other):
    """The true bearing in degrees (from 0 to below 360) at which the shortest way from a place to another begins, and its metres.

    Places are pairs of latitude and longitude. Raises packages.Lacking.
    """
    found = geodesics().Inverse(*map(float, one), *map(float, other))
    return found["azi1"] % 360, found["s12"]


def short(value, digits):
    """A number with up to so many digits behind the point."""
    return f"{round(value, digits) + 0.0:.{digits}f}".rstrip("0").rstrip(".")


def line(frame):
    """The comment of a scenario, without its number sign, that says where its area lies on the earth: degrees to a tenth of a
    millimetre, metres to a millimetre."""
    return " ".join(["earth", *(short(it, 9) for it in (frame.latitude, frame.longitude)), *(short(it, 3) for it in (frame.east, frame.south))])


def comments(frame):
    """The comments of a scenario, without their number signs, that say where its area lies; none where nothing says it."""
    if frame is not None:
        yield HEAD
        yield line(frame).encode("ascii")


def frame_of(text):
    """The Frame that the comments of a scenario's text, as bytes, say; None where there is none. The last such line counts."""
    found = [it for it in (LINE.fullmatch(line.strip(b" \t\r")) for line in text.split(b"\n")) if it]
    places = [Frame(*(float(each or 0) for each in it.groups())) for it in found]
    return next((it for it in reversed(places) if is_place(it.latitude, it.longitude)), None)
