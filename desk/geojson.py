"""A chart as GeoJSON (RFC 7946): the path, its stops, and for each square and period how likely the target is there."""
import json
import math

from desk import meridian, percent, steering
from desk.states import LOST

# Degrees are written with so many digits: one of the last is a centimetre.
DIGITS = 7
# How many metres a side of a square, which is straight in the area, may be off from the lines that are straight in degrees. From how many
# lengths of a side to the pole on a parallel bends as far from it. How many metres a degree of latitude has at least.
OFF, FAR, IN_DEGREE = 0.5, 10, 110_500
# Into how many lines a side is cut at most by the formula alone.
MOST_PIECES = 64
# Where it is measured how far a line is off, as parts of it; from how many halvings on it isn't cut any more.
MEASURED, MOST_HALVED = (0.25, 0.5, 0.75), 24


def point(place):
    """An earth.Place as longitude and latitude."""
    return place.longitude, place.latitude


def pieces(side, latitude):
    """Into how many lines a side in metres is cut, so that none is off by more than OFF, where the pole is far. Between two ends so far
    apart a parallel is off from the straight way by side² * tan(latitude) / (8 * R); a part of it, by the square of that part."""
    bend = side * side * math.tan(math.radians(min(abs(latitude), 89.9))) / (8 * 6_356_000)
    return min(max(1, math.ceil(math.sqrt(bend / OFF))), MOST_PIECES)


def is_short(side, latitude):
    """Whether a side in metres, up to a latitude, is clearly off by less than OFF. Where the pole is far, a parallel is off from the
    straight way between two ends so far apart by side² * tan(latitude) / (8 * R), and what is straight in the area by less than
    side² / (8 * R)."""
    is_far = (90 - abs(latitude)) * IN_DEGREE > FAR * side
    return is_far and side * side * (1 + math.tan(math.radians(abs(latitude)))) / (8 * 6_356_000) < OFF / 10


def off(frame, one, other):
    """By how many metres the line between two ends that is straight in degrees is off from the one that is straight in the area. An end is
    a place in metres with its longitude and latitude."""
    (place, (a, b)), (to, (x, y)) = one, other
    turn = (x - a + 180) % 360 - 180
    return max(apart(frame.to_area(b + (y - b) * it, a + turn * it), place, to) for it in MEASURED)


def apart(place, begin, end):
    """How far a place is from the straight way between two places, in metres."""
    (a, b), (x, y) = begin, end
    long = (x - a) ** 2 + (y - b) ** 2
    share = min(max(((place[0] - a) * (x - a) + (place[1] - b) * (y - b)) / long, 0), 1) if long else 0
    return math.dist(place, (a + share * (x - a), b + share * (y - b)))


def cut(frame, one, other, halved=0):
    """The points of longitude and latitude from an end up to another, without that, so many that no line between them is off by more
    than OFF: halves are halved where theirs is. (No line is off by more than its length: so it ends at a pole, too.)"""
    if halved == MOST_HALVED or off(frame, one, other) <= OFF:
        return [one[1]]
    place = tuple((a + x) / 2 for a, x in zip(one[0], other[0]))
    middle = place, frame.to_earth(*place)[::-1]
    return cut(frame, one, middle, halved + 1) + cut(frame, middle, other, halved + 1)


def ring_around(frame, middle, side):
    """The ring of a square around a middle in metres: points of longitude and latitude, counterclockwise from its south-west corner."""
    ends = [(it, frame.to_earth(*it)[::-1]) for it in corners(middle, side)]
    if is_short(side, max((it[1][1] for it in ends), key=abs)):
        return [it[1] for it in ends]
    return [it for one, other in zip(ends, ends[1:] + ends[:1]) for it in cut(frame, one, other)]


def corners(middle, side):
    """The corners of a square in metres east and south, counterclockwise from the south-west one."""
    x, y = middle
    return [(x + east * side / 2, y + south * side / 2) for east, south in ((-1, 1), (1, 1), (1, -1), (-1, -1))]


def ring_of(chart, name):
    """The ring of the square of a name; None where it has no place, as what is lost."""
    names = chart.search.squares.texts
    if chart.layout is None or name not in names or name == LOST.decode("ascii"):
        return None
    middle = chart.layout.squares[names.index(name)]
    return middle and ring_around(chart.told.frame, middle, chart.layout.side)


def rounded(points):
    """Points as they are written."""
    return [[round(it, DIGITS) + 0.0 for it in each] for each in points]


def feature(geometry, **properties):
    """A feature; without a geometry it is one that lies nowhere."""
    return {"type": "Feature", "geometry": geometry, "properties": properties}


def one_or_many(name, parts):
    """The geometry of one part, or of several."""
    return {"type": name, "coordinates": parts[0]} if len(parts) == 1 else {"type": f"Multi{name}", "coordinates": parts}


def time(times, period):
    """When a period begins, as text: in UTC as ISO 8601 has it, where the date is known, and else as it is told."""
    found = times.utc(period)
    return found.strftime("%Y-%m-%dT%H:%M:%SZ") if found else times.clock.told(times.since(period))


def path(chart, number, way):
    """The feature of a searcher's path."""
    parts = [rounded(it) for it in meridian.line([point(it.on_earth) for it in way])]
    told = {"name": chart.search.name, "percent": float(chart.search.report.percent)}
    return feature(one_or_many("LineString", parts), kind="path", searcher=number, **told)


def stop(chart, number, before, it):
    """The feature of a stop: when its period begins, course and metres of the way there, and what its look finds in percent."""
    times, frame, whole = chart.told.times, chart.search.frames[it.period], chart.search.report.weight
    told = {"searcher": number, "period": it.period, "name": it.name}
    if times:
        told["begins"] = time(times, max(it.period, 1))
    if before:
        leg = steering.leg(before, it, chart.told.given)
        told |= {} if leg.is_stay else {"course": round(leg.course, 1), "metres": round(leg.around or leg.metres)}
        told |= {"finds": float(percent.cut(frame.found, whole)), "so_far": float(percent.cut(frame.so_far, whole))}
    (place,) = rounded([point(it.on_earth)])
    return feature({"type": "Point", "coordinates": place}, kind="stop", **told)


def squares(chart):
    """The features of each square behind the look of each period (0: before the first), which counts at the period's end: its mass out of
    the whole, and that in percent of all and of what no look found."""
    search, own = chart.search, chart.search.squares
    names = [own.texts[it] for it in own.filled()]
    rings = {name: ring_of(chart, name) for name in names}
    drawn = {name: ring and one_or_many("Polygon", [[rounded(it)] for it in meridian.polygon(ring)]) for name, ring in rings.items()}
    whole, times = search.report.weight, chart.told.times
    for frame in search.frames:
        at = {"time": time(times, frame.period + 1)} if times else {}
        for name, mass in zip(names, own.sums(frame.left)):
            told = at | {"mass": str(mass), "of": str(whole), "percent": float(percent.cut(mass, whole))}
            told["percent_if_missed"] = float(percent.cut(mass, frame.missed)) if frame.missed else None
            yield feature(drawn[name], kind="square", name=name, period=frame.period, **told)


def geojson(chart):
    """The GeoJSON of a chart, a feature a line."""
    features = []
    for number, way in enumerate(chart.ways, 1):
        features.append(path(chart, number, way))
        features += [stop(chart, number, before, it) for before, it in zip([None, *way], way)]
    features += squares(chart) if chart.layout else []
    lines = ",\n".join(json.dumps(it, separators=(",", ":")) for it in features)
    return f'{{"type":"FeatureCollection","features":[\n{lines}\n]}}\n'
