"""Lines and polygons on the earth, cut at the antimeridian as RFC 7946 (section 3.1.9) wants them.

Points are pairs of longitude and latitude in degrees, and lines between them straight in these, as that standard has them.
"""
import itertools
import math

# Parts that are less wide than this, in degrees, are none: a tenth of a millimetre.
NOTHING = 1e-9
POLE = 90.0


def nearest(longitude, other):
    """A longitude with whole turns added to it, so that it is within half a turn of another one."""
    return longitude + 360 * round((other - longitude) / 360)


def unwrapped(points):
    """The same points with whole turns added to longitudes, so that each is within half a turn of the one before it."""
    found = []
    for longitude, latitude in points:
        found.append((nearest(longitude, found[-1][0]) if found else longitude, latitude))
    return found


def windows(points):
    """The numbers of turns k for which some of the points are between -180 and 180 degrees and k turns."""
    eastings = [it[0] for it in points]
    return range(round((min(eastings) + NOTHING) / 360), round((max(eastings) - NOTHING) / 360) + 1)


def crossing(one, other, at):
    """Where the line between two points crosses a longitude."""
    share = (at - one[0]) / (other[0] - one[0])
    return at, one[1] + share * (other[1] - one[1])


def cut(one, other):
    """The pieces of the line between two points that are less than half a turn apart, none of which crosses the antimeridian."""
    turn = round(one[0] / 360)
    edge = 360 * turn + math.copysign(180, other[0] - one[0])
    if (other[0] - edge) * (one[0] - edge) >= 0:
        return [[one, other]]
    middle = crossing(one, other, edge)
    return [[one, middle], [middle, other]]


def line(points):
    """The parts of a line, in its order, none of which crosses the antimeridian. One that goes nowhere has its two ends."""
    parts = []
    for piece in itertools.chain(*(cut(*ends) for ends in itertools.pairwise(unwrapped(points)))):
        turn = round((piece[0][0] + piece[1][0]) / 720)
        moved = [(longitude - 360 * turn, latitude) for longitude, latitude in piece]
        if moved[0] == moved[1]:
            continue
        if parts and parts[-1][-1] == moved[0]:
            parts[-1].append(moved[1])
        else:
            parts.append(moved)
    return parts or [list(points[:2])]


def clipped(ring, at, is_east):
    """What of a ring (its first point isn't repeated) lies east of a longitude, or west of it (Sutherland and Hodgman 1974)."""

    def is_in(point):
        return point[0] >= at if is_east else point[0] <= at

    found = []
    for before, point in zip(ring[-1:] + ring, ring):
        if is_in(before) != is_in(point):
            found.append(crossing(before, point, at))
        if is_in(point):
            found.append(point)
    return found


def around_pole(ring):
    """A ring that goes around a pole, with the way along that pole that closes it in degrees; any other ring as it is."""
    whole = unwrapped([*ring, ring[0]])
    turned = whole[-1][0] - whole[0][0]
    if abs(turned) < 180:
        return whole[:-1]
    pole = POLE if sum(it[1] for it in ring) > 0 else -POLE
    return [*whole, (whole[-1][0], pole), (whole[0][0], pole)]


def area_of(ring):
    """Twice the area of a ring in square degrees, positive where it goes counterclockwise."""
    return sum(a * y - x * b for (a, b), (x, y) in zip(ring, ring[1:] + ring[:1]))


def polygon(ring):
    """The closed rings, counterclockwise, of the polygons that a ring makes where it is cut at the antimeridian. Its first point isn't
    repeated; it may go around a pole."""
    whole, parts = around_pole(ring), []
    for turn in windows(whole):
        part = clipped(clipped(whole, 360 * turn - 180, True), 360 * turn + 180, False)
        if part and max(it[0] for it in part) - min(it[0] for it in part) > NOTHING:
            moved = [(longitude - 360 * turn, latitude) for longitude, latitude in part]
            moved = moved if area_of(moved) > 0 else moved[::-1]
            parts.append([*moved, moved[0]])
    return parts
