"""Where on the earth the points of a map are: what a page has to know so that it can say it, and so that its arrow points to true north."""
from desk import earth, geojson, layout, meridian

# How far a map goes beyond the middles of its squares, and how high the strip below them is, in sides of a square.
AROUND, STRIP = 0.64, 0.5
# Degrees of nodes are written with so many digits, and there are so many at most along a side of the map, by whose number no place between
# them is off by more than half a metre. Metres have so many digits.
DIGITS, MOST_NODES, OF_METRES = 7, 32, 3


def points(search, laid):
    """The places of all squares, and of all positions of the path that are drawn, in metres east and south."""
    sources = (it for frame in search.frames for it in search.seats.sources[frame.position] if it is not None)
    return [it for it in [*laid.squares, *(laid.positions[it] for it in sources)] if it]


def box_of(search, laid):
    """The box of a map in metres: its corner in the north-west, its width, and its height, the strip below the squares included."""
    low, high = ([of(it) for it in zip(*points(search, laid))] for of in (min, max))
    around = AROUND * laid.side
    wide, long = (last - first + 2 * around for first, last in zip(low, high))
    return [*(it - around for it in low), wide, long + STRIP * laid.side]


def up(box, frame):
    """The true bearing of up in the middle of what is drawn of squares, in degrees."""
    x, y, wide, high = box
    return frame.up(x + wide / 2, y + high / 2)


def corners(box):
    """The corners of a box."""
    x, y, wide, high = box
    return [(x, y), (x + wide, y), (x, y + high), (x + wide, y + high)]


def nodes(box, frame):
    """Where the nodes of a mesh over a box lie on the earth, row by row: into how many parts each side is cut, and pairs of a longitude, which
    goes on beyond half a turn, and a latitude."""
    latitude = max((frame.to_earth(*it)[0] for it in corners(box)), key=abs)
    count = min(geojson.pieces(max(box[2:]), latitude), MOST_NODES)
    found = []
    for at in range((count + 1) ** 2):
        row, column = divmod(at, count + 1)
        north, east = frame.to_earth(box[0] + box[2] * column / count, box[1] + box[3] * row / count)
        found.append((meridian.nearest(east, frame.longitude), north))
    return count, found


def mesh(search, frame):
    """What a page has to know of where on the earth its map is, by a desk.earth.Frame, which may be None: the box and the nodes of a mesh
    over the map, the corner of the area as it is told, and the true bearing of up. None where no map in metres is drawn."""
    try:
        laid = frame and layout.layout(search.seats.of, search.told_by)
    except layout.NoPlaces:
        laid = None
    if not laid or not laid.metres:
        return None
    box = box_of(search, laid)
    count, found = nodes(box, frame)
    return {
        "box": [round(it, OF_METRES) for it in box],
        "count": count,
        "latitudes": [round(it[1], DIGITS) for it in found],
        "longitudes": [round(it[0], DIGITS) for it in found],
        "corner": earth.told(*frame.to_earth(0, 0)),
        "up": round(up([*box[:3], box[3] - STRIP * laid.side], frame), OF_METRES),
    }
