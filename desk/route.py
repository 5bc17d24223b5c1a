"""The path of a chart for a plotter or a globe: as GPX 1.1 (topografix.com/GPX/1/1) and as KML 2.2 (Open Geospatial Consortium, 07-147r2)."""
import itertools
import xml.etree.ElementTree as xml

from desk import brief, geojson, meridian, sentences, steering

GPX, KML = "http://www.topografix.com/GPX/1/1", "http://www.opengis.net/kml/2.2"
# Degrees are written with so many digits: one of the last is a centimetre.
DIGITS = geojson.DIGITS
# Colours of KML: alpha, blue, green, red.
LINE, OUTLINE = "ff0b45b4", "ff804020"


def put(above, name, text=None, **attributes):
    """An element below another one, which is answered."""
    element = xml.SubElement(above, name, attributes)
    element.text = text
    return element


def document(root):
    """The text of an XML document."""
    xml.indent(root)
    return f'<?xml version="1.0" encoding="UTF-8"?>\n{xml.tostring(root, encoding="unicode")}\n'


def degrees(value):
    """Degrees as they are written."""
    return f"{value + 0.0:.{DIGITS}f}"


def utc(times, period):
    """When a period begins, as XML has times; None where the date or the zone isn't known."""
    return geojson.time(times, period) if times and times.utc(period) else None


def title(chart):
    """What the path is called."""
    return f"Search plan {chart.search.name}"


def about(chart):
    """What is said of the path as a whole."""
    search = chart.search
    told = [f"Chance to find them: {search.report.percent} %.", sentences.verdict(search), *(chart.told.times.about() if chart.told.times else [])]
    return " ".join([*told, *steering.searching(chart.told, search.sc.horizon)])


def who(chart, number):
    """Which searcher goes a way, where there are two."""
    return "" if len(chart.ways) == 1 else f", {('first', 'second')[number]} searcher"


def stays(way):
    """The stops of a way, those in a row at one place together: the periods' first and last, and the stop."""
    groups = [list(its) for _, its in itertools.groupby(way, key=lambda it: (it.name, it.metres))]
    return [(its[0].period, its[-1].period, its[0]) for its in groups]


def name_of(first, last, stop, times):
    """The name of a stop: its periods, its position, when it begins. Of the start it is the position, and when the search begins."""
    begins = f" {times.at(max(first, 1))}" if times else ""
    if first == 0:
        return f"start {stop.name}{begins}"
    return f"{first}{f'-{last}' if last > first else ''} {stop.name}{begins}"


def finds(chart, first, last):
    """What the looks of some periods find, in words."""
    frames, whole = chart.search.frames, chart.search.report.weight
    found = sum(it.found for it in frames[first : last + 1])
    return f"finds {brief.share(found, whole)}, so far {brief.share(frames[last].so_far, whole)}"


def described(chart, number, first, last, stop):
    """What is said of a stop: its place, course and distance of the way there, and what its looks find."""
    told = [brief.place_of(stop)]
    if first:
        leg = steering.leg(chart.ways[number][first - 1], stop, chart.told.given)
        told += [] if leg.is_stay else [f"course {brief.course_of(leg)}, {brief.miles_of(leg)}"]
    return "; ".join([*told, *([finds(chart, first, last)] if last else [])])


def gpx(chart):
    """The GPX of a chart: a route for each searcher, in which looks in a row from one place are one point. A point's time is when the first
    of its periods begins."""
    xml.register_namespace("", GPX)
    root = xml.Element(f"{{{GPX}}}gpx", {"version": "1.1", "creator": "osp"})
    for number, way in enumerate(chart.ways):
        route = put(root, f"{{{GPX}}}rte")
        put(route, f"{{{GPX}}}name", title(chart) + who(chart, number))
        put(route, f"{{{GPX}}}desc", about(chart))
        for first, last, stop in stays(way):
            point = put(route, f"{{{GPX}}}rtept", lat=degrees(stop.on_earth.latitude), lon=degrees(stop.on_earth.longitude))
            begins = utc(chart.told.times, max(first, 1))
            if begins:
                put(point, f"{{{GPX}}}time", begins)
            put(point, f"{{{GPX}}}name", name_of(first, last, stop, chart.told.times))
            put(point, f"{{{GPX}}}desc", described(chart, number, first, last, stop))
    return document(root)


def coordinates(points):
    """Points of longitude and latitude as KML has them."""
    return " ".join(f"{degrees(longitude)},{degrees(latitude)}" for longitude, latitude in points)


def lines(above, points):
    """A line, in parts where it crosses the antimeridian."""
    parts = meridian.line(points)
    holder = above if len(parts) == 1 else put(above, "MultiGeometry")
    for part in parts:
        drawn = put(holder, "LineString")
        put(drawn, "tessellate", "1")
        put(drawn, "coordinates", coordinates(part))


def polygons(above, ring):
    """A polygon, in parts where it crosses the antimeridian."""
    parts = meridian.polygon(ring)
    holder = above if len(parts) == 1 else put(above, "MultiGeometry")
    for part in parts:
        inner = put(put(put(holder, "Polygon"), "outerBoundaryIs"), "LinearRing")
        put(inner, "coordinates", coordinates(part))


def span(above, times, first, last):
    """The time from the begin of a period to the end of another, where it is known in UTC."""
    if utc(times, first):
        element = put(above, "TimeSpan")
        put(element, "begin", utc(times, first))
        put(element, "end", utc(times, last + 1))


def kml_stop(above, chart, number, first, last, stop):
    """A mark at a stop, and the outline of its square where that has a place."""
    mark = put(above, "Placemark")
    put(mark, "name", name_of(first, last, stop, chart.told.times))
    put(mark, "description", described(chart, number, first, last, stop))
    if first:
        span(mark, chart.told.times, first, last)
    put(mark, "styleUrl", "#square")
    both = put(mark, "MultiGeometry")
    put(put(both, "Point"), "coordinates", coordinates([geojson.point(stop.on_earth)]))
    ring = geojson.ring_of(chart, stop.name)
    if ring and first:
        polygons(both, ring)


def kml(chart):
    """The KML of a chart: for each searcher a line, and for each place where it stays for periods a mark with the outline of the square."""
    root = xml.Element("kml", {"xmlns": KML})
    inside = put(root, "Document")
    put(inside, "name", title(chart))
    put(inside, "description", about(chart))
    style = put(inside, "Style", id="path")
    put(put(style, "LineStyle"), "color", LINE)
    style = put(inside, "Style", id="square")
    put(put(style, "LineStyle"), "color", OUTLINE)
    put(put(style, "PolyStyle"), "fill", "0")
    for number, way in enumerate(chart.ways):
        folder = put(inside, "Folder")
        put(folder, "name", f"Path{who(chart, number)}")
        mark = put(folder, "Placemark")
        put(mark, "name", f"Path{who(chart, number)}")
        put(mark, "styleUrl", "#path")
        lines(mark, [geojson.point(it.on_earth) for it in way])
        for each in stays(way):
            kml_stop(folder, chart, number, *each)
    return document(root)
