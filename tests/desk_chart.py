"""Tests `osp chart`: its texts by other readers of GPX, XML and JSON, its places by PROJ 9.1.1 (+proj=aeqd +ellps=WGS84), and lines and polygons
at the antimeridian by hand."""
import json
import math
import os
import re
import shutil
import subprocess
import unittest
import xml.etree.ElementTree as xml
from fractions import Fraction

from desk import chart, earth, geojson, meridian, packages
from tests.made import GRID, forced, paired, with_plan
from tests.packaged import needing, on_earth, without
from tests.pages import Room

# The grid of tests/made.py in squares of 500 m, whose second column lies on the antimeridian; its plan goes r0c1, r0c2, r1c2 from r0c0.
SQUARES = "".join(f"# at r{row}c{column} {column * 500 + 250} {row * 500 + 250}\n" for row in range(3) for column in range(4))
CORNER = "# earth -17 179.995\n"
TIMES = "# 3 periods of 20 minutes from 2026-12-31 23:30Z to 2027-01-01 00:30Z; a look counts at the end of its period, the first at 23:50Z\n"
# By PROJ the middles of its squares, latitude and longitude, row by row; and the corners of r0c1, longitude and latitude.
MIDDLES = (
    (-17.0022590, 179.9973478), (-17.0022589, -179.9979567), (-17.0022586, -179.9932612), (-17.0022583, -179.9885657),
    (-17.0067769, 179.9973478), (-17.0067768, -179.9979566), (-17.0067766, -179.9932609), (-17.0067763, -179.9885653),
    (-17.0112949, 179.9973479), (-17.0112948, -179.9979564), (-17.0112946, -179.9932606), (-17.0112942, -179.9885649),
)  # fmt: skip
CORNERS = (179.9996955, -16.9999999), (-179.9956091, -16.9999998), (-179.9956089, -17.0045177), (179.9996956, -17.0045179)
LOOKS = "2026-12-31T23:30:00Z", "2026-12-31T23:50:00Z", "2027-01-01T00:10:00Z", "2027-01-01T00:30:00Z"
PATH = "r0c0", "r0c1", "r0c2", "r1c2"


def middle(name):
    """The middle of a square by PROJ: latitude and longitude."""
    row, column = (int(it) for it in re.findall(r"\d", name))
    return MIDDLES[row * 4 + column]


def apart(one, other):
    """About how many metres are between two pairs of latitude and longitude that are near to each other, on a sphere."""
    turned = (one[1] - other[1] + 180) % 360 - 180
    return 6_371_000 * math.radians(math.hypot(one[0] - other[0], turned * math.cos(math.radians(one[0]))))


class Charts(Room):
    def charted(self, form, before=CORNER + SQUARES + TIMES, scenario=None, words=(), status=0, name="s & <1>"):
        """The text of a chart of a scenario with its plan behind comments, and what is said."""
        given, target = self.write(name, before.encode() + (scenario or with_plan(GRID))), os.path.join(self.room, f"a chart.{form}")
        ended, out, err = self.run_helper(chart.main, [given, "-o", target, *words])
        self.assertEqual((ended, out), (status, ""), err)
        if status:
            self.assertFalse(os.path.exists(target))
            return "", err
        with open(target, encoding="utf-8") as file:
            return file.read(), err


@on_earth
class Gpx(Charts):
    @needing("gpxpy", "python3-gpxpy")
    def test_another_reader_finds_the_route(self):
        gpxpy = packages.module("gpxpy", "python3-gpxpy", "this case needs")
        (route,) = gpxpy.parse(self.charted("gpx")[0]).routes
        self.assertEqual(route.name, "Search plan s & <1>")
        self.assertEqual([it.name for it in route.points], ["start r0c0 23:30", "1 r0c1 23:30", "2 r0c2 23:50", "3 r1c2 00:10+1"])
        times = ["2026-12-31 23:30", "2026-12-31 23:30", "2026-12-31 23:50", "2027-01-01 00:10"]
        self.assertEqual([f"{it.time:%Y-%m-%d %H:%M}" for it in route.points], times)
        self.assertTrue(all(it.time.utcoffset().total_seconds() == 0 for it in route.points))
        for name, it in zip(PATH, route.points):
            self.assertLess(apart((it.latitude, it.longitude), middle(name)), 0.1, name)
        self.assertIn("course 090°, 0.27 NM; finds 0.000 %", route.points[1].description)
        self.assertIn("Chance to find them: 26.040 %. Accepted: no path is better. Times are UTC, from 2026-12-31 on.", route.description)

    @needing("gpxpy", "python3-gpxpy")
    def test_local_times_two_searchers_and_a_flown_prefix(self):
        """A point has a time in UTC alone; looks in a row from one place are one point."""
        gpxpy = packages.module("gpxpy", "python3-gpxpy", "this case needs")
        of = self.write("grid", (CORNER + SQUARES).encode() + GRID)
        words = "--of", of, "--from", "9:00", "--minutes", "20"
        routes = gpxpy.parse(self.charted("gpx", "", paired(GRID, "r2c3"), words)[0]).routes
        self.assertEqual([it.name for it in routes], ["Search plan s & <1>, first searcher", "Search plan s & <1>, second searcher"])
        self.assertEqual([it.name for it in routes[1].points], ["start r2c3 09:00", "1 r1c3 09:00", "2 r1c2 09:20", "3 r1c3 09:40"])
        self.assertEqual({it.time for route in routes for it in route.points}, {None})
        (route,) = gpxpy.parse(self.charted("gpx", "", forced(GRID, "r0c0 r0c0"), words)[0]).routes
        self.assertEqual([it.name.split()[:2] for it in route.points][:1], [["start", "r0c0"]])
        self.assertEqual(sum("r0c0" in it.name for it in route.points), 1, "the stay at the start is one point")


@on_earth
class Kml(Charts):
    def test_other_readers_find_line_and_marks(self):
        text = self.charted("kml")[0]
        root, own = xml.fromstring(text), "{http://www.opengis.net/kml/2.2}"
        self.assertEqual(root[0].find(f"{own}name").text, "Search plan s & <1>")
        marks = root[0].findall(f"{own}Folder/{own}Placemark")
        self.assertEqual([it.find(f"{own}name").text for it in marks], ["Path", "start r0c0 23:30", "1 r0c1 23:30", "2 r0c2 23:50", "3 r1c2 00:10+1"])
        lines = [it.text for it in marks[0].iter(f"{own}coordinates")]
        points = [tuple(map(float, it.split(","))) for line in lines for it in line.split()]
        self.assertEqual([abs(it[0]) for it in points[1:3]], [180, 180], "the line is cut at the antimeridian")
        for name, (longitude, latitude) in zip(PATH, (points[0], *points[3:])):
            self.assertLess(apart((latitude, longitude), middle(name)), 0.1, name)
        spans = [[it.text for it in mark.find(f"{own}TimeSpan")] for mark in marks[2:]]
        self.assertEqual(spans[2], ["2027-01-01T00:10:00Z", "2027-01-01T00:30:00Z"])
        for name, mark in zip(PATH, marks[1:]):
            (longitude, latitude) = map(float, mark.find(f"{own}MultiGeometry/{own}Point/{own}coordinates").text.split(","))
            self.assertLess(apart((latitude, longitude), middle(name)), 0.1, name)

    @unittest.skipUnless(shutil.which("xmllint"), "this case needs the package libxml2-utils")
    def test_xmllint_takes_both(self):
        for form, path, count in (("gpx", "//*[local-name()='rtept']", 4), ("kml", "//*[local-name()='Placemark']", 5)):
            name = self.write(f"a.{form}", self.charted(form)[0].encode())
            done = subprocess.run(["xmllint", "--xpath", f"count({path})", name], capture_output=True, text=True)
            self.assertEqual((done.returncode, done.stdout.strip(), done.stderr), (0, str(count), ""))


@on_earth
class GeoJson(Charts):
    def features(self, *given):
        told = json.loads(self.charted("geojson", *given)[0])
        self.assertEqual((told["type"], {it["type"] for it in told["features"]}), ("FeatureCollection", {"Feature"}))
        return [(it["properties"], it["geometry"]) for it in told["features"]]

    def test_path_and_stops(self):
        found = self.features()
        (path,) = [geometry for its, geometry in found if its["kind"] == "path"]
        self.assertEqual((path["type"], [len(it) for it in path["coordinates"]]), ("MultiLineString", [2, 4]))
        (one, edge), (other, *rest) = path["coordinates"]
        self.assertEqual((edge[0], other[0], edge[1]), (180, -180, other[1]))
        for name, (longitude, latitude) in zip(PATH, (one, *rest)):
            self.assertLess(apart((latitude, longitude), middle(name)), 0.1, name)
        stops = [its for its, _ in found if its["kind"] == "stop"]
        self.assertEqual([it["name"] for it in stops], list(PATH))
        self.assertEqual((stops[3]["begins"], stops[3]["course"], stops[3]["metres"]), ("2027-01-01T00:10:00Z", 180.0, 500))
        self.assertEqual([it.get("so_far") for it in stops], [None, 0.0, 14.0, 26.04])

    def test_the_masses_of_each_square_and_period(self):
        """What is left and what was found so far sum to the whole; the first is in r1c2 alone, and no look finds anything in period 1."""
        squares = [(its, geometry) for its, geometry in self.features() if its["kind"] == "square"]
        self.assertEqual(len(squares), 12 * 4)
        whole = {it["of"] for it, _ in squares}
        self.assertEqual(whole, {"100000"})
        for period, found in enumerate((0, 0, 14_000, 26_040)):
            its = [it for it, _ in squares if it["period"] == period]
            self.assertEqual((len(its), sum(int(it["mass"]) for it in its) + found), (12, 100_000), period)
            self.assertEqual({it["time"] for it in its}, {LOOKS[period]})
            for it in its:
                for key, of in (("percent", 100_000), ("percent_if_missed", 100_000 - found)):
                    self.assertEqual(Fraction(str(it[key])), Fraction(int(it["mass"]) * 100_000 // of, 1000), it)
        self.assertEqual([it["name"] for it, _ in squares if it["period"] == 0 and it["mass"] != "0"], ["r1c2"])

    def test_squares_by_proj_and_cut_at_the_antimeridian(self):
        squares = {its["name"]: geometry for its, geometry in self.features() if its["kind"] == "square" and its["period"] == 0}
        kinds = {name: geometry["type"] for name, geometry in squares.items()}
        self.assertEqual({name for name, kind in kinds.items() if kind == "MultiPolygon"}, {"r0c1", "r1c1", "r2c1"})
        parts = squares["r0c1"]["coordinates"]
        self.assertEqual(len(parts), 2)
        corners = [tuple(it) for (ring,) in parts for it in ring if abs(it[0]) < 180]
        for longitude, latitude in CORNERS:
            self.assertTrue(any(apart((latitude, longitude), (it[1], it[0])) < 0.1 for it in corners), (longitude, latitude))
        for geometry in squares.values():
            for (ring,) in geometry["coordinates"] if geometry["type"] == "MultiPolygon" else [geometry["coordinates"]]:
                self.assertEqual(ring[0], ring[-1])
                self.assertTrue(all(-180 <= it[0] <= 180 for it in ring) and max(it[0] for it in ring) - min(it[0] for it in ring) < 0.01)
                self.assertGreater(sum(a * y - x * b for (a, b), (x, y) in zip(ring, ring[1:])), 0, "counterclockwise")

    def test_what_is_lost_lies_nowhere_and_squares_without_places_are_left_out(self):
        lost = GRID.replace(b"grid 3 4", b"cell r0c0\ncell r0c1\ncell lost").replace(b"start r0c0", b"start r0c0")
        lost = lost.replace(b"first r1c2 1", b"first r0c1 1\nmoves r0c0 r0c0 r0c1\nmoves r0c1 r0c0 r0c1\nmoves lost lost")
        lost = lost.replace(b"spread 2", b"drift r0c0 r0c0 10\ndrift r0c1 lost 3 r0c1 7\ndrift lost lost 10")
        squares = [it for it in self.features(CORNER + SQUARES + "# at lost 2000 1250\n", with_plan(lost)) if it[0]["kind"] == "square"]
        self.assertEqual({its["name"] for its, geometry in squares if geometry is None}, {"lost"})
        self.assertEqual({its["mass"] for its, _ in squares if its["name"] == "lost" and its["period"] == 0}, {"0"})
        placed = SQUARES.replace("# at r2c3 1750 1250\n", "")
        text, said = self.charted("geojson", CORNER + placed)
        self.assertNotIn('"square"', text)
        self.assertIn("osp chart: squares are left out: comments # at NAME EAST SOUTH don't place each of them", said)

    def test_sides_of_large_squares_are_off_by_less_than_a_metre(self):
        """Places along each line between two points of a ring, straight in degrees, lie on a side of the square by geographiclib, near
        poles and over them, too; and the ring has the square's area to a thousandth."""
        far = ((57.725, 10.58), 500), ((57.725, 10.58), 20_000), ((80, 179.9), 50_000), ((-45, 0), 100_000), ((0, 0), 1500)
        near = ((89.9, 30), 5000), ((-89.99, 0), 1000), ((90, 0), 20_000), ((-90, 77), 500), ((89.995, -170), 100), ((89.2, 10), 60_000)
        for reference, side in (*far, *near):
            frame = earth.Frame(*reference)
            for middle in ((1.5 * side, 0.5 * side), (0.5 * side, -0.5 * side), (0, 0)):
                ring = meridian.unwrapped(geojson.ring_around(frame, middle, side))
                worst = max(self.apart(frame, one, other, middle, side) for one, other in zip(ring, ring[1:] + ring[:1]))
                with self.subTest(reference=reference, side=side, middle=middle, points=len(ring)):
                    self.assertLess(worst, 1)
                    self.assertLess(len(ring), 2500)

    @staticmethod
    def apart(frame, one, other, middle, side):
        """How far the line between two points leaves the sides of a square, in metres, at five places of it. The place of reference is the
        origin, and the other way there is found by the geodesic that geographiclib gives."""
        (a, b), (x, y) = one, other
        turn = (x - a + 180) % 360 - 180
        found = []
        for it in range(1, 6):
            line = earth.geodesics().Inverse(frame.latitude, frame.longitude, b + (y - b) * it / 6, a + turn * it / 6)
            bearing = math.radians(line["azi1"])
            east, south = line["s12"] * math.sin(bearing) - middle[0], -line["s12"] * math.cos(bearing) - middle[1]
            # From the border of a square around the origin: outside of it, or inside.
            outside = math.hypot(max(abs(east) - side / 2, 0), max(abs(south) - side / 2, 0))
            found.append(outside or side / 2 - max(abs(east), abs(south)))
        return max(found)


@on_earth
class Refusals(Charts):
    def test_what_is_refused(self):
        rows = (
            ("gpx", SQUARES, (), 1, "the scenario doesn't say where it lies on the earth: a comment # earth LAT LON gives its north-west"),
            ("gpx", CORNER, (), 1, "nothing says where the position r0c0 lies: a comment # at r0c0 EAST SOUTH does"),
            ("txt", CORNER + SQUARES, (), 2, "the name behind -o ends in one of .gpx, .kml, .geojson\nusage: osp chart SCENARIO"),
            ("gpx", CORNER + SQUARES, ("--form", "shp"), 2, "behind --form stands one of gpx, kml, geojson"),
            ("gpx", CORNER + SQUARES, ("a", "b"), 2, "a scenario's file and a plan's are needed, or one file with both"),
            ("gpx", CORNER + SQUARES, ("--from", "9:00"), 2, "--from and --minutes stand together"),
            ("gpx", CORNER + SQUARES + TIMES, ("--from", "9:00", "--minutes", "20"), 2, "from 2026-12-31 23:30Z: leave both out, or change"),
        )
        for form, before, words, status, said in rows:
            with self.subTest(said):
                self.assertIn(said, self.charted(form, before, None, words, status)[1])

    def test_a_plan_that_isnt_accepted_leaves_the_file_as_it_was(self):
        target = self.write("a chart.gpx", b"before")
        given = self.write("s", (CORNER + SQUARES).encode() + with_plan(GRID).replace(b"chance 26040", b"chance 26041"))
        status, out, err = self.run_helper(chart.main, [given, "-o", target])
        self.assertEqual((status, out), (1, ""))
        self.assertIn("the plan isn't accepted: rejected", err)
        with open(target, "rb") as file:
            self.assertEqual(file.read(), b"before")

    def test_without_geographiclib(self):
        with without("geographiclib.geodesic"):
            said = self.charted("gpx", status=70)[1]
        self.assertIn("osp chart: latitudes and longitudes are left out: places on the earth need the package python3-geographiclib", said)

    def test_a_form_by_name_to_standard_output(self):
        given = self.write("s", (CORNER + SQUARES).encode() + with_plan(GRID))
        for words in (["--form", "geojson"], ["--form", "geojson", "-o", "-"]):
            status, out, err = self.run_helper(chart.main, [given, *words])
            self.assertEqual((status, err, json.loads(out)["type"]), (0, "", "FeatureCollection"))


class Cuts(unittest.TestCase):
    def test_lines(self):
        rows = (
            ([(10, 1), (20, 2)], [[(10, 1), (20, 2)]]),
            ([(179, 0), (-179, 2)], [[(179, 0), (180, 1)], [(-180, 1), (-179, 2)]]),
            ([(-179, 2), (179, 0), (-179, 2)], [[(-179, 2), (-180, 1)], [(180, 1), (179, 0), (180, 1)], [(-180, 1), (-179, 2)]]),
            ([(179, 0), (180, 0), (-179, 0)], [[(179, 0), (180, 0)], [(-180, 0), (-179, 0)]]),
            ([(-180, 5), (-179, 5)], [[(-180, 5), (-179, 5)]]),
            ([(180, 5), (-179, 5)], [[(-180, 5), (-179, 5)]]),
            ([(7, 5), (7, 5), (7, 5)], [[(7, 5), (7, 5)]]),
        )
        for points, wanted in rows:
            with self.subTest(points):
                self.assertEqual(meridian.line(points), wanted)

    def test_polygons(self):
        """Each ring is closed and counterclockwise; areas are those of the parts by hand."""
        rows = (
            ([(10, 0), (12, 0), (12, 1), (10, 1)], [2]),
            ([(10, 1), (12, 1), (12, 0), (10, 0)], [2]),
            ([(179, 0), (-178, 0), (-178, 1), (179, 1)], [1, 2]),
            ([(-178, 0), (179, 0), (179, 1), (-178, 1)], [2, 1]),
            ([(178, 0), (180, 0), (180, 1), (178, 1)], [2]),
            ([(-180, 0), (-178, 0), (-178, 1), (-180, 1)], [2]),
            ([(180, 0), (-178, 0), (-178, 1), (180, 1)], [2]),
            # Around a pole, at 80 degrees: the whole breadth down from it.
            ([(0, 80), (90, 80), (180, 80), (-90, 80)], [180 * 10, 180 * 10]),
            ([(-135, -80), (135, -80), (45, -80), (-45, -80)], None),
        )
        for ring, wanted in rows:
            found = meridian.polygon(ring)
            with self.subTest(ring):
                areas = [sum(a * y - x * b for (a, b), (x, y) in zip(it, it[1:])) / 2 for it in found]
                self.assertTrue(all(it[0] == it[-1] for it in found) and min(areas) > 0)
                self.assertTrue(all(-180 <= x <= 180 and -90 <= y <= 90 for it in found for x, y in it))
                self.assertAlmostEqual(sum(areas), 360 * 10 if wanted is None else sum(wanted))
                if wanted is not None:
                    self.assertEqual(sorted(round(it, 9) for it in areas), sorted(wanted))
