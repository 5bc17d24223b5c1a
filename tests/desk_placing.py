"""Tests situations with places on the earth: how they are read, laid out, and told. Places come from PROJ 9.1.1 (+proj=aeqd)."""
import contextlib
import io
import math
import os
import tempfile
import unittest

from tests.packaged import on_earth, without

from desk import draft, earth, forms, keys, placing, situation

# From this corner, 12,345 m east and 6,789 m south lie at 57.663873145 N 10.786832904 E.
STRAIT = """
[search]
begins = "2026-07-04 12:00Z"
minutes = 15
periods = 2
[area]
north_west = [57.725, 10.58]
cell_size = 1000
rows = 8
columns = 15
[[report]]
at = [57.663873145, 10.786832904]
radius = 400
time = "11:45"
[searcher]
base = [57.722301896, 10.546437292]
enters = ["r0c0..r7c0"]
speed = 1000
sweep_width = 231.5
search_minutes = 7.5
[tracks]
count = 1000
finer = 1
"""
SIZE = "cell_size = 1000\nrows = 8\ncolumns = 15"
METRES = STRAIT.replace("[57.663873145, 10.786832904]", "[12345, 6789]").replace("[57.722301896, 10.546437292]", "[-2000, 300]")


def read(text):
    return situation.situation(text.encode())


def near(place, wanted, delta=0.001):
    return math.dist(map(float, place), wanted) < delta


@on_earth
class Situations(unittest.TestCase):
    def test_places_in_degrees_are_those_in_metres(self):
        texts = (
            STRAIT,
            STRAIT.replace("[57.663873145, 10.786832904]", '"57.663873145N 10.786832904E"'),
            STRAIT.replace("[57.663873145, 10.786832904]", "\"57°39'49.943322\\\"N 10°47'12.598454\\\"E\""),
            STRAIT.replace("north_west = [57.725, 10.58]", "north_west = \"57°43.5'N 10°34.8'E\""),
            METRES,
        )
        for text in texts:
            found = read(text)
            with self.subTest(text.splitlines()[6], at=text.splitlines()[11]):
                self.assertTrue(near(found.reports[0].place, (12345, 6789)), found.reports[0].place)
                self.assertTrue(near(found.searcher.base, (-2000, 300)), found.searcher.base)
                self.assertEqual([it.denominator for it in (*found.reports[0].place, *found.searcher.base)], [1] * 4, "whole millimetres")
        self.assertEqual(read(STRAIT).reports, read(METRES).reports)

    def test_a_trackline_may_mix_both(self):
        line = 'track = ["57.663873145N 10.786832904E", [500, 500], [57.722, 10.60]]'
        found = read(STRAIT.replace("at = [57.663873145, 10.786832904]", line)).reports[0].track
        self.assertTrue(near(found[0], (12345, 6789)), found[0])
        self.assertEqual(found[1], (500, 500))
        self.assertEqual(earth.told(*read(STRAIT).grid.frame.to_earth(*found[2])), "57°43.320'N 010°36.000'E")

    def test_the_centre_of_an_area(self):
        found = read(METRES.replace("north_west = [57.725, 10.58]", "centre = [57.725, 10.58]"))
        self.assertTrue(near(found.grid.frame.to_earth(7500, 4000), (57.725, 10.58), 1e-9))
        self.assertTrue(near(found.grid.frame.to_earth(7500 + 12345, 4000 + 6789), (57.663873145, 10.786832904), 1e-8))

    def test_over_the_antimeridian_and_at_80_degrees_north(self):
        """Each place of the table lies in metres from its corner as PROJ says."""
        rows = (
            ("[80, 179.9]", "[79.938598059, -179.467277972]", (12345, 6789)),
            ("[80, 179.9]", '"79.938598059N 179.467277972W"', (12345, 6789)),
            ("[-33.5, -179.999]", "[-33.502253981, -179.996309517]", (250, 250)),
            ("[-80, 0]", "[-80.001, 0.1]", None),
        )
        for corner, at, wanted in rows:
            found = read(METRES.replace("[57.725, 10.58]", corner).replace("at = [12345, 6789]", f"at = {at}"))
            with self.subTest(corner, at=at):
                self.assertTrue(wanted is None or near(found.reports[0].place, wanted), found.reports[0].place)

    def test_what_is_refused(self):
        corner, at = "north_west = [57.725, 10.58]", "at = [57.663873145, 10.786832904]"
        in_metres = METRES.replace(corner, "")
        rows = (
            (STRAIT, corner, f"{corner}\ncentre = [57, 10]", "[area] centre: either it or north_west should stand"),
            (STRAIT, corner, "north_west = [91, 10]", "[area] north_west: it should be a latitude and a longitude"),
            (STRAIT, corner, 'north_west = "57 43.5 10 35"', "[area] north_west: it should be a latitude and a longitude"),
            (STRAIT, corner, "north_west = [true, 10]", "[area] north_west: it should be"),
            (STRAIT, corner, "north_west = 57.725", "[area] north_west: it should be"),
            (STRAIT, at, "at = [57.8, 10.7]", "[[report]] 1 at: it should be in a cell of the area that isn't land, and is in r-"),
            (STRAIT, at, 'at = "57.7N 10.6"', "[[report]] 1 at: it should be a pair of metres"),
            (STRAIT, at, "at = [10.58, 57.725]", "[[report]] 1 at: it should be within 1,000 km of the area's north-west corner, which is at 57°4"),
            (STRAIT, at, 'track = ["57.7N 10.6E", "57-42N 10-36E"]', "[[report]] 1 track: it should be a list of 2 to 50 such places"),
            (STRAIT, at, 'track = ["57.7N 10.6E", "57.700000001N 10.6E"]', "[[report]] 1 track: each place should be another than the one"),
            (in_metres, "at = [12345, 6789]", 'at = "57.7N 10.6E"', "[[report]] 1 at: it is a place on the earth, so [area] north_west should"),
            (in_metres, "base = [-2000, 300]", 'base = "57.7N 10.6E"', "[searcher] base: it is a place on the earth"),
            (STRAIT, SIZE, "cell_size = 100000\nrows = 14\ncolumns = 14", None),
            (STRAIT, SIZE, "cell_size = 100000\nrows = 2\ncolumns = 60", "[area] north_west: the area reaches 6,003 km from it, and 5,000 are"),
        )
        for text, old, new, why in rows:
            self.assertIn(old, text)
            with self.subTest(new=new):
                try:
                    read(text.replace(old, new))
                except keys.BadSituation as wrong:
                    self.assertTrue(why and why in str(wrong), wrong)
                else:
                    self.assertIsNone(why)


@on_earth
class Told(unittest.TestCase):
    def notes(self, corner, side, rows, columns, key="north_west"):
        text = METRES.replace("north_west = [57.725, 10.58]", f"{key} = {corner}")
        text = text.replace(SIZE, f"cell_size = {side}\nrows = {rows}\ncolumns = {columns}")
        grid = read(text.replace("at = [12345, 6789]", 'cell = "r0c0"').replace("[-2000, 300]", f"[{-side}, 300]").replace("r0c0..r7c0", "r0c0")).grid
        return list(placing.notes(grid))

    def test_what_is_said_of_an_area(self):
        told = self.notes("[57.725, 10.58]", 1000, 8, 15)
        self.assertEqual(len(told), 1)
        self.assertRegex(told[0], "^the area on the earth: north-west corner 57°43.500'N 010°34.800'E, north-east corner 57°43.")
        self.assertEqual(list(placing.notes(read(METRES.replace("north_west = [57.725, 10.58]", "")).grid)), [])

    def test_uneven_squares_are_told(self):
        """By the law of the projection: at d from the corner a side across is shorter by 1 - sin(d/R) / (d/R), which is 1 percent at
        1,565 km. A side of 100 km in the corner of the area lies at up to its diagonal."""
        for columns, is_told in ((10, False), (15, False), (17, True), (30, True)):
            uneven = [it for it in self.notes("[0, 0]", 100_000, 1, columns) if "more than 1 percent apart" in it]
            with self.subTest(columns=columns):
                self.assertEqual(len(uneven), is_told)
                for it in uneven:
                    away = columns * 100_000 / 6_371_000
                    least, most = (int(each.replace(",", "")) for each in it.split(" are ")[1].split(" m long")[0].split(" to "))
                    self.assertAlmostEqual(least, 100_000 * math.sin(away) / away, delta=350)
                    self.assertAlmostEqual(most, 100_000, delta=350)

    def test_north_that_isnt_up_is_told(self):
        """By hand: 50 km east of the corner at 80 degrees the meridians turn by 50 / 6,394 * tan(80) = 2.54 degrees; 25 km from the centre
        by half of it; at the equator they don't."""
        rows = (
            ("[80, 179.9]", "north_west", ["002.5 degrees"]),
            ("[80, 179.9]", "centre", ["001.3 degrees", "358.7 degrees"]),
            ("[0, 179.9]", "north_west", []),
            ("[-80, 0]", "north_west", ["357.5 degrees"]),
        )
        for corner, key, wanted in rows:
            turned = [it for it in self.notes(corner, 5000, 1, 10, key) if "true north" in it]
            with self.subTest(corner, key=key):
                self.assertEqual(len(turned), len(wanted[:1]))
                self.assertTrue(not wanted or any(it in turned[0] for it in wanted), turned)


@on_earth
class Drafts(unittest.TestCase):
    def test_the_scenario_carries_the_place(self):
        text, lines = draft.drafted(STRAIT.encode())
        self.assertIn(b"\n# earth 57.725 10.58 0 0\n", text)
        self.assertTrue(any("north-west corner 57°43.500'N 010°34.800'E" in it for it in lines))
        found, wanted = earth.frame_of(text), read(STRAIT).grid.frame
        self.assertEqual(found, wanted)
        plain = draft.drafted(METRES.replace("north_west = [57.725, 10.58]\n", "").encode())[0]
        self.assertEqual(forms.read_scenario(text, True)[0].key(), forms.read_scenario(plain, True)[0].key())
        self.assertNotIn(b"earth", plain)

    def test_the_comment_reads_back_to_the_millimetre(self):
        thirds = earth.Frame(10 + 1 / 3, -179 - 1 / 7, 1234.5678, 2 / 3)
        for frame in (thirds, earth.Frame(-0.0, 180.0), earth.Frame(-89.999999999, 1e-12, 0, 12345678.9)):
            found = earth.frame_of(b"# x\n# " + earth.line(frame).encode() + b"\nscenario 1\n")
            off = [abs(one - other) for one, other in zip(vars(found).values(), vars(frame).values())]
            self.assertTrue(max(off[:2]) <= 5.1e-10 and max(off[2:]) <= 5.1e-4, found)
        others = b"# earth 1 2 3", b"earth 1 2 3 4", b"# earth 1 2 3 4 5", b"# on earth 1 2"
        for text in (b"", b"# earth", b"# earth 91 0", b"# earth 1 181 0 0", *others):
            self.assertIsNone(earth.frame_of(text), text)
        self.assertEqual(earth.frame_of(b"# earth 1 2\n#earth\t3 4 5 -6 \r\n"), earth.Frame(3, 4, 5, -6))

    def test_without_geographiclib_a_line_says_what_to_install(self):
        with tempfile.TemporaryDirectory() as room, without("geographiclib.geodesic"):
            name, out, err = os.path.join(room, "s.toml"), io.TextIOWrapper(io.BytesIO()), io.StringIO()
            with open(name, "w", encoding="utf-8") as file:
                file.write(STRAIT)
            with contextlib.redirect_stdout(out), contextlib.redirect_stderr(err):
                status = draft.main([name])
            self.assertEqual((status, out.buffer.getvalue()), (70, b""))
            told = r"\Aosp draft: places on the earth need the package python3-geographiclib, [^\n]*apt install python3-geographiclib\n\Z"
            self.assertRegex(err.getvalue(), told)
