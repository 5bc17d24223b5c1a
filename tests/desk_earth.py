"""Tests `desk.earth`: places by a second projection, geodesics by hand, and how places are read and written."""
import glob
import math
import os
import subprocess
import sys
import tempfile
import unittest
from fractions import Fraction
from unittest import mock

from tests.packaged import on_earth, without

from desk import earth, packages

TOP = os.path.dirname(os.path.dirname(os.path.realpath(__file__)))

# By PROJ 9.1.1 (+proj=aeqd +ellps=WGS84): the place of reference, metres east and south of it, latitude and longitude.
PLACES = (
    ((57.725, 10.58), (0, 0), (57.725, 10.58)),
    ((57.725, 10.58), (12345, 6789), (57.663873145, 10.786832904)),
    ((57.725, 10.58), (-2000, 300), (57.722301896, 10.546437292)),
    ((57.725, 10.58), (150000, -90000), (58.507394743, 13.153704734)),
    ((80, 179.9), (12345, 6789), (79.938598059, -179.467277972)),
    ((80, 179.9), (50000, 0), (79.990083225, -177.523500294)),
    ((80, 179.9), (-60000, -120000), (81.058665962, 176.441615624)),
    ((-33.5, -179.999), (-5000, 2000), (-33.518020374, 179.947180589)),
    ((-33.5, -179.999), (250, 250), (-33.502253981, -179.996309517)),
    ((0, 0), (1000, 1000), (-0.009043695, 0.008983153)),
    ((-80, 0), (70000, -30000), (-79.712404250, 3.511732581)),
)
# Nine digits of a degree are 0.06 millimetres at most.
NEAR = 2e-9


@on_earth
class Frames(unittest.TestCase):
    def test_places_by_a_second_projection_from_each_corner(self):
        for (latitude, longitude), (x, y), (north, east) in PLACES:
            for corner in ((0, 0), (4000, 3500)):
                frame = earth.Frame(latitude, longitude, *corner)
                place = x + corner[0], y + corner[1]
                with self.subTest(at=(latitude, longitude), place=place):
                    found = frame.to_earth(*map(Fraction, place))
                    self.assertAlmostEqual(found[0], north, delta=NEAR)
                    self.assertAlmostEqual(found[1], east, delta=NEAR * 10)
                    for turn in (0, 360, -360):
                        for told, wanted in zip(frame.to_area(north, east + turn), place):
                            self.assertAlmostEqual(told, wanted, delta=0.001)

    def test_ways_by_hand(self):
        """A degree of the equator is pi/180 of the radius of 6,378,137 m; the first degree of a meridian is 110,574.389 m by the series
        of its arc (Snyder, equation 3-21)."""
        equator = math.pi / 180 * 6_378_137
        rows = (
            ((0, 0), (0, 1), 90, equator),
            ((0, 179.5), (0, -179.5), 90, equator),
            ((0, -179.5), (0, 179.5), 270, equator),
            ((0, 10), (1, 10), 0, 110_574.389),
            ((1, 10), (0, 10), 180, 110_574.389),
        )
        for one, other, bearing, metres in rows:
            with self.subTest(one=one, other=other):
                found = earth.way(one, other)
                self.assertAlmostEqual(found[0], bearing, delta=1e-9)
                self.assertAlmostEqual(found[1], metres, delta=0.001)

    def test_up_is_the_bearing_of_a_metre_up(self):
        for reference, place in (((57.725, 10.58), (36_000, 500)), ((57.725, 10.58), (-40_000, 0)), ((80, 179.9), (50_000, -20_000)), ((-60, 5), (9000, 9000))):
            with self.subTest(reference=reference, place=place):
                frame = earth.Frame(*reference)
                bearing, metres = earth.way(frame.to_earth(*place), frame.to_earth(place[0], place[1] - 1))
                self.assertAlmostEqual(frame.up(*place), (bearing + 180) % 360 - 180, delta=0.001)
                self.assertAlmostEqual(metres, 1, delta=0.0001)
        # By hand: d/N * tan(latitude), with the radius N of the prime vertical, 6,393,453 m there.
        wanted = math.degrees(1000 / 6_393_453 * math.tan(math.radians(57.725)))
        self.assertAlmostEqual(earth.Frame(57.725, 10.58).up(1000, 0), wanted, delta=1e-5)
        self.assertAlmostEqual(earth.Frame(57.725, 10.58).up(0, 9000), 0, delta=1e-9)

    def test_lengths_across_are_off_as_stated(self):
        """Side by side along a circle around the place of reference; along the way to it nothing is off."""
        frame = earth.Frame(57.725, 10.58)
        for metres in (100_000, 500_000, 1_560_000):
            across = earth.way(frame.to_earth(metres, -500), frame.to_earth(metres, 500))[1]
            along = earth.way(frame.to_earth(metres - 500, 0), frame.to_earth(metres + 500, 0))[1]
            stated = metres**2 / (6 * 6_371_000**2)
            with self.subTest(metres=metres):
                self.assertAlmostEqual(1000 / across - 1, stated, delta=stated / 20)
                self.assertAlmostEqual(along, 1000, delta=0.001)


class Lacking(unittest.TestCase):
    TOLD = "places on the earth need the package python3-geographiclib, which "

    def said(self, executable, debian=packages.DEBIAN):
        """What is said by a Python of a name where geographiclib can't be loaded, and Debian's packages are in a folder."""
        with (without("geographiclib.geodesic"), mock.patch("sys.executable", executable), mock.patch("desk.packages.DEBIAN", debian),
              self.assertRaises(packages.Lacking) as lacking):
            earth.Frame(57, 10).to_earth(0, 0)
        self.assertTrue(str(lacking.exception).startswith(self.TOLD), lacking.exception)
        return str(lacking.exception).removeprefix(self.TOLD)

    def test_a_lacking_package_is_told_in_one_line(self):
        none, install = "isn't there for this Python", ": install it, as by apt install python3-geographiclib"
        with tempfile.TemporaryDirectory() as empty:
            self.assertEqual(self.said(packages.PYTHON, empty), none + install)
            self.assertEqual(self.said(os.path.realpath(packages.PYTHON), empty), none + install)
            self.assertEqual(self.said("/opt/other/bin/python3", empty), f"{none}, and not for /usr/bin/python3 either{install}")

    def test_another_python_that_cannot_load_it_is_told_whose_it_is(self):
        this = f"/opt/other/bin/python3, which is {sys.version_info[0]}.{sys.version_info[1]}"
        told = f"is there for /usr/bin/python3, and not for {this}: let Debian's Python come first, as by PATH=/usr/bin:$PATH"
        with tempfile.TemporaryDirectory() as room:
            os.mkdir(os.path.join(room, "geographiclib"))
            with open(os.path.join(room, "geographiclib", "__init__.py"), "w", encoding="utf-8"):
                pass
            self.assertEqual(self.said("/opt/other/bin/python3", room), told)
            # Debian's own has no other to turn to.
            self.assertNotIn("/usr/bin", self.said(packages.PYTHON, room))

    def test_other_pythons_of_this_machine(self):
        """What one of another minor version says of a package that is compiled; and what it loads is what is Python alone."""
        found = [it for it in glob.glob(os.path.expanduser("~/.pyenv/versions/*/bin/python3")) if is_newer(it)]
        if not found or not os.path.exists(os.path.join(packages.DEBIAN, "netCDF4", "__init__.py")):
            self.skipTest("there is no other Python of a later minor version, or no python3-netcdf4")
        asked = "import sys; sys.path.insert(0, sys.argv[1])\nfrom desk import packages\nprint(packages.module(*sys.argv[2:]).__name__)"
        for python in found:
            words = [python, "-I", "-B", "-c", asked, TOP]
            said = answered([*words, "netCDF4", "python3-netcdf4", "it needs"]).stderr.splitlines()[-1]
            self.assertIn("it needs python3-netcdf4, which is there for /usr/bin/python3, and not for ", said)
            self.assertIn(": let Debian's Python come first, as by PATH=/usr/bin:$PATH", said)
            if os.path.exists(os.path.join(packages.DEBIAN, "geographiclib")):
                done = answered([*words, "geographiclib.geodesic", "python3-geographiclib", "it needs"])
                self.assertEqual(done.stdout, "geographiclib.geodesic\n", done.stderr)


def answered(words):
    """What a run of these words came to."""
    return subprocess.run(words, capture_output=True, text=True)


def is_newer(python):
    """Whether a Python is of a later minor version than Debian's own."""
    asked = "import sys; print(*sys.version_info[:2])"
    one, other = (answered([it, "-I", "-c", asked]).stdout.split() for it in (python, packages.PYTHON))
    return bool(one and other) and [*map(int, one)] > [*map(int, other)]


class Spelled(unittest.TestCase):
    def test_places_as_people_write_them(self):
        wanted = Fraction("57.725"), 10 + Fraction(35, 60)
        rows = (
            "57°43.5'N 10°35.0'E",
            "57° 43.5' N, 010° 35' E",
            "57°43'30\"N 10°35'00\"E",
            "57°43′30″ n 10°35′0.0″ e",
            "57-43.5N 010-35.0E",
            "57-43-30N 010-35-00E",
            "57 43.5 N 10 35 E",
            "57 43 30 N 10 35 00 E",
            "N57°43.5' E010°35.0'",
            "N 57 43.5, E 10 35",
        )
        for text in rows:
            with self.subTest(text):
                self.assertEqual(earth.spelled(text), wanted)
        rows = (
            ("57.725, 10.5", "57.725", "10.5"),
            ("57.725°N 10.5°E", "57.725", "10.5"),
            ("-57.725,-10.5", "-57.725", "-10.5"),
            ("57.725S 10.5W", "-57.725", "-10.5"),
            ("0N 180E", "0", "180"),
            ("90-00N 180-00.0W", "90", "-180"),
        )
        for text, *wanted in rows:
            with self.subTest(text):
                self.assertEqual(earth.spelled(text), tuple(map(Fraction, wanted)))

    def test_what_is_no_place(self):
        rows = ("57 43.5 10 35", "57°60'N 10°35'E", "57°43'60\"N 10°E", "90°00.1'N 10°E", "57N 180.1E", "57°43.5\"N 10°35'E", "10°35'E 57°43'N")
        more = ("57.5°43'N 10E", "57N", "57,725 10,583", "57N 10N", "-57N 10E", "", "r2c3", "57°43.5'30\"N 10E", "\u0665\u0667N 10E", "1e1, 5")
        for text in (*rows, *more):
            with self.subTest(text), self.assertRaises(ValueError):
                earth.spelled(text)

    def test_as_it_is_told_over_a_radio(self):
        rows = (
            (57.725, 10 + 35 / 60, "57°43.500'N 010°35.000'E"),
            (-33.8694444, 151.2083333, "33°52.167'S 151°12.500'E"),
            (9.9999999, -179.9999999, "10°00.000'N 180°00.000'W"),
            (-0.00001, 0.00001, "00°00.001'S 000°00.001'E"),
            (-0.0000001, -0.0000001, "00°00.000'N 000°00.000'E"),
        )
        for latitude, longitude, text in rows:
            with self.subTest(text):
                self.assertEqual(earth.told(latitude, longitude), text)
                self.assertTrue(all(abs(it - own) <= 0.0005 / 60 for it, own in zip(earth.spelled(text), (latitude, longitude))))
