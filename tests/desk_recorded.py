"""Tests of files of tracks whose places are degrees: netCDF in the shape that OpenDrift documents, and CSV. Places and times are worked by
hand, or by a second computation."""
import csv
import os
import random
import threading
import unittest
import warnings

from tests import opendrift
from tests.opendrift import epoch
from tests.packaged import needing, on_earth, without
from tests.pages import Room

from desk import draft, earth, forms, moments, packages, recorded
from desk.ensemble import at_looks
from desk.keys import BadSituation

# The search begins at 12:00 UTC; looks are at 12:15, 12:30 and 12:45.
CLOCK = moments.Clock(moments.moment("2026-07-04 12:00Z"))
LOOKS = [15.0, 30.0, 45.0]
TIMES = [epoch(f"2026-07-04T{it}") for it in ("12:00", "12:20", "12:40", "13:00")]
with_netcdf = needing("netCDF4", "python3-netcdf4")


class Plane:
    """A frame in which a thousandth of a degree is 100 m along each axis, from 10 east and 57 north on."""

    @staticmethod
    def to_area(latitude, longitude):
        return ((longitude - 10 + 180) % 360 - 180) * 100_000, (57 - latitude) * 100_000


def degrees(x, y, turns=0):
    """The longitude and the latitude of a place of that frame."""
    return 10 + x / 100_000 + 360 * turns, 57 - y / 100_000


class File(Room):
    def ensemble(self, name, clock=CLOCK, frame=Plane):
        path = os.path.join(self.room, name)
        return at_looks(recorded.recorded(path, clock, frame), clock, LOOKS)

    def netcdf(self, tracks, times=None, **more):
        """The ensemble of a file with these tracks: places in metres with a status, or None where it is masked."""
        made = [[it and (*degrees(*it[:2]), it[2]) for it in track] for track in tracks]
        opendrift.write(os.path.join(self.room, "ensemble.nc"), TIMES if times is None else times, made, **more)
        return self.ensemble("ensemble.nc")

    def refused(self, make, *words, **more):
        with self.assertRaises(BadSituation) as caught:
            make(*words, **more)
        return str(caught.exception)

    def assert_places(self, looks, wanted):
        """That looks have these places, to a centimetre."""
        for look, places in zip(looks, wanted, strict=True):
            for place, its in zip(look, places, strict=True):
                for one, other in zip(place, its):
                    self.assertAlmostEqual(one, other, 2)


@with_netcdf
class OpenDrift(File):
    # Goes 400 m east in each 20 minutes: 300, 600 and 900 m at the looks.
    EAST = [(400 * it, 100, 0) for it in range(4)]

    def test_times_that_dont_meet_the_looks(self):
        wanted = [[(300, 100)], [(600, 100)], [(900, 100)]]
        for more in ({}, {"is_turned": True}, {"has_status": False}):
            with self.subTest(more):
                found = self.netcdf([self.EAST], **more)
                self.assert_places(found.looks, wanted)
                self.assertEqual((found.gone, len(found.said)), ((None,), 1))
        # The same times in other units.
        hours = self.netcdf([self.EAST], [10, 10 + 1 / 3, 10 + 2 / 3, 11], units="hours since 2026-07-04 02:00:00")
        self.assert_places(hours.looks, wanted)
        self.assertTrue(hours.said[0].startswith("ensemble.nc has 1 track from 2026-07-04 12:00Z to 2026-07-04 13:00Z; sha256 "))

    def test_stranded_outside_late_and_empty(self):
        stranded = [(0, 500, 0), (200, 500, 1), None, None]
        outside = [(0, 600, 0), (200, 600, 0), (400, 600, 2), None]
        late = [None, (0, 700, 0), (0, 700, 0), (0, 700, 0)]
        empty = [None] * 4
        found = self.netcdf([self.EAST, stranded, late, outside, empty])
        # Where stranded and outside are at 12:15: three quarters of 200 m. Outside is known until 12:40, so not at the third look.
        self.assert_places(found.looks, [[(300, 100), (150, 500), (150, 600)], [(600, 100), (200, 500), (300, 600)], [(900, 100), (200, 500), (400, 600)]])
        self.assertEqual(found.gone, (None, None, 3))
        self.assertEqual(list(found.said[1:]), [
            "1 track without a place at any time, left out",
            "1 track begun after the first look, which is at 2026-07-04 12:15Z, left out",
            "1 track gone from the region of the model (outside) before the last look, lost from then on",
            "1 track ended before the last look (as stranded), taken to stay at the last place",
        ])

    def test_other_numbers_of_statuses(self):
        # By flag_values 7 is outside here, and 2 retired.
        tracks = [[(0, 500, 4), (200, 500, last), None, None] for last in (7, 2)] + [self.EAST]
        found = self.netcdf(tracks, values=[4, 2, 7], meanings=["active", "retired", "outside"])
        self.assertEqual(found.gone, (2, None, None))
        self.assertIn("1 track ended before the last look (as retired), taken to stay at the last place", found.said)
        # Where the meanings don't fit the numbers, none is known.
        self.assertEqual(self.netcdf(tracks, values=[4, 2], meanings=["active", "retired", "outside"]).gone, (None,) * 3)
        self.assertEqual(self.netcdf([self.EAST], values=[0], meanings=["active"]).gone, (None,))

    def test_longitudes_that_are_shifted_by_a_turn(self):
        moved = [[(*degrees(*it[:2], turns=turns), 0) for it, turns in zip(self.EAST, row)] for row in ((1, 1, 1, 1), (-1, -1, -1, -1), (0, 1, 0, 1))]
        opendrift.write(os.path.join(self.room, "ensemble.nc"), TIMES, moved)
        self.assert_places(self.ensemble("ensemble.nc").looks, [[(300, 100)] * 3, [(600, 100)] * 3, [(900, 100)] * 3])

    def test_more_tracks_than_are_read_at_once(self):
        many = [[(it, 10 * at, 0) for at in range(4)] for it in range(2 * recorded.AT_ONCE + 3)]
        for is_turned in (False, True):
            found = self.netcdf(many, is_turned=is_turned)
            self.assert_places(found.looks[:1], [[(it, 7.5) for it in range(len(many))]])

    def test_none_and_what_is_wrong(self):
        for tracks, more, wanted in (
            ([], {}, "it has no track with a place"),
            ([[None] * 4], {}, "it has no track with a place"),
            ([[(0, 0, 0)] * 3], {"times": TIMES[:3]}, "it ends at 2026-07-04 12:40Z, and the last look is at 2026-07-04 12:45Z"),
            ([[None, (0, 0, 0), (0, 0, 0), (0, 0, 0)]], {}, "all of its tracks begin after the first look"),
            ([self.EAST], {"times": TIMES[::-1]}, "time should ascend"),
            ([self.EAST], {"units": "fortnights"}, "time should be in units such as seconds since 1970-01-01 00:00:00"),
            ([], {"times": list(range(100_001))}, "it has 100,001 times, and 100,000 are the most"),
            ([], {"times": []}, "it should have the dimensions trajectory and time, the variables lon and lat over both, and time"),
            ([[(0, 15e6, 0)] * 4], {}, "trajectory 0 (the first is 0): lat should be a number from -90 to 90, and is -93.0"),
        ):
            with self.subTest(wanted):
                said = self.refused(self.netcdf, tracks, **more)
                self.assertTrue(said.startswith(f"[tracks] file: ensemble.nc: {wanted}"), said)

    def shaped(self, change):
        """The ensemble of a file that is changed behind its writing."""
        netcdf = packages.module("netCDF4", "python3-netcdf4", "this file needs the package")
        self.netcdf([self.EAST])
        with netcdf.Dataset(os.path.join(self.room, "ensemble.nc"), "a") as data:
            change(data, packages.module("numpy", "python3-numpy", "this file needs the package"))
        return self.ensemble("ensemble.nc")

    def test_numbers_of_statuses_that_are_no_whole_ones(self):
        """Parts, texts and too few: none that fits gives no status, and those that do give theirs."""
        wanted = [[(300, 100)], [(600, 100)], [(900, 100)]]
        for its in (1.5, "0b 1b 2b", "012", [0.5, 1.5, 2.5], [0.0, 1.0, 2.0]):
            with self.subTest(its):
                found = self.shaped(lambda data, numpy, its=its: setattr(data["status"], "flag_values", its if isinstance(its, str) else numpy.array(its)))
                self.assert_places(found.looks, wanted)
                self.assertEqual(found.gone, (None,))

    def test_shapes_that_are_refused(self):
        """Each in one line that names the variable, and nothing else is said."""
        def other(name, kind, dimensions=("trajectory", "time")):
            def change(data, numpy):
                data.renameVariable(name, "other")
                data.createVariable(name, kind(data, numpy), dimensions)

            return change

        def has(name, its, value):
            return lambda data, numpy: setattr(data[name], its, value if isinstance(value, str) else numpy.array(value, "f8"))

        whole, lists = (lambda data, numpy: "i4"), (lambda data, numpy: data.createVLType("f8", "list"))
        pairs = lambda data, numpy: data.createCompoundType(numpy.dtype([("x", "f8")]), "pair")  # noqa: E731
        rows = (
            (other("status", whole, ()), "status should be numbers over trajectory and time"),
            (other("status", whole, ("time",)), "status should be numbers over trajectory and time"),
            (other("status", lambda data, numpy: str), "status should be numbers over trajectory and time"),
            (other("lon", lists), "it should have the dimensions trajectory and time, the variables lon and lat"),
            (other("lat", pairs), "it should have the dimensions trajectory and time, the variables lon and lat"),
            (other("time", lists, ("time",)), "it should have the dimensions trajectory and time, the variables lon and lat"),
            (has("lon", "add_offset", "x"), "add_offset of lon should be one number, and is 'x'"),
            (has("lat", "scale_factor", [1, 2]), "scale_factor of lat should be one number, and is '[1. 2.]'"),
            (has("time", "add_offset", "x"), "add_offset of time should be one number, and is 'x'"),
            (has("lon", "valid_max", []), "valid_max of lon should be one number, and is '[]'"),
            (has("status", "valid_min", []), "valid_min of status should be one number, and is '[]'"),
            (has("lon", "valid_range", [1]), "valid_range of lon should be two numbers, and is '1.0'"),
            (has("lon", "_Unsigned", [1, 2]), "lon has attributes by which it can't be read"),
        )
        for change, wanted in rows:
            with self.subTest(wanted), warnings.catch_warnings(record=True) as warned:
                warnings.simplefilter("always")
                said = self.refused(self.shaped, change)
                self.assertTrue(said.startswith(f"[tracks] file: ensemble.nc: {wanted}"), said)
                self.assertEqual([str(it.message) for it in warned], [])

    def test_by_a_pipe(self):
        """What is no regular file is told by what it begins with."""
        wanted = self.netcdf([self.EAST])
        os.mkfifo(f"{self.room}/pipe")
        with open(f"{self.room}/ensemble.nc", "rb") as file:
            text = file.read()
        for its in (text, text[:3000]):
            writer = threading.Thread(target=self.write, args=("pipe", its))
            writer.start()
            if its == text:
                found = self.ensemble("pipe")
            else:
                self.assertIn("pipe: it isn't a whole netCDF file", self.refused(self.ensemble, "pipe"))
            writer.join()
        self.assertEqual((found.looks, found.said[0].split(" has ")[1]), (wanted.looks, wanted.said[0].split(" has ")[1]))

    def test_files_that_are_none(self):
        self.netcdf([self.EAST] * 2000)
        with open(os.path.join(self.room, "ensemble.nc"), "rb") as file:
            whole = file.read()
        for text in (b"", b"id,time,x,y\n", whole[: len(whole) // 2]):
            self.write("ensemble.nc", text)
            self.assertIn("it isn't a whole netCDF file", self.refused(self.ensemble, "ensemble.nc"))
        self.assertIn("it can't be read: No such file", self.refused(self.ensemble, "none.nc"))

    def test_a_begin_that_is_local_and_an_area_without_a_place(self):
        self.netcdf([self.EAST])
        local = moments.Clock(moments.moment("2026-07-04 12:00"))
        self.assertIn("time: it is UTC, so [search] begins should be, too", self.refused(self.ensemble, "ensemble.nc", local))
        said = self.refused(self.ensemble, "ensemble.nc", frame=None)
        self.assertIn("its places are latitudes and longitudes, and the area has none; give it one, as in [area] north_west", said)


@with_netcdf
class Fields(File):
    """Files of what drives a drift, and of no tracks. The standard names are those of the CF Standard Name Table."""

    def field(self, variables, dimensions=("time", "lat", "lon")):
        """Why a file with these variables, names with their standard names, is none of tracks."""
        netcdf = packages.module("netCDF4", "python3-netcdf4", "this case needs")
        with netcdf.Dataset(os.path.join(self.room, "field.nc"), "w") as data:
            for it in dimensions:
                data.createDimension(it, 2)
            time = data.createVariable("time", "f8", ("time",))
            time.units, time[:] = "seconds since 1970-01-01 00:00:00", TIMES[:2]
            for name, standard in variables.items():
                made = data.createVariable(name, "f4", dimensions)
                made[:] = 0.5
                if standard:
                    made.standard_name = standard
        return self.refused(self.ensemble, "field.nc")

    def test_what_it_has_is_told(self):
        tracks = "; of tracks it should have the dimensions trajectory and time, the variables lon and lat over both, and time"
        tracks += ", as OpenDrift writes them"
        rows = "and no tracks; they are written as rows, as in "
        current, wind = "[[current]] with knots = 0.6 and towards = 45", "[[wind]] with knots = 12 and from = 270"
        eastward, northward = "eastward_sea_water_velocity", "northward_sea_water_velocity"
        for variables, told in (
            ({"uo": eastward, "vo": northward}, f"currents (uo, vo), {rows}{current}"),
            ({"a": "sea_water_x_velocity", "b": "sea_water_y_velocity"}, f"currents (a, b), {rows}{current}"),
            ({"a": "surface_eastward_sea_water_velocity"}, f"currents (a), {rows}{current}"),
            ({"water_u": "", "water_v": ""}, f"currents (water_u, water_v), {rows}{current}"),
            ({"u10": "eastward_wind", "v10": "northward_wind"}, f"winds (u10, v10), {rows}{wind}"),
            ({"a": "x_wind", "b": "wind_speed"}, f"winds (a, b), {rows}{wind}"),
            ({"hs": "sea_surface_wave_significant_height", "d": "sea_surface_wave_from_direction"}, "waves (hs, d), and no tracks"),
            ({"s": "sea_surface_wave_stokes_drift_x_velocity"}, "waves (s), and no tracks"),
            ({"x": "x_wind", "u": eastward}, f"currents (u) and winds (x), {rows}{current} and {wind}"),
        ):
            with self.subTest(variables):
                self.assertEqual(self.field(variables), f"[tracks] file: field.nc: it has {told}{tracks}")

    def test_it_is_told_before_the_place_of_the_area_is_asked_for(self):
        self.field({"uo": "eastward_sea_water_velocity"})
        told = self.refused(self.ensemble, "field.nc", frame=None)
        self.assertTrue(told.startswith("[tracks] file: field.nc: it has currents (uo), and no tracks"), told)

    def test_what_is_known_by_nothing_is_told_as_before(self):
        """A stress of the wind is none, a temperature neither; and u of a standard name that isn't one of currents goes by that name."""
        told = "[tracks] file: field.nc: it should have the dimensions trajectory and time"
        others = {"t": "sea_water_temperature"}, {"s": "surface_downward_eastward_stress"}, {"uo": "eastward_sea_ice_velocity"}, {"any": ""}
        for variables in others:
            with self.subTest(variables):
                self.assertTrue(self.field(variables).startswith(told), self.field(variables))

    def test_tracks_with_currents_beside_them_are_tracks(self):
        """OpenDrift writes what drove its tracks into the same file: what lacks here are places, and not tracks."""
        told = self.field({"x_sea_water_velocity": "x_sea_water_velocity"}, ("time", "trajectory"))
        self.assertTrue(told.startswith("[tracks] file: field.nc: it should have the dimensions"), told)

    def test_a_name_of_the_file_steers_no_terminal(self):
        told = self.field({"u\u202eo": "eastward_sea_water_velocity"})
        self.assertIn("it has currents (u\\u202eo), and no tracks", told)


class Lacking(File):
    def test_without_the_package(self):
        self.write("ensemble.nc", b"")
        with without("netCDF4"), self.assertRaisesRegex(packages.Lacking, "a netCDF file of tracks needs the package python3-netcdf4"):
            self.ensemble("ensemble.nc")


class Degrees(File):
    """CSV with latitudes and longitudes."""

    def table(self, rows):
        with open(os.path.join(self.room, "ensemble.csv"), "w", encoding="utf-8", newline="") as file:
            csv.writer(file).writerows([("id", "time", "lat", "lon"), *rows])

    def test_zones_and_turns(self):
        east = [degrees(400 * it, 100, turns=it % 2) for it in range(4)]
        for times in (("12:00Z", "12:20Z", "12:40Z", "13:00Z"), ("14:00+02:00", "12:20", "09:10:00-03:30", "13:00+00")):
            self.table([(7, f"2026-07-04T{time}", lat, lon) for time, (lon, lat) in zip(times, east)])
            self.assert_places(self.ensemble("ensemble.csv").looks, [[(300, 100)], [(600, 100)], [(900, 100)]])
        for row, wanted in (((1, "2026-07-04T12:00Z", 91, 10), "line 2: lat should be a number from -90 to 90"), ((1, "2026-07-04T12:00Z", 57, 721), "line 2: lon should")):
            self.table([row])
            self.assertIn(wanted, self.refused(self.ensemble, "ensemble.csv"))
        self.assertIn("the area has none; give it one", self.refused(self.ensemble, "ensemble.csv", frame=None))

    def test_a_turn_is_unwrapped(self):
        for longitudes, wanted in (([179.9, -179.9], [179.9, 180.1]), ([-179, 179, 541], [-179, -181, -179]), ([10], [10])):
            for one, other in zip(recorded.unwrapped(longitudes), wanted, strict=True):
                self.assertAlmostEqual(one, other, 9)


SEA = """
[search]
begins = 2026-07-04T12:00:00Z
minutes = 15
periods = 3
[area]
{}
cell_size = 1000
rows = 3
columns = 4
[searcher]
start = "r0c0"
speed = 40
sweep_width = 200
[tracks]
file = "ensemble.nc"
finer = 1
"""


@on_earth
@with_netcdf
class Situations(Room):
    """A file of OpenDrift's shape beside a situation."""

    def drafted(self, area, status=0):
        ended, out, err = self.run_helper(draft.main, [self.write("sea.toml", SEA.format(area).encode())])
        self.assertEqual(ended, status, err)
        return out if status == 0 else err

    def test_tracks_over_the_antimeridian(self):
        """From the corner at 179.99 east on the equator a degree of longitude is 111,319.491 m, and one of latitude 110,574.389 m: three
        tracks stay 2.5 squares east and 0.5, 1.5 and 2.5 south, beyond 180 degrees, one of them as 182 to 180 and the others as -178 to -180."""
        east = 179.99 + 2500 / 111_319.491
        tracks = [[(east - 360 * (row > 0), -(row + 0.5) * 1000 / 110_574.389, 0)] * 4 for row in range(3)]
        opendrift.write(os.path.join(self.room, "ensemble.nc"), TIMES, tracks)
        sc = forms.read_scenario(self.drafted("north_west = [0, 179.99]").encode(), True)[0]
        self.assertEqual((sc.names, sc.first[:3], sc.parts[0]), ([b"r0c2", b"r1c2", b"r2c2", b"lost"], [1, 1, 1], 3))

    def test_an_area_without_a_place(self):
        opendrift.write(os.path.join(self.room, "ensemble.nc"), TIMES, [[(10, 57, 0)] * 4])
        self.assertIn("ensemble.nc: its places are latitudes and longitudes, and the area has none", self.drafted("", status=1))


@on_earth
class Lattices(unittest.TestCase):
    def test_it_is_off_by_no_more_than_two_centimetres(self):
        draw = random.Random(3)
        for latitude, longitude in ((57.725, 10.58), (45, 0), (-33.5, -179.999), (0, 0), (80, 179.9), (89.5, 30)):
            frame = earth.Frame(latitude, longitude, 4000, 3000)
            lattice = recorded.Lattice(frame)
            for _ in range(12):
                lat, lon = frame.to_earth(draw.uniform(-50_000, 50_000), draw.uniform(-50_000, 50_000))
                for turns in (0, 360):
                    for one, other in zip(lattice.metres(lon + turns, lat), frame.to_area(lat, lon)):
                        self.assertLess(abs(one - other), 0.02, (latitude, lat, lon))


if __name__ == "__main__":
    unittest.main()
