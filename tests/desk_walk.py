"""A whole walk, from a situation on the earth with a tide and a night to what a crew reads after three looks: by the helpers, with plans
of a second computation, and by the commands as they are typed. Places are held against geographiclib, used here by itself."""
import math
import re
import subprocess
import unittest

from desk import brief, chart, draft, earth, forms, packages, trial
from tests.made import forced, with_plan
from tests.packaged import needing, on_earth
from tests.pages import IS_BUILT, TOP, Drawing

# Squares of 600 m from a corner at 57 degrees 43.5 minutes north and 10 degrees 35 minutes east. The tide turns at 19:50, and the sun sets
# at 20:10, in period 3.
SITUATION = """
title = "A canoe in a strait."
[search]
begins = 2026-08-22T19:30:00Z
minutes = 15
periods = 4
[area]
north_west = "57°43.5'N 10°35.0'E"
cell_size = 600
rows = 5
columns = 5
[[report]]
at = "57°42.85'N 10°36.1'E"
radius = 300
time = "19:00"
[[current]]
knots = 0.7
towards = 45
[[current]]
begins = "19:50Z"
knots = 0.7
towards = 225
[drift]
spread = 40
[searcher]
base = "57°42.0'N 10°34.0'E"
enters = ["r2c0..r4c0"]
leaves = "19:22"
speed = 10
sweep_width = 150
search_minutes = 11
reaches = 4
[light]
sunset = "2026-08-22 20:10"
night = 0.4
[tracks]
count = 1000
finer = 1
"""


def middle(name):
    """The middle of a square by geographiclib: the end of the geodesic from the corner with the bearing and the length that its metres have."""
    row, column = (int(it) for it in re.findall(r"\d+", name))
    east, south = 600 * column + 300, 600 * row + 300
    geodesic = packages.module("geographiclib.geodesic", "python3-geographiclib", "this case needs").Geodesic.WGS84
    found = geodesic.Direct(57.725, 10 + 35 / 60, 90 + math.degrees(math.atan2(south, east)), math.hypot(east, south))
    return found["lat2"], found["lon2"]


@on_earth
class Walk(Drawing):
    def ran(self, main, *words):
        """What a helper writes that ends well."""
        status, out, err = self.run_helper(main, list(words))
        self.assertEqual(status, 0, err)
        return out

    def rows(self, text):
        """The rows of where to go in a brief: period, time, name, whether it is flown, and the place as it is told."""
        return re.findall(r"^ +(\d+)  (\d\d:\d\d) +(r\dc\d)( \(flown\))? +(\S+'N \S+'E)", text, re.M)

    def is_where_it_should_be(self, rows, path):
        """Holds the rows of where to go against times by hand and places by geographiclib."""
        self.assertEqual([(it[0], it[1], it[2]) for it in rows], [*zip("1234", ("19:30", "19:45", "20:00", "20:15"), path)])
        for it in rows:
            for one, other in zip(earth.spelled(it[4]), middle(it[2])):
                self.assertAlmostEqual(float(one), other, delta=0.00051 / 60, msg=it)

    @needing("gpxpy", "python3-gpxpy")
    def test_from_a_situation_to_the_brief_behind_three_looks(self):
        situation = self.write("strait.toml", SITUATION.encode())
        scenario = self.ran(draft.main, situation).encode()
        whole = with_plan(scenario)
        files = [self.write("strait.scenario", scenario), self.write("strait.plan", whole[len(scenario) :])]
        told = self.write("strait.trial", self.ran(trial.main, situation, files[1], "--json", "yes").encode())
        sc, behind = forms.read_scenario(whole, False)
        path = [sc.positions[it].decode() for it in forms.read_plan(behind, sc, forms.PLANS).path]
        first = self.ran(brief.main, *files, "--trial", told)
        self.is_where_it_should_be(self.rows(first), path)
        self.assertIn("Times are UTC, from 2026-08-22 on.", first)
        self.assertIn("of 1,000 simulated drifts", " ".join(first.split()))
        # By day 150 m; in period 3 (20:00 to 20:15) 10 of 15 minutes by day; by night 60 m: 150 * (10 + 0.4 * 5) / 15 = 120.
        self.assertIn("The sweep width is 150 m in periods 1 to 2, 120 m in period 3, 60 m in period 4.", " ".join(first.split()))
        (its,) = self.drawn(self.written(*files, "--trial", told))
        self.assertEqual(its.one("pre", id="radio-text").text(), first)
        self.assertIn("(20:15 to 20:30)", its.one("figure", id="after-4").one("strong").text())
        self.ran(chart.main, *files, "-o", f"{self.room}/strait.gpx")
        gpxpy = packages.module("gpxpy", "python3-gpxpy", "this case needs")
        with open(f"{self.room}/strait.gpx", encoding="utf-8") as file:
            (route,) = gpxpy.parse(file).routes
        for point in route.points[1:]:
            for one, other in zip((point.latitude, point.longitude), middle(point.name.split()[1])):
                self.assertAlmostEqual(one, other, delta=1e-7)
        made = self.write("later.made", forced(scenario, " ".join(path[:3])))
        later = self.ran(brief.main, made, "--of", files[0])
        self.is_where_it_should_be(self.rows(later), path)
        self.assertEqual([it[3] for it in self.rows(later)], [" (flown)"] * 3 + [""])
        self.assertIn("The first 3 looks are flown.", later)


@on_earth
@unittest.skipUnless(IS_BUILT, "the program isn't built")
class Commands(Walk):
    def typed(self, *words):
        """What a command writes, which has to end well."""
        done = subprocess.run([f"{TOP}/osp", *words], cwd=self.room, capture_output=True, text=True, check=False)
        self.assertEqual(done.returncode, 0, (words, done.stderr))
        return done.stdout

    def test_from_a_situation_to_the_brief_behind_three_looks(self):
        self.write("strait.toml", SITUATION.encode())
        self.typed("draft", "strait.toml", "-o", "strait.scenario")
        self.typed("plan", "strait.scenario", "-o", "strait.plan")
        self.assertEqual(self.typed("check", "strait.scenario", "strait.plan"), "accepted\n")
        says, finds, error = re.search(r"^strait\.plan +([\d.]+) % +([\d.]+) ± ([\d.]+) %$", self.typed("trial", "strait.toml", "strait.plan"), re.M).groups()
        self.assertLess(abs(float(finds) - float(says)), max(2, 5 * float(error)))
        first = self.rows(self.typed("brief", "strait.scenario", "strait.plan"))
        path = [it[2] for it in first]
        self.is_where_it_should_be(first, path)
        self.typed("chart", "strait.scenario", "strait.plan", "-o", "strait.gpx")
        self.typed("replan", "strait.scenario", "-o", "later.made", "flown", *path[:3])
        later = self.rows(self.typed("brief", "later.made", "--of", "strait.scenario"))
        self.is_where_it_should_be(later, path)
        self.assertEqual([it[3] for it in later], [" (flown)"] * 3 + [""])


if __name__ == "__main__":
    unittest.main()
