"""Tests `desk.ashore`: whom land holds at the looks. Shares in comments are worked by hand, or are those of a second simulation."""
import collections
import math
import os
import unittest

from desk import ashore, draft, geometry, situation, tracks
from desk.water import Water
from tests import adrift

TOP = os.path.dirname(os.path.dirname(os.path.realpath(__file__)))
# A knot makes a cell of 926 m in a period. Persons are anywhere in r1c0 at the begin, and a wall stands in c2.
WALL = """[search]
begins = "2026-07-04 12:00"
minutes = 30
periods = 4
[area]
cell_size = 926
rows = 3
columns = 4
land = ["r0c2..r2c2"]
edge = "stays"
[[report]]
cell = "r1c0"
time = "12:00"
[[current]]
knots = 0.5
towards = 90
[searcher]
start = "r0c0"
speed = 8
sweep_width = 100
"""


def said(text):
    """What a draft of a situation says of land."""
    lines = draft.drafted(text.encode())[1]
    return [it for it in lines if it.startswith("land holds") or "held by land" in it]


class Held(unittest.TestCase):
    def test_who_comes_to_a_wall_is_held(self):
        """Behind 2 periods nobody has come to c2; behind 3 those from the eastern half of r1c0, and behind 4 all of them."""
        made = tracks.made(situation.situation(WALL.encode()))
        self.assertEqual([len(it) for it in made.ashore[:2]], [0, 0])
        east = [at for at, (x, _) in enumerate(made.looks[0]) if x - 463 >= 463]
        self.assertEqual(made.ashore[2], east)
        self.assertLess(abs(len(east) / made.count - 0.5), 4 * math.sqrt(0.25 / made.count))
        self.assertEqual(made.ashore[3], list(range(made.count)))

    def test_who_comes_off_again_is_not(self):
        """The tide turns behind period 3, or in the middle of period 4."""
        for turns in ("13:30", "13:45"):
            back = f'[[current]]\nbegins = "{turns}"\nknots = 0.5\ntowards = 270\n'
            made = tracks.made(situation.situation((WALL + back).encode()))
            self.assertGreater(len(made.ashore[2]), 9000)
            self.assertEqual(made.ashore[3], [])

    def test_who_is_lost_is_not_held(self):
        made = tracks.made(situation.situation(WALL.replace('"stays"', '"lost"').replace("towards = 90", "towards = 270").encode()))
        self.assertEqual(made.looks[3], [None] * made.count)
        self.assertEqual([*map(len, made.ashore)], [0] * 4)

    def test_a_way_says_whether_land_ends_it(self):
        water = Water(geometry.Grid(3, 4, 100, frozenset({(0, 3), (1, 2), (2, 1)})), True)
        for place, way, is_aground in (
            ((50.0, 150.0), (100.0, 0.0), False),
            ((50.0, 150.0), (160.0, 0.0), True),
            # Between two corners of land.
            ((150.0, 150.0), (100.0, 100.0), True),
            # Over the edge, behind land and before it.
            ((250.0, 50.0), (0.0, -100.0), False),
            ((50.0, 150.0), (0.0, 0.0), False),
        ):
            water.gone(place, *way)
            self.assertIs(water.is_aground, is_aground, (place, way))
        # Along an edge that holds it comes to land.
        held = Water(geometry.Grid(2, 5, 100, frozenset({(0, 4)})), False)
        held.gone((50.0, 50.0), 500.0, -300.0)
        self.assertTrue(held.is_aground)
        held.gone((50.0, 50.0), 200.0, -300.0)
        self.assertFalse(held.is_aground)


class Told(unittest.TestCase):
    NOTE = (
        "note: who is held by land is taken to float before it, where a look finds them as anywhere else; "
        "a party on the shore may find them, too"
    )

    def test_shares_and_squares_at_the_first_and_the_last_look(self):
        told = "land holds 0.000 percent at the first look, and 100.000 at the last, if no look finds anything"
        self.assertEqual(said(WALL), [told, "land holds at the last look, in percent: r1c1 100.000", self.NOTE])
        still = WALL.replace("knots = 0.5", "knots = 0.1")
        self.assertEqual(said(still), ["land holds 0.000 percent at the first look, and 0.000 at the last, if no look finds anything"])
        one = WALL.replace("periods = 4", "periods = 1").replace("knots = 0.5", "knots = 2")
        told = "land holds 100.000 percent at the only look, if no look finds anything"
        self.assertEqual(said(one), [told, "land holds at the only look, in percent: r1c1 100.000", self.NOTE])

    def test_the_fullest_square_comes_first(self):
        """Of two reports that of twice the weight; rounded up, both shares are a little above those of the weights."""
        two = WALL.replace("[[current]]", '[[report]]\ncell = "r2c0"\nweight = 2\ntime = "12:00"\n[[current]]')
        line = next(it for it in said(two) if it.startswith("land holds at the last look"))
        found = dict(it.split() for it in line.split(": ")[1].split(", "))
        self.assertEqual([*found], ["r2c1", "r1c1"])
        self.assertAlmostEqual(float(found["r2c1"]), 100 * 2 / 3, delta=100 * 4 * math.sqrt(2 / 9 / 20_000))

    def test_nothing_is_said_where_there_is_no_land(self):
        self.assertEqual(said(WALL.replace('land = ["r0c2..r2c2"]\n', "")), [])

    def test_nothing_is_said_of_tracks_of_a_file(self):
        given = situation.situation(WALL.encode())
        made = tracks.Tracks(1, None, ([(100.0, 100.0)],), "it.csv")
        self.assertEqual([*ashore.lines(given.grid, made)], [])


class Beside(unittest.TestCase):
    """Shares by square, at the first and the last look, beside those of a second simulation that shares nothing with the desk's."""

    COUNT = 1000

    def held(self, of):
        """How many of so many persons were held in their last step before each look, by pairs of period and square."""
        found = collections.Counter()
        for who, _ in adrift.simulated(of, self.COUNT, 5):
            for t in (1, of.periods):
                at = next((at for at, (minute, _) in enumerate(who.way) if abs(minute - t * of.minutes) < 1e-6), 0)
                if at and who.way[at][1] == who.way[at - 1][1]:
                    found[t, of.square(who.way[at][1])] += 1
        return found

    def hold(self, text):
        made = tracks.made(situation.situation(text.encode()))
        other = adrift.Situation(text)
        theirs, ours = self.held(other), collections.Counter()
        for t in (1, other.periods):
            ours.update((t, other.square(made.looks[t - 1][it])) for it in made.ashore[t - 1])
        self.assertGreater(sum(theirs.values()), self.COUNT / 50)
        for it in theirs.keys() | ours.keys():
            share, their = ours[it] / made.count, theirs[it] / self.COUNT
            error = math.sqrt(max(share * (1 - share), 1 / self.COUNT) * (1 / made.count + 1 / self.COUNT))
            # A step of the other simulation stays farther from land than a part of a way of this one.
            self.assertLess(abs(share - their), 4 * error + 0.01, (it, share, their))

    def text(self, name, *changes):
        with open(os.path.join(TOP, "examples", "situations", f"{name}.toml"), encoding="utf-8") as file:
            found = file.read()
        for old, new in changes:
            self.assertIn(old, found)
            found = found.replace(old, new)
        return found

    def test_a_wind_that_drives_to_a_straight_shore(self):
        land = ('land = ["r0c0..r3c0", "r0c1"]', 'land = ["r0c0..r7c0", "r0c1"]')
        self.hold(self.text("kayaker", ("from = 270", "from = 90"), ("towards = 45", "towards = 270"), land))

    def test_a_headland(self):
        self.hold(self.text("coast-by-night"))

    def test_banks_of_a_river(self):
        self.hold(self.text("tide-and-night"))


if __name__ == "__main__":
    unittest.main()
