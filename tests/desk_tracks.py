"""Tests `desk.tracks` and what it is made of. Values in comments are worked by hand; statistics have fixed seeds and stated bounds."""
import math
import random
import statistics
import unittest
from fractions import Fraction

from desk import draws, geometry, keys, situation, tracks
from desk.reported import Line
from desk.water import Water

# Open water of 20 by 20 km; periods of 15 minutes, the first look at 12:15. One knot makes 463 m in a period.
OPEN = """
[search]
begins = "2026-07-04 12:00"
minutes = 15
periods = 3
[area]
cell_size = 2000
rows = 10
columns = 10
edge = "lost"
[[report]]
at = [10000, 10000]
time = "2026-07-04 12:15"
[searcher]
start = "r0c0"
speed = 40
sweep_width = 200
"""
CURRENT = "[[current]]\nknots = {}\ntowards = {}\n"
WIND = "[[wind]]\nknots = 10\nfrom = {}\n[drift]\nleeway = 0.03\n"


def given(text):
    return situation.situation(text.encode())


def reported(more, text=OPEN):
    """The text with another report."""
    return text.replace('at = [10000, 10000]\ntime = "2026-07-04 12:15"', more)


def looks(text, count=1000, seed=1):
    """The places at each look."""
    return tracks.simulated(given(text), count, seed).looks


def moved(text, look, count=1000):
    """How far tracks have gone from the middle of the open water at a look: all metres east, and all metres south."""
    return [[it[axis] - 10000 for it in looks(text, count)[look - 1]] for axis in (0, 1)]


class Statistics(unittest.TestCase):
    """Bounds are four standard errors, as a test says them."""

    def assert_mean(self, found, mean, deviation):
        self.assertLess(abs(statistics.fmean(found) - mean), 4 * deviation / math.sqrt(len(found)))

    def assert_variance(self, found, variance, kurtosis=3.0):
        """The variance of numbers from a distribution whose fourth central moment is kurtosis times its variance squared."""
        error = variance * math.sqrt((kurtosis - 1) / len(found))
        self.assertLess(abs(statistics.pvariance(found) - variance), 4 * error + variance * 4 / len(found))

    def assert_share(self, found, share):
        """How many of some truths are true."""
        self.assertLess(abs(sum(found) / len(found) - share), 4 * math.sqrt(share * (1 - share) / len(found)))

    def assert_alone(self, places, x, y):
        """That all places are one, to a micrometre."""
        for it in places:
            self.assertAlmostEqual(it[0], x, 6)
            self.assertAlmostEqual(it[1], y, 6)


class Displacements(Statistics):
    def test_a_current_carries_from_the_time_of_the_report(self):
        # 0.6 knots are 277.8 m in 15 minutes, 370.4 m in 20.
        found = looks(OPEN + CURRENT.format(0.6, 90), 3)
        for it, x in zip(found, (10000, 10277.8, 10555.6)):
            self.assert_alone(it, x, 10000)
        found = looks(reported('at = [10000, 10000]\ntime = "2026-07-04 11:55"') + CURRENT.format(0.6, 0), 3)
        for it, y in zip(found, (9629.6, 9351.8, 9074)):
            self.assert_alone(it, 10000, y)

    def test_a_tide_that_turns_inside_a_period(self):
        # From 12:15 on 10 minutes to the east at 0.6 knots are 185.2 m, 5 minutes to the west 92.6 m, and the next 15 minutes 277.8 m.
        tide = CURRENT.format(0.6, 90) + '[[current]]\nbegins = "12:25"\nknots = 0.6\ntowards = 270\n'
        first, second, third = looks(OPEN + tide, 2)
        self.assert_alone(first, 10000, 10000)
        self.assert_alone(second, 10092.6, 10000)
        self.assert_alone(third, 9814.8, 10000)
        # Who was there at 12:20 goes 5 minutes either way by 12:30.
        late = reported('at = [10000, 10000]\ntime = "2026-07-04 12:20"', OPEN + tide).replace("minutes = 15", "minutes = 30")
        self.assert_alone(looks(late, 2)[0], 10000, 10000)

    def test_legs_of_a_step_sum_to_its_exact_displacement(self):
        it = given(OPEN + CURRENT.format(0.7, 33) + '[[current]]\nbegins = "12:20"\nknots = 1.3\ntowards = 210\n' + WIND.format(77) +
                   '[[wind]]\nbegins = "12:27"\nknots = 31\nfrom = 140\n')
        step = tracks.step_of(it, Fraction(15), Fraction(30))
        self.assertEqual([leg.minutes for leg in step.legs], [5, 7, 3])
        by_hand = [geometry.displacement(geometry.metres(Fraction(knots), minutes), towards) for knots, minutes, towards in (
            ("0.7", 5, 33), ("1.3", 10, 210), ("0.3", 12, 257), ("0.93", 3, 320))]
        for axis, found in enumerate((sum(leg.east for leg in step.legs), sum(leg.south for leg in step.legs))):
            self.assertAlmostEqual(found, float(sum(each[axis] for each in by_hand)), 9)

    def test_wind_drives_by_its_leeway_and_a_current_against_it_cancels_it(self):
        # A south-west wind of 10 knots at a leeway of 3 percent drives with 0.3 knots, 138.9 m in a period, 98.217132 m along each axis.
        self.assert_alone(looks(OPEN + WIND.format(225), 2)[1], 10098.217132, 9901.782868)
        self.assertEqual(set(looks(OPEN + WIND.format(225) + CURRENT.format(0.3, 225), 2)[2]), {(10000.0, 10000.0)})


class Reports(Statistics):
    def test_a_circle_is_uniform(self):
        east, south = moved(reported('at = [10000, 10000]\nradius = 800\ntime = "2026-07-04 12:15"'), 1, 20_000)
        for along in (east, south):
            # Of a uniform disc the variance along an axis is r^2 / 4, the fourth moment r^4 / 8.
            self.assert_mean(along, 0, 400)
            self.assert_variance(along, 800**2 / 4, 2)
        far = [math.hypot(*it) for it in zip(east, south)]
        self.assertLessEqual(max(far), 800)
        self.assert_share([it < 400 for it in far], 1 / 4)

    def test_half_of_all_are_within_the_probable_error(self):
        east, south = moved(reported('at = [10000, 10000]\nprobable_error = 300\ntime = "2026-07-04 12:15"'), 1, 20_000)
        far = [math.hypot(*it) for it in zip(east, south)]
        # 1 - exp(-(r / sigma)^2 / 2), with exp(-(300 / sigma)^2 / 2) = 1/2: within twice as much are 1 - 1/2^4.
        self.assert_share([it < 300 for it in far], 1 / 2)
        self.assert_share([it < 600 for it in far], 15 / 16)
        for along in (east, south):
            self.assert_mean(along, 0, 300 / 1.17741)
            self.assert_variance(along, (300 / 1.17741) ** 2)

    def test_a_cell_is_uniform_and_no_other_place(self):
        places = looks(reported('cell = "r4c2"\ntime = "2026-07-04 12:15"'), 5000)[0]
        for axis, least in ((0, 4000), (1, 8000)):
            along = [it[axis] - least for it in places]
            self.assertTrue(all(0 <= it < 2000 for it in along))
            self.assert_mean(along, 1000, 2000 / math.sqrt(12))
            self.assert_variance(along, 2000**2 / 12, 1.8)
        # With a radius it is a circle around the middle of the cell.
        places = looks(reported('cell = "r4c2"\nradius = 0\ntime = "2026-07-04 12:15"'), 2)[0]
        self.assertEqual(set(places), {(5000.0, 9000.0)})

    def test_a_trackline_is_uniform_along_its_length(self):
        # 3000 m to the east, then 1000 m to the south: a quarter is on the second part.
        line = 'track = [[5000, 7000], [8000, 7000], [8000, 8000]]\n{}time = "2026-07-04 12:15"'
        places = looks(reported(line.format("")), 10_000)[0]
        first = [x for x, y in places if y == 7000]
        self.assert_share([y > 7000 for x, y in places], 1 / 4)
        self.assertTrue(all(x == 8000 for x, y in places if y > 7000))
        self.assert_mean(first, 6500, 3000 / math.sqrt(12))
        self.assert_variance(first, 3000**2 / 12, 1.8)
        # Around a place on the line, where x is far from its ends, the radius or the probable error is as around a point.
        for error, variance, kurtosis in (("radius = 200\n", 200**2 / 4, 2), ("probable_error = 200\n", (200 / 1.17741) ** 2, 3)):
            aside = [y - 7000 for x, y in looks(reported(line.format(error)), 10_000)[0] if 6000 < x < 7000]
            self.assert_mean(aside, 0, math.sqrt(variance))
            self.assert_variance(aside, variance, kurtosis)

    def test_the_error_along_a_trackline_is_whole_where_it_begins_at_the_edge(self):
        # From 100 m off the northern edge to the south-east; far from there, the way across the line is that of a uniform disc.
        line = 'track = [[1000, 100], [16000, 15100]]\nradius = 800\ntime = "2026-07-04 12:15"'
        across = [(x - y - 900) / math.sqrt(2) for x, y in looks(reported(line), 5000)[0] if x + y > 10000]
        self.assert_mean(across, 0, 400)
        self.assert_variance(across, 800**2 / 4, 2)

    def test_a_line_of_several_parts(self):
        line = Line([(0.0, 0.0), (3.0, 4.0), (3.0, 9.0)])
        for along, place in ((0.0, (0.0, 0.0)), (0.25, (1.5, 2.0)), (0.5, (3.0, 4.0)), (0.9, (3.0, 8.0))):
            self.assertEqual([round(it, 9) for it in line.drawn(lambda along=along: along)], [*place])

    def test_an_uncertain_time(self):
        # One knot to the east; at some time from 11:15 to 12:00, so 463 to 1852 m on at 12:15.
        times = reported('at = [10000, 10000]\ntime = "2026-07-04 11:15"\nuntil = "2026-07-04 12:00"') + CURRENT.format(1, 90)
        east, south = moved(times, 1, 5000)
        self.assertTrue(all(463 <= it <= 1852 for it in east))
        self.assert_mean(east, 1157.5, 1389 / math.sqrt(12))
        self.assert_variance(east, 1389**2 / 12, 1.8)
        self.assertEqual(set(south), {0})

    def test_each_report_by_its_weight_from_its_own_time(self):
        # Three of four were at the first place at 12:15, one of four in the second at 12:00, a period before.
        more = '[[report]]\nat = [5000, 5000]\ntime = "2026-07-04 12:00"\n' + CURRENT.format(1, 180)
        places = looks(reported('at = [10000, 10000]\nweight = 3\ntime = "2026-07-04 12:15"') + more, 5000)[0]
        self.assertEqual({tuple(round(axis, 6) for axis in it) for it in places}, {(10000, 10000), (5000, 5463)})
        self.assert_share([it[0] == 10000 for it in places], 3 / 4)

    def test_what_is_land_or_outside_is_drawn_anew(self):
        # The western half of a circle around the middle of the coast; of a half disc the mean is 4 r / (3 pi) from its straight side,
        # and the variance along that axis r^2 / 4 less the square of it.
        land = OPEN.replace("columns = 10\n", 'columns = 10\nland = ["r0c5..r9c9"]\n').replace("[10000, 10000]", "[9999.999, 10000]")
        places = looks(land.replace("12:15", "12:15") .replace("time =", "radius = 600\ntime ="), 5000)[0]
        self.assertTrue(all(x < 10000 and math.hypot(x - 10000, y - 10000) <= 600.01 for x, y in places))
        mean = 4 * 600 / (3 * math.pi)
        self.assert_mean([10000 - x for x, _ in places], mean, math.sqrt(600**2 / 4 - mean**2))
        # A circle that is much larger than the area leaves the area uniform; so does a probable error.
        for error in ("radius = 100000\n", "probable_error = 100000\n"):
            places = looks(reported(f'at = [10000, 10000]\n{error}time = "2026-07-04 12:15"'), 2000)[0]
            self.assertTrue(all(0 <= axis < 20000 for it in places for axis in it))
            for axis in (0, 1):
                self.assert_variance([it[axis] for it in places], 20000**2 / 12 , 1.8)

    def test_a_report_that_is_hardly_in_the_area(self):
        text = reported('track = [[100, 100], [200, 200]]\nradius = 100000\ntime = "2026-07-04 12:15"').replace("cell_size = 2000", "cell_size = 200")
        with self.assertRaisesRegex(keys.BadSituation, r"^\[\[report\]\] 1 radius or probable_error: hardly one"):
            looks(text, 1000)


class Spread(Statistics):
    def test_a_period_spreads_uniformly_along_both_axes(self):
        first = moved(OPEN + "[drift]\nspread = 90\n", 2, 10_000)
        for along in first:
            self.assertLessEqual(max(abs(it) for it in along), 90)
            self.assert_mean(along, 0, 90 / math.sqrt(3))
            self.assert_variance(along, 90**2 / 3, 1.8)
        self.assert_mean([one * other for one, other in zip(*first)], 0, 90**2 / 3)

    def test_it_is_drawn_anew_in_each_period_and_goes_by_the_root_of_time_before(self):
        # In periods of s^2 / 3 each: two by the third look; 20 minutes are 4/3 of a period; 44 hours are 176, in steps of several.
        # So it is beside a report of an earlier time, whose steps the other one shares.
        old = reported('at = [10000, 10000]\ntime = "2026-07-04 11:55"')
        oldest = reported('at = [10000, 10000]\ntime = "2026-07-02 16:15"')
        earlier = '[[report]]\nat = [10000, 10000]\nweight = 0.000001\ntime = "2026-07-04 11:45"\n'
        for text, look, periods in ((OPEN, 3, 2), (old, 1, 4 / 3), (old + earlier, 1, 4 / 3), (oldest, 1, 176)):
            for along in moved(text + "[drift]\nspread = 90\n", look, 5000):
                self.assert_mean(along, 0, 90 * math.sqrt(periods / 3))
                self.assert_variance(along, periods * 90**2 / 3)

    def test_it_is_shared_by_the_parts_of_a_period_in_which_a_tide_turns(self):
        tide = CURRENT.format(0, 90) + '[[current]]\nbegins = "12:25"\nknots = 0\ntowards = 270\n'
        places, alike = (looks(OPEN + it + "[drift]\nspread = 90\n", 100)[1] for it in (tide, ""))
        for it, other in zip(places, alike):
            self.assert_alone([it], *other)


class Persons(Statistics):
    def test_the_error_of_the_current_is_kept(self):
        # 0.2 knots are 92.6 m in a period; in two periods twice as much, along the same line.
        found = looks(OPEN + "[drift]\ncurrent_error = 0.2\n", 10_000)
        for (x, y), (then_x, then_y) in zip(*found[1:]):
            self.assertAlmostEqual(then_x - 10000, 2 * (x - 10000), 6)
            self.assertAlmostEqual(then_y - 10000, 2 * (y - 10000), 6)
        for axis in (0, 1):
            self.assert_mean([it[axis] for it in found[1]], 10000, 92.6)
            self.assert_variance([it[axis] for it in found[1]], 92.6**2)

    def test_the_error_of_the_wind_counts_by_the_leeway(self):
        # 4 knots at 3 percent are 0.12 knots, 55.56 m in a period, along each axis, whatever the divergence.
        for more in ("", "divergence = 40\n"):
            east, south = moved(OPEN + WIND.format(270) + "wind_error = 4\n" + more, 2, 10_000)
            turn = math.radians(40 if more else 0)
            # Downwind go 138.9 m; a half goes to each side, so that the mean across is 0.
            self.assert_mean(east, 138.9 * math.cos(turn), 55.56)
            self.assert_variance(east, 55.56**2)
            self.assert_variance(south, 55.56**2 + (138.9 * math.sin(turn)) ** 2)

    def test_the_leeway_turns_with_the_wind_of_a_person(self):
        # The wind blows with 10 knots to the north, and with errors of one standard deviation, 4 knots to the east and 4 to the south: 4 to
        # the east and 6 to the north. To the right by 30 degrees go 4 cos 30 + 6 sin 30 = 6.464102 knots to the east and
        # 6 cos 30 - 4 sin 30 = 3.196152 to the north; 3 percent of it make 13.89 m in a period of each knot. To the left go
        # 4 cos 30 - 6 sin 30 = 0.464102 and 6 cos 30 + 4 sin 30 = 7.196152.
        it = given(OPEN + WIND.format(180) + "wind_error = 4\ndivergence = 30\n")
        step = tracks.step_of(it, Fraction(15), Fraction(30))
        for side, knots_east, knots_north in ((0.2, 6.464102, 3.196152), (0.7, 0.464102, 7.196152)):
            person = tracks.Person(it.drift, 15.0, iter((0.841344746, 0.841344746, side)).__next__)
            (((east, south, share),),) = (moves for _, moves in person.moves([step]))
            self.assertAlmostEqual(east, 13.89 * knots_east, 3)
            self.assertAlmostEqual(south, -13.89 * knots_north, 3)
            self.assertEqual(share, 1)

    def test_the_error_of_the_leeway_goes_downwind(self):
        # 0.5 percent of 10 knots are 0.05 knots, 23.15 m in a period, around the 138.9 m of the leeway.
        east, south = moved(OPEN + WIND.format(270) + "leeway_error = 0.005\n", 2, 10_000)
        self.assert_mean(east, 138.9, 23.15)
        self.assert_variance(east, 23.15**2)
        self.assertEqual(set(south), {0})

    def test_divergence_has_two_sides(self):
        # 138.9 m by 30 degrees: 138.9 * 0.866025404 = 120.290929 m downwind and 69.45 m to one side. A wind from 225 goes to 045, and the
        # leeway to 015 and 075: 138.9 * 0.965925826 = 134.167097 m along one axis and 138.9 * 0.258819045 = 35.949965 m along the other.
        for wind, left, right in (
            (180, (-69.45, -120.290929), (69.45, -120.290929)),
            (270, (120.290929, -69.45), (120.290929, 69.45)),
            (225, (35.949965, -134.167097), (134.167097, -35.949965)),
        ):
            places = list(zip(*moved(OPEN + WIND.format(wind) + "divergence = 30\n", 2, 4000)))
            wanted = {tuple(round(axis, 4) for axis in it) for it in (left, right)}
            self.assertEqual({tuple(round(axis, 4) for axis in it) for it in places}, wanted)
            self.assert_share([math.dist(it, right) < 1 for it in places], 1 / 2)
        # The side is kept.
        for (x, _), (then_x, _) in zip(*looks(OPEN + WIND.format(180) + "divergence = 30\n", 100)[1:]):
            self.assertAlmostEqual(then_x - 10000, 2 * (x - 10000), 6)

    def test_jibing_changes_the_side_at_its_rate(self):
        # A chance of a half in an hour: then a half is still on its first side after an hour, a quarter after two.
        hours = OPEN.replace("minutes = 15", "minutes = 60").replace("12:15", "13:00")
        found = looks(hours + WIND.format(180) + "divergence = 30\njibing = 0.5\n", 10_000)
        aside = 4 * 69.45
        self.assert_share([abs(abs(it[0] - 10000) - aside) < 1e-6 for it in found[1]], 1 / 2)
        self.assert_share([abs(abs(it[0] - 10000) - 2 * aside) < 1e-6 for it in found[2]], 1 / 4)
        # The rate is ln 2 = L in an hour. Two sides so many hours apart agree by exp(-2 L t) on the mean, so that the variance of an
        # hour's way aside is that of a kept side times 1 / L - (1 - exp(-2 L)) / (2 L^2) = 0.662182.
        self.assert_variance([it[0] for it in found[1]], 0.662182 * aside**2)
        # All go downwind alike.
        self.assertEqual({round(it[1], 4) for it in found[1]}, {round(10000 - 4 * 120.290929, 4)})

    def test_legs_are_cut_where_the_side_changes_and_where_the_wind_turns(self):
        # Sides change so often that nearly all go downwind alone, whichever way the wind turns inside a period.
        turning = WIND.replace("from = {}\n", 'from = 180\n[[wind]]\nbegins = "12:20"\nknots = 30\nfrom = 270\n')
        it = given(OPEN + turning + "divergence = 20\njibing = 0.9\n")
        person = tracks.Person(it.drift, 15.0, random.Random(3).random)
        person.rate, person.turns = 10.0, 15.0
        ((_, moves),) = person.moves([tracks.step_of(it, Fraction(15), Fraction(30))])
        self.assertGreater(len(moves), 100)
        self.assertAlmostEqual(sum(share for *_, share in moves), 1, 9)
        downwind = math.cos(math.radians(20))
        # 0.3 knots to the north for 5 minutes, 46.3 m, and 0.9 to the east for 10, 277.8 m; across go some metres by chance.
        self.assertAlmostEqual(sum(east for east, _, _ in moves), 277.8 * downwind, delta=10)
        self.assertAlmostEqual(sum(south for _, south, _ in moves), -46.3 * downwind, delta=10)


class Land(unittest.TestCase):
    SIDE = 100

    def water(self, *rows, is_lost=False):
        """Water between land, which is # in a picture of rows."""
        land = frozenset((row, column) for row, line in enumerate(rows) for column, it in enumerate(line) if it == "#")
        return Water(geometry.Grid(len(rows), len(rows[0]), Fraction(self.SIDE), land), is_lost)

    def test_a_wall_holds_straight_and_diagonally(self):
        draw = random.Random(5).random
        walls = (
            (("..#....", "..#....", "..#....", "..#....", "..#...."), lambda x, y: x < 200),
            (("....#", "...#.", "..#..", ".#...", "#...."), lambda x, y: x + y < 500),
            (("#....", ".#...", "..#..", "...#.", "....#"), lambda x, y: y > x),
        )
        for rows, is_here in walls:
            for is_lost in (False, True):
                water, place, held = self.water(*rows, is_lost=is_lost), None, 0
                for _ in range(4000):
                    if place is None:
                        place = next(it for it in iter(lambda: (500 * draw(), 500 * draw()), 0) if water.is_water(*it) and is_here(*it))
                    # Up to six squares along each axis at once.
                    to = water.gone(place, *(600 * (2 * draw() - 1) for _ in range(2)))
                    self.assertTrue(to is None and is_lost or to and water.is_water(*to) and is_here(*to), (place, to))
                    held, place = held + (to is not None), to
                self.assertGreater(held, 500)

    def test_it_is_passed_through_a_gap(self):
        water = self.water("..#..", ".....", "..#..")
        self.assertEqual([round(it, 9) for it in water.gone((150.0, 150.0), 200.0, 0.0)], [350, 150])
        x, y = water.gone((150.0, 50.0), 200.0, 0.0)
        # It stays before the land, by no more than a sixteenth of a part, which is less than a square.
        self.assertEqual(y, 50)
        self.assertTrue(200 - 100 / 16 <= x < 200, x)

    def test_between_two_corners_of_land_nobody_goes(self):
        water = self.water(".#", "#.")
        x, y = water.gone((50.0, 50.0), 100.0, 100.0)
        self.assertTrue(x == y and 100 - 100 / 16 <= x < 100, (x, y))
        # Past one corner there is a way.
        self.assertEqual(self.water("..", "#.").gone((50.0, 50.0), 100.0, 100.0), (150.0, 150.0))

    def test_where_land_is_near_and_not_touched_the_way_is_the_same(self):
        water = self.water(".....", ".....", ".....", "#####")
        x, y = water.gone((30.0, 210.0), 440.0, 80.0)
        self.assertAlmostEqual(x, 470)
        self.assertAlmostEqual(y, 290)

    def test_the_edge_holds_or_loses_on_each_side(self):
        for east, south, there in ((500, 0, (299.999, 150)), (-500, 0, (0, 150)), (0, 500, (150, 299.999)), (0, -500, (150, 0)), (500, -500, (299.999, 0))):
            for rows in (("...", "...", "..."), ("...", "...", ".#.")):
                if "#" in rows[2] and south > 0:
                    continue
                self.assertEqual(self.water(*rows).gone((150.0, 150.0), float(east), float(south)), there)
                self.assertIsNone(self.water(*rows, is_lost=True).gone((150.0, 150.0), float(east), float(south)))

    def test_what_is_held_at_the_edge_goes_along_it_until_land(self):
        water = self.water("....#", ".....")
        self.assertEqual(water.gone((50.0, 50.0), 200.0, -300.0), (250.0, 0.0))
        x, y = water.gone((50.0, 50.0), 500.0, -300.0)
        self.assertTrue(y == 0 and 400 - 100 / 16 <= x < 400, (x, y))
        # So it does where the way across the edge is long, and the way along it short; that takes no longer.
        x, y = water.gone((150.0, 150.0), 30.0, 1e9)
        self.assertAlmostEqual(x, 180, 3)
        self.assertEqual(y, 199.999)


class Whole(unittest.TestCase):
    """Simulations of a situation with all there is."""

    COAST = """
[search]
begins = "2026-07-04 12:00"
minutes = 20
periods = 4
[area]
cell_size = 333.3
rows = 9
columns = 11
land = ["r0c0..r2c1", "r4c5", "r5c6", "r6c5..r8c5"]
edge = "{}"
[[report]]
at = [800, 1700]
probable_error = 300
weight = 2
time = "2026-07-04 10:50"
until = "2026-07-04 11:50"
[[report]]
track = [[1000, 600], [2000, 900], [3000, 1200]]
radius = 100
time = "2026-07-04 12:05"
[[report]]
cell = "r3c3"
time = "2026-07-04 12:20"
[[current]]
knots = 1.1
towards = 75
[[current]]
begins = "12:50"
knots = 0.9
towards = 200
[[wind]]
knots = 14
from = 300
[drift]
spread = 70
leeway = 0.03
current_error = 0.2
wind_error = 3
leeway_error = 0.005
divergence = 25
jibing = 0.1
[searcher]
start = "r8c0"
speed = 6
sweep_width = 100
"""

    def test_mass_is_neither_lost_nor_made_and_nobody_is_on_land(self):
        for edge in ("stays", "lost"):
            it = given(self.COAST.format(edge))
            found = tracks.simulated(it, 2000)
            self.assertEqual((found.count, found.seed, len(found.looks)), (2000, 1, 4))
            lost = set()
            for places in found.looks:
                self.assertEqual(len(places), 2000)
                now = {at for at, place in enumerate(places) if place is None}
                self.assertTrue(all(it.grid.is_water(it.grid.square_at(place)) for place in places if place))
                # Who is lost never comes back.
                self.assertLessEqual(lost, now)
                lost = now
            self.assertEqual(bool(lost), edge == "lost")

    def test_the_same_seed_gives_the_same_tracks_and_another_others(self):
        it = given(self.COAST.format("lost"))
        first, again, other = tracks.simulated(it, 300, 7), tracks.simulated(it, 300, 7), tracks.simulated(it, 300, 8)
        self.assertEqual(first, again)
        self.assertTrue(all(one != another for one, another in zip(first.looks[0], other.looks[0]) if one))
        # More tracks begin as fewer do.
        self.assertEqual(tracks.simulated(it, 400, 7).looks[3][:300], first.looks[3])
        chosen = given(self.COAST.format("lost") + "[tracks]\ncount = 1000\nseed = 7\n")
        self.assertEqual(tracks.simulated(chosen).looks[0][:300], first.looks[0])
        self.assertEqual(len(tracks.simulated(chosen).looks[0]), 1000)

    def test_the_draws_of_a_track_stand_in_this_order(self):
        # random.Random(7).random() gives, first of all, as python3 promises:
        numbers = (0.32383276483316237, 0.15084917392450192, 0.6509344730398537, 0.07243628666754276, 0.5358820043066892)
        generator = random.Random(7)
        self.assertEqual(tuple(generator.random() for _ in range(5)), numbers)
        # The first chooses among the reports; two are the place in a cell at (8000, 6000); two are the spread of the step after look 1.
        places = looks(reported('cell = "r3c4"\ntime = "2026-07-04 12:15"', OPEN.replace("periods = 3", "periods = 2")) + "[drift]\nspread = 100\n", 1, 7)
        x, y = 8000 + 2000 * numbers[1], 6000 + 2000 * numbers[2]
        self.assertAlmostEqual(places[0][0][0], x, 9)
        self.assertAlmostEqual(places[0][0][1], y, 9)
        self.assertAlmostEqual(places[1][0][0], x + 100 * (2 * numbers[3] - 1), 9)
        self.assertAlmostEqual(places[1][0][1], y + 100 * (2 * numbers[4] - 1), 9)


class Draws(unittest.TestCase):
    def test_normal_numbers_by_a_table(self):
        # Standard normal quantiles, as tables have them.
        for chance, number in ((0.5, 0.0), (0.75, 0.67449), (0.975, 1.95996), (0.0013499, -3.0)):
            self.assertAlmostEqual(draws.normal(chance), number, 4)
            self.assertAlmostEqual(draws.below(number), chance, 4)
        self.assertEqual((draws.normal(0.0), draws.normal(1.0)), (0, 0))
        self.assertEqual(draws.normal(0.3), round(draws.normal(0.3), 9))

    def test_rates_and_waiting_times(self):
        self.assertEqual(draws.rate(0.0), 0)
        self.assertAlmostEqual(draws.rate(0.5), math.log(2), 8)
        # Half of all wait for less than ln 2 times the mean.
        self.assertAlmostEqual(draws.waiting(4.0, lambda: 0.5), math.log(2) / 4, 8)
        self.assertEqual(draws.waiting(4.0, lambda: 0.0), 0)
        self.assertAlmostEqual(1 - math.exp(-draws.HALF_WITHIN**2 / 2), 0.5, 12)


class Wrong(unittest.TestCase):
    def test_what_contradicts(self):
        report = 'at = [10000, 10000]\ntime = "2026-07-04 12:15"'
        for old, new, wanted in (
            (report, f"{report}\nradius = 4\nprobable_error = 5", "[[report]] 1 probable_error: either it or radius should stand"),
            (report, f"{report}\ntrack = [[1, 1], [2, 2]]", "[[report]] 1 cell: one of it, at and track should stand"),
            (report, 'time = "2026-07-04 12:15"', "[[report]] 1 cell: one of it, at and track should stand"),
            ("at = [10000, 10000]", "track = [[1, 1]]", "[[report]] 1 track: it should be a list of 2 to 50 such places"),
            ("at = [10000, 10000]", "track = [[1, 1], [1, 1]]", "[[report]] 1 track: it should be a list of 2 to 50 such places"),
            ("at = [10000, 10000]", "track = [[1, 1], [30000, 1]]", "[[report]] 1 track: it should be in a cell of the area that isn't land, and is in r0c15"),
            (report, f'{report}\nuntil = "2026-07-04 12:15"', "[[report]] 1 until: it should be after time, which is 2026-07-04 12:15"),
            (report, f'{report}\nuntil = "2026-07-04 12:20"', "[[report]] 1 until: it should be at most two days before the search begins, and not after"),
            (report, f"{report}\nprobable_error = 0", "[[report]] 1 probable_error: it should be metres above 0"),
            ("[[report]]", "[drift]\ndivergence = 20\n[[report]]", "[drift] divergence: it should stand with [[wind]]"),
            ("[[report]]", "[drift]\nwind_error = 2\n[[report]]", "[drift] wind_error: it should stand with [[wind]]"),
            ("[[report]]", "[drift]\nleeway_error = 0.1\n[[report]]", "[drift] leeway_error: it should stand with [[wind]]"),
            ("[[report]]", f"{WIND.format(0)}jibing = 0.1\n[[report]]", "[drift] jibing: it should stand with divergence"),
            ("[[report]]", f"{WIND.format(0)}divergence = 91\n[[report]]", "[drift] divergence: it should be degrees from 0 to 90"),
            ("[[report]]", "[drift]\ncurrent_error = 0.1\n[[report]]", None),
            ("[[report]]", "[tracks]\ncount = 999\n[[report]]", "[tracks] count: it should be a whole number from 1000 to 200000"),
            ("[[report]]", "[tracks]\nfiner = 5\n[[report]]", "[tracks] finer: it should be a whole number from 1 to 4"),
        ):
            with self.subTest(new):
                self.assertEqual(OPEN.count(old), 1)
                text = OPEN.replace(old, new)
                if wanted is None:
                    given(text)
                    continue
                with self.assertRaises(keys.BadSituation) as caught:
                    given(text)
                self.assertIn(wanted, str(caught.exception))


if __name__ == "__main__":
    unittest.main()
