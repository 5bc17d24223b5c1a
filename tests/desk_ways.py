"""Tests which squares the searcher reaches, and when reports, nights and looks are. Values in comments are worked by hand."""
import math
import random
import unittest
from fractions import Fraction

from desk import detection, draft, geometry, keys, margins, moments, situation, ways

# Squares of 926 m; at 20 knots (617.33 m a minute) the way to the next one is 1.5 minutes. The boat lies in the middle of 9 by 9 squares.
SEA = """
[search]
begins = "2026-07-04 12:00"
minutes = 15
periods = 3
[area]
cell_size = 926
rows = 9
columns = 9
[[report]]
cell = "r1c1"
time = "11:00"
[searcher]
start = "r4c4"
speed = 20
sweep_width = 200
search_minutes = 12
[tracks]
count = 1000
"""


def given(*changes, text=SEA):
    """The situation of a text with these changes, pairs of old and new."""
    for old, new in changes:
        if old not in text:
            raise AssertionError(f"{old} isn't in the text")
        text = text.replace(old, new)
    return situation.situation(text.encode())


def said(*changes, text=SEA):
    """Why there is no situation of a text with these changes."""
    try:
        given(*changes, text=text)
    except keys.BadSituation as wrong:
        return str(wrong)
    raise AssertionError("it is taken")


def searching(minutes):
    """The change to so many minutes of search."""
    return "search_minutes = 12", f"search_minutes = {minutes}"


def land(*squares):
    return "columns = 9", "columns = 9\nland = [" + ", ".join(f'"{it}"' for it in squares) + "]"


def coming(base, enters, more=""):
    """The change to a searcher that comes from a base."""
    return 'start = "r4c4"', f'base = {base}\nenters = ["{enters}"]\n{more}'


class Reached(unittest.TestCase):
    def offsets(self, *changes):
        """Where the moves from the middle lead, in rows and columns."""
        return {(row - 4, column - 4) for row, column in ways.moves(given(*changes), (4, 4))}

    def test_a_square_is_reached_in_exactly_the_minutes_that_are_left_and_not_in_a_second_less(self):
        # A way of n squares takes 1.5 n minutes. Of all squares around the middle so many are within 1, 2, 3 and 4 squares.
        for search, far, count in ((13.5, 1, 5), (12, 4, 13), (12.017, 2, 9), (10.5, 9, 29), (10.517, 8, 25), (9, 16, 49), (9.017, 13, 45)):
            found = self.offsets(searching(search))
            self.assertEqual((max(row * row + column * column for row, column in found), len(found)), (far, count), search)

    def test_of_more_than_64_the_nearest_and_of_those_that_are_alike_all_or_none(self):
        # 7.5 minutes are 5 squares: 77 of the 81 squares. 61 are within the root of 18, and 8 more at the root of 20.
        found = self.offsets(searching(7.5))
        self.assertEqual((len(found), max(row * row + column * column for row, column in found)), (61, 18))
        self.assertIn((3, -3), found)

    def test_4_and_8_are_choices_and_time_still_counts(self):
        sides = {(0, 0), (0, 1), (1, 0), (0, -1), (-1, 0)}
        corners = {(1, 1), (1, -1), (-1, 1), (-1, -1)}
        for reaches, search, found in ((4, 5, sides), (8, 5, sides | corners), (8, 13.5, sides)):
            self.assertEqual(self.offsets(("speed = 20", f"speed = 20\nreaches = {reaches}"), searching(search)), found)
        self.assertEqual(self.offsets(("speed = 20", "speed = 20\nreaches = 4\nstays = false")), sides - {(0, 0)})

    def test_a_way_goes_round_land_and_not_between_two_corners_of_it(self):
        # Round one square of land by two diagonals: 2 * 1.41421 * 1.5 = 4.2426 minutes.
        for search, is_reached in ((10.75, True), (10.76, False)):
            self.assertEqual((0, 2) in self.offsets(searching(search), land("r4c5")), is_reached, search)
        self.assertIn((-1, 1), self.offsets(land("r4c5")))
        self.assertNotIn((-1, 1), self.offsets(land("r4c5", "r3c4")))
        # Then by three diagonals.
        found = given(land("r4c5", "r3c4")).ways.lengths((4, 4))[3, 5]
        self.assertAlmostEqual(found, 3 * math.sqrt(2), 12)
        # What a wall shuts off isn't reached at all, or by its end alone.
        shut = given(land("r0c5..r8c5")).ways.lengths((4, 4))
        self.assertEqual({column for _, column in shut}, {0, 1, 2, 3, 4})
        wall = given(land("r0c5..r7c5")).ways.lengths((4, 4))
        # To r7c4, 3 squares; a diagonal to r8c5 and one to r7c6; 3 squares up.
        self.assertAlmostEqual(wall[4, 6], 3 + 2 * math.sqrt(2) + 3, 12)

    def test_open_water_is_crossed_straight(self):
        found = given().ways.lengths((4, 4))
        self.assertEqual(found, {(row, column): math.sqrt((row - 4) ** 2 + (column - 4) ** 2) for row in range(9) for column in range(9)})

    def test_lengths_are_those_of_another_computation(self):
        """All pairs by Floyd and Warshall over lines that are looked at point by point."""
        draw = random.Random(3)
        for _ in range(3):
            squares = [(row, column) for row in range(5) for column in range(5)]
            ground = frozenset(draw.sample(squares, 6))
            grid = geometry.Grid(5, 5, Fraction(100), ground)
            who = situation.Searcher(None, None, frozenset(), 0, Fraction(5), Fraction(1), Fraction(1), None, True, None, None)
            found = ways.Ways(grid, who, Fraction(15))
            water = grid.cells()
            far = {(a, b): math.dist(a, b) if self.is_clear(ground, a, b) else math.inf for a in water for b in water}
            for by in water:
                for a in water:
                    for b in water:
                        far[a, b] = min(far[a, b], far[a, by] + far[by, b])
            for a in water:
                lengths = found.lengths(a)
                for b in water:
                    self.assertAlmostEqual(lengths.get(b, math.inf), far[a, b], 9, (sorted(ground), a, b))

    @staticmethod
    def is_clear(ground, a, b):
        """Whether no point of the line between two middles is in land, and none is a corner between two squares of land."""
        for it in range(241):
            # In parts of which 480 make a side.
            y, x = (480 * p + 240 + 2 * it * (q - p) for p, q in zip(a, b))
            row, column = y // 480, x // 480
            if y % 480 == x % 480 == 0:
                corners = {(row - 1, column - 1), (row - 1, column), (row, column - 1), (row, column)}
                if len(corners & ground) > 1:
                    return False
            elif y % 480 and x % 480 and (row, column) in ground:
                return False
        return True


class Minutes(unittest.TestCase):
    def test_the_search_lasts_what_the_way_to_the_next_square_leaves(self):
        # By its corner: 1.5 * 1.41421 = 2.1213 of 15 minutes. By its side alone: 1.5.
        without = ("search_minutes = 12\n", "")
        for more, minutes in (([], "12.87"), ([("speed = 20", "speed = 20\nreaches = 4")], "13.5"), ([("rows = 9", "rows = 1"), ("r4c4", "r0c4"), ("r1c1", "r0c1")], "13.5")):
            self.assertEqual(given(without, *more).searcher.search_minutes, Fraction(minutes))
        alone = [("rows = 9", "rows = 1"), ("columns = 9", "columns = 1"), ("r4c4", "r0c0"), ("r1c1", "r0c0")]
        self.assertEqual(given(without, *alone).searcher.search_minutes, 15)
        self.assertEqual(len(ways.moves(given(without), (4, 4))), 9)

    def test_who_cannot_be_at_the_next_square_in_time_is_told(self):
        for changes, wanted in (
            ([searching(14)], "[searcher] search_minutes: the way to the next cell takes 1.5 minutes, and the search leaves 1 of a period's 15; "
                              "take fewer, as in search_minutes = 12.87"),
            ([searching(12), ("speed = 20", "speed = 2")], "[searcher] search_minutes: the way to the next cell takes 15 minutes, and the search "
                              "leaves 3 of a period's 15; take longer periods, or smaller cells, as in [search] minutes = 35"),
            # By its corner the way is 21.2 minutes.
            ([("search_minutes = 12\n", ""), ("speed = 20", "speed = 2")], "[searcher] speed: at 2 knots the way to the next cell takes 21.21 minutes, and "
                              "leaves nothing of a period's 15 for the search; take longer periods, or smaller cells, as in [search] minutes = 25"),
        ):
            self.assertEqual(said(*changes), wanted)

    def test_from_a_base_in_time(self):
        # The base lies 2 squares west of the middle of r4c0: 3 minutes. To r3c0 it is the root of 5 squares: 3.354 minutes.
        for more, search, found in (("", 12, [(4, 0)]), ("", 12.017, None), ('leaves = "11:59:30"', 12, [(3, 0), (4, 0), (5, 0)]), ("", 11.6, [(3, 0), (4, 0), (5, 0)])):
            changes = [coming("[-1389, 4167]", "r2c0..r6c0", more), searching(search)]
            if found:
                self.assertEqual(ways.moves(given(*changes), ways.BASE), found)
            else:
                self.assertIn("[searcher] base: the way to r4c0, the nearest cell that it enters, takes 3 minutes, and the search leaves 2.98", said(*changes))
        # 10463 m are 16.948 minutes, 13.948 more than the 3 of period 1.
        wanted = '[searcher] base: the way to r4c0, the nearest cell that it enters, takes 16.95 minutes, and the search leaves 3; say when it leaves, '
        wanted += 'as in leaves = "2026-07-04 11:46", or let the search begin later'
        self.assertEqual(said(coming("[-10000, 4167]", "r2c0..r6c0")), wanted)
        self.assertEqual(ways.moves(given(coming("[-10000, 4167]", "r2c0..r6c0", 'leaves = "11:46"')), ways.BASE), [(4, 0)])

    def test_a_base_behind_land(self):
        # Round r2c1..r6c1 the way is straight to r1c1, by a diagonal to r2c2, and 2 squares on: 4.243 + 1.414 + 2 are 11.49 minutes.
        for squares, leaves, found in (("r8c8", "11:50", [(4, 0), (4, 2)]), ("r2c1..r6c1", "11:51:29", [(4, 0), (4, 2)]),
                                       ("r2c1..r6c1", "11:51:31", [(4, 0)]), ("r0c1..r8c1", "11:00", [(4, 0)])):
            base = coming("[-1389, 4167]", 'r4c0", "r4c2', f'leaves = "{leaves}"')
            self.assertEqual(ways.moves(given(base, land(squares), ('"r1c1"', '"r8c0"')), ways.BASE), found, squares)
        self.assertIn("no way over water leads there", said(coming("[-1389, 4167]", "r4c2"), land("r0c1..r8c1"), ('"r1c1"', '"r8c0"')))

    def test_when_it_leaves(self):
        for more, wanted in (('leaves = "12:01"', "[searcher] leaves: it is later than the search's begin at 2026-07-04 12:00"),
                             ('leaves = "2026-07-03 11:59"', "[searcher] leaves: it should be at most a day before")):
            self.assertIn(wanted, said(coming("[-1389, 4167]", "r4c0", more)))
        self.assertIn("[searcher] leaves: it should stand where base does", said(('start = "r4c4"', 'start = "r4c4"\nleaves = "11:00"')))


class Dates(unittest.TestCase):
    def age(self, begins, time):
        """How many minutes before the begin a report is."""
        return -given(('"2026-07-04 12:00"', f'"{begins}"'), ('"11:00"', f'"{time}"')).reports[0].minutes

    def test_a_report_without_a_date_is_of_the_last_such_time_up_to_the_begin(self):
        for begins, time, age in (("12:00", "12:00", 0), ("12:00", "11:59", 1), ("19:30", "05:30", 840), ("05:45", "22:30", 435), ("00:10", "23:40", 30),
                                  ("12:00", "00:00", 720), ("2026-07-04 12:00", "11:59", 1), ("2026-07-04 05:45", "2026-07-03 22:30", 435)):
            self.assertEqual(self.age(begins, time), age, (begins, time))

    def test_a_report_that_is_later_than_the_begin_needs_a_date(self):
        for begins, time in (("12:00", "12:01"), ("12:00", "12:15"), ("12:00", "23:59"), ("05:45", "13:00"), ("2026-07-04 12:00", "12:01")):
            with self.assertRaises(keys.BadSituation) as caught:
                self.age(begins, time)
            date = "2026-07-03" if "-" in begins else "2026-07-04"
            self.assertIn(f"[[report]] 1 time: it is later than the search's begin at {begins}; where it was on the day before", str(caught.exception))
            self.assertIn(f'write the date, as in time = "{date} {time}"', str(caught.exception))
            self.assertIn("else let the search begin later", str(caught.exception))
        self.assertEqual(self.age("2026-07-04 12:00", "2026-07-04 12:15"), -15)

    def test_minutes_in_words(self):
        for minutes, words in ((0, "0 minutes"), (1, "1 minute"), ("45.5", "45.5 minutes"), (119, "119 minutes"), (120, "2 h"), (435, "7 h 15 min"), (2880, "48 h")):
            self.assertEqual(moments.lasting(Fraction(minutes)), words)


class Nights(unittest.TestCase):
    def factors(self, light, begins="2026-07-04 12:00", minutes=60, periods=32):
        it = given(('"2026-07-04 12:00"', f'"{begins}"'), ("minutes = 15", f"minutes = {minutes}"), ("periods = 3", f"periods = {periods}"),
                   ("[searcher]", f"[light]\n{light}\nnight = 0.5\n[searcher]"), ('"11:00"', f'"{begins}"'))
        return [detection.factor(it.visibility, it.look_time(t - 1), it.look_time(t)) for t in range(1, periods + 1)]

    def test_it_is_light_again_on_the_second_day(self):
        half = Fraction(1, 2)
        both = 'sunset = "20:00"\nsunrise = "06:00"'
        # From noon: 8 hours of day, 10 of night, 14 of day.
        self.assertEqual(self.factors(both), [1] * 8 + [half] * 10 + [1] * 14)
        # From 22:00 on: 8 of night, 14 of day, 10 of night.
        self.assertEqual(self.factors(both, "2026-07-04 22:00"), [half] * 8 + [1] * 14 + [half] * 10)
        # From 07:00 on: 13 of day, 10 of night, 9 of day; a sunset of yesterday is as good as one of today.
        for sunset in ("20:00", "2026-07-03 20:00"):
            self.assertEqual(self.factors(both.replace("20:00", sunset), "2026-07-04 07:00"), [1] * 13 + [half] * 10 + [1] * 9)

    def test_32_days(self):
        # Each day has 14 hours of day and 10 of night: (14 + 10 / 2) / 24.
        self.assertEqual(self.factors('sunset = "20:00"\nsunrise = "06:00"', minutes=1440), [Fraction(19, 24)] * 32)

    def test_both_are_needed_where_the_search_lasts(self):
        # 12:00 and 20 periods of an hour end at 08:00, 12 hours after a sunset at 20:00.
        self.assertEqual(self.factors('sunset = "20:00"', periods=20), [1] * 8 + [Fraction(1, 2)] * 12)
        self.assertEqual(self.factors('sunrise = "14:00"', periods=14), [Fraction(1, 2)] * 2 + [1] * 12)
        for light, periods, lacking in (('sunset = "20:00"', 21, "sunrise"), ('sunrise = "14:00"', 15, "sunset")):
            with self.assertRaisesRegex(keys.BadSituation, rf"\[light\] {lacking} is lacking: the search ends at .*, so both should stand, as in {lacking} = "):
                self.factors(light, periods=periods)
        with self.assertRaisesRegex(keys.BadSituation, r"\[light\] sunset: it should be another time than sunrise"):
            self.factors('sunset = "20:00"\nsunrise = "20:00"')


class Margins(unittest.TestCase):
    """A current of 4 knots makes 1852 m in 15 minutes, two squares of 926 m; persons begin anywhere in r4c4, and are 5 squares on at the last
    look, at 12:37:30 (2.5 periods after 12:00)."""

    def current(self, towards, knots=4, *changes):
        it = ("[[report]]", f"[[current]]\nknots = {knots}\ntowards = {towards}\n[[report]]")
        return given(it, ('"r1c1"', '"r4c4"'), ('"11:00"', '"2026-07-04 12:00"'), ("periods = 3", "periods = 2"), *changes)

    def test_which_side_and_by_how_many(self):
        # Two periods are 4 squares: from row 4 to row 0 in the north, which is at the edge; one row more is enough. With 5 knots half of all
        # are in row -1, and two rows more are needed; likewise on all sides.
        for towards, knots, added in ((0, 4, [1, 0, 0, 0]), (0, 5, [2, 0, 0, 0]), (270, 4, [0, 1, 0, 0]), (180, 5, [0, 0, 2, 0]), (90, 4, [0, 0, 0, 1]), (90, 3, [0] * 4)):
            self.assertEqual(margins.wanted(self.current(towards, knots)), added, (towards, knots))

    def test_who_comes_back_was_over_the_edge_all_the_same(self):
        # Four squares and a half to the north in the first two periods, and the same back in the others.
        tide = ("[searcher]", '[[current]]\nbegins = "12:30"\nknots = 5\ntowards = 180\n[searcher]')
        it = self.current(0, 5, tide, ("periods = 2", "periods = 4"))
        self.assertEqual(margins.wanted(it), [1, 0, 0, 0])

    def test_what_is_told(self):
        it = self.current(0, 5)
        told = "note: 60.0 percent are at or over the edge of the area by the last look; where there is water, add 2 rows in the north: rows = 11 and columns = 9; names and "
        self.assertEqual(margins.note(it, 0.6), told + "metres then count from the new corner")
        it = self.current(90, 4, ("columns = 9", "columns = 9\nland = [\"r8c0\"]"))
        told = "5.1 percent are at or over the edge of the area by the last look; where there is water, add 1 column in the east: rows = 9 and columns = 10"
        self.assertTrue(margins.note(it, 0.051).endswith(told))
        self.assertIn("would hardly go on from there", margins.note(self.current(90, 0), 0.06))

    def test_land_at_the_edge_goes_on_beyond_it(self):
        """With 10 knots towards 300 persons go 5 squares in a period, 1.732 to the west for each to the north. From r4c4 they come over the
        western edge before they are beside the first row, which is land: 3 to 4 squares to the north, and then beyond c-1, a quarter of them
        (0.928^2 / 2 / 1.732) in c-3. There they are held, and four columns more are enough."""
        self.assertEqual(margins.wanted(self.current(300, 10, land("r0c0..r0c8"))), [0, 4, 0, 0])
        # Without that land they are 5 squares to the north and 8.66 to the west at the last look, two periods on: in r-1, and in c-5 or c-4.
        self.assertEqual(margins.wanted(self.current(300, 10)), [2, 6, 0, 0])
        # Land at a corner has land behind it on both sides, and land at one side alone has it there.
        it = self.current(0, 5, land("r0c0", "r3c8"))
        behind = margins.behind(it)
        self.assertEqual({square for square in behind if square[0] == 3}, {(3, column) for column in range(9, 29)})
        corner = {(row, column) for row in range(-20, 1) for column in range(-20, 1)} - {(0, 0)}
        self.assertEqual({square for square in behind if square[0] != 3}, corner)
        self.assertFalse(any(it.grid.contains(square) for square in behind))

    def test_land_to_add_is_told_and_counted(self):
        it = self.current(90, 5, ("columns = 9", 'columns = 9\nland = ["r0c0..r3c8"]'))
        self.assertEqual(margins.wanted(it), [0, 0, 0, 2])
        told = "add 2 columns in the east: rows = 9 and columns = 11, and land behind that at the edge, which is taken to go straight on"
        self.assertTrue(margins.note(it, 0.5).endswith(told))
        # Of 8 rows 4 are land: with 2 columns more, 47 of them have 196 squares of water, and 48 have 200, which is too many with what is lost.
        for wide, tail in ((47, "and land behind that"), (48, "with larger cells, and land behind that")):
            it = self.current(90, 5, ("rows = 9", "rows = 8"), ("columns = 9", f'columns = {wide}\nland = ["r0c0..r3c{wide - 1}"]'))
            told = margins.change(it, dict(north=0, west=0, south=0, east=2))
            self.assertTrue(told.startswith(f"rows = 8 and columns = {wide + 2}, {tail}"), told)

    def test_a_wider_area_is_as_told(self):
        """Who does as the note says, isn't told again."""
        for it in (self.current(0, 5, ("rows = 9", "rows = 11"), ('"r4c4"', '"r6c4"')), self.current(90, 4, ("columns = 9", "columns = 10"))):
            self.assertEqual(margins.wanted(it), [0, 0, 0, 0])


class Twofold(unittest.TestCase):
    def line(self, *changes):
        text = SEA
        for old, new in changes:
            text = text.replace(old, new)
        return next(it for it in draft.drafted(text.encode())[1] if it.startswith("two searchers"))

    SMALL = ("rows = 9", "rows = 2"), ("columns = 9", "columns = 7"), ("r4c4", "r0c4"), ("speed = 20", "speed = 20\nreaches = 4")

    def test_it_fits(self):
        self.assertEqual(self.line(*self.SMALL, ("[searcher]", "[parts]\nlook = 10\n[searcher]")), "two searchers: duo takes the scenario as it is")

    def test_it_does_not_fit(self):
        # 81 positions; from the middle 9 by corners are reached, 81 pairs. 9 by 926 m are 8334 m: of 3 by 4 cells each has 2778 m.
        said = self.line(("speed = 20", "speed = 20\nreaches = 8"), ("[searcher]", "[parts]\nfirst = 1\ndrift = 1\nlook = 10\n[searcher]"))
        self.assertEqual(said, "two searchers: duo doesn't take the scenario (81 positions, and 14 are the most; 81 pairs of moves, and 64 are the most); it would "
                         "with [area] cell_size = 2778, rows = 3, columns = 3 and [searcher] reaches = 4")

    def test_looks_that_do_not_fit_twice(self):
        # (3 + 10) * 1 * 1 * (G * G)^4 < 2^127: G^8 < 1.309e37; 43000 is more than the 1000 that are allowed, so a look of 1001 is too fine.
        said = self.line(*self.SMALL, ("[searcher]", "[parts]\nfirst = 1\ndrift = 1\nlook = 1001\n[searcher]"))
        self.assertEqual(said, "two searchers: duo doesn't take the scenario (1001 parts of a look, and 1000 fit twice); it would with [parts] look = 1000")


class Slips(unittest.TestCase):
    """What a new user may write, and what is said of it."""

    def test_what_to_write(self):
        base = SEA.replace('start = "r4c4"', 'base = [-1389, 4167]\nenters = ["r2c0..r6c0"]\nleaves = "11:50"')
        for old, new, wanted in (
            ("[[report]]", "[report]", "[report]: each such table should have [[report]] as its first line, in two brackets on each side"),
            ("[[report]]", "[current]\nknots = 1\ntowards = 9\n[[report]]", "[current]: each such table should have [[current]] as its first line"),
            ("[[report]]", "[wind]\nknots = 1\nfrom = 9\n[drift]\nleeway = 0.1\n[[report]]", "[wind]: each such table should have [[wind]] as its first line"),
            ("[[report]]", "[visibility]\nfactor = 1\n[[report]]", "[visibility]: each such table should have [[visibility]] as its first line"),
            ("[search]", "[[search]]", "[search]: it stands once, so its first line should be [search], and is [[search]]"),
            ("r2c0..r6c0", "r2c0-r6c0", 'write enters = ["r2c0..r6c0"]'),
            ("r2c0..r6c0", "r2c0 to r6c0", 'write enters = ["r2c0..r6c0"]'),
            ("r2c0..r6c0", "R2C0:R6C0", 'write enters = ["r2c0..r6c0"]'),
            ('["r2c0..r6c0"]', '"r2c0..r6c0"', 'write enters = ["r2c0..r6c0"]'),
            ("columns = 9", 'columns = 9\nland = "r0c0"', 'write land = ["r0c0"]'),
            ('"r1c1"', '"R1C1"', 'write cell = "r1c1"'),
            ('"r1c1"', '["r1c1"]', 'write cell = "r1c1"'),
            ("speed = 20", 'speed = "20"', "write speed = 20"),
            ("speed = 20", 'speed = "7,5"', "write speed = 7.5"),
            ("speed = 20", 'speed = 20\nstays = "no"', "write stays = false"),
            ('"11:00"', '"9:30"', 'write time = "09:30"'),
            ('"11:00"', '"09.30"', 'write time = "09:30"'),
            ('"11:00"', '"0930"', 'write time = "09:30"'),
            ('"r1c1"', "r1c1", "line 11 has a text without quotes; it stands in them"),
            ('"r1c1"', "\u201cr1c1\u201d", "line 11 has curved quotes; they are straight"),
            ("minutes = 15", "minutes = 15 min", "line 4 has a unit behind a number; it has none"),
            ("minutes = 15", "minutes = 7,5", "line 4 has a comma in a number; it has a point"),
            ("minutes = 15", "minutes: 15", "line 4 has a colon behind a key; an equals sign stands there"),
            ("minutes = 15", "minutes = 15\nminutes = 15", "line 5 gives a key that its table has already"),
            ("speed = 20", "spede = 20", "[searcher] 'spede': there is no such key, and speed may be meant; [searcher] has start"),
            ("speed = 20", "speed = 20\nspread = 20", "[searcher] 'spread': there is no such key, and it belongs to [drift]; [searcher] has start"),
            ("[[report]]", "[[reports]]", "'reports': there is no such table, and report may be meant; a situation has title"),
            ("[search]", "edge = 3\n[search]", "'edge': there is no such table, and it belongs to [area]; a situation has title"),
        ):
            with self.subTest(new):
                self.assertIn(wanted, said((old, new), text=base))

    def test_what_no_change_mends_has_no_advice(self):
        for old, new in (('"11:00"', '"noon"'), ("speed = 20", 'speed = "fast"'), ("speed = 20", 'speed = "-3"'), ('"r1c1"', '"r1c1-r2c2"')):
            self.assertNotIn("write", said((old, new)))


class Told(unittest.TestCase):
    def lines(self, *changes):
        text = SEA
        for old, new in changes:
            self.assertIn(old, text)
            text = text.replace(old, new)
        return list(draft.drafted(text.encode())[1])

    def test_reports(self):
        for begins, time, line in (("12:00", "11:00", "report 1 is of 11:00 today, 60 minutes before the begin of the search"),
                                   ("05:45", "22:30", "report 1 is of 22:30 the day before, 7 h 15 min before the begin of the search"),
                                   ("2026-07-04 12:00", "2026-07-04 12:15", "report 1 is of 2026-07-04 12:15, 15 minutes after the begin of the search")):
            self.assertIn(line, self.lines(("2026-07-04 12:00", begins), ("11:00", time)))
        until = self.lines(("2026-07-04 12:00", "12:00"), ('"11:00"', '"11:00"\nuntil = "11:30"'))
        self.assertIn("report 1 is of 11:00 today to 11:30 today, 60 minutes to 30 minutes before the begin of the search", until)

    def test_minutes_of_search_and_of_way(self):
        # By a corner 2.1213 minutes; two squares are 3, and so 6 squares are reached from a corner and 13 from the middle.
        told = "a period is 12 minutes of search and up to 3 of way: 0 to stay, 1.5 to a cell beside it, 2.12 by its corner; in one move it reaches 6 to 13 cells, "
        self.assertIn(told + "the farthest in 3 minutes", self.lines())
        base = self.lines(coming("[-1389, 4167]", "r2c0..r6c0", 'leaves = "11:59:30"'))
        self.assertIn("from its base it leaves at 2026-07-04 11:59:30, and is in 3 to 3.35 minutes of 3.5 at 3 cells that it enters", base)
        # The root of 8 squares is 4.243 minutes.
        self.assertIn("note: of the cells that it enters it isn't in time at r2c0, r6c0: its way takes up to 4.24 minutes", base)

    def test_what_is_left_out(self):
        # 7.5 minutes are 5 squares: from r0c0 26 within 5, from the middle 77.
        many = [it for it in self.lines(searching(7.5)) if "more than 64 cells are reached in time; the nearest are taken" in it]
        self.assertEqual(len(many), 1)
        # 6 minutes are 4 squares: from the middle 49 are reached.
        large = "note: a plan of up to 49 moves from a cell may need more records than are allowed"
        self.assertTrue(any(it.startswith(large) for it in self.lines(searching(9))))
        self.assertFalse(any("more records" in it for it in self.lines()))
        corner = "note: by a corner the way takes 2.12 minutes, and isn't made; take fewer of search, as in search_minutes = 12.87"
        self.assertIn(corner, self.lines(("speed = 20", "speed = 20\nreaches = 8"), searching(13)))
        self.assertNotIn(corner, self.lines(("speed = 20", "speed = 20\nreaches = 8")))


if __name__ == "__main__":
    unittest.main()
