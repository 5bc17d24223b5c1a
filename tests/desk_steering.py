"""Tests what `osp brief` says of times, places and courses, and what comments of a scenario say. Places and courses come from PROJ 9.1.1
(+proj=aeqd +ellps=WGS84) and its geodesics, the rest is worked by hand."""
import re
import unittest
from fractions import Fraction

from desk import brief, comments, earth, following, moments, situation, steering
from tests.made import GRID, forced, paired, with_plan
from tests.packaged import on_earth, without
from tests.pages import Room, example

# Comments that put examples/night.scenario on the earth and on a clock.
TIMES = (
    "# 6 periods of 15 minutes from 2026-07-04 23:20Z to 2026-07-05 00:50Z; "
    "a look counts at the end of its period, the first at 2026-07-04 23:35Z\n"
)
CORNER = "# earth 57.725 10.58\n"
PLACES = """\
# at cliff 250 750
# at landing 12345 6789
# at reef 250 1750
# at bay -2000 300
# at beach 500 2000
# at mouth 250 750
"""
# The lines of a situation, as draft writes them: a boat of 6 knots, and an island between two squares.
LAND = """\
# The situation, from which osp draft made it:
# | [search]
# | begins = "23:20"
# | minutes = 15
# | periods = 6
# | [area]
# | cell_size = 500
# | rows = 3
# | columns = 3
# | land = ["r1c1"]
# | [[report]]
# | cell = "r0c0"
# | time = "23:00"
# | [searcher]
# | start = "r0c0"
# | speed = 6
# | sweep_width = 90
# | search_minutes = 8
# | [[visibility]]
# | factor = 1
# | [[visibility]]
# | begins = "23:57:30"
# | factor = 0.5
"""


class Briefs(Room):
    def told(self, before, *words, status=0):
        """The lines of a brief of examples/night.scenario with comments before it, behind the checksum's first; and what is said."""
        scenario, plan = example("night")
        names = [self.write("s.scenario", before.encode() + scenario), self.write("s.plan", plan)]
        ended, out, err = self.run_helper(brief.main, [*names, *words])
        self.assertEqual(ended, status, err)
        return out.splitlines(), err

    def table(self, lines, head="Where to go:"):
        """The lines of a table behind its head, cut at two blanks, with the heads of its columns."""
        at = lines.index(head) + 1
        return [[cell.strip() for cell in it.split("  ") if cell.strip()] for it in lines[at : lines.index("", at)]]

    @on_earth
    def test_times_places_and_courses(self):
        lines, err = self.told(TIMES + CORNER + PLACES)
        self.assertEqual(err, "")
        self.assertIn("Times are UTC, from 2026-07-04 on.", lines)
        self.assertEqual(self.table(lines)[1:], [
            ["1", "23:20", "cliff", "57°43.096'N 010°35.052'E", "stay"],
            ["2", "23:35", "cliff", "57°43.096'N 010°35.052'E", "stay"],
            ["3", "23:50", "landing", "57°39.832'N 010°47.210'E", "117°", "7.30 NM"],
            ["4", "00:05+1", "bay", "57°43.338'N 010°32.786'E", "295°", "8.50 NM"],
            ["5", "00:20+1", "mouth", "57°43.096'N 010°35.052'E", "101°", "1.24 NM"],
            ["6", "00:35+1", "bay", "57°43.338'N 010°32.786'E", "281°", "1.24 NM"],
        ])
        self.assertEqual(self.table(lines)[0], ["period", "begins", "look from", "middle", "course", "way"])
        self.assertIn("Courses are true, and lead to the middle of the square; 1 NM", lines)
        self.assertLessEqual(max(map(len, lines)), 80)

    def test_metres_alone_and_no_places(self):
        """In the plane 12,345 - 250 = 12,095 m east and 6,039 m south are 13,519 m, or 7.30 NM, towards 90 + atan(6039 / 12095) = 117; then
        14,345 m west and 6,489 m north, towards 270 + atan(6489 / 14345) = 294."""
        rows = self.table(self.told(PLACES)[0])
        self.assertEqual(rows[0], ["period", "look from", "course", "way"])
        self.assertEqual(rows[3:5], [["3", "landing", "117°", "7.30 NM"], ["4", "bay", "294°", "8.50 NM"]])
        rows = self.table(self.told(PLACES.replace("# at landing 12345 6789\n", "") + TIMES)[0])
        self.assertEqual(rows[2:5], [["2", "23:35", "cliff", "stay"], ["3", "23:50", "landing", "-"], ["4", "00:05+1", "bay", "-"]])
        self.assertEqual(rows[5], ["5", "00:20+1", "mouth", "101°", "1.24 NM"])
        self.assertFalse({"Where to go:", "course"} & set(self.told(TIMES)[0]))

    def test_words_and_comments_that_contradict(self):
        """What the words give has to be what the comments say, as far as both say it."""
        local = TIMES.replace("2026-07-04 ", "").replace("2026-07-05 ", "").replace("Z", "")
        rows = (
            (TIMES, ("23:20", "15"), ["Times are UTC, from 2026-07-04 on."]),
            (TIMES, ("2026-07-04T23:20Z", "15"), ["Times are UTC, from 2026-07-04 on."]),
            (local, ("23:20", "15"), []),
            (local, ("2026-07-04 23:20", "15"), ["Times are local, from 2026-07-04 on."]),
            ("", ("2026-07-04T23:20Z", "15"), ["Times are UTC, from 2026-07-04 on."]),
            (TIMES, ("23:21", "15"), "15 minutes from 23:21, and the scenario's comments 15 minutes from 2026-07-04 23:20Z"),
            (TIMES, ("23:20", "16"), "16 minutes from 23:20, and the scenario's comments 15 minutes"),
            (TIMES, ("2026-07-05 23:20", "15"), "15 minutes from 2026-07-05 23:20, and the"),
            (local, ("23:20Z", "15"), "15 minutes from 23:20Z, and the scenario's comments 15 minutes from 23:20: leave both out, or change"),
        )
        for before, (begins, minutes), wanted in rows:
            words = "--from", begins, "--minutes", minutes
            with self.subTest(before=before, words=words):
                if isinstance(wanted, str):
                    lines, err = self.told(before, *words, status=2)
                    self.assertEqual(lines, [])
                    self.assertIn(f"osp brief: --from and --minutes say {wanted}", err)
                else:
                    lines = self.told(before, *words)[0]
                    self.assertEqual([it for it in lines if it.startswith("Times")], wanted)
                    self.assertTrue(any(it.startswith("     2  23:35 ") for it in lines))

    def test_how_squares_are_searched(self):
        """6 knots make 1481.6 m in 8 minutes; 3 legs of 500 - 500/3 m with two ways of 500/3 m between them are 1333 m, and 4 would be 1875.
        The sweep width is 90 m, and 45 m from the middle of period 3 (23:50 to 00:05) on, so 67.5 m there: printed as 68."""
        local = TIMES.replace("2026-07-04 ", "").replace("2026-07-05 ", "").replace("Z", "")
        lines = self.told(local + PLACES + LAND)[0]
        at = lines.index("Search each square for 8 minutes at 6 knots: 3 legs of")
        self.assertEqual(lines[at + 1], "333 m, 167 m apart, and 83 m inside of its edges.")
        self.assertEqual(lines[at + 2 : at + 4], ["The sweep width is 90 m in periods 1 to 2, 68 m in period 3,", "45 m in periods 4 to 6."])
        for before in (PLACES + LAND, TIMES + PLACES + LAND):
            self.assertFalse(any("sweep width" in it for it in self.told(before)[0]), "nobody knows which of its periods these are")

    @on_earth
    def test_a_way_around_land_has_a_star(self):
        """From r1c0 to r1c2 around the island r1c1: by the middle of r0c1 it is twice the diagonal of a square of 500 m, 1414 m or 0.76 NM."""
        named = (PLACES + LAND).replace("# at cliff 250 750", "# at r1c0 250 750").replace("# at landing 12345 6789", "# at r1c2 1250 750")
        scenario, plan = (it.replace(b"cliff", b"r1c0").replace(b"landing", b"r1c2") for it in example("night"))
        names = [self.write("s.scenario", named.encode() + scenario), self.write("s.plan", plan)]
        status, out, err = self.run_helper(brief.main, names)
        self.assertEqual((status, err), (0, ""))
        self.assertEqual(self.table(out.splitlines())[3][:4], ["3", "r1c2", "090°", "*0.76 NM"])
        self.assertIn("\n* The straight way is closed by land: the length is that of\nthe way around it.\n", out)

    def test_without_geographiclib_all_else_is_told(self):
        with without("geographiclib.geodesic"):
            lines, err = self.told(TIMES + CORNER + PLACES)
        self.assertEqual(self.table(lines)[3], ["3", "23:50", "landing", "117°", "7.30 NM"])
        self.assertRegex(err, r"\Aosp brief: latitudes and longitudes are left out: places on the earth need the package python3-geographiclib, .*\n\Z")


    def test_two_searchers_have_a_table_each(self):
        """The pair of the grid of tests/made.py, squares of 1000 m: the first goes r0c1, r0c2, r1c2 from r0c0, the other r1c3, r1c2, r1c3
        from r2c3."""
        places = "".join(f"# at r{row}c{column} {column * 1000 + 500} {row * 1000 + 500}\n" for row in range(3) for column in range(4)).encode()
        words = self.write("two", paired(GRID, "r2c3")), "--of", self.write("grid", places + GRID)
        status, out, err = self.run_helper(brief.main, list(words))
        self.assertEqual((status, err), (0, ""))
        east, west, south, north = (f"{course}°" for course in ("090", "270", "180", "000"))
        for who, names, courses in (("first", "r0c1 r0c2 r1c2", (east, east, south)), ("second", "r1c3 r1c2 r1c3", (north, west, east))):
            rows = self.table(out.splitlines(), f"Where the {who} searcher goes:")[1:]
            wanted = zip("123", names.split(), courses)
            self.assertEqual(rows, [[*it, "0.54 NM"] for it in wanted])


    @on_earth
    def test_next_goes_on_by_the_same_clock_and_places(self):
        """Behind 3 of 6 periods of 15 minutes from 23:20 it is 00:05 of the next day, and the sweep width is halved; behind another period,
        00:20."""
        told = TIMES + CORNER + PLACES + LAND.replace('"23:20"', '"2026-07-04 23:20Z"').replace("0\"\n# | [searcher]", "0Z\"\n# | [searcher]")
        scenario, plan = example("night")
        names = [self.write("s.scenario", told.encode() + scenario), self.write("s.plan", plan)]
        status, later, err = self.run_helper(following.main, [*names, "--flown", "3"])
        self.assertEqual(status, 0, err)
        both = self.write("later", with_plan(later.encode()))
        lines = self.run_helper(brief.main, [both])[1].splitlines()
        self.assertIn("Times are UTC, from 2026-07-05 on.", lines)
        self.assertEqual([it[:4] for it in self.table(lines)[1:]], [
            ["1", "00:05", "bay", "57°43.338'N 010°32.786'E"],
            ["2", "00:20", "mouth", "57°43.096'N 010°35.052'E"],
            ["3", "00:35", "bay", "57°43.338'N 010°32.786'E"],
        ])
        self.assertIn("The sweep width is 45 m.", lines)
        names = [self.write("later.scenario", later.encode()), self.write("later.plan", with_plan(later.encode())[len(later.encode()) :])]
        last = self.run_helper(following.main, [*names, "--flown", "1"])[1].encode()
        found = comments.lines(last)
        self.assertEqual(comments.times_of(found).clock.told(0), "2026-07-05 00:20Z")
        self.assertEqual(earth.frame_of(last), earth.Frame(57.725, 10.58))
        self.assertEqual(comments.situation_of(found), comments.situation_of(comments.lines(told.encode())))

    @on_earth
    def test_a_made_file_has_the_places_of_the_scenario_behind_of(self):
        """A boat that flew cliff, landing: the looks flown are told with their places, and so are those to come."""
        scenario, _ = example("night")
        of = (TIMES + CORNER + PLACES).encode() + scenario
        status, out, err = self.run_helper(brief.main, [self.write("made", forced(of, "cliff landing")), "--of", self.write("s.scenario", of)])
        self.assertEqual((status, err), (0, ""))
        rows = self.table(out.splitlines())
        self.assertEqual(rows[2], ["2", "23:35", "landing (flown)", "57°39.832'N 010°47.210'E", "117°", "7.30 NM"])
        self.assertEqual({it[2]: it[3] for it in rows[3:] if it[2] == "bay"}, {"bay": "57°43.338'N 010°32.786'E"})
        self.assertNotIn("-", {it[3] for it in rows[1:]})


class Legs(unittest.TestCase):
    def test_legs_fill_the_way(self):
        """n legs are n * side - side / n long; worked for a side of 600 m: 2 are 900 m, 3 are 1600, 4 are 2250, 100 are 59,994."""
        rows = ((100, 1, 100), (600, 1, 600), (749, 1, 600), (751, 2, 300), (900, 2, 300), (1600, 3, 400), (2250, 4, 450), (60_000, 100, 594))
        for metres, count, long in rows:
            with self.subTest(metres=metres):
                self.assertEqual(steering.legs_of(600, metres), (count, long))


class Comments(unittest.TestCase):
    def test_times(self):
        rows = (
            (TIMES, 15, "2026-07-04 23:20Z"),
            ("# 1 period of 7.5 minutes from 09:00 to 09:07:30; a look counts at the end of its period, the first at 09:07:30", "7.5", "09:00"),
            (f"{TIMES}# 2 periods of 20 minutes from 10:00 to 10:40; a look counts at the end of its period, and so on\n", 20, "10:00"),
        )
        for text, minutes, begins in rows:
            found = comments.times_of(comments.lines(text.encode()))
            self.assertEqual((found.minutes, found.clock.told(0)), (Fraction(minutes), begins))
        none = "", TIMES[2:], TIMES.replace("23:20", "24:20"), TIMES.replace("of 15", "of 0"), TIMES.replace("of 15", "of 1441"), "# | " + TIMES[2:]
        for text in none:
            self.assertIsNone(comments.times_of(comments.lines(text.encode())), text)

    def test_what_is_written_reads_back(self):
        for begins in ("09:00", "23:50:30", "2026-07-04 23:20", "2026-07-04 23:20Z"):
            times = moments.Times(moments.Clock(moments.moment(begins)), Fraction(15, 2))
            for periods in (1, 2, 32):
                self.assertEqual(comments.times_of([comments.of_times(times, periods).encode()]), times)

    def test_a_situation_and_how_much_of_it_is_flown(self):
        told = comments.lines((TIMES + LAND).encode())
        given = comments.situation_of(told)
        self.assertEqual((given.searcher.speed, given.grid.land), (6, frozenset({(1, 1)})))
        self.assertEqual(given, situation.situation("\n".join(it[4:] for it in LAND.splitlines()[1:]).encode()))
        self.assertIsNone(comments.situation_of(comments.lines(LAND.replace("speed = 6", "speed = x").encode())))
        # Times at the calendar's ends are none of a search.
        for begins in ("0001-01-01T00:00:00+14:00", "9999-12-31T23:59:59-12:00", "0001-01-01 00:00:00", "9999-12-31T23:59:59Z"):
            changed, count = re.subn("(?m)^(# [|] begins = ).*$", rf"\g<1>{begins}", LAND, count=1)
            self.assertEqual((count, comments.situation_of(comments.lines(changed.encode()))), (1, None))
            self.assertIsNone(comments.times_of(comments.lines(TIMES.replace("23:20", begins).encode())))
        for begins, flown in (("23:20", 0), ("00:05", 3), ("00:06", None), ("23:05", None)):
            times = moments.Times(moments.Clock(moments.moment(begins)), Fraction(15))
            self.assertEqual(comments.Comments({}, None, times, given).flown(), flown, begins)
