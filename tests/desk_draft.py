"""Tests `desk.writing`, and what `osp draft` makes of a situation. Values in comments are worked by hand."""
import contextlib
import glob
import os
import pty
import re
import subprocess
import sys
import tempfile
import tomllib
import unittest
import unittest.mock
from decimal import Decimal
from fractions import Fraction

from desk import detection, draft, forms, geometry, keys, moments, rounding, situation, verdict, writing

TOP = os.path.dirname(os.path.dirname(os.path.realpath(__file__)))
EXAMPLES = sorted(glob.glob(os.path.join(TOP, "examples", "*.scenario")))


def read(text):
    """The scenario that a text is."""
    return forms.read_scenario(text, True)[0]


def bytes_of(file):
    with open(file, "rb") as opened:
        return opened.read()


# Two cells; the tide turns in the step after period 2, and it is night in period 3. Written by hand as docs/FORMATS.md says.
CANONICAL = b"""scenario 2
horizon 3
parts 3 4 10
cell a
cell b
position hill
position a
start hill
first a 1 b 2
moves hill hill a
moves a a
drift a a 3 b 1
drift b b 4
driftin 2 a a 4
driftin 2 b a 1 b 3
look hill a 7 b 9
look a a 2
lookin 3 hill
lookin 3 a a 5
end
"""
# The same, as somebody might write it: other orders, a row that a row of each period replaces, cells that a look misses altogether.
ROUNDABOUT = b"""# a note
scenario 2
horizon 3
parts 3 4 10
cell a
cell b
position hill
position a
start hill
first b 2 a 1

lookin 3 hill a 10
lookin 3 a b 10 a 5
lookin 1 a a 2
look a a 9
look hill b 9 a 7
driftin 2 a a 4
driftin 1 b b 4
drift b a 4
driftin 2 b b 3 a 1
drift a b 1 a 3
moves a a
lookin 2 a a 2
moves hill a hill
end"""

# The first and the last times that TOML has, in zones where these days are none in UTC, and in UTC.
ENDS = "0001-01-01T00:00:00+14:00", "9999-12-31T23:59:59-12:00", "0001-01-01T00:00:00Z", "9999-12-31T23:59:59Z", "0001-01-02T05:00:00+14:00"


class Writing(unittest.TestCase):
    def test_each_example_reads_back_as_the_same_search(self):
        self.assertGreaterEqual(len(EXAMPLES), 14)
        for file in EXAMPLES:
            with self.subTest(os.path.basename(file)):
                sc = read(bytes_of(file))
                text = writing.scenario_text(sc)
                self.assertEqual(read(text).key(), sc.key())
                self.assertEqual(writing.scenario_text(read(text)), text)

    def test_a_canonical_text_prints_to_the_same_bytes(self):
        self.assertEqual(writing.scenario_text(read(CANONICAL)), CANONICAL)

    def test_another_text_of_the_same_search_prints_to_the_canonical_text(self):
        self.assertEqual(read(ROUNDABOUT).key(), read(CANONICAL).key())
        self.assertEqual(writing.scenario_text(read(ROUNDABOUT)), CANONICAL)

    def test_version_1_exactly_where_it_can_say_the_scenario(self):
        alike = CANONICAL.replace(b"hill", b"b")
        still = b"".join(it + b"\n" for it in alike.splitlines() if not it.startswith((b"driftin", b"lookin")))
        own = still.replace(b"look b a 7 b 9", b"look b b 9").replace(b"look a a 2", b"look a b 10")
        swapped = own.replace(b"position b\nposition a", b"position a\nposition b")
        for text, version in ((alike, 2), (still, 2), (own, 2), (swapped.replace(b"look b b 9", b"look b a 9"), 2), (swapped, 1)):
            self.assertEqual(writing.scenario_text(read(text)).split(b"\n")[0], b"scenario %d" % version, text)
        self.assertIn(b"overlook a 10\noverlook b 9\nend\n", writing.scenario_text(read(swapped)))

    def test_a_horizon_of_one_period(self):
        text = b"scenario 1\nhorizon 1\nparts 2 1 1\ncell a\nstart a\nfirst a 2\nmoves a a\ndrift a a 1\noverlook a 1\nend\n"
        self.assertEqual(writing.scenario_text(read(text)), text)

    def test_comments_stay_comments(self):
        text = writing.scenario_text(read(CANONICAL), ["one", "two\nend", b"\r\nthree\xff", "", "f\u00fcnf \udc80"])
        self.assertTrue(text.startswith(b"# one\n# two end\n# \xef\xbf\xbd three\xff\n#\n# f\xc3\xbcnf ?\nscenario 2\n"), text[:60])
        self.assertEqual(read(text).key(), read(CANONICAL).key())

    def test_what_no_text_says_is_refused(self):
        def change(sc, how):
            how(sc)
            return sc

        changes = [
            lambda sc: sc.names.append(b"a"),
            lambda sc: sc.positions.__setitem__(0, b"two words"),
            lambda sc: sc.positions.__setitem__(0, b""),
            lambda sc: sc.first.__setitem__(0, 2),
            lambda sc: sc.drift[0].__setitem__(1, 2),
            lambda sc: sc.drift_in.__setitem__((2, 0), {}),
            lambda sc: sc.looks[0].__setitem__(0, 11),
            lambda sc: sc.moves.__setitem__(0, []),
            lambda sc: sc.moves.__setitem__(0, [1, 1]),
            lambda sc: sc.looks.pop(0),
            lambda sc: setattr(sc, "horizon", 33),
            lambda sc: setattr(sc, "parts", (3, 4, 10**6)) or setattr(sc, "horizon", 32),
        ]
        for at, how in enumerate(changes):
            with self.subTest(at), self.assertRaises(ValueError):
                writing.scenario_text(change(read(CANONICAL), how))


# ---- draft

SITUATIONS = sorted(glob.glob(os.path.join(TOP, "examples", "situations", "*.toml")))
# A lake of 3 by 4 cells of 463 m, the way of 1 knot in 15 minutes (1852 / 4). The search begins at noon; its first look is at 12:15.
# In 7.5 minutes the boat makes 1852 m.
LAKE = """
[search]
begins = "2026-07-04 12:00"
minutes = 15
periods = 3
[area]
cell_size = 463
rows = 3
columns = 4
edge = "stays"
[[report]]
cell = "r1c1"
time = "2026-07-04 12:15"
[searcher]
start = "r0c0"
speed = 8
sweep_width = 231.5
search_minutes = 7.5
reaches = 4
[tracks]
count = 1000
finer = 1
"""
# The same, where the person may be in each of the cells.
WIDE = LAKE.replace('cell = "r1c1"', "at = [926, 694.5]\nradius = 1250")


def made(text):
    """The scenario that is drafted of a situation's text, its own text, and what is said of it."""
    scenario, lines = draft.drafted(text.encode("utf-8"))
    return read(scenario), scenario, list(lines)


class Geometry(unittest.TestCase):
    def test_a_current_of_0_6_knots_towards_045_for_15_minutes(self):
        # 0.6 * 1852 / 4 = 277.8 m; east and north 277.8 * 0.707106781 = 196.434264 m each.
        self.assertEqual(geometry.metres(Fraction("0.6"), 15), Fraction("277.8"))
        moved = geometry.displacement(Fraction("277.8"), 45)
        self.assertEqual(moved, (Fraction("196.4342637618"), -Fraction("196.4342637618")))

    def test_bearings_go_clockwise_from_north_and_rows_go_south(self):
        for towards, moved in ((0, (0, -1)), (90, (1, 0)), (180, (0, 1)), (270, (-1, 0)), (360, (0, -1))):
            self.assertEqual(geometry.displacement(1, towards), moved)
        east, south = geometry.displacement(1000, 150)
        self.assertEqual(east, 500)
        self.assertAlmostEqual(float(south), 866.0254, 4)

    def test_squares_by_metres_east_and_south_of_the_corner(self):
        grid = geometry.Grid(3, 4, Fraction(500))
        self.assertEqual(grid.square_at((1999, 0)), (0, 3))
        self.assertEqual(grid.square_at((500, 1499)), (2, 1))
        self.assertEqual(grid.middle((2, 1)), (750, 1250))
        self.assertEqual(geometry.name_of((2, 1)), "r2c1")

    def test_neighbours_by_sides_and_by_corners(self):
        grid = geometry.Grid(3, 3, Fraction(1), frozenset({(0, 1), (1, 0)}))
        self.assertEqual(grid.neighbours((1, 1), 4), [(1, 2), (2, 1)])
        # To r0c0 the way goes between two corners of land.
        self.assertEqual(grid.neighbours((1, 1), 8), [(0, 2), (1, 2), (2, 0), (2, 1), (2, 2)])
        self.assertEqual(grid.neighbours((0, 0), 8), [])


class Detection(unittest.TestCase):
    def test_koopmans_formula(self):
        # 5 knots for 12 minutes make 1852 m. With a sweep width of 135 m over 500 m by 500 m the coverage is 1.00008.
        self.assertEqual(detection.coverage(Fraction(135), 5, 12, Fraction(500)), Fraction("1.00008"))
        # Coverage 1 finds 63.212 percent, 0.5 finds 39.347, 2 finds 86.466 (tables of 1 - exp(-C)).
        for covered, found in (("0", 0), ("0.5", 0.393469340), ("1", 0.632120559), ("2", 0.864664717)):
            self.assertAlmostEqual(float(1 - detection.miss(Fraction(covered))), found, 9)
        self.assertEqual(detection.miss(Fraction(10**9)), 0)

    def test_a_look_misses_by_the_formula(self):
        # 8 knots make 1852 m in 7.5 minutes; 231.5 m wide they sweep 463 * 926 m: coverage 2, a miss of 0.135335.
        sc = made(WIDE)[0]
        self.assertEqual(len(sc.names), 12)
        self.assertEqual(sc.looks, {at: {at: sc.looks[0][0]} for at in range(12)})
        self.assertLess(abs(Fraction(sc.looks[0][0], sc.parts[2]) - Fraction("0.135335")), Fraction(1, 2 * sc.parts[2]))

    def test_a_look_covers_all_states_of_its_square(self):
        sc = made(WIDE.replace("finer = 1", "finer = 2") + "[parts]\nlook = 10\n")[0]
        self.assertEqual(len(sc.names), 48)
        self.assertEqual([sc.names[it] for it in sc.looks[5]], [b"r1c1-01", b"r1c1-02", b"r1c1-03", b"r1c1-04"])
        self.assertEqual(set(sc.looks[5].values()), {1})

    def test_dark_and_haze_are_means_over_the_period(self):
        # Sunset is in the 10th of the 15 minutes of period 1: (10 + 5 * 0.4) / 15 = 0.8 of the width. Then 0.4.
        light = '[light]\nsunset = "12:10"\nnight = 0.4\n'
        given = situation.situation((LAKE + light).encode())
        self.assertEqual(detection.factor(given.visibility, Fraction(0), Fraction(15)), Fraction(4, 5))
        self.assertEqual(detection.factor(given.visibility, Fraction(15), Fraction(30)), Fraction(2, 5))
        # Coverage 1.6 and 0.8: misses of 0.201897 and 0.449329.
        self.assertAlmostEqual(float(detection.misses(given, 1)[0]), 0.201897, 6)
        self.assertAlmostEqual(float(detection.misses(given, 3)[0]), 0.449329, 6)
        # In parts of 10 these are 2 and 4.
        sc, text, _ = made(WIDE + light + "[parts]\nlook = 10\n")
        self.assertEqual([sc.look(t, 5) for t in (1, 2, 3)], [{5: 2}, {5: 4}, {5: 4}])
        self.assertIn(b"\nlook r1c1 r1c1 2\n", text)
        self.assertIn(b"\nlookin 3 r1c1 r1c1 4\n", text)
        haze = '[[visibility]]\nfactor = 1\n[[visibility]]\nbegins = "12:20"\nfactor = 0.5\n'
        given = situation.situation((LAKE + light + haze).encode())
        # 5 of 15 minutes at 1, 10 at 0.5: 2/3; by night 0.4 of it.
        self.assertEqual(detection.factor(given.visibility, Fraction(15), Fraction(30)), Fraction(2, 3) * Fraction(2, 5))

    def test_sunrise_ends_the_night(self):
        night = Fraction(1, 5)
        for turns, factors in (
            ('sunrise = "12:15"', (night, 1)),
            ('sunset = "11:00"\nsunrise = "12:15"', (night, 1)),
            ('sunrise = "06:30"\nsunset = "12:15"', (1, night)),
        ):
            given = situation.situation((LAKE + f"[light]\n{turns}\nnight = 0.2\n").encode())
            found = tuple(detection.factor(given.visibility, Fraction(at), Fraction(at + 15)) for at in (0, 15))
            self.assertEqual(found, factors, turns)

    def test_a_swath_covers_the_cells_beside_the_course(self):
        swath = '[searcher.swath]\ncourse = "{}"\nsweep_width = 115.75\n'
        for course, cells in (("east-west", {"r0c1", "r1c1", "r2c1"}), ("north-south", {"r1c0", "r1c1", "r1c2"})):
            sc = made(WIDE + swath.format(course))[0]
            look = {sc.names[it].decode(): Fraction(part, sc.parts[2]) for it, part in sc.covered(1, sc.positions.index(b"r1c1")).items()}
            self.assertEqual(look.keys(), cells)
            # Half of the width: coverage 1, a miss of 0.367879.
            for name in cells - {"r1c1"}:
                self.assertLess(abs(look[name] - Fraction("0.367879")), Fraction(1, 200))
            self.assertLess(abs(look["r1c1"] - Fraction("0.135335")), Fraction(1, 200))
        self.assertEqual(len(sc.covered(1, 0)), 2)

    def test_a_look_is_never_sure_and_may_find_nothing(self):
        self.assertEqual([rounding.nearest_miss(Fraction(it), 10) for it in ("0.001", "0.34", "0.35", "0.96", "1", "0")], [1, 3, 4, 10, 10, 0])
        sc = made(LAKE + '[light]\nsunset = "11:00"\nnight = 0\n')[0]
        self.assertEqual(sc.covered(1, 0), {})


class Rounding(unittest.TestCase):
    def test_largest_remainders(self):
        # Quotas of 10: 4.7, 1.6, 1.58, 1.2, 0.61, 0.31. Whole parts take 7, and the remainders 0.7, 0.61, 0.6 the other three.
        shares = dict(zip("abcdef", (47000, 16000, 15800, 12000, 6100, 3100)))
        self.assertEqual(rounding.largest_remainder(shares, 10), {"a": 5, "b": 2, "c": 1, "d": 1, "e": 1})
        # c is off most: 1.58 of 10 became 1.
        self.assertEqual(rounding.largest_error(shares, {"a": 5, "b": 2, "c": 1, "d": 1, "e": 1}, 10), Fraction("0.058"))

    def test_equal_remainders_go_to_the_larger_share_and_then_to_the_first(self):
        self.assertEqual(rounding.largest_remainder({0: Fraction(1, 8), 1: Fraction(3, 8), 2: Fraction(1, 2)}, 4), {1: 2, 2: 2})
        self.assertEqual(rounding.largest_remainder({7: 1, 3: 1}, 3), {7: 2, 3: 1})

    def test_parts_sum_to_the_denominator(self):
        for whole in (1, 2, 3, 7, 100, 999_983):
            shares = {it: Fraction(1, it) for it in range(1, 14)}
            parts = rounding.largest_remainder(shares, whole)
            self.assertEqual(sum(parts.values()), whole)
            self.assertLess(rounding.largest_error(shares, parts, whole), Fraction(1, whole))

    def test_how_many_periods_fit(self):
        self.assertEqual(rounding.most_periods((1, 10, 10)), 18)
        # 12 * 10^6 * 10^6 * 10^18 = 1.2e31, and 13 * 10^6 * 10^12 * 10^24 = 1.3e43; 2^127 = 1.7e38.
        self.assertEqual(rounding.most_periods((10**6, 10**6, 10**6)), 2)

class Times(unittest.TestCase):
    def minutes(self, begins, how, time, *rest):
        return getattr(moments.Clock(moments.moment(begins)), how)(moments.moment(time), *rest)

    def test_times_without_a_date(self):
        for time, minutes in (("20:00", 30), ("01:00", 330), ("19:00", -30), ("07:30", -720), ("07:29", 719)):
            self.assertEqual(self.minutes("19:30", "nearest", time), minutes, time)
        self.assertEqual(self.minutes("01:00", "nearest", "23:00"), -120)
        self.assertEqual(self.minutes("22:00", "after", "01:00"), 180)
        self.assertEqual(self.minutes("22:00", "after", "22:00"), 1440)
        self.assertEqual(self.minutes("00:10", "past", "23:40"), -30)
        self.assertEqual(self.minutes("00:10", "past", "00:10"), 0)
        self.assertEqual(self.minutes("00:10", "past", "00:11"), 1 - 1440)

    def test_times_with_a_date_and_with_seconds(self):
        self.assertEqual(self.minutes("2026-02-28 23:30", "nearest", "2026-03-01T00:15:30"), Fraction("45.5"))
        with self.assertRaises(ValueError):
            self.minutes("23:30", "nearest", "2026-03-01 00:15")
        for wrong in ("24:00", "19.30", "7:30", "2026-13-01 10:00", "", "19:30z", "19:30+01:00", "2026-07-04"):
            with self.assertRaises(ValueError, msg=wrong):
                moments.moment(wrong)

    def test_toml_has_times_of_its_own(self):
        for begins in ("2026-07-04 12:00:00", "2026-07-04T12:00:00"):
            text = LAKE.replace('"2026-07-04 12:00"', begins)
            self.assertEqual(made(text)[0].key(), made(LAKE)[0].key())

    def test_times_in_utc(self):
        """Where the begin has Z all times are UTC, with or without it; where it has none, none may have it."""
        in_utc = made(LAKE.replace('"2026-07-04 12:00"', "2026-07-04T12:00:00Z"))
        self.assertEqual(in_utc[0].key(), made(LAKE)[0].key())
        self.assertIn("# 3 periods of 15 minutes from 2026-07-04 12:00Z to 2026-07-04 12:45Z; a look counts at the end of its period, the first at 2026-07-04 12:15Z", in_utc[1].decode())
        begins = '"2026-07-04 12:00"'
        rows = (
            ('"2026-07-04 12:00Z"', '"11:30Z"', None),
            ('"12:00Z"', '"11:30Z"', None),
            ('"12:00Z"', '"11:30"', None),
            (begins, '"11:30Z"', r"\[\[report\]\] 1 time: it is UTC, so \[search\] begins should be, too, as in begins = "),
            (begins, '"2026-07-04 11:30Z"', r"\[\[report\]\] 1 time: it is UTC, so "),
            ('"12:00Z"', '"2026-07-04 11:30Z"', r'it has a date, so .* should have one, as in begins = "2026-07-04 19:30Z"'),
            ('"2026-07-04 12:00 UTC"', '"11:30"', 'write begins = "2026-07-04 12:00Z"$'),
            ("2026-07-04T12:00:00+02:00", '"11:30"', r"local or \(with Z\) in UTC, .* write begins = \"2026-07-04 10:00:00Z\"$"),
            # At the calendar's ends the day may be none in another zone.
            *((it, '"11:30"', r"begins: it should be a time, .*, as in begins = \"19:30\", and is \S+ \S+$") for it in ENDS),
        )
        for of_search, of_report, refused in rows:
            text = LAKE.replace(begins, of_search).replace('time = "2026-07-04 12:15"', f"time = {of_report}")
            with self.subTest(begins=of_search, time=of_report):
                if refused is None:
                    self.assertEqual(made(text)[0].key(), made(LAKE)[0].key())
                else:
                    with self.assertRaisesRegex(keys.BadSituation, refused):
                        made(text)

    def test_periods_until_a_time(self):
        for until, periods in (("12:45", 3), ("12:59", 3), ("13:00", 4)):
            self.assertEqual(made(LAKE.replace("periods = 3", f'until = "{until}"'))[0].horizon, periods)

    def test_told_times(self):
        clock = moments.Clock(moments.moment("2026-12-31 23:50"))
        self.assertEqual(clock.told(Fraction(15)), "2027-01-01 00:05")
        self.assertEqual(moments.Clock(moments.moment("23:50")).told(Fraction("15.5")), "00:05:30")


class Drafts(unittest.TestCase):
    def test_the_text_of_a_lake_line_by_line(self):
        # No drift, one report, coverage 2: all by hand but the denominator of the looks. The only state is the report's cell.
        sc, text, _ = made(LAKE)
        self.assertEqual(sc.parts[:2], (1, 1))
        body = text[text.index(b"\nscenario 2\n") + 1 :]
        self.assertEqual(body, writing.scenario_text(sc))
        lines = body.decode().splitlines()
        self.assertEqual(lines[1], "horizon 3")
        self.assertEqual([it for it in lines if it.startswith("cell")], ["cell r1c1"])
        for wanted in ("start r0c0", "first r1c1 1", "moves r1c1 r0c1 r1c0 r1c1 r1c2 r2c1", "moves r0c0 r0c0 r0c1 r1c0", "drift r1c1 r1c1 1", "look r0c0"):
            self.assertIn(wanted, lines)

    def test_comments_have_the_situation_and_the_places(self):
        text = made("# a note\n" + LAKE.replace("\n", "\r\n"))[1]
        again = b"".join(it.removeprefix(b"# |").removeprefix(b" ") + b"\n" for it in text.split(b"\n") if it.startswith(b"# |"))
        self.assertEqual(again.decode(), "# a note\n" + LAKE)
        self.assertEqual(made(again.decode())[1], text)
        places = dict(re.findall(rb"^# at (\S+) (\S+ \S+)$", text, re.M))
        self.assertEqual(len(places), 12)
        self.assertEqual(places[b"r2c1"], b"694.5 1157.5")

    def test_a_byte_order_mark_is_no_fault(self):
        self.assertEqual(made("\ufeff" + LAKE)[0].key(), made(LAKE)[0].key())

    def test_who_reaches_what(self):
        sc = made(LAKE.replace("reaches = 4", "reaches = 8\nstays = false"))[0]
        self.assertEqual([sc.positions[it].decode() for it in sc.moves[0]], ["r0c1", "r1c0", "r1c1"])

    def test_a_base_outside_of_the_area(self):
        sc, text, _ = made(LAKE.replace('start = "r0c0"', 'base = [-900, 700]\nenters = ["r0c0..r1c0"]'))
        self.assertEqual(sc.positions[sc.start], b"base")
        self.assertEqual([sc.positions[it] for it in sc.moves[sc.start]], [b"r0c0", b"r1c0"])
        self.assertTrue(all(sc.start not in moves for moves in sc.moves.values()))
        self.assertEqual(sc.covered(1, sc.start), {})
        self.assertIn(b"# at base -900 700\n", text)

    def test_each_situation_of_the_examples_drafts_the_scenario_beside_it(self):
        self.assertGreaterEqual(len(SITUATIONS), 5)
        for file in SITUATIONS:
            with self.subTest(os.path.basename(file)):
                scenario, _ = draft.drafted(bytes_of(file))
                self.assertEqual(scenario, bytes_of(file.replace(".toml", ".scenario")))

    def test_each_plan_of_a_situation_is_accepted_by_a_checker_of_its_own(self):
        for file in SITUATIONS:
            with self.subTest(os.path.basename(file)):
                sc = read(bytes_of(file.replace(".toml", ".scenario")))
                plan = forms.read_plan(bytes_of(file.replace(".toml", ".plan")), sc)
                self.assertIsNone(verdict.first_reason(sc, plan))
                self.assertLess(plan.nodes, 3000)
                with open(os.path.join(TOP, "examples", "README.md"), encoding="utf-8") as readme:
                    row = re.search(rf"(?m)^\| `{os.path.basename(file)[:-5]}` \|.* records \| .*\|$", readme.read().split("## Situations")[1])[0]
                self.assertIn(f"; {plan.nodes:,} records | {plan.value * 100_000 // plan.weight / 1000:.3f} %; finds ", row)

    def test_what_is_noted(self):
        for old, new, note in (
            ("sweep_width = 231.5", "sweep_width = 600", "note: a look finds more than 99 percent"),
        ):
            self.assertFalse(any(it.startswith(note) for it in made(LAKE)[2]))
            lines = made(LAKE.replace(old, new))[2]
            self.assertTrue(any(it.startswith(note) for it in lines), lines)

    def test_a_drift_that_is_wider_than_the_tracks_is_noted(self):
        """Tracks in a circle of 400 m around the corner of four cells of 1 km have a standard deviation of 400 / 2 m along each axis. A
        quarter of them is in each cell, so those of the chain have sqrt(500^2 + 1000^2 / 12), which is 577 m: 816 and 283 m along both."""
        text = LAKE.replace("cell_size = 463", "cell_size = 1000").replace('cell = "r1c1"', "at = [2000, 1000]\nradius = 400")
        form = r"note: the scenario's drift is (\d+) percent wider than the tracks at the first look, (\d+) m and not (\d+): states are .*"
        for finer, hint in (("finer = 1", "; a larger [tracks] finer, fewer periods, or smaller cells"), ("", None), ("finer = 4", None)):
            noted = [it for it in made(text.replace("finer = 1", finer))[2] if "wider than the tracks" in it]
            self.assertEqual(len(noted), hint is not None, (finer, noted))
            if hint:
                self.assertIn(hint, noted[0])
                for found, wanted in zip(map(int, re.fullmatch(form, noted[0]).groups()), (100 * (816.5 / 282.8 - 1), 816.5, 282.8)):
                    # Of 1,000 tracks standard deviations are right to some percent.
                    self.assertAlmostEqual(found, wanted, delta=wanted * 0.06)
        # Anywhere in a cell the persons of the tracks are as wide as those of the chain, and at a place they have no width at all.
        for old, new in (("at = [2000, 1000]\nradius = 400", 'cell = "r1c1"'), ("\nradius = 400", "")):
            self.assertIn(old, text)
            lines = made(text.replace(old, new))[2]
            self.assertFalse(any("wider than the tracks" in it for it in lines), lines)

    def test_what_is_at_the_edge(self):
        # Of 4 by 3 cells r1c1 and r1c2 aren't at the edge. The report is anywhere in r1c1; a knot is a cell in a period.
        told = "in the cells at the edge of the area are {} percent at the first look, and {} at the last, if no look finds anything"
        for towards, first, last in ((0, "0.000", "100.000"), (90, "0.000", "100.000"), (270, "0.000", "100.000")):
            lines = made(LAKE + f"[[current]]\nknots = 1\ntowards = {towards}\n")[2]
            self.assertIn(told.format(first, last), lines)
        self.assertIn(told.format("0.000", "0.000"), made(LAKE)[2])

    def test_too_many_positions_no_way_and_a_long_text(self):
        area = LAKE.replace("rows = 3", "rows = 10").replace("columns = 4", "columns = 20")
        with self.assertRaisesRegex(keys.BadSituation, r"\[searcher\] base: with it there are 201 positions"):
            made(area.replace('start = "r0c0"', 'base = [-900, 700]\nenters = ["r0c0"]'))
        with self.assertRaisesRegex(keys.BadSituation, r"\[searcher\] stays: .* from r0c0"):
            made(LAKE.replace("columns = 4", 'columns = 4\nland = ["r0c1", "r1c0"]').replace("speed = 8", "speed = 8\nstays = false"))
        with unittest.mock.patch.object(draft, "MOST_SCENARIO", 1000), self.assertRaisesRegex(keys.BadSituation, r"and 1,000 are the most"):
            made(LAKE)


class Planning(unittest.TestCase):
    """docs/PLANNING.md says what there is."""

    TABLES = {
        "[search]": keys.SEARCH,
        "[area]": keys.AREA,
        "[[report]]": keys.REPORT,
        "[[current]]": keys.CURRENT,
        "[[wind]]": keys.WIND,
        "[drift]": keys.DRIFT,
        "[searcher]": keys.SEARCHER,
        "[searcher.swath]": keys.SWATH,
        "[light]": keys.LIGHT,
        "[[visibility]]": keys.VISIBILITY,
        "[parts]": keys.PARTS,
        "[tracks]": keys.TRACKS,
    }

    def setUp(self):
        self.text = bytes_of(os.path.join(TOP, "docs", "PLANNING.md")).decode()

    def test_its_table_has_each_key_and_no_others(self):
        rows = [re.split(r" *\| *", it) for it in re.findall(r"(?m)^\| (`\[.*) \|$", self.text)]
        wanted = [[f"`{name}`", f"`{it.name} = {it.example}`", it.what] for name, its_keys in self.TABLES.items() for it in its_keys]
        self.assertEqual([it[:3] for it in rows], wanted)
        needed = [it.needed for its_keys in self.TABLES.values() for it in its_keys]
        self.assertEqual([it[3] == "yes" for it in rows], needed)

    def test_its_example_is_the_file_and_says_what_draft_says(self):
        file = bytes_of(os.path.join(TOP, "examples", "situations", "kayaker.toml"))
        self.assertIn("```\n" + file.decode() + "```\n", self.text)
        _, lines = draft.drafted(file)
        self.assertIn("```\n" + "".join(f"osp draft: {it}\n" for it in lines) + "```\n", self.text)

    def test_its_wrong_file_is_answered_so(self):
        line = re.search(r"(?m)^osp draft: (\[search\] minutes.*)$", self.text)[1]
        with self.assertRaises(keys.BadSituation) as caught:
            draft.drafted(LAKE.replace("minutes = 15", "minutes = 0").encode())
        self.assertEqual(str(caught.exception), line)


class Wrong(unittest.TestCase):
    """Each wrong file ends with status 1, one line on standard error, and nothing on standard output."""

    def line_of(self, given, status=1):
        """What the helper says of a file."""
        with tempfile.TemporaryDirectory() as room:
            file = os.path.join(room, "situation.toml")
            with open(file, "wb") as opened:
                opened.write(given if isinstance(given, bytes) else given.encode("utf-8"))
            done = subprocess.run([sys.executable, "-B", "-m", "desk", "draft", file], cwd=TOP, capture_output=True, timeout=60)
        self.assertEqual((done.returncode, done.stdout), (status, b""), done.stderr[:300])
        line = done.stderr.decode("ascii")
        self.assertTrue(line.startswith("osp draft: ") and line.count("\n") == 1 and line.endswith("\n") and len(line) < 400, line)
        self.assertTrue(line[:-1].isprintable(), line)
        return line

    def says(self, given, *wanted):
        """What is wrong with a file, as the helper's line has it without a process of its own."""
        with self.assertRaises(keys.BadSituation) as caught:
            draft.drafted(given if isinstance(given, bytes) else given.encode("utf-8"))
        for each in wanted:
            self.assertIn(each, str(caught.exception))
        return str(caught.exception)

    def test_hostile_files(self):
        huge = LAKE.encode() + b"# " + b"x" * 2_000_000
        deep = "a = " + "[\n" * 30_000
        markup = LAKE + '"<script>alert(1)</script>" = "__import__(\'os\').system(\'id\')"\n'
        for given, part in (
            (huge, "longer than 65,536 bytes"),
            (b"\xff\xfe" + LAKE.encode("utf-16-le"), "UTF-8"),
            (deep, "too deep"),
            ("a" + ".a" * 30_000 + " = 1", "line 1 is longer than 1,000 bytes"),
            (("a" + ".a" * 480 + " = 1\n") * 60, "TOML"),
            (markup, "there is no such key"),
            (LAKE.replace('"r0c0"', '"<b>r0c0</b>\\u001b[31m"'), "[searcher] start: it should be the name of a cell"),
            (LAKE.replace("463", "9" * 980), "[area] cell_size"),
            (LAKE.replace("463", "0x" + "f" * 970), "[area] cell_size"),
            (LAKE.replace('"2026-07-04 12:00"', '"9999-12-31 12:00"'), "[search] begins"),
            (LAKE.replace("463", "1e-999999999"), "[area] cell_size"),
            (LAKE.replace("463", "1e999999999"), "[area] cell_size"),
            (LAKE.replace("463", "nan"), "[area] cell_size"),
            (LAKE + "\0", "TOML"),
            ("", "[search] is lacking"),
            (LAKE.replace('"2026-07-04 12:00"', '"12:00\\u0000"'), "[search] begins"),
        ):
            with self.subTest(part or given[:20]):
                self.assertIn(part, self.line_of(given))

    def test_each_example_of_a_key_is_a_value_of_it(self):
        tables = [it for name, it in vars(keys).items() if isinstance(it, tuple) and it and isinstance(it[0], keys.Key)]
        self.assertGreaterEqual(len(tables), 11)
        for key in (it for table in tables for it in table):
            value = tomllib.loads(f"it = {key.example}", parse_float=Decimal)["it"]
            self.assertIsNotNone(key.take(value), key.name)

    def test_each_key_of_a_wrong_type_is_named_with_an_example(self):
        tables = {"search": keys.SEARCH, "area": keys.AREA, "report": keys.REPORT, "current": keys.CURRENT, "wind": keys.WIND, "drift": keys.DRIFT,
                  "searcher": keys.SEARCHER, "light": keys.LIGHT, "visibility": keys.VISIBILITY, "parts": keys.PARTS, "tracks": keys.TRACKS}
        for name, its_keys in tables.items():
            for key in its_keys:
                for value in ("{ a = 1 }", '"<b>"', "-7", "[[]]", "1979-05-27"):
                    if key.name == "swath" and value == "{ a = 1 }":
                        continue
                    head = f"[[{name}]]" if name in ("report", "current", "wind", "visibility") else f"[{name}]"
                    # A table that stands is written anew with its needed keys and this one.
                    others = "".join(f"{it.name} = {it.example}\n" for it in its_keys if it.needed and it.name != key.name)
                    kept = re.sub(rf"(?ms)^\[+{name}\]+\n.*?(?=^\[|\Z)", "", LAKE)
                    said = self.says(f"{kept}{head}\n{others}{key.name} = {value}\n", f"[{name}")
                    if key.name == "swath":
                        self.assertIn("[searcher.swath]", said)
                    else:
                        self.assertIn(f"{key.name}: it should be {key.what}, as in {key.name} = {key.example}", said)

    def test_each_needed_key_is_missed(self):
        for name, its_keys in (("search", keys.SEARCH), ("area", keys.AREA), ("searcher", keys.SEARCHER)):
            for key in its_keys:
                if key.needed:
                    self.says(re.sub(rf"(?m)^{key.name} = .*\n", "", LAKE, count=1), f"[{name}] {key.name} is lacking", key.example)

    def test_a_time_without_quotes(self):
        for time in ("12:00", "2026-07-04 12:00", "9:30  # half past nine"):
            self.says(LAKE.replace('"2026-07-04 12:00"', time), 'line 3 has a time without quotes; it stands in them, as in begins = "19:30"')
        self.assertNotIn("a time without quotes", self.says(LAKE.replace('"2026-07-04 12:00"', "noon")))

    def test_what_contradicts(self):
        current = '[[current]]\nbegins = "{}"\nknots = 1\ntowards = 0\n'
        most = "[parts]\ndrift = 1000000\nlook = 1000000\nfirst = 1000000"
        for old, new, wanted in (
            ("periods = 3", "", "[search] periods: either it or until"),
            ("periods = 3", 'periods = 3\nuntil = "13:00"', "[search] periods: either it or until"),
            ("periods = 3", 'until = "12:10"', "[search] until: it should leave 1 to 32 periods"),
            ("periods = 3", "perods = 3", "[search] 'perods': there is no such key, and periods may be meant; [search] has begins"),
            ("rows = 3", "rows = 51", "[area] rows: rows times columns without land should be 1 to 200"),
            ("rows = 3", "rows = 50", None),
            ("rows = 3", "rows = 200\nland = [\"r3c0..r199c3\"]", None),
            ("columns = 4", "columns = 200\nland = [\"r0c4..r2c199\"]", None),
            ("rows = 3\ncolumns = 4", "rows = 32\ncolumns = 32", "[area] rows: rows times columns should be at most 1000 with land"),
            ("rows = 3", 'rows = 3\nland = ["r3c0"]', "[area] land: it should be in the area, whose last cell is r2c3, and names r3c0"),
            ("rows = 3", 'rows = 3\nland = ["r2c0..r0c0"]', "[area] land: it should be"),
            ("rows = 3", 'rows = 3\nland = ["r1c1"]', "[[report]] 1 cell: it should be in a cell of the area that isn't land, and is in r1c1"),
            ("rows = 3", 'rows = 3\nland = ["r0c0"]', "[searcher] start: it should be in the area and not on land, and names r0c0"),
            ('cell = "r1c1"', 'cell = "r1c4"', "[[report]] 1 cell"),
            ('cell = "r1c1"', "at = [1852, 10]", "[[report]] 1 at"),
            ('cell = "r1c1"', 'cell = "r1c1"\nat = [10, 10]', "[[report]] 1 cell: one of it, at and track"),
            ('"2026-07-04 12:00"', '"12:00"', "[[report]] 1 time: it has a date"),
            ('start = "r0c0"', "base = [10, 10]\nenters = [\"r0c0\"]", "[searcher] base: it should be outside"),
            ('start = "r0c0"', "base = [-10, 10]", "[searcher] enters"),
            ("search_minutes = 7.5", "search_minutes = 16", "[searcher] search_minutes"),
            ("[[report]]", '[[wind]]\nknots = 9\nfrom = 0\n[[report]]', "[drift] leeway is lacking"),
            ("[[report]]", current.format("12:20") + "[[report]]", "[[current]] 1 begins: it should be at or before 2026-07-04 12:15"),
            ("[[report]]", current.format("11:00") + current.format("10:00") + "[[report]]", "[[current]] 2 begins: rows should stand in the order"),
            ("[[report]]", "[light]\nnight = 0.5\n[[report]]", "[light] sunset: it or sunrise"),
            ("periods = 3", f"periods = 2\n{most}", None),
            ("periods = 3", f"periods = 3\n{most}", "[parts]: 3 periods don't fit into 128 bits with first = 1000000, drift = 1000000,"),
        ):
            with self.subTest(new):
                self.assertEqual(LAKE.count(old), 1)
                text = LAKE.replace(old, new)
                if wanted is None:
                    made(text)
                else:
                    self.says(text, wanted)

    def test_words(self):
        for words in ([], ["a", "b"], ["-"], ["--what"]):
            done = subprocess.run([sys.executable, "-B", "-m", "desk", "draft", *words], cwd=TOP, capture_output=True, timeout=60)
            self.assertEqual((done.returncode, done.stdout), (2, b""))
            self.assertRegex(done.stderr.decode(), r"\Aosp draft: .+\nusage: osp draft SITUATION.toml\n\Z")

    def test_a_file_that_cannot_be_read_and_an_output_that_is_full(self):
        words = [sys.executable, "-B", "-m", "desk", "draft"]
        done = subprocess.run([*words, os.path.join(TOP, "no-such-file")], capture_output=True, cwd=TOP, timeout=60)
        self.assertEqual((done.returncode, done.stderr), (5, b"osp draft: the file can't be read: No such file or directory\n"))
        with open("/dev/full", "wb") as full:
            done = subprocess.run([*words, SITUATIONS[0]], stdout=full, stderr=subprocess.PIPE, cwd=TOP, timeout=60)
        self.assertEqual((done.returncode, done.stderr), (6, b"write fault: No space left on device\n"))


class Progress(unittest.TestCase):
    def test_a_terminal_alone_is_told_how_far_the_simulation_is(self):
        words = [sys.executable, "-B", "-m", "desk", "draft", os.path.join(TOP, "examples", "situations", "aircraft.toml")]
        reader, terminal = pty.openpty()
        with subprocess.Popen(words, cwd=TOP, stdout=subprocess.DEVNULL, stderr=terminal) as running:
            os.close(terminal)
            told = b""
            # What is read behind the end of the other side is an error here, and nothing elsewhere.
            with contextlib.suppress(OSError):
                while piece := os.read(reader, 4096):
                    told += piece
        os.close(reader)
        self.assertEqual(running.returncode, 0, told)
        self.assertIn(b"\rosp draft: 19,000 tracks\x1b[K\r\x1b[Kosp draft: ", told)
        silent = subprocess.run(words, cwd=TOP, stdout=subprocess.DEVNULL, stderr=subprocess.PIPE, check=True).stderr
        self.assertNotIn(b"\r", silent)


if __name__ == "__main__":
    unittest.main()
