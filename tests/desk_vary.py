"""Tests of `osp vary`: what a plan finds where the situation is otherwise, on a row of squares where all of it is known by hand.

`python3 -m unittest tests.desk_vary`, or tests/desk.
"""
import dataclasses
import json
import math
import re
import unittest
from fractions import Fraction

from tests.made import paired
from tests.pages import IS_BUILT, Refusing, Room

from desk import draft, program, situation, varied, vary

# Squares of a nautical mile and periods of an hour: a knot carries one square a period. The person is at 0.9 squares from the west at
# 12:00, so at 1.9 at the first look and at 2.9 at the second. A look's coverage is 1: 1/e are missed, which is 368 of 1000.
ROW = """
[search]
begins = "12:00"
minutes = 60
periods = 2
[area]
cell_size = 1852
rows = 1
columns = 6
[[report]]
at = [1666.8, 926]
time = "12:00"
[[current]]
knots = 1
towards = 90
[searcher]
start = "r0c2"
reaches = 4
speed = 2
sweep_width = 1852
search_minutes = 30
[parts]
look = 1000
[tracks]
count = 1000
"""
MISS = Fraction(368, 1000)
TWICE = 1 - MISS * MISS


def changed(*changes, text=ROW):
    for old, new in changes:
        if text.count(old) != 1:
            raise AssertionError(f"{old} isn't in the text once")
        text = text.replace(old, new)
    return text


def given(*changes, text=ROW):
    return situation.situation(changed(*changes, text=text).encode())


class Table(Room):
    """The situation with a plan of it."""

    def setUp(self):
        super().setUp()
        if not IS_BUILT:
            self.skipTest("the program isn't built: ./osp build")

    def files(self, text=ROW):
        scenario = draft.drafted(text.encode())[0]
        status, plan, err = self.ask("plan", scenario)
        self.assertEqual(status, 0, err)
        return [self.write("row.toml", text.encode()), self.write("row.plan", plan)]

    @staticmethod
    def ask(word, text):
        answer = program.ask([word], text)
        return answer.status, answer.out, answer.err

    def told(self, *words, status=0):
        ended, out, err = self.run_helper(vary.main, list(words))
        self.assertEqual(ended, status, err)
        return out if status == 0 else err

    def rows(self, *words):
        told = json.loads(self.told(*words, "--json", "yes"))
        return told, {f"{it['what']} {it['way']}".strip(): it for it in told["rows"]}

    def shares(self, row):
        return [Fraction(int(row[it]), int(row["weight"])) for it in ("chance", "best", "ceiling")]


class ByHand(Table):
    def test_a_row_of_squares_and_a_certain_current(self):
        told, rows = self.rows(*self.files())
        self.assertEqual((told["path"], told["count"], told["seed"], told["file"], told["notes"]), (["r0c1", "r0c2"], 1000, 1, None, []))
        # With a fifth more current they are at 2.1 and 3.3, where the plan doesn't look, and a boat that waits and goes on finds them; with a
        # fifth less at 1.7 and 2.5. Half a square to the east they are at 2.4 and 3.4, to the west at 1.4 and 2.4.
        same, missed = [TWICE] * 3, [0, TWICE, TWICE]
        wider, closer = (1 - Fraction(round(1000 * math.exp(-it)), 1000) ** 2 for it in (1.2, 0.8))
        for name, wanted in {
            "as it is": same, "current more": missed, "current less": same, "places east": missed, "places west": same, "places north": same,
            "sweep width more": [wider] * 3, "sweep width less": [closer] * 3,
        }.items():
            self.assertEqual(self.shares(rows[name]), wanted, name)
        # Half a square to the south is the edge of the area: nobody is there.
        self.assertIn("[[report]] 1 radius or probable_error: hardly one of 100 of its places", rows["places south"]["why"])
        self.assertEqual(set(rows), {"as it is", "current more", "current less", "sweep width more", "sweep width less", *(f"places {it}" for it in varied.SIDES)})
        # Of two that cost the same the first is named.
        self.assertEqual(told["rows"][told["most"]], rows["current more"])
        self.assertEqual([(rows[it]["by"], rows[it]["keys"]) for it in ("current less", "places east")], [("20 %", []), ("926 m", [])])

    def test_the_text_says_the_same(self):
        out = self.told(*self.files())
        self.assertLessEqual(max(map(len, out.splitlines())), 80)
        lines = [it.split() for it in out.splitlines()]
        self.assertEqual(out.splitlines()[0], "row.toml: what row.plan finds where the situation is otherwise; each draft is of")
        for line in ("as it is 86.46 % 86.46 % 0.00", "current more 0.00 % 86.46 % 86.46", "current less 86.46 % 86.46 % 0.00", "places south no draft"):
            self.assertIn(line.split(), lines)
        flat = " ".join(out.split())
        self.assertIn("What costs most is current more: there the best plan finds 86.46 points more.", flat)
        self.assertIn("current: 20 % more and less (a default, since no key states it).", flat)
        self.assertIn("places: 926 m to each side (half the side of a cell by default).", flat)
        self.assertIn("places south: there is no draft. [[report]] 1", flat)

    def test_nothing_costs_anything(self):
        # At 0.5 squares: 1.5 and 2.5, with a fifth more 1.7 and 2.9, half a square to each side still in the same squares.
        files = self.files(changed(("[1666.8, 926]", "[926, 926]"), ("sweep_width = 1852", "sweep_width = 926")))
        told, rows = self.rows(*files)
        self.assertEqual(self.shares(rows["current more"])[0], self.shares(rows["current more"])[1])
        # (Half a square to the east is the border: 2.0 and 3.0, in the squares east of it.)
        self.assertEqual(told["rows"][told["most"]]["way"], "east")
        it = vary.found(vary.words_of(files))
        left = dataclasses.replace(it, rows=it.rows[:5])
        self.assertIsNone(left.most)
        self.assertEqual(list(vary.about_most(left)), ["None of these is known to cost anything."])

    def test_where_the_proof_isnt_finished_the_ceiling_is_told(self):
        """An open lake with a spread, and one record: no path exceeds the ceiling, and the plan may be better than what gap found."""
        lake = changed(("rows = 1", "rows = 4"), ("periods = 2", "periods = 6"), ("[searcher]", "[drift]\nspread = 1500\n[searcher]"), ("look = 1000", "look = 20"),
                       ("reaches = 4\n", ""), ('"r0c2"', '"r2c2"'))
        files = self.files(lake)
        whole, rows = self.rows(*files)
        few, cut = self.rows(*files, "--nodes", "1")
        self.assertEqual(self.shares(rows["as it is"])[0], self.shares(rows["as it is"])[2])
        for name in ("as it is", "current more", "sweep width less"):
            value, best, ceiling = self.shares(cut[name])
            truth = self.shares(rows[name])[1]
            self.assertEqual(value, self.shares(rows[name])[0])
            self.assertTrue(value <= best <= truth <= ceiling, name)
            self.assertLess(best, ceiling, name)
        out = self.told(*files, "--nodes", "1")
        self.assertTrue(re.search(r"(?m)^current more +\d+\.\d\d % +\d+\.\d\d to \d+\.\d\d % +\d+\.\d\d to \d+\.\d\d$", out), out)
        self.assertIn("It may be another one, whose best plan isn't proved: ", " ".join(out.split()))


class Variations(unittest.TestCase):
    """What is varied, by the numbers of a situation. A knot is 1852 / 60 metres a minute."""

    KNOT = Fraction(1852, 60)

    def named(self, *changes, text=ROW):
        return {f"{it.what} {it.way}": it for it in varied.variations(given(*changes, text=text))}

    def velocities(self, it, field="current"):
        return [tuple(round(float(axis / self.KNOT), 6) for axis in velocity) for _, velocity in getattr(it.given.drift, field).rows]

    def test_a_current_by_its_error_along_its_direction(self):
        # 0.5 knots to the north-east are 0.353553 along each axis; 0.2 more or less 0.494975 and 0.212132. Slack water stays.
        tide = ("towards = 90\n", 'towards = 90\n[[current]]\nbegins = "12:20"\nknots = 0.5\ntowards = 45\n[[current]]\nbegins = "12:40"\nknots = 0\ntowards = 0\n')
        found = self.named(tide, ("[searcher]", "[drift]\ncurrent_error = 0.2\n[searcher]"))
        self.assertEqual(self.velocities(found["current more"]), [(1.2, 0), (0.494975, -0.494975), (0, 0)])
        self.assertEqual(self.velocities(found["current less"]), [(0.8, 0), (0.212132, -0.212132), (0, 0)])
        self.assertEqual((found["current less"].by, found["current less"].keys), ("0.2 knots", ("current_error",)))
        # An error that is greater than the current turns it round.
        found = self.named(("knots = 1", "knots = 0.1"), ("[searcher]", "[drift]\ncurrent_error = 0.3\n[searcher]"))
        self.assertEqual(self.velocities(found["current less"]), [(-0.2, 0)])
        # The error that persons have of their own is as before.
        self.assertEqual(found["current less"].given.drift.current_error, given(("[searcher]", "[drift]\ncurrent_error = 0.3\n[searcher]")).drift.current_error)

    WIND = ("[searcher]", "[[wind]]\nknots = 10\nfrom = 270\n[drift]\nleeway = 0.04\ndivergence = 30\n{}[searcher]")

    def wind(self, more=""):
        return self.named((self.WIND[0], self.WIND[1].format(more)))

    def test_wind_and_leeway(self):
        found = self.wind("wind_error = 3\nleeway_error = 0.005\n")
        self.assertEqual((self.velocities(found["wind more"], "wind"), self.velocities(found["wind less"], "wind")), ([(13, 0)], [(7, 0)]))
        # The leeway is 0.04 by 30 degrees: 0.034641 downwind, and 0.02 across, of which no error speaks.
        for name, downwind in (("leeway more", 0.039641), ("leeway less", 0.029641)):
            drift = found[name].given.drift
            self.assertEqual((round(float(drift.downwind), 6), round(drift.crosswind, 6)), (downwind, 0.02))
        self.assertEqual((found["wind more"].by, found["leeway more"].by), ("3 knots", "0.5 % of the wind's speed"))
        self.assertEqual((found["wind more"].keys, found["leeway more"].keys), (("wind_error",), ("leeway_error",)))
        # Without errors all of it by a fifth.
        found = self.wind()
        self.assertEqual(self.velocities(found["wind less"], "wind"), [(8, 0)])
        for name, downwind, across in (("leeway more", 0.041569, 0.024), ("leeway less", 0.027713, 0.016)):
            drift = found[name].given.drift
            self.assertEqual((round(float(drift.downwind), 6), round(drift.crosswind, 6)), (downwind, across))
        self.assertNotIn("wind more", self.named())
        self.assertNotIn("current more", self.named(("[[current]]\nknots = 1\ntowards = 90\n", "")))

    def test_sweep_widths(self):
        swath = ("sweep_width = 1852\n", 'sweep_width = 1852\nswath = { course = "east-west", sweep_width = 100 }\n')
        found = self.named(swath)
        self.assertEqual([(it.given.searcher.sweep_width, it.given.searcher.beside) for it in (found["sweep width more"], found["sweep width less"])],
                         [(Fraction("2222.4"), 120), (Fraction("1481.6"), 80)])
        self.assertEqual([it.drifts_as_before for it in found.values()], [it.startswith("sweep") for it in found])

    def test_each_report_by_its_own_error(self):
        reports = '''[[report]]
at = [100, 200]
probable_error = 300
time = "11:00"
[[report]]
track = [[100, 200], [500, 900]]
radius = 400
time = "11:00"
[[report]]
cell = "r0c1"
time = "11:00"
'''
        found = self.named(('[[report]]\nat = [1666.8, 926]\ntime = "12:00"\n', reports))
        # Half of a circle of 400 m are within 400 / sqrt(2) = 282.842712 m; the cell has no error, so half its side, 926 m.
        for way, (east, south) in {"north": (0, -1), "east": (1, 0), "south": (0, 1), "west": (-1, 0)}.items():
            first, second, third = found[f"places {way}"].given.reports
            self.assertEqual(first.place, (100 + 300 * east, 200 + 300 * south))
            wanted = [(100 + 282.842712 * east, 200 + 282.842712 * south), (500 + 282.842712 * east, 900 + 282.842712 * south)]
            for place, its in zip(second.track, wanted, strict=True):
                self.assertEqual([round(float(it), 6) for it in place], [round(it, 6) for it in its])
            self.assertEqual(third.square, (Fraction(south, 2), 1 + Fraction(east, 2)))
        self.assertEqual(found["places east"].by, "300 m (report 1), 282.84 m (report 2), 926 m (report 3)")
        self.assertEqual(found["places east"].reason, "by probable_error and radius, else half the side of a cell by default")


class Recorded(Table):
    def test_tracks_of_a_file_are_moved(self):
        """Two in three of the tracks go as those of the row, one is a square behind."""
        rows = ["id,time,x,y"]
        for it in range(3):
            rows += [f"{it},2026-07-04T{12 + hour}:00,{1852 * (0.9 - (it == 2) + hour)},926" for hour in range(3)]
        self.write("row.csv", "\n".join(rows).encode())
        text = changed(('begins = "12:00"', 'begins = "2026-07-04 12:00"'), ('[[report]]\nat = [1666.8, 926]\ntime = "12:00"\n', ""),
                       ("[[current]]\nknots = 1\ntowards = 90\n", ""), ("count = 1000", 'file = "row.csv"'))
        file = self.write("row.toml", text.encode())
        scenario = draft.drafted(text.encode(), folder=self.room)[0]
        files = [file, self.write("row.plan", self.ask("plan", scenario)[1])]
        told, found = self.rows(*files)
        # The two are at 1.9 and the third at 0.9, then at 2.9 and 1.9. To look twice at r0c1 finds each once with 1 - m, which is more than
        # 1 - m * m for two in three. Half a square to the east they are at 2.4 and 1.4, then at 3.4 and 2.4: best is r0c2 twice, and the plan
        # finds the third alone.
        self.assertEqual((told["path"], told["seed"], told["file"]), (["r0c1", "r0c1"], None, "row.csv"))
        self.assertEqual(self.shares(found["as it is"])[:2], [1 - MISS] * 2)
        self.assertEqual(self.shares(found["the tracks east"])[:2], [(1 - MISS) / 3, 1 - MISS])
        self.assertEqual(set(found) & {"current more", "places east"}, set())


class Refused(Table, Refusing):
    helpers = (vary,)

    def test_words(self):
        for words in ([], ["a"], ["a", "b", "c"], ["-", "-"], ["a", "b", "--json", "no"], ["a", "b", "--nodes", "0"], ["a", "b", "--nodes", "65537"], ["a", "b", "--flown", "1"]):
            with self.subTest(words):
                self.all_refuse(words, 2, "usage: osp vary")

    def test_files(self):
        toml, plan = self.files()
        for words, status, part in (
            ([toml, "none.plan"], 5, "cannot read none.plan"),
            ([self.write("bad.toml", changed(("minutes = 60", "minutes = 0")).encode()), plan], 1, "[search] minutes: it should be"),
            ([toml, self.write("bad.plan", b"plan 2\npath r0c1\n")], 1, "isn't one of this situation: its path has 1 periods"),
            ([toml, self.write("other.plan", b"plan 2\npath north south\n")], 1, "isn't one of this situation: it names north"),
            ([toml, toml], 3, "is neither a plan nor a scenario with its plan behind it"),
        ):
            with self.subTest(part):
                self.all_refuse(words, status, part)

    def test_two_searchers(self):
        small = changed(("look = 1000", "look = 20"))
        made = self.write("both.made", paired(draft.drafted(small.encode())[0], "r0c4"))
        self.all_refuse([self.write("small.toml", small.encode()), made], 1, "is a plan of two searchers; vary takes plans of one")


if __name__ == "__main__":
    unittest.main()
