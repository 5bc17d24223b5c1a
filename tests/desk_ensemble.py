"""Tests of situations whose drifts are the tracks of a file: where each is at the looks, what is left out and told, and what is refused.

Files are made here, and values in comments are worked by hand. `python3 -m unittest tests.desk_ensemble`, or tests/desk.
"""
import json
import os
import random
import unittest

from tests.pages import Room

from desk import draft, forms, geometry, tracks, trial
from desk.keys import BadSituation
from desk.situation import situation
from desk.water import Water

# Three looks, at 12:15, 12:30 and 12:45, in an area of 3 by 4 squares of 1 km.
OPEN = """
[search]
begins = "2026-07-04 12:00"
minutes = 15
periods = 3
[area]
cell_size = 1000
rows = 3
columns = 4
edge = "lost"
[searcher]
start = "r0c0"
speed = 40
sweep_width = 200
[tracks]
file = "ensemble.csv"
"""
HEAD = "id,time,x,y\n"


def at(*rows, name="a"):
    """Lines of a track: pairs of a time and a place."""
    return "".join(f"{name},2026-07-04T{time},{x},{y}\n" for time, (x, y) in rows)


# A track that is at its place from the first look to the last.
STAYS = at(("12:00", (500, 500)), ("12:45", (500, 500)), name="stays")


class File(Room):
    """A situation with a file of tracks beside it."""

    def given(self, table, text=OPEN):
        self.write("ensemble.csv", table if isinstance(table, bytes) else table.encode())
        return situation(text.encode(), self.room)

    def looks(self, table, text=OPEN):
        """The places at each look, of each track."""
        return tracks.made(self.given(table, text)).looks

    def said(self, table, text=OPEN):
        return tracks.made(self.given(table, text)).said

    def refused(self, table, text=OPEN):
        with self.assertRaises(BadSituation) as caught:
            tracks.made(self.given(table, text))
        return str(caught.exception)


class Places(File):
    def test_straight_between_times_that_meet_no_look(self):
        # From 12:05 to 12:35 by 300 m east and 600 m south: at 12:15 a third of the way, at 12:30 five sixths. From there in 20 minutes to
        # [1000, 1000]: at 12:45 half of the way.
        table = HEAD + at(("12:05", (300, 300)), ("12:35:00", (600, 900)), ("12:55", (1000, 1000)))
        for look, place in zip(self.looks(table), ((400, 500), (550, 800), (800, 950))):
            self.assertEqual([round(it, 9) for it in look[0]], [*place])

    def test_times_in_any_order_of_rows_and_columns(self):
        rows = (("12:05", (300, 300)), ("12:35", (600, 900)), ("12:55", (1000, 1000)))
        wanted = self.looks(HEAD + at(*rows) + at(*rows, name="b"))
        lines = (at(*rows) + at(*rows, name="b")).splitlines()
        random.Random(1).shuffle(lines)
        mixed = "".join("{2},more,{3},{1},{0}\n".format(*it.split(",")) for it in lines)
        self.assertEqual(self.looks("x , other, Y,time,id\n" + mixed), wanted)
        self.assertEqual(self.looks("\ufeff" + HEAD.replace("\n", "\r\n") + "\n" + at(*rows) + at(*rows, name="b")), wanted)

    def test_spellings_of_times(self):
        for one, other in (("12:00:00", "12:45:00"), ("12:00:00.000", "12:45:00,0"), ("12:00", "12:45")):
            row = f'a,2026-07-04T{one},0,500\n"a","2026-07-04 {other}",900,500\n'
            self.assertEqual([look[0] for look in self.looks(HEAD + row)], [(300, 500), (600, 500), (900, 500)])

    def test_a_track_that_ends_stays_and_is_told(self):
        table = HEAD + STAYS + at(("12:00", (1500, 500)), ("12:20", (1700, 700)), name="ends")
        looks = self.looks(table)
        self.assertEqual([look[1] for look in looks[1:]], [(1700, 700)] * 2)
        self.assertIn("1 track ended before the last look (by no status), taken to stay at the last place", self.said(table))

    def test_late_and_empty_tracks_are_left_out_and_told(self):
        late = at(("12:16", (1500, 500)), ("12:45", (1700, 700)), name="late")
        empty = at(("12:00", ("", "")), ("12:45", ("nan", "NaN")), name="empty")
        in_time = at(("12:15", (2500, 500)), ("12:45", (2500, 800)), name="in time")
        self.assertEqual([look for look in self.looks(HEAD + late + STAYS + empty + in_time)], [[(500, 500), (2500, 500 + it)] for it in (0, 150, 300)])
        said = self.said(HEAD + late + STAYS + empty + in_time)
        self.assertTrue(said[0].startswith("ensemble.csv has 4 tracks from 2026-07-04 12:00 to 2026-07-04 12:45; sha256 "))
        self.assertIn("1 track begun after the first look, which is at 2026-07-04 12:15, left out", said)
        self.assertIn("1 track without a place at any time, left out", said)
        # What has no place at a time is where the line between the others is.
        masked = at(("12:00", (100, 500)), ("12:15", ("", "")), ("12:30", ("nan", 7)), ("12:45", (1000, 500)))
        self.assertEqual([look[0] for look in self.looks(HEAD + masked)], [(400, 500), (700, 500), (1000, 500)])

    def test_outside_of_the_area(self):
        # Out by the north at the second look, and in again at the third.
        table = HEAD + at(("12:15", (1500, 500)), ("12:30", (1500, -100)), ("12:45", (1600, 700))) + STAYS
        self.assertEqual([look[0] for look in self.looks(table)], [(1500, 500), None, (1600, 700)])
        self.assertIn("1 track outside of the area at some look, and found by none there", self.said(table))
        held = OPEN.replace('edge = "lost"', 'edge = "stays"')
        self.assertEqual(self.looks(table, held)[1][0], (1500, 0))
        self.assertIn("1 track outside of the area at some look, held at its edge", self.said(table, held))

    def test_in_a_square_of_land(self):
        # r1c1 is land. 100 m inside of its west and 300 m of its north: the nearest water is to the west. In r1c2 nobody is on land.
        land = OPEN.replace("columns = 4\n", 'columns = 4\nland = ["r1c1"]\n')
        table = HEAD + at(("12:15", (700, 1300)), ("12:30", (1100, 1300)), ("12:45", (2100, 1300)))
        looks = self.looks(table, land)
        self.assertEqual(([round(it, 2) for it in looks[1][0]], looks[2][0]), ([1000, 1300], (2100, 1300)))
        self.assertLess(looks[1][0][0], 1000)
        self.assertIn("1 track in a square of land at some look, taken to the nearest water", self.said(table, land))

    def test_few_are_called_few(self):
        for count, note in ((1, "note: no more than 1 track: shares"), (3, "note: no more than 3 tracks: shares"), (1000, None)):
            table = HEAD + "".join(STAYS.replace("stays", str(it)) for it in range(count))
            found = [it for it in self.said(table) if it.startswith("note")]
            self.assertEqual([it[: len(note or "")] for it in found], [note] if note else [])

    def test_the_nearest_water(self):
        """Held against a search of a fine grid over squares that are drawn."""
        draw = random.Random(4)
        for _ in range(20):
            land = frozenset((row, column) for row in range(4) for column in range(5) if draw.random() < 0.6) - {(draw.randrange(4), draw.randrange(5))}
            water = Water(geometry.Grid(4, 5, 100, land), True)
            x, y = draw.uniform(0, 500), draw.uniform(0, 400)
            found = water.nearest(x, y)
            self.assertTrue(water.is_water(*found))
            fine = [(4 * column + 2, 4 * row + 2) for row in range(100) for column in range(125)]
            least = min((one - x) ** 2 + (other - y) ** 2 for one, other in fine if water.is_water(one, other)) ** 0.5
            self.assertLess(abs(((found[0] - x) ** 2 + (found[1] - y) ** 2) ** 0.5 - least), 3)


class Refused(File):
    def test_what_is_wrong_with_a_file(self):
        for table, wanted in (
            ("", "its first line should name the columns id, time and x, y in metres of the area"),
            ("id,time,x\na,2026-07-04T12:00,1\n", "its first line should name the columns"),
            ("id,time,x,y,lat,lon\n", "its first line should name the columns"),
            ("id,time,x,x,y\n", "its first line should name the columns"),
            (HEAD, "it has no track"),
            (HEAD + at(("12:00", ("", "")), ("12:45", ("", ""))), "it has no track with a place"),
            (HEAD + at(("12:20", (1, 1)), ("12:50", (1, 1))), "all of its tracks begin after the first look, which is at 2026-07-04 12:15"),
            (HEAD + at(("12:00", (1, 1)), ("12:44", (1, 1))), "it ends at 2026-07-04 12:44, and the last look is at 2026-07-04 12:45"),
            (HEAD + at(("12:00", (-200, 90)), ("12:45", (-350, 60))) + at(("12:15", (-7, 3000)), ("12:45", (-7, 3000)), name="b"),
             "no track is in the area at any look; at the first one they are -250 to -7 m east and 80 to 3,000 m south of its north-west corner"),
            (HEAD + "a,2026-07-04T12:00,1\n", "line 2: it has 3 columns, and the first line has more"),
            (HEAD + STAYS + "a,yesterday,1,1\n", "line 4: time should be in ISO 8601, as in 2026-07-04T19:30:00, and is 'yesterday'"),
            (HEAD + "a,2026-02-30T12:00,1,1\n", "line 2: time should be in ISO 8601"),
            (HEAD + "a,2026-07-04,1,1\n", "line 2: time should be in ISO 8601"),
            (HEAD + "a,0001-01-01T00:00+05:00,1,1\n", "time should be of a year from 1900 to 2199, and is of 1"),
            (HEAD + "a,2026-07-04T12:00,east,1\n", "line 2: x should be a number from -10000000 to 10000000, and is 'east'"),
            (HEAD + "a,2026-07-04T12:00,1,inf\n", "line 2: y should be a number from -10000000 to 10000000, and is 'inf'"),
            (HEAD + STAYS + STAYS, "track 'stays' has two places at 2026-07-04 12:00"),
            (HEAD.encode() + b"\xff\xfe", "it isn't a CSV file in UTF-8"),
        ):
            with self.subTest(table):
                self.assertTrue(self.refused(table).startswith(f"[tracks] file: ensemble.csv: {wanted}"), self.refused(table))

    def test_what_contradicts(self):
        for old, new, wanted in (
            ("[tracks]", '[[report]]\ncell = "r0c0"\ntime = "2026-07-04 12:00"\n[tracks]', "[[report]]: it shouldn't stand with [tracks] file"),
            ("[tracks]", "[[current]]\nknots = 1\ntowards = 90\n[tracks]", "[[current]]: it shouldn't stand with [tracks] file"),
            ("[tracks]", "[drift]\nspread = 9\n[tracks]", "[drift]: it shouldn't stand with [tracks] file"),
            ("[tracks]", "[tracks]\nseed = 7", "[tracks] seed: it shouldn't stand with file"),
            ("[tracks]", "[tracks]\ncount = 2000", "[tracks] count: it shouldn't stand with file"),
            ("ensemble.csv", "ensemble.txt", "[tracks] file: it should be the name of a file of tracks that ends in .csv or .nc"),
            ("ensemble.csv", "other.csv", "[tracks] file: other.csv: it can't be read: No such file or directory"),
            ('"2026-07-04 12:00"', '"12:00"', "[tracks] file: ensemble.csv: time: it has a date, so [search] begins should have one"),
            ('file = "ensemble.csv"', "", "[[report]] is lacking"),
        ):
            with self.subTest(new):
                self.assertTrue(self.refused(HEAD + STAYS, OPEN.replace(old, new, 1)).startswith(wanted), self.refused(HEAD + STAYS, OPEN.replace(old, new, 1)))


# 1000 tracks in four ways: of ten, four stay in r0c0, three go east by a square a period from r1c0, two go from r2c0 to r2c1 behind the
# second look, and one leaves the area by the south behind the first.
WAYS = (
    (4, ((500, 500), (500, 500), (500, 500))),
    (3, ((500, 1500), (1500, 1500), (2500, 1500))),
    (2, ((500, 2500), (500, 2500), (1500, 2500))),
    (1, ((1500, 2500), (1500, 3500), (1500, 3500))),
)


def ways(times=("12:15", "12:30", "12:45"), hundreds=1):
    """The table of these tracks."""
    names = iter(range(1, 100_000))
    lines = (at(*zip(times, places), name=next(names)) for count, places in WAYS for _ in range(100 * count * hundreds))
    return HEAD + "".join(lines)


class Whole(File):
    """The file goes into a draft and a trial as simulated tracks do."""

    def test_a_draft_has_the_shares_of_the_tracks(self):
        given = self.given(ways(), OPEN + "finer = 1\n")
        scenario, lines = draft.scenario_of(given, OPEN.encode(), tracks.made(given))
        sc = forms.read_scenario(scenario, True)[0]
        names = [it.decode() for it in sc.names]
        row = lambda t, name: {names[it]: part / sc.parts[1] for it, part in sc.row(t, names.index(name)).items()}
        self.assertEqual([sc.first[names.index(it)] / sc.parts[0] for it in ("r0c0", "r1c0", "r2c0", "r2c1", "lost")], [0.4, 0.3, 0.2, 0.1, 0])
        self.assertEqual((row(1, "r1c0"), row(2, "r1c1"), row(2, "r2c0"), row(1, "r2c1")), ({"r1c1": 1}, {"r1c2": 1}, {"r2c1": 1}, {"lost": 1}))
        lines = list(lines)
        self.assertIn("1,000 tracks of ensemble.csv, counted in 6 cells and lost", "\n".join(lines))
        self.assertIn("ensemble.csv: 100 tracks outside of the area at some look, and found by none there", lines)
        self.assertIn("10.000 percent have left the area by the last look", lines)
        # The comments tell the file and its checksum.
        self.assertIn(b"# ensemble.csv has 1,000 tracks from 2026-07-04 12:15 to 2026-07-04 12:45; sha256 ", scenario)

    def test_the_path_is_relative_to_the_situation(self):
        os.mkdir(os.path.join(self.room, "model"))
        self.write("model/ensemble.csv", ways().encode())
        file = self.write("whole.toml", OPEN.replace("ensemble.csv", "model/ensemble.csv").encode())
        status, out, err = self.run_helper(draft.main, [file])
        self.assertEqual((status, out.split("\n")[1][:3]), (0, "# T"), err)

    def test_a_margin_for_those_outside(self):
        # At the last look four tenths are in the north-west corner, and one is 500 m south of the area: one row more holds it there, and
        # another keeps it off the edge.
        given = self.given(ways())
        lines = list(draft.scenario_of(given, OPEN.encode(), tracks.made(given))[1])
        (note,) = (it for it in lines if "over the edge" in it)
        self.assertIn("; add 1 row in the north, 1 column in the west, 2 rows in the south: rows = 6 and columns = 5", note)
        # Who is in a file south of land at the edge is in water there: the file knows.
        text = OPEN.replace("columns = 4", 'columns = 4\nland = ["r2c1..r2c3"]')
        given = self.given(ways(), text)
        (note,) = (it for it in draft.scenario_of(given, text.encode(), tracks.made(given))[1] if "over the edge" in it)
        self.assertIn("2 rows in the south: rows = 6", note)
        self.assertNotIn("land behind that", note)

    def trial(self, *words, status=0):
        self.write("ensemble.csv", ways().encode())
        ended, out, err = self.run_helper(trial.main, [self.write("whole.toml", OPEN.encode()), "--path", "r0c0,r1c1,r1c2", *words])
        self.assertEqual(ended, status, err)
        return out if status == 0 else err

    def test_a_trial_flies_over_the_tracks(self):
        out = self.trial().replace("\n  ", " ")
        self.assertIn("whole.toml: 1,000 tracks of ensemble.csv, which are the draft's own; --tracks FILE flies over others.", out)
        self.assertIn("ensemble.csv: 100 tracks outside of the area at some look", out)
        miss = 1 - self.finds("r0c0,r0c0,r0c0") / 0.4
        # Looks find r0c0's in period 1 and the second kind in periods 2 and 3.
        once = miss ** (1 / 3)
        self.assertAlmostEqual(self.finds("r0c0,r1c1,r1c2"), 0.4 * (1 - once) + 0.3 * (1 - once * once), 5)

    def finds(self, path):
        told = json.loads(self.trial("--path", path, "--json", "yes"))
        self.assertEqual((told["count"], told["seed"], told["file"]), (1000, None, "ensemble.csv"))
        return told["flown"][1]["finds"]

    def test_a_trial_over_another_file(self):
        other = self.write("other.csv", (HEAD + STAYS + at(("12:00", (1500, 1500)), ("12:45", (1500, 1500)), name="b")).encode())
        out = self.trial("--tracks", other).replace("\n  ", " ")
        self.assertIn("whole.toml: 2 tracks of other.csv. Behind", out)
        self.assertIn("other.csv: note: no more than 2 tracks", out)
        odd = self.write(b"o\xff\n.csv", (HEAD + STAYS).encode())
        self.assertIn(r"1 track of o\xff\n.csv", self.trial("--tracks", odd))
        self.assertIn("--count and --seed are of simulated drifts", self.trial("--seed", "4", status=2))
        self.assertIn("osp trial: [tracks] file: none.csv: it can't be read", self.trial("--tracks", "none.csv", status=1))


if __name__ == "__main__":
    unittest.main()
