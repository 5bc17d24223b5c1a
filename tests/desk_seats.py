"""Tests of what `osp show` and `osp brief` make of scenarios that `replan` and `duo` made: flown positions by their names and places,
two searchers beside each other. Their plans are by bench/tree. `python3 -m unittest tests.desk_seats`, or tests/desk."""
import os
import unittest

from desk import accepted, brief, carried, derived, forms, percent, reports, seats, show, writing
from tests.made import GRID, again, forced, paired, read, with_plan
from tests.pages import EXAMPLES, PLACES, Drawing, Refusing, Room, example

NAMES = sorted(it[:-7] for it in os.listdir(EXAMPLES) if it.endswith(".report"))
# From p and q nothing is seen; the searcher may go anywhere.
BLIND = b"""scenario 2
horizon 3
parts 1 2 2
cell a
cell b
position p
position q
position r
start p
first a 1
moves p p q r
moves q p q r
moves r p q r
drift a a 1 b 1
drift b a 1 b 1
look p
look q
look r a 1 b 1
end
"""


class Flown(unittest.TestCase):
    def test_every_prefix_of_the_plans_of_all_examples(self):
        for name in NAMES:
            text, plan = example(name)
            sc = read(text)
            path = forms.read_plan(plan, sc).path
            for k in range(1, sc.horizon + 1):
                made, count = again(derived.forced(sc, path[:k])), len(sc.positions)
                for old in (sc, None):
                    found = seats.seats(made, old)
                    self.assertEqual((found.flown, found.count, found.is_numbered), (k, 1, False))
                    self.assertEqual([it for (it,) in found.sources], [*range(count), sc.start, *path[:k]], (name, k))
                    self.assertEqual(found.names[count + 1 :], [(sc.positions[it].decode(),) for it in path[:k]])

    def test_of_positions_that_look_alike_no_name_is_guessed(self):
        sc = read(BLIND)
        made = again(derived.forced(sc, [1, 2]))
        self.assertEqual(seats.seats(made, sc).names[3:], [("p",), ("flown-1",), ("r",)])
        self.assertEqual(seats.seats(made).names[3:], [("flown-0",), ("flown-1",), ("r",)])
        self.assertEqual(seats.seats(made, sc).sources[3:], [(0,), (None,), (2,)])

    def test_where_one_of_them_alone_leads_on_it_is_named(self):
        sc = read(BLIND.replace(b"moves p p q r", b"moves p p q"))
        self.assertEqual(seats.seats(again(derived.forced(sc, [1, 2])), sc).names[3:], [("p",), ("q",), ("r",)])

    def test_names_alone_make_no_flown_position(self):
        """flown-1 looks where no position does that the start leads to; or leads elsewhere; or there is another one."""
        right = writing.scenario_text(derived.forced(read(GRID), [1]))
        self.assertEqual(seats.seats(read(right)).flown, 1)
        for old, new in ((b"look flown-1 r0c1 3", b"look flown-1 r1c1 3"), (b"look flown-1 r0c1 3", b"look flown-1 r0c1 4"), (b"moves flown-1 r0c0 ", b"moves flown-1 "),
                         (b"moves flown-0 flown-1", b"moves flown-0 flown-0 flown-1"), (b"moves r0c0 ", b"moves r0c0 flown-1 "),
                         (b"start flown-0", b"start flown-1"), (b"flown-1", b"flown-2")):  # fmt: skip
            self.assertIn(old, right)
            sc = read(right.replace(old, new))
            self.assertEqual((seats.seats(sc).flown, seats.seats(sc).of), (0, sc), new)

    def test_another_scenario_is_not_the_one_that_it_was_made_of(self):
        made = again(derived.forced(read(GRID), [1]))
        others = (b"first r1c2", b"first r1c1"), (b"rate 3", b"rate 4"), (b"spread 2", b"spread 1"), (b"start r0c0", b"start r0c2")
        for old, new in (*others, (b"horizon 3", b"horizon 2"), (b"grid 3 4", b"grid 4 3")):
            with self.assertRaises(seats.NotOf, msg=new):
                seats.seats(made, read(GRID.replace(old, new)))
        with self.assertRaises(seats.NotOf):
            seats.seats(read(GRID), read(GRID))


class Pairs(unittest.TestCase):
    def test_examples_of_few_positions(self):
        tried = 0
        for name in NAMES:
            sc = read(example(name)[0])
            for second in range(len(sc.positions)):
                try:
                    made = again(derived.product(sc, second))
                except derived.Refused:
                    continue
                tried += 1
                found, own = seats.seats(made, sc), seats.seats(made)
                pairs = [(a, b) for a in range(len(sc.positions)) for b in range(len(sc.positions))]
                self.assertEqual((found.count, found.flown, found.sources, own.sources), (2, 0, pairs, pairs))
                self.assertEqual(found.names, [(sc.positions[a].decode(), sc.positions[b].decode()) for a, b in pairs])
                self.assertEqual(own.names, [(str(a), str(b)) for a, b in pairs])
                self.assertEqual((found.is_numbered, own.is_numbered), (False, True))
                self.assertEqual([found.where(made.start)], [f"{sc.positions[sc.start].decode()} and {sc.positions[second].decode()}"])
        self.assertGreater(tried, 20)

    def test_names_alone_make_no_pairs(self):
        """Rows and columns of a grid with all moves have the names and the moves of pairs, and not their looks; so does another denominator."""
        cells = "p0-0", "p0-1", "p1-0", "p1-1"
        lines = ["scenario 1", "horizon 2", "parts 1 1 4", *(f"cell {it}" for it in cells), "start p0-0", "first p0-0 1"]
        lines += [f"moves {it} {' '.join(cells)}" for it in cells] + [f"drift {it} {it} 1" for it in cells] + ["rate 1", "end", ""]
        self.assertEqual(seats.seats(read("\n".join(lines).encode())).count, 1)
        right = writing.scenario_text(derived.product(read(example("two-cells")[0]), 1))
        self.assertEqual(seats.seats(read(right)).count, 2)
        moves, looks = (b"moves p0-0 p0-0 p0-1 ", b"moves p0-0 p0-1 "), ((b"look p0-0 a 0", b"look p0-0 a 1"), (b"look p0-1 a 0 b 0", b"look p0-1 a 0"))
        for old, new in ((b"parts 2 2 4", b"parts 2 2 5"), moves, *looks, (b"p1-1", b"p1-2")):
            self.assertIn(old, right)
            self.assertEqual(seats.seats(read(right.replace(old, new))).count, 1, new)

    def test_another_scenario_is_not_the_one_that_it_was_made_of(self):
        sc = read(example("two-cells")[0])
        made = again(derived.product(sc, 1))
        for old, new in ((b"start a", b"start b"), (b"overlook b 0", b"overlook b 1"), (b"first a 1 b 1", b"first b 2")):
            with self.assertRaises(seats.NotOf, msg=new):
                seats.seats(made, read(example("two-cells")[0].replace(old, new)))


class FlownPairs(Room):
    def test_both_at_once(self):
        """Two searchers, whose first looks were flown, of the scenario of one, of that of both, and of none."""
        one = read(GRID)
        both = again(derived.product(one, 11))
        flown = derived.numbers_of(both, [b"p1-7", b"p2-6"])
        made = again(derived.forced(both, flown))
        pairs = [("r0c0", "r2c3"), ("r0c1", "r1c3"), ("r0c2", "r1c2")]
        found = seats.seats(made, one)
        self.assertEqual((found.count, found.flown, found.names[144:], found.sources[144:]), (2, 2, pairs, [(0, 11), (1, 7), (2, 6)]))
        self.assertEqual(seats.seats(made).names[144:], [("0", "11"), ("1", "7"), ("2", "6")])
        self.assertEqual(seats.seats(made, both).names[144:], [("p0-11",), ("p1-7",), ("p2-6",)])
        for other in (GRID.replace(b"rate 3", b"rate 4"), GRID.replace(b"start r0c0", b"start r0c1")):
            with self.assertRaises(seats.NotOf):
                seats.seats(made, read(other))
        files = [self.write("made", with_plan(writing.scenario_text(derived.forced(both, flown)))), "--of", self.write("grid", GRID)]
        status, out, _ = self.run_helper(brief.main, files)
        self.assertEqual((status, out.splitlines()[1]), (0, "Accepted: no pair of paths that begins as flown is better."))
        self.assertEqual([it.split()[:4] for it in out.splitlines()[9:12]], [["1", "r0c1", "r1c3", "(flown)"], ["2", "r0c2", "r1c2", "(flown)"], ["3", "r1c2", "r1c3", "16.520"]])


class Texts(Drawing):
    def told(self, helper, made, *words):
        """What a helper writes of one file."""
        status, out, err = self.run_helper(helper.main, [self.write("made", made), *words])
        self.assertEqual((status, err), (0, ""))
        return out

    def test_a_brief_of_a_flown_prefix(self):
        """Worked by hand: a fifth of what is at r1c2 comes to r0c2, of which the look finds 7 of 10; of what comes back 12.04 percent."""
        out = self.told(brief, forced(GRID, "r0c1"), "--of", self.write("grid", GRID))
        self.assertEqual(out.splitlines()[:12], [
            "SEARCH PLAN made",
            "Accepted: no path that begins as flown is better.",
            out.splitlines()[2],
            "Chance to find them: 26.040 %, 3 looks, from r0c0",
            "The first look is flown.",
            "If it found nothing, those to come find them: 26.040 %.",
            "",
            "period  look from        finds    so far",
            "     1  r0c1 (flown)   0.000 %   0.000 %",
            "     2  r0c2          14.000 %  14.000 %",
            "     3  r1c2          12.040 %  26.040 %",
            "",
        ])  # fmt: skip

    def test_a_brief_of_two_searchers(self):
        out = self.told(brief, paired(GRID, "r2c3"), "--of", self.write("grid", GRID))
        found = out.splitlines()
        self.assertEqual([found[1], *found[3:5], *(it.split() for it in found[6:10])], [
            "Accepted: no pair of paths is better.",
            "Chance to find them: 44.520 %, 3 looks each",
            "from r0c0 and r2c3",
            ["period", "first", "from", "second", "from", "find", "so", "far"],
            ["1", "r0c1", "r1c3", "0.000", "%", "0.000", "%"],
            ["2", "r0c2", "r1c2", "28.000", "%", "28.000", "%"],
            ["3", "r1c2", "r1c3", "16.520", "%", "44.520", "%"],
        ])  # fmt: skip
        without = self.told(brief, paired(GRID, "r2c3"))
        self.assertIn("Positions have numbers here: --of SCENARIO has their names.\n", without)
        self.assertIn("     2  2           6  ", without)
        self.assertLessEqual(max(map(len, found)), brief.WIDTH)

    def test_all_looks_flown_and_a_find_for_certain(self):
        text = example("two-cells")[0]
        self.assertIn("\nAll looks are flown.\n", self.told(brief, forced(text, "a a")))
        sure = b"scenario 1\nhorizon 2\nparts 1 1 2\ncell a\nstart a\nfirst a 1\nmoves a a\ndrift a a 1\noverlook a 0\nend\n"
        self.assertIn("\nThe first look is flown.\nThey are found for certain by it.\n", self.told(brief, forced(sure, "a")))

    def test_numbers_are_those_of_the_report_and_the_map(self):
        """Of both pages: the table of periods against the report of the made text, the table of all cells against its map."""
        for made in (forced(GRID, "r0c1"), paired(GRID, "r2c3")):
            sc, rest = forms.read_scenario(made, False)
            path = forms.read_plan(rest, sc).path
            report, _ = accepted.asked("report", made)
            report = reports.read(report)
            looks, _ = accepted.asked("map", made[: len(made) - len(rest)], "flown", *(sc.positions[it].decode() for it in path))
            looks = reports.read_map(looks, report.weight)
            told = self.shown(self.write("made", made))
            rows = [it for it in told.one(class_="all").one("tbody").all("tr") if it.attributes.get("class") != "sum"]
            shown = [[int(it.attributes["title"].split(" of ")[0]) for it in row.all("td")][1:] for row in rows]
            self.assertEqual([list(it) for it in zip(*shown)], [[row.value for row in it.left] for it in looks])
            so_far = [it.one("td", class_="so-far").one(role="tooltip").text() for it in told.one("section", class_="periods").one("tbody").all("tr")]
            self.assertEqual(so_far, [f"exactly {it.value} of {report.weight}" for it in report.periods])
            self.assertEqual(told.one(class_="chance").one("strong").text(), f"{percent.cut(report.value, report.weight)}\N{NO-BREAK SPACE}%")


class Maps(Drawing):
    def page(self, made, *words):
        return self.shown(self.write("made", made), *words)

    def places(self, told, t):
        """Where the searchers are drawn in a period: the shape and its middle."""
        marks = list(told.one("figure", id=f"after-{t}").all("g", class_="searcher"))
        shapes = [next(it for it in mark.all() if it.tag in ("circle", "rect")) for mark in marks]
        half = [0 if it.tag == "circle" else 14 for it in shapes]
        keys = [("cx", "cy") if it.tag == "circle" else ("x", "y") for it in shapes]
        return [(it.tag, *(float(it.attributes[key]) + more for key in names)) for it, more, names in zip(shapes, half, keys)]

    def test_flown_positions_are_drawn_where_they_are(self):
        for words in ((), ("--of", self.write("grid", GRID))):
            told = self.page(forced(GRID, "r0c1 r0c2"), *words)
            self.assertEqual([self.places(told, t) for t in range(4)], [[("circle", 0, 0)], [("circle", 100, 0)], [("circle", 200, 0)], [("circle", 200, 100)]])
            heads = [told.one("figure", id=f"after-{t}").one("strong").text() for t in range(4)]
            flown = ["After look 1, from r0c1 (flown)", "After look 2, from r0c2 (flown)"]
            self.assertEqual(heads, ["Before the first look; the searcher is at r0c0", *flown, "After look 3, from r1c2"])
            rows = list(told.one("section", class_="periods").one("tbody").all("tr"))
            self.assertEqual([next(it.all("td")).text() for it in rows], ["r0c1 flown", "r0c2 flown", "r1c2"])

    def test_two_searchers_are_drawn_as_a_disc_and_a_square(self):
        for words, names in (((), ("2", "6")), (("--of", self.write("grid", GRID)), ("r0c2", "r1c2"))):
            told = self.page(paired(GRID, "r2c3"), *words)
            self.assertEqual(self.places(told, 0), [("circle", 0, 0), ("rect", 300, 200)])
            self.assertEqual(self.places(told, 2), [("circle", 200, 0), ("rect", 200, 100)])
            self.assertEqual(told.one("figure", id="after-2").one("strong").text(), f"After look 2, from {' and '.join(names)}")
            row = list(told.one("section", class_="periods").one("tbody").all("tr"))[1]
            self.assertEqual([it.text() for it in row.all("td")][:2], list(names))
            groups = [told.one("figure", id="after-2").all("g", class_=it) for it in ("gone", "now", "coming")]
            arrows = [[len(list(group.all("path", class_="arrow"))) for group in it] for it in groups]
            self.assertEqual(arrows, [[1, 1], [1, 1], [1, 1]])
            self.assertEqual([it.text() for it in told.one("ul", class_="signs").all("li")][:2], ["4first searcher, in this period", "4second searcher"])

    def test_two_at_one_place_stand_beside_each_other(self):
        told = self.page(paired(example("two-cells")[0], "a"))
        self.assertEqual(told.one("p", class_="accepted").text()[:37], "Accepted: no pair of paths is better.")
        cells = b"# at a 0 0\n# at b 1 0\n"
        told = self.page(paired(example("two-cells")[0], "a"), "--of", self.write("of", cells + example("two-cells")[0]))
        self.assertEqual(self.places(told, 0), [("circle", -17, 0), ("rect", 17, 0)])

    def test_comments_of_the_scenario_that_it_was_made_of_say_where_it_is(self):
        text = PLACES.encode() + example("swath")[0]
        made = forced(text, "over-west over-middle")
        self.assertEqual(list(self.page(made).all("figure")), [])
        told = self.page(made, "--of", self.write("of", text))
        self.assertEqual(self.places(told, 0), [("circle", -100, 100)])
        self.assertIn("and an aircraft that flies along its middle", told.one("header").text())

    def test_a_scenario_that_it_was_not_made_of_is_not_shown(self):
        """Also not by a page whose maker took another one for it, and whose parts are whole."""
        grid = self.write("grid", GRID)
        for made in (forced(GRID, "r0c1"), paired(GRID, "r2c3")):
            out = self.written(self.write("made", made), "--of", grid)
            for old, new in ((b"first r1c2", b"first r1c1"), (b"rate 3", b"rate 4"), (b"start r0c0", b"start r1c0"), (b"horizon 3", b"horizon 2"), (b"parts 1 10 10", b"parts 1 10 20")):
                self.assertIn(old, GRID)
                other = GRID.replace(old, new)
                changed = out.replace(carried.packed(GRID), carried.packed(other)).replace(carried.sum_of(GRID), carried.sum_of(other))
                (its,) = self.opened(changed)
                self.assertEqual((its["head"]["className"], {*its}), ("verdict", {"head"}), new)
                self.assertIn("the scenario isn&#x27;t made of the one that is said to be behind it", its["head"]["html"])

    def test_a_place_that_is_not_sure_is_told(self):
        text = b"# at a 0 0\n# at b 1 0\n# at p 0 1\n# at q 1 1\n# at r 0 0\n" + BLIND
        told = self.page(forced(text, "q r"), "--of", self.write("of", text))
        self.assertIn("Not on the map: flown-1.", told.one(id="map").text())
        self.assertEqual([self.places(told, t)[:1] for t in (0, 1)], [[("circle", 0, 100)], []])


class Refusals(Refusing):
    helpers = (show, brief)

    def test_files(self):
        made, grid = self.write("made", forced(GRID, "r0c1")), self.write("grid", GRID)
        other = self.write("other", GRID.replace(b"rate 3", b"rate 4"))
        self.all_refuse([made, "--of", other], 2, "other: replan and duo make no such scenario of it")
        self.all_refuse([made, "--of", self.room + "/none"], 5, "cannot read ")
        self.all_refuse([made, "--of", made], 2, "make no such scenario of it")
        self.all_refuse([made, "--of", self.write("bad", b"scenario 1\n")], 3, "bad isn't a scenario: line 2 EarlyEnd")
        self.all_refuse([*self.files("two-cells"), "--of", grid], 2, "make no such scenario of it")
        self.all_refuse([grid], 4, "bad plan: line 1 EarlyEnd")
        self.all_refuse([made, made], 4, "bad plan: line ")

    def test_one_file_and_two_say_the_same(self):
        made = forced(GRID, "r0c1")
        rest = forms.read_scenario(made, False)[1]
        files = [self.write("made", made[: len(made) - len(rest)]), self.write("plan", rest)]
        for helper in (show, brief):
            two = self.run_helper(helper.main, files)
            for between in (b"", b"\n \r\n"):
                one = self.run_helper(helper.main, [self.write("made", made[: len(made) - len(rest)] + between + rest)])
                self.assertEqual(one[0], 0)
                if not between:
                    self.assertEqual(one, two)
            self.write("made", made[: len(made) - len(rest)])

    def test_hostile_texts(self):
        """A name is never markup, whatever stands in either text."""
        made = forced(GRID, "r0c1")
        for text in (b"\xff" * 1000, b"# " + b"<b>" * 100_000, made.replace(b"path ", b"path <script>"), b"scenario 1\n" * 10_000, made * 2):
            self.assertIn(self.run_helper(show.main, [self.write("made", text)])[0], (3, 4))
            self.assertIn(self.run_helper(show.main, [self.write("m", made), "--of", self.write("of", text)])[0], (2, 3))


if __name__ == "__main__":
    unittest.main()
