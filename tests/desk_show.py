"""Tests of `osp show` and `osp brief`: every number against the reports of examples/ and against chances of walks, what is refused,
hostile texts, and the page in a browser. `python3 -m unittest tests.desk_show`, or tests/desk."""
import json
import os
import re
import subprocess
import sys
import unittest
import unittest.mock
from decimal import ROUND_DOWN, Decimal, getcontext
from fractions import Fraction

from desk import accepted, brief, carried, clock, forms, layout, masses, moments, page, percent, program, reports, show, squares
from tests import finer
from tests.made import with_plan
from tests.pages import EXAMPLES, PLACES, Drawing, Refusing, Room, answers, comments_of, example, read, tree, walks

NAMES = sorted(it[:-7] for it in os.listdir(EXAMPLES) if it.endswith(".report"))
getcontext().prec = 120


def cut(part, whole):
    """A share in percent as a report has it, computed another way than desk.masses does."""
    return str((Decimal(part) * 100 / Decimal(whole)).quantize(Decimal("0.001"), ROUND_DOWN))


def in_map(part, whole):
    """The same as it stands in a cell of a map."""
    return cut(part, whole) if part else "0"


def by_walks(sc, path):
    """For each number of looks, what they find, and by cell what is there and missed: by all walks of the target."""
    found, left = [Fraction(0)] * (sc.horizon + 1), [[Fraction(0)] * len(sc.names) for _ in range(sc.horizon + 1)]
    for walk, chance in walks(sc):
        left[0][walk[0]] += chance
        missed = chance
        for t, (cell, position) in enumerate(zip(walk, path), 1):
            missed *= Fraction(sc.look(t, position).get(cell, sc.parts[2]), sc.parts[2])
            left[t][cell] += missed
            found[t] += chance - missed
    return found, left


class Masses(unittest.TestCase):
    def test_frames_are_what_walks_of_the_target_give(self):
        for name in ("two-cells", "waiting-longer", "tide", "night", "swath", "uneven-overlook", "lake-with-island"):
            text, plan = example(name)
            sc, _ = forms.read_scenario(text, alone=True)
            path = forms.read_plan(plan, sc).path
            told = masses.frames(sc, path)
            whole = sum(told[0].left)
            found, left = by_walks(sc, path)
            self.assertEqual([Fraction(it.so_far, whole) for it in told], found, name)
            self.assertEqual([[Fraction(mass, whole) for mass in it.left] for it in told], left, name)
            self.assertEqual([it.found for it in told[1:]], [b.so_far - a.so_far for a, b in zip(told, told[1:])], name)

    def test_what_two_cells_have(self):
        """Worked by hand: 8 of 16 by the first look, then the other 8 spread to 4 and 4, of which the look at a finds 4."""
        sc, _ = forms.read_scenario(example("two-cells")[0], alone=True)
        told = [(it.period, it.found, it.so_far, it.left, it.covered) for it in masses.frames(sc, [0, 0])]
        self.assertEqual(told, [(0, 0, 0, [8, 8], []), (1, 8, 8, [0, 8], [0]), (2, 4, 12, [0, 4], [0])])

    def test_percent_is_cut_off(self):
        rows = (2, 3, "66.666"), (1, 1, "100.000"), (0, 7, "0.000"), (1, 10**5, "0.001"), (1, 10**5 + 1, "0.000"), (999_999, 10**6, "99.999")
        for part, whole, text in rows:
            self.assertEqual(percent.cut(part, whole), text)
            self.assertEqual(cut(part, whole), text)

    def test_greatest_first_and_of_equals_the_smaller_number(self):
        self.assertEqual(masses.greatest([3, 0, 5, 5, 1]), [2, 3, 0, 4])


class Reports(unittest.TestCase):
    def test_all_examples(self):
        for name in NAMES:
            report, same = reports.read(read(f"{EXAMPLES}/{name}.report")), json.loads(read(f"{EXAMPLES}/{name}.report.json"))
            self.assertEqual((str(report.value), str(report.weight)), (same["chance"], same["weight"]), name)
            self.assertEqual([it.name for it in report.periods], same["path"], name)
            self.assertEqual([str(it.value) for it in report.periods], same["periods"], name)
            self.assertEqual([{"cell": it.name, "mass": str(it.value)} for it in report.left], same["left"], name)

    def test_other_texts_are_none(self):
        right = read(f"{EXAMPLES}/two-cells.report")
        reports.read(right)
        for old, new in ((b"report 1", b"report 2"), (b"75.000", b"75.001"), (b"period 2", b"period 3"), (b"b 4 25.000", b"b 5 31.250"),
                         (b"end\n", b""), (b"end\n", b"end\nend\n"), (b"12 16", b"12  16"), (b"period 1 a", b"period 1 \xff")):
            self.assertIn(old, right)
            with self.assertRaises(reports.NoReport, msg=new):
                reports.read(right.replace(old, new))
        for text in (b"", b"report 1\nchance 0 0 0.000\nend\n", b"\xff" * 100, right[:-1]):
            with self.assertRaises(reports.NoReport):
                reports.read(text)


class Places(unittest.TestCase):
    def swath(self, more=PLACES):
        text = more.encode() + example("swath")[0]
        return forms.read_scenario(text, alone=True)[0], text

    def test_by_comments_and_by_the_cells_that_a_position_covers(self):
        told = layout.layout(*self.swath())
        self.assertEqual(told.cells[0], (250, 250))
        self.assertEqual((told.side, told.metres), (500, True))
        self.assertEqual(told.positions, [(-250, 750), (250, 750), (750, 750), (1250, 750)])

    def test_a_position_that_nothing_places_or_that_lies_far_off_is_not_drawn(self):
        self.assertIsNone(layout.layout(*self.swath(PLACES.replace("# at base -250 750\n", ""))).positions[0])
        self.assertIsNone(layout.layout(*self.swath(PLACES.replace("base -250", "base -9250"))).positions[0])

    def test_by_names(self):
        sc, _ = forms.read_scenario(example("drifting-grid")[0], alone=True)
        told = layout.layout(sc, b"")
        self.assertEqual((told.cells[0], told.cells[8], told.side, told.metres), ((0, 0), (1, 1), 1, False))
        self.assertEqual(told.positions, told.cells)

    def test_no_places(self):
        for more, why in (
            ("", "north-west"),
            (PLACES.replace("# at east 1250 750\n", ""), "north-west"),
            (PLACES.replace("north 750", "north 250"), "same place"),
            (PLACES.replace("north 750 250", "north 250.001 250"), "too far apart"),
            (PLACES.replace("750 250", "NaN 1e999"), "north-west"),
            (PLACES.replace("# at", "#at"), None),
        ):
            sc, text = self.swath(more)
            if why is None:
                self.assertTrue(layout.layout(sc, text).metres)
            else:
                with self.assertRaises(layout.NoPlaces) as raised:
                    layout.layout(sc, text)
                self.assertIn(why, str(raised.exception))

    def test_a_later_line_counts_and_blanks_do_not(self):
        self.assertEqual(layout.places_told(b" # at a 1 2\n#\tat b -1.5 2 \r\n# at a 3 4\n# at c 1\n# at d 1 2 3\n"), {b"a": (3, 4), b"b": (-1.5, 2)})


class Squares(unittest.TestCase):
    """Cells that are parts of squares, in tests/finer.py."""

    def layout(self, text):
        return layout.layout(forms.read_scenario(text, alone=True)[0], text)

    def test_cells_are_grouped_by_the_names_of_their_squares(self):
        own = squares.squares(forms.read_scenario(finer.TEXT, alone=True)[0])
        self.assertEqual(own.texts, ["r0c0", "r0c1", "lost", "r0c2", "r1c0", "r1c1", "r1c2"])
        self.assertEqual((own.cells, own.split, own.noun), ([[0, 1, 2], [3, 4], [5], [], [], [], []], {0, 1}, "square"))
        self.assertEqual((own.of_cells(), own.filled()), ([0, 0, 0, 1, 1, 2], [0, 1, 2]))
        self.assertEqual([own.sums(it)[:3] for it in finer.LEFT], finer.BY_SQUARE)

    def test_where_none_is_finer_they_are_the_cells(self):
        for name in ("drifting-grid", "swath", "tide"):
            sc, _ = forms.read_scenario(example(name)[0], alone=True)
            own = squares.squares(sc)
            self.assertEqual((own.names, own.cells, own.noun), (sc.names, [[it] for it in range(len(sc.names))], "cell"), name)

    def test_a_position_that_is_named_as_a_square_is_one_without_cells(self):
        sc, _ = forms.read_scenario(finer.TEXT.replace(b"r1c2", b"pier"), alone=True)
        self.assertEqual(squares.squares(sc).texts[3:], ["r0c2", "r1c0", "r1c1"])

    def test_states_lie_in_their_places(self):
        told = self.layout(finer.TEXT)
        self.assertEqual((told.side, told.metres, told.finer), (500, True, 2))
        self.assertEqual(told.cells, [(125, 125), (375, 125), (375, 375), (625, 125), (625, 375), (2000, 750)])
        self.assertEqual(told.squares[:3] + told.squares[-1:], [(250, 250), (750, 250), (2000, 750), (1250, 750)])

    def test_how_many_parts_make_a_square(self):
        """The middles of parts of 500 m, to two digits; what lies elsewhere isn't drawn in its place."""
        for places, count in (
            ((83.33, 250, 416.67), 3),
            ((62.5, 187.5, 437.5), 4),
            ((50, 150, 250), 5),
            ((125, 250, 416.67), 1),
            ((125, 375, 600), 1),
        ):
            names, rest = ("r0c0-01", "r0c0-02", "r0c0-04"), [it for it in finer.TEXT.decode().splitlines() if not re.match("# at r0c[01]-", it)]
            lines = [f"# at {name} {it} {places[0]}" for name, it in zip(names, places)] + [f"# at r0c1-0{it} {500 + places[0]} {places[it // 3]}" for it in (1, 3)]
            self.assertEqual(self.layout("\n".join([*lines, *rest]).encode()).finer, count, places)

    def test_without_places_of_states_squares_are_drawn_by_their_names(self):
        told = self.layout(finer.BODY.encode())
        self.assertEqual((told.squares[0], told.squares[6], told.side, told.metres, told.finer), ((0, 0), (2, 1), 1, False, 1))
        self.assertEqual(told.squares[2], (3.5, 1), "what is lost lies apart")
        self.assertEqual(told.cells[:3], [(0, 0)] * 3)

    def test_a_square_that_has_no_place(self):
        with self.assertRaises(layout.NoPlaces) as raised:
            self.layout(finer.BODY.replace("r0c1-01", "quay").encode())
        self.assertEqual(str(raised.exception), "nothing says where the square quay lies")


def taken(words):
    """What words of show say."""
    return clock.taken(words, show.WORDS)


# From one o'clock on, 5 minutes each.
FROM_ONE = moments.Times(moments.Clock(moments.Moment(Fraction(60))), Fraction(5))


class Clocks(unittest.TestCase):
    def test_times(self):
        given = taken(["a", "--minutes", "45", "b", "--from", "9:30"])
        self.assertEqual((given.files, [given.times.at(it) for it in (1, 2, 20, 52)]), (["a", "b"], ["09:30", "10:15", "23:45", "23:45+1"]))
        self.assertEqual(taken(["a", "b"]), clock.Words(["a", "b"], None, None))
        self.assertEqual(taken(["--", "--from", "-"]), clock.Words(["--from", "-"], None, None))

    def test_one_file_and_the_scenario_that_it_is_made_of(self):
        self.assertEqual(taken(["a"]), clock.Words(["a"], None, None))
        self.assertEqual(taken(["--of", "b", "a"]), clock.Words(["a"], "b", None))
        self.assertEqual(taken(["a", "--of=b=c"]), clock.Words(["a"], "b=c", None))
        self.assertEqual(taken(["-", "--of", "--of"]), clock.Words(["-"], "--of", None))
        self.assertEqual(taken(["a", "-", "--of", "b", "--from", "1:00", "--minutes", "5"]), clock.Words(["a", "-"], "b", FROM_ONE))

    def test_dates_and_utc(self):
        given = taken(["a", "--from", "2026-12-31T23:50Z", "--minutes", "15"]).times
        self.assertEqual([given.at(it) for it in (1, 2)], ["23:50", "00:05+1"])
        self.assertEqual(str(given.utc(2)), "2027-01-01 00:05:00+00:00")
        self.assertEqual(given.about(), ["Times are UTC, from 2026-12-31 on."])
        for word, about in (("19:30", []), ("19:30Z", ["Times are UTC."]), ("2026-07-04 19:30", ["Times are local, from 2026-07-04 on."])):
            given = taken(["a", "--from", word, "--minutes", "15"]).times
            self.assertEqual((given.about(), given.utc(1)), (about, None))

    def test_bad_words(self):
        times = "24:00 --minutes 1", "1:60 --minutes 1", "1:00 --minutes 0", "1:00 --minutes 1441", "1:00 --minutes 1.5", "1:00 --from 1:00", "١:00 --minutes 5"
        made = "--of a", "a --of", "a --of b --of c", "a --off=b", "- --of -", "a - --of -"
        for words in ("", "a b c", "- -", "a -- b c", "a b --all", "a b --from", "a b --from 1:00", *made, *(f"a b --from {it}" for it in times)):
            with self.assertRaises(clock.BadWords, msg=words):
                taken(words.split())


class Pages(Drawing):
    made = {}

    def page(self, name, more=b"", words=()):
        """The page of an example, with more text before its scenario. Each is made once."""
        key = name, more, tuple(words)
        if key not in self.made:
            self.made[key] = self.new_page(name, more, words)
        return self.made[key]

    def new_page(self, name, more, words):
        text, plan = example(name)
        out = self.written(self.write(f"{name}.scenario", more + text), self.write(f"{name}.plan", plan), *words)
        return self.drawn(out)[0], out

    def exact(self, element):
        """A share in percent, and its exact fraction, as two numbers."""
        box = element.one(class_="exact")
        tip = box.one(role="tooltip")
        self.assertEqual(box.attributes["aria-describedby"], tip.attributes["id"])
        self.assertEqual(box.attributes["tabindex"], "0")
        part, whole = tip.text().removeprefix("exactly ").split(" of ")
        return box.parts[0].replace("\N{NO-BREAK SPACE}", " "), int(part), int(whole)

    def test_all_numbers_of_the_tables_are_those_of_the_reports(self):
        for name in NAMES:
            told, report = self.page(name)[0], json.loads(read(f"{EXAMPLES}/{name}.report.json"))
            value, whole = int(report["chance"]), int(report["weight"])
            self.assertEqual(told.one(class_="chance").one("strong").text(), f"{cut(value, whole)}\N{NO-BREAK SPACE}%")
            rows = self.rows(told, "periods")
            self.assertEqual([it.one("bdi").text() for it in rows], report["path"], name)
            before = 0
            for row, so_far in zip(rows, map(int, report["periods"]), strict=True):
                self.assertEqual(self.exact(row.one("td", class_="so-far")), (cut(so_far, whole) + " %", so_far, whole), name)
                self.assertEqual(self.exact(row.one("td", class_="found")), (cut(so_far - before, whole) + " %", so_far - before, whole), name)
                before = so_far
            self.check_left(told, report, name)

    def rows(self, told, section):
        """The rows of the table in a section, without its head."""
        return list(told.one("section", class_=section).one("tbody").all("tr"))

    def check_left(self, told, report, name):
        """The table of what is left, and the last column of the table of all cells."""
        whole, left = int(report["weight"]), [(it["cell"], int(it["mass"])) for it in report["left"]]
        missed = sum(mass for _, mass in left)
        order = sorted((it for it in left if it[1]), key=lambda it: -it[1])
        rows = self.rows(told, "left") if order else []
        self.assertEqual(len(rows), min(len(order), 10), name)
        for row, (cell, mass) in zip(rows, order):
            of_all, of_left = row.all("td")
            self.assertEqual(row.one("bdi").text(), cell)
            self.assertEqual((self.exact(of_all), self.exact(of_left)), ((cut(mass, whole) + " %", mass, whole), (cut(mass, missed) + " %", mass, missed)))
        rows = [it for it in told.one(class_="all").one("tbody").all("tr") if it.attributes.get("class") != "sum"]
        last = [list(it.all("td"))[-1] for it in rows]
        self.assertEqual([it.one("bdi").text() for it in rows], [cell for cell, _ in left])
        self.assertEqual([(it.text(), it.attributes["title"]) for it in last], [(in_map(mass, whole), f"{mass} of {whole}") for _, mass in left], name)
        sums = next(it for it in told.one(class_="all").all("tr") if it.attributes.get("class") == "sum")
        self.assertEqual([it.text() for it in sums.all("td")], ["0", *(in_map(int(it), whole) for it in report["periods"])])

    def test_the_pages_of_the_situations_are_what_is_shown_of_them(self):
        """They were made by an unproved run, and so carry no program and have nothing checked; what they say else is what is written now."""
        checked = re.compile("When it was made: Checked by [^<]*")
        for name in (f"situations/{it}" for it in ("aircraft", "coast-by-night", "harbour-and-dinghy", "kayaker", "tide-and-night")):
            there = read(f"{EXAMPLES}/{name}.html").decode()
            with unittest.mock.patch.object(carried, "module", return_value=None):
                out = self.written(*self.files(name))
            self.assertEqual(checked.search(there)[0], "When it was made: Checked by an unproved run of the program.", name)
            self.assertEqual(checked.sub("", out), checked.sub("", there), name)

    def test_all_numbers_of_the_maps_are_those_of_walks(self):
        for name, more in (("swath", PLACES.encode()), ("lake-with-island", b"")):
            sc, _ = forms.read_scenario(example(name)[0], alone=True)
            path = forms.read_plan(example(name)[1], sc).path
            if not more:
                more = b"".join(b"# at %s %d %d\n" % (it, at % 4 * 100, at // 4 * 100) for at, it in enumerate(sc.names))
            told, _ = self.page(name, more)
            found, left = by_walks(sc, path)
            for t in range(sc.horizon + 1):
                self.check_map(told.one("figure", id=f"after-{t}"), sc, t and path[t - 1], t, left[t])
            column = [[it.text() for it in row.all("td")] for row in told.one(class_="all").one("tbody").all("tr")]
            self.assertEqual([list(it) for it in zip(*column)], [[*(share(it) for it in here), share(so_far)] for here, so_far in zip(left, found)], name)

    def check_map(self, figure, sc, position, t, left):
        """The shares, colours and outlines of a map."""
        missed = sum(left)
        texts = [it.text() for it in figure.all("text", class_="of-all")], [it.text() for it in figure.all("text", class_="of-left")]
        self.assertEqual(texts, ([share(it) for it in left], [share(it / missed) for it in left]))
        squares = list(figure.one("g", class_="cells").all("rect"))
        self.assertEqual([it.attributes["class"] for it in squares], [f"a{colour(it)} b{colour(it / missed)}" for it in left])
        for square, mass, name in zip(squares, left, sc.names, strict=True):
            part, whole = square.one("title").text().split("; ")[-1].split(" of ")
            self.assertEqual(Fraction(int(part), int(whole)), mass)
            self.assertTrue(square.one("title").text().startswith(name.decode() + ": "))
        outlined = {(float(it.attributes["x"]) + 45, float(it.attributes["y"]) + 45) for it in figure.one("g", class_="covers").all("rect")}
        seen = sc.look(t, position) if t else {}
        middles = [(float(it.attributes["x"]) + 49, float(it.attributes["y"]) + 49) for it in squares]
        self.assertEqual(outlined, {middles[it] for it, part in seen.items() if part < sc.parts[2]})

    def test_many_looks_are_split_into_tables_that_fit_on_paper(self):
        whole, out = self.page("tide")
        (parts,) = self.drawn(out.replace("MOST_COLUMNS] = [10, 11]", "MOST_COLUMNS] = [10, 3]"))
        texts = [texts_of(it) for it in parts.one("section", class_="all").all("table")]
        self.assertEqual([len(it[0]) for it in texts], [4, 4, 2])
        joined = [rows[0] + [cell for row in rows[1:] for cell in row[1:]] for rows in zip(*texts)]
        self.assertEqual(joined, texts_of(whole.one("section", class_="all").one("table")))

    def test_the_searcher_stands_where_the_path_says(self):
        told, _ = self.page("drifting-grid")
        path = json.loads(read(f"{EXAMPLES}/drifting-grid.report.json"))["path"]
        for t, name in enumerate(["r0c0", *path]):
            figure = told.one("figure", id=f"after-{t}")
            at = figure.one("g", class_="searcher").one("circle").attributes
            self.assertEqual(f"r{int(at['cy']) // 100}c{int(at['cx']) // 100}", name)
            self.assertEqual(figure.one("g", class_="searcher").one("text").text(), str(t or "S"))
            self.assertIn(name, figure.one("strong").text())
            arrows = [len(list(figure.one("g", class_=it).all("path", class_="arrow"))) for it in ("gone", "now", "coming")]
            moves = [a != b for a, b in zip(["r0c0", *path], path)]
            self.assertEqual(arrows, [sum(moves[: max(t - 1, 0)]), sum(moves[max(t - 1, 0) : t]), sum(moves[t:])])

    def test_the_numbers_behind_it(self):
        told, _ = self.page("drifting-grid")
        said = told.one("section", class_="numbers").text()
        first, _, _, nodes, *_ = example("drifting-grid")[1].decode().split("\n")
        chance, text = "22473449177088000 of 128000000000000000", f"version {first.removeprefix('plan ')}, {nodes.removeprefix('nodes ')} records:"
        for part in (chance, "first distribution 1, drift 20, looks 10", "8 periods, 49 cells, 49 positions", text):
            self.assertIn(part, said)
        sums = [subprocess.run(["sha256sum"], input=it, capture_output=True, check=True).stdout.decode()[:64] for it in example("drifting-grid")]
        self.assertEqual([it.text() for it in told.all("dd", class_="sum")], sums)

    def test_a_plan_of_version_1_and_a_scenario_without_a_last_line_feed(self):
        scenario, plan = self.write("s", example("two-cells")[0].rstrip(b"\n")), f"{EXAMPLES}/two-cells-1.plan"
        self.assertIn("text of version 1, 5 records:", self.shown(scenario, plan).text())

    def test_times_stand_in_the_table_and_above_the_maps(self):
        told, _ = self.page("kayaker", words=["--from", "23:50", "--minutes", "7"])
        rows = self.rows(told, "periods")
        self.assertEqual([next(it.all("td")).text() for it in rows][:3], ["23:50", "23:57", "00:04+1"])
        self.assertEqual(told.one("figure", id="after-2").one("strong").text(), "After look 2, from r4c3 (23:57 to 00:04+1)")

    def test_what_helps_a_screen_reader(self):
        for name, more in (("drifting-grid", b""), ("swath", PLACES.encode()), ("night", b"")):
            told, _ = self.page(name, more)
            ids = [it.attributes["id"] for it in told.all() if "id" in it.attributes]
            self.assertEqual(len(ids), len(set(ids)))
            self.assertEqual({it.attributes["aria-describedby"] for it in told.all() if "aria-describedby" in it.attributes} - set(ids), set())
            self.assertTrue(all(it.attributes.get("aria-label") or it.attributes.get("aria-hidden") == "true" for it in told.all("svg")))
            self.assertTrue(all(any(True for _ in it.all("caption")) for it in told.one("main").all("table")))
            self.assertTrue(all(it.attributes.get("scope") in ("row", "col") for it in told.one("main").all("th")))
            self.assertTrue(all(it.text().strip() or it.attributes.get("aria-label") for it in told.all("button")))
            self.assertEqual(told.one("html").attributes["lang"], "en")

    def test_nothing_is_fetched_and_only_its_own_script_runs(self):
        for name in ("drifting-grid", "swath"):
            told, out = self.page(name)
            policy = told.one("meta", **{"http-equiv": "Content-Security-Policy"}).attributes["content"]
            sums = {tag: " ".join(f"'{page.checksum(it.text())}'" for it in told.all(tag)) for tag in ("script", "style")}
            wanted = f"default-src 'none'; style-src {sums['style']}; script-src {sums['script']} 'wasm-unsafe-eval'; worker-src blob:; base-uri 'none'; form-action 'none'"
            self.assertEqual(policy, wanted)
            for it in (told, tree(out)):
                keys = {key for each in it.all() for key in each.attributes}
                self.assertEqual({key for key in keys if key.startswith("on") or key in ("src", "href", "style", "action")}, set())
            self.assertNotIn("://", out.replace("http://www.w3.org/2000/svg", ""))
            self.assertNotIn("@import", out)


class FinerPages(Drawing):
    """The page and the text of tests/finer.py: squares where one reads, states where a number is exact."""

    def page(self, text=finer.TEXT):
        return self.shown(self.write("s", with_plan(text)))

    def test_the_maps(self):
        """256 is the whole. A state is a quarter of a square: 64 of it make a square's worth of 256, or 100 percent."""
        for t, told in enumerate(self.page().all("figure")):
            left, sums = finer.LEFT[t], [*finer.BY_SQUARE[t], 0, 0, 0, 0]
            self.assertEqual([it.text() for it in told.all("text", class_="of-all")], [in_map(it, 256) for it in sums])
            self.assertEqual([it.text() for it in told.all("text", class_="of-left")], [in_map(it, sum(sums)) for it in sums])
            rects = list(told.one("g", class_="cells").all("rect"))
            self.assertEqual([it.one("title").text().split("; ")[-1] for it in rects[:7]], [f"{it} of 256" for it in sums])
            self.assertEqual([it.attributes["class"].split()[0] for it in rects[:2]], ["a0", "a0"], "below its states a square is white")
            parts = {it.one("title").text().split(":")[0]: it for it in rects[7:]}
            self.assertEqual(list(parts), ["r0c0-01", "r0c0-02", "r0c0-04", "r0c1-01", "r0c1-03"])
            self.assertEqual([it.attributes["class"].split()[0] for it in parts.values()], [f"a{part_colour(it)}" for it in left[:5]])
            self.assertEqual(parts["r0c0-04"].one("title").text(), f"r0c0-04: {in_map(left[2], 256)} % of all, {in_map(left[2], sum(sums))} % if nothing was found")
            self.check_places(told, parts, t)

    def check_places(self, figure, parts, t):
        """Where states lie, and the outlines of squares and of what the look covers. A square is 100 units wide, and r0c0's middle is 0 0."""
        side = (100 - 2) / 2 - 0.5
        places = {name: tuple(round(float(it.attributes[key]) + side / 2) for key in "xy") for name, it in parts.items()}
        self.assertEqual(places, {"r0c0-01": (-25, -25), "r0c0-02": (25, -25), "r0c0-04": (25, 25), "r0c1-01": (75, -25), "r0c1-03": (75, 25)})
        borders = [(it.attributes["x"], it.attributes["y"]) for it in figure.one("g", class_="borders").all("rect")]
        self.assertEqual(borders, [("-49", "-49"), ("51", "-49")])
        seen = [(it.attributes["x"], it.attributes["y"]) for it in figure.one("g", class_="covers").all("rect")]
        self.assertEqual(seen, [] if t == 0 else [("-45" if finer.PATH[t - 1] == "r0c0" else "55", "-45")])

    def test_what_is_said_of_squares_and_states(self):
        told, text = self.page(), self.page().text()
        said = "a square is 500 m wide, and where they may be is counted in states, parts of it of 250 m."
        for part in (said, "per square:", "3 squares in 6 states, 6 positions", "All squares together hold 25.000 % of all."):
            self.assertIn(part, text)
        self.assertIn("Likeliest now: r0c0 12.500\N{NO-BREAK SPACE}%, r0c1 6.250\N{NO-BREAK SPACE}%, lost 6.250", told.one("figure", id="after-3").text())
        rows = [it.one("bdi").text() for it in told.one("section", class_="left").one("tbody").all("tr")]
        self.assertEqual(rows, ["r0c0", "r0c1", "lost"])

    def test_the_tables_of_all_looks(self):
        by_square, by_state = (texts_of(it.one("table")) for it in self.page().all("details", class_="all"))
        found = ["found so far", "0", "50.000", "62.500", "75.000"]
        for texts, noun, names, left in (
            (by_square, "Square", ["r0c0", "r0c1", "lost"], finer.BY_SQUARE),
            (by_state, "State", ["r0c0-01", "r0c0-02", "r0c0-04", "r0c1-01", "r0c1-03", "lost"], finer.LEFT),
        ):
            self.assertEqual(texts[0], [noun, "before", "look 1", "look 2", "look 3"])
            self.assertEqual(texts[1:], [*([name, *(in_map(it, 256) for it in row)] for name, row in zip(names, zip(*left))), found])

    def test_without_places_of_states_the_map_is_of_squares(self):
        told = self.page(finer.BODY.encode())
        figure = told.one("figure", id="after-3")
        self.assertEqual([it.attributes["class"].split()[0] for it in figure.one("g", class_="cells").all("rect")], ["a6", "a5", "a5", *["a0"] * 4])
        self.assertEqual(list(figure.all("g", class_="borders")), [])
        self.assertNotIn("per square:", told.text())

    def test_the_brief(self):
        status, out, err = self.run_helper(brief.main, [self.write("s", with_plan(finer.TEXT))])
        self.assertEqual((status, err), (0, ""))
        lines = out.splitlines()
        at = lines.index("If nothing was found, they are after look 3 in")
        due = ["square    of all  of what is left", "r0c0    12.500 %         50.000 %", "r0c1     6.250 %         25.000 %", "lost     6.250 %         25.000 %"]
        self.assertEqual(lines[at + 1 : at + 6], [*due, ""])


def part_colour(mass):
    """The class of colour of a state of tests/finer.py, four of which make a square, by hand."""
    return {0: 0, 16: 6, 32: 7, 64: 7, 128: 7}[mass]


def texts_of(table):
    """What stands in a table, row by row."""
    return [[it.text() for it in row.all() if it.tag in ("th", "td")] for row in table.all("tr")]


def share(it):
    """A share, given as a fraction of 1, as it stands in a cell."""
    return in_map(it.numerator, it.denominator)


def colour(it):
    """The class of colour of a share, by the limits that the scale states."""
    if it == 0:
        return 0
    return 1 + sum(it * 100 >= least for least in (Fraction(1, 10), Fraction(3, 10), 1, 3, 10, 30))


class Drawn(Drawing):
    def asked(self, of, given=None):
        """What a function of the script answers."""
        return answers([{"of": of, "given": given}])[0]

    def test_the_scale_says_the_limits(self):
        told = dict(self.asked("names"))
        self.assertEqual([told[it] for it in range(8)], ["0", "below 0.1", "0.1 to 0.3", "0.3 to 1", "1 to 3", "3 to 10", "10 to 30", "30 and more"])
        at_limits = self.asked("classes", [0, 1, 9, 10, 29, 30, 99, 100, 299, 300, 999, 1000, 2999, 3000, 10_000])
        self.assertEqual(at_limits, [0, 1, 1, 2, 2, 3, 3, 4, 4, 5, 5, 6, 6, 7, 7])

    def test_colours_grow_darker_and_texts_are_to_be_read_on_them(self):
        css = page.asset("page.css")
        of = {it: luminance(css.split(f"--{it}: #")[1][:6]) for it in [*(f"c{at}" for at in range(8)), "ink", "soft", "good", "path"]}
        steps = [of[f"c{at}"] for at in range(8)]
        self.assertEqual(steps, sorted(steps, reverse=True))
        self.assertTrue(all((a + 0.05) / (b + 0.05) > 1.05 for a, b in zip(steps, steps[1:])), steps)
        for at, step in enumerate(steps):
            self.assertGreaterEqual((1.05 / (step + 0.05)) if at >= 6 else (step + 0.05) / (of["ink"] + 0.05), 4.5, at)
        for name in ("ink", "soft", "good", "path"):
            self.assertGreaterEqual(1.05 / (of[name] + 0.05), 4.5, name)

    def test_ranges_and_short_names(self):
        self.assertEqual([self.asked("ranges", it) for it in ([3], [1, 2], [1, 3, 4, 5, 8], [1, 3, 5, 7, 9])], ["3", "1–2", "1·3–5·8", "1·3·…"])
        self.assertEqual([self.asked("short", it) for it in ("a" * 13, "a" * 14)], ["a" * 13, "a" * 12 + "…"])

    def test_a_leg_that_is_gone_again_is_another_curve(self):
        """The arrow of a straight leg lies in its middle and points along it; the next one lies to its right (south of a way east)."""
        self.assertEqual(self.asked("leg", [[0, 0], [100, 0], 0]), {"curve": "M0 0Q50 0 100 0", "arrow": "M59 0L44 7L44 -7Z"})
        self.assertEqual(self.asked("leg", [[0, 0], [100, 0], 12])["curve"], "M0 0Q50 24 100 0")

    def test_the_comment_at_the_front(self):
        comment = comments_of
        self.assertEqual(comment(b"# one\n\n#  two \n# at a 1 2\n#\n  # three\nscenario 1\n# four\n"), "one\ntwo\nthree")
        self.assertEqual(comment(b"# \xff\x00\x1b[1m \xc3\xa9\nscenario 1"), "\ufffd\ufffd\ufffd[1m \xe9")
        self.assertEqual(comment(b"##  \x0b\x0c two\x85 \n# \xe2\x80\xae\xc2\xa0 turned\nscenario 1"), "two\ufffd\n\ufffd\ufffd turned")
        self.assertEqual(len(comment(b"# " + b"x" * 10**6)), 4000 + 2)
        leads = b"# Names are so. Metres east and south of the north-west corner:\n# Metres east and south of the north-west corner:\n# earth 1 2\n"
        self.assertEqual(comment(leads + b"# at the pier\n# at r0c0 1 2\nscenario 1\n"), "Names are so.\nat the pier")


def luminance(colour_text):
    """The relative luminance of a colour, by WCAG 2.1."""
    parts = (int(colour_text[at : at + 2], 16) / 255 for at in (0, 2, 4))
    red, green, blue = (it / 12.92 if it <= 0.04045 else ((it + 0.055) / 1.055) ** 2.4 for it in parts)
    return 0.2126 * red + 0.7152 * green + 0.0722 * blue


class Briefs(Room):
    def test_all_numbers_are_those_of_the_reports(self):
        for name in NAMES:
            status, out, err = self.run_helper(brief.main, self.files(name))
            self.assertEqual((status, err), (0, ""), name)
            report = json.loads(read(f"{EXAMPLES}/{name}.report.json"))
            lines, whole = out.splitlines(), int(report["weight"])
            self.assertLessEqual(max(map(len, lines)), brief.WIDTH, name)
            self.assertIn("Accepted: no path is better.", lines)
            self.assertTrue(any(it.startswith(f"Chance to find them: {cut(int(report['chance']), whole)} %, ") for it in lines))
            at = next(n for n, it in enumerate(lines) if it.startswith("period")) + 1
            before, due = 0, []
            for t, (position, so_far) in enumerate(zip(report["path"], map(int, report["periods"])), 1):
                due.append([str(t), position, cut(so_far - before, whole), "%", cut(so_far, whole), "%"])
                before = so_far
            self.assertEqual([it.split() for it in lines[at : at + len(due)]], due, name)
            self.check_left(lines, report, name)

    def check_left(self, lines, report, name):
        whole = int(report["weight"])
        left = sorted(((it["cell"], int(it["mass"])) for it in report["left"] if it["mass"] != "0"), key=lambda it: -it[1])
        missed = sum(mass for _, mass in left)
        at = next(n for n, it in enumerate(lines) if it.startswith("If nothing was found"))
        due = [[cell, cut(mass, whole), "%", cut(mass, missed), "%"] for cell, mass in left[:5]]
        self.assertEqual([it.split() for it in lines[at + 2 : at + 2 + len(due)]], due, name)
        rest = f"and in {len(left) - 5} more: {cut(sum(it[1] for it in left[5:]), whole)} % of all" if len(left) > 5 else ""
        self.assertEqual(lines[at + 2 + len(due) if left else -4], rest, name)

    def test_a_whole_text(self):
        """The plan of two-cells: its first look finds 8 of 16, its second 4 more."""
        status, out, _ = self.run_helper(brief.main, [*self.files("two-cells"), "--from", "23:55", "--minutes", "5"])
        lines = out.splitlines()
        self.assertEqual(status, 0)
        self.assertEqual(lines[:2] + lines[3:14], [
            "SEARCH PLAN two-cells.scenario",
            "Accepted: no path is better.",
            "Chance to find them: 75.000 %, 2 looks, from a",
            "",
            "period  begins   look from     finds    so far",
            "     1  23:55    a          50.000 %  50.000 %",
            "     2  00:00+1  a          25.000 %  75.000 %",
            "",
            "If nothing was found, they are after look 2 in",
            "cell    of all  of what is left",
            "b     25.000 %        100.000 %",
            "",
            "Percent are cut off after three digits.",
        ])


class Refusals(Refusing):
    """No page and no text of a plan that isn't accepted, nor of one that nobody judged: a status, and a line that says why."""

    helpers = (show, brief)

    def with_program(self, script):
        """Lets a script stand in for the program."""
        program.OSP = self.write("program", b"#!/bin/sh\n" + script.encode())
        os.chmod(program.OSP, 0o755)

    def test_the_reason_is_said(self):
        scenario, plan = self.files("two-cells")
        other = self.files("one-cell")[0]
        self.all_refuse([scenario, f"{EXAMPLES}/two-cells-lacking.plan"], 1, "the plan isn't accepted: rejected 8 MissingChild\n")
        self.all_refuse([other, plan], 4, "bad plan: line 7 NoPlace\n")
        self.all_refuse([plan, plan], 3, "bad scenario: line 1 BadLine\n")
        self.all_refuse([self.room + "/none", plan], 5, "cannot read ")
        self.all_refuse([self.room, plan], 5, "Is a directory")
        self.all_refuse([scenario], 4, "bad plan: line 1 EarlyEnd\n")
        self.all_refuse([], 2, "usage: osp ")
        self.all_refuse([scenario, plan, "--from", "1:00"], 2, "stand together")
        with self.subTest("too long"), unittest.mock.patch.object(accepted, "MOST_INPUT", 100):
            self.all_refuse([scenario, plan], 9, "input too long")

    def test_a_plan_with_a_value_that_is_off_by_one(self):
        scenario, plan = example("kayaker")
        off = plan.replace(b"246250902200800000", b"246250902200800001")
        self.assertNotEqual(off, plan)
        self.all_refuse([self.write("s", scenario), self.write("p", off)], 1, "rejected 3 ValueWrong")

    def test_a_program_that_does_not_answer(self):
        files = self.files("two-cells")
        for script, status, part in (
            ("exit 0", 70, "neither accepted nor a reason"),
            ("echo accepted", 70, "isn't understood"),
            ("echo osp: rt is not there >&2; exit 70", 70, "rt is not there"),
            ("kill -9 $$", 70, "ended with status -9"),
            ("cat > /dev/null; echo no memory >&2; exit 7", 7, "no memory"),
        ):
            self.with_program(script)
            self.all_refuse(files, status, part)
        program.OSP = self.room + "/none"
        self.all_refuse(files, 70, "cannot run ")

    def test_a_report_that_is_another_ones(self):
        """Each number of the report is held against the masses that the helper computes."""
        right = read(f"{EXAMPLES}/two-cells.report").decode()
        for old, new in (
            ("period 1 a 8 50.000", "period 1 a 4 25.000"),
            ("period 1 a", "period 1 b"),
            ("left a 0 0.000\nleft b 4 25.000", "left a 4 25.000\nleft b 0 0.000"),
            ("left b", "left c"),
            ("chance 12 16", "chance 24 32"),
            ("period 2 a 12 75.000\n", ""),
        ):
            self.assertIn(old, right)
            self.with_program(f"cat > /dev/null; [ $1 = check ] && echo accepted || cat << 'END'\n{right.replace(old, new)}END")
            self.all_refuse(self.files("two-cells"), 70, "aren't those of osp report" if "24 32" not in new else "isn't understood")
        self.with_program(f"cat > /dev/null; [ $1 = check ] && echo accepted || cat << 'END'\n{right}END")
        self.assertEqual(self.run_helper(brief.main, self.files("two-cells"))[0], 0)

    def test_an_unproved_run_is_told(self):
        """The note of ./osp goes on to standard error, the page and the text say so, and it isn't taken for a reason."""
        note = "echo 'osp: unproved run, since x' >&2"
        self.with_program(f"cat > /dev/null; {note}; case $1 in check) echo accepted ;; report) cat {EXAMPLES}/two-cells.report ;; *) exit 2 ;; esac")
        os.rename(program.OSP, self.room + "/osp")
        program.OSP = self.room + "/osp"
        with unittest.mock.patch.object(program, "TOP", self.room):
            for helper in (show, brief):
                status, out, err = self.run_helper(helper.main, self.files("two-cells"))
                self.assertEqual((status, err), (0, "osp: unproved run, since x\n"))
                self.assertIn("Checked by an unproved run of the program.", out)
        for script, status, said in (
            ("kill -9 $$", 70, "osp check ended with status -9"),
            ("echo rejected 3 ValueWrong; exit 1", 1, "the plan isn't accepted: rejected 3 ValueWrong"),
        ):
            self.with_program(f"{note}; {script}")
            ended, out, err = self.run_helper(brief.main, self.files("two-cells"))
            self.assertEqual((ended, out, err), (status, "", f"osp: unproved run, since x\nosp brief: {said}\n"))

    def test_output_that_cannot_be_written(self):
        for helper in ("show", "brief"):
            with open("/dev/full", "wb") as full:
                how = {"cwd": os.path.dirname(EXAMPLES), "env": {**os.environ, "OSP": program.OSP, "PYTHONDONTWRITEBYTECODE": "1"}}
                words = [sys.executable, "-m", "desk", helper, *self.files("one-cell")]
                done = subprocess.run(words, stdout=full, stderr=subprocess.PIPE, check=False, **how)
            self.assertEqual((done.returncode, done.stderr), (6, b"write fault: No space left on device\n"))


class Program(Room):
    def test_the_program_that_is_asked_gives_the_reports_of_the_examples(self):
        """So that the other tests speak of the program, or of a stand-in that answers as it does."""
        for name in NAMES:
            given = b"".join(example(name))
            self.assertEqual(program.ask(["check"], given).out, b"accepted\n", name)
            self.assertEqual(program.ask(["report"], given).out, read(f"{EXAMPLES}/{name}.report"), name)


if __name__ == "__main__":
    unittest.main()
