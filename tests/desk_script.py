"""Tests of the script by which pages show a plan, in node: what it reads of texts, against the desk's own readers, and its words for the radio,
against what `brief` writes. `python3 -m unittest tests.desk_script`, or tests/desk."""
import base64
import json
import os
import random
import unittest

from desk import brief, comments, derived, forms, layout, limits, markup, moments, page, program, squares, writing
from tests import finer, made, pages, web
from tests.desk_browser import MARKUP
from tests.made import with_plan
from tests.pages import EXAMPLES, PLACES, Drawing, answers, example, read

NAMES = sorted(it[:-7] for it in os.listdir(EXAMPLES) if it.endswith(".report"))
SITUATIONS = sorted(it[:-5] for it in os.listdir(f"{EXAMPLES}/situations") if it.endswith(".toml"))
# A row of cells along which the searcher goes to and fro, from a position apart, with a long name, that nothing places.
SHUTTLE = """\
scenario 2
horizon 9
parts 3 2 3
cell a-cell-with-a-long-name
cell b
cell c
position a-cell-with-a-long-name
position b
position hut
start hut
first a-cell-with-a-long-name 1 b 1 c 1
moves a-cell-with-a-long-name b
moves b a-cell-with-a-long-name
moves hut a-cell-with-a-long-name
drift a-cell-with-a-long-name a-cell-with-a-long-name 2
drift b b 2
drift c c 1 b 1
look a-cell-with-a-long-name a-cell-with-a-long-name 1
look b b 2
look hut
end
"""
# Comments that place its cells, or don't.
PLACED = {
    "in a row": (0, 0, 1000, 0, 2000, 0),
    "askew": (12.25, 7.5, 345.75, 401.125, 700.0625, 33.3),
    "half a metre": (0.25, 0.25, 0.75, 0.25, 0.25, 0.75),
    "a long way": (0, 0, 3_000_000, 0, 12_345_678, 1),
    "at one place": (5, 5, 5, 5, 9, 9),
    "too far apart": (0, 0, 1, 0, 900, 0),
}
TIMES = [
    "8 periods of 15 minutes from 19:30 to 21:30; a look counts at the end of its period, the first at 19:45",
    "9 periods of 7.5 minutes from 2026-12-31 23:40Z to 2027-01-01 00:47:30Z; a look counts at the end of its period, the first at 23:47:30",
    "9 periods of 0.25 minutes from 2026-07-04 12:00:30 to 12:03; a look counts at the end of its period, the first at 12:00:45",
    "9 periods of 1440 minutes from 06:00Z to 06:00Z 9 days later; a look counts at the end of its period, the first at 06:00Z",
    "9 periods of 15 minutes from 2026-02-30 19:30 to 21:30; a look counts at the end of its period, the first at 19:45",
    "9 periods of 15 minutes from 24:00 to 26:00; a look counts at the end of its period, the first at 24:15",
    "9 periods of 1440.01 minutes from 06:00 to 07:00; a look counts at the end of its period, the first at 06:10",
    "9 periods of 0 minutes from 06:00 to 07:00; a look counts at the end of its period, the first at 06:10",
    "9 periods from 19:30",
]


def shuttle(places, *more):
    """The text of SHUTTLE with comments that place its cells, and others."""
    lines = (f"# at {name} {x} {y}" for name, x, y in zip(("a-cell-with-a-long-name", "b", "c"), places[::2], places[1::2]))
    return "\n".join([*lines, *(f"#{it}" for it in more), SHUTTLE]).encode()


def packed(text):
    """Bytes as JSON can have them."""
    return base64.b64encode(text).decode("ascii")


@unittest.skipUnless(web.NODE, "node isn't installed (Debian's package nodejs)")
class Read(unittest.TestCase):
    """What the script reads of texts."""

    def laid(self, text):
        """Where squares, cells and positions of a scenario lie by desk.layout, or why there is no map, as the script answers it."""
        sc, _ = forms.read_scenario(text, alone=True)
        own = squares.squares(sc)
        try:
            found = layout.layout(sc, text)
        except layout.NoPlaces as why:
            return str(why)
        as_lists = lambda places: [it and list(it) for it in places]
        places = {"squares": as_lists(found.squares), "cells": as_lists(found.cells), "positions": as_lists(found.positions)}
        about = {"names": own.texts, "groups": own.cells, "split": sorted(own.split), "noun": own.noun, "filled": own.filled(), "ofCells": own.of_cells()}
        return {**about, **places, "side": found.side, "metres": found.metres, "finer": found.finer}

    def test_places(self):
        """Long names, a position without a place, states in their places and elsewhere, and places that are none or can't be drawn."""
        texts = {name: shuttle(places) for name, places in PLACED.items()}
        texts["none"] = SHUTTLE.encode()
        texts["blanks"] = shuttle(PLACED["askew"]).replace(b"# at b", b" \t#\tat\tb").replace(b"\n", b" \r\n")
        hostile = f" at {MARKUP} 1 2", f" at b {MARKUP} 2", " " * 500_000 + "x", *[" at b 1 2"] * 20_000, "\t" * 100_000 + "at b 1 2"
        texts["hostile"] = shuttle(PLACED["askew"], *hostile)
        texts["the last counts"] = shuttle(PLACED["askew"], " at b 1 2", "at c 3 4", " at c 10 20 30", " at hut -700 -30", " at c \xe9 1")
        texts |= {"finer": finer.TEXT, "by names": finer.BODY.encode(), "elsewhere": finer.TEXT.replace(b"r0c1-03 625 375", b"r0c1-03 640 390")}
        texts |= {"swath": PLACES.encode() + example("swath")[0], "far off": PLACES.replace("base -250", "base -9250").encode() + example("swath")[0]}
        texts |= {name: example(name)[0] for name in NAMES}
        texts |= {name: read(f"{EXAMPLES}/situations/{name}.scenario") for name in SITUATIONS}
        told = answers({"of": "laid", "given": packed(it)} for it in texts.values())
        for (name, text), its in zip(texts.items(), told, strict=True):
            with self.subTest(name):
                self.assertEqual(its, json.loads(json.dumps(self.laid(text))))
        why = dict(zip(texts, told))
        self.assertEqual((why["none"], why["at one place"]), ("nothing says where the cell a-cell-with-a-long-name lies", "two cells lie at the same place"))
        self.assertEqual(why["in a row"]["positions"], [[0, 0], [1000, 0], None])

    def test_times(self):
        """Comments that say when periods are, or don't."""
        texts = [*(shuttle(PLACED["in a row"], " " + it, TIMES[0].replace(" minutes", "")) for it in TIMES), shuttle(PLACED["in a row"], *TIMES)]
        told = answers({"of": "begins", "given": packed(it)} for it in texts)
        for text, its in zip(texts, told, strict=True):
            times = comments.times_of(comments.lines(text))
            self.assertEqual(its, times and ["".join(times.about()), times.at(1), times.at(2), times.at(9)])
        self.assertEqual(told[0], ["", "19:30", "19:45", "21:30"])
        self.assertEqual(told[1], ["Times are UTC, from 2026-12-31 on.", "23:40", "23:47:30", "00:40+1"])
        self.assertEqual(told[3], ["Times are UTC.", "06:00", "06:00+1", "06:00+8"])
        self.assertEqual(told[4:9], [None] * 5)

    def test_parts(self):
        """A scenario ends with its line `end`, wherever blanks stand, and its plan begins behind the blank lines that follow."""
        scenario, plan = (it.decode() for it in example("two-cells"))
        ends = ["end\n", " end\t\r\n", "end\n\n \t\r\n\n", "end", "# end\nend\n"]
        texts = [scenario.replace("end\n", it) + (plan if it.endswith("\n") else "") for it in ends] + ["scenario 1\nend x\n", ""]
        told = answers({"of": "parts", "given": packed(it.encode())} for it in texts)
        wanted = []
        for text in texts:
            try:
                rest = forms.read_scenario(text.encode(), alone=False)[1].decode()
            except forms.Fault:
                rest = ""
            wanted.append([text[: len(text) - len(rest)], rest.lstrip(" \t\r\n")])
        self.assertEqual(told, wanted)

    def test_numbers(self):
        """Numbers as Python writes them: those that lie between two, below zero, great and small."""
        rng = random.Random(5)
        values = [rng.choice([1, -1]) * rng.choice([rng.random() * 10 ** rng.randrange(-6, 9), rng.randrange(4000) / 2 ** rng.randrange(6)]) for _ in range(3000)]
        values += [0.0, -0.0, -0.04, 0.05, 0.25, 0.35, 2.5, 999999.5, 1e6, 1234567.0, 0.0001, 0.00001234567]
        for name, more, text in (("fixed", [0], "{:.0f}"), ("fixed", [1], "{:.1f}"), ("general", [], "{:g}")):
            told = answers({"of": name, "given": [it, *more]} for it in values if it or name == "fixed")
            self.assertEqual(told, [text.format(it) for it in values if it or name == "fixed"])


class Words(Drawing):
    """The words for the radio of a page, which it draws from what the program says, are what `brief` writes by the desk's own sums."""

    def setUp(self):
        super().setUp()
        # (The program itself, without the front door, which looks at all sources before each of many runs.)
        program.OSP = web.PROGRAM if pages.IS_BUILT else pages.STAND_IN

    def same(self, cases):
        """Of plans by name, each with the words of `show` and `brief`."""
        drawn = self.drawn(*(self.written(*words) for words in cases.values()))
        for (name, words), it in zip(cases.items(), drawn, strict=True):
            with self.subTest(name):
                self.assertEqual(it.one("pre", id="radio-text").text(), self.run_helper(brief.main, words)[1])

    def test_examples(self):
        """Grids, looks that cover several cells, a tide and a night, a gap plan, texts of both versions, and situations."""
        cases = {name: self.files(name) for name in NAMES} | {name: self.files(f"situations/{name}") for name in SITUATIONS}
        cases["gap"], cases["edges"] = ([self.files(it)[0], f"{EXAMPLES}/{it}.gap"] for it in ("two-cells", "swath"))
        cases["version 1"] = [self.files("two-cells")[0], f"{EXAMPLES}/two-cells-1.plan"]
        cases["times"] = [*self.files("night"), "--from", "2026-12-31T23:50Z", "--minutes", "15"]
        self.same(cases)

    def test_made(self):
        """What `replan` and `duo` make, alone and beside the scenario that it was made of: a flown prefix, two searchers, both at once, a prefix
        that several walks may be, and names alone."""
        pair = writing.scenario_text(derived.product(made.read(made.GRID), 11))
        alike = made.ROW.replace(b"rate 0", b"rate 1")
        texts = {
            "flown": (read(f"{EXAMPLES}/drifting-grid-flown.made"), example("drifting-grid")[0]),
            "two": (read(f"{EXAMPLES}/night-two.made"), example("night")[0]),
            "two of a grid": (with_plan(pair), made.GRID),
            "flown by two": (made.forced(pair, "p1-10 p5-6"), made.GRID),
            "flown of two": (made.forced(pair, "p1-10 p5-6"), pair),
            "all flown": (made.forced(made.GRID, "r0c1 r0c2 r1c2"), made.GRID),
            "alike": (made.forced(alike, "a b"), alike),
            "other moves": (made.forced(made.GRID, "r0c1 r0c2").replace(b"moves flown-1 flown-2", b"moves flown-1 flown-1 flown-2").split(b"plan ")[0], None),
            "other looks": (pair.replace(b"look p1-2 ", b"look p1-2 r1c1 50 ").replace(b"r1c1 50 r1c1", b"r1c1"), None),
            "names alone": (SHUTTLE.replace("look hut", "look hut b 2").replace("hut", "flown-0").encode(), None),
        }
        cases = {}
        for name, (text, of) in texts.items():
            cases[name] = [self.write(name, text if b"\nplan " in text else with_plan(text))]
            if of:
                cases[f"{name}, of"] = [*cases[name], "--of", self.write(f"{name}.of", of)]
        self.same(cases)

    def test_places_and_states(self):
        """A path that goes to and fro, and states that are parts of squares."""
        texts = {name: shuttle(PLACED[name], TIMES[0]) for name in ("in a row", "askew", "at one place")} | {"finer": finer.TEXT, "by names": finer.BODY.encode()}
        self.same({name: [self.write(name, with_plan(it))] for name, it in texts.items()})


class Rules(unittest.TestCase):
    def test_what_the_script_draws_by_is_what_the_helpers_do(self):
        """The markup, limits and patterns in the page are those of the modules, and no letter of them ends the script."""
        head = page.rules()
        self.assertNotIn("<", head)
        told = json.loads(head.removeprefix('"use strict";\nconst RULES = ').removesuffix(";\n"))
        self.assertEqual(told["markup"], markup.MARKUP)
        self.assertEqual((told["limits"]["MOST_PART"], told["layout"]["NEAR"]), (limits.MOST_PART, layout.NEAR))
        self.assertEqual((told["patterns"]["at"], told["patterns"]["moment"]), (layout.AT.pattern.decode(), moments.SPELLED.pattern))


if __name__ == "__main__":
    unittest.main()
