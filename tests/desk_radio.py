"""Tests of the words for the radio that pages write of what is planned in them (desk/radio.js): they are those of `osp brief`, byte for byte.
`python3 -m unittest tests.desk_radio`, or tests/desk."""
import hashlib
import json
import os
import random
import re
import subprocess
import unittest

from desk import accepted, brief, carried, comments, derived, markup, masses, onscene, paths, radio, reports, seats, writing
from tests import pages, web
from tests.desk_steering import CORNER, LAND, PLACES, TIMES
from tests.made import read
from tests.web import TOP

# Two places from which looks cover the same, and moves lead to the same.
ALIKE = b"""scenario 2
horizon 3
parts 1 2 2
cell a
position left
position right
start left
first a 1
moves left left right
moves right left right
drift a a 2
look left a 1
look right a 1
end
"""
EXAMPLES = sorted(it for it in os.listdir(pages.EXAMPLES) if it.endswith(".scenario"))


def searched(text, path, of=None, ceiling=None):
    """A search of any path, as desk.accepted has one of an accepted plan; `of` is the text of the scenario that it was made of."""
    sc = read(text)
    frames = masses.frames(sc, path)
    names = [[it.decode() for it in its] for its in ([sc.positions[it] for it in path], sc.names)]
    report = reports.of_frames(frames[-1].so_far, paths.weight(sc), *names, frames)
    who = seats.seats(sc, of and read(of))
    return accepted.Search("lake.made", text, sc, path, 2, 1, report, frames, hashlib.sha256(text).hexdigest(), "", "", who, of or text, ceiling)


def a_walk(sc, rng):
    """A walk through all periods of a scenario."""
    walk = [rng.choice(sorted(sc.moves[sc.start]))]
    while len(walk) < sc.horizon:
        walk.append(rng.choice(sorted(sc.moves[walk[-1]])))
    return walk


def a_ceiling(rng, search):
    """The ceiling of a gap plan, or None of a plan."""
    value, whole = search.report.value, search.report.weight
    return rng.choice([None, value, (value + whole) // 2, whole, whole + 1])


class Case:
    """A page of a scenario, in which looks of a walk are flown, and what is planned then."""

    def __init__(self, text, of, rng, flown=None):
        sc = read(text)
        walk = a_walk(sc, rng)
        count = flown or rng.randint(1, sc.horizon)
        behind = writing.scenario_text(derived.forced(sc, walk[:count]))
        there = [len(sc.positions) + 1 + it for it in range(count)] + walk[count:]
        self.page, self.walk = searched(text, a_walk(sc, rng), of), walk
        self.made = searched(behind, there, of or (text if self.page.seats.count == 1 else None))
        self.made.ceiling = a_ceiling(rng, self.made)

    def is_known(self):
        """Whether a brief can tell the flown looks by their names: no two positions look alike."""
        return all(None not in self.made.seats.sources[it.position] for it in self.made.frames)

    def wanted(self):
        return brief.text_of(self.made, comments.read(self.made, None)[0])

    def given(self):
        """What the script has of it: what the page carries, and what comes of the plan."""
        scene = json.loads(onscene.carried(self.page)["scene"])
        words = radio.data(self.page, comments.read(self.page, None)[0])
        report, frames = self.made.report, self.made.frames
        left = dict(zip(self.made.cells, frames[-1].left))
        search = {
            "name": self.made.name,
            "sum": self.made.scenario_sum,
            "value": str(report.value),
            "whole": str(report.weight),
            "ceiling": None if self.made.ceiling is None else str(self.made.ceiling),
            "flown": self.made.seats.flown,
            "path": [scene["start"], *(scene["at"][it] for it in self.walk)],
            "places": scene["places"],
            "found": [str(it.so_far) for it in frames[1:]],
            "squares": [[self.page.squares.texts[it], str(mass)] for it, mass in enumerate(self.page.squares.sums(list(left.values())))],
        }
        return {"words": words, "search": search}


@unittest.skipUnless(web.NODE, "node isn't installed (Debian's package nodejs)")
class Radio(pages.Room):
    maxDiff = None

    def written(self, cases):
        """What the script of pages writes of these cases."""
        script = self.write("script.js", (markup.rules({}) + "".join(map(carried.asset, ("told.js", "markup.js", "sentences.js", "radio.js")))).encode())
        given = "\n".join(json.dumps(it.given()) for it in cases)
        done = subprocess.run([web.NODE, f"{TOP}/tests/radio_in_node.mjs", script], input=given, stdout=subprocess.PIPE, text=True, check=True)
        return [json.loads(it) for it in done.stdout.splitlines()]

    def same(self, cases):
        """The script writes what `brief` does, of all of these whose flown looks `brief` can name."""
        known = [it for it in cases if it.is_known()]
        for case, text in zip(known, self.written(known), strict=True):
            self.assertEqual(text, case.wanted(), case.walk)
        return len(known)

    def test_examples(self):
        rng = random.Random(5)
        texts = [pages.read(f"{pages.EXAMPLES}/{it}") for it in EXAMPLES]
        cases = [Case(it, None, rng) for it in texts for _ in range(4)]
        self.assertGreater(self.same(cases), len(cases) * 3 // 4)

    def test_times_places_and_land(self):
        """Times from the evening on, in UTC and with a date; places in metres and on the earth, some of which aren't known; a way around land."""
        rng, night = random.Random(6), pages.example("night")[0]
        local = TIMES.replace("2026-07-04 ", "").replace("2026-07-05 ", "").replace("Z", "")
        beside = lambda it: it.replace("cliff", "r1c0").replace("landing", "r1c2").replace("12345 6789", "1250 750")
        fronts = [TIMES + CORNER + PLACES, CORNER + PLACES, PLACES.replace("# at cliff 250 750\n", ""), beside(local + PLACES + LAND), beside(PLACES + LAND)]
        cases = [Case(front.encode() + (beside(night.decode()).encode() if "r1c0" in front else night), None, rng) for front in fronts for _ in range(6)]
        self.assertEqual(self.same(cases), len(cases))
        said = "".join(it.wanted() for it in cases)
        for part in ("\n* The straight way", " stay", " -\n", "°43.", "The sweep width", "+1"):
            self.assertTrue(part in said, part)

    def test_situations(self):
        """Squares of several states, and what a situation says of how they are searched."""
        rng = random.Random(7)
        texts = [pages.read(f"{pages.EXAMPLES}/situations/{it}.scenario") for it in ("kayaker", "coast-by-night", "tide-and-night")]
        cases = [Case(it, None, rng) for it in texts for _ in range(2)]
        self.assertEqual(self.same(cases), len(cases))

    def test_two_searchers(self):
        """By their names, and by the numbers of their places."""
        rng, night = random.Random(8), (TIMES + CORNER + PLACES).encode() + pages.example("night")[0]
        pair = writing.scenario_text(derived.product(read(night), 1))
        cases = [Case(pair, of, rng) for of in (night, None) for _ in range(8)]
        self.assertGreater(self.same(cases), 8)

    def test_where_places_look_alike_the_marked_one_is_told(self):
        """Of two places that look alike `brief` alone can't tell from which a look was, and the page can."""
        case = Case(ALIKE, None, random.Random(9), 2)
        self.assertIn("flown-1 (flown)", case.wanted())
        self.assertFalse(case.is_known())
        names = [case.page.sc.positions[it].decode() for it in case.walk]
        rows = re.findall(r"^ +\d  (\w+)", self.written([case])[0], re.M)
        self.assertEqual(rows, names)

    def test_a_page_that_does_not_know_which_places_were_flown_says_so(self):
        made = Case(ALIKE, None, random.Random(9), 2).made
        alone = searched(made.text, made.path)
        self.assertEqual(onscene.carried(alone), {})
        self.assertIn("several places look alike", onscene.section(alone))
        self.assertNotIn("button", onscene.section(alone))


if __name__ == "__main__":
    unittest.main()
