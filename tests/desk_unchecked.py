"""Tests of a page of `osp show` of which nothing is checked, or which isn't what was written: as it is written, and by its script in node.
`python3 -m unittest tests.desk_unchecked`, or tests/desk. (tests/desk_web.py has the same in browsers.)"""
import os
import re
import unittest
from unittest import mock

from desk import brief, carried, program
from tests.pages import EXAMPLES, Drawing, example, read, tree


class Unchecked(Drawing):
    """A page of which nothing is checked yet, and one that can't be."""

    NOT_YET = "Not checked yet"

    def text_of(self, out):
        """What a page says as it is written, with nothing green in it, no chance in its head, and no map: its title, and the plan as text."""
        told = tree(out)
        head = told.one("div", id="head")
        self.assertEqual((head.attributes["class"], head.one("span").text()), ("verdict", self.NOT_YET))
        self.assertEqual(re.findall(r"\d %|Accepted|class=.?(?:chance|frame)", out.split("<body>")[1].split("<section class=\"as-text\">")[0]), [])
        self.assertEqual([it.tag for it in told.one("main").all()], ["section", "h2", "div", "pre"])
        return told.one("pre", id="text").text(), head.one("small").text()

    def test_what_is_written_is_the_plan_as_text(self):
        """What `brief` writes, but for its verdict and who checked the plan."""
        for name, words in (("kayaker", ["--from", "23:50", "--minutes", "7"]), ("drifting-grid", [])):
            files = [*self.files(name), *words]
            lines = self.run_helper(brief.main, files)[1].splitlines()
            self.assertTrue(lines[1].startswith("Accepted: ") and lines[2].startswith("Checked by "))
            text, why = self.text_of(self.written(*files))
            self.assertEqual(text.splitlines(), [lines[0], "Not checked yet.", *lines[3:]])
            self.assertIn("Where these words stay, the browser runs no script, or a part of the page is missing.", why)

    def test_a_page_without_a_program_says_so(self):
        """It has no script, and nothing that one would show."""
        with mock.patch.object(carried, "module", lambda search: None):
            out = self.written(*self.files("kayaker"))
        self.assertEqual([it.tag for it in tree(out).all() if it.tag in ("script", "template", "button", "svg")], [])
        self.assertIn("script-src 'none';", out)
        text, why = self.text_of(out)
        self.assertIn("Chance to find them: 64.127 %", text)
        self.assertTrue(why.startswith("This page carries no program that checks its plan, "), why)
        self.assertTrue(re.search(r"When it was made: Checked by .*\.$", why), why)

    def test_titles_times_and_places_are_told_to_be_uncovered(self):
        """Once, by the head, before and behind the check."""
        out = self.written(*self.files("kayaker"))
        for told in (tree(out), self.drawn(out)[0]):
            self.assertEqual(told.text().count("come from comments of the scenario, which no proof covers."), 1)
            self.assertIn("Titles, times and places come from comments of the scenario", told.one("header").text())

    def test_the_words_for_the_radio_are_those_of_brief(self):
        for name, words in (("kayaker", ["--from", "23:50", "--minutes", "7"]), ("drifting-grid", []), ("night", []), ("situations/kayaker", [])):
            files = [*self.files(name), *words]
            self.assertEqual(self.shown(*files).one("pre", id="radio-text").text(), self.run_helper(brief.main, files)[1], name)

    def test_checksums_are_those_of_what_the_page_carries(self):
        told = self.shown(*self.files("kayaker"))
        self.assertEqual([it.text() for it in told.one("section", class_="numbers").all("dd", class_="sum")], [carried.sum_of(it) for it in example("kayaker")])

    def test_a_page_of_which_a_part_is_changed_shows_nothing(self):
        """The parts are told by name, in red, and the plan as text goes."""
        out = self.written(f"{EXAMPLES}/drifting-grid-flown.made", "--of", f"{EXAMPLES}/drifting-grid.scenario", "--from", "23:50", "--minutes", "7")
        scenario = example("drifting-grid")[0]
        pages = {
            "the program": self.embedded(out, "program", self.MODULE[:-1] + b"f"),
            "the scenario": self.embedded(out, "scenario", b"# another title\n" + scenario),
            "the plan": self.embedded(out, "plan", example("drifting-grid")[1]),
            "the scenario that it was made of": self.embedded(out, "of", b"# at r0c0 1 2\n" + scenario),
            "what is known besides": self.embedded(out, "known", b"{}"),
            "what is needed to plan the rest": self.embedded(out, "scene", b"{}"),
            "the plan as text": re.sub(r"(Chance to find them: )16\.", r"\g<1>96.", out),
            "the plan, what is known besides": self.embedded(self.embedded(out, "plan", b"plan"), "known", b"known"),
        }
        broken = {"the plan": lambda it: it[:40] + "!" + it[41:], "the scenario": lambda it: it[:-12] + it[-8:], "the program": lambda it: ""}
        told = self.opened(*pages.values(), *(self.changed(out, name.split()[1], change) for name, change in broken.items()))
        for name, its in zip([*pages, *broken], told, strict=True):
            with self.subTest(name):
                head = tree(its["head"]["html"])
                self.assertEqual((its["head"]["className"], head.one("span").text()), ("verdict refused", "This page is damaged: do not fly by it"))
                self.assertIn(f"Changed since it was made: {name}. ", head.one("small").text())
                self.assertEqual((its.pop("shown"), {*its}), ({"html": ""}, {"head"}))

    def changed(self, out, name, change):
        """A page with the text of one of its templates changed."""
        found = re.search(f'(?<=<template id="carried-{name}">)[^<]*', out)
        return out[: found.start()] + change(found[0]) + out[found.end() :]

    def embedded(self, out, name, content):
        """A page with other bytes in one of its templates."""
        return self.changed(out, name, lambda text: carried.packed(content))

    def test_a_plan_that_the_program_refuses_is_told_in_red(self):
        """Of parts that are whole: a page of a wrong plan, whoever made it."""
        lacking = read(f"{EXAMPLES}/two-cells-lacking.plan")
        out = self.written(*self.files("two-cells"))
        cases = {
            "Rejected: line 8 of the plan, MissingChild.": lacking,
            "Rejected: line 3 of the plan, ValueWrong.": example("two-cells")[1].replace(b"chance 12", b"chance 13"),
            "Not accepted: bad plan: line 1 BadLine.": b"nothing\n",
        }
        pages = [self.embedded(out, "plan", it).replace(carried.sum_of(example("two-cells")[1]), carried.sum_of(it)) for it in cases.values()]
        for said, its in zip(cases, self.opened(*pages), strict=True):
            self.assertEqual((its["head"]["className"], tree(its["head"]["html"]).one("span").text()), ("verdict refused", said))
            self.assertEqual((its.pop("shown"), {*its}), ({"html": ""}, {"head"}), said)

    def test_a_program_that_gives_no_verdict_leaves_it_unchecked(self):
        """Whatever it answers: no memory, another word than accepted, no map, or that of another path, or other masses."""
        out, first = self.written(*self.files("two-cells")), 'case $1 in check) echo accepted ;; map)'
        right = "map 1\nperiod 1 a\nleft a 0 0.000\nleft b 8 50.000\nperiod 2 a\nleft a 0 0.000\nleft b 4 25.000\nend\n"
        for script, part in (
            ("echo no memory >&2; exit 7", "the program ended with status 7 (no memory)"),
            ("echo well", "the program ended with status 0 (well)"),
            (f"{first} exit 2 ;; esac", "the program ended with status 2 ()"),
            (f"{first} printf '{right.replace('b 4', 'b 5')}' ;; esac", "the masses of the map aren't those of the plan"),
            (f"{first} printf '{right.replace('period 2 a', 'period 2 b')}' ;; esac", "the masses of the map aren't those of the plan"),
            (f"{first} printf '' ;; esac", "the masses of the map aren't those of the plan"),
        ):
            with mock.patch.object(program, "OSP", self.write("program", f"#!/bin/sh\ncat > /dev/null\n{script}\n".encode())):
                os.chmod(program.OSP, 0o755)
                (its,) = self.opened(out)
            head = tree(its["head"]["html"])
            self.assertEqual((its["head"]["className"], head.one("span").text()), ("verdict", self.NOT_YET), script)
            self.assertIn(part, head.one("small").text())
            self.assertEqual({*its} - {"head"}, set(), script)


if __name__ == "__main__":
    unittest.main()
