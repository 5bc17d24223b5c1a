"""Tests of `osp next`: chains of scenarios against the chance of the whole path, what is rounded, what is refused, hostile files."""
import os
import re
import stat
import subprocess
import sys
import unittest
from fractions import Fraction
from unittest import mock

from desk import accepted, following, forms, layout, masses, onward, paths, percent, program
from tests import finer
from tests.asking import Asked
from tests.made import with_plan
from tests.pages import EXAMPLES, PLACES, STAND_IN, TOP, example, read

NAMES = sorted(it[:-7] for it in os.listdir(EXAMPLES) if it.endswith(".report"))


def scenario(text):
    """The scenario of a text."""
    return forms.read_scenario(text, True)[0]


def searched(name):
    """The scenario of an example, and the path of its plan."""
    text, plan = example(name)
    sc = scenario(text)
    return sc, forms.read_plan(plan, sc).path


def chance(sc, path):
    """The chance that a path finds the target."""
    return Fraction(paths.value(sc, path), paths.weight(sc))


def reported(name, t):
    """What the report of an example says of the chance up to a period."""
    found = re.search(rf"^period {t} \S+ ([0-9]+) ", read(f"{EXAMPLES}/{name}.report").decode(), re.MULTILINE)
    weight = re.search(r"^chance [0-9]+ ([0-9]+) ", read(f"{EXAMPLES}/{name}.report").decode(), re.MULTILINE)
    return Fraction(int(found[1]), int(weight[1]))


def walks_on(sc, start, count, most):
    """Some walks of so many moves from a position: the first ones, up to `most`."""
    found = [[]]
    for _ in range(count):
        found = [[*walk, to] for walk in found for to in sc.moves[walk[-1] if walk else start]][:most]
    return found


class Chains(unittest.TestCase):
    """The chance of a path cut in two: what was found before, and what the rest finds of what was left."""

    def together(self, name, flown):
        sc, path = searched(name)
        it = onward.onward(sc, path, flown, sc.horizon - flown)
        return it, it.found + (1 - it.found) * chance(it.sc, path[flown:]), chance(sc, path)

    def test_every_example_cut_behind_every_period(self):
        exact = 0
        for name in NAMES:
            sc, _ = searched(name)
            for flown in range(1, sc.horizon):
                with self.subTest(name=name, flown=flown):
                    it, got, whole = self.together(name, flown)
                    self.assertEqual(it.found, reported(name, flown))
                    self.assertLessEqual(abs(got - whole), (1 - it.found) * it.moved)
                    self.assertLess(it.moved, Fraction(1, 10_000))
                    exact += it.moved == 0
        self.assertGreater(exact, 20)

    def test_drifting_grid_behind_period_4_is_exact(self):
        it, got, whole = self.together("drifting-grid", 4)
        self.assertEqual((it.moved, it.sc.parts, got), (0, (3020, 20, 10), whole))
        self.assertEqual(percent.cut(whole.numerator, whole.denominator), "17.557")

    def test_what_is_left_before_the_drift_gives_another_number(self):
        """The lines `left` of a report, taken as the next `first`, are one drift too early."""
        sc, path = searched("drifting-grid")
        it = onward.onward(sc, path, 4, 4)
        left = masses.frames(sc, path)[4].left
        it.sc.first, it.sc.parts = left, (sum(left), *sc.parts[1:])
        wrong = it.found + (1 - it.found) * chance(it.sc, path[4:])
        self.assertEqual(percent.cut(wrong.numerator, wrong.denominator), "22.060")

    def test_the_tide_turns_where_it_did(self):
        sc, path = searched("tide")
        new = onward.onward(sc, path, 2, 4).sc
        # The step behind period 4 was the first of the ebb; it is the one behind period 2 now.
        self.assertEqual([new.row(t, 2) for t in (1, 2, 3)], [sc.row(t, 2) for t in (3, 4, 5)])
        self.assertNotEqual(new.row(1, 2), new.row(2, 2))

    def test_it_is_night_when_it_was(self):
        sc, path = searched("night")
        new = onward.onward(sc, path, 1, 5).sc
        self.assertEqual([new.look(t, 0) for t in range(1, 6)], [sc.look(t, 0) for t in range(2, 7)])
        self.assertEqual((new.look(1, 0), new.look(2, 0)), ({0: 5, 1: 5, 2: 5}, {}))


class Longer(unittest.TestCase):
    """Behind the old horizon, each look and step is as the last one: against scenarios whose longer text is written here."""

    LATER = {
        "tide": b"".join(
            b"driftin %d %s\n" % (t, row)
            for t in (6, 7, 8)
            for row in (
                b"river river 3 bridge 7",
                b"bridge bridge 3 quay 7",
                b"quay quay 3 bend 7",
                b"bend bend 3 buoy 7",
                b"buoy buoy 3 sea 7",
                b"sea sea 10",
            )
        ),
        "night": b"".join(
            b"lookin %d %s\n" % (t, row)
            for t in (7, 8, 9)
            for row in (b"cliff", b"landing", b"reef reef 5", b"bay bay 5", b"beach beach 5", b"mouth mouth 5")
        ),
        "swath": b"",
        "drifting-grid": b"",
        "two-cells": b"",
    }

    def longer(self, name, horizon):
        """The example with more periods, and rows for them."""
        text = re.sub(rb"(?m)^horizon .*", b"horizon %d" % horizon, example(name)[0])
        return scenario(re.sub(rb"(?m)^end$", self.LATER[name] + b"end", text))

    def test_chains_past_the_horizon(self):
        for name in self.LATER:
            sc, path = searched(name)
            more = 3 if name in ("tide", "night") else 2
            long = self.longer(name, sc.horizon + more)
            for flown in (sc.horizon, sc.horizon - 1):
                it = onward.onward(sc, path, flown, sc.horizon + more - flown)
                for rest in walks_on(sc, path[flown - 1], it.sc.horizon, 20):
                    with self.subTest(name=name, flown=flown, rest=rest):
                        got = it.found + (1 - it.found) * chance(it.sc, rest)
                        self.assertLessEqual(abs(got - chance(long, path[:flown] + rest)), (1 - it.found) * it.moved)

    def test_one_period_has_no_step(self):
        sc, path = searched("one-cell")
        self.assertEqual((sc.horizon, onward.onward(sc, path, 1, 2).sc.row(1, 0)), (1, {0: 1}))


class Rounding(unittest.TestCase):
    def test_it_is_told_as_it_is(self):
        sc, path = searched("drifting-grid")
        # What is left, by the sums of desk.masses, and one step of the drift.
        left = masses.frames(sc, path)[8].left
        then = [sum(left[cell] * sc.drift[cell].get(to, 0) for cell in range(49)) for to in range(49)]
        for horizon in range(8, 17):
            it = onward.onward(sc, path, 8, horizon)
            off = [Fraction(part, it.sc.parts[0]) - Fraction(mass, sum(then)) for part, mass in zip(it.sc.first, then)]
            self.assertEqual(sum(it.sc.first), it.sc.parts[0])
            self.assertEqual((it.largest, it.moved), (max(map(abs, off)), sum(map(abs, off)) / 2))
            self.assertTrue(0 < it.largest < Fraction(1, it.sc.parts[0]))

    def test_the_denominator_is_the_finest_that_fits(self):
        sc, path = searched("kayaker")
        for horizon in range(1, 15):
            it = onward.onward(sc, path, 8, horizon)
            a, d, g = it.sc.parts
            room = (2**127 - 1) // ((horizon + 10) * d ** (horizon - 1) * g ** (horizon + 1))
            self.assertEqual((a, it.finest), (min(1_000_000, room),) * 2)

    def test_exact_where_the_masses_allow_it(self):
        sc, path = searched("two-cells")
        self.assertEqual(onward.onward(sc, path, 1, 1).sc.parts, (2, 2, 2))

    def test_digits(self):
        told = [following.decimal(Fraction(*it)) for it in ((0, 1), (1, 3), (1, 3000), (2, 1_000_000), (1, 1))]
        self.assertEqual(told, ["0", "0.34", "0.00034", "0.0000020", "1.0"])


class Commands(Asked):
    """`osp next` as it is called."""

    def ran(self, *words):
        """The exit status, what is written and what is said."""
        return self.called(following.main, *words)

    def accepted(self, name, *words):
        """The same for an example whose plan counts as accepted, since the stand-in takes long for it."""
        with mock.patch.object(accepted, "asked", lambda word, given: (b"accepted\n", "")):
            return self.of(name, *words)

    def of(self, name, *words, places=""):
        text, plan = example(name)
        return self.ran(self.write("s", places.encode() + text), self.write("p", plan), *words)

    def test_what_is_said_is_what_is_written(self):
        status, text, said = self.accepted("drifting-grid", "--flown", "4")
        self.assertEqual(status, 0)
        old, path = searched("drifting-grid")
        new = scenario(text)
        self.assertEqual((new.horizon, new.positions[new.start], new.parts), (4, b"r2c2", (3020, 20, 10)))
        p1, rest = re.search(r"= ([0-9]+/[0-9]+) \+ ([0-9]+/[0-9]+)\*P2", said).groups()
        self.assertEqual(Fraction(p1) + Fraction(rest) * chance(new, path[4:]), chance(old, path))
        for part in ("3.360 percent: 21/625", "given that nothing was found", "nothing was rounded", "what is left of 8", "starts at r2c2"):
            self.assertIn(part, said)

    def test_options_stand_in_any_order(self):
        text, plan = example("swath")
        status, out, said = self.ran(self.write("s", text), self.write("p", plan), "--horizon", "3", "--flown", "2")
        self.assertEqual(status, 0)
        self.assertEqual((scenario(out).horizon, out.count(b"position ")), (3, 4))
        self.assertIn("as --horizon says", said)
        self.assertIn("periods behind period 4 have the looks of period 4", said)

    def test_default_horizons(self):
        for words, horizon, why in (((), 6, "as many as before"), (("--flown", "5"), 1, "what is left of 6")):
            status, text, said = self.of("tide", *words)
            self.assertEqual((status, scenario(text).horizon), (0, horizon))
            self.assertIn(why, said)

    def test_the_rest_of_the_same_horizon_is_planned_exactly_by_replan(self):
        """The words that are told force the prefix that was flown; where there is no such scenario, the cause is told."""
        for name, k in (("tide", 2), ("swath", 3), ("two-cells", 1)):
            status, _, said = self.of(name, "--flown", str(k))
            self.assertEqual(status, 0)
            found = re.search(r"replan is exact, and shows .*: \./osp (replan flown .*) < (\S+)\n", said)
            sc, path = searched(name)
            self.assertEqual(found[1].split()[2:], [sc.positions[it].decode() for it in path[:k]])
            self.assertEqual(read(found[2]), example(name)[0])
            self.assertEqual(program.ask(found[1].split(), example(name)[0]).status in (0, 8), True)
        for words in (("--flown", "2", "--horizon", "3"), ("--flown", "6")):
            self.assertNotIn("replan", self.of("tide", *words)[2])
        text, plan = (it.replace(b"bridge", b"flown-1") for it in example("tide"))
        _, _, said = self.ran(self.write("s", text), self.write("p", plan), "--flown", "1")
        self.assertIn("but not here: bad flown: NameTaken\n", said)

    def test_places_are_kept_and_other_comments_are_not(self):
        other = "# at nowhere 1 2\n# at north 1\n#at base 3 4\n# a note\n"
        status, text, _ = self.of("swath", "--flown", "1", places=PLACES + other)
        self.assertEqual(status, 0)
        self.assertEqual([it for it in text.decode().splitlines() if it.startswith("# at ")], [*PLACES.splitlines(), "# at base 3 4"])
        self.assertNotIn(b"a note", text)
        self.assertNotIn(b"nowhere", text)

    def finer(self, *words, more=b""):
        """The same for tests/finer.py, with more comments in front."""
        both = with_plan(finer.TEXT)
        return self.ran(self.write("s", more + finer.TEXT), self.write("p", both[len(finer.TEXT) :]), *words)

    def test_states_that_are_parts_of_squares(self):
        """Behind look 1 are 2 of 4, 1 of 4 and 1 of 4, by hand in tests/finer.py; the second step is the first one now. Its page is drawn."""
        status, text, said = self.finer("--flown", "1")
        self.assertEqual(status, 0, said)
        lines = text.decode().splitlines()
        self.assertEqual(lines[2:14], finer.COMMENTS.splitlines()[1:])
        first, second = ("horizon 2", "parts 4 2 2", "start r0c0", "first r0c0-02 2 r0c1-01 1 r0c1-03 1"), ("drift r0c0-02 r0c0-02 1 r0c0-04 1", "drift r0c1-03 lost 2")
        for it in (*first, *second, "drift r0c0-01 r0c0-02 2", "look r0c1 r0c1-01 1 r0c1-03 1"):
            self.assertIn(it, lines)
        self.assertNotIn(b"driftin", text)
        told = layout.layout(scenario(text), text)
        self.assertEqual((told.finer, told.side, told.cells[1]), (2, 500, (375, 125)))

    def test_the_place_of_a_square_that_is_no_position_is_kept(self):
        """A lookout sees all; the square r0c1 has parts, and no position."""
        text = re.sub(rb"(?m)^(position|moves|look) r(0c1|0c2|1).*\n", b"", finer.TEXT).replace(b"start r1c0", b"start r0c0").replace(b"moves r0c0 r0c0 r0c1 r1c0", b"moves r0c0 r0c0")
        both = with_plan(text)
        status, out, said = self.ran(self.write("s", text), self.write("p", both[len(text) :]), "--flown", "1")
        self.assertEqual(status, 0, said)
        self.assertIn(b"# at r0c1 750 250\n", out)
        self.assertNotIn(b"# at r1c1 ", out)

    def test_behind_the_horizon_of_a_draft_there_are_no_tracks(self):
        head = b"\n# The situation, from which osp draft made it:\n"
        self.assertIn(head, read(f"{EXAMPLES}/situations/kayaker.scenario"))
        for words, more, is_told in (((), head, True), ((), b"", False), (("--flown", "1"), head, False), (("--flown", "1", "--horizon", "3"), head, True)):
            said = self.finer(*words, more=more)[2]
            self.assertEqual("counted from tracks that end at period 3" in said, is_told, (words, more))
        self.assertIn("draft the situation anew with more periods, and plan the rest by ./osp replan flown r0c0 r0c1 r0c0 < THAT_SCENARIO\n", self.finer(more=head)[2])

    def test_words(self):
        text, plan = (self.write(*it) for it in zip(("s", "p"), example("two-cells")))
        for words in ((), (text, plan, plan), (text, plan, "--flown"), (text, plan, "--flown", "0"), (text, plan, "--flown", "x"),
                      (text, plan, "--flown", "1", "--flown", "1"), (text, plan, "--horizon", "33"), (text, plan, "--other"),
                      (text, plan, "--horizon", "-1"), (text, plan, "--horizon", "1.5")):  # fmt: skip
            with self.subTest(words=words):
                status, out, said = self.ran(*words)
                self.assertEqual((status, out), (2, b""))
                self.assertRegex(said, rf"\Aosp next: .+\n{re.escape(following.WORDS.usage)}\n\Z")
        status, out, said = self.ran(text, plan, "--flown", "3")
        self.assertEqual((status, out), (2, b""))
        self.assertIn("--flown is 1 to 2", said)

    def test_a_plan_that_is_not_accepted(self):
        text, _ = example("two-cells")
        for plan, status, part in (
            (read(f"{EXAMPLES}/two-cells-lacking.plan"), 1, "rejected 8 MissingChild"),
            (example("tide")[1], 4, "bad plan: line 2 UnknownName"),
            (b"", 4, "bad plan: line 1 EarlyEnd"),
        ):
            got, out, said = self.ran(self.write("s", text), self.write("p", plan))
            self.assertEqual((got, out), (status, b""))
            self.assertIn(part, said)
        # One file alone has to have the plan behind its scenario, unless positions are named.
        got, out, said = self.ran(self.write("s", text))
        self.assertEqual((got, out), (4, b""))
        self.assertIn("no plan stands behind the scenario", said)
        got, out, said = self.ran(self.write("s", text.replace(b"horizon 2", b"horizon 0")), self.write("p", example("two-cells")[1]))
        self.assertEqual((got, out), (3, b""))
        self.assertIn("BadNumber", said)

    def test_check_is_asked_first(self):
        """A program that says nothing of `accepted` leads to no scenario, whatever this helper thinks of the plan."""
        stand_in = self.write("osp", b"#!/bin/sh\ncat > /dev/null\necho fine\n")
        os.chmod(stand_in, stat.S_IRWXU)
        with mock.patch.object(program, "OSP", stand_in):
            status, out, _ = self.of("two-cells")
        self.assertEqual((status, out), (70, b""))
        with mock.patch.object(program, "OSP", self.room):
            self.assertEqual(self.of("two-cells")[:2], (70, b""))

    def test_an_unproved_run_is_told(self):
        stand_in = self.write("osp", b"#!/bin/sh\ncat > /dev/null\necho 'osp: unproved run, since nothing is built' >&2\necho accepted\n")
        os.chmod(stand_in, stat.S_IRWXU)
        with mock.patch.object(program, "OSP", stand_in):
            status, _, said = self.of("two-cells", "--flown", "1")
        self.assertEqual(status, 0)
        self.assertTrue(said.startswith("osp: unproved run, since nothing is built\n"))

    CERTAIN = b"scenario 1\nhorizon 2\nparts 1 1 2\ncell a\nstart a\nfirst a 1\nmoves a a\ndrift a a 1\noverlook a 0\nend\n"

    def test_nothing_is_left(self):
        plan = b"plan 2\npath a a\nchance 4 4\nnodes 3\nB\nB\nW 4\nend\n"
        status, out, said = self.ran(self.write("s", self.CERTAIN), self.write("p", plan))
        self.assertEqual((status, out), (1, b""))
        self.assertIn("nothing is left to search", said)

    def test_a_horizon_that_is_too_wide(self):
        status, out, said = self.accepted("drifting-grid", "--horizon", "20")
        self.assertEqual((status, out), (2, b""))
        self.assertIn("20 periods don't fit into 128 bits with D 20 and G 10; 16 would", said)
        self.assertTrue(forms.is_narrow(16, (1, 20, 10)) and not forms.is_narrow(17, (1, 20, 10)))

    def test_coarse_rounding_is_told(self):
        status, text, said = self.accepted("drifting-grid", "--horizon", "16")
        sc = scenario(text)
        self.assertEqual(status, 0)
        self.assertTrue(forms.is_narrow(16, sc.parts))
        self.assertFalse(forms.is_narrow(16, (sc.parts[0] + 1, 20, 10)))
        self.assertIn("that is coarse", said)

    def test_a_scenario_without_its_last_line_feed(self):
        text, plan = example("two-cells")
        status, out, _ = self.ran(self.write("s", text.rstrip(b"\n")), self.write("p", plan), "--flown", "1")
        self.assertEqual((status, scenario(out).horizon), (0, 1))

    def test_as_it_is_called(self):
        """python3 -m desk next .., and with a full output."""
        words = [sys.executable, "-m", "desk", "next", *self.files("two-cells"), "--flown", "1"]
        how = {"cwd": TOP, "env": {**os.environ, "OSP": STAND_IN, "PYTHONDONTWRITEBYTECODE": "1"}}
        done = subprocess.run(words, capture_output=True, check=False, **how)
        self.assertEqual((done.returncode, scenario(done.stdout).horizon), (0, 1))
        self.assertIn(b"P1, the chance that the 1 period flown find the target, is 50.000 percent: 1/2", done.stderr)
        with open("/dev/full", "wb") as full:
            done = subprocess.run(words, stdout=full, stderr=subprocess.PIPE, check=False, **how)
        self.assertEqual(done.returncode, 6)
        self.assertIn(b"write fault", done.stderr)

    def test_hostile_files(self):
        text, plan = example("two-cells")
        markup = text.replace(b"cell b\n", b"cell <script>\n")
        deep = b"scenario 1\n" + b"\t \r" * 200_000 + b"horizon" + b" 2" * 200_000
        files = {
            "huge": (b"# " + b"x" * (3 << 20), plan),
            "not UTF-8": (text.replace(b"cell b", b"cell \xff\xfe"), plan),
            "deep": (deep, plan),
            "wrong types": (b'[search]\nhorizon = 2\nparts = [1, 2.5, "x"]\n', b"\x00\x01"),
            "markup": (markup, plan),
            "plan of markup": (text, plan.replace(b"path a a", b"path a <b>\x1b[31m")),
        }
        for name, (first, second) in files.items():
            with self.subTest(name):
                status, out, said = self.ran(self.write("s", first), self.write("p", second))
                self.assertIn(status, (3, 4))
                self.assertEqual(out, b"")
                self.assertTrue(said.startswith("osp next: bad "), said)
                self.assertNotIn("\x1b", said)
        for missing in (os.path.join(self.room, "none"), self.room):
            status, out, said = self.ran(missing, missing)
            self.assertEqual((status, out), (5, b""))
            self.assertIn("cannot read", said)


if __name__ == "__main__":
    unittest.main()
