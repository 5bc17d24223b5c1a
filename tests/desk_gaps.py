"""Tests of gap plans as the desk reads and checks them: texts worked by hand, each kind of fault and each reason, and that plans and gap
plans are two families of one grammar. `python3 -m unittest tests.desk_gaps`, or tests/desk."""
import dataclasses
import unittest
from unittest import mock

from bench import one_worker
from bench.one_worker import gap_text
from desk import accepted, brief, following, forms, paths, sentences, show, verdict
from tests.made import ROW
from tests.pages import EXAMPLES, Drawing, Room, example, read as contents

CELLS, LONGER = example("two-cells")[0], example("waiting-longer")[0]
# A look at c finds for sure: by c b c the edge bound counts the target twice, since no two looks at c follow each other.
CERTAIN = LONGER.replace(b"overlook c 1", b"overlook c 0")


def gap(head, nodes, version=1):
    """A gap text by its path, chance and ceiling, and by its nodes."""
    path, chance, ceiling = head.split(", ")
    rows = nodes.split(", ")
    return "\n".join([f"gap {version}", f"path {path}", f"chance {chance}", f"ceiling {ceiling}", f"nodes {len(rows)}", *rows, "end", ""]).encode()


# The beginnings of docs/BOUNDS.md, and below c what it branches to: a whole path that isn't better, and one that waits. Then both by edge
# bounds: b c c finds 4 and 2, and of c c c the third look finds 2 behind the second one alone, and 1 behind both.
WAITS = gap("b c c, 6 8, 8", "B, M 4, O 8, O 8")
BELOW = gap("b c c, 6 8, 8", "B, M 4, O 8, B, M 6, B, W 6, O 7")
EDGES = gap("b c c, 6 8, 7", "B, M 4, O 6, O 7", 2)
EDGES_BELOW = gap("b c c, 6 8, 7", "B, M 4, O 6, B, M 6, B, W 6, O 7", 2)
ACCEPTED = [
    (ROW, gap("a a, 3 9, 6", "B, O 3, O 6")),
    (LONGER, WAITS),
    (LONGER, BELOW),
    (LONGER, gap("c c c, 7 8, 8", "B, M 4, T 12 1 2 2, O 8")),
    (LONGER, gap("c c c, 7 8, 8", "B, M 4, E 6, O 8")),
    (LONGER, gap("c c c, 7 8, 12", "O 12")),
    (CELLS, gap("a a, 12 16, 16", "O 16")),
    # Nodes wait, and no path finds more than the plan's, which isn't the best; then fewer wait, and at last none.
    (CELLS, gap("a b, 12 16, 12", "B, B, O 12, O 12, O 12")),
    (CELLS, gap("a a, 12 16, 12", "B, B, W 12, W 12, O 12")),
    (CELLS, gap("a a, 12 16, 12", "B, B, W 12, W 12, M 12")),
    (LONGER, EDGES),
    (LONGER, EDGES_BELOW),
    (LONGER, gap("c c c, 7 8, 7", "B, M 4, E 6, O 7", 2)),
    (LONGER, gap("c c c, 7 8, 8", "O 8", 2)),
    (ROW, gap("a a, 3 9, 6", "B, O 3, O 6", 2)),
    (CELLS, gap("a b, 12 16, 12", "O 12", 2)),
    # The numbers of version 1 may pass the whole weight, and those of version 2 don't.
    (CERTAIN, gap("a a a, 0 8, 24", "O 24")),
    (CERTAIN, gap("a a a, 0 8, 8", "O 8", 2)),
]
# What is put in the place of what, and the first reason then.
REASONS = [
    (WAITS, "b c c", "b c a", 2, "PathIllegal"),
    (WAITS, "b c c", "b c", 2, "PathIllegal"),
    (WAITS, "6 8", "7 8", 3, "ValueWrong"),
    (WAITS, "6 8", "6 9", 3, "WeightWrong"),
    (WAITS, "ceiling 8", "ceiling 7", 4, "CeilingWrong"),
    (WAITS, "ceiling 8", "ceiling 6", 4, "CeilingWrong"),
    (WAITS, "ceiling 8", f"ceiling {2**128 - 1}", 4, "CeilingWrong"),
    (WAITS, "M 4", "M 5", 7, "BoundWrong"),
    (WAITS, "M 4", "W 4", 7, "WholeWrong"),
    (WAITS, "M 4\nO 8", "O 4\nM 8", 8, "NotCut"),
    (WAITS, "M 4\nO 8", "M 4\nT 12 1 2 0", 8, "ReferenceWrong"),
    (WAITS, "O 8\nO 8", "O 8\nO 9", 9, "WaitingWrong"),
    (WAITS, "O 8\nO 8", "O 7\nO 9", 8, "WaitingWrong"),
    (WAITS, "M 4\nO 8\nO 8", "O 4\nO 8\nO 6", 9, "WaitingWrong"),
    # A wrong number that waits goes before a wrong ceiling, also where they agree.
    (gap("b c c, 6 8, 9", "B, M 4, O 8, O 9"), "", "", 9, "WaitingWrong"),
    (BELOW, "O 7", "O 8", 13, "WaitingWrong"),
    (BELOW, "O 7", "W 7", 13, "NotCut"),
    (BELOW, "O 7", "M 7", 13, "WholeWrong"),
    (BELOW, "O 7", "B", 13, "WholeWrong"),
    (BELOW, "W 6", "W 7", 12, "WholeWrong"),
    (BELOW, "M 6", "E 7", 10, "BoundWrong"),
    (gap("c c c, 7 8, 8", "B, M 4, E 6, M 8"), "", "", 9, "NotCut"),
    (gap("a b, 12 16, 12", "B, B, W 12, W 12, M 12"), "", "", 8, "NotCut"),
    # Each version has its own numbers.
    (WAITS, "gap 1", "gap 2", 8, "WaitingWrong"),
    (EDGES, "gap 2", "gap 1", 8, "WaitingWrong"),
    (EDGES, "O 6", "O 5", 8, "WaitingWrong"),
    (EDGES, "O 7", "O 8", 9, "WaitingWrong"),
    (EDGES, "M 4\nO 6", "O 4\nO 8", 8, "WaitingWrong"),
    (EDGES, "ceiling 7", "ceiling 8", 4, "CeilingWrong"),
    (EDGES, "ceiling 7", "ceiling 6", 4, "CeilingWrong"),
    (EDGES, "O 6", "E 6", 8, "NotCut"),
    (EDGES_BELOW, "O 7", "O 8", 13, "WaitingWrong"),
    (EDGES_BELOW, "O 7", "W 7", 13, "NotCut"),
    (EDGES_BELOW, "M 6", "E 7", 10, "BoundWrong"),
]
# What is put in the place of what in WAITS, and the first fault then, for each version.
FAULTS = [
    ("gap 1", "gap 3", 1, "BadLine"),
    ("gap 1", "gap 0", 1, "BadLine"),
    ("gap 1", "gap 12", 1, "BadLine"),
    ("gap 1", "gap", 1, "BadLine"),
    ("gap 1", "gap  1", 1, "BadLine"),
    ("gap 1", "gap 1 ", 1, "BadLine"),
    ("gap 1", "plan 2", 1, "BadLine"),
    ("path b c c", "path", 2, "BadLine"),
    ("path b c c", "path b x c", 2, "UnknownName"),
    ("chance 6 8", "chance 6", 3, "BadLine"),
    ("chance 6 8", "chance 06 8", 3, "BadNumber"),
    ("ceiling 8\n", "", 4, "BadLine"),
    ("ceiling 8\nnodes 4", "nodes 4\nceiling 8", 4, "BadLine"),
    ("ceiling 8", "ceiling", 4, "BadLine"),
    ("ceiling 8", "ceiling 8 8", 4, "BadLine"),
    ("ceiling 8", "ceiling  8", 4, "BadLine"),
    ("ceiling 8", "ceiling x", 4, "BadNumber"),
    ("ceiling 8", f"ceiling {2**128}", 4, "BadNumber"),
    ("nodes 4", "nodes 4194306", 5, "TooManyNodes"),
    ("nodes 4", "nodes 4194305", 10, "WrongCount"),
    ("nodes 4", f"nodes {2**128}", 5, "BadNumber"),
    ("nodes 4", "ceiling 8", 5, "BadLine"),
    ("nodes 4", "nodes 3", 9, "WrongCount"),
    ("nodes 4", "nodes 5", 10, "WrongCount"),
    ("B\n", "B 0\n", 6, "BadLine"),
    ("M 4", "M 4 0", 7, "BadLine"),
    ("M 4", "M", 7, "BadLine"),
    ("M 4", "O", 7, "BadLine"),
    ("M 4", "O 4 0", 7, "BadLine"),
    ("M 4", "O -4", 7, "BadNumber"),
    ("M 4", "P 4", 7, "BadLine"),
    ("M 4", "T 8 0 0 3", 7, "BadNumber"),
    ("nodes 4\nB\nM 4", "nodes 3\nB", 9, "StillOpen"),
    ("nodes 4\nB\nM 4", "nodes 5\nB\nO 4\nO 4", 10, "NoPlace"),
    ("end\n", "end", 10, "EarlyEnd"),
    ("end\n", "", 10, "EarlyEnd"),
    ("end\n", "end\n\n", 11, "Rest"),
    ("end\n", "end 1\n", 10, "BadLine"),
    (WAITS.decode(), "", 1, "EarlyEnd"),
]


def read(text):
    """The scenario of a text."""
    return forms.read_scenario(text, True)[0]


def as_gaps(plan):
    """The gap texts, of each version that has its letters, of a plan whose text this is, which leaves prefixes out."""
    _, path, chance, *rest = plan.split(b"\n")
    letters = {it[:1] for it in rest[1:-2]}
    versions = [first for first, it in forms.GAPS.items() if letters <= set(it.letters)]
    return [b"\n".join([first, path, chance, b"ceiling " + chance.split(b" ")[1], *rest]) for first in versions]


class Gaps(unittest.TestCase):
    def fault(self, text, sc, family):
        with self.assertRaises(forms.Fault) as found:
            forms.read_plan(text, sc, family)
        return found.exception.line, found.exception.kind

    def test_gap_plans_that_are_accepted(self):
        """Of each, no path finds more than the ceiling, and its own is the best where none waits."""
        for text, given in ACCEPTED:
            with self.subTest(given=given):
                sc = read(text)
                plan = forms.read_plan(given, sc, forms.GAPS)
                self.assertIsNone(verdict.first_reason(sc, plan))
                best = paths.best(sc)
                self.assertLessEqual(best[0], plan.ceiling)
                if b"O" not in [letter for letter, *_ in plan.records]:
                    self.assertEqual((plan.ceiling, (plan.value, plan.path)), (plan.value, best))

    def test_each_reason(self):
        for given, old, new, line, why in REASONS:
            with self.subTest(old=old, new=new):
                sc = read(CELLS if b" 16\n" in given else LONGER)
                text = given.decode().replace(old, new, 1).encode() if old else given
                self.assertEqual(verdict.first_reason(sc, forms.read_plan(text, sc, forms.GAPS)), (line, why))

    def test_a_tangent_where_looks_have_two_rates(self):
        sc = read(LONGER.replace(b"overlook b 1", b"overlook b 0"))
        plan = forms.read_plan(gap("c c c, 7 8, 8", "B, M 4, T 12 1 2 2, O 8"), sc, forms.GAPS)
        self.assertEqual(verdict.first_reason(sc, plan), (8, "NoOneRate"))

    def test_an_edge_bound_above_the_whole_weight(self):
        sc, given = read(CERTAIN), gap("a a a, 0 8, 16", "O 16", 2)
        self.assertEqual(verdict.remembering(sc, [], 1), 16)
        self.assertEqual(verdict.first_reason(sc, forms.read_plan(given, sc, forms.GAPS)), (6, "WaitingWrong"))

    def test_each_fault(self):
        for old, new, line, kind in FAULTS:
            self.assertIn(old, WAITS.decode())
            text = WAITS.decode().replace(old, new, 1)
            for given in {text, text.replace("gap 1\n", "gap 2\n")}:
                with self.subTest(given=given):
                    self.assertEqual(self.fault(given.encode(), read(LONGER), forms.GAPS), (line, kind))

    def test_each_front_ends_early(self):
        for text in (BELOW, EDGES_BELOW):
            for end in range(len(text)):
                front = text[:end]
                self.assertEqual(self.fault(front, read(LONGER), forms.GAPS), (front.count(b"\n") + 1, "EarlyEnd"))

    def test_examples_are_those_of_one_worker(self):
        """`gap` writes version 2 from horizon 4 on."""
        for name, first in (("two-cells", b"gap 1"), ("swath", b"gap 2")):
            given = contents(f"{EXAMPLES}/{name}.gap")
            sc = read(example(name)[0])
            self.assertEqual((given.split(b"\n")[0], given), (first, gap_text(sc, 1)))
            self.assertIsNone(verdict.first_reason(sc, forms.read_plan(given, sc, forms.GAPS)))

    def test_the_order_in_which_one_worker_closes(self):
        """By edge bounds: behind all paths a has 12, b 16 and c 20, behind c has b 14 and c 16, behind c c 14 and 15, and behind c c c as well.
        With every second record in the place of every tenth it goes from c on down to c c c c, before b."""
        sc = read(LONGER.replace(b"horizon 3", b"horizon 4"))
        self.assertEqual(verdict.through(sc, [], 1), {0: 12, 1: 16, 2: 20})
        rest = [(2, 1), (2, 2, 1), (2, 2, 2, 1), (0,)]
        for every, first in ((10, [(), (2,), (1,), (2, 2), (2, 2, 2), (2, 2, 2, 2)]), (2, [(), (2,), (2, 2), (2, 2, 2), (2, 2, 2, 2), (1,)])):
            with mock.patch.object(one_worker, "DOWN_EVERY", every):
                self.assertEqual(list(one_worker.gap_worker(sc, 99).records), [*first, *rest])

    def test_two_families(self):
        sc = read(LONGER)
        for text in (WAITS, EDGES):
            self.assertEqual(self.fault(text, sc, forms.PLANS), (1, "BadLine"))
        for version in (b"plan 1", b"plan 2", b"plan 3"):
            self.assertEqual(self.fault(WAITS.replace(b"gap 1", version), sc, forms.PLANS), (4, "BadLine"))
        plan = example("waiting-longer")[1]
        for text in (plan, forms.in_version(plan, sc, b"plan 1")):
            self.assertEqual(self.fault(text, sc, forms.GAPS), (1, "BadLine"))
        waits = plan.replace(b"M 4", b"O 4")
        self.assertNotEqual(waits, plan)
        self.assertEqual(self.fault(waits, sc, forms.PLANS), (6, "BadLine"))

    def test_plans_in_which_none_waits(self):
        """A plan's gap texts are accepted as the plan is, and their reasons stand a line further down."""
        for name in ("two-cells", "waiting-longer", "waiting-target", "uneven-overlook", "night", "tide", "swath", "lake-with-island"):
            scenario, text = example(name)
            sc = read(scenario)
            wrong = text.replace(b"\nM ", b"\nE ")
            line, why = verdict.first_reason(sc, forms.read_plan(wrong, sc)) or (0, None)
            for right, given in zip(as_gaps(text), as_gaps(wrong), strict=True):
                self.assertIsNone(verdict.first_reason(sc, forms.read_plan(right, sc, forms.GAPS)))
                self.assertEqual(verdict.first_reason(sc, forms.read_plan(given, sc, forms.GAPS)) or (1, None), (line + 1, why))


class Helpers(Room):
    """`show`, `brief` and `next` take a gap plan as they take a plan: they ask `checkgap`, and say its ceiling."""

    def given(self, text, plan):
        return [self.write("s", text), self.write("p", plan)]

    def test_a_brief_says_the_ceiling_rounded_up(self):
        rows = (
            (LONGER, WAITS, "Accepted, but nothing is shown yet: the ceiling is 100 %.", "Chance to find them: 75.000 %, 3 looks, from b"),
            (ROW, ACCEPTED[0][1], "Accepted: no path finds more than 66.667 %.", "Chance to find them: 33.333 %, 2 looks, from b"),
            (CELLS, ACCEPTED[8][1], "Accepted: no path finds more.", "Chance to find them: 75.000 %, 2 looks, from a"),
            (LONGER, EDGES, "Accepted: no path finds more than 87.500 %.", "Chance to find them: 75.000 %, 3 looks, from b"),
        )
        for text, plan, *wanted in rows:
            with self.subTest(wanted[0]):
                status, out, err = self.run_helper(brief.main, self.given(text, plan))
                self.assertEqual((status, err), (0, err))
                self.assertEqual([out.split("\n")[it] for it in (1, 3)], wanted)
                self.assertIn("\nPercent are cut off after three digits.\nThat of the ceiling is rounded up.\n", out)

    def test_a_ceiling_from_the_whole_on_shows_nothing(self):
        """The path finds 6 of 8."""
        search = accepted.load(self.given(LONGER, WAITS))
        nothing = "Accepted, but nothing is shown yet: the ceiling is 100 %."
        rows = (6, "Accepted: no path finds more."), (7, "Accepted: no path finds more than 87.500 %."), (8, nothing), (9, nothing), (10**30, nothing)
        for ceiling, told in rows:
            with self.subTest(ceiling=ceiling):
                found = sentences.verdict(dataclasses.replace(search, ceiling=ceiling))
                self.assertEqual(found, told)

    def test_next_goes_on_behind_it(self):
        status, out, err = self.run_helper(following.main, [*self.given(LONGER, WAITS), "--flown", "2"])
        self.assertEqual(status, 0, err)
        sc, _ = forms.read_scenario(out.encode(), alone=True)
        self.assertEqual((sc.horizon, sc.positions[sc.start], sc.first), (1, b"c", [0, 0, 1]))

    def test_one_that_is_not_accepted(self):
        for helper in (brief, show, following):
            status, out, err = self.run_helper(helper.main, self.given(LONGER, WAITS.replace(b"ceiling 8", b"ceiling 7")))
            self.assertEqual((status, out), (1, ""), err)
            self.assertIn("the plan isn't accepted: rejected 4 CeilingWrong", err)


class Pages(Drawing):
    def test_a_page_has_the_ceiling_and_the_masses_of_the_map(self):
        nothing, most = "Accepted, but nothing is shown yet: the ceiling is 100 %.", "Accepted: no path finds more than 87.500 %."
        for version, text, ceiling, told in ((1, BELOW, 8, nothing), (2, EDGES_BELOW, 7, most)):
            page = self.shown(self.write("s", LONGER), self.write("p", text))
            self.assertTrue(page.one(class_="accepted").text().startswith(told))
            self.assertIn("cut off after three digits, that of the ceiling is rounded up.", page.one("header").text())
            numbers = page.one("section", class_="numbers").text()
            records = f"Gap plantext of version {version}, 8 records: they show that no path finds more than the ceiling"
            for part in ("Chance6 of 8", f"Ceiling{ceiling} of 8: rounded up in percent", records):
                self.assertIn(part, numbers)
            self.assertNotIn("own sums", numbers)


if __name__ == "__main__":
    unittest.main()
