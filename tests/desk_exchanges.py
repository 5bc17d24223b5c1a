"""Tests of exchanges and two-look bounds as the desk reads and checks them: texts worked by hand, each reason and each fault, and that
plans by the second computation have the best path. `python3 -m unittest tests.desk_exchanges`, or tests/desk."""
import functools
import itertools
import math
import unittest

from bench.one_worker import Worker, as_bytes, stand_in, text_of
from desk import forms, paths, verdict
from tests.pages import TOP, example, read as contents

LONGER = example("waiting-longer")[0]
# With four looks all numbers are parts of 16, and the path c c c c finds 15. Two looks at c find 12, one finds 8: behind b b c is 8 left,
# behind b c c 4, of which the last look would find 2. So b c c stands in for b b c, whose exchange bound is 10, and c c doesn't for b c:
# its bound is 8 + 2 + 2, as much as c c finds, and c c is the greater.
FOUR = LONGER.replace(b"horizon 3", b"horizon 4")
# The target is in d and goes to c, or it waits in a; looks find for sure. So d c and c c find the same, and leave the same.
GOES = b"""scenario 1
horizon 4
parts 4 1 3
cell a
cell b
cell c
cell d
start d
first a 3 d 1
moves a a b
moves b a b c
moves c b c d
moves d c d
drift a a 1
drift b b 1
drift c d 1
drift d c 1
rate 0
end
"""
# (By the edge bound a finds 8 + 4, b c and c b 8 + 4 + 2; of the others one look is left, or one look at c.)
PLAN = """plan 3
path c c c c
chance 15 16
nodes 16
B
E 12
B
M 8
B
M 0
M 8
X 10 2
E 14
B
E 14
B
M 14
B
W 14
W 15
end
"""
GAP = PLAN.replace("plan 3", "gap 2").replace("15 16", "15 16\nceiling 15")
# The plan's path finds nothing, and of an exchange that is no matter.
UNDER_NOTHING = """gap 2
path b b b b
chance 0 16
ceiling 16
nodes 10
B
O 12
B
O 8
B
O 0
O 8
X 10 2
O 14
O 16
end
"""
# Behind b three looks at c are left: the first finds 8, the second 4, and with both taken off the third 2. So 14 is the most, and b needs
# no records of its own. Behind c there are 4, 2 and 1, which is what c c c c finds.
TWO_LOOKED = PLAN.replace("nodes 16", "nodes 10").replace("B\nM 8\nB\nM 0\nM 8\nX 10 2\nE 14\nB", "D 14\nB")
# What is put in the place of what, and the first reason then.
REASONS = [
    # There is none of all paths, of one position, and of a whole path.
    (PLAN[PLAN.index("nodes") :], "nodes 1\nX 15 0\nend\n", 5, "WholeWrong"),
    ("E 12", "X 12 1", 6, "WholeWrong"),
    ("W 14", "X 14 1", 19, "WholeWrong"),
    # The position is the prefix's own, or no move leads from it, or to it.
    ("X 10 2", "X 10 1", 12, "ReferenceWrong"),
    ("X 10 2", "X 10 0", 12, "ReferenceWrong"),
    ("M 14\nB", "X 14 0\nB", 17, "ReferenceWrong"),
    ("X 10 2", "X 9 2", 12, "BoundWrong"),
    ("X 10 2", "X 11 2", 12, "BoundWrong"),
    ("X 10 2", f"X {2**128 - 1} 2", 12, "BoundWrong"),
    # The other finds as much, and is the greater; or it finds less, with more left. (c b b finds 8, and c c b 12.)
    ("X 10 2\nE 14", "X 10 2\nX 12 2", 13, "NotCut"),
    ("M 14\nB", "X 12 1\nB", 17, "NotCut"),
    # A wrong position goes before a wrong bound, and a wrong bound before one that cuts nothing.
    ("X 10 2", "X 9 1", 12, "ReferenceWrong"),
    ("X 10 2\nE 14", "X 10 2\nX 13 2", 13, "BoundWrong"),
]
REST = TWO_LOOKED[TWO_LOOKED.index("nodes") :]
TWO_LOOK_REASONS = [
    # A whole path has none; all shorter prefixes do.
    ("W 14", "D 14", 13, "WholeWrong"),
    ("D 14", "D 13", 7, "BoundWrong"),
    ("D 14", "D 15", 7, "BoundWrong"),
    ("D 14", "D 16", 7, "BoundWrong"),
    ("D 14", f"D {2**128 - 1}", 7, "BoundWrong"),
    ("D 14", "E 14", 7, "BoundWrong"),
    # Behind c and c c c a path finds as much as the plan's, which begins so itself, as it does with no looks.
    (REST, "nodes 4\nB\nE 12\nD 14\nD 15\nend\n", 8, "NotCut"),
    (REST, "nodes 4\nB\nE 12\nD 14\nD 16\nend\n", 8, "BoundWrong"),
    (REST, "nodes 8\nB\nE 12\nD 14\nB\nE 14\nB\nM 14\nD 15\nend\n", 12, "NotCut"),
    (REST, "nodes 1\nD 16\nend\n", 5, "NotCut"),
    (REST, "nodes 1\nD 15\nend\n", 5, "BoundWrong"),
]
FAULTS = [
    ("X 10 2", "X", 12, "BadLine"),
    ("X 10 2", "X 10", 12, "BadLine"),
    ("X 10 2", "X 10 2 2", 12, "BadLine"),
    ("X 10 2", "X 10 1 1 2 2", 12, "BadLine"),
    ("X 10 2", "X 10  2", 12, "BadLine"),
    ("X 10 2", "x 10 2", 12, "BadLine"),
    ("X 10 2", "X 10 3", 12, "BadNumber"),
    ("X 10 2", "X 10 02", 12, "BadNumber"),
    ("X 10 2", "X 10 c", 12, "BadNumber"),
    ("X 10 2", "X 010 2", 12, "BadNumber"),
    ("X 10 2", f"X {2**128} 2", 12, "BadNumber"),
    ("plan 3", "plan 1", 6, "BadLine"),
    ("plan 3", "plan 2", 12, "BadLine"),
    ("plan 3", "plan 4", 1, "BadLine"),
    ("plan 3", "gap 2", 1, "BadLine"),
    ("X 10 2", "O 12", 12, "BadLine"),
    ("end", "X 10 2\nend", 21, "WrongCount"),
    ("nodes 16", "nodes 17", 21, "WrongCount"),
]
TWO_LOOK_FAULTS = [
    ("D 14", "D", 7, "BadLine"),
    ("D 14", "D 14 1", 7, "BadLine"),
    ("D 14", "D  14", 7, "BadLine"),
    ("D 14", "d 14", 7, "BadLine"),
    ("D 14", "D 014", 7, "BadNumber"),
    ("D 14", "D b", 7, "BadNumber"),
    ("D 14", f"D {2**128}", 7, "BadNumber"),
    ("plan 3", "plan 1", 6, "BadLine"),
    ("plan 3", "plan 2", 7, "BadLine"),
    ("end", "D 14\nend", 15, "WrongCount"),
    ("nodes 10", "nodes 11", 15, "WrongCount"),
    ("nodes 10", "nodes 11\nD 16", 6, "NoPlace"),
]


def of_definition(sc, prefix, memory):
    """The bound that remembers so many looks, by its definition: sums over all tracks."""
    g, here = sc.parts[2], len(prefix)
    factor = lambda t, position, track: sc.look(t, position).get(track[t - 1], g)
    weighed = []
    for track in itertools.product(range(len(sc.names)), repeat=sc.horizon):
        weight = sc.first[track[0]] * math.prod(sc.row(t, at).get(to, 0) for t, (at, to) in enumerate(zip(track, track[1:]), 1))
        weighed += [(weight * math.prod(factor(t, it, track) for t, it in enumerate(prefix, 1)), track)] if weight else []

    @functools.cache
    def reward(t, before, position):
        """What a look finds in period t behind the prefix and these looks just before."""
        missed = lambda track: math.prod(factor(period, it, track) for period, it in enumerate(before, t - len(before)))
        found = sum(weight * missed(track) * (g - factor(t, position, track)) for weight, track in weighed)
        return found * g ** (sc.horizon - here - len(before) - 1)

    ways = [it for it in paths.prefixes(sc, sc.horizon) if it[:here] == prefix]
    sums = (sum(reward(t, tuple(it[max(here, t - 1 - memory) : t - 1]), it[t - 1]) for t in range(here + 1, sc.horizon + 1)) for it in ways)
    return paths.weight(sc) - sum(weight for weight, _ in weighed) * g ** (sc.horizon - here) + max(sums)


def read(text):
    """The scenario of a text."""
    return forms.read_scenario(text, True)[0]


class Exchanges(unittest.TestCase):
    def reason(self, text, given, family=forms.PLANS):
        """The line and the first reason against a text, if any."""
        return verdict.first_reason(read(text), forms.read_plan(given.encode(), read(text), family))

    def test_worked_bounds(self):
        sc = read(FOUR)
        for prefix, other, bound in (([1, 1, 2], [1, 2, 2], 10), ([1, 2], [2, 2], 12), ([2, 2], [1, 2], 12), ([2, 2, 1], [2, 1, 1], 12)):
            self.assertEqual(verdict.exchange(sc, prefix, other), bound)
        self.assertEqual(verdict.exchange(read(GOES), [3, 2], [2, 2]), 81)

    def test_bounds_that_remember_looks(self):
        """By hand, and as sums over tracks where looks cover more than a cell and all changes: who remembers no look, one, two, and all."""
        sc = read(FOUR)
        for prefix, *bounds in (([], 32, 20, 16, 15, 15), ([1], 24, 16, 14, 14), ([2], 20, 16, 15, 15), ([2, 2, 2, 2], 15, 15, 15)):
            self.assertEqual([verdict.remembering(sc, prefix, it) for it in range(len(bounds))], bounds)
        for name in ("night", "swath"):
            sc = read(example(name)[0])
            for prefix in ([], *paths.prefixes(sc, 2)[:3]):
                for memory in (0, 1, 2, 3):
                    self.assertEqual(verdict.remembering(sc, prefix, memory), of_definition(sc, prefix, memory))

    def test_the_documents_have_these_plans(self):
        for given in (PLAN, TWO_LOOKED):
            self.assertIn(f"```\n{given}```", contents(f"{TOP}/docs/FORMATS.md").decode())

    def test_where_an_exchange_is_accepted(self):
        for text, given, family in ((FOUR, PLAN, forms.PLANS), (FOUR, GAP, forms.GAPS), (FOUR, UNDER_NOTHING, forms.GAPS)):
            self.assertIsNone(self.reason(text, given, family))

    def test_where_a_two_look_bound_is_accepted(self):
        """Also where it is no less than another bound; unlike an exchange it asks the plan's path."""
        gap = TWO_LOOKED.replace("plan 3", "gap 2").replace("15 16", "15 16\nceiling 15")
        for text, given, family in (
            (FOUR, TWO_LOOKED, forms.PLANS),
            (FOUR, gap, forms.GAPS),
            (FOUR, PLAN.replace("E", "D").replace("\nM 14", "\nD 14"), forms.PLANS),
        ):
            self.assertIsNone(self.reason(text, given, family))
        self.assertEqual(self.reason(FOUR, UNDER_NOTHING.replace("X 10 2", "D 12"), forms.GAPS), (13, "NotCut"))

    def test_each_reason(self):
        for text, old, new, line, why in [(PLAN, *it) for it in REASONS] + [(TWO_LOOKED, *it) for it in TWO_LOOK_REASONS]:
            with self.subTest(new=new):
                self.assertEqual(text.count(old), 1, old)
                self.assertEqual(self.reason(FOUR, text.replace(old, new)), (line, why))

    def test_none_below_four_periods(self):
        """The path is the best, and by its exchange bound b c would be ruled out, or b by its two-look bound."""
        given = "plan 3\npath c c c\nchance 7 8\nnodes 7\nB\nM 4\nB\nM 0\nM 4\nX 5 2\nT 14 2 2 2\nend\n"
        self.assertEqual(verdict.exchange(read(LONGER), [1, 2], [2, 2]), 5)
        self.assertEqual(self.reason(LONGER, given), (10, "WholeWrong"))
        three = example("waiting-longer")[1].decode()
        given = three.replace("plan 2", "plan 3").replace("T 12 1 2 2", "D 6")
        self.assertEqual(verdict.remembering(read(LONGER), [1], 2), 6)
        self.assertEqual(self.reason(LONGER, given), (7, "WholeWrong"))

    def test_each_fault(self):
        for text, old, new, line, kind in [(PLAN, *it) for it in FAULTS] + [(TWO_LOOKED, *it) for it in TWO_LOOK_FAULTS]:
            with self.subTest(new=new), self.assertRaises(forms.Fault) as found:
                self.assertEqual(text.count(old), 1, old)
                forms.read_plan(text.replace(old, new).encode(), read(FOUR))
            self.assertEqual((found.exception.line, found.exception.kind), (line, kind))
        for given in (GAP, GAP.replace("X 10 2", "D 12")):
            with self.assertRaises(forms.Fault) as found:
                forms.read_plan(given.replace("gap 2", "gap 1").encode(), read(FOUR), forms.GAPS)
            self.assertEqual((found.exception.line, found.exception.kind), (13, "BadLine"))

    def test_each_front_ends_early(self):
        for end in range(len(PLAN)):
            with self.assertRaises(forms.Fault) as found:
                forms.read_plan(PLAN[:end].encode(), read(FOUR))
            self.assertEqual((found.exception.line, found.exception.kind), (PLAN[:end].count("\n") + 1, "EarlyEnd"))

    def test_versions_without_exchanges_are_read_at_every_horizon(self):
        given = PLAN.replace("X 10 2", "E 10")
        self.assertEqual(self.reason(FOUR, given), (12, "BoundWrong"))
        right = given.replace("E 10", "M 12")
        for first in ("plan 3", "plan 2"):
            self.assertIsNone(self.reason(FOUR, right.replace("plan 3", first)))
        self.assertIsNone(self.reason(LONGER, example("waiting-longer")[1].decode().replace("plan 2", "plan 3")))

    def test_in_another_version(self):
        sc, edges = read(FOUR), PLAN.replace("X 10 2", "M 12")
        for given, first, wanted in (
            (PLAN, b"plan 3", PLAN),
            (PLAN, b"plan 2", PLAN),
            (edges, b"plan 2", edges.replace("plan 3", "plan 2")),
            (TWO_LOOKED, b"plan 2", TWO_LOOKED),
            (edges, b"plan 1", edges),
        ):
            self.assertEqual(forms.in_version(given.encode(), sc, first), wanted.encode())

    def test_one_worker(self):
        """Where as much is found and left, the smaller stands in; the bound of two looks comes last, and from four periods on; the version
        goes by the horizon."""
        sc = read(GOES)
        self.assertEqual((stand_in(sc, [3, 2]), stand_in(sc, [2, 2]), stand_in(read(FOUR), [1, 2])), (2, None, None))
        worker = Worker(sc).go()
        self.assertEqual((worker.records[3, 2], worker.standing), (("X", [81, 2]), paths.best(sc)))
        for text, wanted in ((FOUR, {(1,): ("D", [14])}), (LONGER, {})):
            # (Two rates, so that no tangent closes b.)
            records = Worker(read(text.replace(b"overlook b 1", b"overlook b 0"))).go().records
            self.assertEqual({prefix: it for prefix, it in records.items() if it[0] == "D"}, wanted)
        for text, first in ((GOES, b"plan 3"), (FOUR, b"plan 3"), (LONGER, b"plan 2")):
            given = as_bytes(text_of(read(text), Worker(read(text)).go()))
            self.assertEqual(given.split(b"\n")[0], first)
            self.assertIsNone(self.reason(text, given.decode()))


if __name__ == "__main__":
    unittest.main()
