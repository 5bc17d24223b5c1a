"""Tests of `desk.derived`: worked scenarios, and on small scenarios every path against the scenario that it is made of.
`python3 -m unittest tests.desk_derived`, or tests/desk."""
import itertools
import random
import unittest
from fractions import Fraction

from bench.one_worker import made_text
from desk import derived, forms, paths, writing
from tests.answers import MADE
from tests.house import EXAMPLES, read as bytes_of
from tests.made import ROW, read
from tests.pages import example, walks

# What is made of the four cells in a row, worked by hand.
FORCED = b"""scenario 2
horizon 2
parts 9 1 1
cell a
cell b
cell c
cell d
position a
position b
position c
position d
position flown-0
position flown-1
start flown-0
first a 3 c 2 d 4
moves a a b
moves b a c
moves c c d
moves d c d
moves flown-0 flown-1
moves flown-1 a b
drift a a 1
drift b b 1
drift c c 1
drift d d 1
look a a 0
look b b 0
look c c 0
look d d 0
look flown-0 b 0
look flown-1 a 0
end
"""
MAP = b"map 1\nperiod 1 a\nleft a 0 0.000\nleft b 0 0.000\nleft c 2 22.222\nleft d 4 44.444\nend\n"
ONE = b"""scenario 1
horizon 1
parts 1 1 2
cell a
start a
first a 1
moves a a
drift a a 1
overlook a 1
end
"""
PAIR = b"""scenario 2
horizon 1
parts 1 1 4
cell a
position p0-0
start p0-0
first a 1
moves p0-0 p0-0
drift a a 1
look p0-0 a 1
end
"""


def small(seed):
    """A scenario of three cells, four positions and three periods, whose rows differ from period to period."""
    chance = random.Random(seed)
    sc = forms.Scenario()
    sc.names, sc.positions = [b"a", b"b", b"c"], [b"w", b"x", b"y", b"z"]
    sc.horizon, sc.parts, sc.start = 3, (6, 4, 4), chance.randrange(4)

    def shares(total):
        drawn = [chance.randrange(3) for _ in range(total)]
        return {it: drawn.count(it) for it in set(drawn)}

    def look():
        return {it: chance.randrange(5) for it in range(3) if chance.randrange(2)}

    first = shares(6)
    sc.first = [first.get(it, 0) for it in range(3)]
    sc.drift, sc.drift_in = {it: shares(4) for it in range(3)}, {(2, 1): shares(4)}
    sc.looks, sc.looks_in = {it: look() for it in range(4)}, {(t, chance.randrange(4)): look() for t in (2, 3)}
    sc.moves = {it: sorted({(it + 1) % 4, *(to for to in range(4) if chance.randrange(2))}) for it in range(4)}
    return sc


def all_paths(sc, start, length):
    """The lists of positions that follow the moves."""
    found = [[]]
    for _ in range(length):
        found = [[*it, to] for it in found for to in sc.moves[it[-1] if it else start]]
    return found


def missed(sc, walk, path):
    """The chance that the looks of a path miss a target that goes along a walk."""
    left = Fraction(1)
    for t, (cell, position) in enumerate(zip(walk, path), 1):
        left *= Fraction(sc.look(t, position).get(cell, sc.parts[2]), sc.parts[2])
    return left


def chance_of(sc, path):
    return Fraction(paths.value(sc, path), paths.weight(sc))


class Worked(unittest.TestCase):
    def test_texts(self):
        row, one = read(ROW), read(ONE)
        self.assertEqual(writing.scenario_text(derived.forced(row, [0])), FORCED)
        self.assertEqual(derived.map_text(row, [0]), MAP)
        self.assertEqual(writing.scenario_text(derived.product(one, 0)), PAIR)

    def test_refusals(self):
        row, one = read(ROW), read(ONE)
        taken = read(ROW.replace(b"cell d", b"cell flown-1").replace(b" d", b" flown-1").replace(b"moves d", b"moves flown-1").replace(b"drift d", b"drift flown-1"))
        fine = read(ONE.replace(b"parts 1 1 2", b"parts 1 1 1001"))
        wide = read(ONE.replace(b"horizon 1", b"horizon 8").replace(b"parts 1 1 2", b"parts 1 1 1000"))
        lake, _ = example("drifting-grid")
        nine = b"".join(b"moves %s a b c d e f g h i\n" % it for it in (b"a", b"b", b"c", b"d", b"e", b"f", b"g", b"h", b"i"))
        cells = b"".join(b"cell %c\n" % it for it in b"abcdefghi")
        still = b"".join(b"drift %c %c 1\n" % (it, it) for it in b"abcdefghi")
        many = read(b"scenario 1\nhorizon 1\nparts 1 1 1\n" + cells + b"start a\nfirst a 1\n" + nine + still + b"rate 0\nend\n")
        for ask, why in (
            (lambda: derived.numbers_of(row, [b"x"]), "UnknownName"),
            (lambda: derived.forced(row, [3]), "NotLegal"),
            (lambda: derived.forced(row, [0, 0, 0]), "NotLegal"),
            (lambda: derived.forced(taken, [0]), "NameTaken"),
            (lambda: derived.product(read(lake), 0), "TooManyPositions"),
            (lambda: derived.product(many, 0), "TooManyMoves"),
            (lambda: derived.product(fine, 0), "TooFine"),
            (lambda: derived.product(wide, 0), "TooWide"),
        ):
            with self.assertRaises(derived.Refused) as refused:
                ask()
            self.assertEqual(str(refused.exception), why)
        self.assertEqual(len(derived.product(one, 0).positions), 1)


class Examples(unittest.TestCase):
    def test_what_is_made_of_the_scenarios_of_examples(self):
        for name, (command, of, names) in MADE.items():
            sc = read(bytes_of(f"{EXAMPLES}/{of}.scenario"))
            (command, *_), names = command.split(), [it.encode() for it in names.split()[1:]]
            wanted = derived.map_text(sc, derived.numbers_of(sc, names)) if command == "map" else b"".join(made_text(sc, command, names))
            self.assertEqual(bytes_of(f"{EXAMPLES}/{name}"), wanted, name)


class EveryPath(unittest.TestCase):
    def test_the_best_of_a_forced_scenario_is_the_best_that_begins_with_the_prefix(self):
        for seed in range(10):
            sc = read(writing.scenario_text(small(seed)))
            for flown in (it for length in (1, 2, 3) for it in all_paths(sc, sc.start, length)):
                made = read(writing.scenario_text(derived.forced(sc, flown)))
                top, path = paths.best(made)
                begin = [it for it in all_paths(sc, sc.start, sc.horizon) if it[: len(flown)] == flown]
                wanted = min(begin, key=lambda it: (-paths.value(sc, it), it))
                self.assertEqual((derived.unforced(sc, flown, path), top), (wanted, paths.value(sc, wanted)), (seed, flown))

    def test_a_path_of_a_product_finds_what_its_two_paths_find_together(self):
        for seed in range(10):
            sc = read(writing.scenario_text(small(seed)))
            second = seed % 4
            made = read(writing.scenario_text(derived.product(sc, second)))
            pairs = itertools.product(all_paths(sc, sc.start, sc.horizon), all_paths(sc, second, sc.horizon))
            found = {tuple(4 * a + b for a, b in zip(*pair)): 1 - sum(chance * missed(sc, walk, pair[0]) * missed(sc, walk, pair[1]) for walk, chance in walks(sc)) for pair in pairs}
            self.assertEqual({tuple(it): chance_of(made, it) for it in all_paths(made, made.start, made.horizon)}, found, seed)


if __name__ == "__main__":
    unittest.main()
