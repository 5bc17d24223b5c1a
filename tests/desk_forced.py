"""Tests of the scenario that the script of a page makes where looks are flown: it is the one that `replan` makes, byte for byte.
`python3 -m unittest tests.desk_forced`, or tests/desk."""
import base64
import json
import random
import subprocess
import unittest

from desk import carried, derived, forms, page, writing
from tests import made, pages, web
from tests.desk_derived import FORCED, small
from tests.made import read
from tests.web import Case

EXAMPLES = ["drifting-grid", "kayaker", "lake-with-island", "night", "one-cell", "swath", "tide", "two-cells", "waiting-longer"]
SITUATIONS = ["aircraft", "coast-by-night", "harbour-and-dinghy", "tide-and-night"]
# What stands in a text in other words: blanks, comments, lines in another order, entries in another order, and zeros.
LOOSE = b"""# a text
\tscenario  2\r
horizon 4

parts 2 3 5
cell b
cell a
position one
position two
start one
first a 1  b 1
look two a 5 b 2
# moves in the order of their numbers are one, two
moves one two one
moves two one
lookin 3 two b 2
lookin 4 two
driftin 2 b b 2 a 1
drift b a 1 b 2
drift a a 3
driftin 1 a b 3
look one a 1 b 0
lookin 1 one b 4 a 5
end
"""
# What is made of it where the searcher went to two. (A look misses all of a in 5 of 5, and what changes is told by the periods behind the
# first.)
TIGHT = b"""scenario 2
horizon 4
parts 2 3 5
cell b
cell a
position one
position two
position flown-0
position flown-1
start flown-0
first b 1 a 1
moves one one two
moves two one
moves flown-0 flown-1
moves flown-1 one
drift b b 2 a 1
drift a b 3
driftin 2 a a 3
driftin 3 a a 3
look one b 4
look two b 2
look flown-0 b 4
look flown-1 b 2
lookin 2 one b 0 a 1
lookin 2 flown-0 b 0 a 1
lookin 3 one b 0 a 1
lookin 3 flown-0 b 0 a 1
lookin 4 one b 0 a 1
lookin 4 two
lookin 4 flown-0 b 0 a 1
lookin 4 flown-1
end
"""


def walk(sc, rng, count):
    """So many positions that moves lead through, from the start on."""
    here, found = sc.start, []
    for _ in range(count):
        here = rng.choice(sorted(sc.moves[here]))
        found.append(here)
    return found


@unittest.skipUnless(web.NODE, "node isn't installed (Debian's package nodejs)")
class Forced(pages.Room):
    def made(self, cases):
        """What the script makes of scenarios (bytes) with flown positions."""
        script = self.write("script.js", f"{page.rules()}{''.join(map(carried.asset, ('markup.js', 'reading.js', 'forced.js')))}".encode())
        rows = [json.dumps([base64.b64encode(text).decode("ascii"), flown]) for text, flown in cases]
        words = [web.NODE, f"{pages.TOP}/tests/forced_in_node.mjs", script]
        done = subprocess.run(words, input="\n".join(rows), stdout=subprocess.PIPE, text=True, check=True)
        return [json.loads(it).encode("ascii") for it in done.stdout.splitlines()]

    def test_by_hand(self):
        self.assertEqual(self.made([(made.ROW, [0]), (LOOSE, [1])]), [FORCED, TIGHT])

    def test_small(self):
        """What the desk makes, of rows that differ from period to period, and of a grid."""
        rng, cases = random.Random(5), []
        for seed in range(60):
            sc = read(writing.scenario_text(small(seed)))
            cases.append((writing.scenario_text(sc), walk(sc, rng, rng.randrange(1, 4))))
        for part in (0, 1, 2, 3, 4, 5):
            text = made.GRID.replace(b"spread 2", b"spread %d" % part).replace(b"parts 1 10 10", b"parts 1 20 10")
            cases.append((text, walk(read(text), rng, 3)))
        wanted = [writing.scenario_text(derived.forced(read(text), flown)) for text, flown in cases]
        self.assertEqual(self.made(cases), wanted)

    @unittest.skipIf(web.lacking(), web.lacking())
    def test_as_the_program_does(self):
        """What `replan` writes before its plan: of the examples, and of two searchers with as many positions as there may be."""
        rng = random.Random(6)
        files = [*(f"{pages.EXAMPLES}/{it}.scenario" for it in EXAMPLES), *(f"{pages.EXAMPLES}/situations/{it}.scenario" for it in SITUATIONS)]
        texts = [*map(pages.read, files), self.pairs()]
        cases = [(text, walk(sc, rng, count)) for text, sc in ((it, read(it)) for it in texts) for count in (1, min(3, sc.horizon))]
        names = [[read(text).positions[it].decode() for it in flown] for text, flown in cases]
        told = web.native([Case(["replan", "--workers", "1", "flown", *its], text) for its, (text, _) in zip(names, cases, strict=True)])
        self.assertEqual([it.status for it in told], [0] * len(cases))
        self.assertEqual(len(forms.read_scenario(told[-1].out, alone=False)[0].positions), 200)
        self.assertEqual(self.made(cases), [it.out[: it.out.index(b"\nend\n") + 5] for it in told])

    def pairs(self):
        """The scenario of two searchers in a grid of 14 squares: 196 positions."""
        alone = made.GRID.replace(b"grid 3 4", b"grid 2 7").replace(b"horizon 3", b"horizon 4")
        return writing.scenario_text(derived.product(read(alone), 13))


if __name__ == "__main__":
    unittest.main()
