"""Tests of what `osp explain` says of names for `replan`, `map` and `duo`: each cause, several at once, and that the first kind that it
tells is always the program's. `python3 -m unittest tests.desk_unmade`, or tests/desk."""
import os
import random
import re
import stat
import unittest
from unittest import mock

from desk import derived, explain, forms, program, unmade, writing
from tests import finer
from tests.asking import Asked
from tests.made import ROW
from tests.pages import EXAMPLES, TOP, example, read

NAMES = sorted(it[:-7] for it in os.listdir(EXAMPLES) if it.endswith(".report"))
TAKEN = ROW.replace(b" d", b" flown-1")
FINE = ROW.replace(b"parts 9 1 1", b"parts 9 1 1001")
# One position, and 15 whose moves are all of nine.
WIDE = b"scenario 1\nhorizon 8\nparts 1 1 1000\ncell a\nstart a\nfirst a 1\nmoves a a\ndrift a a 1\noverlook a 1\nend\n"


def many(count, moves, more=b"parts 1 1 1"):
    """A scenario of so many cells, each with its first so many as moves."""
    cells = [b"c%d" % it for it in range(count)]
    lines = [b"scenario 1", b"horizon 1", more, *(b"cell " + it for it in cells), b"start c0", b"first c0 1"]
    lines += [b" ".join([b"moves", it, *cells[:moves]]) for it in cells] + [b"drift %s %s 1" % (it, it) for it in cells]
    return b"\n".join([*lines, b"rate 0", b"end", b""])


# Texts, words, the first kind, and what is said, kind by kind.
FLOWN = [
    (ROW, "flown x", "UnknownName", ["`x` isn't a position"]),
    (example("swath")[0], "flown north", "UnknownName", ["`north` isn't a position: it is a cell"]),
    (example("tide")[0], "flown bouy", "UnknownName", ["`bouy` isn't a position: is buoy meant?"]),
    (finer.TEXT, "flown r0c0-02", "UnknownName", ["`r0c0-02` isn't a position: is r0c0 meant?"]),
    (ROW, "flown b a", "NotLegal", ["period 1 goes from b to b, and the moves from b are a, c (the searcher starts at b; the first name is where it looks from in period 1)"]),
    (ROW, "flown a d", "NotLegal", ["period 2 goes from a to d, and the moves from a are a, b"]),
    (ROW, "flown a a a", "NotLegal", ["3 names stand here, and the horizon is 2 periods: leave out the last name"]),
    (ROW, "flown d y a x", "UnknownName", ["`y` isn't a position", "`x` isn't a position", "period 1 goes from b to d", "4 names stand here, and the horizon is 2 periods: leave out the last 2 names"]),
    (TAKEN, "flown a", "NameTaken", ["flown-1 is named as flown positions would be: give it another name"]),
    (TAKEN, "flown flown-1", "NotLegal", ["period 1 goes from b to flown-1", "flown-1 is named"]),
    (many(199, 2), "flown c1", "TooManyPositions", ["199 positions and 2 flown ones are 201, and 200 are the most: none would fit"]),
    (many(198, 2).replace(b"c5 ", b"flown-0 ").replace(b"c5\n", b"flown-0\n").replace(b"horizon 1", b"horizon 2"), "flown c1 c1", "TooManyPositions",
     ["198 positions and 3 flown ones are 201, and 200 are the most: 1 flown period would fit", "flown-0 is named"]),
]  # fmt: skip
START = [
    (ROW, "start x", "UnknownName", ["`x` isn't a position"]),
    (many(15, 1), "start c1", "TooManyPositions", ["there are 15 positions, and two searchers can have 14 at most"]),
    (many(10, 9), "start c1", "TooManyMoves", [f"c{it} has 9 moves, two searchers there 81 together, and 64 are the most: at most 8 each" for it in range(10)]),
    (FINE, "start b", "TooFine", ["G is 1,001, and with two searchers at most 1,000"]),
    (WIDE, "start a", "TooWide", ["8 periods with parts 1 1 1000*1000 don't fit into 128 bits: 5 periods would fit"]),
    (many(15, 9, b"parts 1 1 1001"), "start x", "UnknownName",
     ["`x` isn't a position", "there are 15 positions", *(f"c{it} has 9 moves" for it in range(15)), "G is 1,001"]),
]  # fmt: skip


class Told(Asked):
    def said(self, text, words):
        """The status of `explain`, and the lines that it writes."""
        name = self.write("s", text)
        status, out, err = self.called(explain.main, name, *words.split())
        self.assertEqual(err, "")
        return status, out.decode().splitlines()

    def test_every_cause_and_several_at_once(self):
        for rows, head, status in ((FLOWN, "bad flown", 10), (START, "bad duo", 11)):
            for text, words, kind, says in rows:
                with self.subTest(words=words, kind=kind):
                    ended, lines = self.said(text, words)
                    self.assertEqual((ended, lines[0], lines[-1]), (status, f"{head}: {kind}", f"{len(says)} fault{'s' if len(says) > 1 else ''}"))
                    for line, part in zip(lines[1:-1], says, strict=True):
                        self.assertIn(f": {part}", line)

    def test_the_first_kind_is_that_of_the_second_computation(self):
        """On drawn names for each example, and on names that are right."""
        chance, kinds = random.Random(1), set()
        for name in NAMES:
            sc, _ = forms.read_scenario(example(name)[0], True)
            for _ in range(40):
                names = [chance.choice([*sc.positions, *sc.positions, *sc.names, b"x"]) for _ in range(chance.randrange(1, 4))]
                at = sc.start
                for it in range(chance.randrange(3)):
                    at = chance.choice(sc.moves[at])
                    names[it : it + 1] = [sc.positions[at]]
                for word, of, make in (("flown", names, lambda at, sc=sc: derived.forced(sc, at)), ("start", names[:1], lambda at, sc=sc: derived.product(sc, *at))):
                    try:
                        make(derived.numbers_of(sc, of))
                        wanted = None
                    except derived.Refused as why:
                        wanted = str(why)
                    found = unmade.faults(sc, word, of)
                    self.assertEqual(found[0][0] if found else None, wanted, (name, word, of))
                    kinds.add(wanted)
        self.assertEqual(kinds, {None, "UnknownName", "NotLegal", "TooManyPositions"})

    def test_what_is_right(self):
        for words in ("flown a", "flown c d", "start d"):
            status, lines = self.said(ROW, words)
            self.assertEqual((status, lines[0]), (0, "the scenario is right, and so are the names"))

    def test_a_wrong_scenario_is_told_first(self):
        status, lines = self.said(ROW.replace(b"rate 0", b"rate 0.5"), "flown x")
        self.assertEqual((status, lines[0]), (3, "bad scenario: line 18 BadNumber"))
        self.assertIn("isn't a whole number", "".join(lines))

    def test_words_that_are_no_words_of_the_program(self):
        long = "x" * 25
        for words, parts in (
            (["flown", long], [f"`{long}` can't be a name: names have 1 to 24 letters"]),
            (["flown", "a", "", "é", "\x1b[2J"], ["`` can't", "`é` can't", r"`\x1b[2J` can't"]),
            (["flown", *["a"] * 33], ["at most 32 names stand behind `flown`, and here are 33"]),
            (["start", "a", "b"], ["one name stands behind `start`, and here are 2"]),
        ):
            status, out, err = self.called(explain.main, self.write("s", ROW), *words)
            lines = out.decode().splitlines()
            self.assertEqual((status, len(lines)), (2, 1 + len(parts)))
            # The script refuses such words in one line of its own, before the program is asked.
            self.assertRegex(err, r"\A(osp: [^\n]* behind [^\n]*\n)?\Z")
            for line, part in zip(lines[1:], parts):
                self.assertIn(part, line)

    def test_a_program_without_the_command(self):
        script = self.write("osp", b"#!/bin/sh\necho 'osp: replan is no command' >&2; exit 2\n")
        os.chmod(script, stat.S_IRWXU)
        with mock.patch.object(program, "OSP", script):
            status, out, err = self.called(explain.main, self.write("s", ROW), "flown", "a")
        self.assertEqual((status, err), (2, "osp: replan is no command\n"))
        self.assertIn(b"this program has no command replan", out)

    def test_the_program_has_the_last_word(self):
        script = self.write("osp", b"#!/bin/sh\ncat > /dev/null; echo 'bad flown: NameTaken' >&2; exit 10\n")
        os.chmod(script, stat.S_IRWXU)
        with mock.patch.object(program, "OSP", script):
            status, lines = self.said(ROW, "flown a")
        self.assertEqual((status, lines[0]), (10, "bad flown: NameTaken"))
        self.assertIn("this helper's own verdict is: right. The program's holds", lines[1])

    def test_usage(self):
        name = self.write("s", ROW)
        for words in ((name, "flown"), (name, "start"), (name, "plan", "flown", "a"), ("flown",) * 0, (name, "--flown", "a"), ("--",)):
            status, out, said = self.called(explain.main, *words)
            self.assertEqual((status, out), (2, b""), words)
            self.assertRegex(said, rf"\Aosp explain: .+\n{re.escape(explain.WORDS.usage)}\n\Z")
        self.assertEqual(self.called(explain.main, "--", name)[0], 0)
        self.assertEqual(self.called(explain.main, name, "flown", "--workers")[0], 10)

    def test_hostile_texts(self):
        for text in (b"\xff" * 1000, b"# " + b"x" * (3 << 20), b"scenario 1\n" * 1000, b"\x00", ROW.replace(b"cell d", b"cell <b>")):
            self.assertIn(self.said(text, "flown a")[0], (3, 9))

    def test_all_causes_have_words(self):
        """The causes that desk.derived knows are all told above."""
        known = set(re.findall(r'"([A-Z][A-Za-z]+)"\)', read(os.path.join(TOP, "desk", "derived.py")).decode()))
        self.assertEqual(known, {kind for _, _, kind, _ in (*FLOWN, *START)})


class Texts(unittest.TestCase):
    def test_names_that_would_be_taken_are_those_of_this_prefix(self):
        """flown-2 is free where one period is flown, and taken where two are."""
        sc, _ = forms.read_scenario(ROW.replace(b" d", b" flown-2"), True)
        self.assertEqual(unmade.faults(sc, "flown", [b"a"]), [])
        self.assertEqual([kind for kind, _ in unmade.faults(sc, "flown", [b"a", b"a"])], ["NameTaken"])
        self.assertTrue(writing.scenario_text(derived.forced(sc, [0])))


if __name__ == "__main__":
    unittest.main()
