"""Tests of `osp explain`: every kind of fault with its line and what is said, several at once, warnings, rejections, hostile files."""
import collections
import os
import random
import re
import stat
import subprocess
import sys
import unittest
from unittest import mock

from desk import advice, explain, faults, forms, program, quoting, rejection
from tests import finer
from tests.asking import Asked, module_of
from tests.desk_exchanges import FOUR, LONGER, PLAN as WITH_EXCHANGE, REST, TWO_LOOKED
from tests.pages import EXAMPLES, STAND_IN, TOP, example, read

BUILT = os.path.join(TOP, "crates", "osp", "out", "osp")

# Version 1, whose lines are counted below.
LAKE = b"""scenario 1
horizon 3
parts 2 10 10
cell a
cell b
cell c
start a
first a 1 b 1
moves a a b
moves b a b c
moves c b c
drift a a 8 b 2
drift b a 1 b 8 c 1
drift c b 2 c 8
overlook a 3
overlook b 3
overlook c 4
end
"""
GRID = b"""scenario 1
horizon 4
parts 1 20 10
grid 3 4
start r0c0
first r1c1 1
spread 4
rate 3
end
"""
# Version 2.
BAY = b"""scenario 2
horizon 3
parts 2 10 10
cell bay
cell reef
position cliff
position boat
start cliff
first bay 1 reef 1
moves cliff cliff boat
moves boat boat
drift bay bay 8 reef 2
drift reef bay 1 reef 9
driftin 2 bay bay 3 reef 7
look cliff bay 4 reef 6
look boat reef 1
lookin 3 cliff
end
"""


# States that are parts of squares, and positions that are squares.
FINER = finer.BODY.encode()


def first_fault(text):
    """The first fault of a text by desk.forms, or None."""
    try:
        forms.read_scenario(text, True)
    except forms.Fault as fault:
        return fault.line, fault.kind
    return None


def brief(found):
    """The lines and kinds of faults."""
    return [(it.line, it.kind) for it in found]


# One fault each: the text, the line to change (or None to change text), the new line, the line and the kind that are told, and words of
# what is said. `None` as a new line takes the line out.
ONE = [
    (LAKE, 1, b"\xef\xbb\xbfscenario 1", 1, "NotText", "without BOM"),
    (LAKE, 4, b"cell a\x07", 4, "NotText", "the byte 7"),
    (LAKE, 2, b"horizon 3 # three", 2, "BadLine", "a line of its own"),
    (LAKE, 1, b"scenario 3", 1, "BadLine", "the version is 1 or 2, and not `3`"),
    (LAKE, 1, None, 1, "BadLine", "`scenario 1` is missing"),
    (LAKE, 2, None, 2, "BadLine", "`horizon T` is missing"),
    (LAKE, 3, None, 3, "BadLine", "`parts A D G` is missing"),
    (LAKE, 7, None, 7, "BadLine", "`start NAME` is missing"),
    (LAKE, 8, None, 8, "BadLine", "`first NAME PART ..` is missing"),
    (LAKE, 2, b"horzon 3", 2, "BadLine", "write `horizon`"),
    (LAKE, 12, b"Drift a a 8 b 2", 12, "BadLine", "write `drift`"),
    (LAKE, 12, b"drfit a a 8 b 2", 12, "BadLine", "no line begins with `drfit`: write `drift`"),
    (LAKE, 9, b"moves a a b\n// a note", 10, "BadLine", "a comment begins with `#`"),
    (LAKE, 9, b"moves a a b\nhorizon 3", 10, "BadLine", "line 2 is one already"),
    (LAKE, 13, b"drift b a 1 b 8 c", 13, "BadLine", "behind `c` its part is missing"),
    (LAKE, 13, b"drift b a 1 b c 1", 13, "BadLine", "behind `b` its part is missing"),
    (LAKE, 15, b"overlook a 3 4", 15, "BadLine", "`overlook NAME PART`, and 3 fields stand"),
    (LAKE, 4, b"cell a\ncell my lake", 5, "BadLine", "a name has no blanks"),
    (LAKE, 4, b"cell a\ncell a.b", 5, "BadLine", "letters, digits, `_` and `-` alone"),
    (LAKE, 15, b"overlook a 3\nspread 2", 16, "BadLine", "behind a `grid` alone"),
    (BAY, 16, b"look boat reef 1\nrate 3", 17, "BadLine", "`rate` is a line of version 1 alone: write a `look` line"),
    (LAKE, 17, b"overlook c 4\ndriftin 2 a a 10", 18, "BadLine", "`scenario 2` has it"),
    (GRID, 8, b"rate 0.3", 8, "BadNumber", "`0.3` isn't a whole number: in parts of 10 it is 3"),
    (GRID, 8, b"rate 0.25", 8, "BadNumber", "with 4 as the third number of `parts` it is 1"),
    (GRID, 8, b"rate 30%", 8, "BadNumber", "in parts of 10 it is 3"),
    (GRID, 7, b"spread 1/5", 7, "BadNumber", "in parts of 20 it is 4"),
    (GRID, 8, b"rate 03", 8, "BadNumber", "without zeros in front: 3"),
    (GRID, 8, b"rate -3", 8, "BadNumber", "the least is 0"),
    (GRID, 8, b"rate three", 8, "BadNumber", "in digits alone"),
    (LAKE, 3, b"parts 2 1,000 10", 3, "BadNumber", "digits alone: 1000"),
    (LAKE, 2, b"horizon 0", 2, "BadNumber", "the least is 1"),
    (LAKE, 12, b"drift a a 10 b 0", 12, "BadNumber", "`0` is too little: the least is 1"),
    (BAY, 14, b"driftin 0 bay bay 3 reef 7", 14, "BadNumber", "the least is 1"),
    (LAKE, 2, b"horizon 33", 2, "OverLimit", "the number of periods is at most 32"),
    (LAKE, 3, b"parts 2 1000001 10", 3, "OverLimit", "the denominator D is at most 1,000,000"),
    (GRID, 4, b"grid 20 11", 4, "OverLimit", "220 cells, and 200 are the most"),
    (LAKE, 4, b"cell a\ncell " + b"x" * 25, 5, "OverLimit", "this one has 25"),
    (BAY, 14, b"driftin 3 bay bay 3 reef 7", 14, "OverLimit", "the step after the last period but one is 2"),
    (BAY, 17, b"lookin 4 cliff", 17, "OverLimit", "period 4 is too late: the last period is 3"),
    (LAKE, 7, b"start d", 7, "UnknownName", "`d` isn't a cell"),
    (GRID, 6, b"first r3c1 1", 6, "UnknownName", "the grid has r0c0 to r2c3"),
    (GRID, 6, b"first r1cl 1", 6, "UnknownName", "is r1c1 meant?"),
    (BAY, 16, b"look bota reef 1", 16, "UnknownName", "`bota` isn't a position: is boat meant?"),
    (BAY, 11, b"moves boat boat bay", 11, "UnknownName", "`bay` isn't a position: it is a cell"),
    (BAY, 16, b"look boat reef 1 ref 1", 16, "UnknownName", "is reef meant?"),
    (FINER, 18, b"moves r0c0 r0c0 r0c1-01", 18, "UnknownName", "`r0c1-01` isn't a position: it is a cell, a part of r0c1"),
    (FINER, 33, b"look r0c0 r0c0 1", 33, "UnknownName", "`r0c0` isn't a cell: it is a position, and its parts are the cells r0c0-01, r0c0-02, r0c0-04"),
    (LAKE, 5, b"cell b\ncell a", 6, "DoubleName", "the cell a is named already"),
    (LAKE, 8, b"first a 1 a 1", 8, "DoubleName", "as once it is a 2"),
    (LAKE, 10, b"moves b a b c b", 10, "DoubleName", "b stands twice: once is enough"),
    (BAY, 15, b"look cliff bay 4 bay 4", 15, "DoubleName", "bay stands twice"),
    (LAKE, 13, None, 17, "MissingRow", "b has no drift row: such as `drift b b 10`"),
    (LAKE, 15, None, 17, "MissingRow", "a has no overlook row"),
    (GRID, 7, None, 8, "MissingRow", "12 of 12 have no drift row: r0c0, r0c1"),
    (GRID, 8, None, 8, "MissingRow", "or `rate PART` for all of them"),
    (BAY, 16, None, 17, "MissingRow", "boat has no look row"),
    (LAKE, 12, b"drift a a 8 b 2\ndrift a a 10", 13, "DoubleRow", "a has its drift row by line 12 already"),
    (LAKE, 12, b"drift a a 8 b 2\ndrift a a 8 b 2", 13, "DoubleRow", "the same line stands further up"),
    (GRID, 8, b"overlook r1c1 2\nrate 3", 9, "DoubleRow", "a cell has it by line 8 already"),
    (GRID, 8, b"rate 3\nmoves r0c0 r0c0", 9, "DoubleRow", "r0c0 has its moves row by line 4 already"),
    (BAY, 17, b"lookin 3 cliff\nlookin 3 cliff bay 1", 18, "DoubleRow", "cliff has its look row for period 3 by line 17 already"),
    (LAKE, 8, b"first a 1 b 2", 8, "WrongSum", "the parts sum to 3, and A is 2: 1 too much"),
    (LAKE, 12, b"drift a a 6 b 2", 12, "WrongSum", "the parts sum to 8, and D is 10: 2 more have to go somewhere; where the rest stays, it is `a 8` in place of 6"),
    (LAKE, 12, b"drift a b 9", 12, "WrongSum", "1 more has to go somewhere; where the rest stays, it is `a 1`"),
    (BAY, 14, b"driftin 2 bay bay 3 reef 8", 14, "WrongSum", "the parts sum to 11, and D is 10: 1 too much"),
    (GRID, 7, b"spread 6", 7, "WrongSum", "at most `spread 5`"),
    (LAKE, 15, b"overlook a 11", 15, "PartOver", "a look misses at most 10 of 10, and 11 is more"),
    (BAY, 15, b"look cliff bay 4 reef 12", 15, "PartOver", "12 is more"),
    (GRID, 8, b"rate 11", 8, "PartOver", "11 is more"),
    (LAKE, 11, b"moves c", 11, "NoMove", "`moves c c` lets it stay"),
    (LAKE, 18, b"", 19, "EarlyEnd", "write it as the last line"),
    (LAKE, 18, b"end\n# over", 19, "Rest", "a comment stands behind `end`"),
    (LAKE, 18, b"end\nplan 2\npath a", 19, "Rest", "a plan begins behind the scenario"),
    (GRID, 3, b"parts 1 1000000 1000000", 9, "TooWide", "would fit"),
]


def with_line(text, line, new):
    """A text with another line in the place of one."""
    lines = text.split(b"\n")
    lines[line - 1 : line] = [] if new is None else [new]
    return b"\n".join(lines)


class OneFault(unittest.TestCase):
    """Each kind of fault of docs/FORMATS.md: its line, what is said, and nothing that follows from it."""

    def test_each_kind(self):
        for text, at, new, line, kind, says in ONE:
            changed = with_line(text, at, new)
            with self.subTest(kind=kind, new=new):
                self.assertEqual(first_fault(changed), (line, kind))
                found = faults.survey(changed)
                if kind == "TooWide":
                    # (the drift is told, too, since it fits to other denominators)
                    found = [it for it in found if it.kind == kind]
                self.assertEqual([(line, kind)], brief(found))
                self.assertIn(says, found[0].says)

    def test_all_kinds_are_there(self):
        kinds = re.findall(r"^\| `([A-Z][A-Za-z]+)` \|", read(os.path.join(TOP, "docs", "FORMATS.md")).decode().split("## Plan text")[0], re.MULTILINE)
        self.assertEqual(set(kinds) - {it[4] for it in ONE}, set())
        self.assertEqual(len(set(kinds)), 14)

    def test_right_texts_have_none(self):
        texts = [LAKE, GRID, BAY, *(read(f"{EXAMPLES}/{it}") for it in os.listdir(EXAMPLES) if it.endswith(".scenario"))]
        self.assertGreater(len(texts), 12)
        for text in texts:
            self.assertEqual(faults.survey(text), [])

    def test_what_would_fit(self):
        text = GRID.replace(b"parts 1 20 10", b"parts 100 100 100").replace(b"horizon 4", b"horizon 12").replace(b"spread 4", b"spread 20")
        (found,) = faults.survey(text.replace(b"first r1c1 1", b"first r1c1 100"))
        self.assertIn("12 periods with parts 100 100 100 don't fit into 128 bits: 8 periods would fit", found.says)
        for at in range(3):
            most = faults.finest_part(7, (100, 100, 100), at)
            parts = [100, 100, 100]
            self.assertTrue(forms.is_narrow(7, [*parts[:at], most, *parts[at + 1 :]]))
            self.assertFalse(most < 1_000_000 and forms.is_narrow(7, [*parts[:at], most + 1, *parts[at + 1 :]]))


class SeveralFaults(unittest.TestCase):
    def told(self, text, *wanted):
        """Wants these lines and kinds, and no others. Answers what is said of each."""
        found = faults.survey(text)
        self.assertEqual(brief(found), list(wanted))
        self.assertEqual(first_fault(text), wanted[0])
        return [it.says for it in found]

    def test_faults_of_several_lines(self):
        """Any faults that don't touch the same rows are told together, each as when it is alone."""
        chance, tried = random.Random(1), 0
        keep = ("drift", "overlook", "moves", "look", "lookin", "driftin", "spread", "rate")
        for base in (LAKE, BAY):
            rows = [it for it in ONE if it[0] is base and it[2] and b"\n" not in it[2] and it[2].decode("latin-1").split(" ")[0] in keep and it[3] == it[1]]
            for _ in range(40):
                chosen = sorted({it[1]: it for it in chance.sample(rows, 3)}.values(), key=lambda it: it[1])
                text = base
                for it in chosen:
                    text = with_line(text, it[1], it[2])
                with self.subTest(text=text):
                    found = faults.survey(text)
                    self.assertEqual(brief(found), [(it[3], it[4]) for it in chosen])
                    self.assertEqual([it for one, it in zip(found, chosen) if it[5] not in one.says], [])
                tried += len(chosen) > 1
        self.assertGreater(tried, 60)

    def test_several_in_one_line(self):
        text = with_line(LAKE, 13, b"drift b a 0.1 bb 8 c 1000001 a 2")
        says = self.told(text, *[(13, it) for it in ("BadNumber", "OverLimit", "UnknownName", "DoubleName")])
        self.assertIn("in parts of 10 it is 1", says[0])

    def test_a_wrong_cell_line_is_told_once(self):
        for new, kind in ((b"cell b!", "BadLine"), (b"cell b" + b"x" * 30, "OverLimit")):
            self.told(re.sub(rb"\bb\b", new.split()[1], LAKE), (5, kind))

    def test_foreign_letters(self):
        """A name with a foreign letter is told in each line, once, and is known."""
        text = re.sub(rb"\bb\b", "h\u00f6he".encode(), LAKE)
        found = faults.survey(text)
        self.assertEqual([(it.line, it.kind, it.more) for it in found], [(5, "NotText", [8, 9, 10, 11, 12, 13, 14, 16])])
        self.assertEqual(brief(faults.survey(with_line(LAKE, 2, b"horizon\xc2\xa03"))), [(2, "NotText")])
        (wide,) = faults.survey(LAKE.decode().encode("utf-16"))
        self.assertEqual((wide.line, wide.kind), first_fault(LAKE.decode().encode("utf-16")))
        self.assertIn("UTF-16", wide.says)

    def test_wrong_denominators_are_told_once(self):
        self.told(with_line(LAKE, 3, b"parts 2 ten 10"), (3, "BadNumber"))
        self.told(with_line(LAKE, 3, b"parts 2 10"), (3, "BadLine"))
        # G is known, though D isn't.
        self.told(with_line(with_line(LAKE, 3, b"parts 2 ten 10"), 15, b"overlook a 11"), (3, "BadNumber"), (15, "PartOver"))

    def test_a_wrong_grid_is_told_once(self):
        self.told(with_line(GRID, 4, b"grid 3"), (4, "BadLine"))
        self.told(with_line(GRID, 4, b"grid 3 x"), (4, "BadNumber"))

    def test_a_misspelled_row_is_not_missing(self):
        self.told(with_line(LAKE, 13, b"drift bb a 1 b 8 c 1"), (13, "UnknownName"))
        # and one that is missing besides, is
        says = self.told(with_line(with_line(LAKE, 13, b"drift bb a 1 b 8 c 1"), 12, None), (12, "UnknownName"), (17, "MissingRow"))
        self.assertIn("a has no drift row", says[1])

    def test_lines_in_another_order(self):
        swapped = with_line(with_line(LAKE, 2, b"parts 2 10 10"), 3, b"horizon 3")
        (says,) = self.told(swapped, (2, "BadLine"))
        self.assertIn("`horizon T` is missing (line 3 has to stand before it)", says)
        late = with_line(LAKE, 6, None).replace(b"start a\n", b"start a\ncell c\n")
        (says,) = self.told(late, (7, "BadLine"))
        self.assertIn("`cell` lines stand together", says)

    def test_rows_behind_end(self):
        text = with_line(with_line(LAKE, 13, None), 17, b"end\ndrift b a 1 b 8 c 1")
        (says,) = self.told(text, (17, "MissingRow"))
        self.assertIn("`end` stands before rows in line 18: it is the last line", says)

    def test_another_version(self):
        (says,) = self.told(with_line(BAY, 1, b"scenario 1"), (6, "BadLine"))
        self.assertIn("line 1 has to be `scenario 2`", says)
        (says,) = self.told(with_line(GRID, 1, b"scenario 2"), (4, "BadLine"))
        self.assertIn("line 1 has to be `scenario 1`", says)

    def test_no_scenario_at_all(self):
        for text, kind, part in (
            (b"", "EarlyEnd", "says nothing"),
            (b"# a note\n\n", "EarlyEnd", "says nothing"),
            (b"plan 2\npath a a\n", "BadLine", "this is a plan"),
            (b"[search]\nperiods = 8\n", "BadLine", "this isn't the text of a scenario"),
            (b"\x89PNG\r\n\x1a\n" + bytes(range(256)), "NotText", "this isn't the text of a scenario"),
        ):
            (found,) = faults.survey(text)
            self.assertEqual((found.line, found.kind), first_fault(text))
            self.assertEqual(found.kind, kind)
            self.assertIn(part, found.says)

    def test_the_same_in_many_lines(self):
        """One text for what is wrong in the same way, with all its lines."""
        found = faults.survey(re.sub(rb"\bc\b", b"sea", LAKE).replace(b"cell sea", b"cell c"))
        (one,) = [it for it in found if it.says.startswith("`sea` isn't a cell")]
        self.assertEqual((one.line, one.more), (10, [11, 13, 14, 17]))
        self.assertEqual({it.kind for it in found}, {"UnknownName"})

    def test_a_second_scenario(self):
        self.told(LAKE.removesuffix(b"end\n") + LAKE, (18, "BadLine"))


def hostile():
    """The module bench/hostile, which makes texts that are almost right."""
    return module_of("hostile", os.path.join(TOP, "bench", "hostile"))


def almost_right(count, seed):
    """So many texts of bench/hostile."""
    made, chance = hostile(), random.Random(seed)
    originals = [text for text, _ in made.examples()]
    for _ in range(count):
        yield made.changed(chance, chance.choice(originals), chance.randrange(1, 4))


class Hostile(Asked):
    """Texts that are almost right: the first fault is that of desk.forms, and the verdict that of the program."""

    def test_the_first_fault(self):
        met = collections.Counter()
        for text in almost_right(800, 1):
            wanted, found = first_fault(text), faults.survey(text)
            self.assertEqual((brief(found) or [None])[0], wanted, text)
            self.assertEqual([it.says for it in found if "the program says" in it.says], [], text)
            met[wanted and wanted[1]] += 1
        # All kinds but the rarest were among them, and right texts.
        self.assertGreaterEqual(len(met), 12)
        self.assertGreater(met[None], 100)

    def test_every_fault_is_in_its_line(self):
        """Mending the text by leaving out a line with a fault in a row leaves the faults of all other lines as they were."""
        for text in almost_right(100, 2):
            lines = text.split(b"\n")
            for it in faults.survey(text):
                self.assertTrue(1 <= it.line <= len(lines) + 1 and it.more == sorted(set(it.more)), it)

    def verdicts(self, texts):
        for text in texts:
            wanted = first_fault(text)
            status, out = self.ran(self.write("s", text))
            self.assertEqual(status, 3 if wanted else 0, text)
            self.assertEqual(out.split("\n")[0], f"bad scenario: line {wanted[0]} {wanted[1]}" if wanted else "the scenario is right")
            self.assertNotIn("tell the project", out)

    def test_the_verdict(self):
        with mock.patch.object(program, "OSP", STAND_IN):
            self.verdicts(almost_right(30, 3))

    @unittest.skipUnless(os.path.exists(BUILT), "the program isn't built")
    def test_the_verdict_of_the_program_itself(self):
        with mock.patch.object(program, "OSP", BUILT):
            self.verdicts(almost_right(500, 4))

    def ran(self, *words):
        status, out, _ = self.called(explain.main, *words)
        return status, out.decode()

    FILES = {
        "huge": (b"# " + b"x" * (3 << 20), 9, "input too long"),
        "not UTF-8": (LAKE.replace(b"cell b", b"cell \xff\xfe"), 3, "a letter that isn't ASCII"),
        "many fields": (LAKE.replace(b"drift b a 1 b 8 c 1", b"drift b" + b" x 1" * 50_000), 3, "`x` isn't a cell"),
        "many blanks": (LAKE.replace(b"horizon 3", b"horizon" + b"\t \r" * 200_000 + b"3"), 0, "the scenario is right"),
        "many lines": (b"scenario 1\n" + b"".join(b"w%d\n" % it for it in range(20_000)), 3, "and faults in"),
        "wrong types": (b'{"scenario": 1, "horizon": [2], "parts": null}\n', 3, "this isn't the text of a scenario"),
        "markup": (LAKE.replace(b"cell b", b"cell <script>alert(1)</script>").replace(b"start a", b"start \x1b[31m\x1b]0;x\x07"), 3, "\\x1b[31m"),
        "long digits": (LAKE.replace(b"horizon 3", b"horizon " + b"9" * 100_000), 3, "is too much"),
        "long fraction": (LAKE.replace(b"horizon 3", b"horizon 0." + b"9" * 100_000), 3, "isn't a whole number"),
    }

    def test_hostile_files(self):
        for name, (text, wanted, part) in self.FILES.items():
            with self.subTest(name), mock.patch.object(program, "OSP", STAND_IN):
                status, out = self.ran(self.write("s", text))
                self.assertEqual(status, wanted)
                self.assertIn(part, out)
                self.assertTrue(all(it.isprintable() for it in out.replace("\n", "")))
                self.assertLess(len(out), 100_000)
                self.assertLess(max(map(len, out.split("\n"))), 500)


class Verdicts(Asked):
    """`osp explain` as it is called: its first line and its status are the program's."""

    ran = Hostile.ran

    def stand_in(self, script):
        path = self.write("osp", b"#!/bin/sh\ncat > /dev/null\n" + script)
        os.chmod(path, stat.S_IRWXU)
        return mock.patch.object(program, "OSP", path)

    def test_a_scenario(self):
        status, out = self.ran(self.write("s", with_line(LAKE, 12, b"drift a a 6 b 2")))
        self.assertEqual(status, 3)
        self.assertEqual(
            out.split("\n"),
            [
                "bad scenario: line 12 WrongSum",
                "line 12: drift a a 6 b 2",
                "    WrongSum: the parts sum to 8, and D is 10: 2 more have to go somewhere; where the rest stays, it is `a 8` in place of 6",
                "1 fault",
                "",
            ],
        )

    def test_with_a_plan(self):
        text, plan = example("two-cells")
        names = self.write("s", text), self.write("p", plan)
        # (By hand, as docs/FORMATS.md goes through this plan.)
        size = "legal prefixes: 7, from the empty one to 4 whole paths of 2 periods\nrecords: 5, of them 2 branches, 2 whole paths, 1 mean bound\n"
        self.assertEqual(self.ran(*names), (0, f"accepted\n{size}"))
        status, out = self.ran(self.write("s", text.replace(b"drift a a 1 b 1", b"drift a a 1 b 2")), names[1])
        self.assertEqual((status, out.split("\n")[0]), (3, "bad scenario: line 12 WrongSum"))

    def test_a_scenario_without_end_before_a_plan(self):
        """`check` would read the plan as lines of the scenario; the line that is told is one of the scenario's file."""
        text, plan = example("two-cells")
        status, out = self.ran(self.write("s", text.removesuffix(b"end\n")), self.write("p", plan))
        self.assertEqual((status, out.split("\n")[0]), (3, "bad scenario: line 16 EarlyEnd"))

    def test_what_stands_behind_end_before_a_plan(self):
        text, plan = example("two-cells")
        status, out = self.ran(self.write("s", text + b"# over\n"), self.write("p", plan))
        self.assertEqual((status, out.split("\n")[:3]), (4, ["bad plan: line 1 BadLine", "of the scenario's file:", "line 17: # over"]))

    def test_the_program_has_the_last_word(self):
        wrong = self.write("s", with_line(LAKE, 12, b"drift a a 6 b 2"))
        with self.stand_in(b"echo 'bad scenario: line 2 BadNumber' >&2; exit 3\n"):
            status, out = self.ran(wrong)
        self.assertEqual((status, out.split("\n")[0]), (3, "bad scenario: line 2 BadNumber"))
        self.assertIn("this helper's own verdict is: bad scenario: line 12 WrongSum. The program's holds", out)
        with self.stand_in(b"echo 'too many nodes: 1' >&2; exit 8\n"):
            status, out = self.ran(wrong)
        self.assertEqual((status, out.split("\n")[0]), (0, "the scenario is right"))
        self.assertIn("The program's holds", out)
        with self.stand_in(b"echo 'bad scenario: line 2 BadNumber' >&2; exit 3\n"):
            status, out = self.ran(self.write("s", LAKE))
        self.assertEqual(status, 3)
        self.assertIn("this helper's own verdict is: right", out)

    def test_other_ends_of_the_program(self):
        name = self.write("s", LAKE)
        for script, status, first in ((b"echo 'no memory' >&2; exit 7", 7, "no memory"), (b"echo 'read fault' >&2; exit 5", 5, "read fault")):
            with self.stand_in(script):
                got, out = self.ran(name)
            self.assertEqual((got, out), (status, first + "\n"))
        for script in (b"kill -9 $$", b"echo 'osp: it broke off' >&2; exit 70"):
            with self.stand_in(script):
                self.assertEqual(self.ran(name), (70, ""))

    def test_an_unproved_run_is_told(self):
        with self.stand_in(b"echo 'osp: unproved run, since so' >&2; echo 'too many nodes: 1' >&2; exit 8\n"):
            status, _, err = self.called(explain.main, self.write("s", LAKE))
        self.assertEqual((status, err), (0, "osp: unproved run, since so\n"))

    def test_words_and_files(self):
        for words in ((), ("a", "b", "c"), ("--all", "a")):
            self.assertEqual(self.ran(*words), (2, ""))
        for name in (os.path.join(self.room, "none"), self.room, "a\0b"):
            self.assertEqual(self.ran(name), (5, ""))

    def test_as_it_is_called(self):
        """python3 -m desk explain .., with a full output."""
        name = self.write("s", LAKE)
        how = {"cwd": TOP, "env": {**os.environ, "OSP": STAND_IN, "PYTHONDONTWRITEBYTECODE": "1"}}
        done = subprocess.run([sys.executable, "-m", "desk", "explain", name], capture_output=True, check=False, **how)
        self.assertEqual((done.returncode, done.stdout[:22]), (0, b"the scenario is right\n"))
        with open("/dev/full", "wb") as full:
            done = subprocess.run([sys.executable, "-m", "desk", "explain", name], stdout=full, stderr=subprocess.PIPE, check=False, **how)
        self.assertEqual((done.returncode, done.stderr[:11]), (6, b"write fault"))


class Warnings(unittest.TestCase):
    """What may not be meant, each with a scenario that has it and one that has it no more."""

    def of(self, text):
        return advice.warnings(forms.read_scenario(text, True)[0])

    def has(self, text, part, mended):
        self.assertEqual(len([it for it in self.of(text) if part in it]), 1, self.of(text))
        self.assertEqual([it for it in self.of(mended) if part in it], [])

    def test_misses(self):
        self.has(GRID.replace(b"rate 3", b"rate 7"), "7 of 10. The part says how often a look misses: for a probability of detection of 7 of 10, write 3", GRID)
        # Half is no warning: neither a look that misses half, nor half of the looks.
        self.has(GRID.replace(b"rate 3", b"rate 6"), "most looks miss", GRID.replace(b"rate 3", b"rate 5"))
        half = read(f"{EXAMPLES}/uneven-overlook.scenario")
        self.has(half.replace(b"overlook r0c0 1", b"overlook r0c0 8"), "most looks miss", half)
        two = LAKE.replace(b"overlook a 3", b"overlook a 7").replace(b"overlook b 3", b"overlook b 8")
        self.has(two, "most looks miss", LAKE.replace(b"overlook a 3", b"overlook a 7"))
        # A look that sees one of its cells well isn't poor.
        self.assertEqual([it for it in self.of(read(f"{EXAMPLES}/swath.scenario")) if "miss" in it], [])

    def test_out_of_reach(self):
        text = read(f"{EXAMPLES}/out-of-reach.scenario")
        self.has(text, "no look can find the target: ", text.replace(b"moves basin quay basin", b"moves basin quay basin river"))
        self.has(LAKE.replace(b"overlook a 3", b"overlook a 10").replace(b"overlook b 3", b"overlook b 10").replace(b"overlook c 4", b"overlook c 10"), "no look can find the target: ", LAKE)

    def test_most_is_out_of_reach(self):
        text = b"scenario 1\nhorizon 1\nparts 10 1 2\ncell a\ncell b\nstart a\nfirst a 3 b 7\nmoves a a\nmoves b b\ndrift a a 1\ndrift b b 1\noverlook a 0\noverlook b 0\nend\n"
        self.has(text, "at most 30.000 percent can be found", text.replace(b"first a 3 b 7", b"first a 5 b 5"))
        self.has(text, "percent can be found", text.replace(b"first a 3 b 7", b"first a 5 b 5"))

    def test_what_no_look_covers(self):
        self.has(BAY.replace(b"look cliff bay 4 reef 6", b"look cliff reef 6"), "no look from any position covers bay,", BAY)

    def test_blind_periods(self):
        self.has(read(f"{EXAMPLES}/drifting-grid.scenario"), "in periods 1 to 3 no look can find anything", GRID.replace(b"start r0c0", b"start r1c1"))
        # At night nobody sees: the lookout alone, from period 3 on.
        night = BAY.replace(b"moves cliff cliff boat", b"moves cliff cliff")
        self.has(night, "in period 3 no look can find anything", night.replace(b"lookin 3 cliff", b"lookin 3 cliff bay 9"))

    def test_start(self):
        self.has(LAKE.replace(b"moves a a b", b"moves a a"), "the searcher can't leave a, where it starts", LAKE)

    def test_cells_without_target(self):
        text = LAKE.replace(b"drift b a 1 b 8 c 1", b"drift b a 2 b 8")
        self.has(text, "the target is never in c: no drift leads there in time", LAKE)

    def test_edge(self):
        wide = GRID.replace(b"grid 3 4", b"grid 9 9").replace(b"first r1c1 1", b"first r4c4 1")
        self.has(GRID, " percent of the target is at the edge of the grid", wide)
        # By hand: in period 2 of a grid of 3 by 3, 4 of 20 are in each of the 4 side neighbours of the middle.
        two = GRID.replace(b"horizon 4", b"horizon 2").replace(b"grid 3 4", b"grid 3 3")
        self.has(two, "80.000 percent of the target is at the edge", two.replace(b"horizon 2", b"horizon 1"))
        # A row of cells has two ends, and its sides are no edge.
        row = GRID.replace(b"grid 3 4", b"grid 1 9").replace(b"r1c1", b"r0c4")
        self.assertEqual(advice.edge(forms.read_scenario(row, True)[0]), {0, 8})

    def test_squares_are_told_where_states_are_parts_of_them(self):
        blind = FINER.replace(b"look r0c1 r0c1-01 1 r0c1-03 1", b"look r0c1")
        self.has(blind, "no look from any position covers r0c1, where the target may be", FINER)
        self.has(FINER.replace(b"look r0c1 r0c1-01 1 r0c1-03 1", b"look r0c1 r0c1-01 1"), "no look from any position covers part of r0c1, where", FINER)
        # A square is told that the target never comes to; one part alone isn't, nor is what nobody is lost to.
        part = FINER.replace(b"drift r0c0-04 r0c1-03 2", b"drift r0c0-04 r0c0-04 2").replace(b"driftin 2 r0c1-01 r0c1-03 2\n", b"")
        self.has(part.replace(b"drift r0c0-02 r0c1-01 2", b"drift r0c0-02 r0c0-02 2"), "the target is never in r0c1: no drift leads there in time, or what does was rounded away", part)

    def test_the_edge_of_squares_and_what_is_lost(self):
        """By hand: 4 of 8 are in r0c0 in period 3, which is at the west edge of three columns, and 2 are lost."""
        none_lost = FINER.replace(b"driftin 2 r0c1-03 lost 2\n", b"")
        self.has(FINER, "75.000 percent of the target is at the edge of the grid or lost in the last period", none_lost)
        self.has(none_lost, "50.000 percent of the target is at the edge", FINER)
        self.assertEqual(advice.edge(forms.read_scenario(FINER, True)[0]), {0, 1, 2, 5})
        self.assertEqual(advice.edge(forms.read_scenario(FINER.replace(b"lost", b"harbour"), True)[0]), set())

    def test_an_example_without_warnings(self):
        self.assertEqual(self.of(read(f"{EXAMPLES}/tide.scenario")), [])


class Rejections(Asked):
    """Why a plan isn't accepted, in words: each reason, and each kind of fault of a plan's text."""

    ran = Hostile.ran

    def said(self, text, plan, verdict, *parts):
        status, out = self.ran(self.write("s", text), self.write("p", plan))
        self.assertEqual(out.split("\n")[0], verdict, out)
        self.assertEqual(status, 1 if verdict.startswith("rejected") else 4)
        for it in parts:
            self.assertIn(it, out)
        self.assertNotIn("tell the project", out)

    TWO, PLAN = example("two-cells")
    LONGER, LONGER_PLAN = example("waiting-longer")

    def test_head(self):
        moves = self.TWO.replace(b"moves a a b", b"moves a b")
        self.said(moves, read(f"{EXAMPLES}/two-cells-1.plan"), "rejected 2 PathIllegal", "line 2: path a a", "the path goes from a to a in period 1, and the moves from a are b")
        self.said(self.TWO, self.PLAN.replace(b"path a a", b"path a"), "rejected 2 PathIllegal", "the path has 1 position, and the horizon is 2 periods")
        self.said(self.TWO, self.PLAN.replace(b"chance 12", b"chance 13"), "rejected 3 ValueWrong", "states 13, and the path a a finds 12 of 16")
        self.said(self.TWO, self.PLAN.replace(b"12 16", b"12 17"), "rejected 3 WeightWrong", "states the weight 17, and it is", "= 16")

    def test_bounds(self):
        self.said(self.TWO, self.PLAN.replace(b"M 12", b"M 11"), "rejected 9 BoundWrong", "a mean bound of 11 is stated for the paths that begin with b; the right one is 12", "less: a better path")
        self.said(self.TWO, self.PLAN.replace(b"M 12", b"M 13"), "rejected 9 BoundWrong", "the right one is 12, and what is stated is more")

    def test_whole_paths(self):
        self.said(self.TWO, self.PLAN.replace(b"W 12\nW 12", b"W 12\nW 11"), "rejected 8 WholeWrong", "the path a b is stated to find 11, and it finds 12 of 16")
        self.said(self.TWO, self.PLAN.replace(b"W 12\nW 12", b"W 12\nM 12"), "rejected 8 WholeWrong", "a mean bound stands at a b, which is a whole path")
        first = b"plan 1\npath a a\nchance 12 16\nnodes 2\nB\nW 12 0\nend\n"
        self.said(self.TWO, first, "rejected 6 WholeWrong", "a whole path has 2 positions, and a has 1")

    def test_order(self):
        lacking = read(f"{EXAMPLES}/two-cells-lacking.plan")
        self.said(self.TWO, lacking, "rejected 8 MissingChild", "a record for the paths that begin with a b is due here, and one for the paths that begin with b stands in its place")
        cut = b"plan 1\npath a a\nchance 12 16\nnodes 2\nB\nM 12 1\nend\n"
        self.said(self.TWO, cut, "rejected 6 MissingChild", "begin with a is due here")
        ends = b"plan 1\npath a a\nchance 12 16\nnodes 1\nB\nend\n"
        self.said(self.TWO, ends, "rejected 6 MissingChild", "`end` stands in its place")
        extra = read(f"{EXAMPLES}/two-cells-1.plan").replace(b"nodes 5", b"nodes 6").replace(b"M 12 1\n", b"M 12 1\nM 12 1\n")
        self.said(self.TWO, extra, "rejected 10 NotChild", "this record is for the paths that begin with b, and none is due any more")

    def test_cuts(self):
        # The path b b finds as much as a a, and isn't the first of those: its own records leave a a as the better one.
        other = b"plan 2\npath b b\nchance 12 16\nnodes 5\nB\nB\nW 12\nW 12\nM 12\nend\n"
        self.said(self.TWO, other, "rejected 7 NotCut", "the path a a finds 12, which is as much, and has smaller position numbers")
        self.said(self.TWO, b"plan 2\npath a b\nchance 12 16\nnodes 1\nM 16\nend\n", "rejected 5 NotCut", "the mean bound of all paths is 16, and the plan's path finds 12: it leaves room")

    def test_tangents(self):
        letter = next(it for it in self.LONGER_PLAN.split(b"\n") if it.startswith(b"T "))
        self.said(self.LONGER, self.LONGER_PLAN.replace(letter, letter[:-1] + b"0"), f"rejected {self.at(letter)} ReferenceWrong", "isn't a legal path")
        uneven = self.LONGER.replace(b"overlook a 1", b"overlook a 0")
        self.said(uneven, self.LONGER_PLAN, f"rejected {self.at(letter)} NoOneRate", "they miss 0, 1 of 2")

    def test_exchanges(self):
        """What an exchange says where it is accepted; and why it isn't."""
        status, out = self.ran(self.write("s", FOUR), self.write("p", WITH_EXCHANGE.encode()))
        # (By hand: 1, 3, 7, 17 and 41 prefixes by their length.)
        size = "legal prefixes: 69, from the empty one to 41 whole paths of 4 periods\nrecords: 16, of them 6 branches, 2 whole paths, 4 mean bounds, 3 edge bounds, 1 exchange bound\n"
        says = "an exchange bound, such as that of b b c: whatever comes behind it, by c in period 2 the same end finds at least as much\n"
        self.assertEqual((status, out[: len("accepted\n" + size + says)]), (0, f"accepted\n{size}{says}"))
        asks = "an exchange asks for 4 periods or more, and for a prefix of 2 positions or more: here "
        rows = (
            ("E 12", "X 12 1", 6, "WholeWrong", asks + "the horizon is 4 periods, and the prefix has 1 position"),
            ("W 14", "X 14 1", 19, "WholeWrong", "an exchange bound stands at c c c b, which is a whole path"),
            ("X 10 2", "X 10 1", 12, "ReferenceWrong", "b b c has b in period 2 itself: an exchange puts another position there"),
            ("X 10 2", "X 10 0", 12, "ReferenceWrong", "a can't take the place of b in period 2: no move leads from a to c"),
            ("M 14\nB", "X 14 0\nB", 17, "ReferenceWrong", "a can't take the place of c in period 2: no move leads from c to a"),
            ("X 10 2", "X 9 2", 12, "BoundWrong", "an exchange bound of 9 is stated for the paths that begin with b b c; the right one is 10, and what is stated is less"),
            ("X 10 2\nE 14", "X 10 2\nX 12 2", 13, "NotCut", "over c c, which finds 12 by then, the exchange bound of the paths that begin with b c is 12: one of them may find more"),
        )
        for old, new, line, why, told in rows:
            with self.subTest(new=new):
                self.said(FOUR, WITH_EXCHANGE.replace(old, new).encode(), f"rejected {line} {why}", told)
        three = WITH_EXCHANGE.split("nodes")[0].replace("c c c c", "c c c").replace("15 16", "7 8") + "nodes 6\nB\nM 4\nB\nM 0\nM 4\nX 5 2\n"
        self.said(LONGER, three.replace("nodes 6", "nodes 7").encode() + b"M 8\nend\n", "rejected 10 WholeWrong", asks + "the horizon is 3 periods, and the prefix has 2 positions")
        self.said(FOUR, WITH_EXCHANGE.replace("plan 3", "plan 2").encode(), "bad plan: line 12 BadLine", "this isn't the line that is due here")
        self.said(FOUR, WITH_EXCHANGE.replace("X 10 2", "X 10 3").encode(), "bad plan: line 12 BadNumber", "or not the number of a position")

    def test_two_look_bounds(self):
        """The same of the bound of two looks."""
        status, out = self.ran(self.write("s", FOUR), self.write("p", TWO_LOOKED.encode()))
        self.assertEqual((status, out.split("\n")[2]), (0, "records: 10, of them 4 branches, 2 whole paths, 1 mean bound, 2 edge bounds, 1 two-look bound"))
        less = "a two-look bound of 13 is stated for the paths that begin with b; the right one is 14, and what is stated is less"
        room = "the two-look bound of the paths that begin with c is 15, and the plan's path finds 15: it leaves room for a better path"
        for old, new, line, why, told in (
            ("W 14", "D 14", 13, "WholeWrong", "a two-look bound stands at c c c b, which is a whole path"),
            ("D 14", "D 13", 7, "BoundWrong", less),
            (REST, "nodes 4\nB\nE 12\nD 14\nD 15\nend\n", 8, "NotCut", room),
        ):
            with self.subTest(new=new):
                self.said(FOUR, TWO_LOOKED.replace(old, new).encode(), f"rejected {line} {why}", told)
        self.said(FOUR, TWO_LOOKED.replace("plan 3", "plan 2").encode(), "bad plan: line 7 BadLine", "this isn't the line that is due here")

    def at(self, line):
        return 1 + self.LONGER_PLAN.split(b"\n").index(line)

    def test_all_reasons_have_words(self):
        table = read(os.path.join(TOP, "docs", "COMMANDS.md")).decode().split("## Input and output of a check")[1].split("\n## ")[0]
        self.assertEqual(set(re.findall(r"\| `([A-Z][A-Za-z]+)` \|", table)), set(rejection.ABOUT))
        kinds = read(os.path.join(TOP, "docs", "FORMATS.md")).decode().split("## Plan text")[1].split("A carriage return or a tab")[0]
        self.assertEqual(set(re.findall(r"^\| `([A-Z][A-Za-z]+)` \|", kinds, re.MULTILINE)) - {"BadLine", "UnknownName"}, set(rejection.BAD) - {"BadLine"})

    def test_texts_that_are_no_plan(self):
        rows = (
            (self.PLAN.replace(b"end\n", b""), "bad plan: line 10 EarlyEnd", "it was cut off"),
            (b"", "bad plan: line 1 EarlyEnd", "the plan's file is empty"),
            (self.PLAN.replace(b"\n", b"\r\n"), "bad plan: line 1 BadLine", "tr -d '\\r'"),
            (self.TWO, "bad plan: line 1 BadLine", "the scenario comes first"),
            (self.PLAN.replace(b"nodes 5\n", b"nodes 5\n\n"), "bad plan: line 5 BadLine", "a plan has no empty lines"),
            (self.PLAN.replace(b"M 12", b"M 12.0"), "bad plan: line 9 BadNumber", "isn't a whole number"),
            (self.PLAN.replace(b"path a a", b"path a quay"), "bad plan: line 2 UnknownName", "this scenario has no position `quay`"),
            (self.PLAN.replace(b"nodes 5", b"nodes 2000000"), "bad plan: line 4 TooManyNodes", "more than 1,048,576 records"),
            (self.PLAN.replace(b"nodes 5", b"nodes 4"), "bad plan: line 9 WrongCount", "the number of records"),
            (self.PLAN + b"x\n", "bad plan: line 11 Rest", "behind `end`"),
            (self.PLAN.replace(b"nodes 5", b"nodes 6").replace(b"end", b"M 12\nend"), "bad plan: line 10 NoPlace", "one too many"),
            (self.PLAN.replace(b"nodes 5", b"nodes 4").replace(b"M 12\n", b""), "bad plan: line 9 StillOpen", "records are still due"),
        )
        for plan, verdict, part in rows:
            with self.subTest(verdict):
                self.said(self.TWO, plan, verdict, part)

    def test_gap_plans(self):
        """A text that begins as one of a gap plan is asked of `checkgap`, and its records begin a line later."""
        gap = read(f"{EXAMPLES}/two-cells.gap")
        status, out = self.ran(self.write("s", self.TWO), self.write("p", gap))
        # (By hand: the empty prefix, two of one position, four paths; the gap plan is one branch, and both below it wait.)
        size = "legal prefixes: 7, from the empty one to 4 whole paths of 2 periods\nrecords: 3, of them 1 branch, 2 prefixes that wait\n"
        self.assertEqual((status, out), (0, f"accepted\n{size}"))
        self.said(self.TWO, gap.replace(b"ceiling 12", b"ceiling 13"), "rejected 4 CeilingWrong", "line 4: ceiling 13", "states 13, and the greatest", "is 12")
        self.said(self.TWO, gap.replace(b"O 12\nend", b"O 11\nend"), "rejected 8 WaitingWrong", "line 8: O 11", "the paths that begin with b wait with the number 11", "exceeds is 12", "less: a better path")
        self.said(self.TWO, gap.replace(b"O 12\nend", b"M 11\nend"), "rejected 8 BoundWrong", "the right one is 12")
        self.said(self.TWO, gap.replace(b"nodes 3", b"nodes 5000000"), "bad plan: line 5 TooManyNodes", "more than 4,194,305 records")
        self.said(self.TWO, gap.replace(b"gap 1", b"gap 3"), "bad plan: line 1 BadLine", "begins with `plan 1`, `plan 2` or `plan 3`, and a gap plan with `gap 1` or `gap 2`")

    def test_the_numbers_of_each_version(self):
        """The bound that a number has to be is named. (A second program has them by sums over all tracks: mean bounds of 71,968,800 and
        69,615,000, and edge bounds of 59,646,320 and 57,214,700.)"""
        swath, two = read(f"{EXAMPLES}/swath.scenario"), read(f"{EXAMPLES}/swath.gap")
        self.assertEqual(self.ran(self.write("s", swath), self.write("p", two))[0], 0)
        one = two.replace(b"gap 2", b"gap 1").replace(b"59646320", b"71968800").replace(b"57214700", b"69615000")
        self.assertEqual(self.ran(self.write("s", swath), self.write("p", one))[0], 0)
        edges = "is 59646320, the lesser of their edge bound and the whole weight, and what is stated is "
        means = "is 71968800, their mean bound, and what is stated is "
        rows = (
            (two, b"O 59646320", b"O 59646321", 7, edges + "more"),
            (two, b"O 59646320", b"O 59646319", 7, edges + "less: a better path"),
            (two, b"gap 2", b"gap 1", 7, means + "that of `gap 2`"),
            (one, b"gap 1", b"gap 2", 7, edges + "that of `gap 1`"),
            (one, b"O 71968800", b"O 71968799", 7, means + "less: a better path"),
        )
        for given, old, new, line, told in rows:
            with self.subTest(new=new):
                self.said(swath, given.replace(old, new), f"rejected {line} WaitingWrong", told)

    def test_a_long_plan(self):
        """Where a plan is too long to be checked here, that is said; the record that the program names is still explained."""
        with mock.patch.object(rejection, "MOST_CHECKED", 1):
            self.said(self.TWO, self.PLAN.replace(b"M 12", b"M 13"), "rejected 9 BoundWrong", "the right one is 12", "the plan is too long for this helper's own checker")
        with mock.patch.object(rejection, "MOST_BYTES", 10):
            self.said(self.TWO, self.PLAN.replace(b"M 12", b"M 13"), "rejected 9 BoundWrong", "too many for this helper")


class Quoting(unittest.TestCase):
    def test_nothing_steers_a_terminal(self):
        self.assertEqual(quoting.plain(b"a\x1b[31m\xff\t\xe2\x80\xae", 40), "a\\x1b[31m\\xff\\t\\u202e")
        self.assertEqual(quoting.plain(b"x" * 50, 40), "x" * 40 + " ..")
        self.assertEqual(quoting.plain("é".encode(), 40), "é")

    def test_lists(self):
        self.assertEqual(quoting.lines([3, 7, 8, 9]), "lines 3, 7 to 9")
        self.assertEqual(quoting.lines([1200]), "line 1,200")
        self.assertEqual(quoting.listed([str(it) for it in range(12)]), "0, 1, 2, 3, 4, 5, 6, 7 and 4 more")
        self.assertEqual(quoting.listed([str(it) for it in range(9)]), "0, 1, 2, 3, 4, 5, 6, 7, 8")


if __name__ == "__main__":
    unittest.main()
