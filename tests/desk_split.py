"""Tests of `osp split` and `osp join`: what is in the folder, what is refused, the best of all parts against every path, and parts that
are missing, refused, exchanged or of another scenario. `python3 -m unittest tests.desk_split`, or tests/desk split."""
import itertools
import os
import re
import shutil
import stat
import subprocess
import sys
import unittest
from unittest import mock

from desk import accepted, forms, join, paths, percent, program, split, writing
from tests.asking import Asked
from tests.desk_derived import ROW, small
from tests.pages import STAND_IN, TOP, example, read
from tests.replanned import replanned


def scenario(text):
    """The scenario of a text."""
    return forms.read_scenario(text, True)[0]


def every_prefix(sc, length):
    """All legal prefixes of a length, ascending, of all lists of positions."""
    return [list(it) for it in itertools.product(range(len(sc.positions)), repeat=length) if paths.is_legal(sc, it)]


class Parts(Asked):
    """A folder of `split`, and what `join` makes of it."""

    def split(self, text, depth, *more):
        """The status, the folder, and what is said."""
        folder = os.path.join(self.room, "parts of it")
        status, out, said = self.called(split.main, str(depth), self.write("s", text), folder, *more)
        return status, folder, out.decode() + said

    def filled(self, text, depth):
        """A folder whose jobs have all been run, by a second computation."""
        status, folder, said = self.split(text, depth)
        self.assertEqual(status, 0, said)
        sc = scenario(text)
        for line in read(f"{folder}/jobs").decode("ascii").splitlines():
            _, _, name, *names = line.split(" ")
            prefix = [sc.positions.index(it.encode("ascii")) for it in names]
            with open(f"{folder}/{name}", "wb") as file:
                file.write(replanned(sc, prefix))
        return folder

    def joined(self, folder):
        """The status of `join`, what it wrote, and what it said."""
        status, out, said = self.called(join.main, folder)
        return status, out.decode("ascii"), said

    def lacks(self, folder, lines, right, whole):
        """Holds `join` against lines that each name a part and say something of it, and how many parts are right."""
        status, out, said = self.joined(folder)
        self.assertEqual((status, out), (1, ""), said)
        *told, last = said.splitlines()
        self.assertEqual(last, f"osp join: {right} of {whole} prefixes")
        self.assertEqual(len(told), len(lines), told)
        for line, (name, part) in zip(told, lines):
            self.assertTrue(line.startswith(f"osp join: {name}") and part in line, (line, name, part))


class Split(Parts):
    def test_a_job_for_each_legal_prefix_of_the_length_and_no_other(self):
        for text in (example("tide")[0], example("small-lake")[0], ROW):
            sc = scenario(text)
            for depth in (1, 2):
                status, folder, said = self.split(text, depth)
                wanted = [[sc.positions[it].decode() for it in prefix] for prefix in every_prefix(sc, depth)]
                digits = len(str(len(wanted)))
                lines = [f"sh job parts/{at:0{digits}} {' '.join(it)}" for at, it in enumerate(wanted, 1)]
                self.assertEqual((status, read(f"{folder}/jobs").decode().splitlines()), (0, lines))
                self.assertIn(f"{len(wanted)} jobs in", said)
                self.assertEqual((read(f"{folder}/scenario"), read(f"{folder}/depth")), (text, b"%d\n" % depth))
                self.assertEqual((sorted(os.listdir(folder)), os.listdir(f"{folder}/parts")), (["depth", "job", "jobs", "parts", "scenario"], []))
                shutil.rmtree(folder)

    def test_the_folder_is_open_as_a_new_one_and_may_be_there_empty(self):
        mask = os.umask(0o027)
        try:
            target = os.path.join(self.room, "target")
            os.mkdir(target)
            os.symlink("target", os.path.join(self.room, "parts of it"))
            status, folder, _ = self.split(ROW, 1)
        finally:
            os.umask(mask)
        self.assertEqual((status, stat.S_IMODE(os.stat(target).st_mode), os.path.islink(folder)), (0, 0o750, True))
        self.assertEqual(read(f"{target}/scenario"), ROW)

    def refused(self, status, part, *words):
        """Words that are refused: nothing is made."""
        before = sorted(os.walk(self.room))
        got, out, said = self.called(split.main, *words)
        self.assertEqual((got, out, len(said.splitlines())), (status, b"", 1), said)
        self.assertIn(part, said)
        self.assertEqual(sorted(os.walk(self.room)), before)

    def test_words(self):
        row, folder = self.write("s", ROW), os.path.join(self.room, "new")
        for words in ((), ("1", row), ("1", row, folder, "more"), ("one", row, folder), ("-1", row, folder), ("1.0", row, folder), ("1", row, ""),
                      ("1", row, folder, "--jobs"), ("1", row, folder, "--jobs", "0"), ("1", row, folder, "--jobs", "3", "--jobs", "3"),
                      ("1", row, folder, "--workers", "3"), ("\N{ARABIC-INDIC DIGIT ONE}", row, folder)):  # fmt: skip
            with self.subTest(words=words):
                status, out, said = self.called(split.main, *words)
                self.assertEqual((status, out, os.listdir(self.room)), (2, b"", ["s"]))
                self.assertRegex(said, rf"\Aosp split: .+\n{re.escape(split.WORDS.usage)}\n\Z")
        for depth in ("0", "3", "33", "100000000000", "01"):
            self.refused(2, f"{depth} cannot stand for DEPTH: a whole number from 1 to 2", depth, row, folder)

    def test_too_many_jobs(self):
        lake, folder = self.write("s", example("drifting-grid")[0]), os.path.join(self.room, "new")
        self.refused(2, "that would be 3,263 jobs, and 1,000 are allowed: take a smaller DEPTH, or write --jobs 3263", "6", lake, folder)
        self.refused(2, "3,263 jobs, and 3,262 are allowed", "6", lake, folder, "--jobs", "3262")
        self.assertEqual(self.called(split.main, "--jobs", "3263", "6", lake, folder)[0], 0)
        self.assertEqual(len(read(f"{folder}/jobs").splitlines()), len(every_moves(scenario(read(lake)), 6)))
        row = self.write("row", ROW)
        shutil.rmtree(folder)
        with mock.patch.object(split.parts, "MOST", 3):
            self.refused(2, "that would be 4 jobs, and 3 are the most", "2", row, folder, "--jobs", "9")

    def test_a_scenario_that_is_none(self):
        folder = os.path.join(self.room, "new")
        self.refused(3, "bad scenario: line 2 BadNumber", "1", self.write("s", ROW.replace(b"horizon 2", b"horizon 0")), folder)
        self.refused(3, "line 20 Rest", "1", self.write("s", ROW + b"plan 2\n"), folder)
        self.refused(9, "input too long", "1", self.write("s", ROW + b"\n" * (1 << 20)), folder)
        self.refused(5, "cannot read", "1", os.path.join(self.room, "none"), folder)
        self.refused(10, "bad flown: NameTaken", "1", self.write("s", ROW.replace(b" d", b" flown-1")), folder)
        cells = [b"c%d" % it for it in range(199)]
        still = b"".join(b"moves %s %s\ndrift %s %s 1\n" % (it, it, it, it) for it in cells)
        many = b"scenario 1\nhorizon 1\nparts 1 1 1\n" + b"".join(b"cell %s\n" % it for it in cells) + b"start c0\nfirst c0 1\n" + still + b"rate 0\nend\n"
        self.refused(10, "bad flown: TooManyPositions", "1", self.write("s", many), folder)

    def test_a_folder_that_cannot_be_made(self):
        row, full = self.write("s", ROW), os.path.join(self.room, "full")
        os.mkdir(full)
        self.write("full/file", b"")
        self.refused(6, "cannot be made: Directory not empty", "1", row, full)
        self.refused(6, "cannot be made: Not a directory", "1", row, row)
        self.refused(6, "cannot be made: No such file or directory", "1", row, os.path.join(self.room, "none", "new"))
        self.refused(6, "cannot be made: ", "1", row, "/proc/new")
        with mock.patch.object(os, "rename", side_effect=OSError(28, "No space left on device")):
            self.refused(6, "No space left on device", "1", row, os.path.join(self.room, "new"))


def every_moves(sc, length):
    """How many ways there are to make so many moves, one by one."""
    ways = [sc.start]
    for _ in range(length):
        ways = [to for at in ways for to in sc.moves[at]]
    return ways


class Join(Parts):
    def test_the_best_of_the_parts_is_the_best_of_all_paths(self):
        texts = [writing.scenario_text(small(seed)) for seed in range(4)]
        for text, depth in [(ROW, 1), (ROW, 2), (example("swath")[0], 1), (example("swath")[0], 2), *((it, depth) for it in texts for depth in (1, 2, 3))]:
            with self.subTest(text=text[:60], depth=depth):
                sc = scenario(text)
                folder = self.filled(text, depth)
                value, path = paths.best(sc)
                whole, count = paths.weight(sc), len(every_prefix(sc, depth))
                number = 1 + every_prefix(sc, depth).index(path[:depth])
                status, out, said = self.joined(folder)
                names = " ".join(sc.positions[it].decode() for it in path)
                chance = f"chance {value} {whole} {percent.cut(value, whole)}"
                part = f"part parts/{number:0{len(str(count))}}"
                self.assertEqual((status, out, said), (0, f"path {names}\n{chance}\n{part}\n{count} of {count} prefixes\n", ""))
                shutil.rmtree(folder)

    # Both cells are alike, and are named against their numbers: every path finds 12 of 16.
    EQUAL = example("two-cells")[0].replace(b"cell a", b"cell z").replace(b" a", b" z")

    def test_of_two_that_are_equal_the_one_with_the_smaller_numbers_is_told(self):
        for depth in (1, 2):
            folder = self.filled(self.EQUAL, depth)
            wanted = f"path z z\nchance 12 16 75.000\npart parts/1\n{2 * depth} of {2 * depth} prefixes\n"
            self.assertEqual(self.joined(folder), (0, wanted, ""))
            shutil.rmtree(folder)
        sc = scenario(self.EQUAL)
        equal = [join.Part("parts/1", [0, 1], 12), join.Part("parts/2", [1, 0], 12), join.Part("parts/0", [0, 0], 11)]
        for found in itertools.permutations(equal):
            self.assertTrue(join.told(sc, list(found)).startswith("path z b\n"))

    def test_a_part_that_is_missing(self):
        folder = self.filled(ROW, 2)
        os.remove(f"{folder}/parts/3")
        self.lacks(folder, [("parts/3 (c c): ", "missing")], 3, 4)
        os.mkdir(f"{folder}/parts/3")
        self.lacks(folder, [("parts/3 (c c): ", "no file")], 3, 4)
        os.rmdir(f"{folder}/parts/3")
        os.mkfifo(f"{folder}/parts/3")
        self.lacks(folder, [("parts/3 (c c): ", "no file")], 3, 4)
        shutil.rmtree(f"{folder}/parts")
        self.assertEqual(self.joined(folder)[:2], (5, ""))

    def test_a_part_that_is_half(self):
        folder = self.filled(ROW, 1)
        whole = read(f"{folder}/parts/2")
        for length, says in ((0, "bad scenario: line 1 EarlyEnd"), (100, "bad scenario"), (len(whole) - 5, "bad plan: line 8 EarlyEnd")):
            self.write("parts of it/parts/2", whole[:length])
            self.lacks(folder, [("parts/2 (c): ", says)], 1, 2)

    def test_what_a_job_was_writing_when_it_was_cut_off_is_nothing(self):
        folder = self.filled(ROW, 1)
        self.write("parts of it/parts/.osp-a1B2c3", read(f"{folder}/parts/2")[:50])
        self.assertEqual(self.joined(folder)[0], 0)

    def test_two_parts_that_are_exchanged(self):
        folder = self.filled(ROW, 2)
        one, two = (read(f"{folder}/parts/{it}") for it in (1, 4))
        self.write("parts of it/parts/1", two)
        self.write("parts of it/parts/4", one)
        other = "of another scenario than the one that forces this prefix"
        self.lacks(folder, [("parts/1 (a a): ", other), ("parts/4 (c d): ", other)], 2, 4)

    def test_a_part_that_stands_for_another_too(self):
        folder = self.filled(ROW, 1)
        shutil.copy(f"{folder}/parts/1", f"{folder}/parts/2")
        self.lacks(folder, [("parts/2 (c): ", "of another scenario")], 1, 2)

    def test_files_that_are_no_parts(self):
        folder = self.filled(ROW, 1)
        shutil.copy(f"{folder}/parts/1", f"{folder}/parts/3")
        self.write("parts of it/parts/01", b"")
        self.write(b"parts of it/parts/\x1b[2J", b"")
        self.lacks(folder, [(r"parts/\x1b[2J: ", "no part of this plan"), ("parts/01: ", "no part"), ("parts/3: ", "no part")], 2, 2)

    def test_a_plan_that_is_not_accepted(self):
        folder = self.filled(ROW, 1)
        text = read(f"{folder}/parts/2")
        for old, new, says in ((b"chance 6 9", b"chance 7 9", "rejected 3 ValueWrong"), (b"\nW 2\n", b"\nW 1\n", "WholeWrong"), (b"\nend\n", b"\n", "bad plan")):
            # (The last `end` is the plan's.)
            changed = new.join(text.rsplit(old, 1))
            self.assertNotEqual(changed, text)
            self.write("parts of it/parts/2", changed)
            self.lacks(folder, [("parts/2 (c): ", says)], 1, 2)

    def test_a_scenario_of_other_text(self):
        folder = self.filled(ROW, 1)
        text = read(f"{folder}/parts/2")
        # Where the target is sooner found, an accepted plan says more than is so.
        sc = scenario(ROW.replace(b"first a 3 c 2 d 4", b"first a 2 c 2 d 5"))
        self.write("parts of it/parts/2", replanned(sc, [2]))
        self.lacks(folder, [("parts/2 (c): ", "of another scenario")], 1, 2)
        # Another name, another horizon, one move less.
        for old, new in ((b" d", b" e"), (b"parts 9 1 1", b"parts 9 1 2"), (b"moves d c d", b"moves d d")):
            other = ROW.replace(old, new)
            self.write("parts of it/parts/2", replanned(scenario(other), [2]))
            self.lacks(folder, [("parts/2 (c): ", "of another scenario")], 1, 2)
        # The same scenario in other words.
        self.write("parts of it/parts/2", text.replace(b"horizon 2\n", b"# as it was\nhorizon\t2\n\n"))
        self.assertEqual(self.joined(folder)[0], 0)

    def test_a_folder_whose_scenario_was_changed(self):
        folder = self.filled(ROW, 1)
        self.write("parts of it/scenario", ROW.replace(b"first a 3 c 2 d 4", b"first a 2 c 2 d 5"))
        self.lacks(folder, [("parts/1 (a): ", "of another scenario"), ("parts/2 (c): ", "of another scenario")], 0, 2)

    def test_a_folder_whose_depth_was_changed(self):
        folder = self.filled(ROW, 1)
        self.write("parts of it/depth", b"2\n")
        other = "of another scenario"
        self.lacks(folder, [("parts/1 (a a): ", other), ("parts/2 (a b): ", other), ("parts/3 (c c): ", "missing"), ("parts/4 (c d): ", "missing")], 0, 4)
        for depth in (b"", b"0\n", b"3\n", b"two\n", b"\xff\n"):
            self.write("parts of it/depth", depth)
            status, out, said = self.joined(folder)
            self.assertEqual((status, out), (5, ""))
            self.assertIn("depth doesn't say how long prefixes are", said)

    def test_a_folder_that_split_did_not_make(self):
        for name in ("depth", "scenario"):
            folder = self.filled(ROW, 1)
            os.remove(f"{folder}/{name}")
            status, out, said = self.joined(folder)
            self.assertEqual((status, out), (5, ""))
            self.assertIn(f"{name}: No such file", said)
            shutil.rmtree(folder)
        self.assertEqual(self.joined(os.path.join(self.room, "none"))[:2], (5, ""))
        folder = self.filled(ROW, 1)
        self.write("parts of it/scenario", ROW[:50])
        self.assertEqual(self.joined(folder)[:2], (3, ""))
        self.write("parts of it/scenario", ROW.replace(b" d", b" flown-1"))
        self.assertEqual(self.joined(folder)[:2], (5, ""))

    def test_words(self):
        for words in ((), ("a", "b"), ("--jobs",)):
            status, out, said = self.called(join.main, *words)
            self.assertEqual((status, out), (2, b""))
            self.assertRegex(said, rf"\Aosp join: .+\n{re.escape(join.WORDS.usage)}\n\Z")

    def test_a_program_that_gives_no_answer(self):
        folder = self.filled(ROW, 1)
        for answer in ("echo fine", "exit 70", "kill -9 $$", "echo 'no memory' >&2; exit 7"):
            stand_in = self.write("osp", f"#!/bin/sh\ncat > /dev/null\n{answer}\n".encode())
            os.chmod(stand_in, stat.S_IRWXU)
            with mock.patch.object(program, "OSP", stand_in):
                status, out, said = self.joined(folder)
            self.assertEqual((status, out), (7 if "memory" in answer else 70, ""), answer)
            self.assertTrue(said.startswith("osp join: parts/1: "), said)
        with mock.patch.object(program, "OSP", self.room):
            self.assertEqual(self.joined(folder)[:2], (70, ""))

    def test_an_unproved_run_is_told_once(self):
        folder = self.filled(ROW, 1)
        stand_in = self.write("osp", b"#!/bin/sh\ncat > /dev/null\necho 'osp: unproved run, since nothing is built' >&2\necho accepted\n")
        os.chmod(stand_in, stat.S_IRWXU)
        with mock.patch.object(program, "OSP", stand_in):
            status, _, said = self.joined(folder)
        self.assertEqual((status, said), (0, "osp: unproved run, since nothing is built\n"))

    def test_a_plan_that_is_accepted_wrongly(self):
        """Where `check` takes a wrong chance, this helper's own sums don't."""
        folder = self.filled(ROW, 1)
        self.write("parts of it/parts/2", read(f"{folder}/parts/2").replace(b"chance 6 9", b"chance 7 9"))
        with mock.patch.object(accepted, "asked", lambda word, given: (b"accepted\n", "")):
            status, out, said = self.joined(folder)
        self.assertEqual((status, out), (70, ""))
        self.assertIn("this helper's numbers aren't those of the plan", said)

    def test_as_it_is_called(self):
        """python3 -m desk split .. and join .., and with a full output."""
        folder = os.path.join(self.room, "parts of it")
        how = {"cwd": TOP, "env": {**os.environ, "OSP": STAND_IN, "PYTHONDONTWRITEBYTECODE": "1"}}
        words = [sys.executable, "-m", "desk", "split", "1", self.write("s", ROW), folder]
        done = subprocess.run(words, capture_output=True, check=False, **how)
        self.assertEqual((done.returncode, done.stderr), (0, b""))
        shutil.rmtree(folder)
        folder = self.filled(ROW, 1)
        words = [sys.executable, "-m", "desk", "join", folder]
        done = subprocess.run(words, capture_output=True, check=False, **how)
        self.assertEqual((done.returncode, done.stdout, done.stderr), (0, b"path c d\nchance 6 9 66.666\npart parts/2\n2 of 2 prefixes\n", b""))
        with open("/dev/full", "wb") as full:
            done = subprocess.run(words, stdout=full, stderr=subprocess.PIPE, check=False, **how)
        self.assertEqual(done.returncode, 6)


if __name__ == "__main__":
    unittest.main()
