"""Tests that no helper writes to a file that it reads, by whichever name, and that what is read stays as it was: by the front door, with
the helpers as they are."""
import hashlib
import os
import shutil
import subprocess
import unittest

from tests.desk_ensemble import HEAD, OPEN, STAYS
from tests.pages import EXAMPLES, IS_BUILT, STAND_IN, TOP, Room, read

OSP = f"{TOP}/osp"
# The program, or where none is built what stands in for it.
HOW = {} if IS_BUILT else {"OSP": STAND_IN}


class Files(Room):
    """A folder with a scenario, the text that replan made of it, a situation with its tracks, and jobs with a part."""

    def setUp(self):
        super().setUp()
        for name, here in (("drifting-grid.scenario", "s"), ("drifting-grid-flown.made", "m.made"), ("drifting-grid.plan", "p")):
            shutil.copy(f"{EXAMPLES}/{name}", f"{self.room}/{here}")
        self.write("s.toml", OPEN.encode())
        self.write("ensemble.csv", f"{HEAD}{STAYS}".encode())
        os.link(f"{self.room}/s", f"{self.room}/hard")
        os.symlink("s", f"{self.room}/soft")

    def ran(self, *words, **how):
        """The status of ./osp with these words, its output, and what it said."""
        env = {**os.environ, **HOW}
        how = {"stdin": subprocess.DEVNULL, "stdout": subprocess.PIPE, "stderr": subprocess.PIPE, "cwd": self.room, "env": env, **how}
        done = subprocess.run([OSP, *words], check=False, timeout=300, **how)
        return done.returncode, (done.stdout or b"").decode(), done.stderr.decode()

    def all(self):
        """What is in the folder, by name."""
        found = {}
        for at, _, names in os.walk(self.room):
            found |= {os.path.join(at, it): hashlib.sha256(read(os.path.join(at, it))).hexdigest() for it in names}
        return found

    def is_refused(self, *words, name):
        """The words are refused since the file behind -o is read, and all files stay as they were."""
        before = self.all()
        with self.subTest(words=words):
            self.assertEqual(self.ran(*words), (70, "", f"osp: -o {name} names a file that is read: give another name\n"))
            self.assertEqual(self.all(), before)


class Inputs(Files):
    def test_by_option(self):
        """Behind --of= and --of, --trial=, --tracks=, by its name, a link and a hard link."""
        for name in ("s", "./s", "hard", "soft"):
            for helper in ("brief", "show"):
                self.is_refused(helper, "m.made", "--of=s", "-o", name, name=name)
        self.is_refused("brief", "m.made", "--of", "s", "-o", "hard", name="hard")
        self.is_refused("chart", "m.made", "--of=s", "--form=gpx", "-o", "hard", name="hard")
        self.write("t", b"{}")
        self.is_refused("show", "s", "p", "--trial=t", "-o", "t", name="t")
        self.is_refused("trial", "s.toml", "--pattern=parallel", "--tracks=ensemble.csv", "-o", "ensemble.csv", name="ensemble.csv")

    def test_by_a_situation(self):
        """A file of tracks that a situation names, by two helpers, and from another folder."""
        self.is_refused("draft", "s.toml", "-o", "ensemble.csv", name="ensemble.csv")
        self.is_refused("trial", "s.toml", "--pattern", "parallel", "-o", "ensemble.csv", name="ensemble.csv")
        os.mkdir(f"{self.room}/below")
        before = self.all()
        told = self.ran("draft", "../s.toml", "-o", "../below/../ensemble.csv", cwd=f"{self.room}/below")
        self.assertEqual(told, (70, "", "osp: -o ../below/../ensemble.csv names a file that is read: give another name\n"))
        self.assertEqual(self.all(), before)

    def test_in_a_folder(self):
        """A part, the scenario or another file of the folder that join reads."""
        status, _, said = self.ran("split", "1", "s", "d")
        self.assertEqual(status, 0, said)
        parts = read(f"{self.room}/d/jobs").count(b"\n")
        for number in range(1, parts + 1):
            shutil.copy(f"{self.room}/m.made", f"{self.room}/d/parts/{number}")
        for name in ("d/parts/1", "d/scenario", "d/depth"):
            self.is_refused("join", "d", "-o", name, name=name)

    def test_standard_output(self):
        """Where standard output goes to a file that an option names."""
        before = self.all()
        with open(f"{self.room}/hard", "ab") as out:
            status, _, said = self.ran("brief", "m.made", "--of=s", stdout=out)
        self.assertEqual((status, said), (70, "osp: standard output goes to s, which is read: give it another file\n"))
        self.assertEqual(self.all(), before)

    def test_a_plan_in_rounds(self):
        """The scenario of plan --seconds, by a link, before the first round."""
        self.is_refused("plan", "--seconds", "1", "s", "-o", "hard", name="hard")

    def test_another_file(self):
        """A new file, and an older one that nobody reads, are written whole."""
        self.write("older", b"older\n")
        told = self.ran("brief", "m.made", "--of=s")
        self.assertEqual((told[0], told[1].splitlines()[0]), (0, "SEARCH PLAN m.made"), told[2])
        for name in ("new", "older", "s\n", "s "):
            self.assertEqual(self.ran("brief", "m.made", "--of=s", "-o", name)[:2], (0, ""))
            self.assertEqual(read(f"{self.room}/{name}").decode(), told[1])


if __name__ == "__main__":
    unittest.main()
