"""Tests of `osp plan --seconds`: rounds, the end of the time, signals, the file behind -o, by a made program and by the real one."""
import json
import os
import re
import signal
import subprocess
import sys
import tempfile
import time
import unittest

from desk import limits
from tests.desk_exchanges import FOUR, GAP as WITH_EXCHANGE, PLAN as OF_EXCHANGE
from tests.pages import EXAMPLES, IS_BUILT, PROGRAM, TOP, example, read

SCENARIO, PLAN = example("two-cells")
GAP = read(f"{EXAMPLES}/two-cells.gap")
# The same proof as that of the plan, as a gap plan in which nothing waits; and a path that finds less, by hand: b b finds 12, so it says 11.
CLOSED = PLAN.replace(b"plan 2", b"gap 1").replace(b"12 16\n", b"12 16\nceiling 12\n", 1)
WORSE = GAP.replace(b"chance 12", b"chance 11")
# In the place of ./osp: it answers its words by the first row that fits them, and notes when it begins and ends.
MADE = """#!{python}
import json, os, sys, time
room = os.path.dirname(os.path.realpath(__file__))
def note(what):
    with open(f"{{room}}/notes", "a") as file:
        file.write(f"{{what}} {{os.getpid()}} {{' '.join(sys.argv[1:])}}\\n")
note("begins")
given = sys.stdin.buffer.read()
rows = json.load(open(f"{{room}}/rows"))
words = " ".join(it for it in sys.argv[1:] if it not in ("--workers", "--nodes", "4"))
seconds, status, out, err = next((row[1:] for row in rows if row[0] == words), (0, 2, "", "usage"))
time.sleep(seconds)
sys.stdout.write(out)
sys.stderr.write(err)
note("ends")
sys.stdout.flush()
sys.exit(status)
"""


class Room(unittest.TestCase):
    """A folder with the scenario, and a made program beside it."""

    def setUp(self):
        room = tempfile.TemporaryDirectory()
        self.addCleanup(room.cleanup)
        self.room = room.name
        self.write("s", SCENARIO)
        self.write("osp", MADE.format(python=sys.executable).encode())
        os.chmod(f"{self.room}/osp", 0o755)

    def write(self, name, text):
        with open(f"{self.room}/{name}", "wb") as file:
            file.write(text)
        return f"{self.room}/{name}"

    def answers(self, *rows):
        """What the made program answers: words, seconds, status, output, and what it says."""
        told = [[words, seconds, status, out.decode(), err] for words, seconds, status, out, err in rows]
        self.write("rows", json.dumps(told).encode())

    def notes(self):
        """What the made program noted, without the numbers of processes."""
        if not os.path.exists(f"{self.room}/notes"):
            return []
        return [re.sub(r" \d+", "", it, count=1) for it in read(f"{self.room}/notes").decode().splitlines()]

    def begun(self, *words, **how):
        """The front door with these words, under way."""
        how = {"stdout": subprocess.PIPE, "stderr": subprocess.PIPE, **how}
        env = {**os.environ, "OSP": f"{self.room}/osp"}
        started = subprocess.Popen([f"{TOP}/osp", "plan", *words], stdin=subprocess.DEVNULL, env=env, start_new_session=True, **how)
        self.addCleanup(self.end, started)
        return started

    @staticmethod
    def end(started):
        if started.poll() is None:
            os.killpg(started.pid, signal.SIGKILL)
            started.wait()
        for it in (started.stdout, started.stderr):
            if it is not None:
                it.close()

    def ran(self, *words):
        started = self.begun(*words)
        out, err = started.communicate(timeout=60)
        return started.returncode, out, err.decode()

    def until(self, holds):
        ends = time.monotonic() + 30
        while not holds() and time.monotonic() < ends:
            time.sleep(0.02)
        self.assertTrue(holds())

    def leaves(self, *names):
        """Wants nothing else in the folder, and no run of the made program."""
        self.assertEqual(sorted(os.listdir(self.room)), sorted([*names, "notes", "osp", "rows", "s"]))
        for it in read(f"{self.room}/notes").decode().splitlines():
            if it.startswith("begins"):
                self.assertFalse(os.path.exists(f"/proc/{it.split()[1]}"), it)


ONE, TWO, HANGS = ("gap 64", 0, 0, GAP, ""), ("gap 128", 0, 0, CLOSED, ""), ("gap 128", 600, 0, b"", "")
ACCEPTED = ("check", 0, 0, b"accepted\n", "")


class Rounds(Room):
    def test_a_finished_proof_ends_it_early(self):
        """Twice as many records a round, one run at a time, and the plan that check accepts at the end."""
        self.answers(ONE, TWO, ACCEPTED)
        began = time.monotonic()
        self.assertEqual(self.ran("--seconds", "600", f"{self.room}/s"), (0, PLAN, ""))
        self.assertLess(time.monotonic() - began, 60)
        words = ["gap --workers 4 --nodes 64", "gap --workers 4 --nodes 128", "check"]
        self.assertEqual(self.notes(), [f"{what} {it}" for it in words for what in ("begins", "ends")])
        self.leaves()

    def test_a_finished_proof_with_an_exchange(self):
        """From four periods on the plan is of version 3, which has exchanges as the gap plan has."""
        self.write("s", FOUR)
        self.answers(("gap 64", 0, 0, WITH_EXCHANGE.encode(), ""), ACCEPTED)
        self.assertEqual(self.ran("--seconds", "600", f"{self.room}/s"), (0, OF_EXCHANGE.encode(), ""))

    def test_the_end_of_the_time(self):
        """The last whole file is there, the program is ended, and the status and a line say so."""
        self.answers(ONE, HANGS)
        for words, wanted in ((["--seconds", "6"], GAP), (["--seconds=6", "-o", f"{self.room}/out"], b"")):
            status, out, err = self.ran(f"{self.room}/s", *words)
            self.assertEqual((status, out), (12, wanted), err)
            self.assertEqual(err, "osp plan: the time is over: chance 75.000 % ceiling 75.000 %, by a gap plan of 3 records, which osp checkgap accepts\n")
        self.assertEqual(read(f"{self.room}/out"), GAP)
        self.leaves("out")

    def test_the_ceiling_is_rounded_up(self):
        """By hand: 23,774,593,024,000,000 of 128,000,000,000,000,000 is 18.57390.. percent, and the chance 17.55738.."""
        gap = b"gap 2\npath r0c1 r0c2 r1c2 r2c2 r2c3 r3c3 r3c3 r4c3\nchance 22473449177088000 128000000000000000\nceiling 23774593024000000\nnodes 1\nO 23774593024000000\nend\n"
        self.answers(("gap 64", 0, 0, gap, ""), HANGS)
        _, _, err = self.ran("--seconds", "6", f"{EXAMPLES}/drifting-grid.scenario")
        self.assertIn("chance 17.557 % ceiling 18.574 %", err)

    def test_before_the_first_round(self):
        self.answers(("gap 64", 600, 0, b"", ""))
        self.write("out", b"older\n")
        status, out, err = self.ran("--seconds", "1", "-o", f"{self.room}/out", f"{self.room}/s")
        self.assertEqual((status, out), (13, b""))
        self.assertEqual(err, "osp plan: the time was over before the first round, and nothing was written: give it more\n")
        self.assertEqual(read(f"{self.room}/out"), b"older\n")
        self.leaves("out")

    def test_a_worse_round_is_not_kept(self):
        self.answers(ONE, ("gap 128", 0, 0, WORSE, ""), ("gap 256", 600, 0, b"", ""))
        self.assertEqual(self.ran("--seconds", "6", f"{self.room}/s")[:2], (12, GAP))
        self.answers(("gap 64", 0, 0, WORSE, ""), ("gap 128", 0, 0, GAP, ""), ("gap 256", 600, 0, b"", ""))
        self.assertEqual(self.ran("--seconds", "6", f"{self.room}/s")[:2], (12, GAP))

    def test_behind_the_most_records_of_gap_comes_plan(self):
        waits = [(f"gap {64 << it}", 0, 0, GAP, "") for it in range(11)]
        self.assertEqual(waits[-1][0], f"gap {limits.MOST_GAP_RECORDS}")
        self.answers(*waits, ("plan 1048576", 0, 0, PLAN, ""))
        self.assertEqual(self.ran("--minutes", "1", f"{self.room}/s"), (0, PLAN, ""))
        self.answers(*waits, ("plan 1048576", 0, 8, b"", "too many nodes: 1048576\n"))
        status, out, err = self.ran("--minutes", "1", f"{self.room}/s")
        self.assertEqual((status, out), (12, GAP))
        self.assertIn("osp plan: too many nodes: 1048576: chance 75.000 %", err)

    def test_refusals_of_the_program_are_handed_on(self):
        self.answers(("gap 64", 0, 3, b"", "bad scenario: line 3 BadNumber\n"))
        self.write("out", b"older\n")
        self.assertEqual(self.ran("--seconds", "9", "-o", f"{self.room}/out", f"{self.room}/s"), (3, b"", "osp plan: bad scenario: line 3 BadNumber\n"))
        self.assertEqual(read(f"{self.room}/out"), b"older\n")
        self.answers(("gap 64", 0, 0, b"gap 1\npath\n", ""))
        status, _, err = self.ran("--seconds", "9", f"{self.room}/s")
        self.assertEqual(status, 70, err)
        self.answers(("gap 64", 0, 0, CLOSED, ""), ("check", 0, 1, b"rejected 9 BoundWrong\n", ""))
        status, out, err = self.ran("--seconds", "9", f"{self.room}/s")
        self.assertEqual((status, out), (70, b""))
        self.assertIn("tell the project, with the scenario: the plan isn't accepted: rejected 9 BoundWrong", err)

    def test_words(self):
        for words, says in (
            ([], "--seconds=0"),
            (["--seconds", "x"], "behind --seconds stands a whole number from 1 to 604800"),
            (["--minutes", "10081"], "behind --minutes stands a whole number from 1 to 10080"),
            (["--seconds", "1", "--minutes", "1"], "one of --seconds and --minutes stands"),
            (["--seconds", "1", "--seconds", "1"], "--seconds stands once"),
            (["--seconds", "1", "--workers", "17"], "behind --workers stands a whole number from 1 to 16"),
            (["--seconds", "1", "--nodes", "4"], "there is no such option as --nodes"),
            (["--seconds", "1", "--json", "no", "-o", "x"], "behind --json stands yes"),
            (["--seconds", "1", "--json", "yes"], "write -o FILE"),
            (["--seconds", "1", "s", "t"], "here are 2 files"),
        ):
            with self.subTest(words):
                status, out, err = self.ran(*words or ["--seconds=0"])
                self.assertEqual((status, out), (2, b""))
                self.assertIn(says if words else "behind --seconds stands", err)
        self.assertEqual(os.listdir(self.room).count("notes"), 0)


class File(Room):
    """The file behind -o."""

    def test_it_is_replaced_whole_after_each_round(self):
        self.answers(ONE, ("gap 128", 600, 0, b"", ""))
        out = self.write("out", b"older\n")
        os.chmod(out, 0o640)
        os.symlink("out", f"{self.room}/link")
        before = os.stat(out)
        started = self.begun("--seconds", "600", "-o", f"{self.room}/link", f"{self.room}/s")
        self.until(lambda: read(out) == GAP)
        after = os.stat(out)
        self.assertEqual((after.st_mode, after.st_uid), (before.st_mode, before.st_uid))
        self.assertNotEqual(after.st_ino, before.st_ino)
        self.assertTrue(os.path.islink(f"{self.room}/link"))
        self.end(started)

    def test_a_file_that_is_read_or_cannot_be_written(self):
        self.answers(ONE, TWO, ACCEPTED)
        for target, status, says in ((f"{self.room}/s", 70, "is read"), (self.room, 70, "is a folder"), (f"{self.room}/none/x", 70, "no folder")):
            ran, out, err = self.ran("--seconds", "9", f"{self.room}/s", "-o", target)
            self.assertEqual((ran, out), (status, b""))
            self.assertIn(says, err)
        self.assertEqual(read(f"{self.room}/s"), SCENARIO)
        mask = os.umask(0)
        os.umask(mask)
        self.assertEqual(self.ran("--seconds", "9", f"{self.room}/s", "-o", f"{self.room}/new"), (0, b"", ""))
        self.assertEqual((read(f"{self.room}/new"), os.stat(f"{self.room}/new").st_mode & 0o777), (PLAN, 0o666 & ~mask))

    @unittest.skipIf(os.geteuid() != 0 or subprocess.run(["unshare", "-m", "true"], check=False, capture_output=True).returncode, "a small disk can be made by root alone")
    def test_a_full_disk(self):
        """One line, status 6, and the older file stays."""
        long = GAP.replace(b"end\n", b"") + b"O 12\n" * 20_000 + b"end\n"
        self.answers(("gap 64", 0, 0, long, ""))
        disk = f"{self.room}/disk"
        os.mkdir(disk)
        line = 'mount -t tmpfs -o size=64k none "$0" && echo older > "$0/plan" && "$@"; status=$?; ls -A "$0"; cat "$0/plan"; exit $status'
        words = ["unshare", "-m", "sh", "-c", line, disk, f"{TOP}/osp", "plan", "--seconds", "9", f"{self.room}/s", "-o", f"{disk}/plan"]
        done = subprocess.run(words, env={**os.environ, "OSP": f"{self.room}/osp"}, capture_output=True, check=False)
        self.assertEqual((done.returncode, done.stdout), (6, b"plan\nolder\n"), done.stderr)
        self.assertEqual(done.stderr.decode(), f"osp plan: {disk}/plan cannot be written: No space left on device\n")


class Signals(Room):
    def test_a_signal_behind_a_round_is_as_the_end_of_the_time(self):
        for number in (signal.SIGINT, signal.SIGTERM, signal.SIGHUP):
            self.answers(ONE, HANGS)
            out = f"{self.room}/out"
            started = self.begun("--seconds", "600", "-o", out, f"{self.room}/s")
            self.until(lambda: "begins gap --workers 4 --nodes 128" in self.notes())
            started.send_signal(number)
            told = started.communicate(timeout=30)
            self.assertEqual((started.returncode, told[0]), (12, b""))
            self.assertEqual(told[1].decode(), "osp plan: stopped: chance 75.000 % ceiling 75.000 %, by a gap plan of 3 records, which osp checkgap accepts\n")
            self.assertEqual(read(out), GAP)
            self.leaves("out")
            os.remove(out)
            os.remove(f"{self.room}/notes")

    def test_a_signal_before_the_first_round_leaves_nothing(self):
        for number in (signal.SIGINT, signal.SIGTERM):
            self.answers(("gap 64", 600, 0, b"", ""))
            out = self.write("out", b"older\n")
            started = self.begun("--seconds", "600", "-o", out, f"{self.room}/s")
            self.until(lambda: os.path.exists(f"{self.room}/notes"))
            started.send_signal(number)
            told = started.communicate(timeout=30)
            self.assertEqual((started.returncode, told), (-number, (b"", b"osp plan: stopped\n")))
            self.assertEqual(read(out), b"older\n")
            self.leaves("out")
            os.remove(f"{self.room}/notes")


class Telling(Room):
    def test_a_line_a_round_on_a_terminal(self):
        self.answers(ONE, ("gap 128", 0, 0, GAP, ""), ("gap 256", 0, 0, CLOSED, ""), ACCEPTED)
        ours, theirs = os.openpty()
        started = self.begun("--seconds", "60", "-o", f"{self.room}/out", f"{self.room}/s", stderr=theirs)
        os.close(theirs)
        told = b""
        try:
            while more := os.read(ours, 4096):
                told += more
        except OSError:
            pass
        os.close(ours)
        self.assertEqual(started.wait(30), 0)
        line = r"osp plan: chance 75\.000 % ceiling 75\.000 % \(round {}, {} records, [0-9]+\.[0-9] s\)\r\n"
        self.assertRegex(told.decode(), "^" + "".join(line.format(*it) for it in ((1, 3), (2, 3), (3, 5))) + "$")
        self.assertEqual(read(f"{self.room}/out"), PLAN)

    def test_a_line_of_json_a_round(self):
        self.answers(ONE, TWO, ACCEPTED)
        status, out, err = self.ran("--seconds", "60", "--json", "yes", "-o", f"{self.room}/out", f"{self.room}/s")
        head = '{"ceiling":"12","chance":"12","path":["a","a"],"records":'
        self.assertEqual((status, err), (0, ""))
        self.assertEqual(out.decode(), f'{head}3,"round":1,"waiting":2,"weight":"16"}}\n{head}5,"round":2,"waiting":0,"weight":"16"}}\n')
        self.assertEqual(read(f"{self.room}/out"), PLAN)


@unittest.skipUnless(IS_BUILT, "the program isn't built")
class Real(unittest.TestCase):
    """By the program itself: what was written is accepted, as the status says."""

    def ran(self, *words):
        done = subprocess.run([PROGRAM, *words], capture_output=True, check=False, stdin=subprocess.DEVNULL)
        return done.returncode, done.stdout, done.stderr.decode()

    def test_a_plan(self):
        with tempfile.TemporaryDirectory() as room:
            scenario = f"{EXAMPLES}/drifting-grid.scenario"
            self.assertEqual(self.ran("plan", "--seconds", "300", "--workers", "1", scenario, "-o", f"{room}/plan"), (0, b"", ""))
            self.assertEqual(self.ran("check", scenario, f"{room}/plan"), (0, b"accepted\n", ""))
            # (The path and its chance are those of examples/, which a second computation gave.)
            self.assertEqual(read(f"{room}/plan").split(b"\n")[:3], read(f"{EXAMPLES}/drifting-grid.plan").split(b"\n")[:3])

    def test_a_gap_plan(self):
        """Whether the proof is finished in the time or not, the check that the status names accepts what was written."""
        with tempfile.TemporaryDirectory() as room:
            scenario = f"{TOP}/bench/scenarios/eleven-16.scenario"
            status, out, err = self.ran("plan", "--seconds", "10", "--workers", "1", scenario, "-o", f"{room}/plan")
            self.assertEqual((status in (0, 12), out), (True, b""), err)
            self.assertEqual(self.ran({0: "check", 12: "checkgap"}[status], scenario, f"{room}/plan"), (0, b"accepted\n", ""))


if __name__ == "__main__":
    unittest.main()
