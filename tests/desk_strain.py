"""Tests of all helpers under strain, by the front door: full disks, closed streams, one file for two things, signals, odd names and
letters; their words, pages, statuses and limits."""
import itertools
import math
import os
import re
import signal
import subprocess
import sys
import tempfile
import time
import unittest
from fractions import Fraction
from unittest import mock

from desk import __main__ as desk
from desk import explain, faults, forms, layout, limits, paths, quoting, status, wording, writing
from door import table
from tests import web
from tests.pages import EXAMPLES, IS_BUILT, TOP, comments_of, example, read, walks

OSP = f"{TOP}/osp"
SITUATION = f"{TOP}/examples/situations/kayaker.toml"
SMALL_DISK = os.geteuid() == 0 and not subprocess.run(["unshare", "-m", "true"], check=False, capture_output=True).returncode
# In the place of ./osp: it notes that it runs, and goes on for ten minutes.
HANGS = '#!/bin/sh\necho $$ > "$(dirname "$0")/pid"\nexec sleep 600\n'
# Three cells in a row, from which the searcher may step to the next one alone; a position has a name that looks like an option.
ROW = b"""scenario 2
horizon 3
parts 2 4 2
cell a
cell b
position -o
position b
position c
start -o
first a 1 b 1
moves -o -o b
moves b -o b c
moves c b c
drift a a 3 b 1
drift b a 1 b 3
look -o a 1
look b b 1
look c a 0
end
"""


class Strained(unittest.TestCase):
    """A folder for files, and runs of the front door in it."""

    def setUp(self):
        room = tempfile.TemporaryDirectory()
        self.addCleanup(room.cleanup)
        self.room = room.name

    def write(self, name, text, mode=0o644):
        path = os.path.join(self.room, name)
        with open(path, "wb") as file:
            file.write(text)
        os.chmod(path, mode)
        return path

    def ran(self, *words, **how):
        """The status of ./osp with these words, its output, and what it said."""
        how = {"stdin": subprocess.DEVNULL, "stdout": subprocess.PIPE, "stderr": subprocess.PIPE, "cwd": self.room, **how}
        done = subprocess.run([OSP, *words], check=False, timeout=300, **how)
        return done.returncode, (done.stdout or b"").decode(), (done.stderr or b"").decode()


class Streams(Strained):
    @unittest.skipUnless(SMALL_DISK, "a small disk can be made by root alone")
    def test_a_full_disk_also_without_buffers(self):
        """Each ends with status 6 and one line, and what it left isn't taken for an answer; with -o nothing is left."""
        disk = f"{self.room}/disk"
        os.mkdir(disk)
        scenario, plan = f"{EXAMPLES}/drifting-grid.scenario", f"{EXAMPLES}/drifting-grid.plan"
        env = {**os.environ, "PYTHONUNBUFFERED": "1"}
        line = 'mount -t tmpfs -o size=4k none "$0" && head -c 3800 /dev/zero > "$0/zeros"; "$@" > "$0/out"; status=$?; shift; exit $status'
        for words in (["show", scenario, plan], ["brief", scenario, plan], ["draft", SITUATION], ["next", scenario, plan, "--flown", "2"]):
            for command in ([OSP, *words], [sys.executable, "-u", "-B", "-m", "desk", *words]):
                done = subprocess.run(["unshare", "-m", "sh", "-c", line, disk, *command], cwd=TOP, env=env, capture_output=True, check=False)
                self.assertEqual((done.returncode, done.stderr.decode().splitlines()[-1]), (6, "write fault: No space left on device"), words)
        line = 'mount -t tmpfs -o size=4k none "$0" && "$@" -o "$0/page"; status=$?; ls -A "$0"; exit $status'
        done = subprocess.run(["unshare", "-m", "sh", "-c", line, disk, OSP, "show", scenario, plan], env=env, capture_output=True, check=False)
        self.assertEqual((done.returncode, done.stdout), (6, b""), done.stderr)

    def test_closed_streams(self):
        files = f"{EXAMPLES}/two-cells.scenario", f"{EXAMPLES}/two-cells.plan"
        whole = self.ran("brief", *files)
        self.assertEqual((whole[0], whole[2]), (0, ""))
        for closed, wanted in ((">&-", (6, "", "write fault: standard output is closed\n")), ("2>&-", (0, whole[1], "")), ("<&-", whole), (">&- 2>&-", (6, "", ""))):
            for command in (OSP, f"{sys.executable} -I -B {TOP}/desk/__main__.py"):
                done = subprocess.run(["bash", "-c", f'{command} brief "$@" {closed}', "bash", *files], capture_output=True, check=False)
                self.assertEqual((done.returncode, done.stdout.decode(), done.stderr.decode()), wanted, (closed, command))
        with open("/dev/full", "wb") as full:
            self.assertEqual(self.ran("brief", stderr=full)[0], 2)
            self.assertEqual(self.ran("brief", *files, stderr=full)[:2], whole[:2])

    def test_one_file_for_two_things(self):
        """By name, by standard input and output, and by -o: one line, status 70, and the file stays."""
        text, plan = example("two-cells")
        s, p = self.write("s", text), self.write("p", plan)
        for words, given, out in (
            (["plan", "-", "-o", s], s, None),
            (["plan", "-o", s], s, None),
            (["brief", "-", p, "-o", s], s, None),
            (["check", "-", p, "-o", s], s, None),
            (["plan", "--seconds", "9", "-o", s], s, None),
            (["plan", s], None, s),
            (["show", s, p], None, p),
            (["explain", "-"], s, s),
        ):
            with self.subTest(words):
                how = {}
                if given:
                    how["stdin"] = open(given, "rb")
                if out:
                    # (As >> opens it: what > has emptied by then nothing can bring back.)
                    how["stdout"] = open(out, "ab")
                status_of, _, said = self.ran(*words, **how)
                for it in how.values():
                    it.close()
                self.assertEqual(status_of, 70, said)
                self.assertRegex(said, r"\Aosp: .*(is read|standard input).*\n\Z")
                self.assertEqual((read(s), read(p)), (text, plan))


class Signals(Strained):
    """A signal in the middle of each helper: one line, the signal's own end (128 and its number for a shell), nothing left behind."""

    FILES = (f"{EXAMPLES}/two-cells.scenario", f"{EXAMPLES}/two-cells.plan")

    def stopped(self, words, begun, feed=None, number=signal.SIGINT):
        env = {**os.environ, "OSP": f"{self.room}/osp"}
        how = {"stdin": subprocess.DEVNULL, "stdout": subprocess.PIPE, "stderr": subprocess.PIPE, "cwd": self.room, "env": env}
        with subprocess.Popen([OSP, *words], start_new_session=True, **how) as started:
            try:
                begun()
                started.send_signal(number)
                out, said = started.communicate(timeout=120)
            finally:
                try:
                    os.killpg(started.pid, signal.SIGKILL)
                except OSError:
                    pass
        self.assertEqual((started.returncode, out, said.decode()), (-number, b"", f"osp {words[0]}: stopped\n"), words)

    def begins(self):
        """Waits until the made program runs."""
        ends = time.monotonic() + 120
        while not os.path.exists(f"{self.room}/pid") or not read(f"{self.room}/pid").endswith(b"\n"):
            self.assertLess(time.monotonic(), ends)
            time.sleep(0.02)

    def is_gone(self, pid):
        ends = time.monotonic() + 20
        while os.path.exists(f"/proc/{pid}") and time.monotonic() < ends:
            time.sleep(0.02)
        return not os.path.exists(f"/proc/{pid}")

    def test_while_the_program_runs(self):
        self.write("osp", HANGS.encode(), 0o755)
        parts = self.ran("split", "1", self.FILES[0], f"{self.room}/parts", env={**os.environ, "OSP": f"{EXAMPLES}/none"})
        self.assertEqual(parts[0], 0, parts)
        for it in ("1", "2"):
            self.write(f"parts/parts/{it}", read(self.FILES[0]))
        before = sorted(os.listdir(self.room))
        for words in (["next", *self.FILES], ["show", *self.FILES], ["brief", *self.FILES], ["explain", *self.FILES], ["explain", self.FILES[0], "flown", "a"], ["join", f"{self.room}/parts"], ["brief", *self.FILES, "-o", f"{self.room}/new"]):
            for number in (signal.SIGINT, signal.SIGTERM):
                with self.subTest(words=words, number=number):
                    self.stopped(words, self.begins, number=number)
                    self.assertTrue(self.is_gone(int(read(f"{self.room}/pid"))))
                    os.remove(f"{self.room}/pid")
                    self.assertEqual(sorted(os.listdir(self.room)), before)

    def test_while_a_file_is_read_and_while_drifts_are_simulated(self):
        self.write("osp", HANGS.encode(), 0o755)
        os.mkfifo(f"{self.room}/slow")
        for words, given, wait in ((["draft", "slow"], b"", 1.0), (["draft", "slow"], read(SITUATION), 0.5), (["trial", "slow", "--pattern", "all"], read(SITUATION), 0.5), (["split", "1", "slow", "parts"], b"", 1.0)):
            with self.subTest(words=words, wait=wait):

                def begun(given=given, wait=wait):
                    # (This waits until the helper opens the pipe; where all of it is written, the helper goes on. Behind the wait it reads:
                    # a signal just before a call that blocks is seen when that call ends.)
                    with open(f"{self.room}/slow", "wb") as file:
                        file.write(given)
                        if not given:
                            held.append(os.dup(file.fileno()))
                    time.sleep(wait)

                held = []
                try:
                    self.stopped(words, begun)
                finally:
                    for it in held:
                        os.close(it)
                self.assertEqual(sorted(os.listdir(self.room)), ["osp", "slow"])


class Letters(Strained):
    def test_a_title_that_begins_as_another_comment(self):
        """The title stands in the scenario in quotes, is told on the page, and gives no place."""
        for title in ("at r0c0 7 7", "at lunch", "earth 1 2 3 4"):
            text = re.sub(rb'(?m)^title = .*$', f'title = "{title}"'.encode(), read(SITUATION))
            self.assertIn(title.encode(), text)
            ended, out, said = self.ran("draft", self.write("s.toml", text))
            self.assertEqual((ended, out.splitlines()[0]), (0, f'# "{title}"'), said)
            self.assertNotEqual(layout.places_told(out.encode()).get(b"r0c0"), (7.0, 7.0))
            if web.NODE:
                self.assertIn(title, comments_of(out.encode()))

    def test_nothing_steers_a_terminal(self):
        text = read(SITUATION) + "# here \u202elalom \u2067 and \u200f there\n".encode()
        ended, out, said = self.ran("draft", self.write("s.toml", text))
        self.assertEqual(ended, 0, said)
        self.assertIn("# | # here \N{REPLACEMENT CHARACTER}lalom", out)
        self.assertEqual([it for it in out if it in "\u202e\u2067\u200f"], [])
        self.assertEqual(writing.comment_line(b"a\x1b[31m\x07b\xc2\x9bc"), "# a\N{REPLACEMENT CHARACTER}[31m\N{REPLACEMENT CHARACTER}b\N{REPLACEMENT CHARACTER}c".encode())
        # What is quoted of a user's own words, and of the names of files, is told as escapes.
        for words, wanted in (
            (["brief", "\x1b[2Jn\u202eone", "plan"], r"cannot read \x1b[2Jn\u202eone: No such file or directory"),
            (["explain", b"\xff"], r"cannot read \xff: No such file or directory"),
        ):
            self.assertIn(wanted, self.ran(*words)[2])
        self.assertEqual(quoting.harmless("a\x1b\u202e\u2066\u2028\u200b\x9b\udcff"), r"a\x1b\u202e\u2066\u2028\u200b\x9b\xff")
        self.assertEqual(quoting.word("a\tb\n"), r"a\tb\n")
        # The front door cuts long names, too, and takes none of more than 4096 letters.
        said = self.ran("brief", "n" * 4_000, "plan")[2]
        self.assertRegex(said, r"cannot read n+ \.\..*: File name too long")
        self.assertLess(len(said), 400)
        said = self.ran("brief", "n" * 100_000, "plan")[2]
        self.assertRegex(said, r"\Aosp: n+ \.\. \(100000 letters\) is no word of brief: the longest has 4096 letters\n\Z")
        self.assertLess(len(said), 400)
        self.assertEqual(quoting.harmless("a\tb\nc \u00e9 \u05d0"), "a\tb\nc \u00e9 \u05d0")

    def test_a_folder_with_a_line_feed(self):
        """The words that split says name the folder, for bash."""
        for name in ("two\nlines", "it's", "\x1b[2J\\x", b"\xff"):
            folder = os.fsencode(self.room) + b"/" + os.fsencode(name)
            ended, out, said = self.ran("split", "1", f"{EXAMPLES}/two-cells.scenario", os.fsdecode(folder))
            self.assertEqual((ended, out.splitlines()[-1][:11]), (0, "  osp join "), said)
            word = out.splitlines()[-1].removeprefix("  osp join ")
            self.assertTrue(word.isprintable())
            self.assertEqual(subprocess.run(["bash", "-c", f"printf %s {word}"], capture_output=True, check=True).stdout, folder)

    @unittest.skipUnless(IS_BUILT, "the program isn't built")
    def test_a_position_that_is_named_like_an_option(self):
        """Behind flown all words are names, of helpers, too; a job of split that has it is run, and joined."""
        s = self.write("s", ROW)
        self.assertEqual(self.ran("explain", s, "flown", "-o", "b")[:2], (0, "the scenario is right, and so are the names\n"))
        self.assertEqual(self.ran("explain", s, "flown", "-o", "c")[0], 10)
        self.assertEqual(self.ran("map", s, "flown", "-o")[1].splitlines()[1], "period 1 -o")
        for words in (["--flown", "-o,b"], ["--flown=-o,b"]):
            self.assertIn("start b\n", self.ran("next", s, *words)[1])
        self.assertEqual(self.ran("split", "1", s, f"{self.room}/parts")[0], 0)
        for it in read(f"{self.room}/parts/jobs").decode().splitlines():
            subprocess.run(["sh", "-c", it], cwd=f"{self.room}/parts", check=True, capture_output=True)
        ended, out, said = self.ran("join", f"{self.room}/parts")
        value, path = paths.best(forms.read_scenario(ROW, True)[0])
        self.assertEqual((ended, out.splitlines()[0]), (0, "path " + " ".join(("-o", "b", "c")[it] for it in path)), said)
        self.assertEqual(out.splitlines()[1].split()[1], str(value))


class Explained(Strained):
    def test_guesses_are_bounded(self):
        """Thousands of unknown names: a name that is meant is looked for a few times alone."""
        cells, rows = (f"cell c{it}\n" for it in range(200)), (f"moves x{it} y{it} z{it}\n" for it in range(1000))
        text = f"scenario 1\nhorizon 3\nparts 2 10 10\n{''.join(cells)}start c0\nfirst c0 2\n{''.join(rows)}end\n".encode()
        with mock.patch.object(wording.difflib, "get_close_matches", wraps=wording.difflib.get_close_matches) as guessed:
            found = faults.survey(text)
        self.assertEqual(len([it for it in found if it.kind == "UnknownName"]), 3000)
        self.assertLessEqual(guessed.call_count, 2 * faults.MOST_NEAR)
        self.assertGreater(guessed.call_count, 0)

    def test_one_fault_in_many_lines_is_told_once(self):
        """22 rows whose parts sum to twice the denominator, each in other words."""
        names = [f"c{it}" for it in range(22)]
        rows = [*(f"moves {it} {it}" for it in names), *(f"drift {it} {it} {12 + at % 3} c21 {8 - at % 3}" for at, it in enumerate(names[:-1])), "drift c21 c21 20", *(f"overlook {it} 1" for it in names)]
        text = "\n".join(["scenario 1", "horizon 2", "parts 2 10 10", *(f"cell {it}" for it in names), "start c0", "first c0 2", *rows, "end", ""]).encode()
        found = faults.survey(text)
        self.assertEqual({it.kind for it in found}, {"WrongSum"})
        told = explain.of_faults(found, faults.lines_of(text))
        self.assertEqual(len(told), 3, told)
        self.assertIn("WrongSum: the parts sum to 20, and D is 10: 10 too much", told[1])
        self.assertTrue(told[1].endswith("(and 21 more lines such as this: lines 51 to 71)"), told[1])
        self.assertEqual(told[2], "22 faults")

    def test_sizes(self):
        """How many legal prefixes there are, by listing all walks one by one."""
        for name in ("two-cells", "night", "swath"):
            text, plan = example(name)
            sc = forms.read_scenario(text, True)[0]
            count = sum(paths.is_legal(sc, list(it)) for length in range(sc.horizon + 1) for it in itertools.product(range(len(sc.positions)), repeat=length)) if len(sc.positions) ** sc.horizon < 200_000 else None
            records = [it.split(b" ")[0] for it in plan.split(b"\n")[4:-2]]
            first, second = explain.sizes(sc, forms.read_plan(plan, sc))
            if count is not None:
                self.assertTrue(first.startswith(f"legal prefixes: {count:,}, from the empty one to "), first)
            self.assertTrue(second.startswith(f"records: {len(records):,}, of them "), second)
            for letter, (one, many) in explain.RECORDS.items():
                if wanted := records.count(letter):
                    self.assertIn(f"{wanted:,} {one if wanted == 1 else many}", second)

    def test_a_boat_that_was_where_no_move_leads(self):
        """`explain` says what to do, and `next` does it: its chances are those of the tracks that two looks missed, by listing them."""
        s = self.write("s", ROW)
        ended, out, _ = self.ran("explain", s, "flown", "c", "-o") if IS_BUILT else (10, "`./osp next SCENARIO --flown c,-o` goes on", "")
        self.assertEqual(ended, 10)
        self.assertIn("`./osp next SCENARIO --flown c,-o` goes on", out)
        ended, out, said = self.ran("next", s, "--flown", "c,-o")
        self.assertEqual(ended, 0, said)
        sc, found = forms.read_scenario(ROW, True)[0], Fraction(0)
        new = forms.read_scenario(out.encode(), True)[0]
        left = [Fraction(0)] * 2
        # (A look from c never misses a target in a, and one from -o misses it 1 time of 2.)
        for walk, chance in walks(sc):
            missed = chance * (0 if walk[0] == 0 else 1) * (Fraction(1, 2) if walk[1] == 0 else 1)
            found += chance - missed
            left[walk[2]] += missed
        self.assertIn(f"osp next: P1, the chance that the 2 periods flown find the target, is {int(found * 100_000) / 1000:.3f} percent: {found}\n", said)
        self.assertEqual([Fraction(it, new.parts[0]) for it in new.first], [it / sum(left) for it in left])
        self.assertEqual((new.positions[new.start], new.horizon), (b"-o", 1))
        self.assertIn("period 1 goes from -o to c, and the moves from -o are -o, b", said)
        for words, wanted, says in ((["--flown", "b,q"], 10, "`q` isn't a position"), (["--flown", "b,,b"], 2, "with a comma between"), ([s, "--flown", "b,b"], 2, "in place of a plan"), ([], 4, "no plan stands behind")):
            ended, out, said = self.ran("next", s, *words)
            self.assertEqual((ended, out), (wanted, ""), said)
            self.assertIn(says, said)


@unittest.skipUnless(IS_BUILT, "the program isn't built")
class Made(Strained):
    """Files that have a scenario and its plan."""

    def test_check_and_report_take_one(self):
        made = f"{EXAMPLES}/night-two.made"
        self.assertEqual(self.ran("check", made), (0, "accepted\n", ""))
        with open(made, "rb") as given:
            self.assertEqual(self.ran("report", made), self.ran("report", stdin=given))
        ended, _, said = self.ran("check", f"{EXAMPLES}/night.scenario")
        self.assertEqual(ended, 2)
        self.assertIn("reads SCENARIO PLAN", said)

    def test_replan_map_and_next_take_one(self):
        """What was flown so far, and one period more: the same as from the first scenario."""
        s, made = f"{EXAMPLES}/drifting-grid.scenario", f"{EXAMPLES}/drifting-grid-flown.made"
        path = read(made).split(b"\npath ")[1].split(b"\n")[0].decode().split()
        flown = sum(it.startswith("flown-") for it in path)
        first = self.of_first(s, made, flown)
        names = [*first, path[flown]]
        for command in ("replan", "map"):
            behind = ["--workers", "1"] if command == "replan" else []
            wanted = self.ran(command, s, *behind, "flown", *names)
            self.assertEqual(self.ran(command, made, *behind, "flown", *names)[:2], wanted[:2])
        # `next` behind all flown periods and one more, beside `next` by the names of these positions.
        mine, theirs = self.ran("next", made, "--flown", str(flown + 1)), self.ran("next", s, "--flown", ",".join(names))
        self.assertEqual(forms.read_scenario(mine[1].encode(), True)[0].key(), forms.read_scenario(theirs[1].encode(), True)[0].key())

    def of_first(self, s, made, flown):
        """The positions of the first scenario that were flown, of which `replan` makes this file again."""
        sc = forms.read_scenario(read(s), True)[0]
        for it in paths.prefixes(sc, flown):
            names = [sc.positions[at].decode() for at in it]
            text = self.ran("replan", s, "--workers", "1", "flown", *names)[1] if names[0] == "r0c1" else ""
            if text.encode() == read(made):
                return names
        self.fail("replan makes no such file")

    def test_the_other_check_is_named(self):
        s, plan, gap = (f"{EXAMPLES}/two-cells.{it}" for it in ("scenario", "plan", "gap"))
        for words, said in ((["check", s, gap], f"osp: {gap} is a gap plan, which check does not read: ./osp checkgap {s} {gap} reads it\n"), (["checkgap", s, plan], f"osp: {plan} is a plan, which checkgap does not read: ./osp check {s} {plan} reads it\n")):
            self.assertEqual(self.ran(*words), (4, "", f"bad plan: line 1 BadLine\n{said}"))


class Words(Strained):
    def test_each_has_its_own_page(self):
        """The usage line and what it does are those of the front door's table; a page is as wide on each terminal."""
        rows = table.HELPERS
        self.assertEqual({it[0].split()[0] for it in rows} | {"alone"}, set(desk.HELPERS))
        for words, does, _ in rows:
            name = words.split()[0]
            asked = [name, "--seconds", "1", "--help"] if name == "plan" else [name, "--help"]
            ended, out, said = self.ran(*asked, env={**os.environ, "COLUMNS": "40"})
            self.assertEqual((ended, said), (0, ""))
            self.assertEqual(out.splitlines()[0], f"usage: osp {words}")
            self.assertIn(does, " ".join(out.split("\n\n")[1].split()))
            for option in re.findall(r"--[a-z]+", words):
                self.assertRegex(out, rf"(?m)^  {option}\b")

    def test_words_that_are_meant(self):
        for word, meant in (("paln", "plan"), ("drfat", "draft"), ("breif", "brief"), ("--verison", "--version"), ("chek", "check")):
            self.assertEqual(self.ran(word), (2, "", f"osp: {word} is no command: is {meant} meant? ./osp --help shows all\n"))
        self.assertEqual(self.ran("xyzzy"), (2, "", "osp: xyzzy is no command: ./osp --help shows all\n"))
        self.assertIn("there is no such option as --flwon: is --flown meant?", self.ran("next", "a", "b", "--flwon", "4")[2])
        self.assertEqual(self.ran("-V"), self.ran("--version"))

    def test_an_option_with_its_value_behind_an_equals_sign(self):
        files = f"{EXAMPLES}/two-cells.scenario", f"{EXAMPLES}/two-cells.plan"
        self.assertEqual(self.ran("next", *files, "--flown=1"), self.ran("next", *files, "--flown", "1"))
        self.assertEqual(self.ran("next", *files, "--flown=1")[0], 0)

    def test_statuses_are_one_table(self):
        """The enumeration of the desk, and the table of docs/COMMANDS.md."""
        text = read(f"{TOP}/docs/COMMANDS.md").decode().split("| status | of a helper |")[1].split("\n\n")[0]
        self.assertEqual([int(it) for it in re.findall(r"(?m)^\| (\d+) \|", text)], [int(it) for it in status.Status])

    def test_limits_are_those_of_the_documents(self):
        text = read(f"{TOP}/docs/FORMATS.md").decode().split("### Limits")[1].split("**Periods by denominators.**")[0].replace(",", "")
        for row, wanted in (
            ("cells", limits.MOST_CELLS),
            ("positions of the searcher", limits.MOST_CELLS),
            ("periods", limits.MOST_PERIODS),
            ("moves from a cell or position", limits.MOST_MOVES),
            ("each number of `parts`", limits.MOST_PART),
            ("records of a plan", limits.MOST_NODES),
            ("closed records that `gap` makes", limits.MOST_GAP_RECORDS),
            ("names of flown positions", limits.MOST_NAMES),
            ("for two searchers", limits.MOST_IN_PAIRS),
        ):
            self.assertRegex(text, rf"(?m)^\| {re.escape(row)} \| {wanted}\b")
        self.assertIn(f"up to {limits.MOST_GAP_NODES} nodes", text)
        self.assertEqual((limits.MOST_MOVES_EACH, limits.FINEST_LOOK, limits.MOST_SCENARIO), (8, 1000, 2**20))
        self.assertIn(f"so {limits.MOST_MOVES_EACH} moves from each position), {limits.FINEST_LOOK} as".replace(",", ""), text)
        self.assertIn(f"{limits.MOST_INPUT:,} for `check`", read(f"{TOP}/docs/COMMANDS.md").decode())
        self.assertEqual(math.isqrt(limits.MOST_PART), 1000)


if __name__ == "__main__":
    unittest.main()
