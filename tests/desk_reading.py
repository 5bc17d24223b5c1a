"""Tests of what helpers read, and of how they end where nobody foresaw what came: pipes, devices, little memory, exceptions."""
import hashlib
import io
import os
import subprocess
import sys
import tempfile
import threading
import unittest
from contextlib import redirect_stderr
from unittest import mock

from desk import guarding, moments, reading, recorded, stopping
from desk.ensemble import at_looks
from desk.keys import BadSituation
from tests.pages import EXAMPLES, PROGRAM, TOP, Room, example, read

KAYAKER = f"{TOP}/examples/situations/kayaker.toml"
# The program that helpers ask.
ASKING = {**os.environ, "OSP": PROGRAM}
TELL = "please tell the project, with the files"
# Few tracks of a situation.
FEW = b"[tracks]\ncount = 1000\n"
# Runs a helper under the guard, as the words say.
GUARDED = f"""import sys
sys.path.insert(0, {TOP!r})
from desk import __main__, guarding
sys.exit(guarding.guarded(sys.argv[1], lambda: __main__.main(sys.argv[1:])))"""


def fed(text):
    """A name from which a text can be read once, as from a pipe of bash; and what closes it."""
    ends = os.pipe()

    def feed():
        with open(ends[1], "wb") as file:
            try:
                file.write(text)
            except BrokenPipeError:
                pass

    thread = threading.Thread(target=feed)
    thread.start()

    def close():
        os.close(ends[0])
        thread.join()

    return f"/dev/fd/{ends[0]}", close


class Names(Room):
    def test_files_pipes_and_standard_input(self):
        """The same bytes, by each way; and one byte too many is told."""
        text = bytes(range(256)) * 9000
        self.write("file", text)
        pipe, close = fed(text)
        self.addCleanup(close)
        self.assertEqual(reading.read(f"{self.room}/file", len(text)), text)
        self.assertEqual(reading.read(pipe, len(text)), text)
        self.assertEqual(reading.begin(f"{self.room}/file", 300), text[:300])
        ask = f"import sys; sys.path.insert(0, {TOP!r}); from desk import reading; sys.stdout.buffer.write(reading.read('-', {len(text)}))"
        for given in (text, b""):
            done = subprocess.run([sys.executable, "-c", ask], input=given, stdout=subprocess.PIPE, check=True)
            self.assertEqual(done.stdout, given)
        with self.assertRaises(reading.TooLong):
            reading.read(f"{self.room}/file", len(text) - 1)
        with self.assertRaises(reading.TooLong):
            reading.read("/dev/zero", 5_000_000)
        self.assertEqual(reading.read("/dev/null", 0), b"")
        self.assertIn(b"processor", reading.read("/proc/cpuinfo", 10_000_000))

    def test_what_is_no_file(self):
        for name, wanted in ((f"{self.room}/none", "No such file or directory"), (self.room, "Is a directory"), ("a\0b", "no file has such a name")):
            with self.assertRaises(OSError) as caught:
                reading.read(name, 10)
            self.assertEqual(reading.why(caught.exception), wanted)

    def test_a_pipe_is_kept_and_read_again(self):
        """Up to a limit, and nothing stays in the folder for such files."""
        pipe, close = fed(b"once" * 100_000)
        self.addCleanup(close)
        with mock.patch.object(tempfile, "tempdir", self.room):
            with reading.seekable(pipe) as file:
                self.assertEqual(hashlib.file_digest(file, "sha1").hexdigest(), hashlib.sha1(b"once" * 100_000).hexdigest())
                file.seek(0)
                self.assertEqual(file.read(8), b"onceonce")
            with mock.patch.object(reading, "MOST_KEPT", 3_000_000), self.assertRaises(reading.TooLong), reading.seekable("/dev/zero"):
                pass
        self.assertEqual(os.listdir(self.room), [])

    def test_no_more_memory_than_what_is_read(self):
        """Helpers at small inputs with 100 MB of addresses."""
        scenario, plan = f"{EXAMPLES}/two-cells.scenario", f"{EXAMPLES}/two-cells.plan"
        situation = self.write("s.toml", read(KAYAKER) + FEW)
        whole = self.guarded(["explain", scenario], 2**40)
        self.assertEqual(whole[0], 0)
        self.assertEqual(self.guarded(["explain", scenario], 100_000_000), whole)
        for words in (["brief", scenario, plan], ["next", scenario, plan], ["draft", situation]):
            self.assertEqual(self.guarded(words, 110_000_000)[0], 0, words)

    def test_where_memory_ends(self):
        """One line and status 70, wherever that is. (With some 16 to 20 MB Python itself doesn't begin, or not the guard.)"""
        situation, ends = self.write("s.toml", read(KAYAKER) + FEW), set()
        for most in range(16_000_000, 56_000_000, 2_000_000):
            status, out, said = self.guarded(["draft", situation], most)
            if status in (0, 70) or ends:
                ends.add(status)
                self.assertEqual(said if status else b"", b"osp draft: there is too little memory\n" if status else b"", most)
                self.assertTrue(status == 0 or out == b"", most)
        self.assertEqual(ends, {0, 70})

    def test_what_nobody_foresaw(self):
        """The guard stands around each helper that the desk runs: one line, and status 70."""
        code = "import sys; from unittest import mock; from desk import __main__ as desk, brief\nwith mock.patch.object(brief, 'main', side_effect=KeyError('x')): sys.exit(desk.main(['brief']))"
        done = subprocess.run([sys.executable, "-c", code], cwd=TOP, capture_output=True, text=True, check=False)
        self.assertEqual((done.returncode, done.stdout), (70, ""))
        self.assertRegex(done.stderr, r"\Aosp brief: it failed at [a-z_]+\.py, line \d+: KeyError: 'x'; please tell the project, with the files\n\Z")

    @staticmethod
    def guarded(words, most):
        """The status, the output and what is said of a helper under the guard, which has so many bytes of addresses."""
        command = ["prlimit", f"--as={most}", sys.executable, "-I", "-B", "-c", GUARDED, *words]
        done = subprocess.run(command, env=ASKING, stdin=subprocess.DEVNULL, capture_output=True, check=False)
        return done.returncode, done.stdout, done.stderr


class Pipes(Room):
    """Helpers by the front door, with what bash makes of <( ), which can be read once."""

    def ran(self, line, *words):
        how = {"stdin": subprocess.DEVNULL, "capture_output": True, "check": False, "timeout": 120}
        done = subprocess.run(["bash", "-c", line, f"{TOP}/osp", *words], cwd=self.room, env=ASKING, **how)
        return done.returncode, done.stdout, done.stderr

    def test_explain(self):
        text, plan = example("two-cells")
        s, both = self.write("s", text), self.write("both", text + plan)
        for its in ((s, "flown", "a"), (both, "flown", "a"), (s, "flown", "q"), (s,), (s, "start", "a")):
            wanted = self.ran('"$0" explain "$@"', *its)
            self.assertEqual(self.ran('x=$1; shift; "$0" explain <(cat "$x") "$@"', *its), wanted)
            self.assertEqual(self.ran('x=$1; shift; "$0" explain - "$@" < "$x"', *its), wanted)
            self.assertEqual(wanted[0], 10 if "q" in its else 0, wanted)

    def test_tracks(self):
        """A file, a pipe and standard input give the same but for the name; what has no end is refused in one line."""
        rows = [f"{at},2026-07-04T{time}:00,{900 + at},{1200 + at}" for at in range(40) for time in ("18:00", "19:30", "22:00")]
        tracks = self.write("e.csv", "\n".join(["id,time,x,y", *rows, ""]).encode())
        dated = read(KAYAKER).replace(b'begins = "19:30"', b'begins = "2026-07-04 19:30"')
        situation = self.write("s.toml", dated + FEW)
        for way, name in (('<(cat "$2")', None), ('- < "$2"', "standard input")):
            status, out, said = self.ran(f'"$0" trial "$1" --pattern all --tracks {way}', situation, tracks)
            wanted = self.ran('"$0" trial "$1" --pattern all --tracks "$2"', situation, tracks)
            self.assertEqual((status, wanted[0], said), (0, 0, b""), wanted)
            name = out.split(b"tracks of ")[1].split(b". Behind")[0] if name is None else name.encode()
            self.assertEqual(b" ".join(out.replace(name, b"e.csv").split()), b" ".join(wanted[1].split()))
        status, out, said = self.ran('"$0" trial "$1" --pattern all --tracks /dev/zero', situation)
        self.assertEqual((status, out), (1, b""))
        self.assertEqual(said, b"osp trial: [tracks] file: zero: what is no file has at most 1,073,741,824 bytes, and this one has more\n")

    def test_one_standard_input(self):
        status, _, said = self.ran('"$0" trial - --pattern all --tracks -')
        self.assertEqual((status, said.splitlines()[0]), (2, b"osp trial: standard input can be read once, and stands for one file"))


class Csv(Room):
    CLOCK = moments.Clock(moments.moment("2026-07-04 12:00"))
    HEAD = b"id,time,x,y\n"

    def ensemble(self, text):
        path = self.write("e.csv", text)
        return at_looks(recorded.recorded(path, self.CLOCK), self.CLOCK, [15.0])

    def refused(self, text):
        with self.assertRaises(BadSituation) as caught:
            self.ensemble(text)
        return str(caught.exception)

    def test_tracks_without_places_count(self):
        """300,000 further ids are too many, also where no place stands behind them; fewer are told."""
        stays = b"a,2026-07-04T12:00,7,8\na,2026-07-04T13:00,7,8\n"
        empty = b"".join(b"n%d,2026-07-04T12:00,,\n" % it for it in range(300_000))
        self.assertIn("it has too many tracks or places: 200,000 tracks", self.refused(self.HEAD + stays + empty))
        found = self.ensemble(self.HEAD + stays + b"".join(empty.splitlines(True)[:1000]))
        self.assertEqual(found.looks, ([(7.0, 8.0)],))
        self.assertIn("1,000 tracks without a place at any time, left out", found.said)

    def test_long_lines(self):
        self.assertIn("line 2 is longer than 65,536 characters", self.refused(self.HEAD + b"a" * 70_000))
        self.assertIn("line 1 is longer than 65,536 characters", self.refused(bytes(70_000)))


class Unforeseen(unittest.TestCase):
    """What the guard makes of exceptions: a status that isn't 1, and one line."""

    def guarded(self, wrong):
        def run():
            raise wrong

        said = io.StringIO()
        # (The guard lets standard output go nowhere, and hooks of exceptions say nothing: both would outlast the case.)
        hooks = mock.patch.object(sys, "unraisablehook"), mock.patch.object(threading, "excepthook")
        with hooks[0], hooks[1], mock.patch.object(guarding.running, "silence"), redirect_stderr(said):
            return guarding.guarded("draft", run), said.getvalue()

    def test_each(self):
        rows = (
            (MemoryError(), 70, "osp draft: there is too little memory\n"),
            (OSError(12, "Cannot allocate memory"), 70, "osp draft: there is too little memory\n"),
            (RecursionError("maximum"), 70, "osp draft: what it was given stands too deep in itself\n"),
            (BrokenPipeError(32, "Broken pipe"), 6, "write fault: Broken pipe\n"),
            (OSError(28, "No space left on device", "a\u202eb"), 70, "osp draft: it failed: a\\u202eb: No space left on device\n"),
            (ZeroDivisionError("by\n\x1b[2Jnought"), 70, f"osp draft: it failed: ZeroDivisionError: by\\n\\x1b[2Jnought; {TELL}\n"),
        )
        for wrong, status, line in rows:
            with self.subTest(line):
                self.assertEqual(self.guarded(wrong), (status, line))
        self.assertLess(len(self.guarded(ValueError("x" * 10**6))[1]), 400)

    def test_where(self):
        """The line of the helper at which it came up is told."""
        try:
            moments.moment("never")
        except ValueError as it:
            status, line = self.guarded(it)
        self.assertEqual(status, 70)
        self.assertRegex(line, rf"\Aosp draft: it failed at moments\.py, line \d+: ValueError: no time; {TELL}\n\Z")

    def test_signals_and_ends_go_on(self):
        with self.assertRaises(stopping.Stopped) as caught:
            self.guarded(KeyboardInterrupt())
        self.assertEqual(caught.exception.number, 2)
        for it in (stopping.Stopped(15), SystemExit(3)):
            with self.assertRaises(type(it)):
                self.guarded(it)

    def test_no_memory_for_the_line(self):
        ends = os.pipe()
        kept = os.dup(2)
        os.dup2(ends[1], 2)
        try:
            with mock.patch.object(guarding.running, "say", side_effect=MemoryError):
                self.assertEqual(self.guarded(ValueError())[0], 70)
        finally:
            os.dup2(kept, 2)
            os.close(kept)
            os.close(ends[1])
        with open(ends[0], "rb") as file:
            self.assertEqual(file.read(), guarding.SHORT)

    def test_an_answer_goes_on(self):
        with mock.patch.object(sys, "unraisablehook"), mock.patch.object(threading, "excepthook"):
            self.assertEqual([guarding.guarded("draft", lambda it=it: it) for it in (0, 1, 12)], [0, 1, 12])


if __name__ == "__main__":
    unittest.main()
