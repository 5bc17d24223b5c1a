"""What the tests of the front door share: runs, signals, and a made repository with stand-ins for rt and the program, in which a case is."""
import os
import shutil
import signal
import subprocess
import tempfile
import time
import unittest

TOP = os.path.dirname(os.path.dirname(os.path.realpath(__file__)))
EXAMPLES = os.path.join(TOP, "examples")
# How the script begins the line that says that a run is unproved, and its status where it failed itself.
UNPROVED = "osp: unproved run, since "
FAILED = 70
# Those that a terminal or a session sends.
SIGNALS = (signal.SIGTERM, signal.SIGINT, signal.SIGHUP)
NOBODY = 65534
# What holds outside of a case.
HOLDS = unittest.TestCase()

# In the place of `rt`: it notes its words, and does as its mood says.
STAND_IN_RT = r"""#!/bin/sh
echo "$(basename "$PWD") $*" >> "$HOUSE/calls"
verb=$1
[ "$verb" = version ] && { echo 'made-kit 1'; exit; }
[ $# -lt 2 ] || shift 2
case "$verb/$(cat "$HOUSE/mood")" in
  lib/fails) [ "$(basename "$PWD")" != middle ] || { echo 'middle is wrong'; exit 1; } ;;
  lib/edits) echo '// more' >> src/lib.rt ;;
  */hangs) echo $$ > "$HOUSE/pid"; exec sleep 600 ;;
  lib/*) ;;
  run/*) mkdir -p out; cp "$HOUSE/program" out/osp; exec out/osp "$@" ;;
  try/long) echo 'checked: no-answer: the program wrote more than 1048576 bytes to standard output' >&2; exit 6 ;;
  try/slow) echo 'checked: no-answer: the program did not end within the time limit' >&2; exit 6 ;;
  try/wrong) echo '/a/src/lib.rt:2:10: error[unclosed-delimiter]: unclosed' >&2; echo 'run=none proved=no' >&2; exit 1 ;;
  try/broken) echo 'run=fault proved=no' >&2; exit 4 ;;
  try/*)
    [ -f /dev/stdin ] || [ ! -s /dev/stdin ] || { echo 'not a file' >&2; exit 2; }
    "$HOUSE/program" "$@"
    status=$?
    echo 'interpreter: no-answer: a call' >&2
    echo "checked: ended status=$status" >&2
    echo "run=ended status=$status runners=1 proved=no" >&2
    exit "$status" ;;
esac
"""

# In the place of the program: it writes its words and its input, or ends as the first word says.
STAND_IN_PROGRAM = r"""#!/bin/sh
case "$1" in
  plan) printf 'words'; printf ' <%s>' "$@"; echo; exec cat ;;
  check) echo 'bad scenario: line 3 BadNumber' >&2; exit 3 ;;
  wait) echo $$ > "$HOUSE/pid"; exec sleep 600 ;;
  *) echo 'usage: osp ..' >&2; exit 2 ;;
esac
"""


# In the place of the desk: it says where it runs and with which words, or ends as a word says.
STAND_IN_DESK = r"""import os, sys
if sys.argv[-1:] == ["fails"]:
    print("half")
    sys.exit("it is wrong")
if sys.argv[-1:] == ["dies"]:
    sys.exit("it is wrong")
if sys.argv[-1:] == ["faults"]:
    print("line 3 is wrong")
    sys.exit(3)
print(*sys.argv[1:], sep="|")
desk = os.path.dirname(os.path.realpath(__file__))
print(desk, os.path.dirname(desk), bool(sys.flags.isolated))
"""


class Ran:
    """What a run came to."""

    def __init__(self, status, out, err):
        self.status, self.out, self.err = status, out.decode(errors="replace"), err.decode(errors="replace")

    def gives(self, status, out=None, err=None):
        """Holds it against a status, a whole output, and a part of what it says ("" for nothing)."""
        said = f"status {self.status}, out {self.out[:300]!r}, err {self.err[:400]!r}"
        HOLDS.assertEqual(self.status, status, said)
        HOLDS.assertTrue(out is None or self.out == out, f"out {out!r} is wanted: {said}")
        HOLDS.assertTrue(err is None or (err in self.err if err else self.err == ""), f"err {err!r} is wanted: {said}")
        return self

    def fails(self, part):
        """Holds it against a failure of the script: nothing is written, and one line says what happened."""
        self.gives(FAILED, None, part)
        lines = [it for it in self.err.splitlines() if not it.startswith(UNPROVED)]
        HOLDS.assertTrue(len(lines) == 1 and lines[0].startswith("osp: "), f"one line of the script's own is wanted: {self.err!r}")
        return self

    def refuses(self, part):
        """Holds it against a refusal of its words: status 2, and one line that names the wrong one."""
        self.gives(2, "", part)
        HOLDS.assertTrue(self.err.startswith("osp: ") and self.err.count("\n") == 1, f"one line is wanted: {self.err!r}")
        return self


def at_start(closed):
    """What a child does first: signals act as in a terminal, and these streams are closed."""

    def act():
        for each in (signal.SIGINT, signal.SIGTERM, signal.SIGHUP):
            signal.signal(each, signal.SIG_DFL)
        for each in closed:
            os.close(each)

    return act


def run(words, given=b"", closed=(), out=subprocess.PIPE, **how):
    """Runs words on an input, bytes or an open file, with some of the streams 0, 1, 2 closed."""
    how = {"timeout": 200, "input" if isinstance(given, bytes) else "stdin": given, **how}
    done = subprocess.run(words, stdout=out, stderr=subprocess.PIPE, preexec_fn=at_start(closed), **how)
    return Ran(done.returncode, done.stdout or b"", done.stderr or b"")


def left_in(folder):
    """The processes that run in a folder, or name it."""
    found = []
    for pid in filter(str.isdigit, os.listdir("/proc")):
        try:
            where = os.readlink(f"/proc/{pid}/cwd")
            with open(f"/proc/{pid}/cmdline", "rb") as file:
                words = file.read()
        except OSError:
            continue
        if int(pid) != os.getpid() and (where.startswith(folder) or os.fsencode(folder) in words):
            found.append(f"{pid}: {words.decode(errors='replace')}")
    return found


def until(holds, seconds=10):
    ends = time.monotonic() + seconds
    while not holds() and time.monotonic() < ends:
        time.sleep(0.02)
    return holds()


def stopped_by(number, words, begun, folder, given=subprocess.DEVNULL, **how):
    """Starts words, sends a signal once they have begun, and wants them to end by it with nothing left running."""
    how = {"stdout": subprocess.PIPE, "stderr": subprocess.PIPE, "preexec_fn": at_start(()), **how}
    with subprocess.Popen(words, stdin=given, start_new_session=True, **how) as started:
        try:
            HOLDS.assertTrue(until(begun, 60), "it didn't begin")
            started.send_signal(number)
            started.communicate(timeout=30)
            HOLDS.assertEqual(started.returncode, -number, "it didn't end by the signal")
            HOLDS.assertTrue(until(lambda: not left_in(folder)), f"left running: {left_in(folder)}")
        finally:
            try:
                os.killpg(started.pid, signal.SIGKILL)
            except OSError:
                pass


class House:
    """A made repository: the script as it is, four crates, and the stand-ins. There are blanks in its path."""

    CRATES = "# the lowest\nlow:\nother: low\n\nmiddle: low  # stands on low\nosp: middle low some_kit_crate\n"

    def __init__(self, room):
        self.at = os.path.join(room, "a house", "with  blanks")
        self.bin, self.tmp = os.path.join(self.at, "bin"), os.path.join(room, "a house", "tmp")
        for folder in (self.bin, self.tmp, f"{self.at}/examples"):
            os.makedirs(folder)
        self.script = shutil.copy(os.path.join(TOP, "osp"), self.at)
        shutil.copytree(os.path.join(TOP, "door"), os.path.join(self.at, "door"), ignore=shutil.ignore_patterns("__pycache__"))
        self.add_row("wait", "", "waits, for tests", "./osp wait")
        for name in ("low", "other", "middle", "osp"):
            for part in ("src/lib.rt", "specs/Lib.antt", "proofs/Lib.antt"):
                self.write(f"crates/{name}/{part}", f"{name} {part}\n")
        self.write("crates.txt", self.CRATES)
        self.write("bin/rt", STAND_IN_RT, 0o755)
        self.write("program", STAND_IN_PROGRAM, 0o755)
        self.write("examples/one-cell.scenario", "one cell\n")
        self.write("examples/one-cell.plan", "words <plan>\none cell\n")
        self.write("desk/__main__.py", STAND_IN_DESK)
        self.write("VERSION", "0.0.7\n")
        self.write("KIT", "# kits\nmade-kit  0123456  2026-01-02\n")
        self.write("mood", "well")

    def add_row(self, *row):
        """Puts a row before the others of the script's table of commands: its words, its files, what it does, an example."""
        text = read(f"{self.at}/door/table.py").decode()
        HOLDS.assertEqual(text.count("\nCOMMANDS = [\n"), 1, "door/table.py has no table of commands")
        self.write("door/table.py", text.replace("\nCOMMANDS = [\n", f"\nCOMMANDS = [\n    {row!r},\n", 1))

    def write(self, name, text, mode=0o644):
        path = os.path.join(self.at, name)
        os.makedirs(os.path.dirname(path), exist_ok=True)
        with open(path, "w", encoding="utf-8") as file:
            file.write(text)
        os.chmod(path, mode)

    def how(self, with_rt=True, mood="well"):
        self.write("mood", mood)
        path = f"{self.bin}:/usr/bin:/bin" if with_rt else "/usr/bin:/bin"
        return {"env": {"PATH": path, "HOUSE": self.at, "TMPDIR": self.tmp, "LANG": "C.UTF-8"}, "cwd": self.tmp}

    def run(self, *words, given=b"", closed=(), out=subprocess.PIPE, **how):
        return run([self.script, *words], given, closed, out, **self.how(**how))

    def stops(self, number, *words, begun=None, given=subprocess.DEVNULL, mood="well", **how):
        """Runs the script, and wants a signal to end it and all that it started."""
        self.forget()
        stopped_by(number, [self.script, *words], begun or self.has_begun, self.at, given, **{**self.how(mood=mood), **how})

    def built(self):
        """The same, with a program that was built from its sources."""
        self.run("build").gives(0)
        self.forget()
        return self

    def calls(self):
        """What rt was called with so far, for other things than its version."""
        path = os.path.join(self.at, "calls")
        if not os.path.exists(path):
            return []
        with open(path, encoding="utf-8") as file:
            return [it for it in file.read().splitlines() if not it.endswith(" version")]

    def forget(self):
        for name in ("calls", "pid"):
            path = os.path.join(self.at, name)
            if os.path.exists(path):
                os.remove(path)

    def has_begun(self):
        return os.path.exists(f"{self.at}/pid")

    def leaves_nothing(self):
        HOLDS.assertEqual(os.listdir(self.tmp), [], "left among the temporary files")


class InHouse(unittest.TestCase):
    """Cases in a house of their own."""

    def setUp(self):
        room = tempfile.TemporaryDirectory(prefix="front-door-")
        self.addCleanup(room.cleanup)
        self.house = House(room.name)

    def as_nobody(self):
        """How a run is made for which permissions bind, which they don't for root."""
        how = self.house.how()
        if os.geteuid() == 0:
            for folder in (os.path.dirname(os.path.dirname(self.house.at)), os.path.dirname(self.house.at), self.house.at):
                os.chmod(folder, 0o755)
            os.chmod(self.house.tmp, 0o1777)
            how.update(user=NOBODY, group=NOBODY, extra_groups=[])
        return how

    def out_folder(self):
        """A new folder for what is written, open to all."""
        folder = f"{self.house.at}/out put"
        os.makedirs(folder)
        return folder

    def assertWritten(self, path, text):
        """A file has this text."""
        self.assertEqual(read(path).decode(), text, path)


def read(path):
    with open(path, "rb") as file:
        return file.read()
