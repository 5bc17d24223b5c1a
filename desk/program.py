"""Asks the proved program: its words and its input go in, its status and what it wrote come out."""
import dataclasses
import os
import subprocess
import threading

TOP = os.path.dirname(os.path.dirname(os.path.realpath(__file__)))
# The front door, which runs the proved program or says that there is none. `OSP` names another one, for tests.
OSP = os.environ.get("OSP", os.path.join(TOP, "osp"))
# How long a run that was told to end gets to clear up behind itself, in seconds.
GRACE = 10


class OutOfTime(Exception):
    """The program didn't end in the time that it had."""


@dataclasses.dataclass
class Answer:
    """How a run of the program ended: its exit status, its standard output and its standard error, as bytes."""

    status: int
    out: bytes
    err: bytes


class Runs:
    """The runs that are under way, in any thread: each is ended where the helper ends before it."""

    def __init__(self):
        self.lock, self.open, self.is_over = threading.Lock(), set(), False

    def begin(self, run):
        """Notes a run. Where all were ended meanwhile, it is told to end, too."""
        with self.lock:
            self.open.add(run)
            if self.is_over:
                run.terminate()

    def end(self, run):
        """Ends a run where it goes on: by SIGTERM, so that the front door can clear up, and else by SIGKILL."""
        if run.poll() is None:
            run.terminate()
            try:
                run.wait(GRACE)
            except subprocess.TimeoutExpired:
                run.kill()
                run.wait()
        with self.lock:
            self.open.discard(run)

    def end_all(self):
        """Ends all runs, and each that would begin behind this call."""
        with self.lock:
            self.is_over, left = True, list(self.open)
        for it in left:
            self.end(it)


RUNS = Runs()


def ask(words, given, seconds=None):
    """Runs `osp WORDS..` on the bytes `given`. What it says on standard error is kept, and not shown.

    A run that takes longer than so many seconds, where they are given, is ended, and OutOfTime is raised. Whatever else ends the call
    ends the run, too.
    """
    with subprocess.Popen([OSP, *words], stdin=subprocess.PIPE, stdout=subprocess.PIPE, stderr=subprocess.PIPE) as run:
        RUNS.begin(run)
        try:
            out, err = run.communicate(given, seconds)
        except subprocess.TimeoutExpired:
            raise OutOfTime from None
        finally:
            RUNS.end(run)
    return Answer(run.returncode, out, err)
