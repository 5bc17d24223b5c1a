"""Runs of the built program by those that measure it and those that try it: what a run is given, what it takes, what it answers; and what is
printed of runs and of wrong answers."""
import os
import re
import shutil
import signal
import sys
import tempfile
import time

TOP = os.path.dirname(os.path.dirname(os.path.realpath(__file__)))
# The program that is run: the proved one, or the file that a variable names, as one of bench/unproved.
OSP = os.path.abspath(os.environ.get("OSP_PROGRAM") or os.path.join(TOP, "crates", "osp", "out", "osp"))


class Stopped(Exception):
    """Why a script can't go on, in one line."""


class Run:
    """A run of a command that has begun. Its input is bytes, or pieces that are written as far as it reads; files that it gets beside its
    three streams are open as 3 and so on. Behind `ended`: its status (negative for a signal), output and error as bytes, its seconds, and
    those that the processors worked."""

    def __init__(self, command, given=b"", env=None, more=()):
        self.files = [os.memfd_create(it) for it in ("in", "out", "err")]
        reads, writes = (self.files[0], None) if isinstance(given, bytes) else os.pipe()
        if writes is None:
            os.write(reads, given)
            os.lseek(reads, 0, os.SEEK_SET)
        for it in more:
            os.set_inheritable(it, True)
        moves = [(os.POSIX_SPAWN_DUP2, file, at) for at, file in enumerate([reads, *self.files[1:], *more])]
        self.began = time.perf_counter()
        self.child = os.posix_spawnp(command[0], command, os.environ if env is None else env, file_actions=moves)
        if writes is not None:
            os.close(reads)
            give(writes, given)

    def ended(self, most=0):
        """Waits for the end. A run that takes more than so many seconds, if any, gets SIGKILL."""
        signal.signal(signal.SIGALRM, lambda *_: os.kill(self.child, signal.SIGKILL))
        signal.alarm(most)
        _, status, used = os.wait4(self.child, 0)
        signal.alarm(0)
        self.seconds, self.worked = time.perf_counter() - self.began, used.ru_utime + used.ru_stime
        self.status = os.waitstatus_to_exitcode(status)
        self.out, self.err = (os.pread(it, os.fstat(it).st_size, 0) for it in self.files[1:])
        for it in self.files:
            os.close(it)
        return self

    def right(self, name):
        """The same, where it ended with status 0; else this stops the script."""
        if self.status != 0:
            raise Stopped(f"{name}: status {self.status}: {self.err.decode().strip()}")
        return self

    def said(self):
        """What the run came to, for those who look for the fault."""
        return f"status {self.status}, out {self.out[-200:]!r}, err {self.err[:200]!r}"

    def is_refusal(self, status, line):
        """Whether it ended with this status and said this line alone."""
        return (self.status, self.out, self.err) == (status, b"", line.encode() + b"\n")


def give(pipe, pieces):
    """Writes the input into a pipe, as far as it is read."""
    try:
        with open(pipe, "wb") as file:
            file.writelines(pieces)
    except BrokenPipeError:
        pass


def ask(words, given=b"", most=0):
    """A run of the built program with these words, which has ended."""
    return Run([OSP, *words], given, {}).ended(most)


def measured(words, pieces):
    """The same of pieces of an input, with the most memory that the program held, in KiB, as `memory`."""
    # A child of Python counts the memory that Python had when it started as its own. So `time` starts it, which is small.
    with tempfile.NamedTemporaryFile("r") as noted:
        run = Run([shutil.which("time"), "-q", "-f", "%M", "-o", noted.name, OSP, *words], iter(pieces)).ended()
        run.memory = int(noted.read())
        return run


def need_accepted(name, given, what):
    """Stops the script where `check` doesn't accept a scenario with the plan behind it."""
    if ask(["check"], given).right("check").out != b"accepted\n":
        raise Stopped(f"{name}: {what} is not accepted")


class Table:
    """A table on standard output. A column is its name, a blank and the format of its cells, as in "records >9,"; words may stand in the
    place of a number."""

    def __init__(self, *columns):
        names, self.forms = zip(*(it.rsplit(" ", 1) for it in columns))
        self.row(*names)

    def row(self, *cells):
        """Prints a row."""
        forms = (re.match(r"[<>]?[0-9]*", form)[0] if isinstance(it, str) else form for form, it in zip(self.forms, cells))
        print(*map(format, cells, forms), flush=True)


def told(wrong, line=None):
    """Prints what was wrong, and then the last line with the count, if any. Answers the exit status."""
    print(*wrong, sep="\n", end="\n" if wrong else "")
    if line:
        print(f"{line}: {len(wrong)} wrong answers")
    return 1 if wrong else 0


def need(*tools):
    """Stops the script where there is no built program, or no program of these names."""
    if not os.path.exists(OSP):
        raise Stopped("build the program first: ./osp build")
    for name in tools:
        if shutil.which(name) is None:
            raise Stopped(f"the program {name} is missing: `apt-get install {name}` brings it")


def script(main, *words):
    """Runs a script, and ends with the status that it answers, or says in one line why it stops."""
    try:
        sys.exit(main(*words))
    except Stopped as why:
        sys.exit(f"bench/{os.path.basename(sys.argv[0])}: {why}")
