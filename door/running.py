"""Runs another program: hands on signals that come meanwhile, tells the seconds on a terminal, and leaves nothing behind."""
import os
import select
import time

from door import saying, signals
from door.saying import fail, tell
from door.signals import signal

# On a terminal the seconds are told after so many of them.
SILENT = 2
MIB = 1 << 20
# How long a wait for input goes on before it is looked whether a signal came, in seconds.
PATIENCE = 0.5


def time_of(seconds):
    """How long something took."""
    if seconds < 60:
        return f"{seconds} s"
    if seconds < 3600:
        return f"{seconds // 60} min {seconds % 60} s"
    return f"{seconds // 3600} h {seconds // 60 % 60} min"


def remove(folder):
    """Removes a folder with all that is in it, where that can be done."""
    try:
        for name in os.listdir(folder):
            os.unlink(f"{folder}/{name}")
        os.rmdir(folder)
    except OSError:
        # (It has folders in it.)
        import shutil

        shutil.rmtree(folder, ignore_errors=True)


class Kept:
    """What has to go when the script ends: programs that run, a folder for what is kept meanwhile, and a file that isn't whole."""

    def __init__(self):
        self.children, self.room, self.target = set(), "", None

    def make_room(self):
        """The folder, which is made where there is none yet."""
        if not self.room:
            signals.watch()
            folder = os.environ.get("TMPDIR") or "/tmp"
            name = f"{folder}/osp.{os.urandom(6).hex()}"
            try:
                os.mkdir(name, 0o700)
            except (OSError, ValueError):
                fail(f"no folder can be made in {folder}: free some room there, or set TMPDIR")
            self.room = name
        return self.room

    def hold(self, target):
        """Opens the file beside the one that is written."""
        if target.end:
            signals.watch()
            with signals.held():
                self.target = target
                target.open()

    def clean(self):
        """Lets go of the folder and of the file."""
        if self.target:
            self.target.drop()
        if self.room:
            remove(self.room)
            self.room = ""

    def end_children(self):
        """Ends the programs that run. (They may ignore SIGINT, so they are told to end by SIGTERM.)"""
        for it in sorted(self.children):
            try:
                os.kill(it, signal.SIGTERM)
                os.waitpid(it, 0)
            except (ChildProcessError, ProcessLookupError):
                pass
        self.children.clear()


KEPT = Kept()


# ---- a program beside the script


def become(words, out, err, folder):
    """Lets a child be another program: it ignores SIGINT, by which a terminal ends all that runs there, since the script ends it."""
    for it in signals.watched():
        signal.signal(it, signal.SIG_DFL)
    signal.signal(signal.SIGINT, signal.SIG_IGN)
    signals.as_given()
    for descriptor, place in ((out, 1), (err, 2)):
        if descriptor is not None:
            os.dup2(descriptor, place)
    if folder:
        os.chdir(folder)


def begin(words, out=None, err=None, folder="", given=None):
    """Starts a program, with descriptors for its output, its standard error and its input, in a folder; answers its process. (That it ends
    is told by a signal, which waits for `end_of`.)"""
    signal.pthread_sigmask(signal.SIG_BLOCK, [signal.SIGCHLD])
    with signals.held():
        process = os.fork()
        if process:
            KEPT.children.add(process)
            return process
        try:
            if given is not None:
                os.dup2(given, 0)
            become(words, out, err, folder)
            signal.pthread_sigmask(signal.SIG_UNBLOCK, [*signals.SIGNALS, signal.SIGCHLD])
            os.execvp(words[0], words)
        except OSError as why:
            tell(f"osp: {words[0]}: {why.strerror}")
        finally:
            os._exit(127)


def end_of(process):
    """Waits for a program, and answers its exit status, or the number of the signal that ended it, below 0. (All signals are taken here one
    by one: a handler would be called only behind a wait that begins in the very instant of the signal.)"""
    with signals.held():
        found, status = os.waitpid(process, os.WNOHANG)
        while not found:
            came = signal.sigwaitinfo([*signals.watched(), signal.SIGCHLD]).si_signo
            if came != signal.SIGCHLD:
                raise signals.Stopped(came)
            found, status = os.waitpid(process, os.WNOHANG)
        KEPT.children.discard(process)
    signal.pthread_sigmask(signal.SIG_UNBLOCK, [signal.SIGCHLD])
    return os.waitstatus_to_exitcode(status)


def killed(words, number):
    """Ends the script where what it ran, the program or a helper, was ended by a signal."""
    helper = next((behind for it, behind in zip(words, words[1:]) if it.endswith("/desk/__main__.py")), "")
    fail(f"{helper or os.path.basename(words[0])} was ended by {signals.name_of(number)}, and wrote no answer")


def attend(words, **how):
    """Runs a program, and answers its exit status. Ends the script where a signal ended it."""
    status = end_of(begin(words, **how))
    if status < 0:
        killed(words, -status)
    return status


class Clock:
    """Tells the seconds on a terminal, after two of them."""

    def __init__(self, is_silent):
        self.is_told, self.began = not is_silent and os.isatty(2), time.monotonic()

    def __enter__(self):
        if self.is_told:
            signal.signal(signal.SIGALRM, self.show)
            signal.setitimer(signal.ITIMER_REAL, SILENT, 1)
        return self

    def show(self, *_):
        """Shows the seconds."""
        try:
            os.write(2, b"\rosp: %-12s" % time_of(int(time.monotonic() - self.began)).encode("ascii"))
        except OSError:
            pass

    def __exit__(self, *_):
        if self.is_told:
            signal.setitimer(signal.ITIMER_REAL, 0)
            if time.monotonic() - self.began >= SILENT:
                saying.tell_part(f"\r{'':17}\r")


def copy(begin_at, end_at, most=None):
    """Copies what can be read of one descriptor to another one, at most so many bytes. Raises OSError."""
    left = most
    while left is None or left > 0:
        # (A signal in the very instant before a read is seen when a wait ends, and a read of a pipe may never do so.)
        while not select.select([begin_at], [], [], PATIENCE)[0]:
            pass
        part = os.read(begin_at, MIB if left is None else min(MIB, left))
        if not part:
            return
        saying.put(end_at, part)
        left = None if left is None else left - len(part)


def show_file(name, place):
    """Writes what a file has to a standard stream. Raises OSError."""
    file = os.open(name, os.O_RDONLY)
    try:
        copy(file, place)
    finally:
        os.close(file)


def created(name):
    """A new file's descriptor."""
    return os.open(name, os.O_RDWR | os.O_CREAT | os.O_TRUNC, 0o600)


def observe(words, is_typed):
    """Runs a program into the file that is written, or standard output; on a terminal with a clock, and what it says and writes there comes
    behind that. Answers its exit status."""
    out = KEPT.target.descriptor if KEPT.target else None
    if is_typed or not os.isatty(2):
        return attend(words, out=out)
    room = KEPT.make_room()
    with Clock(False):
        shown = out is None and saying.is_open(1) and os.isatty(1)
        process = begin(words, out=created(f"{room}/out") if shown else out, err=created(f"{room}/err"))
        status = end_of(process)
    try:
        show_file(f"{room}/err", 2)
    except OSError:
        pass
    if status < 0:
        killed(words, -status)
    if shown:
        try:
            show_file(f"{room}/out", 1)
        except OSError:
            saying.cannot_write()
    return status


def run_instead(words):
    """Lets a program take the script's place. (What the folder holds is open by now.)"""
    KEPT.clean()
    signals.unwatch()
    signals.as_given()
    try:
        os.execvp(words[0], words)
    except OSError as why:
        fail(f"{words[0]} cannot be run: {why.strerror}")


def run_whole(words, is_typed, is_last):
    """Runs what answers for its own streams, and answers its exit status. It takes the script's place where nothing is left to do."""
    if is_last and not KEPT.target and not os.isatty(2):
        run_instead(words)
    return observe(words, is_typed)
