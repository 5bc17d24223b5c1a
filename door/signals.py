"""Signals that end a run: HUP, INT and TERM. What is half done goes, and the process ends by the signal."""
# (What the module `signal` wraps: its enumerations take as long as all that the script does before a run.)
import _signal as signal
import os

SIGNALS = (signal.SIGINT, signal.SIGTERM, signal.SIGHUP)


class Stopped(BaseException):
    """One of these signals came: its number."""

    def __init__(self, number):
        super().__init__(number)
        self.number = number


def raising(number, _):
    """A handler that raises Stopped."""
    raise Stopped(number)


def watched():
    """Those of the signals that aren't ignored; one may be from the start, as bash has it for what runs in the background."""
    return [it for it in SIGNALS if signal.getsignal(it) != signal.SIG_IGN]


def watch():
    """Lets each of these signals raise Stopped, but one that is ignored already."""
    for it in watched():
        signal.signal(it, raising)


def unwatch():
    """Lets each of these signals end the process, but one that is ignored already."""
    for it in watched():
        signal.signal(it, signal.SIG_DFL)


def see_children():
    """Lets this process be told of the end of programs that it starts, also where that was ignored when it began."""
    signal.signal(signal.SIGCHLD, signal.SIG_DFL)


class Held:
    """Holds these signals back as long as something has to be done whole, by `with`. They come behind it."""

    def __enter__(self):
        self.before = signal.pthread_sigmask(signal.SIG_BLOCK, SIGNALS)

    def __exit__(self, *_):
        signal.pthread_sigmask(signal.SIG_SETMASK, self.before)


def held():
    """The same, by a verb."""
    return Held()


def end_by(number):
    """Ends this process by a signal, as a program ends that doesn't handle it: a shell has 128 and its number as the status."""
    signal.signal(number, signal.SIG_DFL)
    os.kill(os.getpid(), number)


def as_given():
    """Gives a program that is run from here the signals that Python itself ignores."""
    for it in (signal.SIGPIPE, signal.SIGXFSZ):
        signal.signal(it, signal.SIG_DFL)


def name_of(number):
    """A signal by its name."""
    import signal as named

    return named.Signals(number).name if number in set(named.Signals) else f"signal {number}"
