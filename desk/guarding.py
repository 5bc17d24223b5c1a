"""How a helper ends where nobody foresaw what came: one line and a documented status, and never a traceback, whose status, 1, would read as
"not accepted".

Memory may be so short that not even the line can be made. So what is said then is made before.
"""
import errno
import os
import signal
import sys
import threading

from desk import quoting, running, stopping
from desk.status import Status

# What is said where there is no more memory.
NO_MEMORY = "there is too little memory"
# The same as a whole line, for where no line can be made.
SHORT = b"osp: there is too little memory\n"
# What the loader of the C library says where a library's parts find no room.
NO_ROOM = ("failed to map segment", "annot allocate memory")
# How many characters of an exception are told.
MOST_TOLD = 200
FOLDER = os.path.dirname(os.path.realpath(__file__))


def quiet():
    """Lets nothing be said of exceptions that nobody can catch: in threads that end by one, and as objects are cleared up."""
    threading.excepthook = sys.unraisablehook = lambda _: None


def at(wrong):
    """Where in the helpers an exception came up, as in draft.py, line 55; empty where it didn't."""
    found, step = "", wrong.__traceback__
    while step:
        name = step.tb_frame.f_code.co_filename
        if os.path.dirname(os.path.realpath(name)) == FOLDER and name != __file__:
            found = f" at {os.path.basename(name)}, line {step.tb_lineno}"
        step = step.tb_next
    return found


def unforeseen(wrong):
    """What is said of an exception that nobody foresaw."""
    said = quoting.plain(f"{type(wrong).__name__}: {wrong}".encode("utf-8", "backslashreplace"), MOST_TOLD)
    return f"it failed{at(wrong)}: {said}; please tell the project, with the files"


def of_import(wrong):
    """What is said of an ImportError: a library that finds no room is a matter of memory."""
    return NO_MEMORY if any(it in str(wrong) for it in NO_ROOM) else unforeseen(wrong)


def of_system(wrong):
    """What is said of an OSError that nobody foresaw."""
    if wrong.errno == errno.ENOMEM:
        return NO_MEMORY
    named = f"{quoting.name(os.fsencode(wrong.filename))}: " if isinstance(wrong.filename, (str, bytes)) else ""
    return f"it failed{at(wrong)}: {named}{wrong.strerror or type(wrong).__name__}"


def ended(run):
    """The status that `run` answers, and None; or a status, and what is said of the exception by which it ended. stopping.Stopped and
    SystemExit aren't held up, and KeyboardInterrupt, which comes before signals are watched, is Stopped."""
    try:
        return run(), None
    except KeyboardInterrupt:
        raise stopping.Stopped(signal.SIGINT) from None
    except MemoryError:
        return Status.FAILED, NO_MEMORY
    except RecursionError:
        return Status.FAILED, "what it was given stands too deep in itself"
    except BrokenPipeError as wrong:
        return Status.UNWRITABLE, f"write fault: {wrong.strerror}"
    except ImportError as wrong:
        return Status.FAILED, of_import(wrong)
    except OSError as wrong:
        return Status.FAILED, of_system(wrong)
    except Exception as wrong:
        return Status.FAILED, unforeseen(wrong)


def guarded(name, run):
    """The exit status of a helper of a name, which `run` answers; or 70 (6 where nobody takes its output any more) with one line where an
    exception ended it. Raises stopping.Stopped."""
    quiet()
    try:
        status, said = ended(run)
        if said is not None:
            running.say(said if status == Status.UNWRITABLE else f"osp {name}: {said}")
            running.silence(1)
        return status
    except Exception:
        # (There was no memory for the line.)
        os.write(2, SHORT)
        return Status.FAILED
