"""What a helper says on standard error and writes to standard output."""
import contextlib
import os
import sys

from desk import outfile, quoting
from desk.status import Status


def silence(descriptor):
    """Lets what is still written to a stream go nowhere: what is left in its buffer would fail again when the interpreter ends."""
    os.dup2(os.open(os.devnull, os.O_WRONLY), descriptor)


def say(line):
    """A line on standard error, where that takes it."""
    try:
        if sys.stderr is not None:
            print(quoting.harmless(str(line)), file=sys.stderr)
    except OSError:
        silence(2)


def is_terminal():
    """Whether lines on standard error are shown on a terminal."""
    return sys.stderr is not None and sys.stderr.isatty()


@contextlib.contextmanager
def progress(name):
    """While standard error is a terminal, what this gives shows a line there, in the place of the one before it; at the end the last one is
    gone. Elsewhere it shows nothing."""
    is_shown = is_terminal()

    def show(text):
        if is_shown:
            sys.stderr.write(text)
            sys.stderr.flush()

    try:
        yield lambda line: show(f"\rosp {name}: {line}\033[K")
    finally:
        show("\r\033[K")


def write_bytes(text):
    """Writes a text, as bytes, to standard output, and answers the exit status."""
    try:
        outfile.to_output(text)
        return Status.DONE
    except OSError as why:
        say(f"write fault: {why.strerror}")
        silence(1)
        return Status.UNWRITABLE


def write(text):
    """Writes a text to standard output, and answers the exit status."""
    return write_bytes(text.encode("utf-8"))


def noted(note, name, said):
    """The program's note, and behind it the lines that a helper of a name says."""
    return "\n".join([*filter(None, [note]), *(f"osp {name}: {it}" for it in said)])
