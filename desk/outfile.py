"""What a helper writes: to standard output, whole, or to a file that is replaced whole or stays as it was, as the script writes it."""
import sys

from desk import stopping
from door import files
from door.files import mask

__all__ = ["mask", "put", "replace", "to_output"]


def put(out, text):
    """Writes all of a text, as bytes, to a stream of bytes. (A stream without a buffer may take a part at a time.)"""
    rest = memoryview(text)
    while rest:
        taken = out.write(rest)
        if taken is None:
            raise BlockingIOError(None, "it takes nothing now")
        rest = rest[taken:]
    out.flush()


def to_output(text):
    """Writes a text, as bytes, to standard output. Raises OSError."""
    if sys.stdout is None:
        raise OSError(None, "standard output is closed")
    put(sys.stdout.buffer, text)


def replace(name, text):
    """Lets a file hold this text (bytes), whole or not at all: a file beside it takes its place. Of a symbolic link, the file that it
    names is replaced. Raises OSError."""
    with stopping.held():
        files.replace(name, text)
