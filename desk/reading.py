"""What a helper reads: each name is opened once, standard input and pipes included, and read to its end or to a limit.

A name is that of a file, or `-` for standard input. No more memory is asked for than what is read takes.
"""
import contextlib
import errno
import os
import stat
import tempfile

from desk import outfile

# How much is read at once of what doesn't say its size, in bytes.
PIECE = 1 << 20
# How much of what is no regular file, as a pipe, is kept in a file without a name, in bytes.
MOST_KEPT = 1 << 30


class TooLong(Exception):
    """What is read has more bytes than are taken."""


def why(wrong):
    """Why something can't be read, in words."""
    return getattr(wrong, "strerror", None) or str(wrong)


def opened(name):
    """The file of a name, of bytes and without a buffer. Raises OSError. (The descriptor 0 stays open behind it.)"""
    try:
        return open(0 if name == "-" else name, "rb", buffering=0, closefd=name != "-")
    except ValueError:
        raise OSError(errno.EINVAL, "no file has such a name") from None


def size_of(file):
    """How many bytes an open file says that are left in it; None of what says nothing, as a pipe."""
    told = os.fstat(file.fileno())
    return max(told.st_size - file.tell(), 0) if stat.S_ISREG(told.st_mode) else None


def pieces(file, most):
    """The bytes of an open file up to its end, piece by piece, and at most so many. Where it says its size, there is one piece."""
    size = size_of(file)
    each, left = PIECE if size is None else size + 1, most
    while left > 0 and (piece := file.read(min(each, left))):
        left -= len(piece)
        yield piece
        each = PIECE


def begin(name, most):
    """The first bytes of a name, at most so many. Raises OSError."""
    with opened(name) as file:
        return b"".join(pieces(file, most))


def read(name, most):
    """The bytes of a name. Raises OSError, and TooLong where there are more than so many."""
    with opened(name) as file:
        text = b"".join(pieces(file, most + 1)) if (size_of(file) or 0) <= most else None
    if text is None or len(text) > most:
        raise TooLong
    return text


def kept(file):
    """What an open file has that is no regular one, in a file without a name, at its begin. Raises OSError and TooLong."""
    copy = tempfile.TemporaryFile(buffering=0)
    try:
        count = 0
        for piece in pieces(file, MOST_KEPT + 1):
            count += len(piece)
            if count > MOST_KEPT:
                raise TooLong
            outfile.put(copy, piece)
        copy.seek(0)
    except BaseException:
        copy.close()
        raise
    return copy


@contextlib.contextmanager
def seekable(name):
    """The file of a name, of bytes, which can be read several times: a pipe is read to its end first. Raises OSError and TooLong."""
    with opened(name) as file:
        if size_of(file) is not None:
            yield file
        else:
            with kept(file) as copy:
                yield copy
