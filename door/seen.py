"""Which files were edited since the program was built, without reading all of them in each run: where inodes and times of change of
all sources and of their folders are as they were in an earlier run, that run's answer holds.

A file may change twice within one tick of the clock and keep its time, so nothing is kept while one has just changed. What is kept is no
proof of anything: it says the same as reading all files, as long as the clock isn't turned back.
"""
import os
import time

from door import sources
from door.place import HERE, PROGRAM

# How long all files have to be unchanged before an answer is kept, in nanoseconds.
SETTLED = 2_000_000_000
KEPT = f"{PROGRAM}.seen"


def print_of(names):
    """One checksum of the inodes of files and folders and of when these last changed in any way, and the newest of these times. Raises
    OSError."""
    times, inodes, top, state = [], [], os.fsencode(HERE) + b"/", os.lstat
    for name in names:
        it = state(top + name)
        times.append(it.st_ctime_ns)
        inodes.append(it.st_ino)
    return sources.sha256(f"{times}{inodes}".encode("ascii")).hexdigest(), max(times)


def watched():
    """The names of what makes a difference: the list of crates, the folders of the program's crates, all folders and files below them, and
    the program with what was written beside it."""
    crates = sources.crate_lines()
    top = [os.fsencode(f"crates/{it}") for it in crates if os.path.isdir(f"{HERE}/crates/{it}")]
    folders = []
    files = sources.source_files(crates, folders)
    program = os.fsencode(PROGRAM[len(HERE) + 1 :])
    return [b"crates.txt", program, program + b".sums", *top, *folders, *files]


def answer_kept():
    """The edited files that an earlier run found, or None where that can't be said."""
    try:
        digest, edits, names = sources.read(KEPT).split(b"\n\n")
        is_same = print_of(names.split(b"\n"))[0] == digest.decode("ascii")
    except (OSError, ValueError):
        return None
    return list(filter(None, os.fsdecode(edits).split("\n"))) if is_same else None


def keep(names, before, edits):
    """Keeps an answer for the next run, where nothing has just changed and it can be written."""
    try:
        digest, newest = print_of(names)
        if digest != before or newest + SETTLED > time.time_ns():
            return
        with open(f"{KEPT}-{os.getpid()}", "wb") as file:
            file.write(b"\n\n".join([digest.encode("ascii"), os.fsencode("\n".join(edits)), b"\n".join(names)]))
        os.replace(file.name, KEPT)
    except OSError:
        pass


def edited():
    """The files that aren't as they were when the program was built, or None where that isn't known."""
    found = answer_kept()
    if found is not None:
        return found
    if not sources.is_whole():
        return None
    names = watched()
    before = print_of(names)[0]
    lines = sources.recorded()[2:]
    found = sorted({it.split()[1] for it in {*lines} ^ {*sources.sums()}})
    keep(names, before, found)
    return found
