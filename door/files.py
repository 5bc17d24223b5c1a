"""Files: which of them are one, what is read, and outputs that are written whole or not at all.

No file is read and written at once. Two names are of one file where device and inode are the same while one of them is held open: a file
that is gone leaves its inode to the next one, which is another file. So what will be replaced is opened first, without reading it, and
stays open; what is opened for reading is held against that, also by a helper, which is told by `TOLD` in its environment.
"""
import errno
import os
import stat
import sys

from door import saying
from door.saying import fail, put, shown

# How the file that a helper must not read is told to it: device, inode and name.
TOLD = "OSP_TARGET"
# The beginning of the name of a file that isn't whole yet.
HALF = ".osp-"


class IsTarget(BaseException):
    """A file is opened for reading that is written to, too: what is said of it."""


def identity(where):
    """Device and inode of a name or a descriptor, or None where there is none."""
    try:
        found = os.stat(where)
    except (OSError, TypeError, ValueError):
        return None
    return found.st_dev, found.st_ino


def is_plain(where):
    """Whether a name or a descriptor is a plain file."""
    try:
        return stat.S_ISREG(os.stat(where).st_mode)
    except (OSError, ValueError):
        return False


def mask():
    """The permissions that new files don't get."""
    found = os.umask(0)
    os.umask(found)
    return found


# ---- what is read


def see_file(name):
    """Ends the script where a file that is named can't be read."""
    if name == "-":
        return
    try:
        mode = os.stat(name).st_mode
    except (OSError, ValueError):
        fail(f"there is no file {shown(name)}")
    if stat.S_ISDIR(mode):
        fail(f"{shown(name)} is a folder, and no file")
    if not stat.S_ISREG(mode) and not stat.S_ISFIFO(mode):
        fail(f"{shown(name)} is neither a file nor a pipe")
    if not os.access(name, os.R_OK):
        fail(f"{shown(name)} cannot be read: its permissions don't let you")


def opened(name, target):
    """A descriptor of a file by its name, or of standard input by -, to read it. Ends the script where it can't be opened, or is the file
    that `target` holds."""
    try:
        found = os.dup(0) if name == "-" else os.open(name, os.O_RDONLY)
    except OSError:
        fail(f"{shown(name)} cannot be opened")
    target.see_input(found)
    return found


def has_plan(name):
    """Whether a plain file has a plan or a gap plan behind the end of a scenario."""
    if not is_plain(name):
        return False
    is_ended = False
    try:
        with open(name, "rb") as file:
            for line in file:
                if is_ended and line.startswith((b"plan ", b"gap ")):
                    return True
                is_ended = is_ended or line.split()[:1] == [b"end"]
    except OSError:
        pass
    return False


# ---- what is written


def as_before(name, half):
    """Gives a file the owner and the permissions of the one whose place it will take, or those of a new file."""
    try:
        before = os.stat(name)
    except FileNotFoundError:
        os.chmod(half, 0o666 & ~mask())
        return
    try:
        os.chown(half, before.st_uid, before.st_gid)
    except PermissionError:
        pass
    os.chmod(half, stat.S_IMODE(before.st_mode))


def half_beside(end):
    """A new file beside one, which nobody else may read: a descriptor, and its name. Raises OSError."""
    while True:
        name = os.path.join(os.path.dirname(end), HALF + os.urandom(6).hex())
        try:
            return os.open(name, os.O_RDWR | os.O_CREAT | os.O_EXCL, 0o600), name
        except FileExistsError:
            pass


def settle(descriptor, half, end):
    """Lets a file that is whole take the place of another one. Raises OSError."""
    os.fsync(descriptor)
    as_before(end, half)
    os.replace(half, end)


def replace(name, text):
    """Lets a file hold this text (bytes), whole or not at all: a file beside it takes its place. Of a symbolic link, the file that it
    names is replaced. Raises OSError."""
    end = os.path.realpath(name)
    descriptor, half = half_beside(end)
    try:
        put(descriptor, text)
        settle(descriptor, half, end)
    except OSError:
        os.unlink(half)
        raise
    finally:
        os.close(descriptor)


class Target:
    """What is written: the file of a name, or standard output where the name is "" or -.

    `end` is the file that the name stands for, and `half` the one beside it that takes its place, once it is opened. `held` is a descriptor
    of what stands there, so that nothing else gets its inode.
    """

    def __init__(self, name):
        self.name, self.end, self.half, self.descriptor, self.held = name, "", "", None, None
        self.is_file = name not in ("", "-")
        if self.is_file:
            try:
                # (Neither it is read, nor waited for the other end of a pipe.)
                self.held = os.open(name, os.O_PATH)
            except (OSError, ValueError):
                pass
        elif saying.is_open(1) and is_plain(1):
            self.held = 1

    def is_one(self, where):
        """Whether a name, or a descriptor, is of what stands there."""
        return self.held is not None and identity(where) == identity(self.held)

    def see_input(self, descriptor):
        """Ends the script where a file that was opened for reading is what stands there."""
        if self.is_one(descriptor):
            fail(self.read_too(""))

    def read_too(self, word):
        """What is said where a file is read and written at once."""
        if self.is_file:
            return f"-o {shown(self.name)} names a file that is read: give another name"
        return f"standard output goes to {shown(word) if word else 'a file'}, which is read: give it another file"

    def see(self, words):
        """Ends the script where what is written can't be, or is one of these files that are read, or standard input."""
        if not self.is_file:
            self.see_output(words)
            return
        name = shown(self.name)
        if is_plain(0) and saying.is_open(0) and self.is_one(0):
            fail(f"-o {name} names the file that standard input is read from: give another name")
        if any(self.is_one(it) for it in words):
            fail(self.read_too(""))
        self.see_end(name)

    def see_output(self, words):
        """The same of standard output."""
        word = next((it for it in words if self.is_one(it)), None)
        if word is not None:
            fail(self.read_too(word))
        if saying.is_open(0) and self.is_one(0):
            fail("standard input is read, and standard output goes to the same file: give it another file")

    def see_end(self, name):
        """Ends the script where the file that is named can't be replaced."""
        end = os.path.realpath(self.name)
        try:
            # (A link that leads to itself is one still.)
            is_link = stat.S_ISLNK(os.lstat(end).st_mode)
        except OSError as why:
            is_link = False
            if why.errno == errno.ENAMETOOLONG:
                fail(f"-o {name}: the name is too long")
        if is_link:
            fail(f"-o {name}: there is no folder for it")
        if os.path.isdir(end) or self.name.endswith("/"):
            fail(f"-o {name} is a folder: give a file in it")
        if not os.path.isdir(os.path.dirname(end)):
            fail(f"-o {name}: there is no folder for it")
        if os.path.exists(end) and not os.path.isfile(end):
            fail(f"-o {name} is no plain file, and cannot be replaced: use > in place of -o")
        if os.path.exists(end) and not os.access(end, os.W_OK):
            fail(f"-o {name} cannot be written: its permissions don't let you")
        self.end = end

    def tell(self):
        """Tells a helper that is run from here what it must not read."""
        if self.held is not None:
            os.environ[TOLD] = "{}:{}:{}".format(*identity(self.held), self.name if self.is_file else "")
            os.set_inheritable(self.held, True)

    def open(self):
        """Opens the file beside the one that is named. (A signal from here on has to lead to `drop`.)"""
        if not self.end:
            return
        try:
            self.descriptor, self.half = half_beside(self.end)
        except OSError:
            fail(f"-o {shown(self.name)}: nothing can be written in its folder")

    def size(self):
        """How many bytes the file beside it has."""
        return os.fstat(self.descriptor).st_size

    def keep(self):
        """Puts the whole output in its place, with the owner and the permissions of what stood there, or of a new file."""
        try:
            settle(self.descriptor, self.half, self.end)
        except OSError:
            fail(f"-o {shown(self.name)} cannot be written")
        self.half = ""

    def drop(self):
        """Lets go of what isn't whole."""
        if self.half:
            os.unlink(self.half)
            self.half = ""


# ---- in a helper


def seeing(told):
    """What is called at each opening of a file in this process: it raises IsTarget where that is read and is the file that was told, which
    is the one behind -o, or without a name what standard output goes to."""
    device, inode, name = told.split(":", 2)
    wanted = int(device), int(inode)

    def see(event, given):
        """Sees an opening."""
        if event != "open" or not isinstance(given[2], int) or given[2] & os.O_ACCMODE == os.O_WRONLY:
            return
        if identity(given[0]) == wanted:
            if name:
                raise IsTarget(f"-o {shown(name)} names a file that is read: give another name")
            word = "a file" if isinstance(given[0], int) else shown(os.fsdecode(given[0]))
            raise IsTarget(f"standard output goes to {word}, which is read: give it another file")

    return see


def guard():
    """Lets a helper raise IsTarget where it reads the file that it must not read, if there is one, by whichever name."""
    told = os.environ.pop(TOLD, "")
    if told:
        sys.addaudithook(seeing(told))
