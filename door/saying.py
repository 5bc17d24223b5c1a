"""What the script says: lines on standard error, and texts on standard output."""
import os

from door.place import called

# The exit statuses of words that spell no command, and of what isn't the program's own failure.
WRONG_WORDS, FAILED = 2, 70


class Ended(Exception):
    """The script ends with an exit status, and before that says a line, if there is one."""

    def __init__(self, status, line=""):
        super().__init__(line)
        self.status, self.line = status, line


def put(descriptor, text):
    """Writes bytes to a descriptor, all of them. Raises OSError."""
    rest = memoryview(text)
    while rest:
        rest = rest[os.write(descriptor, rest) :]


def encoded(text):
    """A text as bytes: those of a user's words as they were given."""
    return text.encode("utf-8", "surrogateescape")


def tell_part(text):
    """Says a part of a line on standard error, where that takes it."""
    try:
        put(2, encoded(text))
    except OSError:
        pass


def tell(line):
    """Says a line on standard error, where that takes it."""
    tell_part(f"{line}\n")


def fail(why):
    """Ends the script by one line that says what stopped it, and what to do."""
    raise Ended(FAILED, why)


def wrong(why):
    """Ends the script with the status of words that spell no command, in one line that names the wrong word."""
    raise Ended(WRONG_WORDS, why)


def shown(word):
    """A word as a shell takes it: a name may hold blanks, or what a terminal would obey."""
    # (Most runs name nothing.)
    from door import quoted

    return quoted.shown(word)


def is_open(descriptor):
    """Whether a descriptor was open when the script began."""
    return descriptor not in CLOSED


# The standard streams that were closed when the script began.
CLOSED = set()


def see_streams():
    """Notes which standard streams are closed, and keeps their numbers from files that are opened later. A closed standard error takes no
    line; what is run finds the others closed."""
    for descriptor in (0, 1, 2):
        try:
            os.fstat(descriptor)
        except OSError:
            CLOSED.add(descriptor)
            # (The least number that is free is this one, and it isn't handed on.)
            os.open(os.devnull, os.O_RDWR)
    if 2 in CLOSED:
        os.set_inheritable(2, True)


def needs_output():
    """Ends the script where standard output is closed."""
    if not is_open(1):
        fail(f"standard output is closed; give it a file, as in {called()} plan SCENARIO -o PLAN")


def cannot_write():
    """Ends the script where its output takes no more."""
    fail("the output cannot be written: it is closed, or full")


def write(text):
    """Writes a text to standard output, or ends the script."""
    needs_output()
    try:
        put(1, encoded(text))
    except OSError:
        cannot_write()
