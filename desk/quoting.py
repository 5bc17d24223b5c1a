"""Bytes and lists of a user's text as words on a line: nothing that is quoted can end the line or steer a terminal."""
import os
import shlex

# The longest piece of a line and of a field that is quoted, in characters.
MOST_LINE = 100
MOST_FIELD = 40
# The longest word of a user that is told whole, in characters: names of files are no longer in most file systems.
MOST_WORD = 255
# How many names or line numbers stand in a list before it is cut short.
MOST_LISTED = 8
# What turns the direction of letters around.
DIRECTIONS = {0x061C, 0x200E, 0x200F, *range(0x202A, 0x202F), *range(0x2066, 0x206A)}


def escape(letter):
    """A character that can't be printed as an escape, such as \\x1b or \\u202e. One that stands for a byte that is no UTF-8 is that byte."""
    is_byte = 0xDC80 <= ord(letter) <= 0xDCFF
    return f"\\x{ord(letter) - 0xDC00:02x}" if is_byte else letter.encode("unicode_escape").decode("ascii")


def harmless(text):
    """A text for a terminal, where nothing steers that: what can't be printed is an escape, but line feeds and tabs."""
    return "".join(it if it.isprintable() or it in "\n\t" else escape(it) for it in text)


def word(text):
    """A word of a user, such as the name of a file, on one line: what can't be printed is an escape, and a long word is cut."""
    said = "".join(it if it.isprintable() else escape(it) for it in text[: MOST_WORD + 1])
    return said if len(said) <= MOST_WORD else said[:MOST_WORD] + " .."


def marked(text):
    """A text with a mark in the place of what steers a terminal: control characters but line feeds and tabs, and those that turn the
    direction of letters around."""
    return "".join("\N{REPLACEMENT CHARACTER}" if ord(it) in DIRECTIONS or is_control(it) else it for it in text)


def shell(name):
    """A file's name as a word for bash; where it holds what can't be printed, in escapes."""
    given = os.fsencode(name)
    if given.decode("utf-8", "surrogateescape").isprintable():
        return shlex.quote(given.decode("utf-8"))
    return "$'" + "".join(chr(it) if 32 <= it < 127 and it not in b"\\'" else f"\\x{it:02x}" for it in given) + "'"


def is_control(letter):
    """Whether a character is a control character other than a line feed or a tab."""
    return letter not in "\n\t" and (letter < " " or "\x7f" <= letter <= "\x9f")


def plain(text, most):
    """Bytes as printable characters, at most so many: others as an escape such as \\x1b, a longer text with .. behind it."""
    piece = text[: 4 * most + 4].decode("utf-8", "backslashreplace")
    said = "".join(it if it.isprintable() else it.encode("unicode_escape").decode("ascii") for it in piece)
    return said if len(said) <= most and len(text) <= 4 * most + 4 else said[:most] + " .."


def line(text):
    """A line of the user's text."""
    return plain(text.strip(b" \t\r").replace(b"\t", b" "), MOST_LINE)


def field(text):
    """A field of the user's text, in backticks."""
    return f"`{plain(text, MOST_FIELD)}`"


def name(text):
    """The name of a cell or a position."""
    return plain(text, MOST_FIELD)


def listed(words):
    """Words with commas between them; a long list is cut, and says how many more there are."""
    more = len(words) - MOST_LISTED
    return ", ".join(words) if more < 2 else f"{', '.join(words[:MOST_LISTED])} and {more:,} more"


def either(words):
    """Words of which one is meant: `a`, `b` or `c`."""
    return " or ".join(it for it in (", ".join(words[:-1]), words[-1]) if it)


def runs(numbers):
    """Ascending numbers with runs of neighbours as one: 3, 7 to 9."""
    found = []
    for it in numbers:
        if found and found[-1][1] == it - 1:
            found[-1][1] = it
        else:
            found.append([it, it])
    return listed([f"{first:,}" if first == last else f"{first:,} to {last:,}" for first, last in found])


def lines(numbers):
    """Line numbers in words: line 3, or lines 3, 7 to 9."""
    return f"line{'s' if len(numbers) > 1 else ''} {runs(numbers)}"


def counted(count, noun, plural=None):
    """A number with its noun: 1 period, 8 periods."""
    return f"{count:,} {noun if count == 1 else plural or noun + 's'}"
