"""A word as a shell takes it, as bash's `printf %q` writes it; and a long one cut short."""

ESCAPES = {"\a": "a", "\b": "b", "\x1b": "E", "\f": "f", "\n": "n", "\r": "r", "\t": "t", "\v": "v", "\\": "\\", "'": "'"}
# What a shell would take for something else.
SPECIAL = frozenset(" !\"$&'()*,;<>?[\\]^`{|}")
# How many letters of a word are shown where it has more, and how many it may have.
FIRST, MOST = 60, 300


def escaped(letter):
    """A letter between $' and '."""
    if letter in ESCAPES:
        return f"\\{ESCAPES[letter]}"
    if letter.isprintable():
        return letter
    return "".join(f"\\{it:03o}" for it in letter.encode("utf-8", "surrogateescape"))


def plain(word, at):
    """The letter at a place of a word that can be printed."""
    letter = word[at]
    is_home = letter == "~" and (at == 0 or word[at - 1] in ":=")
    return f"\\{letter}" if letter in SPECIAL or is_home or (letter == "#" and at == 0) else letter


def quoted(word):
    """A word as a shell takes it."""
    if not word:
        return "''"
    if not word.isprintable():
        return "$'" + "".join(map(escaped, word)) + "'"
    return "".join(plain(word, at) for at in range(len(word)))


def shown(word):
    """A word as a line shows it."""
    return quoted(word) if len(word) <= MOST else f"{quoted(word[:FIRST])} .. ({len(word)} letters)"
