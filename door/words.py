"""Which words spell a command, by the rows of the table."""
import os

from door import table
from door.files import has_plan, is_plain
from door.place import called
from door.saying import shown, wrong

DIGITS = frozenset("0123456789")
LETTERS = frozenset("abcdefghijklmnopqrstuvwxyzABCDEFGHIJKLMNOPQRSTUVWXYZ0123456789_-")
LONGEST_NAME = 24
# No file's name has more letters, and no other word that a helper takes.
LONGEST_WORD = 4096


class PageWanted(Exception):
    """The words ask for the page of a command."""


def usage_of(row):
    """The words of a command with the files that it reads."""
    first, *rest = row[0].split(" ")
    return " ".join([first, f"[{row[1]}]", *rest] if row[1] else [first, *rest])


def whole_usage(row):
    """The same with -o, which comes before names of positions."""
    usage, behind = usage_of(row), Form(row).behind
    return f"{usage.removesuffix(f' {behind}') if behind else usage} [-o FILE]{f' {behind}' if behind else ''}"


class Form:
    """What a command takes: by each option its value, the values that have to be given, the word from which on all words are the program's,
    with what follows it, and the files that stand for its input."""

    def __init__(self, row):
        self.options, self.needed, self.tail, self.behind, self.inputs = {}, [], "", "", row[1].split()
        spec = row[0].split()[1:]
        while spec and not self.tail:
            word = spec.pop(0)
            if word.startswith("[--"):
                self.options[word[1:]] = spec.pop(0).removesuffix("]")
            elif word[0].isupper():
                self.needed.append(word)
            else:
                self.tail, self.behind = word, " ".join([word, *spec])


def is_between(least, given, most):
    """Whether a word is a whole number from the one to the other. Decimals of any length are compared as texts, the shorter one being the
    smaller."""
    if not given or not DIGITS.issuperset(given) or (given[0] == "0" and given != "0"):
        return False
    return (len(least), least) <= (len(given), given) <= (len(most), most)


def take_value(command, words, given):
    """Takes the value of these words, or says what it should be."""
    option, _, last = words.rpartition(" ")
    if last[0].islower():
        if given != last:
            wrong(f"{shown(given)} cannot stand behind {option}: write {words}")
        return
    row = table.value_of(command, words)
    if row:
        least, most = row[1].split()
        if not is_between(least, given, most):
            wrong(f"{shown(given)} cannot stand for {words}: a whole number from {least} to {most} can")


class Sorted:
    """The words of a command by its row: `words` are the program's, `files` are read, `target` is written to, and `tail` is the word from
    which on all words are names of positions, which are `rest` with it."""

    def __init__(self, row, given):
        self.row, self.form, self.command = row, Form(row), table.first(row)
        self.files, self.target, self.taken, self.options, self.rest = [], "", [], {}, []
        self.tail = self.form.tail
        self.sort(list(given))
        self.see_whole()
        options = [it for pair in self.options.items() for it in pair]
        self.words = [self.command, *self.taken, *options, *self.rest]

    @property
    def usage(self):
        """How the command is spelled."""
        return f"{called()} {whole_usage(self.row)}"

    def sort(self, left):
        """Goes through the words that are left."""
        while left:
            word = left.pop(0)
            if word in ("--help", "-h"):
                raise PageWanted
            if word == "-o":
                self.target = target_of(self.target, left)
            elif self.tail and word == self.tail:
                self.rest, left = [word, *left], []
            elif word == "--":
                self.take_files(left)
                left = []
            elif word in self.form.options:
                self.take_option(word, left)
            elif word.startswith("-") and word != "-":
                self.refuse(word)
            else:
                self.take_files([word])

    def take_option(self, option, left):
        """Takes an option, and its value from the words that are left."""
        value = self.form.options[option]
        if option in self.options:
            wrong(f"{option} stands twice")
        if not left:
            wrong(f"{option} needs a value behind it: write {option} {value}")
        take_value(self.command, f"{option} {value}", left[0])
        self.options[option] = left.pop(0)

    def take_files(self, words):
        """Takes words that are no options, nor values behind one: values that have to be given, or files."""
        for word in words:
            if len(self.taken) < len(self.form.needed):
                take_value(self.command, self.form.needed[len(self.taken)], word)
                self.taken.append(word)
            elif len(self.files) < len(self.form.inputs):
                self.files.append(word)
            else:
                wrong(f"{shown(word)} is one word too many: it is spelled {self.usage}")

    def refuse(self, word):
        """Says of a word what is written in its place."""
        name, equals, value = word.partition("=")
        said = f"{shown(word)} is no word of {self.command}"
        if equals and name in self.form.options:
            wrong(f"{said}: write {name} {shown(value)}")
        if word.startswith("-o"):
            wrong(f"{said}: write -o {shown(word[2:])}")
        if os.path.exists(word):
            wrong(f"{said}: a file of that name is given as ./{shown(word)}")
        wrong(f"{said}, which is spelled {self.usage}")

    def see_whole(self):
        """Sees that nothing is lacking."""
        if len(self.taken) < len(self.form.needed):
            wrong(f"{self.command} needs {self.form.needed[len(self.taken)]}: it is spelled {self.usage}")
        if len(self.files) == 1 and len(self.form.inputs) == 2 and not may_have_both(self.files[0]):
            inputs = " ".join(self.form.inputs)
            wrong(f"{self.command} reads {inputs}, and {shown(self.files[0])} is one file alone: name all, or - for standard input")
        if self.tail:
            self.see_names(self.rest[1:])

    def see_names(self, names):
        """Sees that names of positions stand behind the row's word in small letters: one, or as many as its value says."""
        row = table.value_of(self.command, self.form.behind) if ".." in self.form.behind else None
        most = int(row[1].split()[1]) if row else 1
        if not names:
            wrong(f"{self.command} needs {self.tail} and what follows it: it is spelled {self.usage}")
        if len(names) > most == 1:
            wrong(f"{shown(names[1])} is one word too many: one name stands behind {self.tail}, and nothing else")
        if len(names) > most:
            wrong(f"at most {most} names stand behind {self.tail}, and here are {len(names)}")
        for it in names:
            if not 1 <= len(it) <= LONGEST_NAME or not LETTERS.issuperset(it):
                wrong(f"{shown(it)} cannot stand behind {self.tail}: names of positions have 1 to {LONGEST_NAME} letters, digits, _ and -")


def may_have_both(name):
    """Whether a file may have a scenario and its plan behind it, as replan and duo write them. (Of a pipe only its reader can tell.)"""
    return name == "-" or (not is_plain(name) and os.path.exists(name)) or has_plan(name)


def target_of(target, left):
    """The file behind -o, which is taken from the words that are left; `target` is the one that was given before, if any."""
    if not left or not left[0]:
        wrong("-o needs the name of a file behind it")
    if target:
        wrong(f"-o stands twice: {shown(target)} and {shown(left[0])}")
    return left.pop(0)


def is_timed(words):
    """Whether these are the words of `plan` that say how long it may take, which a helper of that name answers."""
    if words[0] != "plan":
        return False
    behind = words[1 : words.index("--")] if "--" in words else words[1:]
    return any(it in ("--seconds", "--minutes") or it.startswith(("--seconds=", "--minutes=")) for it in behind)


def of_helper(given):
    """The words of a helper, which answers for its own words, and the file behind -o."""
    words, left, target = [given[0]], list(given[1:]), ""
    while left:
        word = left.pop(0)
        if word == "-o":
            target = target_of(target, left)
        elif word == "--" or (words[0] == "explain" and len(words) == 2 and word in ("flown", "start")):
            # (Behind `flown` and `start` stand names of positions, and nothing else.)
            words, left = [*words, word, *left], []
        else:
            words.append(word)
    if long := next((it for it in words if len(it) > LONGEST_WORD), None):
        wrong(f"{shown(long)} is no word of {given[0]}: the longest has {LONGEST_WORD} letters")
    return words, target
