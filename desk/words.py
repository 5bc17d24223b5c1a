"""The words of a helper: its options and files, by argparse, and the page that says what they are."""
import argparse
import difflib
import re

from desk import running
from desk.status import Status

# How wide a page is, and where on it texts begin, in columns, so that it is the same on every terminal.
WIDTH, BEGINS = 100, 26


class BadWords(Exception):
    """The words of a command spell nothing that it takes. It says why."""


class HelpWanted(BadWords):
    """The words ask for the page."""


def formatter(prog):
    """The form of a page."""
    return argparse.HelpFormatter(prog, max_help_position=BEGINS, width=WIDTH)


class Words:
    """The words that a helper takes.

    `usage` are its words as the front door has them in its table of helpers, `does` what it does. Each row is what may stand and what
    that is: a file or a name in capitals, or an option with its value, as in ("--flown K", ..); a third part of a row says whether the
    option may stand several times.
    """

    def __init__(self, name, usage, does, *rows):
        self.name, self.usage = name, f"usage: osp {usage}"
        self.parser = argparse.ArgumentParser(prog=f"osp {name}", usage=f"osp {usage}", description=does, allow_abbrev=False, add_help=False, formatter_class=formatter)
        self.parser.error = self.refused
        files, options = (self.parser.add_argument_group(it) for it in ("files and names", "options"))
        self.many = {}
        for left, what, *is_many in rows:
            option, _, value = left.partition(" ")
            if not option.startswith("-"):
                files.add_argument(left, nargs="?", help=what)
            else:
                self.many[option] = any(is_many)
                options.add_argument(option, dest=option, metavar=value, action="append" if any(is_many) else "store", help=what)
        if "-o" not in self.many:
            options.add_argument("-o", metavar="FILE", help="what is written goes to this file, whole or not at all, and else to standard output")
        options.add_argument("--help", "-h", action="store_true", help="shows this page")

    @staticmethod
    def refused(why):
        """In the place of argparse's own refusal, which ends the process."""
        raise BadWords(why)

    def sorted(self, words):
        """The words that are files or names, and those of options, each with its value behind a =. Behind `--` all words are files or
        names. Raises BadWords."""
        files, options, rest = [], [], list(words)
        while rest:
            word = rest.pop(0)
            option, equals, value = word.partition("=")
            if word == "--":
                files, rest = files + rest, []
            elif word in ("--help", "-h"):
                raise HelpWanted
            elif option in self.many:
                options.append(f"{option}={value if equals else self.behind(option, rest)}")
            elif word.startswith("--"):
                raise BadWords(f"there is no such option as {ascii(word)[1:-1]}{self.meant(option)}")
            else:
                files.append(word)
        return files, options

    @staticmethod
    def behind(option, rest):
        """The word behind an option, which is taken from the rest."""
        if not rest:
            raise BadWords(f"{option} has one word behind it")
        return rest.pop(0)

    def meant(self, option):
        """Which option may be meant."""
        found = difflib.get_close_matches(option[:40], self.many, 1, 0.6)
        return f": is {found[0]} meant?" if found else ""

    def taken(self, words):
        """The files and names of the words; and by option its word, or None, or the list of its words where it may stand several times.
        Raises BadWords, and HelpWanted where they ask for the page."""
        files, options = self.sorted(words)
        names = [it.partition("=")[0] for it in options]
        twice = next((it for it in names if names.count(it) > 1 and not self.many[it]), None)
        if twice is not None:
            raise BadWords(f"{twice} stands once, and has one word behind it")
        found = vars(self.parser.parse_args(options))
        return files, {it: found[it] if found[it] is not None or not is_many else [] for it, is_many in self.many.items()}

    def one_file(self, words, what):
        """The one file that the words name, which may not be - . Raises BadWords."""
        files, _ = self.taken(words)
        if len(files) != 1 or files[0] == "-":
            raise BadWords(f"{what} is needed, as the name of one file")
        return files[0]

    @staticmethod
    def number(option, word, least, most):
        """The whole number that a word behind an option says. Raises BadWords."""
        if not re.fullmatch("[1-9][0-9]{0,19}|0", word, re.ASCII) or not least <= int(word) <= most:
            raise BadWords(f"behind {option} stands a whole number from {least} to {most}, as in {option} {min(most, max(least, 4))}")
        return int(word)

    def refuse(self, wrong):
        """Says what is wrong with the words, or writes the page that they ask for; answers the exit status."""
        if isinstance(wrong, HelpWanted):
            return running.write(self.parser.format_help())
        running.say(f"osp {self.name}: {wrong}\n{self.usage}")
        return Status.WRONG_WORDS
