"""The words of helpers that read a scenario and its plan, with the times of its periods: --from HH:MM --minutes N."""
import dataclasses
import re
from fractions import Fraction

from desk import accepted, moments, running, words
from desk.words import BadWords

# A time of day whose hour has one digit.
SHORT = re.compile(r"[0-9]:", re.ASCII)


def times(options):
    """The times of the options by name, or None where there are none of them. --from is a time of day, or a date and a time, and with a Z
    in UTC. Raises BadWords."""
    if not options:
        return None
    if len(options) < 2:
        raise BadWords("--from and --minutes stand together, as in --from 19:30 --minutes 15")
    word, minutes = options["--from"], re.fullmatch(r"[1-9][0-9]{0,3}", options["--minutes"], re.ASCII)
    try:
        begins = moments.moment("0" * bool(SHORT.match(word)) + word)
    except ValueError:
        raise BadWords("--from is a time from 00:00 to 23:59, as in --from 19:30 or --from 2026-07-04T19:30Z") from None
    if not minutes or int(minutes[0]) > moments.DAY:
        raise BadWords("--minutes is a whole number from 1 to 1440, as in --minutes 15")
    return moments.Times(moments.Clock(begins), Fraction(int(minutes[0])))


@dataclasses.dataclass
class Words:
    """What words say: the files of a scenario and its plan, or the one that has both; the file of the scenario that it was made of, or
    None; the times of its periods, or None; the file of a trial, or None."""

    files: list
    of: str | None
    times: moments.Times | None
    trial: str | None = None


def words_of(name, does):
    """The words of a helper of this name that makes a text of a scenario and its plan."""
    return words.Words(
        name,
        f"{name} SCENARIO [PLAN] [--of SCENARIO] [--trial FILE] [--from HH:MM --minutes N]",
        does,
        ("SCENARIO", "the scenario's file, or one that has its plan behind it, as replan and duo write both; - for standard input"),
        ("PLAN", "the file of a plan or of a gap plan"),
        ("--of SCENARIO", "the scenario that replan or duo made this one of: its names, places and start are used"),
        ("--trial FILE", "what osp trial wrote of the plan with --json yes"),
        ("--from HH:MM", "when period 1 begins, perhaps with a date before it and a Z behind it, where the scenario doesn't say so"),
        ("--minutes N", "how many minutes a period has, 1 to 1440, beside --from"),
    )


def taken(given, known):
    """What words say, by those that are `known`. Raises BadWords.

    The name `-` stands for standard input, which can be read once.
    """
    files, options = known.taken(given)
    if len(files) not in (1, 2):
        raise BadWords("a scenario's file and a plan's are needed, or one file with both")
    of, trial = options["--of"], options["--trial"]
    if [*files, of, trial].count("-") > 1:
        raise BadWords("standard input can be read once, and stands for one file")
    return Words(files, of, times({it: options[it] for it in ("--from", "--minutes") if options[it] is not None}), trial)


def run(known, make, given):
    """Writes what `make` makes of what the words say, by those that are `known`, and answers the exit status."""
    try:
        asked = taken(given, known)
    except BadWords as wrong:
        return known.refuse(wrong)
    try:
        text, note = make(asked)
    except accepted.Refused as refused:
        running.say(f"{refused.note}\nosp {known.name}: {refused.said}".lstrip())
        return refused.status
    if note:
        running.say(note)
    return running.write(text)
