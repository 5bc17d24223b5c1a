"""A plan in parts: the folder that `split` makes and `join` reads. Each part is of the paths that begin with one prefix, and its text is
the scenario that forces the prefix, with its plan behind it."""
import math
import re

from desk import accepted, derived, forms, paths
from desk.accepted import Refused
from desk.limits import MOST_SCENARIO
from desk.status import Status

# What is in the folder: the scenario as it was given, how long the prefixes are, the script of a job, a line for each job, and the
# folder of the parts.
SCENARIO, DEPTH, JOB, JOBS, PARTS = "scenario", "depth", "job", "jobs", "parts"
# The most parts.
MOST = 1_000_000


def scenario(name):
    """The text of a scenario's file, as bytes, and the scenario. Raises Refused."""
    text = accepted.read_file(name)
    if len(text) > MOST_SCENARIO:
        raise Refused(Status.TOO_LONG, f"{accepted.shown(name)}: input too long")
    try:
        return text, forms.read_scenario(text, True)[0]
    except forms.Fault as fault:
        raise Refused(Status.BAD_SCENARIO, f"{accepted.shown(name)}: bad scenario: line {fault.line} {fault.kind}") from None


def length(sc, word):
    """The length of prefixes that a word says, or None where no prefix but the empty one is so long."""
    return int(word) if re.fullmatch("[1-9][0-9]?", word, re.ASCII) and int(word) <= sc.horizon else None


def count(sc, size):
    """How many prefixes of a length there are."""
    return paths.counts(sc, math.inf)[size]


def named(sc, size):
    """The prefixes of a length by the names of their parts, in ascending order."""
    found = paths.prefixes(sc, size)
    digits = len(str(len(found)))
    return {f"{PARTS}/{at:0{digits}}": it for at, it in enumerate(found, 1)}


def not_forced(sc, prefixes):
    """Why no scenario forces these prefixes, as `replan` says it, or None where one does. It is so of all of one length, or of none."""
    try:
        derived.forced(sc, next(iter(prefixes.values())))
    except derived.Refused as why:
        return f"bad flown: {why}"
    return None


def words(sc, path):
    """The names of positions, with blanks between them."""
    return " ".join(sc.positions[it].decode("ascii") for it in path)
