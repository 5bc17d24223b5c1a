"""./osp draft SITUATION.toml > SCENARIO: a scenario from metres, knots, bearings and times. docs/PLANNING.md says how.

The scenario goes to standard output; what was rounded, and what to look at, to standard error.
"""
import os

from desk import packages, reading, running, telling, tracks, writing
from desk.chain import drifts
from desk.limits import MOST_SCENARIO
from desk.rounded import rounded
from desk.shares import Shares
from desk.situation import LONGEST, BadSituation, situation
from desk.status import Status
from desk.words import BadWords, Words

WORDS = Words(
    "draft",
    "draft SITUATION.toml",
    "writes a scenario from a situation: times, reports, currents, wind, the searcher",
    ("SITUATION.toml", "the file of the situation; docs/PLANNING.md has its keys"),
)


def drafted(text, tell=None, folder=""):
    """The scenario's text for a situation's text, both as bytes, and the lines to say of it. Raises BadSituation. `tell` is told how far
    the simulation is, in tracks; files that the situation names are in the folder."""
    given = situation(text, folder)
    return scenario_of(given, text, tracks.made(given, tell=tell))


def scenario_of(given, text, made):
    """The scenario's text for a situation, its text and its tracks, as bytes, and the lines to say of it. Raises BadSituation."""
    shares = Shares(given)
    for drift in drifts(given, made):
        draft = rounded(shares, drift)
        told = telling.facts(shares, drift, draft)
        scenario = writing.scenario_text(draft.scenario, telling.comments(text, shares, drift, told))
        if len(scenario) <= MOST_SCENARIO:
            return scenario, telling.lines(shares, drift, draft, told)
    why = f"the scenario has {len(scenario):,} bytes, and {MOST_SCENARIO:,} are the most"
    if drift.states.finer > 1:
        raise BadSituation(f"[tracks] finer: {why}; take a smaller number, as in finer = {drift.states.finer - 1}")
    raise BadSituation(f"[area] rows: {why}; take fewer, larger cells, as in rows = 7")


def say(line):
    """A line on standard error."""
    running.say(f"osp draft: {line}")


def main(words):
    """Runs the helper; answers its exit status."""
    try:
        name = WORDS.one_file(words, "a situation")
        text = reading.begin(name, LONGEST + 1)
    except BadWords as wrong:
        return WORDS.refuse(wrong)
    except OSError as wrong:
        say(f"the file can't be read: {reading.why(wrong)}")
        return Status.UNREADABLE
    try:
        with running.progress("draft") as show:
            scenario, lines = drafted(text, lambda done: show(f"{done:,} tracks"), os.path.dirname(name))
    except BadSituation as wrong:
        say(wrong)
        return Status.WRONG
    except packages.Lacking as lacking:
        say(lacking)
        return Status.FAILED
    written = running.write_bytes(scenario)
    if written == Status.DONE:
        for line in lines:
            say(line)
    return written
