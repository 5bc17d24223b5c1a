"""./osp trial SITUATION.toml [PLAN ..] [--path NAME,NAME,..] [--pattern NAME] ..: flies paths over simulated drifts, and says what they
find.

What is found is held against what the plan says, and paths against each other. docs/PLANNING.md says how to read it.
"""
import dataclasses
import functools
import hashlib
import json
import os
import textwrap

from desk import accepted, flights, flying, keys, packages, patterns, percent, quoting, running, tracks
from desk.accepted import Refused
from desk.brief import rows_of
from desk.situation import LONGEST, BadSituation, recorded_at, situation
from desk.status import Status
from desk.words import BadWords, Words

WORDS = Words(
    "trial",
    "trial SITUATION.toml [PLAN ..] [--path NAME,NAME,..] [--pattern NAME] [--of SCENARIO] [--count N] [--seed N] [--tracks FILE] [--json yes]",
    "flies paths over simulated drifts, and says what they find beside what their plans say",
    ("SITUATION.toml", "the file of the situation, as draft reads it"),
    ("PLAN ..", "files of plans, of gap plans, or of a scenario with its plan behind it"),
    ("--path NAME,NAME,..", "the positions of a path, one for each period; it may stand several times", True),
    ("--pattern NAME", f"{', '.join(patterns.PATTERNS)}, or all; it may stand several times", True),
    ("--of SCENARIO", "the scenario whose sums stand beside what is found, where it is not the one that draft makes"),
    ("--count N", "how many drifts are simulated, 1000 to 200000"),
    ("--seed N", "from which seed, 1 to 1000000"),
    ("--tracks FILE", "a file of tracks that are flown over in place of simulated ones"),
    ("--json yes", "the answer as one line of JSON, which show and brief take"),
)
# From which difference on, in parts of 1 and in standard errors, a scenario is called no good image.
MOST_OFF, MOST_ERRORS = 0.02, 3
# How many tracks the JSON has at most, for a page to draw.
MOST_DRAWN = 500
# How wide a name of a flight is in a table, and how wide the text is, in columns.
NAME_WIDTH, WIDTH = 24, 80
# The least part of a difference that is told, as a share of 1.
LEAST_SHOWN = 0.00005


@dataclasses.dataclass
class Asked:
    """What the words ask for: the situation's file, the plans' files, paths and patterns by their words, the file of the scenario or
    None, how many drifts and from which seed (or None each), the file of the tracks that are flown over or None, and whether the answer is
    JSON."""

    situation: str
    plans: list
    paths: list
    patterns: list
    of: str | None
    count: int | None
    seed: int | None
    tracks: str | None
    is_json: bool


def words_of(words):
    """What the words ask for. Raises BadWords."""
    files, found = WORDS.taken(words)
    if not files or len(files) + len(found["--path"]) + len(found["--pattern"]) < 2:
        raise BadWords("a situation is needed, and something to fly: a plan, --path or --pattern")
    if [*files, found["--of"], found["--tracks"]].count("-") > 1:
        raise BadWords("standard input can be read once, and stands for one file")
    if found["--json"] not in (None, "yes"):
        raise BadWords("behind --json stands yes")
    named = [each for it in found["--pattern"] for each in (patterns.PATTERNS if it == "all" else [it])]
    if any(it not in patterns.PATTERNS for it in named):
        raise BadWords(f"behind --pattern stands {', '.join(patterns.PATTERNS)} or all")
    count, seed = (taken(key, found[f"--{key.name}"]) for key in keys.TRACKS[:2])
    more = found["--of"], count, seed, found["--tracks"], found["--json"] is not None
    return Asked(files[0], files[1:], found["--path"], list(dict.fromkeys(named)), *more)


def taken(key, word):
    """The number behind an option that is called as this key of [tracks]; None where it doesn't stand. Raises BadWords."""
    try:
        return None if word is None else key.take(WORDS.number(f"--{key.name}", word, 0, 9_999_999))
    except (ValueError, BadWords):
        raise BadWords(f"behind --{key.name} stands {key.what}, as in --{key.name} {key.example}") from None


# ---- what is flown


@dataclasses.dataclass
class Cause:
    """Why what is found isn't what is said, what helps, and how much of the difference it makes, as a share of 1."""

    why: str
    helps: str
    part: float


@dataclasses.dataclass
class Flown:
    """A flight, what it finds, how much less than the first of all, and (or None) where the difference to what its plan says comes from."""

    flight: flights.Flight
    finds: flying.Finds
    less: flying.Estimate
    causes: list | None

    @property
    def off(self):
        """By how much more the plan says than is found."""
        return float(self.flight.chance) - self.finds.total.mean

    @property
    def is_off(self):
        """Whether that is more than can be let pass."""
        return abs(self.off) > max(MOST_OFF, MOST_ERRORS * self.finds.total.error)


@dataclasses.dataclass
class Trial:
    """A trial: the name and the bytes of the situation's file, the situation, its fresh tracks, what was flown, the datum of the
    patterns or None, and whether the tracks are those of another file than the situation's."""

    name: str
    text: bytes
    given: object
    tracks: tracks.Tracks
    flown: list
    datum: flights.Datum | None
    is_other: bool


def causes(at, own, flight, fresh):
    """Where the difference between what a plan says and what is found comes from: causes whose parts sum to it.

    `own` are the draft's drifts. None where its scenario isn't the one of the field.
    """
    scenario = float(sum(flight.says))
    finer = flying.finer_of(at.given, own, at.sc)
    if finer is None:
        return None
    chain, halved = (own.found(flight.looks, it).total.mean for it in (finer, flying.HALVED[finer]))
    same = own.found(flight.looks).total.mean
    steps = (
        ("a plan of another scenario", "draft and plan anew", float(flight.chance), scenario),
        ("the rounding of the scenario", "[parts], or fewer periods", scenario, chain),
        ("its states, beside ones of half their side", "[tracks] finer, or smaller cells", chain, halved),
        ("what a chain of those still forgets of a drift", "go by what is found", halved, same),
        ("the draft's own drifts, to which a plan fits", "[tracks] count" if at.given.tracks.ensemble is None else "more tracks", same, fresh.total.mean),
    )
    return [Cause(why, helps, before - after) for why, helps, before, after in steps]


def fresh_tracks(asked, given, own):
    """The tracks that are flown over: those of a file, or of another seed than the draft's `own`. Raises BadSituation and BadWords."""
    is_recorded = asked.tracks is not None or given.tracks.ensemble is not None
    if is_recorded and (asked.count or asked.seed):
        raise BadWords("--count and --seed are of simulated drifts, and the tracks of a file are taken as they are")
    if asked.tracks is not None:
        told = recorded_at(asked.tracks, given)
        return tracks.made(dataclasses.replace(given, tracks=dataclasses.replace(given.tracks, ensemble=told)))
    if is_recorded:
        return own()
    return tracks.simulated(given, asked.count, given.tracks.seed + 1 if asked.seed is None else asked.seed)


def tried(asked):
    """The trial that is asked for. Raises Refused, BadSituation and BadWords."""
    text = accepted.read_file(asked.situation, LONGEST + 1)
    given = situation(text, os.path.dirname(asked.situation))
    own = functools.cache(lambda: tracks.made(given))
    made = fresh_tracks(asked, given, own)
    at = flights.field(given, text, asked.of, own)
    listed = [flights.of_plan(at, it, accepted.read_file(it)) for it in asked.plans]
    listed += [flights.of_path(at, f"path {it}", word) for it, word in enumerate(asked.paths, 1)]
    where = flights.datum(at, made) if asked.patterns else None
    listed += [flights.of_pattern(at, it, where) for it in asked.patterns]
    fresh = flying.Drifts(given, made)
    found = [fresh.found(it.looks) for it in listed]
    flown = [Flown(flight, finds, flying.less(found[0], finds), None) for flight, finds in zip(listed, found)]
    off = [it for it in flown if it.is_off]
    drafted = flying.Drifts(given, own()) if off else None
    for it in off:
        it.causes = causes(at, drafted, it.flight, it.finds)
    return Trial(flights.told(asked.situation), text, given, made, flown, where, asked.tracks is not None)


# ---- what is said


def signed(share):
    """A share in percent with its sign."""
    return f"{percent.near(share)} %"


def with_error(it):
    """An estimate in percent with its standard error."""
    return f"{percent.near(it.mean)} ± {percent.near(it.error)} %"


def short(name):
    """A name, cut where it is too long for a table."""
    return name if len(name) <= NAME_WIDTH else name[: NAME_WIDTH - 1] + "…"


def summary(trial):
    """The table of all that was flown."""
    lines = [["flown", "says", "finds", f"{short(trial.flown[0].flight.name)} finds more by"]]
    for at, it in enumerate(trial.flown):
        more = f"{percent.near(it.less.mean)} ± {percent.near(it.less.error)}" if at else ""
        lines.append([short(it.flight.name), signed(it.flight.chance), with_error(it.finds.total), more])
    return rows_of([it[: 4 if len(trial.flown) > 1 else 3] for it in lines], [True, False, False, False])


def periods(trial, it):
    """The table of a flight by period."""
    given, flight = trial.given, it.flight
    lines, so_far = [["period", "begins", "look from", "says", "finds", "says", "finds so far"]], 0
    for t, (place, says, found, up_to) in enumerate(zip(flight.path, flight.says, it.finds.periods, it.finds.so_far), 1):
        so_far += says
        begins = given.clock.told(given.minutes * (t - 1)).split(" ")[-1]
        lines.append([str(t), begins, place, signed(says), with_error(found), signed(so_far), with_error(up_to)])
    return [f"{flight.name}, period by period:", *rows_of(lines, [False, True, True, False, False, False, False])]


def wrapped(text):
    """A text in lines of the width."""
    return textwrap.wrap(text, WIDTH, subsequent_indent="  ", break_long_words=False, break_on_hyphens=False)


def about_patterns(trial):
    """What patterns are, and their paths."""
    drawn = [it.flight for it in trial.flown if it.flight.name in patterns.PATTERNS]
    if not drawn:
        return []
    row, column = trial.datum.setting.datum
    told = (
        f"The datum is r{row}c{column}: there is the mean place of the drifts at look {trial.datum.look}, the first at which the searcher "
        "can be there. It goes from its start to a pattern's first square by the quickest way, and so around land, and looks from each "
        "square on the way. A pattern that ends is begun again."
    )
    paths = (wrapped(" ".join([f"{it.name} ({patterns.PATTERNS[it.name].code}):", *it.path])) for it in drawn)
    return ["", *wrapped(told), *(line for it in paths for line in it)]


def about_off(it):
    """What is said of a flight whose finds aren't what its plan says."""
    where = "below" if it.off > 0 else "above"
    told = f"{it.flight.name}: what it finds is {percent.near(abs(it.off))} points {where} what is said, so the scenario is no good image of"
    told += " these drifts."
    if it.causes is None:
        return ["", *wrapped(f"{told} The scenario isn't the one that draft makes of this situation now.")]
    rows = [[f"  {each.why}", percent.near(each.part), each.helps] for each in it.causes if abs(each.part) >= LEAST_SHOWN]
    return ["", *wrapped(f"{told} Where the points of difference come from:"), *rows_of([["  cause", "points", "what helps"], *rows], [True, False, True])]


def head(trial):
    """What was flown over."""
    made, own = trial.tracks, trial.given.tracks
    if made.file is None:
        other = "which are the draft's own" if made.seed == own.seed else f"and not {own.seed}, from which draft makes its own"
        return [f"{trial.name}: {made.count:,} simulated drifts {made.origin}, {other}. Behind ± stands the standard error."]
    told = f"{trial.name}: {quoting.counted(made.count, 'track')} {made.origin}"
    if not trial.is_other:
        told += ", which are the draft's own; --tracks FILE flies over others"
    return [f"{told}. Behind ± stands the standard error.", *(f"{made.file}: {it}" for it in made.said[1:])]


def text_of(trial):
    """The whole text."""
    lines = [*(line for it in head(trial) for line in wrapped(it)), "", *summary(trial)]
    paths = [it for it in trial.flown if it.flight.name not in patterns.PATTERNS]
    for it in paths:
        lines += ["", *periods(trial, it)]
        lines += [line for note in it.flight.notes for line in wrapped(f"note: {it.flight.name}: {note}")]
    lines += [line for it in paths if it.is_off for line in about_off(it)]
    lines += about_patterns(trial)
    return "\n".join(lines) + "\n"


# ---- the same as JSON


def part(value):
    """A share as JSON has it."""
    return round(float(value), 6)


def flown_json(it):
    """A flight as JSON."""
    flight = it.flight
    rows = zip(flight.says, it.finds.periods)
    return {
        "name": flight.name,
        "path": flight.path,
        "chance": str(flight.value),
        "weight": str(flight.weight),
        "finds": part(it.finds.total.mean),
        "error": part(it.finds.total.error),
        "is_off": it.is_off,
        "periods": [{"says": part(says), "finds": part(found.mean), "error": part(found.error)} for says, found in rows],
        "less": {"finds": part(it.less.mean), "error": part(it.less.error)},
        "causes": None if it.causes is None else [{"why": each.why, "part": part(each.part)} for each in it.causes],
        "notes": list(flight.notes),
    }


def json_of(trial):
    """The whole answer as one line of JSON."""
    drawn = [[None if it is None else [round(it[0]), round(it[1])] for it in look[:MOST_DRAWN]] for look in trial.tracks.looks]
    told = {
        "trial": 1,
        "situation": trial.name,
        "sha256": hashlib.sha256(trial.text).hexdigest(),
        "count": trial.tracks.count,
        "seed": trial.tracks.seed,
        "draft_seed": trial.given.tracks.seed,
        "file": trial.tracks.file,
        "said": list(trial.tracks.said),
        "flown": [flown_json(it) for it in trial.flown],
        "drifts": drawn,
    }
    return json.dumps(told, sort_keys=True, separators=(",", ":")) + "\n"


def main(words):
    """Runs the helper; answers its exit status."""
    try:
        asked = words_of(words)
        trial = tried(asked)
    except BadWords as wrong:
        return WORDS.refuse(wrong)
    except BadSituation as wrong:
        running.say(f"osp trial: {wrong}")
        return Status.WRONG
    except Refused as why:
        running.say(f"osp trial: {why.said}")
        return why.status
    except packages.Lacking as lacking:
        running.say(f"osp trial: {lacking}")
        return Status.FAILED
    return running.write(json_of(trial) if asked.is_json else text_of(trial))
