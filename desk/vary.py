"""./osp vary SITUATION.toml PLAN [--nodes N] [--json yes]: what a plan finds where the situation is otherwise, and what it costs to be
wrong.

The situation is drafted again with one thing at a time more or less than the file says. docs/PLANNING.md says how to read the table.
"""
import dataclasses
import hashlib
import json
import os
from fractions import Fraction

from desk import accepted, draft, flights, packages, percent, quoting, running, tracks, varied
from desk.accepted import Refused
from desk.brief import rows_of
from desk.limits import MOST_GAP_RECORDS
from desk.situation import LONGEST, BadSituation, situation
from desk.status import Status
from desk.trial import signed, wrapped
from desk.words import BadWords, Words

WORDS = Words(
    "vary",
    "vary SITUATION.toml PLAN [--nodes N] [--json yes]",
    "says what a plan finds where the situation is otherwise, and what it costs to be wrong",
    ("SITUATION.toml", "the situation's file"),
    ("PLAN", "the file of a plan or a gap plan of it; - for one of both is standard input"),
    ("--nodes N", f"how many records the best plan of each draft may take, 1 to {MOST_GAP_RECORDS}; {MOST_GAP_RECORDS} where it is not given"),
    ("--json yes", "the same as one line of JSON"),
)
# The situation as the file says it.
AS_IT_IS = "as it is"
# From which share on a cost is told: it is 0.01 points when it is rounded.
LEAST_SHOWN = Fraction(5, 100_000)


@dataclasses.dataclass
class Asked:
    """What the words ask for: the files of the situation and of the plan, the records that `gap` may take, and whether the answer is
    JSON."""

    situation: str
    plan: str
    nodes: int
    is_json: bool


def words_of(words):
    """What the words ask for. Raises BadWords."""
    files, found = WORDS.taken(words)
    if len(files) != 2:
        raise BadWords("a situation's file and a plan's are needed")
    if files.count("-") > 1:
        raise BadWords("standard input can be read once, and stands for one file")
    if found["--json"] not in (None, "yes"):
        raise BadWords("behind --json stands yes")
    nodes = MOST_GAP_RECORDS if found["--nodes"] is None else WORDS.number("--nodes", found["--nodes"], 1, MOST_GAP_RECORDS)
    return Asked(*files, nodes, found["--json"] is not None)


# ---- what is found


@dataclasses.dataclass
class Row:
    """A draft of a varied situation: what the plan's path finds there, what the best path that was found finds, and what none exceeds, each
    as parts of a weight; or `why` there is no such draft."""

    variation: varied.Variation
    value: int = 0
    best: int = 0
    ceiling: int = 0
    weight: int = 1
    why: str | None = None

    @property
    def name(self):
        """What is varied, and which way."""
        return f"{self.variation.what} {self.variation.way}".rstrip()

    @property
    def costs(self):
        """How much less the plan finds than the best path that was found, as a share of 1."""
        return Fraction(self.best - self.value, self.weight)

    @property
    def costs_at_most(self):
        """How much less it finds than what no path exceeds."""
        return Fraction(self.ceiling - self.value, self.weight)


@dataclasses.dataclass
class Varied:
    """What came of it: the name and the bytes of the situation's file, the tracks of its own draft, the flight of the plan there, the rows,
    the first of which is the situation as it is, and what the program said on standard error."""

    name: str
    text: bytes
    made: tracks.Tracks
    flight: flights.Flight
    rows: list
    note: str

    @property
    def most(self):
        """The row that costs most, by the best path that was found, of those that differ; None where none costs anything."""
        drafted = [it for it in self.rows[1:] if it.why is None]
        found = max(drafted, key=lambda it: it.costs, default=None)
        return found if found and found.costs >= LEAST_SHOWN else None


def best(scenario, sc, nodes):
    """What the best path of a scenario finds and what none exceeds, by `gap` with so many records: the same where these were enough. Answers
    the weight, too, and what the program said. Raises Refused."""
    text, note = accepted.asked("gap", scenario, "--nodes", str(nodes))
    plan = accepted.head(text, sc)
    return plan.value, plan.ceiling, plan.weight, note


def field_of(variation, text, made):
    """The field of a variation, with what is drafted of it. Raises BadSituation."""
    own = made if variation.drifts_as_before else tracks.made(variation.given)
    scenario = draft.scenario_of(variation.given, text, own)[0]
    return flights.Field(variation.given, scenario)


def row(variation, at, names, whose, nodes):
    """The row of a variation's field for a path by names, and what the program said. Raises Refused."""
    value, weight, _ = flights.sums(at.sc, at.numbers(names, whose))
    found, ceiling, whole, note = best(at.text, at.sc, nodes)
    if whole != weight:
        raise Refused(Status.FAILED, "the program's weight isn't this helper's; please tell the project, with both files")
    # Where the proof isn't finished, the plan may be better than what was found.
    return Row(variation, value, max(found, value), ceiling, weight), note


def found(asked, show=lambda line: None):
    """What comes of the words; `show` is told how far it is. Raises Refused, BadSituation and packages.Lacking."""
    text = accepted.read_file(asked.situation, LONGEST + 1)
    plan = accepted.read_file(asked.plan)
    given = situation(text, os.path.dirname(asked.situation))
    made = tracks.made(given)
    own = varied.Variation(AS_IT_IS, "", "", (), given, drifts_as_before=True)
    at = field_of(own, text, made)
    flight = flights.of_plan(at, asked.plan, plan)
    if len(flight.places[0]) > 1:
        raise Refused(Status.WRONG, f"{flight.name} is a plan of two searchers; vary takes plans of one")
    names = [name for (name,) in flight.places]
    rows, notes, all_of = [], [], varied.variations(given)
    for number, variation in enumerate((own, *all_of)):
        show(f"{number} of {len(all_of)}: {variation.what} {variation.way}")
        try:
            here = at if variation is own else field_of(variation, text, made)
        except BadSituation as why:
            rows.append(Row(variation, why=str(why)))
            continue
        told, note = row(variation, here, names, flight.name, asked.nodes)
        rows.append(told)
        notes.append(note)
    return Varied(flights.told(asked.situation), text, made, flight, rows, next(filter(None, notes), ""))


# ---- what is said


def span(least, most, unit=""):
    """Two shares in points, or one where they are the same to two digits."""
    low, high = percent.near(float(least)), percent.near(float(most))
    return f"{low}{unit}" if low == high else f"{low} to {high}{unit}"


def cells(it):
    """A line of the table."""
    if it.why is not None:
        return [it.name, "no draft", "", ""]
    least, most = (Fraction(value, it.weight) for value in (it.best, it.ceiling))
    return [it.name, signed(Fraction(it.value, it.weight)), span(least, most, " %"), span(it.costs, it.costs_at_most)]


def about(things):
    """How the Variations of one thing were varied, in a sentence."""
    first = things[0]
    how = "more and less" if first.way == "more" else "to each side"
    return f"{first.what}: {first.by} {how} ({first.reason})."


def about_most(it):
    """What costs most, in sentences."""
    most, drafted = it.most, [row for row in it.rows[1:] if row.why is None]
    if most is None:
        yield "None of these is known to cost anything."
    else:
        finds = "finds" if most.ceiling == most.best else "is known to find"
        yield f"What costs most is {most.name}: there the best plan {finds} {percent.near(float(most.costs))} points more."
    open_ones = [row for row in drafted if row.ceiling > row.best and row.costs_at_most > (most.costs if most else 0) and row is not most]
    if open_ones:
        names = ", ".join(row.name for row in open_ones)
        yield f"It may be another one, whose best plan isn't proved: {names}. More records (--nodes) or smaller scenarios say more."


def text_of(it):
    """The whole text."""
    head = f"{it.name}: what {it.flight.name} finds where the situation is otherwise; each draft is of {quoting.counted(it.made.count, 'track')} {it.made.origin}."
    lines = [*wrapped(head), ""]
    lines += rows_of([["", "the plan finds", "the best plan finds", "to be wrong costs"], *map(cells, it.rows)], [True, False, False, False])
    lines += ["", *(line for told in about_most(it) for line in wrapped(told)), ""]
    groups = {}
    for row in it.rows[1:]:
        groups.setdefault(row.variation.what, []).append(row.variation)
    lines += [line for things in groups.values() for line in wrapped(about(things))]
    lines += [line for row in it.rows if row.why for line in wrapped(f"{row.name}: there is no draft. {row.why}")]
    lines += [line for note in it.flight.notes for line in wrapped(f"note: {it.flight.name}: {note}")]
    return "\n".join(lines) + "\n"


def row_json(it):
    """A row as JSON."""
    what = {"what": it.variation.what, "way": it.variation.way, "by": it.variation.by, "keys": list(it.variation.keys), "why": it.why}
    if it.why is not None:
        return what
    return {**what, "chance": str(it.value), "best": str(it.best), "ceiling": str(it.ceiling), "weight": str(it.weight)}


def json_of(it):
    """The whole answer as one line of JSON."""
    told = {
        "vary": 1,
        "situation": it.name,
        "sha256": hashlib.sha256(it.text).hexdigest(),
        "plan": it.flight.name,
        "path": it.flight.path,
        "count": it.made.count,
        "seed": it.made.seed,
        "file": it.made.file,
        "rows": [row_json(row) for row in it.rows],
        "most": None if it.most is None else next(at for at, row in enumerate(it.rows) if row is it.most),
        "notes": list(it.flight.notes),
    }
    return json.dumps(told, sort_keys=True, separators=(",", ":")) + "\n"


def main(words):
    """Runs the helper; answers its exit status."""
    try:
        asked = words_of(words)
        with running.progress("vary") as show:
            it = found(asked, show)
    except BadWords as wrong:
        return WORDS.refuse(wrong)
    except BadSituation as wrong:
        running.say(f"osp vary: {wrong}")
        return Status.WRONG
    except Refused as why:
        running.say(running.noted(why.note, "vary", [why.said]))
        return why.status
    except packages.Lacking as lacking:
        running.say(f"osp vary: {lacking}")
        return Status.FAILED
    if it.note:
        running.say(it.note)
    return running.write(json_of(it) if asked.is_json else text_of(it))
