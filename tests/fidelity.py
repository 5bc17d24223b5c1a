"""How true a drafted scenario is: its plan's chance beside what the path finds of drifts that tests/adrift.py simulates."""
import dataclasses
import datetime
import math
import os
import re
import subprocess
import sys
import tempfile

from desk import forms
from tests import adrift

TOP = os.path.dirname(os.path.dirname(os.path.realpath(__file__)))
OSP = os.environ.get("OSP", os.path.join(TOP, "osp"))


def is_built():
    """Whether there is a program that plans at once, and needn't be compiled for each run."""
    return "OSP" in os.environ or os.path.exists(os.path.join(TOP, "crates", "osp", "out", "osp"))


class Unplanned(Exception):
    """Why there is no plan of a situation, in one line."""


@dataclasses.dataclass
class Row:
    """In percent: what the plan says, what its path finds with the standard error, what the beam's path finds of the same drifts and of
    others; how many records the plan has, and what `draft` said."""

    says: float
    finds: float
    error: float
    beam: float
    others_find: float
    records: int
    said: str


def square(name):
    """The square of a position's name, or None of the base."""
    return None if name == "base" else next(iter(adrift.squares_of([name])))


def drafted(text, table=None):
    """The scenario that `draft` makes of a situation's text, as bytes, and what it said. The situation may name a `table` of tracks, a text,
    by tracks.csv."""
    with tempfile.TemporaryDirectory() as room:
        for name, each in (("situation.toml", text), ("tracks.csv", table or "")):
            with open(os.path.join(room, name), "w", encoding="utf-8") as file:
                file.write(each)
        words = ["draft", os.path.join(room, "situation.toml")]
        done = subprocess.run([sys.executable, "-m", "desk", *words], cwd=TOP, capture_output=True, check=False)
    if done.returncode:
        raise Unplanned(done.stderr.decode().strip())
    return done.stdout, done.stderr.decode()


def planned(scenario):
    """The plan of a scenario, as text."""
    done = subprocess.run([OSP, "plan", "--workers", "4"], input=scenario, capture_output=True, check=False)
    if done.returncode:
        raise Unplanned(done.stderr.decode().strip().splitlines()[-1])
    return done.stdout.decode("ascii")


def chance(plan):
    """The chance that a plan says, as a float."""
    value, weight = plan.split("\n", 3)[2].split()[1:]
    return int(value) / int(weight)


def search_minutes(of):
    """The minutes of a period in which the searcher searches: as the situation has it, or what the way to the next square leaves, in
    hundredths of a minute. That is by a corner, unless the searcher reaches the squares by its sides alone."""
    who = of.told["searcher"]
    way = (1 if who.get("reaches") == 4 else math.sqrt(2)) * of.side / (who["speed"] * adrift.KNOT)
    return who.get("search_minutes") or math.floor((of.minutes - way) * 100) / 100


def recorded(of, count, seed):
    """Ways of so many drifts of an adrift.Situation as a table of tracks. Where the search's begin has no date, it is on 2026-07-04."""
    midnight = datetime.datetime.combine(of.begins[1] or datetime.date(2026, 7, 4), datetime.time())
    rows = ["id,time,x,y"]
    for name, way in enumerate(adrift.ways(of, count, seed)):
        moments = (midnight + datetime.timedelta(minutes=of.begins[0] + minute) for minute, _ in way)
        rows += [f"{name},{moment.isoformat()},{x!r},{y!r}" for moment, (_, (x, y)) in zip(moments, way)]
    return "\n".join(rows)


def with_tracks(text):
    """A situation's text whose reports, currents, wind and drift are the tracks of tracks.csv."""
    tables = re.split(r"(?m)^(?=\[)", text)
    kept = [it for it in tables if not it.startswith(("[[report]]", "[[current]]", "[[wind]]", "[drift]", "[tracks]"))]
    return re.sub(r'(?m)^begins = "(?=\d\d:)', 'begins = "2026-07-04 ', "".join(kept), count=1) + '\n[tracks]\nfile = "tracks.csv"\n'


def flown(text, count, seed):
    """What a plan says of a draft from a file of so many drifts, and what its path finds of as many others, with its standard error, in
    percent. Raises Unplanned."""
    of = adrift.Situation(text)
    plan = planned(drafted(with_tracks(text), recorded(of, count, seed))[0])
    path = [square(it) for it in plan.split("\n", 2)[1].split()[1:]]
    finds, error = adrift.flown(adrift.drifts(of, count, seed + 1), adrift.looks(of, search_minutes(of)), path)
    return 100 * chance(plan), 100 * finds, 100 * error


def measured(text, count, seed, width):
    """The row of a situation, by so many drifts. Raises Unplanned."""
    of = adrift.Situation(text)
    scenario, said = drafted(text)
    plan = planned(scenario)
    lines = plan.split("\n", 4)
    path = [square(it) for it in lines[1].split()[1:]]
    sc, _ = forms.read_scenario(scenario, True)
    names = [square(it.decode()) for it in sc.positions]
    moves = {names[at]: [names[it] for it in to] for at, to in sc.moves.items()}
    seen = adrift.looks(of, search_minutes(of))
    tracks = adrift.drifts(of, count, seed)
    finds, error = adrift.flown(tracks, seen, path)
    better, beam = adrift.best_found(tracks, seen, moves, names[sc.start], width)
    others_find, _ = adrift.flown(adrift.drifts(of, count, seed + 1), seen, better)
    records = int(lines[3].split()[1])
    return Row(100 * chance(plan), 100 * finds, 100 * error, 100 * beam, 100 * others_find, records, said)
