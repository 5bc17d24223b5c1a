"""./osp chart SCENARIO [PLAN] [--of SCENARIO] [--from TIME --minutes N] -o FILE: an accepted plan for a plotter or a map: GPX, KML, GeoJSON.

The ending of the file's name says which. The scenario has to say where its area lies on the earth (docs/PLANNING.md).
"""
import dataclasses
import os

from desk import accepted, clock, comments, earth, geojson, layout, outfile, packages, route, running, steering
from desk.accepted import Refused
from desk.status import Status
from desk.words import BadWords, Words

# What makes the text of each form, by the ending of a file's name.
FORMS = {"gpx": route.gpx, "kml": route.kml, "geojson": geojson.geojson}
WORDS = Words(
    "chart",
    "chart SCENARIO [PLAN] [--of SCENARIO] [--from TIME --minutes N] [--form NAME]",
    "writes the path for a plotter or a map, as GPX, KML or GeoJSON by the ending of the name behind -o",
    ("SCENARIO", "the scenario's file, or one with its plan behind it; - for standard input"),
    ("PLAN", "the plan's file, or that of a gap plan"),
    ("--of SCENARIO", "the scenario that replan or duo made this one of"),
    ("--from TIME", "when period 1 begins, as in 19:30 or 2026-07-04T19:30Z, where the scenario says no times"),
    ("--minutes N", "the minutes of a period, 1 to 1440, beside --from"),
    ("--form NAME", f"the form, where no file's name says it: {', '.join(FORMS)}"),
    ("-o FILE", f"the file, whose name ends in one of {', '.join(f'.{it}' for it in FORMS)}"),
)
NO_PLACE = (
    "the scenario doesn't say where it lies on the earth: a comment # earth LAT LON gives its north-west corner, and [area] north_west of "
    "a situation makes draft write one"
)


@dataclasses.dataclass(frozen=True)
class Chart:
    """What is charted: an accepted search, what its comments say, the steering.Stops of each searcher (all with their places), and the
    layout.Layout of its squares, in metres, or None where these have no places."""

    search: accepted.Search
    told: comments.Comments
    ways: list
    layout: layout.Layout | None


def form_of(asked, target):
    """The form that words ask for by name or by the ending of a file's name. Raises BadWords."""
    ending = os.path.splitext(target or "")[1].lstrip(".").lower()
    found = asked or {"json": "geojson"}.get(ending, ending)
    if found not in FORMS:
        told = f"the name behind -o ends in one of {', '.join(f'.{it}' for it in FORMS)}"
        raise BadWords(f"behind --form stands one of {', '.join(FORMS)}" if asked else told)
    return found


def ways_of(search, told):
    """The Stops of each searcher. Raises Refused where one of them has no place."""
    ways = [steering.stops(search, told, it) for it in range(search.seats.count)]
    lacking = next((it for way in ways for it in way if it.on_earth is None), None)
    if lacking is not None:
        raise Refused(Status.WRONG, f"nothing says where the position {lacking.name} lies: a comment # at {lacking.name} EAST SOUTH does")
    return ways


def squares_of(search):
    """The layout of the squares, and the lines to say where there is none in metres."""
    try:
        found = layout.layout(search.seats.of, search.told_by)
    except layout.NoPlaces as why:
        return None, [f"squares are left out: {why}"]
    return (found, []) if found.metres else (None, ["squares are left out: comments # at NAME EAST SOUTH don't place each of them"])


def charted(files, of, times):
    """The Chart of the files, and what to say. Raises Refused."""
    search = accepted.load(files, of)
    if earth.frame_of(search.told_by) is None:
        raise Refused(Status.WRONG, NO_PLACE)
    told, lacking = comments.read(search, times)
    if lacking:
        raise Refused(Status.FAILED, lacking[0])
    ways = ways_of(search, told)
    squares, said = squares_of(search)
    return Chart(search, told, ways, squares), running.noted(search.note, "chart", said)


def written(text, target):
    """Writes a text to a file, or to standard output; answers the exit status."""
    if target in (None, "-"):
        return running.write(text)
    try:
        outfile.replace(target, text.encode("utf-8"))
        return Status.DONE
    except OSError as why:
        running.say(f"osp chart: -o {accepted.shown(target)} cannot be written: {why.strerror}")
        return Status.UNWRITABLE


def main(words):
    """Runs the helper; answers its exit status."""
    try:
        files, options = WORDS.taken(words)
        target = options["-o"]
        form = form_of(options["--form"], target)
        times = clock.times({it: options[it] for it in ("--from", "--minutes") if options[it] is not None})
        if len(files) not in (1, 2) or [*files, options["--of"]].count("-") > 1:
            raise BadWords("a scenario's file and a plan's are needed, or one file with both; one of them may be -")
    except BadWords as wrong:
        return WORDS.refuse(wrong)
    try:
        chart, note = charted(files, options["--of"], times)
        text = FORMS[form](chart)
    except Refused as why:
        running.say(f"{why.note}\nosp chart: {why.said}".lstrip())
        return why.status
    except packages.Lacking as lacking:
        running.say(f"osp chart: {lacking}")
        return Status.FAILED
    if note:
        running.say(note)
    return written(text, target)
