"""The part of a page in which what was flown is marked, and the program that the page carries plans the rest."""
import dataclasses
import json
from html import escape

from desk import forms, limits, seats, writing

NOTE = (
    "On scene the searcher may not be where the plan says. Mark the looks that were flown, in their order; they found nothing. The program in this "
    "page then makes the best plan of those that begin so (<code>replan</code>), and checks it; where the records run out, it makes a path with a "
    "ceiling that none exceeds (<code>gap</code>). All of it stays in this browser."
)
OF_TWO = (
    "Of two searchers both looks of a period are marked, that of the first one first, and both go on: what one finds alone, where the other "
    "has left, can't be planned here."
)
JUMPED = "Where a searcher went where no move of the scenario leads, <code>osp next</code> goes on, on a machine with the program."
UNKNOWN = "This can't be done in this page: several places look alike, and the plan doesn't say which of them were flown. With <code>--of</code> they may be told apart."
LOST = "This browser keeps no marks for this page: write them down before you leave it, or load it anew."
# The most records of a plan where the page isn't told another number.
RECORDS = 200_000


@dataclasses.dataclass(frozen=True)
class Base:
    """The scenario in which a page plans, which the page's own may be made of: its text and what it says; by the number of a position those
    of the searchers' places (desk.seats.Seats.of); the positions of the plan's path, and how many of them are flown."""

    text: bytes
    sc: forms.Scenario
    places: list
    path: list
    flown: int


def alone(text):
    """The scenario that a text begins with, without what stands behind it."""
    return text[: len(text) - len(forms.read_scenario(text, alone=False)[1])]


def base(search):
    """The Base of a search; None where it isn't known which of several places was flown."""
    who = search.seats
    if not who.flown:
        return Base(alone(search.text), search.sc, who.sources, search.path, 0)
    behind = who if who.count == 1 else seats.behind_flown(search.sc, None)
    path = [behind.sources[it][0] for it in search.path]
    if None in path:
        return None
    text = writing.scenario_text(behind.of, []) if who.count > 1 or search.told_by == search.text else alone(search.told_by)
    return Base(text, behind.of, who.sources[: len(behind.of.positions)], path, who.flown)


def texts(names):
    """Names as text."""
    return [it.decode("ascii") for it in names]


def carried(search):
    """What the script needs of the search, by the names of templates, as bytes: what is to be known; and the scenario in which it plans, where
    that isn't the page's own. Nothing where the part isn't there."""
    of = base(search)
    if of is None:
        return {}
    data = {
        "name": search.name,
        "positions": texts(of.sc.positions),
        "at": of.places,
        "places": texts(search.seats.of.positions),
        "start": of.places[of.sc.start],
        "path": of.path,
        "flown": of.flown,
        "gap": limits.MOST_GAP_RECORDS,
    }
    # (Where the page carries that scenario anyway, it isn't carried twice.)
    where = next((name for name, it in (("scenario", search.text), ("of", search.told_by)) if it == of.text), "base")
    scene = json.dumps(data | {"base": where}).encode("ascii")
    return {"scene": scene, **({"base": of.text} if where == "base" else {})}


def button(name, text, more=""):
    """A button of the part."""
    return f'<button type="button" id="onscene-{name}"{more}>{text}</button>'


def form(names, count):
    """Where the places of a look are written."""
    labels = ["Look from"] if count == 1 else ["First looks from", "second from"]
    fields = "".join(f'<label>{it} <input class="onscene-name" list="onscene-names" autocomplete="off" required></label>' for it in labels)
    options = "".join(f"<option>{escape(it)}</option>" for it in names)
    return f'<form id="onscene-form">{fields}<button>Add</button></form><datalist id="onscene-names">{options}</datalist>'


def lines():
    """What stands by the head of the page: the plan that it came with, where it shows a newer one, and whether what it shows is of what is marked."""
    return '<p class="note before" id="onscene-before"></p><p class="stale" id="onscene-stale" role="status"></p>'


def section(search):
    """The part, hidden until the script shows an accepted plan; or why there is none."""
    head = "<h2>Plan the rest from here</h2>"
    if base(search) is None:
        return f'<section id="onscene" class="onscene" hidden>{head}<p class="note">{UNKNOWN}</p></section>\n'
    note = " ".join([NOTE, *[OF_TWO] * (search.seats.count > 1), JUMPED])
    most = f'<label>with at most <input type="number" id="onscene-most" value="{RECORDS}" min="1" max="{limits.MOST_NODES}"> records</label>'
    pressed = ' aria-pressed="false"'
    return (
        f'<section id="onscene" class="onscene" hidden>{head}<p class="note">{note}</p>'
        f'<div class="controls">{button("next", "Flown as planned")}{button("mark", "Mark on the map", pressed)}'
        f'{form(texts(search.seats.of.positions), search.seats.count)}{button("undo", "Undo")}{button("clear", "Back to the plan as made")}</div>'
        '<p id="onscene-none">No look is marked as flown.</p><ol id="onscene-flown" aria-label="Looks that were flown"></ol>'
        f'<p class="stale" id="onscene-lost" hidden>{LOST}</p>'
        f'<div class="controls">{button("plan", "Plan the rest")}{most}{button("stop", "Stop", " hidden")}</div>'
        '<p id="onscene-said" role="status" aria-live="polite"></p>'
        '<p id="onscene-found" hidden><a id="onscene-save">Save the scenario with its plan</a>, which <code>brief</code> and <code>show</code> read</p></section>\n'
    )
