"""A page of an accepted plan: one HTML file that asks no network for anything and runs no script but its own.

It is written with nothing checked: its title, and the plan as text. Where it carries the program, its script has the plan checked that it
carries, and draws head, maps and tables from that (shown.js, checked.js).
"""
import base64
import dataclasses
import hashlib
import json
import os
from html import escape

from desk import brief, carried, comments, compass, earth, layout, limits, markup, moments, onscene, radio, squares, states
from desk.geometry import decimal
from desk.markup import filled

HERE = os.path.dirname(os.path.realpath(__file__))
# The parts of a script that shows a plan, and those of a page of a plan beside them.
SHOWING = ["told.js", "markup.js", "sentences.js", "reading.js", "layout.js", "seats.js", "picture.js", "tables.js", "shown.js", "page.js"]
PARTS = [*SHOWING, "drifts.js", "where.js", "radio.js", "forced.js", "marks.js", "onscene.js", "checked.js"]
# Its styles, and those that apply to some plans alone: the script says to which.
STYLES = ["page.css", "compass.css", "drifts.css", "shown.css", "carried.css", "onscene.css"]
OTHERS = ["states", "pair"]


def asset(name):
    """The text of a file beside this one."""
    with open(os.path.join(HERE, name), encoding="utf-8") as file:
        return file.read()


def checksum(text):
    """The checksum of a script or a style, as a content security policy names it."""
    return "sha256-" + base64.b64encode(hashlib.sha256(text.encode()).digest()).decode("ascii")


def numbers_of(module):
    """The constants of a module of the desk that are numbers, by name."""
    return {name: it for name, it in vars(module).items() if name.isupper() and isinstance(it, (int, float))}


def rules():
    """What a script draws and says by, as text of it: the markup, and limits, patterns and heads of the helpers' own modules."""
    patterns = {"at": layout.AT, "earth": earth.LINE, "times": comments.TIMES, "of_square": states.OF_SQUARE, "row_and_column": squares.ROW_AND_COLUMN}
    told = {"layout": numbers_of(layout), "limits": numbers_of(limits)}
    told["patterns"] = {**{name: it.pattern.decode("ascii") for name, it in patterns.items()}, "moment": moments.SPELLED.pattern}
    told["heads"] = {"at_head": layout.HEAD.decode("ascii"), "earth_head": earth.HEAD.decode("ascii")}
    return f'"use strict";\n{markup.rules(told)}'


def times_of(told, given):
    """The minutes of periods and the begin of the first one, as texts, where words give them; else None, since comments of the scenario that
    say them are read by the page itself."""
    return [decimal(told.times.minutes), told.times.clock.told(0)] if given else None


def known(search, told, given):
    """What a page has to know besides the texts that it carries, as JSON in bytes: the name of the file, what words say of times, a trial,
    where on the earth places are, and the words for the radio."""
    what = {
        "name": search.name,
        "times": times_of(told, given),
        "trial": search.trial and search.trial.carried(),
        "earth": compass.mesh(search, told.frame),
        "radio": radio.data(search, told),
    }
    return json.dumps(what, separators=(",", ":")).encode("ascii")


@dataclasses.dataclass(frozen=True)
class Parts:
    """What a page that checks itself carries, as bytes by name, and its text."""

    carried: dict
    text: str

    def sums(self):
        """The checksums of all parts, by name."""
        return {name: carried.sum_of(it) for name, it in {**self.carried, "text": self.text.encode("utf-8")}.items()}


def parts(search, told, given, module, text):
    """The Parts of a search's page: the module, the scenario, the plan, the scenario that it was made of, if that is given, and what its
    script has to know besides."""
    of = {} if search.told_by is search.text else {"of": search.told_by}
    own = {"program": module, "scenario": search.text, "plan": search.plan, **of, "known": known(search, told, given)}
    return Parts({**own, **onscene.carried(search)}, text)


def head(search, why, more=""):
    """The head of a page of which nothing is checked yet; `more` stands behind what is said of the plan."""
    said = filled("told_verdict", said=filled("unchecked"), by=escape(why))
    return (
        f'<header><h1>Search plan <bdi>{escape(search.name)}</bdi></h1><div id="head" class="verdict" role="status">{said}</div>{more}'
        f'<p class="note">{filled("uncovered")}</p><p class="note worth" id="worth" hidden>{filled("worth", sum="")}</p>'
        '<div id="notes"></div></header>'
    )


def main(text):
    """What stands below the head until the plan is checked."""
    return f'<main id="shown">{filled("as_text", text=escape(text))}</main>'


def words():
    """Where the words for the radio come."""
    text = '<div class="scroll"><pre id="radio-text"></pre></div>'
    return f'<section class="radio" id="radio" hidden><h2>For the radio</h2>{text}</section>\n'


def policy_of(styles, scripts):
    """The content security policy of a page with these styles and scripts, as texts."""
    allowed = [" ".join(f"'{checksum(it)}'" for it in each) for each in (styles, scripts)]
    script, more = (f"{allowed[1]}{carried.SCRIPTS}", carried.MORE) if scripts else ("'none'", "")
    return f"default-src 'none'; style-src {allowed[0]}; script-src {script};{more} base-uri 'none'; form-action 'none'"


def front(title, styles, policy):
    """A page up to its body, where the styles of OTHERS come behind the first one."""
    first, *others = styles
    more = "".join(f'<style id="style-{name}" media="not all">{it}</style>\n' for name, it in zip(OTHERS, others, strict=bool(others)))
    return (
        '<!DOCTYPE html>\n<html lang="en">\n<head>\n<meta charset="utf-8">\n'
        f'<meta http-equiv="Content-Security-Policy" content="{policy}">\n'
        '<meta name="viewport" content="width=device-width, initial-scale=1">\n'
        f"<title>{title}</title>\n<style>{first}</style>\n{more}</head>\n<body>\n"
    )


def unchecked(search, title, text):
    """The page of a search that carries no program: its title, and the plan as text."""
    css = asset("page.css")
    why = filled("no_program", checked=search.checked_by)
    return f"{front(title, [css], policy_of([css], []))}{head(search, why)}\n{main(text)}\n</body>\n</html>\n"


def document(search, told, given, module=None):
    """The page of a search: `told` are its desk.comments.Comments, `given` the times that words say, or None. With a module of WebAssembly
    of the program it carries that, and checks itself. Its last line, which has no end tag of the page behind it, lets that begin: a page
    that isn't whole begins nothing."""
    title, text = filled("title", name=escape(search.name)), brief.unchecked_text(search, told)
    if module is None:
        return unchecked(search, title, text)
    its = parts(search, told, given, module, text)
    styles = ["".join(map(asset, STYLES)), *(asset(f"{it}.css") for it in OTHERS)]
    scripts = [rules() + carried.script(*PARTS), f"checked.begin({json.dumps(its.sums())});"]
    seen = f"{head(search, filled('by_script'), onscene.lines())}\n{main(text)}\n{words()}{onscene.section(search)}"
    behind = "".join(f"<script>{it}</script>\n" for it in scripts)
    return f"{front(title, styles, policy_of(styles, scripts))}{seen}{carried.templates(its.carried)}{behind}"
