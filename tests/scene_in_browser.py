"""Marks looks as flown in pages that carry the program, plans the rest, and writes what the pages say as JSON to standard output.

It is run by /usr/bin/python3: scene_in_browser.py chromium|firefox FOLDER PAGE.html ... Beside a page NAME.json lists what is tried in it,
each try with `looks`, the names of the places of each look; `keep`, how many looks of the try before stay marked, where any do; `most`, how
many records there may be. On a page whose name begins with "clicks" looks are marked by clicks and by keys; on one whose name begins with
"marks" it is tried what becomes of marks; of one without a list it is said what it shows. The folder takes what is saved, as NAME-1.made
and so on, and a picture on a desktop and on a tablet. It ends as in_browser.py does where there is no browser.
"""
import json
import os
import sys
import time

sys.dont_write_bytecode = True
sys.path.insert(0, os.path.dirname(os.path.realpath(__file__)))
import browsers  # noqa: E402
from selenium.common.exceptions import WebDriverException  # noqa: E402
from in_browser import DESKTOP, Keys, Visit  # noqa: E402

TABLET = (820, 1180)
# How many seconds a page has until it says something, on a machine that others keep busy.
SECONDS = 120
# What the whole page says of the plan that it shows, and what the part for what was flown says.
SHOWN = """
const text = (selector) => document.querySelector(selector)?.textContent ?? null;
const all = (selector) => [...document.querySelectorAll(selector)];
return {
  verdict: text("#head .accepted span"), by: text("#head .accepted small"), chance: text("#head .chance"),
  good: document.querySelector("#head").className,
  before: text("#onscene-before"), stale: text("#onscene-stale"), name: text("h1 bdi"), title: document.title, notes: text("#notes"),
  radio: text("#radio-text"), maps: all(".frame:not([hidden])").map((it) => it.id),
  rows: all("tr[data-period], .periods tbody tr").map((row) => [...row.children].map((it) => it.innerText)),
  flown: all("#onscene-flown li").map((it) => it.textContent), said: text("#onscene-said"),
  found: !document.querySelector("#onscene-found").hidden,
  file: document.querySelector("#onscene-save").download, lost: !document.querySelector("#onscene-lost").hidden,
  open: all("#onscene button, #onscene input").filter((it) => !it.disabled && !it.hidden).map((it) => it.id || it.className),
};"""
# What stands on the map of a figure: the classes and the words of squares, of their parts, and of what is written on squares.
MAP = """
const map = document.querySelector(".frame:not([hidden]) svg.map");
const texts = (it) => [...it.querySelectorAll(".name, .of-all, .of-left")].map((text) => text.textContent);
return map === null ? null : {
  cells: [...map.querySelectorAll(".cells rect")].map((it) => [it.getAttribute("class"), it.textContent]),
  texts: [...map.querySelectorAll(".texts > g")].map((it) => [it.getAttribute("class"), ...texts(it)]),
  signs: [...map.querySelectorAll(".searcher text")].map((it) => it.textContent),
  legs: ["gone", "now", "coming"].map((it) => map.querySelectorAll(`g.${it} path.arrow`).length),
};"""
# Clicks and submits all that marks, also where it is locked.
FORCED = """
const part = document.getElementById("onscene");
part.querySelectorAll("button:not(#onscene-stop)").forEach((it) => it.click());
part.querySelector(".onscene-name").value = arguments[0];
part.querySelector("form").dispatchEvent(new Event("submit", { cancelable: true }));
document.querySelector(".frame:not([hidden]) .cells rect").dispatchEvent(new MouseEvent("click", { bubbles: true }));
part.querySelector(".onscene-name").value = "";"""
# Whether the page would warn if it were left now.
WARNS = "return !window.dispatchEvent(new Event('beforeunload', { cancelable: true }))"


def until(visit, script, *given):
    """Waits until a script of the page answers what holds."""
    ends = time.monotonic() + SECONDS
    while not visit.run(script, *given) and time.monotonic() < ends:
        time.sleep(0.05)


def opened(visit, size=TABLET):
    """Opens the page, and waits until it says what the program found."""
    visit.open(size)
    until(visit, "return document.querySelector('#head .chance') !== null && !document.getElementById('onscene').hidden")
    return visit.run(SHOWN)


def told(visit):
    """What the page says, once no plan is being made."""
    until(visit, "return document.getElementById('onscene-stop').hidden")
    return visit.run(SHOWN)


def press(visit, name, *keys):
    """Goes to a button or a field of the part, and presses keys there."""
    visit.run(f"document.querySelector('{name}').focus()")
    visit.press(*keys)


def pressed(visit, name, *keys):
    """The same, and what the page says then."""
    press(visit, name, *keys)
    return told(visit)


def mark(visit, look):
    """Writes the names of a look's places, by keys alone."""
    press(visit, ".onscene-name", *[it for name in look for it in (name, Keys.TAB)][:-1], Keys.ENTER)


def click(visit, square):
    """Clicks a square of the map that is to be seen."""
    visit.run("document.querySelector('.frame:not([hidden])').scrollIntoView()")
    for it in visit.browser.find_elements("css selector", ".frame:not([hidden]) .cells rect"):
        if it.get_attribute("textContent").startswith(f"{square}: "):
            it.click()


def saved(visit, folder, name=None):
    """Saves what was planned, under this name where there is one."""
    file = os.path.join(folder, visit.run("return document.getElementById('onscene-save').download"))
    press(visit, "#onscene-save", Keys.ENTER)
    ends = time.monotonic() + SECONDS
    while not os.path.exists(file) and time.monotonic() < ends:
        time.sleep(0.1)
    os.replace(file, os.path.join(folder, name or os.path.basename(file)))


def drawn(visit):
    """What the page shows below its head, as markup, its first map being seen. (A row that was marked has a class that is empty.)"""
    visit.run("document.activeElement.blur()")
    visit.press(Keys.HOME)
    return visit.run("return document.getElementById('shown').innerHTML.replaceAll(' class=\"\"', '')")


def tried(visit, folder, name, wanted):
    """Marks looks, and plans the rest: what the page says then."""
    if not wanted.get("keep"):
        press(visit, "#onscene-clear", Keys.ENTER)
    visit.run("document.getElementById('onscene-most').value = arguments[0]", wanted["most"])
    for look in wanted["looks"]:
        mark(visit, look)
    marked = visit.run(SHOWN)
    seen = pressed(visit, "#onscene-plan", Keys.ENTER) | {"marked": marked, "map": visit.run(MAP)}
    if seen["found"]:
        saved(visit, folder, name)
    return seen | {"markup": drawn(visit)}


def tries(visit, name, folder):
    """What a page says on opening, and behind each try of its list."""
    with open(os.path.splitext(visit.page)[0] + ".json", encoding="utf-8") as file:
        listed = json.load(file)
    seen = {"opened": opened(visit), "part": visit.run("return document.querySelector('.onscene').innerText")}
    seen["tries"] = [tried(visit, folder, f"{name}-{number}.made", it) for number, it in enumerate(listed, 1)]
    for screen, size in (("tablet", TABLET), ("desktop", DESKTOP)):
        visit.resize(size)
        seen[screen] = visit.run("return document.documentElement.scrollWidth - window.innerWidth")
        visit.picture(screen)
    return seen


def clicks(visit, folder):
    """Marks three looks by three clicks on the map and plans the rest; then by keys alone: one back, one as planned, some that are none."""
    opened(visit)
    visit.element("#onscene-mark").click()
    for square in ("r0c1", "r0c2", "r0c3"):
        click(visit, square)
    visit.element("#onscene-plan").click()
    seen = {"clicks": told(visit), "map": visit.run(MAP)}
    saved(visit, folder)
    visit.picture("flown")
    seen["undone"] = pressed(visit, "#onscene-undo", Keys.ENTER)
    seen["wrong"] = pressed(visit, ".onscene-name", "r9c9", Keys.ENTER)
    seen["illegal"] = pressed(visit, ".onscene-name", "r6c6", Keys.ENTER)
    seen["refused"] = pressed(visit, "#onscene-plan", Keys.ENTER)
    seen["cleared"] = pressed(visit, "#onscene-clear", Keys.ENTER)
    seen["next"] = pressed(visit, "#onscene-next", Keys.ENTER)
    seen["planned"] = pressed(visit, "#onscene-plan", Keys.ENTER)
    return seen | {"wide": visit.run("return document.documentElement.scrollWidth - window.innerWidth")}


def while_it_plans(visit, look):
    """Tries to mark, to take back and to plan again while it plans, and stops it."""
    visit.element("#onscene-mark").click()
    press(visit, "#onscene-plan", Keys.ENTER)
    until(visit, "return !document.getElementById('onscene-stop').hidden")
    seen = {"runs": visit.run(SHOWN)}
    for name in ("#onscene-next", "#onscene-undo", "#onscene-clear"):
        try:
            visit.element(name).click()
        except WebDriverException:
            pass
    visit.run(FORCED, look)
    seen["tried"] = visit.run(SHOWN)
    visit.element("#onscene-stop").click()
    seen["stopped"] = told(visit)
    visit.element("#onscene-mark").click()
    return seen


def kept(visit, folder, look):
    """Marks a look that isn't planned; plans the rest, with few records; loads the page anew; takes the mark back, and loads it anew."""
    seen = {"opened": opened(visit, DESKTOP), "next": pressed(visit, "#onscene-next", Keys.ENTER)}
    press(visit, "#onscene-undo", Keys.ENTER)
    mark(visit, look)
    seen |= {"marked": visit.run(SHOWN), "warns": visit.run(WARNS)} | while_it_plans(visit, look[0])
    visit.run("document.getElementById('onscene-most').value = 50")
    seen["planned"] = pressed(visit, "#onscene-plan", Keys.ENTER)
    saved(visit, folder)
    visit.picture("planned")
    seen["again"] = opened(visit, DESKTOP)
    visit.picture("again")
    seen["replanned"] = pressed(visit, "#onscene-plan", Keys.ENTER)
    seen["cleared"] = pressed(visit, "#onscene-clear", Keys.ENTER)
    return seen | {"anew": opened(visit, DESKTOP)}


def unkept(seen_by, visit, look):
    """Marks a look where the browser has no store, and takes it back."""
    with seen_by.without_storage():
        opened(visit, DESKTOP)
        seen = {"before": visit.run(WARNS)}
        mark(visit, look)
        seen |= {"marked": visit.run(SHOWN), "warns": visit.run(WARNS)}
        press(visit, "#onscene-clear", Keys.ENTER)
        return seen | {"cleared": visit.run(SHOWN), "after": visit.run(WARNS)}


def visited(seen_by, page, folder):
    """What a page says, by its name."""
    visit, name = Visit(seen_by, page, folder), os.path.splitext(os.path.basename(page))[0]
    seen_by.saves_to(folder)
    if name.startswith("clicks"):
        seen = clicks(visit, folder)
    elif name.startswith("marks"):
        seen = {"kept": kept(visit, folder, ["r1c0"]), "unkept": unkept(seen_by, visit, ["r1c0"])}
    elif os.path.exists(f"{os.path.splitext(page)[0]}.json"):
        seen = tries(visit, name, folder)
    else:
        seen = opened(visit) | {"markup": drawn(visit)}
    return seen | visit.browser.logs()


def main(name, folder, pages):
    with browsers.opened(name) as seen_by:
        json.dump({os.path.basename(it): visited(seen_by, it, folder) for it in pages}, sys.stdout)


if __name__ == "__main__":
    main(*sys.argv[1:3], [os.path.realpath(it) for it in sys.argv[3:]])
