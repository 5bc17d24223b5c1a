"""Opens pages that check themselves in a browser without a window, and writes what they say as JSON to standard output.

It is run by /usr/bin/python3: web_in_browser.py chromium|firefox FOLDER PAGE.html ... The folder takes the pictures, on a desktop and on a
tablet. One whose name begins with "tampered" is opened once, without a picture; from one whose name begins with "without" WebAssembly is
taken away first; in one whose name begins with "osp" scenarios are planned, and of one whose name begins with "shown" it is said what it
shows. It ends as in_browser.py does where there is no browser.
"""
import json
import os
import sys
import time

sys.dont_write_bytecode = True
sys.path.insert(0, os.path.dirname(os.path.realpath(__file__)))
import browsers  # noqa: E402
from in_browser import DESKTOP, SECONDS, Keys, Visit  # noqa: E402

TABLET = (820, 1180)


def settled(visit):
    """What the head of the page says, once it says it, and in which colours; and what is shown below."""
    visit.settle()
    return visit.run(
        """
        const seen = (it) => it && it.innerText;
        const colours = [getComputedStyle(document.querySelector("#head span")).color, getComputedStyle(document.getElementById("head")).borderLeftColor];
        return {
          said: seen(document.querySelector("#head span")), by: seen(document.querySelector("#head small")), head: seen(document.getElementById("head")),
          worth: seen(document.querySelector(".worth")), colours, wide: document.documentElement.scrollWidth - window.innerWidth,
          maps: document.querySelectorAll("svg.map").length, text: seen(document.getElementById("text")), body: document.body.innerText,
        };"""
    )


def visited(seen_by, page, folder):
    """What a page says on both screens, what it asked for, and what the console said."""
    visit, seen = Visit(seen_by, page, folder), {}
    for name, size in (("tablet", TABLET), ("desktop", DESKTOP)):
        visit.open(size)
        seen[name] = settled(visit)
        visit.picture(name)
    return seen | visit.browser.logs()


def drawn(visit):
    """What a page shows below its head, as markup, and how the map that is to be seen is drawn: of each of its elements what the style says."""
    return visit.run(
        """
        const shown = document.querySelector("#planner-shown, #shown");
        const map = shown.querySelector(".frame:not([hidden]) svg.map");
        const told = (it) => ["fill", "stroke", "strokeWidth", "fontSize", "width", "height", "display"].map((key) => getComputedStyle(it)[key]);
        return { markup: shown.innerHTML, styles: map && [...map.querySelectorAll("*")].map((it) => [it.tagName, ...told(it)]) };"""
    )


def planned(visit):
    """What a page to plan in says, once the program has ended."""
    ends = time.monotonic() + SECONDS
    while visit.run("return !document.getElementById('planner-stop').hidden") and time.monotonic() < ends:
        time.sleep(0.1)
    said = visit.run(
        """
        const part = (it) => document.getElementById(`planner-${it}`);
        return {
          said: part("said").textContent, found: !part("found").hidden, verdict: part("verdict").textContent, chance: part("chance").textContent,
          about: part("about").textContent, files: [part("save").download, part("report").download, part("made").download],
        };"""
    )
    return said | drawn(visit)


def press(visit, button):
    """Clicks a button of a page to plan in."""
    visit.element(f"#planner-{button}").click()
    return planned(visit)


def taken(visit, text):
    """Puts a text where a scenario is pasted, and plans it."""
    visit.run("const it = document.getElementById('planner-text'); it.value = arguments[0]; it.dispatchEvent(new Event('input'))", text)
    return press(visit, "plan")


def chosen(visit, name, path):
    """Opens a file in a page to plan in, and waits until it is there."""
    visit.element(f"#planner-{name}").send_keys(path)
    ends, open_now = time.monotonic() + SECONDS, f"{os.path.basename(path).removesuffix('.scenario')} is open."
    while name == "file" and visit.run("return document.getElementById('planner-said').textContent") != open_now and time.monotonic() < ends:
        time.sleep(0.1)


def by_arrows(visit):
    """Goes through the periods by keys, also where a text is written, in which arrows go from letter to letter."""
    visit.run("document.activeElement.blur()")
    seen = {"end": visit.press(Keys.END), "left": visit.press(Keys.ARROW_LEFT)}
    visit.run("const it = document.getElementById('planner-text'); it.focus(); it.setSelectionRange(3, 3)")
    seen["text"] = visit.press(Keys.ARROW_LEFT)
    seen["letter"] = visit.run("return document.getElementById('planner-text').selectionStart")
    visit.run("document.querySelector('tr[data-period=\"2\"] .step').focus()")
    seen["row"] = visit.press(Keys.ENTER)
    visit.run("document.querySelector('input[value=of-left]').click()")
    seen["of_left"] = visit.state()
    return {name: {it: seen[name][it] for it in ("maps", "slider", "shares")} if name != "letter" else seen[name] for name in seen}


def in_planner(seen_by, page, folder):
    """Plans an example, at a tablet's width, and others from files; has plans checked that stand behind their scenario, or in a file; plans with
    few records, and texts that are wrong."""
    seen_by.saves_to(folder)
    visit = Visit(seen_by, page, folder)
    visit.open(TABLET)
    seen = {"nothing": press(visit, "plan")}
    visit.element("#planner-example").send_keys("drifting-grid")
    seen["example"] = press(visit, "plan")
    for link in ("save", "report", "made"):
        visit.element(f"#planner-{link}").click()
    visit.run("document.getElementById('period').focus()")
    visit.press(*[Keys.ARROW_RIGHT] * 4)
    visit.picture("tablet")
    seen["keys"] = by_arrows(visit)
    for name, button in (("states", "plan"), ("night", "plan"), ("flown", "check"), ("both", "check"), ("pair", "check")):
        chosen(visit, "file", os.path.join(folder, f"{name}.scenario"))
        seen[name] = press(visit, button)
    visit.picture("two")
    chosen(visit, "file", os.path.join(folder, "two.scenario"))
    chosen(visit, "file-of-plan", os.path.join(folder, "two.plan"))
    seen["checked"] = press(visit, "check")
    visit.run("document.getElementById('planner-nodes').value = '1'")
    seen["few"] = press(visit, "plan")
    visit.element("#planner-save").click()
    seen["wrong"] = taken(visit, "scenario 1\nhorizon two\n")
    wide = [visit.run("return document.documentElement.scrollWidth - window.innerWidth")]
    visit.open(DESKTOP)
    chosen(visit, "file", os.path.join(folder, "states.scenario"))
    press(visit, "plan")
    wide.append(visit.run("return document.documentElement.scrollWidth - window.innerWidth"))
    visit.press(*[Keys.ARROW_RIGHT] * 3)
    visit.picture("desktop")
    time.sleep(1)
    return seen | {"wide": wide} | visit.browser.logs()


def shown(seen_by, page, folder):
    """What a page of `show` shows, at a tablet's width."""
    visit = Visit(seen_by, page, folder)
    visit.open(TABLET)
    return drawn(visit) | visit.browser.logs()


def tampered(seen_by, page, folder):
    """What a page says, at a tablet's width."""
    visit = Visit(seen_by, page, folder)
    visit.open(TABLET)
    return settled(visit) | visit.browser.logs()


def opened(seen_by, page, folder):
    """The same for a page from which WebAssembly may be taken away."""
    if os.path.basename(page).startswith("tampered"):
        return tampered(seen_by, page, folder)
    if os.path.basename(page).startswith("osp"):
        return in_planner(seen_by, page, folder)
    if os.path.basename(page).startswith("shown"):
        return shown(seen_by, page, folder)
    if not os.path.basename(page).startswith("without"):
        return visited(seen_by, page, folder)
    with seen_by.without_wasm():
        return visited(seen_by, page, folder)


def main(name, folder, pages):
    with browsers.opened(name) as seen_by:
        json.dump({os.path.basename(it): opened(seen_by, it, folder) for it in pages}, sys.stdout)


if __name__ == "__main__":
    main(*sys.argv[1:3], [os.path.realpath(it) for it in sys.argv[3:]])
