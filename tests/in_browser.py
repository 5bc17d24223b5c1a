"""Opens pages of `osp show` in headless Chromium, by Debian's driver, and writes what it saw as JSON to standard output.

It is run by /usr/bin/python3, whose module selenium is Debian's: in_browser.py FOLDER PAGE.html ... The folder takes the pictures.
It ends with status 77 and a reason where there is no browser.
"""
import base64
import json
import os
import sys
import time

sys.dont_write_bytecode = True
sys.path.insert(0, os.path.dirname(os.path.realpath(__file__)))
import browsers  # noqa: E402
from selenium.webdriver.common.action_chains import ActionChains  # noqa: E402
from selenium.webdriver.common.by import By  # noqa: E402
from selenium.webdriver.common.keys import Keys  # noqa: E402

DESKTOP, PHONE = (1280, 900), (390, 844)
# How many seconds a page has until it says something, on a machine that others keep busy; and whether it does.
SECONDS = 120
SETTLED = """
const [head, part] = ["head", "onscene"].map((it) => document.getElementById(it));
const isShown = head !== null && head.classList.contains("good");
return head === null || (!head.innerText.includes("Being checked") && (!isShown || !part.hidden));"""


class Visit:
    """A page in the browser."""

    def __init__(self, seen_by, page, folder):
        self.browser, self.page = seen_by, page
        self.base = os.path.join(folder, os.path.splitext(os.path.basename(page))[0])

    def resize(self, size):
        """Gives the view this size, in pixels."""
        self.browser.sized(size)

    def open(self, size):
        """Opens the page anew in a view of this size, and waits until it has checked itself, where it does so."""
        self.resize(size)
        self.browser.get("file://" + self.page)
        self.settle()

    def settle(self):
        """Waits until the page has checked itself, and shows what it shows then."""
        ends = time.monotonic() + SECONDS
        while not self.run(SETTLED) and time.monotonic() < ends:
            time.sleep(0.05)

    def run(self, script, *given):
        return self.browser.execute_script(script, *given)

    def element(self, selector):
        return self.browser.find_element(By.CSS_SELECTOR, selector)

    def press(self, *keys):
        """Presses keys where the focus is."""
        ActionChains(self.browser).send_keys(*keys).perform()
        return self.state()

    def state(self):
        """What is to be seen: the periods of the maps, of the marked rows, of the slider, and what is said to a screen reader."""
        return self.run(
            """
            const seen = (it) => it.getClientRects().length > 0;
            const slider = document.getElementById("period");
            return {
              maps: [...document.querySelectorAll(".frame")].filter(seen).map((it) => it.id),
              rows: [...document.querySelectorAll("tr.here")].map((it) => it.dataset.period),
              slider: slider && slider.value, told: slider && slider.getAttribute("aria-valuetext"),
              live: slider && document.getElementById("said").textContent,
              play: slider && document.getElementById("play").textContent,
              shares: [...document.querySelectorAll(".frame text.of-all, .frame text.of-left")].filter(seen).map((it) => it.textContent),
            };"""
        )

    def picture(self, name):
        """A picture of the whole page as it stands."""
        size = self.run("const it = document.documentElement; return [it.scrollWidth, it.scrollHeight]")
        with open(f"{self.base}-{name}.png", "wb") as file:
            file.write(self.browser.pictured(size))
        return size

    def pdf(self):
        """The page as it is printed on A4, without backgrounds."""
        taken = self.browser.execute_cdp_cmd("Page.printToPDF", {"paperWidth": 8.27, "paperHeight": 11.69, "printBackground": False})
        with open(f"{self.base}.pdf", "wb") as file:
            file.write(base64.b64decode(taken["data"]))

    def printed(self):
        """What is to be seen in print."""
        self.browser.execute_cdp_cmd("Emulation.setEmulatedMedia", {"media": "print"})
        seen = self.state()
        hidden = self.run("return [...document.querySelectorAll('.controls, fieldset, .tip')].every((it) => it.getClientRects().length === 0)")
        self.browser.execute_cdp_cmd("Emulation.setEmulatedMedia", {"media": ""})
        return {"maps": seen["maps"], "no_controls": hidden}


def by_keyboard(visit):
    """Goes through the periods by keys alone, from the top of the page."""
    seen = {"end": visit.press(Keys.END), "left": visit.press(Keys.ARROW_LEFT), "home": visit.press(Keys.HOME)}
    seen["right"] = visit.press(Keys.ARROW_RIGHT, Keys.ARROW_RIGHT)
    visit.run("document.getElementById('period').focus()")
    seen["slider"] = visit.press(Keys.ARROW_RIGHT)
    visit.run("document.querySelector('tr[data-period=\"1\"] .step').focus()")
    seen["row"] = visit.press(Keys.ENTER)
    return seen


def stops(visit):
    """All that Tab comes to, from the top of the page, in order."""
    visit.run("document.activeElement.blur(); window.scrollTo(0, 0)")
    visit.browser.get("file://" + visit.page)
    visit.settle()
    seen = []
    for _ in range(400):
        ActionChains(visit.browser).send_keys(Keys.TAB).perform()
        at = visit.run("const it = document.activeElement; return it === document.body ? null : it.id || it.className || it.tagName + ' ' + it.value")
        if at is None:
            break
        seen.append(at)
    return seen


def fraction(visit):
    """The box of the first exact fraction: whether it is seen before the focus comes, with it, and after Escape."""
    look = "return getComputedStyle(document.querySelector('.exact .tip')).visibility"
    before = visit.run(look)
    visit.run("document.querySelector('.exact').focus()")
    with_focus = visit.run(look)
    visit.press(Keys.ESCAPE)
    after = visit.run(look)
    ActionChains(visit.browser).move_to_element(visit.element(".exact")).perform()
    return {"before": before, "focus": with_focus, "escape": after, "hover": visit.run(look)}


def played(visit):
    """Plays from the start to the end, and then once more with a stop."""
    visit.press(Keys.HOME)
    visit.element("#play").click()
    seen = [visit.state()]
    ends = time.monotonic() + 60
    while seen[-1]["play"] == "Pause" and time.monotonic() < ends:
        time.sleep(0.1)
        now = visit.state()
        if now != seen[-1]:
            seen.append(now)
    visit.element("#play").click()
    visit.element("#play").click()
    stopped = visit.state()
    time.sleep(1.5)
    return {"seen": seen, "stopped": stopped, "later": visit.state()}


def drifted(visit):
    """In how many maps simulated drifts are to be seen: at look 1, with the box ticked, with another choice of numbers, with the box cleared."""
    look = "return [...document.querySelectorAll('.frame:not([hidden]) .drifts')].filter((it) => getComputedStyle(it).display !== 'none').length"
    visit.press(Keys.HOME, Keys.ARROW_RIGHT)
    seen = [visit.run(look)]
    for selector in ("#drifts", "input[value=of-left]", "#drifts"):
        visit.element(selector).click()
        seen.append(visit.run(look))
    visit.element("input[value=of-all]").click()
    return seen


def pointed(visit):
    """What the line says of places: before the pointer comes, over each square of the map that is seen, by what begins its title, and
    behind it."""
    look = "return document.getElementById('where').textContent"
    seen = {"before": visit.run(look)}
    for square in visit.browser.find_elements(By.CSS_SELECTOR, ".frame:not([hidden]) .cells rect"):
        ActionChains(visit.browser).move_to_element(square).perform()
        name = visit.run("return arguments[0].querySelector('title').textContent.split(':')[0]", square)
        seen[name] = visit.run(look)
    ActionChains(visit.browser).move_to_element(visit.element("h1")).perform()
    return seen | {"behind": visit.run(look)}


def slid(visit):
    """Moves the slider by the mouse to its end."""
    slider = visit.element("#period")
    ActionChains(visit.browser).move_to_element(slider).click_and_hold().move_by_offset(slider.size["width"] // 2 - 2, 0).release().perform()
    return visit.state()


def visited(seen_by, page, folder):
    """All that is tried on a page."""
    visit = Visit(seen_by, page, folder)
    visit.open(PHONE)
    seen = {"phone": visit.picture("phone")}
    visit.open(DESKTOP)
    seen |= {"title": seen_by.title, "first": visit.state(), "stops": stops(visit), "printed": visit.printed()}
    seen["text"] = visit.run("return document.body.innerText")
    seen["made"] = visit.run("return [...document.querySelectorAll('script, img, iframe, object, link, a')].map((it) => it.tagName)")
    wide = "return [...document.querySelectorAll('.frame:not([hidden]) .cells %s')].map((it) => it.getBoundingClientRect().width)"
    seen["wide"] = {"parts": visit.run(wide % ".part"), "squares": visit.run(wide % "rect:not(.part)")}
    seen["owned"] = visit.run("return window.owned === undefined ? null : String(window.owned)")
    if seen["first"]["slider"] is not None:
        seen |= {"fraction": fraction(visit), "slid": slid(visit), "keys": by_keyboard(visit), "played": played(visit)}
        visit.press(Keys.HOME, *[Keys.ARROW_RIGHT] * 5)
        visit.element("input[value=of-left]").click()
        seen["of_left"] = visit.state()
        visit.element("input[value=of-all]").click()
    if visit.run("return document.getElementById('drifts') !== null"):
        seen["drifts"] = drifted(visit)
    if visit.run("return document.getElementById('where') !== null"):
        seen["where"] = pointed(visit)
    seen["desktop"] = visit.picture("desktop")
    visit.pdf()
    return seen | seen_by.logs()


def main(folder, pages):
    with browsers.opened("chromium") as seen_by:
        json.dump({os.path.basename(it): visited(seen_by, it, folder) for it in pages}, sys.stdout)


if __name__ == "__main__":
    main(sys.argv[1], [os.path.realpath(it) for it in sys.argv[2:]])
