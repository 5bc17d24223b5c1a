"""Clicks in a page to plan in while it plans, and between plans, and writes what the page says as JSON to standard output.

It is run by /usr/bin/python3: planner_in_browser.py chromium|firefox FOLDER PAGE.html. The folder has slow.scenario, which takes the
program some seconds, and two.scenario; it takes what the page saves, and pictures. It ends as in_browser.py does where there is no browser.
"""
import json
import os
import sys
import time

sys.dont_write_bytecode = True
sys.path.insert(0, os.path.dirname(os.path.realpath(__file__)))
import browsers  # noqa: E402
from selenium.common.exceptions import WebDriverException  # noqa: E402
from in_browser import DESKTOP, Keys, Visit  # noqa: E402
from web_in_browser import SECONDS, planned  # noqa: E402

INPUTS = ["file", "example", "text", "nodes", "file-of-plan", "plan", "check"]
# What stands in the page now.
SEEN = """
const part = (it) => document.getElementById(`planner-${it}`);
return {
  said: part("said").textContent, found: !part("found").hidden, name: part("name").textContent, text: part("text").value,
  locked: arguments[0].filter((it) => part(it).disabled), chosen: [part("file").value.split("\\\\").pop(), part("example").value],
  files: [part("save").download, part("report").download, part("made").download],
};"""
# Puts another file, and another example, in their places while these are locked, as a dialog that is open does.
FORCED = """
const [file, example] = ["file", "example"].map((it) => document.getElementById(`planner-${it}`));
const own = new DataTransfer();
own.items.add(new File(["scenario 1\\n"], "other.scenario"));
file.files = own.files;
example.value = "small-lake";
[file, example].forEach((it) => it.dispatchEvent(new Event("change")));"""


class Planner:
    """The page to plan in, in the browser."""

    def __init__(self, seen_by, page, folder):
        self.visit, self.folder = Visit(seen_by, page, folder), folder
        seen_by.saves_to(folder)
        self.visit.open(DESKTOP)

    def seen(self):
        return self.visit.run(SEEN, INPUTS)

    def until(self, holds):
        """Waits until something holds of what is seen, which it answers."""
        ends, seen = time.monotonic() + SECONDS, self.seen()
        while not holds(seen) and time.monotonic() < ends:
            time.sleep(0.05)
            seen = self.seen()
        return seen

    def press(self, name):
        self.visit.element(f"#planner-{name}").click()

    def choose(self, name):
        """Opens a file of the folder, and waits until it is there."""
        self.visit.element("#planner-file").send_keys(os.path.join(self.folder, f"{name}.scenario"))
        return self.until(lambda it: it["said"] == f"{name} is open.")

    def ended(self):
        """What is seen once nothing runs."""
        planned(self.visit)
        return self.seen()

    def plan(self):
        self.press("plan")
        return self.ended()

    def save(self, *links):
        """Saves what is shown, and answers the names of the files."""
        names = [self.visit.run("return arguments[0].download", self.visit.element(f"#planner-{it}")) for it in links]
        for link in links:
            self.press(link)
        ends = time.monotonic() + SECONDS
        while not all(os.path.exists(os.path.join(self.folder, it)) for it in names) and time.monotonic() < ends:
            time.sleep(0.05)
        return names

    def write(self, text, *keys):
        """Writes a text in the box by its keys, behind these."""
        self.visit.run("const it = document.getElementById('planner-text'); it.focus(); it.setSelectionRange(0, 0)")
        self.visit.press(*keys, text)
        return self.seen()

    def replace(self, text):
        """Writes a text in the place of all that stands in the box."""
        self.visit.run("const it = document.getElementById('planner-text'); it.focus(); it.select()")
        self.visit.press(text)
        return self.seen()


def tried(action):
    """Does what the browser may refuse to do where something is locked."""
    try:
        action()
    except WebDriverException:
        pass


def while_it_plans(page):
    """Tries to choose another file and example, to write in the box, and to plan again, while slow.scenario is planned; then saves."""
    visit, folder = page.visit, page.folder
    page.choose("slow")
    page.press("plan")
    seen = {"runs": page.until(lambda it: it["said"].startswith("Planning slow"))}
    tried(lambda: visit.element("#planner-file").send_keys(os.path.join(folder, "two.scenario")))
    tried(lambda: visit.element("#planner-example").send_keys("drifting-grid"))
    tried(lambda: visit.element("#planner-text").send_keys("# more\n"))
    tried(lambda: page.press("plan"))
    visit.picture("while")
    visit.run(FORCED)
    seen |= {"tried": page.seen(), "ended": page.ended()}
    visit.picture("ended")
    return seen | {"saved": page.save("save", "report", "made")}


def behind_a_file(page, pasted):
    """Opens two.scenario; then pastes another text in its place, plans it, saves; opens the file anew, writes a letter in it, and plans."""
    seen = {"opened": page.choose("two"), "pasted": page.replace(pasted), "planned": page.plan()}
    seen["saved"] = page.save("save", "made")
    page.choose("two")
    seen |= {"file": page.plan(), "edited": page.write("#"), "again": page.plan()}
    page.visit.element("#planner-example").send_keys("drifting-grid")
    return seen | {"example": page.until(lambda it: it["said"] == "drifting-grid is open.")}


def stopped(page):
    """Stops what is planned, and plans another."""
    page.choose("slow")
    page.press("plan")
    page.until(lambda it: it["said"].startswith("Planning slow"))
    page.press("stop")
    seen = {"ended": page.ended()}
    page.visit.run("document.getElementById('planner-nodes').value = '0'")
    seen["none"] = page.plan()
    page.visit.run("document.getElementById('planner-nodes').value = '200000'")
    page.choose("two")
    return seen | {"other": page.plan()}


def main(name, folder, page):
    with open(os.path.join(folder, "pasted.txt"), encoding="ascii") as file:
        pasted = file.read()
    with browsers.opened(name) as seen_by:
        opened = Planner(seen_by, os.path.realpath(page), folder)
        seen = {"while": while_it_plans(opened), "behind": behind_a_file(opened, pasted), "stopped": stopped(opened)}
        json.dump({os.path.basename(page): seen | seen_by.logs()}, sys.stdout)


if __name__ == "__main__":
    main(*sys.argv[1:])
