"""Tests that the page to plan in shows, names and saves what it planned, whatever is chosen or written meanwhile, in two browsers.
`python3 -m unittest tests.desk_planner`, or tests/desk."""
import os
import unittest

from desk import planner
from tests import pages, web
from tests.carrying import Carrying
from tests.web import TOP, Case

# What is given by hand in the page.
ALL = ["file", "example", "text", "nodes", "file-of-plan", "plan", "check"]
# A scenario that takes the program some seconds in a browser, one that takes none, and one that is written in the page.
SLOW, TWO = f"{TOP}/bench/scenarios/fourteen-24.scenario", f"{pages.EXAMPLES}/two-cells.scenario"
PASTED = f"{pages.EXAMPLES}/one-cell.scenario"


def planned(text):
    """What the program for Linux plans."""
    return web.native([Case(["plan", "--workers", "1"], text)])[0].out


class Planning:
    """What is clicked and written in the page, in a browser without a window: the cases of each browser."""

    def saved(self, name):
        """The bytes of a file that the page saved."""
        return pages.read(os.path.join(self.folder, name))

    def holds(self, seen, **wanted):
        """What is seen of the page has these values."""
        self.assertEqual({it: seen[it] for it in wanted}, wanted)

    def test_what_is_shown_is_what_was_planned(self):
        """Another file is chosen, and another example, and another text is written, while the page plans, and behind it: what is shown,
        named and saved is the scenario that was planned, or nothing."""
        status, out, err = self.run_helper(planner.main, [])
        self.assertEqual((status, err), (0, ""))
        for name, source in (("slow.scenario", SLOW), ("two.scenario", TWO), ("pasted.txt", PASTED)):
            with open(os.path.join(self.folder, name), "wb") as file:
                file.write(pages.read(source))
        seen = self.visit("planner_in_browser.py", {"osp": out})["osp"]
        self.check_while(seen["while"])
        self.check_behind(seen["behind"])
        self.check_stopped(seen["stopped"])
        self.quiet(seen)

    def check_while(self, seen):
        """Nothing that was tried while it planned changed anything, and all is open again behind it."""
        slow = pages.read(SLOW)
        for name in ("runs", "tried"):
            self.assertTrue(seen[name]["said"].startswith("Planning slow … "), seen[name]["said"])
            self.holds(seen[name], locked=ALL, found=False, text=slow.decode())
        self.assertEqual(seen["tried"]["chosen"], ["", ""])
        self.assertRegex(seen["ended"]["said"], r"^Planned in \d+\.\d\d s\.$")
        self.holds(seen["ended"], locked=[], found=True, name="slow", text=slow.decode(), files=["slow.plan", "slow.report", "slow.made"])
        self.assertEqual(seen["saved"], seen["ended"]["files"])
        plan = planned(slow)
        report = web.native([Case(["report"], slow + plan)])[0].out
        self.assertEqual([self.saved(it) for it in seen["saved"]], [plan, report, slow + plan])

    def check_behind(self, seen):
        """A text that is written has a name of its own, and what is shown of another one goes when it is written."""
        two, pasted = pages.read(TWO), pages.read(PASTED)
        self.holds(seen["opened"], chosen=["two.scenario", ""], text=two.decode(), found=False)
        self.holds(seen["pasted"], chosen=["", ""], text=pasted.decode(), found=False)
        self.assertEqual(seen["pasted"]["said"], "The scenario was written here. It is called pasted.")
        self.holds(seen["planned"], found=True, name="pasted", files=["pasted.plan", "pasted.report", "pasted.made"])
        self.assertEqual([self.saved(it) for it in seen["saved"]], [planned(pasted), pasted + planned(pasted)])
        self.holds(seen["file"], found=True, name="two", chosen=["two.scenario", ""], files=["two.plan", "two.report", "two.made"])
        self.holds(seen["edited"], found=False, text=f"#{two.decode()}", chosen=["", ""])
        self.holds(seen["again"], found=True, name="pasted")
        self.holds(seen["example"], found=False, chosen=["", "drifting-grid"], text=pages.example("drifting-grid")[0].decode())

    def check_stopped(self, seen):
        """What is stopped shows nothing, nor does a number that is none, and the next is planned as ever."""
        self.holds(seen["ended"], said="Nothing is shown: it was stopped.", found=False, locked=[])
        self.holds(seen["none"], said="Records are a whole number from 1 to 1048576.", found=False, locked=[])
        self.holds(seen["other"], found=True, name="two")


class InChromium(Planning, Carrying):
    BROWSER = "chromium"


class InFirefox(Planning, Carrying):
    BROWSER = "firefox"


if __name__ == "__main__":
    unittest.main()
