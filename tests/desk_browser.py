"""Tests of the pages of `osp show` in headless Chromium, and of hostile texts: a page never runs what a name or a comment says.

`python3 -m unittest tests.desk_browser`, or tests/desk. The pictures of the pages are kept in the folder DESK_PICTURES, if it is set.
"""
import json
import math
import os
import re
import shutil
import subprocess
import sys
import tempfile
import unittest
import unittest.mock

from desk import accepted, brief, carried, earth, program, show
from tests import carrying, finer, web
from tests.made import GRID, paired, with_plan
from tests.packaged import on_earth
from tests.pages import EXAMPLES, IS_BUILT, PLACES, PROGRAM, TOP, Drawing, Room, example, read

# The Python that has Debian's python3-selenium, the script for it, and its status where there is no browser.
PYTHON, SCRIPT, LACKING = "/usr/bin/python3", os.path.join(TOP, "tests", "in_browser.py"), 77
# What a page must never run, in the forms in which markup could come to it.
MARKUP = "</title></script><script>owned=1</script><img src=http://127.0.0.1:9/x onerror=owned=2>\"'><svg onload=owned=3>"
COMMENTS = f"# {MARKUP}\n# at {MARKUP} 1 2\n# at r0c0 {MARKUP} 2\n# <!-- {MARKUP} ]]> &lt;script&gt; --!>\n".encode()


def page_file(room, name, file_name=None, change=lambda it: it):
    """Makes the page of an example whose scenario's text is changed first. It answers the page's path and its text."""
    scenario, plan = example(name)
    source = room.write(file_name or f"{name}.scenario", change(scenario))
    status, out, err = room.run_helper(show.main, [source, room.write(f"{name}.plan", plan)])
    if status or err:
        raise AssertionError(err)
    return room.write(f"{name}-{len(os.listdir(room.room))}.html", out.encode()), out


class Hostile(Drawing):
    """Texts that nobody writes by mistake. The plan is accepted all the same where only comments and file names are hostile, and is shown."""

    def both(self, words, status):
        """What both helpers write and say, which end with this status."""
        told = []
        for helper in (show, brief):
            ended, out, err = self.run_helper(helper.main, words)
            self.assertEqual(ended, status, err)
            self.assertEqual(bool(out), status == 0)
            self.assertNotIn("Traceback", err)
            told.append((out, err))
        return told

    def test_huge(self):
        """Comments of five million bytes, in one line and in many, and a file without an end."""
        scenario, plan = example("small-lake")
        for more in (b"# " + b"x" * 5_000_000 + b"\n", b"# at r0c0 1 2\n" * 100_000, b"#" * 1_000_000 + b"\n"):
            (told, _), (text, _) = self.both([self.write("s", more + scenario), self.write("p", plan)], 0)
            self.assertLess(len(told), 400_000)
            self.assertLess(len(text), 2_000)
            self.assertEqual(self.drawn(told)[0].one(class_="chance").one("strong").text(), re.search(r"Chance to find them: (\S+) %", text)[1] + "\N{NO-BREAK SPACE}%")
        with unittest.mock.patch.object(accepted, "MOST_INPUT", 1_000_000):
            self.both(["/dev/zero", self.write("p", plan)], 9)
            self.both([self.write("s", scenario), "/dev/zero"], 9)
            self.both([self.write("s", scenario), self.write("p", plan + b" " * 1_000_000)], 9)

    def test_not_utf_8(self):
        scenario, plan = example("small-lake")
        bad = bytes(range(1, 256)).replace(b"\n", b"")
        files = [self.write(b"caf\xe9 \xff\x1b[2J.scenario", b"# " + bad + b"\n" + scenario), self.write("p", plan)]
        (told, _), (text, _) = self.both(files, 0)
        for it in (told, text, self.drawn(told)[0].text()):
            self.assertIn("caf\ufffd \ufffd\ufffd[2J.scenario", it)
            self.assertEqual(set(re.findall(r"[\x00-\x09\x0b-\x1f\x7f-\x9f\ud800-\udfff]", it)), set())
        self.both([self.write("s", bad + scenario), self.write("p", plan)], 3)
        self.both([self.write("s", scenario), self.write("p", plan + bad)], 4)

    def test_deep(self):
        scenario, plan = example("small-lake")
        deep = b"# " + b"<div>" * 100_000 + b"[" * 100_000 + b"\n# at r0c0 " + b"(" * 100_000 + b"\n"
        (out, _), (text, _) = self.both([self.write("s", deep + scenario), self.write("p", plan)], 0)
        (its,) = self.opened(out)
        for it in (out, text, *(it.get("html", "") for it in its.values())):
            self.assertNotIn("<div><div>", it)
        self.assertIn("&lt;div&gt;&lt;div&gt;", its["notes"]["html"])
        self.both([self.write("s", scenario), self.write("p", plan.split(b"nodes")[0] + b"nodes 1048576\n" + b"B\n" * 200_000)], 4)

    def test_wrong_types(self):
        scenario, plan = example("small-lake")
        right = [self.write("s", scenario), self.write("p", plan)]
        for words, status in (
            ([self.room, right[1]], 5),
            ([right[0], self.room], 5),
            ([right[1], right[0]], 3),
            ([right[0], right[0]], 4),
            ([self.write("png", b"\x89PNG\r\n\x1a\n\x00\x00"), right[1]], 3),
            ([right[0], self.write("empty", b"")], 4),
            ([self.write("json", b'{"scenario": 1}'), right[1]], 3),
            ([right[0], self.write("html", b"<html></html>")], 4),
            (["", right[1]], 5),
            (["a\0b", right[1]], 5),
        ):
            self.both(words, status)
        for place in (b"NaN NaN", b"1e999 1", b"inf -inf", b"0x10 1", "١ ٢".encode(), b"99999999999 1", b"1", b"1 2 3", b"- 1", b"1. 2"):
            text = b"".join(b"# at r%dc%d %s\n" % (row, column, place) for row in range(9) for column in range(9)) + scenario
            (told, _), _ = self.both([self.write("s", text), right[1]], 0)
            self.assertNotIn("North is up", self.drawn(told)[0].text(), place)

    def test_markup(self):
        """All that is hostile comes out as text, and the page has the elements that it has without it."""
        plain, made = page_file(self, "kayaker"), page_file(self, "kayaker", "<svg onload=owned=4>&amp;\"'`.scenario", lambda it: COMMENTS + it)
        told, same = self.drawn(made[1], plain[1])
        self.assertEqual([it.tag for it in told.all()], [it.tag for it in same.all()])
        self.assertEqual(told.one("h1").one("bdi").text(), "<svg onload=owned=4>&amp;\"'`.scenario")
        self.assertEqual(told.one("head").one("title").text(), "Search plan <svg onload=owned=4>&amp;\"'`.scenario")
        self.assertIn(MARKUP, told.one("header").one("pre").text())
        files = [os.path.join(self.room, it) for it in ("<svg onload=owned=4>&amp;\"'`.scenario", "kayaker.plan")]
        status, text, _ = self.run_helper(brief.main, files)
        self.assertEqual(status, 0)
        self.assertNotIn(MARKUP, text)


def pair_file(room):
    """The page of two searchers on a small grid, as `duo` writes both texts, with names of the scenario of one."""
    made, grid = room.write("pair.made", paired(GRID, "r2c3")), room.write("pair.scenario", GRID)
    status, out, err = room.run_helper(show.main, [made, "--of", grid])
    if status or err:
        raise AssertionError(err)
    return room.write("pair.html", out.encode())


def finer_file(room):
    """The page of tests/finer.py, whose states are parts of squares."""
    status, out, err = room.run_helper(show.main, [room.write("finer.scenario", with_plan(finer.TEXT))])
    if status or err:
        raise AssertionError(err)
    return room.write("finer.html", out.encode())


def tried_file(room):
    """The page of a plan that was flown over three drifts, one of which is lost."""
    scenario, plan = example("swath")
    report = json.loads(read(f"{EXAMPLES}/swath.report.json"))
    flown = {**{key: report[key] for key in ("path", "chance", "weight")}, "finds": 0.5, "error": 0.01, "is_off": False}
    told = {"trial": 1, "count": 1000, "flown": [flown], "drifts": [[[750, 750], None, [250, 1250]]] * len(report["path"])}
    files = [room.write("tried.scenario", PLACES.encode() + scenario), room.write("tried.plan", plan)]
    status, out, err = room.run_helper(show.main, [*files, "--trial", room.write("tried.json", json.dumps(told).encode())])
    if status or err:
        raise AssertionError(err)
    return room.write("tried.html", out.encode())


def pages_for(room):
    """The pages that are opened in the browser, by what they are for."""
    plain, _ = page_file(room, "kayaker")
    table, _ = page_file(room, "swath")
    swath, _ = page_file(room, "swath", "swath-map.scenario", lambda it: PLACES.encode() + it)
    hostile, _ = page_file(room, "kayaker", "<svg onload=owned=4>.scenario", lambda it: COMMENTS + it)
    # A page as one would be that escapes nothing: it shows that the browser's logs would tell.
    broken = re.sub(r"<meta http-equiv[^>]*>", "", read(plain).decode()).replace("<h1>", f"<h1>{MARKUP.removeprefix('</title></script>')}")
    pages = {"grid": plain, "table": table, "swath": swath, "pair": pair_file(room), "finer": finer_file(room), "hostile": hostile}
    pages["tried"] = tried_file(room)
    pages["earth"], _ = page_file(room, "swath", "swath-earth.scenario", lambda it: b"# earth 57.725 10.58\n" + PLACES.encode() + it)
    return {**pages, "broken": room.write("broken.html", broken.encode())}


class Browser(unittest.TestCase):
    """The pages as a browser shows them."""

    @classmethod
    def setUpClass(cls):
        if not os.path.exists(PYTHON):
            raise unittest.SkipTest(f"there is no {PYTHON}")
        cls.folder = os.environ.get("DESK_PICTURES") or tempfile.mkdtemp()
        os.makedirs(cls.folder, exist_ok=True)
        if web.lacking() or not IS_BUILT:
            raise unittest.SkipTest(web.lacking() or "no program is built: its pages carry none")
        room = Room()
        room.setUp()
        patch = unittest.mock.patch.object(carried, "PLACES", carrying.PLACES)
        patch.start()
        room.addCleanup(patch.stop)
        try:
            files = pages_for(room)
            words = [PYTHON, SCRIPT, cls.folder, *files.values()]
            done = subprocess.run(words, capture_output=True, text=True, check=False, timeout=900, cwd=TOP)
        finally:
            room.doCleanups()
        if done.returncode == LACKING:
            raise unittest.SkipTest(done.stderr.strip())
        if done.returncode:
            raise AssertionError(done.stderr[-2000:])
        told = json.loads(done.stdout)
        cls.seen = {name: told[os.path.basename(it)] for name, it in files.items()}
        cls.base = {name: os.path.join(cls.folder, os.path.basename(it)[:-5]) for name, it in files.items()}

    @classmethod
    def tearDownClass(cls):
        if not os.environ.get("DESK_PICTURES"):
            shutil.rmtree(cls.folder)

    def at(self, state, period, name="grid"):
        """Holds what is seen against a period: one map, its row of the table, the slider, and the words for a screen reader."""
        report = json.loads(read(f"{EXAMPLES}/kayaker.report.json"))
        told = f"After look {period}, from {report['path'][period - 1]}" if period else "Before the first look; the searcher is at r6c3"
        seen = state["maps"], state["rows"], state["slider"], state["told"]
        self.assertEqual(seen, ([f"after-{period}"], [str(period)] if period else [], str(period), told))

    def test_it_opens_before_the_first_look(self):
        self.at(self.seen["grid"]["first"], 0)
        self.assertEqual(self.seen["grid"]["title"], "Search plan kayaker.scenario")

    def test_the_slider(self):
        self.at(self.seen["grid"]["slid"], 8)
        self.assertTrue(self.seen["grid"]["slid"]["live"].startswith("After look 8, from r3c2\n"))

    def test_keys(self):
        seen = self.seen["grid"]["keys"]
        for name, period in (("end", 8), ("left", 7), ("home", 0), ("right", 2), ("slider", 3), ("row", 1)):
            with self.subTest(name):
                self.at(seen[name], period)

    def test_tab_comes_to_all_controls_in_the_order_of_the_page(self):
        stops = self.seen["grid"]["stops"]
        self.assertEqual(stops[1:6], ["play", "back", "period", "forth", "INPUT of-all"])
        self.assertEqual((stops.count("step"), stops.count("exact")), (8, 16 + 20))

    def test_play(self):
        played = self.seen["grid"]["played"]
        self.assertEqual([it["slider"] for it in played["seen"]], ["1", "2", "3", "4", "5", "6", "7", "8", "8"])
        self.assertEqual([it["play"] for it in played["seen"]], ["Pause"] * 8 + ["Play"])
        for it in played["seen"]:
            self.at(it, int(it["slider"]))
        self.assertEqual(played["stopped"]["play"], "Play")
        self.assertEqual(played["stopped"], played["later"])
        self.assertEqual(len({it["live"] for it in played["seen"][:-1]}), 1, "it speaks while it plays")
        self.assertTrue(played["seen"][-1]["live"].startswith("After look 8"))

    def test_the_choice_of_numbers(self):
        of_all, of_left = self.seen["grid"]["first"]["shares"], self.seen["grid"]["of_left"]
        self.assertEqual((len(of_all), len(of_left["shares"])), (49, 49))
        self.at(of_left, 5)
        self.assertGreater(sum(map(float, of_left["shares"])), 99.9)
        self.assertEqual(of_left["live"].count("Likeliest"), 1)

    def test_exact_fractions_by_focus_and_hover_and_none_after_escape(self):
        self.assertEqual(self.seen["grid"]["fraction"], {"before": "hidden", "focus": "visible", "escape": "hidden", "hover": "visible"})

    def test_print_has_a_map_for_each_period_and_no_controls(self):
        self.assertEqual(self.seen["grid"]["printed"], {"maps": [f"after-{it}" for it in range(9)], "no_controls": True})
        self.assertEqual(self.seen["table"]["printed"]["maps"], [])

    def test_the_printed_text(self):
        if not shutil.which("pdftotext"):
            self.skipTest("pdftotext (poppler-utils) isn't installed")
        told = subprocess.run(["pdftotext", "-layout", self.base["grid"] + ".pdf", "-"], capture_output=True, text=True, check=True).stdout
        looks = (f"After look {it}, from" for it in range(1, 9))
        for part in ("64.127", "Accepted: no path is better.", *looks, "246250902200800000 of 384000000000000000"):
            self.assertIn(part, told)
        self.assertNotIn("Play", told)

    def test_a_phone_needs_no_sideways_move(self):
        for name in ("grid", "table", "swath", "pair", "finer", "tried", "earth"):
            self.assertEqual(self.seen[name]["phone"][0], 390, name)
            self.assertEqual(self.seen[name]["desktop"][0], 1280, name)

    def test_two_searchers_by_keys(self):
        seen = self.seen["pair"]["keys"]["right"]
        self.assertEqual((seen["maps"], seen["told"]), (["after-2"], "After look 2, from r0c2 and r1c2"))

    def test_states_are_small_squares_and_numbers_stand_by_squares(self):
        """Two by two states make a square of tests/finer.py, which has seven squares and five parts of them. Another page has no parts."""
        wide, shares = self.seen["finer"]["wide"], self.seen["finer"]["first"]["shares"]
        self.assertEqual((len(wide["parts"]), len(wide["squares"]), len(shares)), (5, 7, 7))
        self.assertTrue(all(0.47 < part / square < 0.5 for part in wide["parts"] for square in wide["squares"]), wide)
        self.assertEqual(self.seen["grid"]["wide"]["parts"], [])
        self.assertEqual(self.seen["finer"]["keys"]["end"]["shares"], ["12.500", "6.250", "6.250", "0", "0", "0", "0"])

    def test_drifts_are_seen_where_the_box_is_ticked(self):
        self.assertEqual(self.seen["tried"]["drifts"], [0, 1, 1, 0])
        self.assertNotIn("drifts", self.seen["grid"])

    @on_earth
    def test_the_line_says_where_the_pointer_is(self):
        """By PROJ 9.1.1 (+proj=aeqd +ellps=WGS84); the pointer stands on a whole pixel, which is some 3 m wide."""
        seen = self.seen["earth"]["where"]
        wanted = {
            "north-west": (57.722755217, 10.584195391),
            "north": (57.722754661, 10.592586172),
            "middle": (57.718265231, 10.592584614),
            "south-east": (57.713774686, 10.600971760),
        }
        for name, (latitude, longitude) in wanted.items():
            north, east = (float(it) for it in earth.spelled(seen[name]))
            away = math.radians(math.hypot(north - latitude, (east - longitude) * math.cos(math.radians(latitude)))) * 6_371_000
            self.assertLess(away, 5, (name, seen[name]))
        self.assertEqual(len(set(seen.values())), 10, "each of nine cells has its own place")
        self.assertEqual(seen["before"], seen["behind"])
        self.assertIn("The area's north-west corner is at 57°43.500'N 010°34.800'E.", seen["before"])
        self.assertNotIn("where", self.seen["swath"])

    def test_a_page_without_places_is_a_table_alone(self):
        seen = self.seen["table"]
        self.assertIsNone(seen["first"]["slider"])
        self.assertIn("There is no map, since nothing says where the cell north-west lies.", seen["text"])

    def test_no_request_and_nothing_on_the_console(self):
        for name in ("grid", "table", "swath", "pair", "finer", "tried", "earth", "hostile"):
            seen = self.seen[name]
            # (The worker is text of the page itself.)
            asked = {it for it in seen["asked"] if not it.startswith("blob:null/")}
            self.assertEqual([it.split("/")[0] for it in asked], ["file:"], name)
            self.assertEqual(seen["console"], [], name)
            self.assertEqual((seen["made"], seen["owned"]), (["A", "SCRIPT", "SCRIPT"], None), name)

    def test_a_page_that_escapes_nothing_would_be_seen(self):
        seen = self.seen["broken"]
        self.assertTrue(any(it.startswith("http://127.0.0.1:9/") for it in seen["asked"]))
        self.assertTrue(any("127.0.0.1" in it for it in seen["console"]))
        self.assertIn("IMG", seen["made"])
        self.assertIsNotNone(seen["owned"])


class Front(Room):
    def test_as_a_user_runs_it(self):
        """Words, output and status by `python3 -m desk`, as ./osp runs it."""
        how = {"cwd": TOP, "env": {**os.environ, "OSP": PROGRAM, "PYTHONDONTWRITEBYTECODE": "1"}, "capture_output": True, "check": False}
        done = subprocess.run([sys.executable, "-m", "desk", "show", *self.files("two-cells")], **how)
        self.assertEqual((done.returncode, done.stderr, done.stdout[:15]), (0, b"", b"<!DOCTYPE html>"))
        done = subprocess.run([sys.executable, "-m", "desk", "brief", self.files("two-cells")[0], f"{EXAMPLES}/two-cells-lacking.plan"], **how)
        self.assertEqual((done.returncode, done.stdout, done.stderr), (1, b"", b"osp brief: the plan isn't accepted: rejected 8 MissingChild\n"))
        for words, given in ((["-", self.files("two-cells")[1]], 0), ([self.files("two-cells")[0], "-"], 1)):
            done = subprocess.run([sys.executable, "-m", "desk", "brief", *words], input=example("two-cells")[given], **how)
            self.assertEqual((done.returncode, done.stderr), (0, b""))
            self.assertIn(b"Chance to find them: 75.000 %", done.stdout)
        done = subprocess.run([sys.executable, "-m", "desk", "brief", "-", self.files("two-cells")[1]], input=b"", **how)
        self.assertEqual((done.returncode, done.stdout, done.stderr), (3, b"", b"osp brief: bad scenario: line 2 BadLine\n"))
        self.assertEqual(program.OSP, PROGRAM)


if __name__ == "__main__":
    unittest.main()
