"""Tests of what is planned on scene, in pages that carry the program: what is saved is what the program writes, the whole page shows it as
a page of `osp show` does of that file, and the words for the radio are those of `osp brief`. `python3 -m unittest tests.desk_scene`, or
tests/desk."""
import json
import os
import random
import re
import typing
import unittest

from desk import brief, derived, forms, onscene, percent, seats, writing
from tests import made, pages, web
from tests.carrying import Carrying
from tests.desk_steering import CORNER, PLACES, TIMES
from tests.web import Case

# Places for examples/night.scenario.
NIGHT = """\
# at reef 500 1500
# at bay 1500 1500
# at beach 500 500
# at mouth 1500 500
# at cliff 0 1000
# at landing 0 500
"""
# Two places from which the same is seen, and where the same moves lead.
ALIKE = b"""scenario 2
horizon 3
parts 1 2 2
cell a
cell b
position left
position right
position far
start far
first a 1
moves left far
moves right far
moves far left right
drift a a 1 b 1
drift b b 2
look left a 1
look right a 1
look far b 1
end
"""
SITUATIONS = f"{pages.EXAMPLES}/situations"
TOO_MANY = 8
ALL = 200_000


class Page(typing.NamedTuple):
    """A page: the words of `show`; the file of the scenario in which it plans; what is tried in it; the words of `brief` besides; how the
    program names the places of a look; the scenario by which both searchers' places are named, where there are two; and whether a scenario
    that names places is given."""

    words: list
    of: str
    tries: list
    times: tuple = ()
    named: typing.Callable = lambda look: look[0]
    told: str | None = None
    is_given: bool = True

    def by(self):
        """The words by which `show` and `brief` know the names of places; a page that isn't given them knows no comments either."""
        return ["--of", self.told or self.of] if self.is_given else []


def tried(*looks, most=ALL, keep=0):
    return {"looks": list(looks), "most": most, "keep": keep}


def walk(sc, rng, count):
    """The names of so many positions that moves lead through, from the start on."""
    here, names = sc.start, []
    for _ in range(count):
        here = rng.choice(sorted(sc.moves[here]))
        names.append([sc.positions[here].decode()])
    return names


def is_told(sc, names):
    """Whether `brief` can tell from where the looks of a walk were: no others that look alike lead there."""
    flown = derived.numbers_of(sc, [it.encode() for (it,) in names])
    return all(it != (None,) for it in seats.seats(derived.forced(sc, flown), sc).sources)


def walks(file, seed, counts, most=ALL):
    """Tries of walks through the scenario of a file, of so many looks each, that `brief` can tell."""
    sc, rng = forms.read_scenario(pages.read(file), alone=False)[0], random.Random(seed)
    found = (next(it for it in iter(lambda: walk(sc, rng, count), None) if is_told(sc, it)) for count in counts)
    return [tried(*it, most=most) for it in found]


def replanned(text, names, most):
    """What the program writes where these looks are flown: `replan`, or `gap` behind the scenario that desk.derived makes where that needs
    more records."""
    made = web.native([Case(["replan", "--workers", "1", "--nodes", str(most), "flown", *names], text)])[0]
    if made.status != TOO_MANY:
        return made.status, made.out
    sc = forms.read_scenario(text, alone=False)[0]
    own = writing.scenario_text(derived.forced(sc, derived.numbers_of(sc, [it.encode() for it in names])))
    gap = web.native([Case(["gap", "--workers", "1", "--nodes", str(most)], own)])[0]
    return gap.status, own + gap.out


def squares(text, names):
    """What stands on the squares of a map behind looks that are flown, by the program's `map`: with the shares of all, and of what is
    left."""
    looks = web.native([Case(["map", "flown", *names], text)])[0].out.decode().split("period ")[len(names)].splitlines()
    masses = [(it.split()[1], int(it.split()[2])) for it in looks if it.startswith("left")]
    sc = forms.read_scenario(text, alone=True)[0]
    whole, missed = sc.parts[0] * sc.parts[1] ** (sc.horizon - 1) * sc.parts[2] ** sc.horizon, sum(it[1] for it in masses)
    told = [(cell, *(percent.cut(mass, it) if mass else "0" for it in (whole, missed)), mass) for cell, mass in masses]
    return [f"{cell}: {of_all} % of all, {of_left} % if nothing was found; {mass} of {whole}" for cell, of_all, of_left, mass in told]


class Scenes(Carrying):
    maxDiff = None

    def tried(self, made):
        """What a browser saw of these pages, by name, which have to be quiet and fit on both screens."""
        for name, it in made.items():
            with open(os.path.join(self.room, f"{name}.json"), "w", encoding="utf-8") as file:
                json.dump(it.tries, file)
        seen = self.visit("scene_in_browser.py", {name: self.page(*it.words) for name, it in made.items()})
        for name, it in seen.items():
            with self.subTest(name):
                self.quiet(it)
                self.assertEqual((it["tablet"], it["desktop"]), (0, 0))
                self.assertRegex(it["opened"]["by"], self.HERE)
        return seen

    def check(self, name, page, seen):
        """Each try of a page: the saved file is what the program writes, and what the page shows is of it. Answers the words by which
        `show` and `brief` read each file, with what was seen of it."""
        looks, told = [], []
        for number, (wanted, it) in enumerate(zip(page.tries, seen["tries"], strict=True), 1):
            looks = looks[: wanted["keep"]] + wanted["looks"]
            with self.subTest(name, number=number, looks=looks):
                self.assertTrue(it["found"], it["said"])
                file = os.path.join(self.folder, f"{name}-{number}.made")
                status, made = replanned(pages.read(page.of), [page.named(look) for look in looks], wanted["most"])
                self.assertEqual((status, pages.read(file)), (0, made))
                os.makedirs(f"{self.room}/{name}-{number}")
                told.append(([self.write(f"{name}-{number}/{it['file']}", made), *page.by(), *page.times], it))
                self.leads(seen["opened"], it, len(looks))
        return told

    def leads(self, first, seen, flown):
        """The page shows the newest plan, by its name, and one line has the chance of the plan that it came with."""
        self.assertEqual((seen["good"], seen["stale"], seen["name"]), ("verdict good", "", seen["file"]))
        self.assertEqual(seen["title"], f"Search plan {seen['file']}")
        chance = first["chance"].split("\N{NO-BREAK SPACE}")[0]
        self.assertRegex(seen["before"], f"^Before: {re.escape(chance)} %, (no look|1 look|\\d looks) flown\\.$")
        now = f"The page shows this plan: {re.escape(seen['chance'].split()[0])} %, {flown} looks? flown"
        self.assertRegex(seen["said"], f"^Planned in \\d+\\.\\d\\d s\\. {now}\\.$")
        self.assertIn(seen["maps"], ([], [f"after-{flown}"]))

    def said_as_by_the_desk(self, told):
        """What the page says is what `brief` and `show` say of the saved file, whose page is opened in the browser, too."""
        for number, (words, seen) in enumerate(told):
            with self.subTest(seen["file"], number=number):
                self.assertEqual(self.run_helper(brief.main, words), (0, seen["radio"], ""))
        shown = self.visit("scene_in_browser.py", {f"shown-{number}": self.page(*words) for number, (words, _) in enumerate(told)})
        for number, (words, seen) in enumerate(told):
            own = shown[f"shown-{number}"]
            with self.subTest(seen["file"], number=number):
                self.assertEqual({it: own[it] for it in ("verdict", "chance", "notes", "radio", "name", "title", "markup")},
                                 {it: seen[it] for it in ("verdict", "chance", "notes", "radio", "name", "title", "markup")})

    def check_all(self, made):
        seen = self.tried(made)
        self.said_as_by_the_desk([it for name, page in made.items() for it in self.check(name, page, seen[name])])
        return seen

    def test_one_searcher(self):
        """A grid, squares of several states, land, and places on the earth: short prefixes, and a whole path."""
        grid = f"{pages.EXAMPLES}/drifting-grid.scenario"
        earth = self.write("earth.scenario", (TIMES + CORNER + PLACES).encode() + pages.example("night")[0])
        times = "--from", "23:30", "--minutes", "15"
        made = {
            "grid": Page([*self.files("drifting-grid"), *times], grid, [*walks(grid, 1, (1, 8)), tried(["r1c0"], ["r1c1"]), tried(["r2c1"], keep=2)], times),
            "earth": Page([earth, f"{pages.EXAMPLES}/night.plan"], earth, walks(earth, 3, (2,))),
        }
        for name in ("kayaker", "coast-by-night"):
            file = f"{SITUATIONS}/{name}.scenario"
            made[name] = Page([file, f"{SITUATIONS}/{name}.plan"], file, walks(file, 2, (3,)))
        self.check_all(made)

    def test_gap_plans(self):
        """A page of a gap plan says by `checkgap` that it is accepted, or why not; where the records run out, a ceiling is made behind what was
        flown, and what is saved is the scenario of a second computation with what `gap` writes for it."""
        grid, text = f"{pages.EXAMPLES}/drifting-grid.scenario", pages.example("drifting-grid")[0]
        gap = web.native([Case(["gap", "--workers", "1", "--nodes", "8"], text)])[0].out
        plan = self.write("grid.gap", gap)
        made = {"gap": Page([grid, plan], grid, [*walks(grid, 4, (3,)), *walks(grid, 5, (2, 1), most=5)])}
        seen = self.check_all(made)["gap"]
        self.assertRegex(seen["opened"]["verdict"], r"^Accepted: no path finds more than \d+\.\d{3} %\.$")
        self.assertRegex(seen["tries"][1]["verdict"], r"^Accepted: no path that begins as flown finds more than \d+\.\d{3} %\.$")

    def test_two_searchers(self):
        """Both looks of a period are marked, by their names; the rest is planned for both, or gets a ceiling."""
        night, both = self.write("night.scenario", NIGHT.encode() + pages.example("night")[0]), f"{pages.EXAMPLES}/night-two.made"
        pair = self.write("pair.scenario", onscene.alone(pages.read(both)))
        names = [it.decode() for it in forms.read_scenario(pages.read(night), alone=True)[0].positions]
        named = lambda look: "p%d-%d" % tuple(map(names.index, look))
        tries = [tried(["cliff", "bay"]), tried(["landing", "reef"], keep=1), tried(["landing", "bay"], ["bay", "mouth"], most=3)]
        seen = self.check_all({"two": Page([both, "--of", night], pair, tries, named=named, told=night)})["two"]
        self.assertEqual(seen["opened"]["verdict"], "Accepted: no pair of paths is better.")
        self.assertIn("both go on", seen["part"])
        self.assertEqual(seen["tries"][1]["map"]["signs"], ["2", "2"])

    def test_a_page_of_what_is_flown_goes_on(self):
        """The looks that are flown already stay marked; more are marked behind them, in the scenario that it was made of, given or not."""
        made, grid = f"{pages.EXAMPLES}/drifting-grid-flown.made", f"{pages.EXAMPLES}/drifting-grid.scenario"
        flown = [["r0c1"], ["r0c2"], ["r0c3"]]
        seen = self.tried({name: Page(words, grid, [tried(["r1c3"])]) for name, words in (("given", [made, "--of", grid]), ("found", [made]))})
        for name in ("given", "found"):
            self.said_as_by_the_desk(self.check(name, Page([], grid, [tried(*flown, ["r1c3"])], is_given=name == "given"), seen[name]))
            self.assertEqual(seen[name]["tries"][0]["flown"], ["r0c1", "r0c2", "r0c3", "r1c3"])
            # (README.md has this chance.)
            self.assertEqual(seen[name]["tries"][0]["before"], "Before: 16.296 %, 3 looks flown.")

    def test_a_gap_forces_what_was_flown_alone(self):
        """Of two searchers with 196 positions a path with a ceiling behind two looks has the 199 positions that these take."""
        alone = made.GRID.replace(b"grid 3 4", b"grid 2 7").replace(b"horizon 3", b"horizon 4").replace(b"r1c2", b"r1c3")
        one, told = self.write("one.scenario", alone), web.native([Case(["duo", "--workers", "1", "start", "r1c6"], alone)])[0]
        both = self.write("both.made", told.out)
        pair = self.write("both.scenario", onscene.alone(told.out))
        names = [it.decode() for it in forms.read_scenario(alone, alone=True)[0].positions]
        named = lambda look: "p%d-%d" % tuple(map(names.index, look))
        page = Page([both, "--of", one], pair, [tried(["r1c0", "r1c5"], ["r1c1", "r0c5"], most=3)], named=named, told=one)
        seen = self.check_all({"wide": page})["wide"]["tries"][0]
        self.assertEqual(seen["verdict"], "Accepted: no pair of paths that begins as flown finds more.")
        found = forms.read_scenario(pages.read(os.path.join(self.folder, "wide-1.made")), alone=False)[0]
        self.assertEqual(len(found.positions), 199)

    def test_who_looked_is_who_was_marked(self):
        """Of two places that look alike the page says the one that was marked, which the plan alone can't say."""
        alike = self.write("alike.scenario", ALIKE)
        plan = self.write("alike.plan", web.native([Case(["plan", "--workers", "1"], ALIKE)])[0].out)
        seen = self.tried({"alike": Page([alike, plan], alike, [tried(["left"]), tried(["right"])])})["alike"]["tries"]
        for name, it in zip(("left", "right"), seen, strict=True):
            self.assertEqual(re.findall(r"^ +\d  (\S+(?: \(flown\))?) .* %$", it["radio"], re.M)[0], f"{name} (flown)")
            self.assertEqual(it["flown"], [name])
            self.assertIn(f"{name} flown", it["rows"][0][-3])


class Clicks:
    """What is marked by clicks and by keys, and what becomes of marks: the cases of each browser."""

    def test_clicks_and_keys(self):
        """What is planned behind three clicks is what `replan` writes, and its numbers are those of examples/; by keys alone, too."""
        seen = self.visit("scene_in_browser.py", {"clicks": self.page(*self.files("drifting-grid"))})["clicks"]
        clicks, grid = seen["clicks"], pages.example("drifting-grid")[0]
        self.assertEqual(clicks["flown"], ["r0c1", "r0c2", "r0c3"])
        self.assertEqual(pages.read(os.path.join(self.folder, clicks["file"])), pages.read(f"{pages.EXAMPLES}/drifting-grid-flown.made"))
        self.assertEqual((clicks["file"], clicks["name"]), ("drifting-grid-scenario-flown-3.made",) * 2)
        self.assertEqual(clicks["verdict"], "Accepted: no path that begins as flown is better.")
        self.assertRegex(clicks["by"], self.HERE)
        # (README.md has these chances. The first three looks find nothing, since nobody is there.)
        self.assertEqual((clicks["chance"][:7], clicks["good"]), ("16.296\N{NO-BREAK SPACE}", "verdict good"))
        self.assertEqual(clicks["before"], "Before: 17.557 %, no look flown.")
        self.assertIn("The first 3 looks are flown. If these found nothing, those to come find them: 16.296 %.", clicks["notes"])
        # (Two moves before the one to r0c3, and behind it five, one of which is a stay.)
        self.assertEqual((clicks["maps"], seen["map"]["legs"]), (["after-3"], [2, 1, 4]))
        self.assertEqual([it[1] for it in seen["map"]["cells"]], squares(grid, "r0c1 r0c2 r0c3".split()))
        path = "r0c1 (flown),r0c2 (flown),r0c3 (flown),r1c3,r2c3,r3c3,r3c3,r4c3".split(",")
        self.assertEqual(re.findall(r"^ +\d  (\S+(?: \(flown\))?) .* %$", clicks["radio"], re.M), path)
        self.assertEqual(clicks["rows"][-1][-1], "16.296\N{NO-BREAK SPACE}%")
        self.check_keys(seen, grid)
        self.assertEqual(seen["wide"], 0)
        self.quiet(seen)

    def check_keys(self, seen, grid):
        """A mark that is taken back leaves what is shown, which isn't green: it isn't of what is marked. So is what can't be planned."""
        undone, cleared = seen["undone"], seen["cleared"]
        self.assertEqual((undone["flown"], undone["good"], undone["name"]), (["r0c1", "r0c2"], "verdict old", seen["clicks"]["name"]))
        self.assertEqual(undone["stale"], "The plan that is shown isn't one of what is marked as flown (2 looks): plan the rest.")
        self.assertEqual((seen["wrong"]["flown"], seen["wrong"]["said"]), (["r0c1", "r0c2"], "r9c9 is no place to look from."))
        self.assertEqual((seen["illegal"]["flown"], seen["refused"]["good"]), (["r0c1", "r0c2", "r6c6"], "verdict old"))
        why = web.native([Case(["replan", "flown", "r0c1", "r0c2", "r6c6"], grid)])[0].err.decode().strip()
        self.assertEqual((seen["refused"]["said"], seen["refused"]["name"]), (f"Nothing is planned: {why}.", seen["clicks"]["name"]))
        self.assertNotIn("onscene-next", seen["illegal"]["open"])
        self.assertEqual((cleared["flown"], cleared["found"], cleared["before"], cleared["stale"]), ([], False, "", ""))
        self.assertEqual((cleared["good"], cleared["name"]), ("verdict good", "drifting-grid.scenario"))
        self.assertEqual(cleared["chance"][:7], "17.557\N{NO-BREAK SPACE}")
        self.assertEqual((seen["next"]["flown"], seen["next"]["good"], seen["next"]["stale"]), (["r0c1"], "verdict good", ""))
        self.assertEqual((seen["planned"]["flown"], seen["planned"]["chance"][:7]), (["r0c1"], "17.557\N{NO-BREAK SPACE}"))

    def test_marks(self):
        """Marks are locked while it plans, are there again when the page is loaded anew, and where the browser has no store it warns."""
        slow = pages.read(f"{web.TOP}/bench/scenarios/fourteen-24.scenario")
        plan = web.native([Case(["plan", "--workers", "1"], slow)])[0].out
        page = self.page(self.write("slow.scenario", slow), self.write("slow.plan", plan))
        seen = self.visit("scene_in_browser.py", {"marks": page})["marks"]
        self.check_locked(seen["kept"])
        self.check_kept(seen["kept"], slow)
        self.check_unkept(seen["unkept"])
        self.quiet(seen)

    def check_locked(self, seen):
        """While it plans nothing is marked or taken back, by clicks or by what the page itself sends; what is stopped changes nothing."""
        # (The plan begins with a stay at r0c0.)
        self.assertEqual((seen["next"]["flown"], seen["next"]["good"]), (["r0c0"], "verdict good"))
        self.assertEqual((seen["marked"]["flown"], seen["marked"]["good"]), (["r1c0"], "verdict old"))
        for name in ("runs", "tried"):
            self.assertEqual((seen[name]["open"], seen[name]["flown"], seen[name]["good"]), (["onscene-stop"], ["r1c0"], "verdict old"))
            self.assertEqual(seen[name]["said"], "Planning …")
        stopped = seen["stopped"]
        self.assertEqual(stopped["said"], "Nothing is planned: it was stopped.")
        self.assertEqual((stopped["flown"], stopped["good"], stopped["name"]), (["r1c0"], "verdict old", "slow.scenario"))

    def check_kept(self, seen, slow):
        """What is planned behind a mark leads, until the page is loaded anew, which has the mark still, and isn't green for it."""
        planned, first = seen["planned"], seen["opened"]
        status, out = replanned(slow, ["r1c0"], 50)
        self.assertEqual((status, pages.read(os.path.join(self.folder, planned["file"]))), (0, out))
        self.assertEqual((planned["good"], planned["name"], planned["maps"]), ("verdict good", "slow-scenario-flown-1.made", ["after-1"]))
        self.assertEqual(planned["before"], f"Before: {first['chance'].split()[0]} %, no look flown.")
        again = seen["again"]
        self.assertEqual((again["flown"], again["good"]), (["r1c0"], "verdict old"))
        self.assertEqual((again["name"], again["chance"]), ("slow.scenario", first["chance"]))
        self.assertEqual(again["stale"], "The plan that is shown isn't one of what is marked as flown (1 look): plan the rest.")
        self.assertEqual(again["said"], "This browser kept the marks that were made here: 1 look flown.")
        self.assertEqual((seen["replanned"]["good"], seen["replanned"]["name"]), ("verdict good", "slow-scenario-flown-1.made"))
        for name in ("cleared", "anew"):
            told = [seen[name][it] for it in ("flown", "good", "stale", "chance")]
            self.assertEqual(told, [[], "verdict good", "", first["chance"]])
        self.assertEqual((seen["warns"], seen["anew"]["said"], seen["marked"]["lost"]), (False, "", False))

    def check_unkept(self, seen):
        self.assertEqual((seen["before"], seen["warns"], seen["after"]), (False, True, False))
        self.assertEqual((seen["marked"]["lost"], seen["cleared"]["lost"]), (True, False))


class ClicksInChromium(Clicks, Carrying):
    BROWSER = "chromium"


class ClicksInFirefox(Clicks, Carrying):
    BROWSER = "firefox"


if __name__ == "__main__":
    unittest.main()
