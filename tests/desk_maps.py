"""Tests of what `osp show` takes from `map`: the text of a map, its masses on the page, and programs that know none or another one.
`python3 -m unittest tests.desk_maps`, or tests/desk."""
import json
import os
import unittest
from unittest import mock

from desk import accepted, brief, derived, forms, paths, program, reports, show
from tests.pages import EXAMPLES, STAND_IN, Drawing, Room, example, read, tree

NAMES = sorted(it[:-7] for it in os.listdir(EXAMPLES) if it.endswith(".report"))
# Four cells in a row; the boat looks at the first one, and finds three of nine. Worked by hand, as in docs/FORMATS.md.
ROW = b"map 1\nperiod 1 a\nleft a 0 0.000\nleft b 0 0.000\nleft c 2 22.222\nleft d 4 44.444\nend\n"


def searched(name):
    """The scenario and the path of an example."""
    text, plan = example(name)
    sc, _ = forms.read_scenario(text, True)
    return sc, forms.read_plan(plan, sc).path


class Texts(unittest.TestCase):
    def test_a_map_worked_by_hand(self):
        (look,) = reports.read_map(ROW, 9)
        self.assertEqual((look.name, [(it.name, it.value) for it in look.left]), ("a", [("a", 0), ("b", 0), ("c", 2), ("d", 4)]))

    def test_other_texts_are_none(self):
        for old, new in ((b"map 1", b"map 2"), (b"map 1", b"report 1"), (b"44.444", b"44.445"), (b"period 1", b"period 2"), (b"c 2 ", b"c 02 "),
                         (b"end\n", b""), (b"end\n", b"end\n\n"), (b"period 1 a", b"period 1  a"), (b"period 1 a\n", b""), (b"end\n", b"end")):  # fmt: skip
            self.assertIn(old, ROW)
            with self.assertRaises(reports.NoReport, msg=new):
                reports.read_map(ROW.replace(old, new), 9)
        for text, whole in ((b"", 9), (b"map 1\nend\n", 9), (ROW, 18), (b"\xff" * 100, 9)):
            with self.assertRaises(reports.NoReport):
                reports.read_map(text, whole)

    def test_maps_of_all_examples_are_read_back(self):
        for name in NAMES:
            sc, path = searched(name)
            looks = reports.read_map(derived.map_text(sc, path), paths.weight(sc))
            self.assertEqual([it.name.encode() for it in looks], [sc.positions[it] for it in path], name)
            report = json.loads(read(f"{EXAMPLES}/{name}.report.json"))
            self.assertEqual([{"cell": it.name, "mass": str(it.value)} for it in looks[-1].left], report["left"], name)


class Program(Room):
    def test_the_map_that_is_asked_is_that_of_the_desk(self):
        """By the program where it is built, else by the fractions of the stand-in, behind each period of each example."""
        for name in NAMES:
            sc, path = searched(name)
            for flown in range(1, sc.horizon + 1):
                names = [sc.positions[it].decode() for it in path[:flown]]
                answer = program.ask(["map", "flown", *names], example(name)[0])
                self.assertEqual((answer.status, answer.out, answer.err), (0, derived.map_text(sc, path[:flown]), b""), (name, flown))


class Pages(Drawing):
    def page(self, name):
        """What `show` makes of an example: its status, the page and what is said."""
        return self.run_helper(show.main, self.files(name))

    def by_script(self, what, of="two-cells"):
        """Lets a script answer `map` with a command, and the stand-in all else."""
        script = self.write("program", f'#!/bin/sh\n[ "$1" = map ] || exec "{STAND_IN}" "$@"\necho "$*" > "{self.room}/words"\n{what}\n'.encode())
        os.chmod(script, 0o755)
        patch = mock.patch.object(program, "OSP", script)
        patch.start()
        self.addCleanup(patch.stop)

    def test_masses_of_the_page_are_those_of_the_map(self):
        for name in ("drifting-grid", "night", "two-cells"):
            page = self.shown(*self.files(name))
            sc, path = searched(name)
            answer = program.ask(["map", "flown", *(sc.positions[it].decode() for it in path)], example(name)[0])
            said = [[row.value for row in it.left] for it in reports.read_map(answer.out, paths.weight(sc))]
            rows = [it for it in page.one(class_="all").one("tbody").all("tr") if it.attributes.get("class") != "sum"]
            shown = [[int(it.attributes["title"].split(" of ")[0]) for it in row.all("td")][1:] for row in rows]
            self.assertEqual([list(it) for it in zip(*shown)], said, name)
            self.check_figures(page, said)

    def check_figures(self, told, said):
        """Of each look's drawing, where there is one, the masses of its squares are those of the map."""
        for t, masses in enumerate(said, 1):
            for figure in told.all("figure", id=f"after-{t}"):
                titles = (it.text() for it in figure.one("g", class_="cells").all("title"))
                self.assertEqual([int(it.split("; ")[-1].split(" of ")[0]) for it in titles], masses)

    def test_the_words_and_the_input_of_the_map(self):
        """Names of the whole path, and the scenario up to its line `end`."""
        text, plan = example("two-cells")
        self.by_script(f'cat > "{self.room}/given"; printf "map 1\\nperiod 1 a\\nleft a 0 0.000\\nleft b 8 50.000\\nperiod 2 a\\nleft a 0 0.000\\nleft b 4 25.000\\nend\\n"')
        status, _, err = self.run_helper(show.main, [self.write("s", text + b"\n \n"), self.write("p", plan)])
        self.assertEqual((status, err), (0, ""))
        self.assertEqual((read(f"{self.room}/words"), read(f"{self.room}/given")), (b"map flown a a\n", text))

    def test_a_program_without_a_map_gets_the_plan_as_text_and_shows_no_map(self):
        """The text has the desk's own sums; what the page would draw it takes from the program alone."""
        with_map = self.page("two-cells")
        for script in ("echo 'osp: map is no command' >&2; exit 2", "echo 'usage: osp plan' >&2; exit 2", "echo 'input too long' >&2; exit 9"):
            self.by_script(script)
            told = self.page("two-cells")
            self.assertEqual(told[::2], (0, ""))
            self.assertEqual(tree(told[1]).one("pre", id="text").text(), tree(with_map[1]).one("pre", id="text").text())
            (its,) = self.opened(told[1])
            self.assertEqual((its["head"]["className"], {*its}), ("verdict", {"head"}))
            self.assertIn("Nothing is checked here: the program ended with status ", its["head"]["html"])

    def test_a_map_that_is_another_ones(self):
        lines = "map 1\nperiod 1 a\nleft a 0 0.000\nleft b 8 50.000\nperiod 2 a\nleft a 0 0.000\nleft b 4 25.000\nend\n"
        for old, new, part in (
            ("period 1 a\nleft a 0 0.000\nleft b 8 50.000", "period 1 a\nleft a 8 50.000\nleft b 0 0.000", "aren't those of osp map"),
            ("period 1 a", "period 1 b", "aren't those of osp map"),
            ("left b 8", "left c 8", "aren't those of osp map"),
            ("period 2 a\nleft a 0 0.000\nleft b 4 25.000\n", "", "aren't those of osp map"),
            ("8 50.000", "8 50.001", "isn't understood"),
            ("end\n", "", "isn't understood"),
        ):
            self.assertIn(old, lines)
            self.by_script(f"cat > /dev/null; cat << 'END'\n{lines.replace(old, new)}END")
            status, out, err = self.page("two-cells")
            self.assertEqual((status, out), (70, ""))
            self.assertIn(part, err)
        self.by_script(f"cat > /dev/null; cat << 'END'\n{lines}END")
        self.assertEqual(self.page("two-cells")[0], 0)

    def test_a_program_that_fails_at_the_map(self):
        for script, status, part in (("echo 'no memory' >&2; exit 7", 7, "no memory"), ("kill -9 $$", 70, "ended with status -9"),
                                     ("echo 'bad flown: NotLegal' >&2; exit 10", 10, "bad flown: NotLegal")):  # fmt: skip
            self.by_script(script)
            ended, out, err = self.page("two-cells")
            self.assertEqual((ended, out), (status, ""))
            self.assertIn(part, err)

    def test_a_brief_asks_for_no_map(self):
        self.by_script("exit 7")
        self.assertEqual(self.run_helper(brief.main, self.files("two-cells"))[0], 0)


class Mapped(Room):
    def test_before_the_first_look_there_is_the_first_distribution(self):
        search = accepted.mapped(accepted.load(self.files("two-cells")))
        self.assertEqual([it.left for it in search.frames], [[8, 8], [0, 8], [0, 4]])
        self.assertTrue(search.is_mapped)


if __name__ == "__main__":
    unittest.main()
