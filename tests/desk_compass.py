"""Tests the scale, the north arrow and the mesh of places of a map, and what a page says of times and places."""
import json
import re
import unittest

from desk import compass, earth, forms, layout, show
from tests.packaged import on_earth
from tests.pages import PLACES, Drawing, example


class Drawn(Drawing):
    def files(self, factor=1.0, front=""):
        """The files of examples/swath.scenario, whose places are so many times as far apart, and its plan."""
        scenario, plan = example("swath")
        places = re.sub(r"-?\d+ -?\d+$", lambda it: " ".join(f"{int(each) * factor:.3f}" for each in it[0].split()), PLACES, flags=re.M)
        return [self.write("s", (front + places).encode() + scenario), self.write("p", plan)]

    def below(self, page):
        """What is drawn below the squares of the first map, by its kind: the scale and the arrow to north."""
        figure = page.one("figure", id="after-0")
        return [figure.one("g", class_=it) for it in ("scale", "north")]

    def test_the_scale_is_a_round_length_that_fits(self):
        """A map of 4.3 squares across has at most 2.5 of them: 1250 m of 500, and so 1 km; a square is 100 units wide."""
        rows = (1, "1 km", 200), (0.5, "500 m", 200), (0.01, "10 m", 200), (0.84, "1 km", 238.1), (0.79, "500 m", 126.6), (2000, "2000 km", 200)
        for page, (factor, text, units) in zip(self.drawn(*(self.written(*self.files(it[0])) for it in rows)), rows):
            scale, north = self.below(page)
            with self.subTest(factor=factor):
                self.assertEqual((scale.one("text").text(), north.one("text").text()), (text, "N"))
                self.assertAlmostEqual(float(re.search(r"h([\d.]+)m", scale.one("path").attributes["d"])[1]), units, delta=0.05)

    def mesh(self, frame, factor=1.0):
        """The mesh of a page over the map of these files, and the box of the map in metres: squares of 500 m times the factor, 64 m of each
        hundred around their middles, and a strip of half a side below."""
        search = show.accepted.load(self.files(factor))
        side = 500 * factor
        box = [-250 * factor - 0.64 * side, 250 * factor - 0.64 * side, 1500 * factor + 1.28 * side, 1000 * factor + 1.78 * side]
        return compass.mesh(search, frame), box

    @on_earth
    def test_the_arrow_points_to_true_north(self):
        """50 km east of the place of reference at 80 degrees north up is 2.5 degrees to the right of north, so north is that far to the left."""
        middle = self.mesh(earth.Frame(0, 10))[1]
        middle = middle[0] + middle[2] / 2
        fronts = [f"# earth 80 10 {middle + away:.3f} 750\n" for away in (-50_000, 50_000)] + ["# earth 0 10\n"]
        said = "The arrow shows true north in the middle of the map, 2.5 degrees to the left of up", "2.5 degrees to the right of up", " North is up"
        pages = self.drawn(*(self.written(*self.files(1, it)) for it in fronts))
        for page, turn, wanted in zip(pages, ("-2.5", "2.5", None), said, strict=True):
            _, north = self.below(page)
            self.assertEqual(re.findall(r"rotate\((\S+) ", north.attributes.get("transform", "")), [turn] if turn else [], wanted)
            self.assertIn(wanted, page.one(id="map").text())
        (plain,) = self.drawn(self.written(*self.files()))
        self.assertNotIn("transform", self.below(plain)[1].attributes)
        self.assertIn(" North is up; a square is 500 m wide.", plain.one(id="map").text())

    @on_earth
    def test_between_the_nodes_places_are_right_to_a_metre(self):
        """As the script of the page takes them: in proportion along both axes."""
        strait, ice, sea = earth.Frame(57.725, 10.58), earth.Frame(80, 179.9), earth.Frame(-17, 179.995)
        for frame, factor in ((strait, 1), (strait, 20), (ice, 10), (sea, 100)):
            mesh, box = self.mesh(frame, factor)
            count, nodes = mesh["count"], list(zip(mesh["longitudes"], mesh["latitudes"], strict=True))
            self.assertEqual(len(nodes), (count + 1) ** 2)
            for mine, its in zip(mesh["box"], box, strict=True):
                self.assertAlmostEqual(mine, its, delta=0.001)
            for across, down in ((0.01, 0.99), (0.5, 0.5), (0.33, 0.77), (0.74, 0.26)):
                column, row = int(across * count), int(down * count)
                east, south = across * count - column, down * count - row
                at = [nodes[(row + r) * (count + 1) + column + c] for r, c in ((0, 0), (0, 1), (1, 0), (1, 1))]
                shares = (1 - east) * (1 - south), east * (1 - south), (1 - east) * south, east * south
                longitude, latitude = (sum(share * it[axis] for share, it in zip(shares, at)) for axis in (0, 1))
                wanted = box[0] + box[2] * across, box[1] + box[3] * down
                with self.subTest(frame=frame, factor=factor, across=across):
                    for one, other in zip(frame.to_area(latitude, longitude), wanted):
                        self.assertAlmostEqual(one, other, delta=1)

    @on_earth
    def test_the_mesh_of_a_page_lies_over_its_map(self):
        """A square is 100 units wide, and the middle of the first one is their origin: the box of the nodes is that of the picture."""
        page = self.shown(*self.files(1, "# earth 57.725 10.58\n"))
        box = json.loads(page.one("p", id="where").attributes["data-nodes"])["box"]
        drawn = [float(it) for it in page.one("figure", id="after-0").one("svg").attributes["viewbox"].split()]
        self.assertEqual(([round(it, 6) for it in box], drawn), ([-164.0, -64.0, 428.0, 378.0],) * 2)


class Pages(Drawing):
    def page(self, before):
        scenario, plan = example("swath")
        return self.shown(self.write("s", before.encode() + scenario), self.write("p", plan))

    @on_earth
    def test_places_and_times_are_told_and_nothing_leads_to_what_isnt_there(self):
        horizon = forms.read_scenario(example("swath")[0], True)[0].horizon
        times = f"# {horizon} periods of 15 minutes from 2026-07-04 23:50Z to 2026-07-05 09:00Z; a look counts at the end of its period, and so on\n"
        heads = f"# Names are so. {layout.HEAD.decode()}\n{PLACES}# {earth.HEAD.decode()}\n# earth 57.725 10.58\n"
        page = self.page(f"# A bay.\n{times}{heads}")
        self.assertIn("Times are UTC, from 2026-07-04 on.", page.one("header").text())
        self.assertEqual(page.one("header").one("pre").text().split("\nA small lake")[0], f"A bay.\n{times[2:-1]}\nNames are so.")
        row = next(page.one("section", class_="periods").one("tbody").all("tr"))
        self.assertEqual(list(row.all("td"))[0].text(), "23:50")
        self.assertIn("(23:50 to 00:05+1)", page.text())
        self.assertEqual(page.one("p", id="where").text()[-25:], "57°43.500'N 010°34.800'E.")

    def test_without_metres_there_is_no_scale(self):
        self.assertEqual([it for it in self.page("").all("g") if it.attributes.get("class") in ("scale", "north")], [])
        self.assertNotEqual([it for it in self.page(PLACES).all("g") if it.attributes.get("class") == "north"], [])
        self.assertEqual([it for it in self.page(PLACES).all("p") if it.attributes.get("id") == "where"], [])


if __name__ == "__main__":
    unittest.main()
