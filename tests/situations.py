"""Situations made from a seed: TOML files over all keys of docs/PLANNING.md, such as a coordinator might write."""
import random


def time_of(minute):
    """A time of the fourth or fifth of July, so many minutes after the midnight between them."""
    day, of_day = divmod(int(minute), 24 * 60)
    return f'"2026-07-{5 + day:02} {of_day // 60:02}:{of_day % 60:02}"'


class Made:
    """The lines of a situation, from the numbers of a generator."""

    def __init__(self, seed):
        self.rng = random.Random(seed)
        self.seed, self.lines = seed, []
        self.side = self.rng.choice((300, 500, 800, 1200))
        self.rows, self.columns = self.rng.randint(6, 11), self.rng.randint(6, 11)
        self.minutes, self.periods = self.rng.choice((10, 15, 20, 30)), self.rng.randint(4, 8)
        self.begins = self.rng.randint(-6 * 60, 20 * 60)
        # How fast, in knots, a drift goes that makes three squares in the whole time.
        self.pace = 3 * self.side / (self.periods * self.minutes) * 60 / 1852
        self.land = self.some_land()

    def some_land(self):
        """A block of squares in one corner, or an island, or none."""
        kind, rng = self.rng.choice(("none", "corner", "island")), self.rng
        if kind == "none":
            return None
        high, wide = rng.randint(1, 3), rng.randint(1, 3)
        row, column = (0, 0) if kind == "corner" else (rng.randint(1, self.rows - high - 1), rng.randint(1, self.columns - wide - 1))
        return row, column, row + high - 1, column + wide - 1

    def is_land(self, row, column):
        return self.land is not None and self.land[0] <= row <= self.land[2] and self.land[1] <= column <= self.land[3]

    def put(self, *lines):
        self.lines += lines

    def square(self, margin):
        """A square of water so many squares from the edge."""
        while True:
            row, column = self.rng.randint(margin, self.rows - 1 - margin), self.rng.randint(margin, self.columns - 1 - margin)
            if not self.is_land(row, column):
                return row, column

    def place(self):
        row, column = self.square(2)
        return [round((at + self.rng.random()) * self.side) for at in (column, row)]

    def search_and_area(self):
        self.put(f'title = "A made situation, number {self.seed}"', "[search]", f"begins = {time_of(self.begins)}")
        self.put(f"minutes = {self.minutes}", f"periods = {self.periods}", "[area]", f"cell_size = {self.side}")
        self.put(f"rows = {self.rows}", f"columns = {self.columns}", f'edge = "{self.rng.choice(("stays", "lost"))}"')
        if self.land:
            self.put('land = ["r{}c{}..r{}c{}"]'.format(*self.land))

    def report(self):
        """A report of one of the kinds, some time before the search."""
        rng, before = self.rng, self.rng.randint(5, 150)
        self.put("[[report]]", f"time = {time_of(self.begins - before)}", f"weight = {rng.randint(1, 3)}")
        kind = rng.choice(("cell", "circle", "normal", "line"))
        if kind == "cell":
            self.put('cell = "r{}c{}"'.format(*self.square(2)))
        elif kind == "line":
            self.put(f"track = [{self.place()}, {self.place()}]", f"radius = {rng.randint(0, self.side)}")
        else:
            self.put(f"at = {self.place()}")
            self.put(f"{'radius' if kind == 'circle' else 'probable_error'} = {rng.randint(self.side // 4, self.side)}")
        if rng.random() < 0.3:
            self.put(f"until = {time_of(self.begins - before + rng.randint(1, before))}")

    def water_and_air(self):
        rng = self.rng
        self.put("[[current]]", f"knots = {self.pace * rng.uniform(0.2, 1):.2f}", f"towards = {rng.randint(0, 359)}")
        if rng.random() < 0.6:
            turn = self.begins + rng.randint(0, self.minutes * self.periods)
            self.put("[[current]]", f"begins = {time_of(turn)}", f"knots = {self.pace * rng.uniform(0.2, 1):.2f}", f"towards = {rng.randint(0, 359)}")
        is_windy = rng.random() < 0.7
        if is_windy:
            self.put("[[wind]]", f"knots = {self.pace * 20 * rng.uniform(0.2, 1):.1f}", f"from = {rng.randint(0, 359)}")
        self.put("[drift]", f"spread = {round(self.side * rng.uniform(0, 0.5))}")
        if rng.random() < 0.5:
            self.put(f"current_error = {self.pace * rng.uniform(0.05, 0.4):.3f}")
        if is_windy:
            self.put("leeway = 0.04")
            keys = {"wind_error": f"{self.pace * 5:.2f}", "leeway_error": "0.01", "divergence": str(rng.randint(5, 40)), "jibing": "0.04"}
            chosen = [it for it in keys if rng.random() < 0.5]
            self.put(*(f"{it} = {keys[it]}" for it in chosen if it != "jibing" or "divergence" in chosen))

    def searcher(self):
        """A searcher that comes some squares far in a period, and finds some two of three."""
        rng = self.rng
        speed = self.side * rng.uniform(3, 5) / (self.minutes * 1852 / 60)
        search = self.minutes / 2
        width = rng.uniform(0.6, 1.6) * self.side**2 / (speed * 1852 / 60 * search)
        self.put("[searcher]", 'start = "r{}c{}"'.format(*self.square(0)), f"speed = {speed:.2f}", f"sweep_width = {width:.1f}", f"search_minutes = {search:g}", "reaches = 8")
        if rng.random() < 0.3:
            self.put(f'swath = {{ course = "{rng.choice(("east-west", "north-south"))}", sweep_width = {width / 3:.1f} }}')
        if rng.random() < 0.4:
            dusk = self.begins + rng.randint(0, self.minutes * self.periods)
            self.put("[light]", f"sunset = {time_of(dusk)}", "night = 0.4")
        if rng.random() < 0.4:
            haze = self.begins + rng.randint(0, self.minutes * self.periods)
            self.put("[[visibility]]", "factor = 0.7", "[[visibility]]", f"begins = {time_of(haze)}", "factor = 1")


def made(seed):
    """The text of the situation of a seed."""
    it = Made(seed)
    it.search_and_area()
    for _ in range(it.rng.randint(1, 3)):
        it.report()
    it.water_and_air()
    it.searcher()
    return "\n".join(it.lines) + "\n"
