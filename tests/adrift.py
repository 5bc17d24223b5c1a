"""A second simulation of situations, which shares nothing with the desk's: it reads the TOML file by docs/PLANNING.md, and steps through
time. Paths are flown over its drifts, and a beam search over them looks for better paths.

Places are metres east and south of the north-west corner, times minutes after the begin of the search.
"""
import datetime
import math
import random
import tomllib

KNOT = 1852 / 60
DAY = 24 * 60
# The longest step in minutes, and how many steps at least a way of one square takes where there is land.
LONGEST, STEPS_A_SQUARE = 5, 4
# Half of all places of a circular normal distribution lie within so many standard deviations of its middle.
HALF_WITHIN = math.sqrt(2 * math.log(2))


def clock(value):
    """The minute of the day of a time such as "19:30", and its date or None."""
    date, _, time = str(value).replace("T", " ").rpartition(" ")
    hour, minute, *second = (int(it) for it in time.split(":"))
    return hour * 60 + minute + sum(second) / 60, datetime.date.fromisoformat(date) if date else None


def bearing(degrees):
    """East and south of a step of 1 towards a bearing."""
    return math.sin(math.radians(degrees)), -math.cos(math.radians(degrees))


def squares_of(names):
    """The squares, as pairs of row and column, of names such as r2c3 and blocks such as r0c0..r2c3."""
    found = set()
    for it in names:
        ends = [tuple(int(part) for part in end[1:].split("c")) for end in it.split("..")]
        (top, left), (low, right) = ends[0], ends[-1]
        found |= {(row, column) for row in range(top, low + 1) for column in range(left, right + 1)}
    return found


class Situation:
    """What a TOML file says, in metres and minutes."""

    def __init__(self, text):
        told = tomllib.loads(text)
        self.told, self.begins = told, clock(told["search"]["begins"])
        self.minutes = float(told["search"]["minutes"])
        search, area = told["search"], told["area"]
        self.periods = search.get("periods") or int(self.since(search["until"], "after") // self.minutes)
        self.side, self.rows, self.columns = float(area["cell_size"]), area["rows"], area["columns"]
        self.land, self.is_lost = squares_of(area.get("land", [])), area.get("edge", "lost") == "lost"
        self.drift = told.get("drift", {})
        self.current = self.steps("current", lambda it: self.velocity(it["knots"], it["towards"]))
        self.wind = self.steps("wind", lambda it: self.velocity(it["knots"], it["from"] + 180))
        self.seen = self.steps("visibility", lambda it: it["factor"])

    @staticmethod
    def velocity(knots, towards):
        """Metres a minute east and south."""
        return tuple(knots * KNOT * it for it in bearing(towards))

    def since(self, value, way="nearest"):
        """Minutes from the begin of the search to a time: the nearest, the next, or the last one where it has no date."""
        minute, date = clock(value)
        if date:
            return (date - self.begins[1]).days * DAY + minute - self.begins[0]
        gap = (minute - self.begins[0]) % DAY
        if way == "after":
            return gap or DAY
        if way == "before":
            return gap - DAY if gap else 0
        return gap if gap < DAY / 2 else gap - DAY

    def steps(self, name, value):
        """The rows of a table as pairs of the minute from which each holds, and its value."""
        return [(self.since(it["begins"]) if "begins" in it else -math.inf, value(it)) for it in self.told.get(name, [])]

    @staticmethod
    def now(steps, minute, without):
        """The value that holds at a minute, or `without` where there are no steps."""
        for since, value in reversed(steps):
            if since <= minute:
                return value
        return without

    def square(self, place):
        """The square of a place, or None outside of the area."""
        row, column = int(place[1] // self.side), int(place[0] // self.side)
        return (row, column) if 0 <= row < self.rows and 0 <= column < self.columns else None

    def water(self, place):
        it = self.square(place)
        return it is not None and it not in self.land


class Person:
    """One drift of a situation: where it begins and when, what stays with it, and its way so far, as pairs of a minute and a place. The
    last place of who is lost is outside of the area."""

    def __init__(self, of, rng):
        self.of, drift = of, of.drift
        report = rng.choices(of.told["report"], [it.get("weight", 1) for it in of.told["report"]])[0]
        first = of.since(report["time"], "before")
        last = first if "until" not in report else first + (of.since(report["until"]) - first) % DAY
        self.minute, self.place = rng.uniform(first, last), self.begin(report, rng)
        self.way, self.left = [(self.minute, self.place)], None
        error = drift.get("current_error", 0) * KNOT
        self.water_error = rng.gauss(0, error), rng.gauss(0, error)
        error = drift.get("wind_error", 0) * KNOT
        self.wind_error = rng.gauss(0, error), rng.gauss(0, error)
        turn = math.radians(drift.get("divergence", 0))
        self.downwind = drift.get("leeway", 0) * math.cos(turn) + rng.gauss(0, drift.get("leeway_error", 0))
        self.crosswind = drift.get("leeway", 0) * math.sin(turn)
        self.hand = rng.choice((-1, 1))
        water = max((math.hypot(*it) for _, it in of.current), default=0) + math.hypot(*self.water_error)
        air = max((math.hypot(*it) for _, it in of.wind), default=0) + math.hypot(*self.wind_error)
        # In metres a minute; a little more, so that it is never 0.
        self.fastest = water + air * (abs(self.downwind) + abs(self.crosswind)) + 1e-3

    def begin(self, report, rng):
        """A place of a report that is in the area and on no land."""
        for _ in range(100_000):
            place = self.about(report, rng)
            if self.of.water(place):
                return place
        raise ValueError("no place of the report is water")

    def about(self, report, rng):
        """A place of a report: along its line or at its point, and about that; or in its square."""
        side = self.of.side
        if "track" in report:
            x, y = along(report["track"], rng.random())
        elif "at" in report:
            x, y = report["at"]
        else:
            row, column = next(iter(squares_of([report["cell"]])))
            if not {"radius", "probable_error"} & report.keys():
                return (column + rng.random()) * side, (row + rng.random()) * side
            x, y = (column + 0.5) * side, (row + 0.5) * side
        if "probable_error" in report:
            sigma = report["probable_error"] / HALF_WITHIN
            return x + rng.gauss(0, sigma), y + rng.gauss(0, sigma)
        angle, far = rng.random() * math.tau, report.get("radius", 0) * math.sqrt(rng.random())
        return x + far * math.cos(angle), y + far * math.sin(angle)

    def blown(self, minute):
        """Metres a minute east and south by leeway: downwind, and crosswind to the person's side."""
        x, y = (it + error for it, error in zip(Situation.now(self.of.wind, minute, (0, 0)), self.wind_error))
        across = self.hand * self.crosswind
        return self.downwind * x - across * y, self.downwind * y + across * x

    def go(self, until, random_way, rng):
        """Drifts to a minute, by a random way in metres that is spread over the time. Leaves `place` None where it is lost."""
        of, whole = self.of, until - self.minute
        fastest = self.fastest + sum(abs(it) for it in random_way) / whole
        longest = min(LONGEST, of.side / STEPS_A_SQUARE / fastest) if of.land else LONGEST
        count = max(1, math.ceil(whole / longest))
        for _ in range(count):
            if self.place is None:
                return
            step = whole / count
            if rng.random() < 1 - (1 - of.drift.get("jibing", 0)) ** (step / 60):
                self.hand = -self.hand
            middle = self.minute + step / 2
            water, air = Situation.now(of.current, middle, (0, 0)), self.blown(middle)
            self.step([(water[at] + self.water_error[at] + air[at]) * step + random_way[at] / count for at in (0, 1)])
            self.minute += step
            self.way.append((self.minute, self.place or self.left))

    def step(self, way):
        """Goes a short way in a straight line, or stays where land is on it."""
        of, (x, y) = self.of, self.place
        x, y = x + way[0], y + way[1]
        if of.square((x, y)) is None:
            if of.is_lost:
                self.place, self.left = None, (x, y)
                return
            x, y = (min(max(it, 0), most * of.side - 1e-6) for it, most in ((x, of.columns), (y, of.rows)))
        if self.is_open((x, y)):
            self.place = x, y

    def is_open(self, to):
        """Whether no land lies on the straight way to a place in the area."""
        of, (x, y) = self.of, self.place
        one, other = of.square(self.place), of.square(to)
        if not of.land or one == other:
            return True
        if abs(one[0] - other[0]) + abs(one[1] - other[1]) == 1:
            return other not in of.land
        return all(of.water((x + (to[0] - x) * at / 16, y + (to[1] - y) * at / 16)) for at in range(1, 17))


def along(line, share):
    """The place at a share of the length of a line through places."""
    legs = [(one, other, math.dist(one, other)) for one, other in zip(line, line[1:])]
    left = share * sum(it[2] for it in legs)
    for one, other, length in legs:
        if left <= length:
            part = left / length if length else 0
            return one[0] + (other[0] - one[0]) * part, one[1] + (other[1] - one[1]) * part
        left -= length
    return line[-1]


def drifts(of, count, seed):
    """For each of so many persons the squares at the looks of all periods; None where the person is lost."""
    return [squares for _, squares in simulated(of, count, seed)]


def ways(of, count, seed):
    """For each of so many persons its way, as Person has it."""
    return [who.way for who, _ in simulated(of, count, seed)]


def simulated(of, count, seed):
    """So many persons who have drifted until the last look, each with its squares at the looks."""
    rng = random.Random(seed)
    spread = of.drift.get("spread", 0)
    for _ in range(count):
        who, at_looks = Person(of, rng), []
        # Up to the first look in periods that end there, each with a random way of its own, as far as it is a part of a period.
        ends = of.minutes - of.minutes * math.floor((of.minutes - who.minute) / of.minutes)
        ends = [ends + of.minutes * it for it in range(math.floor((of.minutes - ends) / of.minutes + 0.5) + 1)] if who.minute < of.minutes else []
        for until in [*ends, *(of.minutes * t for t in range(2, of.periods + 1))]:
            if who.place is not None and until > who.minute:
                scale = spread * math.sqrt((until - who.minute) / of.minutes)
                who.go(until, (rng.uniform(-scale, scale), rng.uniform(-scale, scale)), rng)
            if until >= of.minutes - 1e-9:
                at_looks.append(of.square(who.place) if who.place else None)
        yield who, at_looks[-of.periods :]


# ---- looks


def is_night(of, minute):
    """Whether a minute is between a sunset and the next sunrise."""
    light = of.told["light"]
    turns = [(clock(light[it])[0], it == "sunset") for it in ("sunrise", "sunset") if it in light]
    now = (of.begins[0] + minute) % DAY
    if len(turns) == 1 or any(clock(light[it])[1] for it in ("sunrise", "sunset") if it in light):
        marks = sorted((of.since(light[it]), it == "sunset") for it in ("sunrise", "sunset") if it in light)
        before = [dark for since, dark in marks if since <= minute]
        return before[-1] if before else not marks[0][1]
    before = [turn for turn in sorted(turns) if turn[0] <= now]
    return (before or sorted(turns))[-1][1]


def factor(of, t):
    """The mean factor of the sweep width in period t, of light and of visibility, each for itself."""
    times = [of.minutes * (t - 1 + (it + 0.5) / 600) for it in range(600)]
    light = [of.told["light"]["night"] if is_night(of, it) else 1 for it in times] if "light" in of.told else [1]
    seen = [Situation.now(of.seen, it, 1) for it in times]
    return sum(light) / len(light) * sum(seen) / len(seen)


def miss(of, width, t, minutes):
    """How often a look of so many minutes of search misses what is in a square that it covers with this sweep width."""
    return math.exp(-width * factor(of, t) * of.told["searcher"]["speed"] * KNOT * minutes / of.side**2)


def looks(of, minutes):
    """For each period, what a look from a square misses: by squares, as a function of the square that is looked from."""
    who = of.told["searcher"]
    beside = {"east-west": ((-1, 0), (1, 0)), "north-south": ((0, -1), (0, 1))}
    found = []
    for t in range(1, of.periods + 1):
        own = miss(of, who["sweep_width"], t, minutes)
        rows = [((0, 0), own)]
        if "swath" in who:
            rows += [(it, miss(of, who["swath"]["sweep_width"], t, minutes)) for it in beside[who["swath"]["course"]]]
        found.append(rows)
    return found


def flown(tracks, seen, path):
    """What a path (squares by period, None for the base) finds of the tracks, as a share, and the standard error."""
    chances = []
    for track in tracks:
        missed = 1.0
        for place, look, at in zip(track, seen, path):
            if place is not None and at is not None:
                for (south, east), part in look:
                    if place == (at[0] + south, at[1] + east):
                        missed *= part
        chances.append(1 - missed)
    mean = sum(chances) / len(chances)
    variance = sum((it - mean) ** 2 for it in chances) / max(1, len(chances) - 1)
    return mean, math.sqrt(variance / len(chances))


def best_found(tracks, seen, moves, start, width):
    """The path that a beam search of this width over the tracks finds best, and what it finds of them.

    `moves` maps a square (or None, the base) to those that it is followed by. Of prefixes of equal length those are kept that found most,
    at most a quarter of them in one square.
    """
    beam = [(0.0, (), [1.0] * len(tracks))]
    for t, look in enumerate(seen):
        here = {}
        for at, track in enumerate(tracks):
            if track[t] is not None:
                here.setdefault(track[t], []).append(at)
        grown = []
        for found, path, left in beam:
            mass = {square: sum(left[it] for it in them) for square, them in here.items()}
            for to in moves[path[-1] if path else start]:
                gain = 0.0 if to is None else sum(mass.get((to[0] + south, to[1] + east), 0) * (1 - part) for (south, east), part in look)
                grown.append((found + gain, (*path, to), left))
        beam = narrowed(grown, here, look, width)
    found, path, _ = max(beam, key=lambda it: it[0])
    return path, found / len(tracks)


def narrowed(grown, here, look, width):
    """The best of grown prefixes, each with what its last look left of the tracks."""
    kept, counts = [], {}
    for found, path, left in sorted(grown, key=lambda it: -it[0]):
        to = path[-1]
        if counts.get(to, 0) >= max(1, width // 4):
            continue
        counts[to] = counts.get(to, 0) + 1
        left = list(left)
        for (south, east), part in look if to is not None else ():
            for it in here.get((to[0] + south, to[1] + east), ()):
                left[it] *= part
        kept.append((found, path, left))
        if len(kept) == width:
            break
    return kept
