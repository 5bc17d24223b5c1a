"""Which squares the searcher reaches in a period, and how long its ways are.

A way goes over water from the middle of a square, or from the base, to the middle of another, in straight legs that turn at middles of
squares beside land; it is the shortest of these. A leg enters no land, and doesn't go between two corners of it. Lengths are in sides of a
square, as floats: sums of square roots, which are the same on every machine.
"""
import heapq
import math
from fractions import Fraction

from desk import geometry
from desk.limits import MOST_MOVES
from desk.geometry import decimal
from desk.keys import BadSituation

BASE = "base"
# Lengths that are the same to so many digits behind the point are taken as one.
DIGITS = 9
# From more moves than so many on plans were seen that need more records than are allowed.
MANY = 30
# The minutes of search that follow from the way to the next square are whole parts of a minute.
MINUTE_PART = 100


def moves(given, position):
    """The positions that the searcher of a situation reaches from one (a square, or BASE) in a period, ascending. Raises BadSituation."""
    return given.ways.moves(position)


class Ways:
    """The ways of a searcher (desk.situation.Searcher) over a grid, with periods of so many minutes."""

    def __init__(self, grid, who, minutes):
        self.grid, self.who, self.minutes = grid, who, minutes
        self.cells = grid.cells()
        # Where a way may turn.
        self.turns = {it for it in self.cells if any(each in grid.land for each in around(it))}
        self.open = {}
        base = [it / grid.side for it in who.base or ()]
        # Places are whole numbers of this part of a side.
        self.unit = math.lcm(2, *(it.denominator for it in base))
        self.base = [int(it * self.unit) for it in base]

    def moves(self, position):
        """See `moves`."""
        found = sorted(nearest(self.reached(position)))
        if not found:
            told = f"it should be true, since no other cell is reached from {geometry.name_of(position)}, as in stays = true"
            raise BadSituation(f"[searcher] stays: {told}")
        return found

    def check(self, clock):
        """Raises BadSituation where the searcher is at none of the squares that it enters in time."""
        if self.who.base is None or self.reached(BASE):
            return
        found = self.entered()
        if not found:
            raise BadSituation("[searcher] enters: no way over water leads there from the base; name cells that it can come to")
        length, square = min((length, it) for it, length in found.items())
        takes, left = self.minutes_of(length), self.left(BASE)
        told = f"the way to {geometry.name_of(square)}, the nearest cell that it enters, takes {decimal(takes)} minutes"
        told += f", and the search leaves {decimal(left)}"
        leaves = clock.told(Fraction(math.floor(left - takes - self.who.ahead)))
        raise BadSituation(f'[searcher] base: {told}; say when it leaves, as in leaves = "{leaves}", or let the search begin later')

    def lines(self, clock):
        """What to say of the minutes of search and of way, by the kinds of moves, and which squares are left out."""
        lengths, search = next_lengths(self.grid, self.who.reaches), self.who.search_minutes
        kinds = [f"{decimal(self.minutes_of(it))} {word}" for it, word in zip(lengths, ("to a cell beside it", "by its corner"))]
        told = f"a period is {decimal(search)} minutes of search and up to {decimal(self.minutes - search)} of way"
        found = {it: self.reached(it) for it in self.cells}
        kept = {it: nearest(reached) for it, reached in found.items()}
        farthest = max(found[it][to] for it, squares in kept.items() for to in squares)
        counts = sorted(len(it) for it in kept.values())
        told += f": {', '.join(['0 to stay'] * self.who.stays + kinds)}"
        told += f"; in one move it reaches {counts[0]} to {counts[-1]} cells, the farthest in"
        yield f"{told} {decimal(self.minutes_of(farthest))} minutes"
        if self.who.base:
            yield from self.from_base(clock)
        if counts[-1] > MANY:
            told = f"a plan of up to {counts[-1]} moves from a cell may need more records than are allowed"
            yield f"note: {told}; more minutes of search leave fewer moves, fewer periods help, and gap makes something of those"
        many = [it for it, reached in found.items() if len(reached) > len(kept[it])]
        if many:
            more = f" and {len(many) - 1} others" if len(many) > 1 else ""
            yield f"note: from {geometry.name_of(many[0])}{more} more than {MOST_MOVES} cells are reached in time; the nearest are taken"
        if self.who.reaches == 8 and farthest < 2**0.5 and len(kinds) > 1:
            told = f"note: by a corner the way takes {decimal(self.minutes_of(lengths[1]))} minutes, and isn't made"
            yield f"{told}; take fewer of search, as in search_minutes = {decimal(self.most_search())}"

    def from_base(self, clock):
        """What to say of the way from the base."""
        reached, entered = self.reached(BASE), self.entered()
        leaves, left = clock.told(-self.who.ahead), self.left(BASE)
        takes = [decimal(self.minutes_of(it)) for it in (min(reached.values()), max(reached.values()))]
        told = f"from its base it leaves at {leaves}, and is in {takes[0]} to {takes[1]} minutes of {decimal(left)}"
        yield f"{told} at {len(reached)} cells that it enters"
        late = sorted(set(self.who.enters) - set(reached))
        if late:
            names = ", ".join(geometry.name_of(it) for it in late[:3]) + (f" and {len(late) - 3} more" if len(late) > 3 else "")
            longest = max((entered[it] for it in late if it in entered), default=None)
            told = "there is no way over water" if longest is None else f"its way takes up to {decimal(self.minutes_of(longest))} minutes"
            yield f"note: of the cells that it enters it isn't in time at {names}: {told}"

    def most_search(self):
        """The most minutes of search that leave time for the way to the next square, by its corner, too."""
        longest = max(self.minutes_of(it) for it in next_lengths(self.grid, self.who.reaches))
        return Fraction(math.floor((self.minutes - longest) * MINUTE_PART), MINUTE_PART)

    def entered(self):
        """The lengths of the ways from the base to the squares that it enters, however long they are, by square."""
        return {it: length for it, length in self.lengths(BASE).items() if it in self.who.enters}

    def reached(self, position):
        """The lengths of the ways that leave time for the search, by square."""
        found = self.lengths(position, self.most(position))
        if position == BASE:
            return {it: length for it, length in found.items() if it in self.who.enters}
        if self.who.reaches:
            kept = {position, *self.grid.neighbours(position, self.who.reaches)}
            found = {it: length for it, length in found.items() if it in kept}
        if not self.who.stays:
            del found[position]
        return found

    def left(self, position):
        """The minutes that the search leaves for a way in a period; from the base also those since it left."""
        return self.minutes - self.who.search_minutes + (self.who.ahead if position == BASE else 0)

    def most(self, position):
        """How long a way is at most, in sides of a square."""
        return float(geometry.metres(self.who.speed, self.left(position)) / self.grid.side)

    def minutes_of(self, length):
        """The minutes of a way."""
        return minutes_of(length, self.grid.side, self.who.speed)

    def lengths(self, position, most=math.inf):
        """The lengths of the ways from a position that are no longer than `most`, by square."""
        found, waiting = {}, [(0.0, position)]
        while waiting:
            length, at = heapq.heappop(waiting)
            if at in found:
                continue
            found[at] = length
            if at == position or at in self.turns:
                for to in self.cells:
                    if to not in found:
                        total = length + self.straight(at, to)
                        if total <= most and self.is_open(at, to):
                            heapq.heappush(waiting, (total, to))
        found.pop(BASE, None)
        return found

    def place(self, position):
        """Where a position is: whole numbers of the unit, east and south of the corner."""
        if position == BASE:
            return self.base
        return (2 * position[1] + 1) * self.unit // 2, (2 * position[0] + 1) * self.unit // 2

    def straight(self, begin, end):
        """The length of the straight line from a position to a square."""
        if begin == BASE:
            (x, y), (east, south) = self.base, self.place(end)
            return math.sqrt(((east - x) ** 2 + (south - y) ** 2) / self.unit**2)
        return math.sqrt((begin[0] - end[0]) ** 2 + (begin[1] - end[1]) ** 2)

    def is_open(self, begin, end):
        """Whether the straight line from a position to a square is a leg of a way."""
        if not self.grid.land:
            return True
        pair = (end, begin) if begin != BASE and end < begin else (begin, end)
        if pair not in self.open:
            self.open[pair] = is_open(self.grid.land, self.place(begin), self.place(end), self.unit)
        return self.open[pair]


def around(square):
    """The eight squares around one."""
    return [(square[0] + south, square[1] + east) for south in (-1, 0, 1) for east in (-1, 0, 1) if south or east]


def is_open(land, begin, end, unit):
    """Whether the straight line from a place to the middle of a square enters no land, and doesn't go between two corners of it.

    Places are pairs of whole numbers east and south, of which `unit` make the side of a square. What isn't land is water, also outside.
    """
    (x, y), east, south = begin, end[0] - begin[0], end[1] - begin[1]
    column, row, last = x // unit, y // unit, (end[1] // unit, end[0] // unit)
    across, down = (1 if east > 0 else -1), (1 if south > 0 else -1)
    # How far it is to the next line between two columns, and between two rows.
    to_column = (column + 1) * unit - x if east > 0 else x - column * unit
    to_row = (row + 1) * unit - y if south > 0 else y - row * unit
    while (row, column) != last:
        later = to_column * abs(south) - to_row * abs(east)
        if later == 0 and (row, column + across) in land and (row + down, column) in land:
            return False
        if later <= 0:
            column, to_column = column + across, to_column + unit
        if later >= 0:
            row, to_row = row + down, to_row + unit
        if (row, column) in land:
            return False
    return True


def nearest(reached):
    """The squares of the shortest lengths, at most 64 of them: of those with the same length all, or none."""
    if len(reached) <= MOST_MOVES:
        return set(reached)
    first_over = sorted(round(it, DIGITS) for it in reached.values())[MOST_MOVES]
    return {it for it, length in reached.items() if round(length, DIGITS) < first_over}


def minutes_of(length, side, speed):
    """The minutes that a way takes, of a length in sides of a square, which is so many metres, at a speed in knots."""
    return Fraction(length) * side / geometry.metres(speed, 1)


def next_lengths(grid, reaches):
    """The lengths of the ways to a square beside one and to a square by its corner, those of them that there are in an area."""
    cells = grid.cells()
    has_side = any(grid.neighbours(it, 4) for it in cells)
    has_corner = reaches != 4 and any(len(grid.neighbours(it, 8)) > len(grid.neighbours(it, 4)) for it in cells)
    return [1.0] * has_side + [math.sqrt(2)] * has_corner


def search_minutes(grid, speed, minutes, reaches, given):
    """The minutes of search in a period: those that are given, or what the way to the next square leaves, in hundredths of a minute.
    Raises BadSituation where they leave no time for that way, or the way none for them."""
    ways = [minutes_of(it, grid.side, speed) for it in next_lengths(grid, reaches)]
    if not ways:
        return given or minutes
    shortest, longest = ways[0], ways[-1]
    found = given or Fraction(math.floor((minutes - longest) * MINUTE_PART), MINUTE_PART)
    if found <= 0:
        told = f"at {decimal(speed)} knots the way to the next cell takes {decimal(longest)} minutes, and leaves nothing"
        told += f" of a period's {decimal(minutes)} for the search"
        raise BadSituation(f"[searcher] speed: {told}; take longer periods, or smaller cells, as in {longer(longest)}")
    if shortest > minutes - found:
        told = f"the way to the next cell takes {decimal(shortest)} minutes"
        told += f", and the search leaves {decimal(minutes - found)} of a period's {decimal(minutes)}"
        most = Fraction(math.floor((minutes - longest) * MINUTE_PART), MINUTE_PART)
        change = f"take longer periods, or smaller cells, as in {longer(longest + found)}"
        if most > 0:
            change = f"take fewer, as in search_minutes = {decimal(most)}"
        raise BadSituation(f"[searcher] search_minutes: {told}; {change}")
    return found


def longer(least):
    """A period that is long enough, as the key of a situation."""
    return f"[search] minutes = {math.floor(least / 5) * 5 + 5}"
