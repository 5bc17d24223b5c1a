"""What a situation comes to for the searcher, before anything is rounded: its positions and moves, and how often its looks miss."""
from desk import detection, ways
from desk.limits import MOST_CELLS
from desk.situation import BadSituation
from desk.ways import BASE


class Shares:
    """The positions of the searcher (the squares that aren't land, and BASE), and `misses`, for each period the chances of a miss of its
    look, in the own square and beside the course."""

    def __init__(self, given):
        self.given, self.grid = given, given.grid
        self.positions = self.grid.cells() + [BASE] * (given.searcher.base is not None)
        if len(self.positions) > MOST_CELLS:
            raise BadSituation("[searcher] base: with it there are 201 positions, and 200 are the most; take fewer cells, as in columns = 7")
        self.numbers = {it: at for at, it in enumerate(self.positions)}
        self.misses = [detection.misses(given, t) for t in range(1, given.periods + 1)]
        self.moves = [self.moves_from(it) for it in self.positions]

    def look(self, misses, position, states):
        """How often a look from a position misses, by number of state; the base sees nothing."""
        if position == BASE:
            return {}
        covered = detection.covered(self.given, misses, position)
        return {state: miss for square, miss in covered.items() for state in states.within(square)}

    def moves_from(self, position):
        """The numbers of the positions that the searcher reaches from one in a period, ascending."""
        return sorted(self.numbers[it] for it in ways.moves(self.given, position))

    def start(self):
        """The number of the position where the searcher is before period 1."""
        return self.positions.index(self.given.searcher.start or BASE)
