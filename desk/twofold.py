"""Whether `duo` takes a drafted scenario for two searchers, and what would have to be other (docs/COMMANDS.md)."""
import math
from fractions import Fraction

from desk import rounding
from desk.forms import is_narrow
from desk.limits import FINEST_LOOK, MOST_IN_PAIRS, MOST_MOVES


def line(given, sc):
    """Whether two searchers can fly a scenario (desk.forms.Scenario) that was drafted of a situation, in one line."""
    (a, d, g), pairs = sc.parts, max(len(it) for it in sc.moves.values()) ** 2
    look = rounding.greatest(FINEST_LOOK, lambda it: is_narrow(sc.horizon, (a, d, it * it)))
    lacks = [f"{len(sc.positions)} positions, and {MOST_IN_PAIRS} are the most"] * (len(sc.positions) > MOST_IN_PAIRS)
    lacks += [f"{pairs} pairs of moves, and {MOST_MOVES} are the most"] * (pairs > MOST_MOVES)
    changes = [cells(given)] * bool(lacks)
    if g > look:
        lacks.append(f"{g} parts of a look, and {look or 'none'} fit twice")
        changes.append(f"[parts] look = {look}" if look else "fewer periods")
    if not lacks:
        return "two searchers: duo takes the scenario as it is"
    return f"two searchers: duo doesn't take the scenario ({'; '.join(lacks)}); it would with {', and '.join(changes)}"


def cells(given):
    """The smallest cells over the same area with which there are few enough positions and moves, as keys of a situation."""
    grid, most = given.grid, MOST_IN_PAIRS - (given.searcher.base is not None)
    # By the side in metres that so many rows and columns need.
    found = min(
        (max(grid.rows * grid.side / rows, grid.columns * grid.side / columns), rows, columns)
        for rows in range(1, most + 1)
        for columns in range(1, most // rows + 1)
    )
    return f"[area] cell_size = {math.ceil(Fraction(found[0]))}, rows = {found[1]}, columns = {found[2]} and [searcher] reaches = 4"
