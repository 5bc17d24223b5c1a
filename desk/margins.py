"""By how much an area should be wider: where drifts would go if it had no edge."""
import dataclasses
import itertools
from fractions import Fraction

from desk import tracks
from desk.limits import MOST_CELLS

# How many squares of water are put around the area, and how many tracks are simulated there.
MARGIN = 20
COUNT = 2000
# From what share of the tracks on at or over the edge it is told, and what is left there at most by what is told to add.
MUCH = Fraction(1, 20)
LITTLE = Fraction(1, 100)
SIDES = ("north", "west", "south", "east")


def without_edge(given):
    """The same situation in an area that is wider by MARGIN squares on each side. They are water, but for those behind land at the edge:
    a shore goes straight on there. Tracks of a file know better where there is water, and have it all around the area."""
    grid, told, away = given.grid, given.tracks.ensemble, MARGIN * given.grid.side
    land = frozenset((row + MARGIN, column + MARGIN) for row, column in grid.land | behind(given))
    wide = dataclasses.replace(grid, rows=grid.rows + 2 * MARGIN, columns=grid.columns + 2 * MARGIN, land=land, frame=None)
    told = told and told.moved(float(away), float(away))
    chosen = dataclasses.replace(given.tracks, ensemble=told)
    return dataclasses.replace(given, grid=wide, is_lost=False, reports=tuple(it.moved(away, away, grid.side) for it in given.reports), tracks=chosen)


def behind(given):
    """The squares around the area, MARGIN on each side, that are taken for land: those whose nearest square in it is; none for tracks of a
    file."""
    grid = given.grid
    if given.tracks.ensemble:
        return frozenset()
    rows, columns = (range(-MARGIN, count + MARGIN) for count in (grid.rows, grid.columns))
    around = (it for it in itertools.product(rows, columns) if not grid.contains(it))
    return frozenset(it for it in around if grid.nearest(it) in grid.land)


def beyond(grid, place):
    """How many squares beyond each side of a grid a place lies, by SIDES: 0 in the squares at the edge, less than that inside. Places are
    in metres of the area that `without_edge` makes."""
    row, column = (int(it // float(grid.side)) - MARGIN for it in (place[1], place[0]))
    return -row, -column, row - grid.rows + 1, column - grid.columns + 1


def lacking(given):
    """For each of SIDES and each track, how many squares more there should be for it to stay away from the edge: not over it at a
    look, and not at it at the last."""
    looks = tracks.made(without_edge(given), COUNT).looks
    each = [[beyond(given.grid, place) for place in look] for look in looks]
    last = [tuple(it + 1 for it in place) for place in each[-1]]
    return [[max(its) for its in zip(*(([it[at] for it in look]) for look in (*each, last)))] for at in range(len(SIDES))]


def wanted(given):
    """How many rows or columns to add on each of SIDES, so that few of the tracks come to the edge there."""
    found = []
    for its in lacking(given):
        over = sorted(its)[-1 - int(LITTLE * len(its))]
        found.append(min(max(over, 0), MARGIN))
    return found


def note(given, share):
    """What to add where this share of the tracks, above MUCH, is at or over the edge by the last look."""
    added = dict(zip(SIDES, wanted(given)))
    told = f"note: {float(share) * 100:.1f} percent are at or over the edge of the area by the last look"
    kinds = dict(north="row", west="column", south="row", east="column")
    words = [f"{count} {kinds[side]}{'s' * (count > 1)} in the {side}" for side, count in added.items() if count]
    if not words:
        return f"{told}, and would hardly go on from there"
    where = "" if given.tracks.ensemble else "where there is water, "
    return f"{told}; {where}add {', '.join(words)}: {change(given, added)}"


def change(given, added):
    """The keys of an area to which so many rows or columns are added by SIDES, in words."""
    grid, land = given.grid, behind(given)
    rows, columns = grid.rows + added["north"] + added["south"], grid.columns + added["west"] + added["east"]
    told = f"rows = {rows} and columns = {columns}"
    tops, lefts = range(-added["north"], grid.rows + added["south"]), range(-added["west"], grid.columns + added["east"])
    dry = len(grid.land) + sum(row in tops and column in lefts for row, column in land)
    if rows * columns - dry >= MOST_CELLS:
        told += ", with larger cells"
    if dry > len(grid.land):
        told += ", and land behind that at the edge, which is taken to go straight on"
    if added["north"] or added["west"]:
        told += "; names and metres then count from the new corner"
    return told
