"""The squares of an area, by which a search is told: the cells of a scenario may be parts of them, and have their names then."""
import dataclasses
import re

from desk.states import square_of

ROW_AND_COLUMN = re.compile(rb"r([0-9]{1,3})c([0-9]{1,3})")


def row_and_column(name):
    """The row and the column of a square with a name such as r3c4; None for other names."""
    found = ROW_AND_COLUMN.fullmatch(name)
    return found and (int(found[1]), int(found[2]))


@dataclasses.dataclass(frozen=True)
class Squares:
    """The squares of a scenario by number: their names as bytes, and the numbers of the cells in each.

    Those with cells come first, in the order of their first cell; where no cell is finer than a square, they are the cells. Behind
    them stand the positions that are named as squares and have no cell, since the target never comes there. `split` are the
    numbers of those whose cells are parts of them.
    """

    names: list
    cells: list
    split: frozenset

    @property
    def is_finer(self):
        """Whether some cells are parts of squares."""
        return bool(self.split)

    @property
    def noun(self):
        """What a coordinator reads of: squares, or cells where these are the same."""
        return "square" if self.split else "cell"

    @property
    def texts(self):
        """The names as text."""
        return [it.decode("ascii") for it in self.names]

    def filled(self):
        """The numbers of the squares that have cells."""
        return [at for at, it in enumerate(self.cells) if it]

    def of_cells(self):
        """The number of the square that each cell is in."""
        found = {cell: at for at, cells in enumerate(self.cells) for cell in cells}
        return [found[it] for it in range(len(found))]

    def sums(self, masses):
        """Masses by cell as masses by square."""
        return [sum(masses[it] for it in cells) for cells in self.cells]


def squares(sc):
    """The squares of a scenario."""
    found = {}
    for cell, name in enumerate(sc.names):
        found.setdefault(square_of(name), []).append(cell)
    empty = [it for it in sc.positions if it not in found and row_and_column(it)]
    split = (at for at, (name, cells) in enumerate(found.items()) if any(sc.names[it] != name for it in cells))
    return Squares([*found, *empty], [*found.values(), *([] for _ in empty)], frozenset(split))
