"""Where the target may be after each look of a path, by exact whole numbers: all masses are parts of the whole weight W."""
import dataclasses

from desk import paths


@dataclasses.dataclass
class Frame:
    """What stands after the look of a period (0: before the first look, when the searcher is at the start).

    `position` is the number of the searcher's position, `found` what this look finds, `so_far` what all looks up to here find,
    `left` by cell what is there and was missed by all of them. `covered` are the cells in which this look can find something.
    """

    period: int
    position: int
    found: int
    so_far: int
    left: list
    covered: list

    @property
    def missed(self):
        """What no look has found so far."""
        return sum(self.left)


def frames(sc, path):
    """The frames of a path, the one before the first look first. In each of them `so_far` and `left` sum to W."""
    whole, g = paths.weight(sc), sc.parts[2]
    belief, so_far = sc.first, 0
    told = [Frame(0, sc.start, 0, 0, [mass * (whole // sc.parts[0]) for mass in belief], [])]
    for t, position in enumerate(path, 1):
        found = paths.looked(sc, belief, t, position)
        scale = paths.scale(sc, t)
        left = [(mass * g - found.get(cell, 0)) * scale for cell, mass in enumerate(belief)]
        this = sum(found.values()) * scale
        so_far += this
        covered = [cell for cell, part in sorted(sc.look(t, position).items()) if part < g]
        told.append(Frame(t, position, this, so_far, left, covered))
        belief = paths.without(sc, paths.drifted(sc, belief, t), t, found)
    return told


def greatest(masses):
    """The numbers of the cells that hold something, where most is first; of equal masses the smaller number."""
    return sorted((cell for cell, mass in enumerate(masses) if mass), key=lambda cell: (-masses[cell], cell))
