"""Shares in percent, as texts: cut off or rounded up, of whole numbers and exactly; or rounded, of what was simulated."""
import math


def cut(part, whole):
    """A share in percent with three digits, cut off, as a report has it (docs/FORMATS.md). The whole isn't 0."""
    return thousandths(part * 100_000 // whole)


def up(part, whole):
    """The same, rounded up: for what nothing exceeds."""
    return thousandths(-(-part * 100_000 // whole))


def thousandths(count):
    """So many thousandths of a percent, which aren't negative, as percent."""
    return f"{count // 1000}.{count % 1000:03}"


def up_of(share):
    """A share of 1, which may be a float, in percent with three digits, rounded up, but for what floats are wrong by."""
    return thousandths(math.ceil(round(float(share) * 100_000, 6)))


def near(share, digits=2):
    """A share of 1, or a difference of two, in percent or in points with so many digits, rounded."""
    return f"{float(share) * 100:.{digits}f}"
