"""Whom land holds at the looks of a draft: how many of the simulated tracks, and in which squares."""
import collections
from fractions import Fraction

from desk import geometry, percent, quoting

# From what share of the tracks on a note says what being held by land means.
MUCH = Fraction(1, 20)


def lines(grid, tracks):
    """The lines to say of the tracks (desk.tracks.Tracks) that land of a grid holds at the first and the last look. None where there is
    no land, or where the tracks are those of a file, which says of itself where they are."""
    if not grid.land or not tracks.ashore:
        return
    count, last = tracks.count, len(tracks.looks)
    looks = {"first": 1, "last": last} if last > 1 else {"only": 1}
    shares = {name: percent.up_of(len(tracks.ashore[t - 1]) / count) for name, t in looks.items()}
    (name, share), *others = shares.items()
    told = "".join(f", and {it} at the {other}" for other, it in others)
    yield f"land holds {share} percent at the {name} look{told}, if no look finds anything"
    for name, t in looks.items():
        if tracks.ashore[t - 1]:
            yield f"land holds at the {name} look, in percent: {quoting.listed([*squares(grid, tracks, t)])}"
    if max(len(it) for it in tracks.ashore) > MUCH * count:
        told = "who is held by land is taken to float before it, where a look finds them as anywhere else"
        yield f"note: {told}; a party on the shore may find them, too"


def squares(grid, tracks, t):
    """How many percent of all tracks land holds in which square at the look of period t, in words, the fullest square first."""
    look = tracks.looks[t - 1]
    counts = collections.Counter(grid.nearest(grid.square_at(look[it])) for it in tracks.ashore[t - 1])
    for square, held in sorted(counts.items(), key=lambda it: (-it[1], it[0])):
        yield f"{geometry.name_of(square)} {percent.up_of(held / tracks.count)}"
