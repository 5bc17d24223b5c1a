"""Tracks of another drift model at the looks of a situation: where each of them is, and how many end, begin late or leave the area.

docs/PLANNING.md has the rules. Places are pairs of floats, metres east and south of the area's north-west corner; times are minutes after
the begin of the search.
"""
import bisect
import collections
import dataclasses

from desk.keys import BadSituation
from desk.quoting import counted

# Fewer tracks than so many are called few: it is the least number that is simulated.
FEW = 1000
# The last status of a track that has left the region of its model, by OpenDrift's name.
OUTSIDE = "outside"


@dataclasses.dataclass(frozen=True)
class Course:
    """A track of a file: its times, ascending, at least one; its two coordinates at each of them; and its last status, or "" where the
    file has none."""

    minutes: list
    easts: list
    souths: list
    status: str = ""

    def at(self, minute):
        """Its coordinates at a time that isn't before its first: straight between its times, and the last ones behind its last."""
        behind = bisect.bisect_right(self.minutes, minute)
        if behind == len(self.minutes):
            return self.easts[-1], self.souths[-1]
        begins, ends = self.minutes[behind - 1], self.minutes[behind]
        share = (minute - begins) / (ends - begins)
        return tuple(it[behind - 1] + share * (it[behind] - it[behind - 1]) for it in (self.easts, self.souths))


@dataclasses.dataclass(frozen=True)
class Ensemble:
    """The tracks of the file of a name. `looks[t - 1]` has for each its place at the look of period t, wherever that is; `gone` for each the
    first period at whose look it has left its model's region, or None. `said` are lines on the file."""

    name: str
    looks: tuple
    gone: tuple
    said: tuple

    @property
    def count(self):
        return len(self.gone)

    def moved(self, east, south):
        """The same tracks, so many metres farther east and south."""
        return dataclasses.replace(self, looks=tuple([(x + east, y + south) for x, y in look] for look in self.looks))

    def within(self, water):
        """The places at each look in an area (desk.water.Water), None for what is lost; and the lines to say of the tracks.

        A place outside of the area is lost, or else held at its edge. A place in a square of land is taken to the nearest water. Raises
        BadSituation where no track is in the area at any look.
        """
        if not any(water.is_inside(*place) for look in self.looks for place in look):
            raise wrong(self.name, f"no track is in the area at any look; at the first one they are {self.about()}")
        outside, ashore, found = set(), set(), tuple([] for _ in self.looks)
        for track, gone in enumerate(self.gone):
            for t, (look, places) in enumerate(zip(found, self.looks), 1):
                is_gone = gone is not None and t >= gone
                place = None if is_gone and water.is_lost else water.held(*places[track])
                if not is_gone and not water.is_inside(*places[track]):
                    outside.add(track)
                if place and not water.is_water(*place):
                    ashore.add(track)
                    place = water.nearest(*place)
                look.append(place)
        return found, (*self.said, *self.near_edges(len(outside), len(ashore), water.is_lost))

    def about(self):
        """Where the tracks are at the first look, in words."""
        easts, souths = zip(*self.looks[0])
        sides = (f"{min(its):,.0f} to {max(its):,.0f} m {side}" for its, side in ((easts, "east"), (souths, "south")))
        return f"{' and '.join(sides)} of its north-west corner"

    def near_edges(self, outside, ashore, is_lost):
        """What to say of so many tracks that are outside of the area, and so many in squares of land."""
        if outside:
            yield f"{counted(outside, 'track')} outside of the area at some look, {'and found by none there' if is_lost else 'held at its edge'}"
        if ashore:
            yield f"{counted(ashore, 'track')} in a square of land at some look, taken to the nearest water"
        if self.count < FEW:
            yield f"note: no more than {counted(self.count, 'track')}: shares are rough, and {FEW:,} or more are better"


def at_looks(recorded, clock, times):
    """The Ensemble of what a file has (desk.recorded.Recorded), at the times of the looks. Raises BadSituation."""
    name, first, last = recorded.name, clock.told(times[0]), clock.told(times[-1])
    if not recorded.courses:
        raise wrong(name, "it has no track with a place")
    if recorded.ends < times[-1]:
        raise wrong(name, f"it ends at {clock.told(recorded.ends)}, and the last look is at {last}; take fewer periods, or a longer run of the model")
    kept = [it for it in recorded.courses if it.minutes[0] <= times[0]]
    if not kept:
        raise wrong(name, f"all of its tracks begin after the first look, which is at {first}; let the search begin later")
    looks = tuple([recorded.metres(*it.at(time)) for it in kept] for time in times)
    gone = tuple(next((t for t, time in enumerate(times, 1) if it.status == OUTSIDE and time > it.minutes[-1]), None) for it in kept)
    span = f"from {clock.told(recorded.begins)} to {clock.told(recorded.ends)}"
    said = [f"{name} has {counted(len(recorded.courses) + recorded.empty, 'track')} {span}; sha256 {recorded.digest}"]
    if recorded.empty:
        said.append(f"{counted(recorded.empty, 'track')} without a place at any time, left out")
    if len(kept) < len(recorded.courses):
        said.append(f"{counted(len(recorded.courses) - len(kept), 'track')} begun after the first look, which is at {first}, left out")
    return Ensemble(name, looks, gone, (*said, *ended(kept, times[-1])))


def ended(courses, last):
    """What to say of the tracks that end before the last look, by their status."""
    counts = collections.Counter(it.status for it in courses if it.minutes[-1] < last)
    for status, count in sorted(counts.items()):
        if status == OUTSIDE:
            yield f"{counted(count, 'track')} gone from the region of the model (outside) before the last look, lost from then on"
        else:
            why = f"as {status}" if status else "by no status"
            yield f"{counted(count, 'track')} ended before the last look ({why}), taken to stay at the last place"


def wrong(name, why):
    """What is wrong with the file of a name."""
    return BadSituation(f"[tracks] file: {name}: {why}")
