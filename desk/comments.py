"""What the comments of a scenario say: where its squares lie, when its periods are, and the situation that it comes from.

`draft` and `next` write such comments. People may write those of places and of times, too.
"""
import dataclasses
import re
from fractions import Fraction

from desk import earth, layout, moments, packages, situation
from desk.accepted import Refused
from desk.geometry import decimal
from desk.status import Status

# The comment before the lines of a situation, and what each of these begins with.
SITUATION = b"The situation, from which osp draft made it:"
OLD_SITUATION = b"The situation, from which osp draft made the scenario of the periods before:"
OF_SITUATION = b"|"
# The comment that says when the periods are.
TIMES = re.compile(rb"\d{1,2} periods? of (\d{1,4}(?:\.\d{1,2})?) minutes from (\S+(?: \d\S*)?) to \S.*; a look counts at the end of its period, .*")


@dataclasses.dataclass(frozen=True)
class Comments:
    """What the comments of a scenario say: `places` in metres east and south by name, the earth.Frame of these metres, the moments.Times of
    its periods, and its situation. What they don't say is None."""

    places: dict
    frame: earth.Frame | None = None
    times: moments.Times | None = None
    given: object = None

    def on_earth(self, place):
        """The earth.Place of a place in metres, both of which may be None."""
        return None if self.frame is None or place is None else earth.Place(*self.frame.to_earth(*place))

    def flown(self):
        """How many periods of its situation were before the first one of the scenario; None where that isn't known, or no whole number."""
        if self.given is None or self.times is None or self.given.minutes != self.times.minutes:
            return None
        try:
            before = self.given.clock.nearest(self.times.clock.begins) / self.times.minutes
        except moments.Unclear:
            return None
        return int(before) if before >= 0 and before.denominator == 1 else None


def of_times(times, periods):
    """The comment, without its number sign, that says when so many periods are."""
    told = [times.clock.told(times.since(it)) for it in (1, periods + 1, 2)]
    count = f"{periods} periods" if periods > 1 else "1 period"
    looks = f"a look counts at the end of its period, the first at {told[2]}"
    return f"{count} of {decimal(times.minutes)} minutes from {told[0]} to {told[1]}; {looks}"


def lines(text):
    """The comments of a scenario's text, without their number signs and the blanks around them, as bytes."""
    stripped = (line.strip(b" \t\r") for line in text.split(b"\n"))
    return [it[1:].strip(b" \t") for it in stripped if it.startswith(b"#")]


def times_of(told):
    """The moments.Times that comments say; None where they say none. The last such comment counts."""
    for found in filter(None, map(TIMES.fullmatch, reversed(told))):
        minutes = Fraction(found[1].decode("ascii"))
        try:
            if 0 < minutes <= moments.DAY:
                return moments.Times(moments.Clock(moments.moment(found[2].decode("ascii", "replace"))), minutes)
        except ValueError:
            pass
    return None


def of_situation(told):
    """The comments that have the lines of a situation, those behind the first head of one."""
    at = next((at for at, it in enumerate(told) if it in (SITUATION, OLD_SITUATION)), len(told))
    return [it for it in told[at:] if it.startswith(OF_SITUATION)]


def carried(text, flown, horizon):
    """The comments, without their number signs, that a scenario takes over which goes on behind so many periods of that of a text: its own
    times, the situation, and where the area lies on the earth."""
    told = lines(text)
    times, its = times_of(told), of_situation(told)
    return [
        *([of_times(times.behind(flown), horizon)] if times else []),
        *([OLD_SITUATION, *its] if its else []),
        *earth.comments(earth.frame_of(text)),
    ]


def situation_of(told):
    """The situation whose lines stand in comments; None where there is none, or it can't be read here. Tracks of files aren't read."""
    its = [it[1:].removeprefix(b" ") for it in of_situation(told)]
    if not its:
        return None
    try:
        return situation.situation(b"\n".join(its), folder=None)
    except (situation.BadSituation, packages.Lacking):
        return None


def agreed(told, given):
    """Of the times that comments say and those that words give, either of which may be None, those that say more. Raises Refused where
    they contradict each other."""
    if told is None or given is None:
        return told or given
    mine, other = told.clock.begins, given.clock.begins
    is_one_time = told.minutes == given.minutes and mine.minute == other.minute
    is_one_day = None in (mine.date, other.date) or mine.date == other.date
    if not is_one_time or not is_one_day or other.is_utc and not mine.is_utc:
        why = f"--from and --minutes say {decimal(given.minutes)} minutes from {given.clock.told(0)}"
        why += f", and the scenario's comments {decimal(told.minutes)} minutes from {told.clock.told(0)}"
        raise Refused(Status.WRONG_WORDS, f"{why}: leave both out, or change the comment")
    return moments.Times(moments.Clock(dataclasses.replace(mine, date=mine.date or other.date)), told.minutes)


def read(search, times):
    """The Comments of what tells of an accepted search, with the times that words give, or None; and the lines to say where they can't
    all be used. Raises Refused where times contradict."""
    told = lines(search.told_by)
    frame, said = earth.frame_of(search.told_by), []
    if frame is not None:
        try:
            earth.geodesics()
        except packages.Lacking as lacking:
            frame, said = None, [f"latitudes and longitudes are left out: {lacking}"]
    return Comments(layout.places_told(search.told_by), frame, agreed(times_of(told), times), situation_of(told)), said
