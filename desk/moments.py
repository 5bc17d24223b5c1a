"""Times of a situation as minutes after the begin of the search, and quantities that change by steps of time."""
import dataclasses
import datetime
import re
from fractions import Fraction

from desk import geometry
from desk.markup import filled

DAY = 24 * 60
SPELLED = re.compile(r"(?:(\d{4})-(\d\d)-(\d\d)[ T])?(\d\d):(\d\d)(?::(\d\d))?(Z)?", re.ASCII)


class Unclear(ValueError):
    """A time has a date or a zone that the begin of the search lacks. It says so, and how the begin should be."""


@dataclasses.dataclass(frozen=True)
class Moment:
    """A time of day in minutes after midnight, its date where one is given, and whether it is UTC or local."""

    minute: Fraction
    date: datetime.date | None = None
    is_utc: bool = False


def moment(value):
    """The moment that a value of TOML is: a time, a date and a time, or the text of one; local, or in UTC. Raises ValueError."""
    if isinstance(value, str):
        found = SPELLED.fullmatch(value)
        if not found:
            raise ValueError("no time")
        hour, minute, second = (int(it or 0) for it in found.groups()[3:6])
        value = datetime.time(hour, minute, second, tzinfo=datetime.timezone.utc if found[7] else None)
        if found[1]:
            value = datetime.datetime.combine(datetime.date(*(int(it) for it in found.groups()[:3])), value)
    if not isinstance(value, (datetime.time, datetime.datetime)) or value.utcoffset():
        raise ValueError("neither a local time nor UTC")
    if isinstance(value, datetime.datetime) and not 1900 <= value.year < 2200:
        raise ValueError("no year of our time")
    minute = Fraction(value.hour * 3600 + value.minute * 60 + value.second, 60)
    return Moment(minute, value.date() if isinstance(value, datetime.datetime) else None, value.tzinfo is not None)


@dataclasses.dataclass(frozen=True)
class Clock:
    """Counts minutes from the begin of the search. A time without a date is on the day that the caller asks for, and one without a zone
    is in that of the begin. The counts raise Unclear where a time has a date or is UTC and the begin isn't so."""

    begins: Moment

    def dated(self, it):
        """The minutes from the begin to a moment with a date."""
        if self.begins.date is None:
            raise Unclear(f'it has a date, so [search] begins should have one, as in begins = "2026-07-04 19:30{"Z" * self.begins.is_utc}"')
        return (it.date - self.begins.date).days * DAY + self.since(it)

    def since(self, it):
        """The minutes of the day from the begin's to a moment's."""
        if it.is_utc and not self.begins.is_utc:
            raise Unclear('it is UTC, so [search] begins should be, too, as in begins = "2026-07-04 19:30Z"')
        return it.minute - self.begins.minute

    def nearest(self, it):
        """The minutes to the occurrence nearest to the begin: from 12 hours before it to just under 12 hours after it."""
        return self.dated(it) if it.date else (self.since(it) + DAY // 2) % DAY - DAY // 2

    def after(self, it):
        """The minutes to the next occurrence after the begin."""
        return self.dated(it) if it.date else self.since(it) % DAY or Fraction(DAY)

    def past(self, it):
        """The minutes to the last occurrence up to the begin."""
        return self.dated(it) if it.date else self.since(it) % -DAY

    def is_ahead(self, it):
        """Whether a time without a date is later on the begin's day, and nearer to the begin than that time of the day before."""
        return it.date is None and 0 < it.minute - self.begins.minute < DAY // 2

    def day(self, minutes):
        """Which day it is so many minutes after the begin, in words: empty where the begin has a date, which `told` then says."""
        days = (self.begins.minute + minutes) // DAY
        return "" if self.begins.date else {0: " today", -1: " the day before"}.get(days, f" {days} days later")

    def told(self, minutes):
        """The time of day so many minutes after the begin, as in 19:45. It has seconds, a date, and the Z of UTC, where there are any."""
        days, minute = divmod(self.begins.minute + minutes, DAY)
        text = of_day(minute) + "Z" * self.begins.is_utc
        if self.begins.date:
            return f"{self.begins.date + datetime.timedelta(days=int(days))} {text}"
        return text


def of_day(minute):
    """The time of day so many minutes after midnight, as in 19:45; it has seconds where there are any."""
    seconds = int(minute * 60)
    return f"{seconds // 3600:02}:{seconds // 60 % 60:02}" + (f":{seconds % 60:02}" if seconds % 60 else "")


@dataclasses.dataclass(frozen=True)
class Times:
    """When the periods of a search are: so many minutes each, the first from the begin of its clock on."""

    clock: Clock
    minutes: Fraction

    def at(self, period):
        """When a period begins, as in 19:45; on a later day with the days behind it, as in 00:15+1."""
        days, minute = divmod(self.clock.begins.minute + self.since(period), DAY)
        return of_day(minute) + (f"+{days}" if days else "")

    def behind(self, flown):
        """The times of the periods that follow so many flown ones, which are counted from 1 again."""
        days, minute = divmod(self.clock.begins.minute + flown * self.minutes, DAY)
        date = self.clock.begins.date
        begins = Moment(minute, date and date + datetime.timedelta(days=int(days)), self.clock.begins.is_utc)
        return Times(Clock(begins), self.minutes)

    def since(self, period):
        """The minutes from the begin of period 1 to that of a period."""
        return (period - 1) * self.minutes

    def utc(self, period):
        """When a period begins, as a datetime in UTC; None where the date or the zone isn't known."""
        begins = self.clock.begins
        if not begins.is_utc or begins.date is None:
            return None
        midnight = datetime.datetime.combine(begins.date, datetime.time(), datetime.timezone.utc)
        return midnight + datetime.timedelta(seconds=int((begins.minute + self.since(period)) * 60))

    def about(self):
        """The date of the first period and the zone of all times, as a list of one sentence or none."""
        begins, zone = self.clock.begins, "UTC" if self.clock.begins.is_utc else "local"
        if begins.date:
            return [filled("times_from", zone=zone, date=begins.date)]
        return [filled("times_utc")] * begins.is_utc


def daily(since, ends):
    """The minutes to the occurrences of a time that comes back each day: from the last one up to the begin to the last one up to `ends`."""
    return [since % -DAY + it * DAY for it in range(int((ends - since % -DAY) // DAY) + 1)]


def lasting(minutes):
    """So many minutes in words, as in 45 minutes or 7 h 15 min."""
    hours, rest = divmod(minutes, 60)
    if hours < 2:
        return f"{geometry.decimal(minutes)} minute{'s' * (minutes != 1)}"
    return f"{hours} h" + (f" {geometry.decimal(rest)} min" if rest else "")


@dataclasses.dataclass(frozen=True)
class Steps:
    """A quantity that changes by steps: pairs of the minutes from which a value holds, ascending, and the value.

    The first pair may have None, and then holds from ever. Nobody may ask for a time before the first pair.
    """

    rows: tuple

    def is_known(self, minutes):
        """Whether there is a value at a time."""
        return self.rows[0][0] is None or self.rows[0][0] <= minutes

    def pieces(self, begins, ends):
        """How many minutes each value holds between two times, in order."""
        for (since, value), (until, _) in zip(self.rows, (*self.rows[1:], (ends, None))):
            length = min(until, ends) - (begins if since is None else max(since, begins))
            if length > 0:
                yield length, value

    def mean(self, begins, ends):
        """The mean of a number over the time between two moments that differ."""
        return sum(length * value for length, value in self.pieces(begins, ends)) / (ends - begins)

    def moved(self, begins, ends):
        """The displacement in metres east and south of a velocity in metres a minute."""
        pieces = list(self.pieces(begins, ends))
        return tuple(sum((length * value[at] for length, value in pieces), Fraction(0)) for at in (0, 1))
