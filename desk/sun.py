"""When the sun rises and sets at a place on the earth, and what to say of typed times that are far off.

The sun's place is that of the low-precision formulas of the Astronomical Almanac (U.S. Naval Observatory and H.M. Nautical Almanac Office,
section C), which are right to a hundredth of a degree from 1950 to 2050, and so to some seconds where the sun doesn't go along the horizon.
Times are days from noon on 1 January 2000 in UTC on.
"""
import datetime
import math
from fractions import Fraction

from desk import moments, placing

NOON = datetime.date(2000, 1, 1)
# The altitude in degrees of the sun's middle when it rises and sets: its radius, and the refraction at the horizon.
HORIZON = -0.8333
# How many altitudes are taken in a day, and how often a time between two of them is halved: down to a tenth of a second.
A_DAY, HALVINGS = 144, 13
# From how many minutes on a typed time is told as off.
OFF = 20


def altitude(days, latitude, longitude):
    """The altitude of the sun's middle in degrees, without refraction."""
    mean, anomaly, tilt = (math.radians(it) for it in (280.460 + 0.9856474 * days, 357.528 + 0.9856003 * days, 23.439 - 0.0000004 * days))
    along = mean + math.radians(1.915 * math.sin(anomaly) + 0.020 * math.sin(2 * anomaly))
    ascension, declination = math.atan2(math.cos(tilt) * math.sin(along), math.cos(along)), math.asin(math.sin(tilt) * math.sin(along))
    hour, north = math.radians((280.46062 + 360.98564737 * days + longitude) % 360) - ascension, math.radians(latitude)
    return math.degrees(math.asin(math.sin(north) * math.sin(declination) + math.cos(north) * math.cos(declination) * math.cos(hour)))


def nearest(key, days, latitude, longitude):
    """The time of the "sunset" or the "sunrise" nearest to a time, up to half a day from it; None where there is none."""
    def above(it):
        return (altitude(it, latitude, longitude) - HORIZON) * (1 if key == "sunrise" else -1)

    times = [days + it / A_DAY for it in range(-A_DAY // 2, A_DAY // 2 + 1)]
    heights = [above(it) for it in times]
    found = [turn(above, times[at]) for at in range(A_DAY) if heights[at] < 0 <= heights[at + 1]]
    return min(found, key=lambda it: abs(it - days), default=None)


def turn(above, begins):
    """When a function that is below 0 at a time, and not so an altitude later, comes to 0."""
    ends = begins + 1 / A_DAY
    for _ in range(HALVINGS):
        middle = (begins + ends) / 2
        begins, ends = (middle, ends) if above(middle) < 0 else (begins, middle)
    return ends


def notes(given):
    """The lines to say of the typed sunset and sunrise of a situation that are off by more than OFF minutes in the middle of its area, on
    the day on which they are off the most. None where the place, the date or the zone isn't known."""
    begins, frame = given.clock.begins, given.grid.frame
    if not given.light or frame is None or begins.date is None or not begins.is_utc:
        return
    middle = frame.to_earth(*(it / 2 for it in placing.corners(given.grid)[2]))
    begin = (begins.date - NOON).days - 0.5 + float(begins.minute) / moments.DAY
    for key, typed in given.light:
        # With the other beside it, it comes back each day.
        times = sorted({typed, *moments.daily(typed, given.look_time(given.periods))}) if len(given.light) > 1 else [typed]
        found = {it: nearest(key, begin + float(it) / moments.DAY, *middle) for it in times}
        offs = {it: math.inf if found[it] is None else (found[it] - begin) * moments.DAY - float(it) for it in times}
        far = max(times, key=lambda it: abs(offs[it]))
        if abs(offs[far]) > OFF:
            told = f"note: [light] {key} is at {given.clock.told(far)}, and in the middle of the area"
            yield f"{told} {off(key, far, offs[far], given.clock)}"


def off(key, typed, minutes, clock):
    """When the sun sets or rises, so many minutes after a typed time (math.inf where it doesn't within half a day), in words."""
    if math.isinf(minutes):
        return f"the sun doesn't {key.removeprefix('sun')} within 12 hours of that"
    does, when = {"sunset": "sets", "sunrise": "rises"}[key], Fraction(round(float(typed) + minutes))
    return f"the sun {does} at {clock.told(when)}, {moments.lasting(abs(round(minutes)))} {'before' if minutes < 0 else 'after'} that"
