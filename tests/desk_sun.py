"""Tests `desk.sun`: when the sun rises and sets, by ephem and by an almanac; and what is said of typed times that are off."""
import datetime
import random
import unittest

from tests.packaged import needing, on_earth

from desk import draft, packages, situation, sun

NOON = datetime.datetime(2000, 1, 1, 12)
# The search begins at half past eleven in the evening, near Skagen.
TEXT = """[search]
begins = "2026-07-04 23:30Z"
minutes = 15
periods = 2
[area]
cell_size = 500
rows = 4
columns = 4
north_west = [57.725, 10.58]
[[report]]
cell = "r1c1"
time = "23:00"
[searcher]
start = "r2c2"
speed = 8
sweep_width = 100
[tracks]
count = 1000
"""


def days(moment):
    """A moment (datetime, in UTC) as sun has it."""
    return (moment - NOON).total_seconds() / 86400


def notes(text):
    return [*sun.notes(situation.situation(text.encode()))]


def lit(*lines, begins="2026-07-04 23:30Z", text=TEXT):
    return text.replace("2026-07-04 23:30Z", begins) + "\n".join(["[light]", "night = 0.3", *lines, ""])


@needing("ephem", "python3-ephem")
class Ephem(unittest.TestCase):
    """Beside another program's almanac, which takes its sun from the theory VSOP87."""

    def nearest(self, key, moment, latitude, longitude):
        """The same by ephem, with the same horizon for the sun's middle."""
        ephem = packages.module("ephem", "python3-ephem", "this case needs")
        at = ephem.Observer()
        at.lat, at.lon, at.pressure, at.horizon, at.date = str(latitude), str(longitude), 0, "-0:49:59.88", moment
        found = []
        for way in (f"next_{key}", f"previous_{key}"):
            try:
                found.append(days(getattr(at, way)(ephem.Sun(), use_center=True).datetime()))
            except (ephem.AlwaysUpError, ephem.NeverUpError):
                pass
        return min((it for it in found if abs(it - days(moment)) <= 0.5), key=lambda it: abs(it - days(moment)), default=None)

    def hold(self, latitudes, seconds, count):
        rng, compared = random.Random(7), 0
        for _ in range(count):
            latitude, longitude = rng.uniform(*latitudes) * rng.choice((-1, 1)), rng.uniform(-180, 180)
            moment = datetime.datetime(2000, 1, 1) + datetime.timedelta(days=rng.uniform(0, 365.25 * 60))
            for key, its in (("sunset", "setting"), ("sunrise", "rising")):
                one, other = sun.nearest(key, days(moment), latitude, longitude), self.nearest(its, moment, latitude, longitude)
                # Who looks half a day around may see it at one end by the one and not by the other, or two of them equally far.
                if one is None or other is None or abs(abs(one - days(moment)) - 0.5) < 0.002:
                    continue
                compared += 1
                self.assertLess(abs(one - other) * 86400, seconds, (latitude, longitude, moment, key))
        self.assertGreater(compared, count)

    def test_within_ten_seconds_below_60_degrees(self):
        self.hold((0, 60), 10, 150)

    def test_within_a_minute_below_66_degrees(self):
        self.hold((60, 66), 60, 60)

    def test_days_and_nights_without_an_end(self):
        """At 80 degrees the sun doesn't set in June and doesn't rise in December, and in March it does both."""
        for month, has in ((6, False), (12, False), (3, True)):
            moment = datetime.datetime(2026, month, 21, 12)
            for key, its in (("sunset", "setting"), ("sunrise", "rising")):
                found = sun.nearest(key, days(moment), 80, 20), self.nearest(its, moment, 80, 20)
                self.assertEqual([it is not None for it in found], [has, has], (month, key))


class Almanac(unittest.TestCase):
    def test_greenwich_at_midsummer(self):
        """Sunrise 03:43 and sunset 20:21 UT on 21 June 2026."""
        for key, hour, minute in (("sunrise", 3, 43), ("sunset", 20, 21)):
            found = sun.nearest(key, days(datetime.datetime(2026, 6, 21, 12)), 51.4779, 0)
            self.assertLess(abs(found - days(datetime.datetime(2026, 6, 21, hour, minute))) * 1440, 1)

    def test_the_altitude_at_noon_and_at_midnight(self):
        """At the equinox (20 March 2026, 14:46 UT) the declination is 0: at noon of the sun it stands 90 degrees less the latitude high."""
        noon = days(datetime.datetime(2026, 3, 20, 12))
        for latitude in (0, 30, -57):
            highest = max(sun.altitude(noon + it / 1440, latitude, 0) for it in range(-30, 31))
            self.assertAlmostEqual(highest, 90 - abs(latitude), delta=0.2)
            lowest = min(sun.altitude(noon + 0.5 + it / 1440, latitude, 0) for it in range(-30, 31))
            self.assertAlmostEqual(lowest, abs(latitude) - 90, delta=0.2)


@on_earth
class Told(unittest.TestCase):
    def told(self, key, typed, does):
        return f"note: [light] {key} is at {typed}, and in the middle of the area the sun {does}"

    def test_a_sunset_that_is_off(self):
        told = self.told("sunset", "2026-07-04 20:45Z", "sets at 2026-07-04 20:18Z, 27 minutes before that")
        self.assertEqual(notes(lit('sunset = "20:45"')), [told])
        self.assertIn(told, draft.drafted(lit('sunset = "20:45"').encode())[1])
        # By ephem it sets at 20:18:20.
        for typed, count in (("20:38", 0), ("20:39", 1), ("19:59", 0), ("19:58", 1)):
            self.assertEqual(len(notes(lit(f'sunset = "{typed}"'))), count, typed)
        self.assertTrue(notes(lit('sunset = "19:58"'))[0].endswith("sets at 2026-07-04 20:18Z, 20 minutes after that"))

    def test_a_sunrise_and_both(self):
        """By ephem the sun rises at 02:26:12."""
        told = self.told("sunrise", "2026-07-05 05:10Z", "rises at 2026-07-05 02:26Z, 2 h 44 min before that")
        self.assertEqual(notes(lit('sunrise = "05:10"')), [told])
        both = notes(lit('sunset = "20:45"', 'sunrise = "05:10"'))
        self.assertEqual([it.split(" is at ")[0] for it in both], ["note: [light] sunset", "note: [light] sunrise"])
        self.assertEqual(notes(lit('sunset = "20:20"', 'sunrise = "02:30"')), [])

    def test_the_day_on_which_it_is_off_the_most(self):
        """32 days from the equinox on. By ephem the sun sets at 17:31:30 on the first and at 18:39:51 on the last, and rises at 05:17:06
        and at 03:52:02 on the day behind each."""
        text = TEXT.replace("minutes = 15", "minutes = 1440").replace("periods = 2", "periods = 32").replace('"23:00"', '"11:00"')
        said = notes(lit('sunset = "17:32"', 'sunrise = "05:20"', begins="2026-03-20 12:00Z", text=text))
        sunset = self.told("sunset", "2026-04-20 17:32Z", "sets at 2026-04-20 18:40Z, 68 minutes after that")
        sunrise = self.told("sunrise", "2026-04-21 05:20Z", "rises at 2026-04-21 03:52Z, 88 minutes before that")
        self.assertEqual(said, [sunset, sunrise])

    def test_where_the_sun_does_not_set(self):
        north = lit('sunset = "20:45"', text=TEXT.replace("57.725", "75"))
        self.assertEqual(notes(north), [self.told("sunset", "2026-07-04 20:45Z", "doesn't set within 12 hours of that")])
        south = lit('sunrise = "05:10"', text=TEXT.replace("57.725", "-75"))
        self.assertEqual(notes(south), [self.told("sunrise", "2026-07-05 05:10Z", "doesn't rise within 12 hours of that")])

    def test_nothing_is_said_where_place_date_or_zone_is_not_known(self):
        off = 'sunset = "20:45"'
        self.assertEqual(len(notes(lit(off))), 1)
        for text in (
            TEXT,
            lit(off, begins="2026-07-04 23:30"),
            lit(off, begins="23:30Z"),
            lit(off, text=TEXT.replace("north_west = [57.725, 10.58]\n", "")),
        ):
            self.assertEqual(notes(text), [])


if __name__ == "__main__":
    unittest.main()
