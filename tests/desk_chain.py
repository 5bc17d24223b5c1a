"""Tests of `desk.states`, `desk.chain` and of what `osp draft` makes of tracks. Values in comments are worked by hand."""
import dataclasses
import random
import unittest
import unittest.mock
from fractions import Fraction

from desk import chain, geometry, keys, rounding, states, tracks

# Two rows and three columns of 100 m.
GRID = geometry.Grid(2, 3, Fraction(100))


def reached(places, grid=GRID):
    """The spots of places."""
    return {states.Spots(grid).number_of(it) for it in places}


class States(unittest.TestCase):
    def test_squares_of_names(self):
        for name, square in ((b"r3c4-01", b"r3c4"), (b"r3c4", b"r3c4"), (b"lost", b"lost"), (b"base", b"base"), (b"r3c4-1", b"r3c4-1"), (b"flown-01", b"flown-01")):
            self.assertEqual(states.square_of(name), square)

    def test_names_go_row_by_row_from_the_north_west(self):
        # In r0c1 (100 to 200 m east, 0 to 100 m south) these are in the first row, the last column and in the last row, the first column;
        # in r1c2 in the very middle.
        places = [(199, 1), (101.5, 99), (250, 150)]
        for finer, names in (
            (1, [b"r0c1", b"r1c2"]),
            (2, [b"r0c1-02", b"r0c1-03", b"r1c2-04"]),
            (3, [b"r0c1-03", b"r0c1-07", b"r1c2-05"]),
            (4, [b"r0c1-04", b"r0c1-13", b"r1c2-11"]),
        ):
            found = states.States(GRID, False, reached(places), finer)
            self.assertEqual(found.names, names)
            self.assertEqual([found.names[found.number_of(it)] for it in places], names if finer > 1 else [names[0], *names])
            self.assertIsNone(found.number_of(None))
            self.assertEqual(found.number_of((10, 10)), None)

    def test_middles_and_what_is_lost(self):
        found = states.States(GRID, True, reached([(199, 1), (250, 150)]), 4)
        self.assertEqual(found.names, [b"r0c1-04", b"r1c2-11", b"lost"])
        # A quarter of 100 m: r0c1-04 is from 175 to 200 and from 0 to 25; lost is a square and a half beyond the corner at (300, 200).
        self.assertEqual([found.middle(it) for it in found.names], [(187.5, 12.5), (262.5, 162.5), (400, 150)])
        self.assertEqual((found.number_of(None), found.of_spots[None]), (2, 2))
        self.assertEqual([found.within(it) for it in ((0, 1), (1, 2), (0, 0))], [[0], [1], []])

    def test_borders_belong_to_the_squares_beside_them(self):
        # A line between two squares belongs to the one east or south of it, the last lines to the last squares, as Grid.square_at has it.
        for side in (Fraction(100), Fraction(463), Fraction(1, 3), Fraction("0.7")):
            grid = geometry.Grid(200, 200, side)
            spots = states.Spots(grid)
            for at in range(200):
                for place in ((float(at * side), 0.0), (float(at * side) * (1 - 2**-53), 0.0)):
                    self.assertEqual(spots.part(spots.number_of(place), 3)[0], grid.nearest(grid.square_at(place)), (side, place))
            self.assertEqual(spots.part(spots.number_of((200 * float(side), -5)), 1), ((0, 199), 0))

    def test_the_finest_of_which_at_most_200_are_reached(self):
        # All quarters of 12 squares are 192 states, 193 with lost; all of 13 are 208, and thirds of them 117.
        for squares, fit in ((12, [4, 3, 2, 1]), (13, [3, 2, 1]), (22, [3, 2, 1]), (23, [2, 1]), (50, [2, 1]), (51, [1]), (200, [1])):
            grid = geometry.Grid(1, squares, Fraction(100))
            all_spots = range(squares * states.SPOTS**2)
            self.assertEqual(states.fitting(grid, False, all_spots), fit, squares)
        grid = geometry.Grid(1, 200, Fraction(100))
        all_spots = range(200 * states.SPOTS**2)
        with self.assertRaisesRegex(keys.BadSituation, r"\[area\] rows: the tracks reach 201 cells, lost among them, and 200 are the most"):
            states.fitting(grid, True, all_spots)
        self.assertEqual(states.fitting(grid, False, all_spots, 1), [1])
        with self.assertRaisesRegex(keys.BadSituation, r"\[tracks\] finer: with 2 the tracks reach 800 states, and 200 are the most; .* as in finer = 1"):
            states.fitting(grid, False, all_spots, 2)


def drift_of(walks):
    """The Drift of tracks that are given by their states at each look, by numbers, in squares of one row."""
    most = 1 + max(map(max, walks))
    grid = geometry.Grid(1, most, Fraction(100))
    seen = tracks.Tracks(len(walks), 1, tuple([(50.0 + 100 * it, 50.0) for it in look] for look in zip(*walks)))
    spots = {states.Spots(grid).number_of((50.0 + 100 * it, 50.0)) for it in range(most)}
    looks = list(zip(*walks))
    return chain.Drift(seen, states.States(grid, False, spots, 1), [chain.counted(it) for it in looks], [chain.steps(*it) for it in zip(looks, looks[1:])])


def cloud(seed, count=4000, looks=8):
    """Walks that begin in 12 states and drift up, by steps that differ from track to track and change with time."""
    chance = random.Random(seed).random
    walks = []
    for _ in range(count):
        walk, speed = [int(12 * chance())], chance()
        for t in range(1, looks):
            walk.append(walk[-1] + int(1.5 * speed + chance() + 0.2 * t * chance()))
        walks.append(walk)
    return walks


class Chains(unittest.TestCase):
    def test_tracks_are_counted_by_state_and_step(self):
        drift = drift_of([[0, 1, 1], [0, 0, 1], [2, 1, 0], [0, 1, 1]])
        self.assertEqual(drift.looks, [{0: 3, 2: 1}, {0: 1, 1: 3}, {0: 1, 1: 3}])
        self.assertEqual(drift.steps, [{0: {0: 1, 1: 2}, 2: {1: 1}}, {0: {1: 1}, 1: {0: 1, 1: 2}}])

    def test_rows_are_rounded_with_the_error_that_those_before_left(self):
        # All in parts of 64: 16 tracks, masses in parts of 2, rows in parts of 2. Row 0 has quotas of 1.25 and 0.75: its whole part goes to
        # state 0, which lacks 5 * 4 - 16 = 4 then, and state 1 lacks 3 * 4 = 12: it gets the other, and has 4 too much. In row 2 state 1
        # lacks 12 - 4 = 8 and state 2 lacks 4: state 1 gets it again.
        self.assertEqual(rounding.carried({0: {0: 5, 1: 3}, 2: {1: 3, 2: 5}}, {0: 1, 2: 1}, 2, 2, 16), {0: {0: 1, 1: 1}, 2: {1: 1, 2: 1}})
        # A quarter of each of four states goes to state 9. In row 0 both lack 8 of 128, and the larger share gets it; in row 1 state 9 lacks
        # 16, and the state itself 8; then it begins anew.
        counts = {it: {it: 3, 9: 1} for it in range(4)}
        rows = rounding.carried(counts, dict.fromkeys(range(4), 1), 2, 4, 16)
        self.assertEqual([row.get(9, 0) for row in rows.values()], [0, 1, 0, 1])
        # The greatest mass is rounded first, and of equal ones the smallest number.
        rows = rounding.carried(counts | {1: {1: 9, 9: 3}}, {0: 1, 1: 6, 2: 1}, 2, 8, 24)
        self.assertEqual(list(rows), [1, 0, 2, 3])

    def test_a_part_is_within_one_of_its_quota_and_rows_sum(self):
        drift = drift_of(cloud(1))
        for d in (1, 3, 10, 997):
            for step, rows in zip(drift.steps, chain.chain(drift, 100, d).rows):
                self.assertEqual(step.keys(), rows.keys())
                for state, row in step.items():
                    self.assertEqual(sum(rows[state].values()), d)
                    self.assertTrue(all(abs(rows[state].get(to, 0) - Fraction(d * it, sum(row.values()))) < 1 for to, it in row.items()))

    def test_the_masses_follow_the_tracks(self):
        # Each row by itself, rounded by its largest remainders, is off by more at each look; the carried error doesn't add up.
        for seed in (1, 2, 3):
            drift = drift_of(cloud(seed))
            made = chain.chain(drift, 1000, 10)
            self.assertEqual([sum(it.values()) for it in made.masses], made.wholes)
            self.assertEqual(made.wholes, [1000 * 10**it for it in range(8)])
            off = list(map(float, chain.variations(made, drift)))
            self.assertLess(max(off), 0.03)
            with unittest.mock.patch.object(rounding, "carried", lambda step, _, whole, *rest: {it: rounding.largest_remainder(row, whole) for it, row in step.items()}):
                alone = list(map(float, chain.variations(chain.chain(drift, 1000, 10), drift)))
            self.assertGreater(alone[-1], 1.2 * off[-1])
            exact = chain.chain(dataclasses.replace(drift, looks=drift.looks[:1], steps=[]), 4000, 1)
            self.assertEqual(list(chain.variations(exact, drift)), [0])

    def test_a_chain_of_a_table_is_found_again_from_its_own_tracks(self):
        first, rows = {0: 0.2, 1: 0.5, 2: 0.3}, {0: {0: 0.1, 1: 0.9}, 1: {1: 0.25, 2: 0.5, 3: 0.25}, 2: {2: 1.0}, 3: {0: 0.4, 3: 0.6}}
        chance = random.Random(7).random

        def drawn(shares):
            at = chance()
            for it, share in shares.items():
                at -= share
                if at < 0:
                    return it
            return it

        walks = [[drawn(first)] for _ in range(40_000)]
        for walk in walks:
            while len(walk) < 4:
                walk.append(drawn(rows[walk[-1]]))
        drift = drift_of(walks)
        made = chain.chain(drift, 10_000, 1000)
        # Five standard errors of a share of 40,000, and a part of rounding.
        for state, share in first.items():
            self.assertLess(abs(made.first[state] / 10_000 - share), 5 * (share * (1 - share) / 40_000) ** 0.5 + 1e-4)
        for step, found in zip(drift.steps, made.rows):
            for state, row in found.items():
                count = sum(step[state].values())
                for to, share in rows[state].items():
                    self.assertLess(abs(row.get(to, 0) / 1000 - share), 5 * (share * (1 - share) / count) ** 0.5 + 1e-3, (state, to))

    def test_total_variation_and_deviations_by_hand(self):
        # The chain has 2 of 4 in state 0 and 2 in 1, the tracks 1 of 4 in state 0, 2 in 1 and 1 in 2: a quarter is elsewhere.
        drift = drift_of([[0], [1], [1], [2]])
        made = chain.Chain({0: 2, 1: 2}, [], [{0: 2, 1: 2}], [4])
        self.assertEqual(list(chain.variations(made, drift)), [Fraction(1, 4)])
        # At 50 and 150 m by halves: 50 m, and each anywhere in a state of 100 m: sqrt(2500 + 10000 / 12) = 57.735; south 28.868. The tracks
        # are in the middles: 50, 150, 150, 250 have a variance of 5000.
        (east, south), of_tracks = chain.deviations(made, drift, 1)
        self.assertAlmostEqual(east, 57.735, 3)
        self.assertAlmostEqual(south, 28.868, 3)
        self.assertAlmostEqual(of_tracks[0], 5000**0.5, 9)
        self.assertEqual(of_tracks[1], 0)


if __name__ == "__main__":
    unittest.main()
