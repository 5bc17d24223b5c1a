"""How true drafts are: plans of drafted scenarios, flown over drifts of a second simulation that shares nothing with the desk's."""
import glob
import math
import os
import unittest

from tests import fidelity, situations
from tests.fidelity import TOP

# How many situations are made, of the seeds from 0 on; and how many drifts are flown, from which seed.
MADE, COUNT, SEED = 20, 2500, 1000
EXAMPLES = sorted(glob.glob(os.path.join(TOP, "examples", "situations", "*.toml")))


def text_of(file):
    with open(file, encoding="utf-8") as opened:
        return opened.read()


@unittest.skipUnless(fidelity.is_built(), "the program isn't built: ./osp build")
class Flown(unittest.TestCase):
    def hold(self, text, points):
        """What a plan says is what its path finds, and no path of a beam search finds more, but for so many points; or draft said so."""
        row = fidelity.measured(text, COUNT, SEED, 10)
        if "elsewhere than the tracks" in row.said:
            return
        self.assertLessEqual(abs(row.says - row.finds), points, row)
        self.assertLessEqual(row.others_find - row.finds, points, row)

    def test_made_situations_within_three_points(self):
        for seed in range(MADE):
            with self.subTest(seed):
                self.hold(situations.made(seed), 3)

    def test_the_examples_within_two_points(self):
        self.assertGreaterEqual(len(EXAMPLES), 3)
        for file in EXAMPLES:
            with self.subTest(os.path.basename(file)):
                self.hold(text_of(file), 2)

    def test_a_draft_from_a_file_of_tracks_within_two_points(self):
        """The file has drifts of the second simulation, and the plan is flown over others of it."""
        text = text_of(os.path.join(TOP, "examples", "situations", "kayaker.toml"))
        says, finds, error = fidelity.flown(text, 5000, SEED)
        self.assertLess(error, 0.7)
        self.assertLess(abs(says - finds), 2, (says, finds, error))

    def test_two_seeds_differ_by_no_more_than_their_drifts_do(self):
        text, count = text_of(os.path.join(TOP, "examples", "situations", "kayaker.toml")), 20_000
        said = []
        for seed in (1, 2):
            scenario, _ = fidelity.drafted(f"{text}\n[tracks]\nseed = {seed}\n")
            said.append(fidelity.chance(fidelity.planned(scenario)))
        # Each is a mean of chances from 0 to 1 over so many drifts, and of such a mean the variance is at most p (1 - p) / count.
        error = math.sqrt(sum(it * (1 - it) / count for it in said))
        self.assertNotEqual(*said)
        self.assertLess(abs(said[0] - said[1]), 3 * error)


if __name__ == "__main__":
    unittest.main()
