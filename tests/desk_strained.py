"""Tests of the judge of bench/strained: programs in the place of ./osp that do what no helper may are found, each by its own fault; and of
its cases, which a seed gives again."""
import os
import random
import signal
import tempfile
import unittest
from unittest import mock

from bench import strain_cases, strain_room
from bench.strain_room import Case
from tests.pages import TOP

SAYS = "echo 'osp: wrong' >&2; exit"


class Judge(unittest.TestCase):
    def judged(self, script, words=("brief", "s"), **more):
        """What is wrong with a run of a script in the place of ./osp."""
        with tempfile.TemporaryDirectory() as folder:
            path = os.path.join(folder, "osp")
            with open(path, "w", encoding="utf-8") as file:
                file.write(f"#!/bin/bash\n{script}\n")
            os.chmod(path, 0o755)
            with mock.patch.object(strain_room, "OSP", path), mock.patch.object(strain_room, "GRACE", 0.3), mock.patch.object(strain_room, "SECONDS", 2):
                return strain_room.faults(Case("test", list(words), {"s": b"scenario", "in/t": b"tracks"}, **more), 1)

    def test_what_is_right(self):
        for script, words, more in (
            ("cat s", ["brief", "s"], {}),
            (f"{SAYS} 3", ["brief", "s"], {}),
            ("echo new > o", ["brief", "-o", "o", "s"], {"out": "o"}),
            ("echo rejected; exit 1", ["check", "s"], {}),
            ("echo 'no scenario'; exit 3", ["explain", "s"], {}),
            ("mkdir d; touch d/x", ["split", "1", "s", "d"], {"made": ("d",)}),
            (f"touch x; rm x; {SAYS} 12", ["plan", "--seconds", "9", "s"], {}),
            ("kill -INT $$; sleep 5", ["brief", "s"], {"more": frozenset({-2})}),
            ("exec sleep 9", ["brief", "s"], {"signal": (signal.SIGTERM, 0.2), "more": frozenset({-15})}),
            ("cat", ["brief", "-"], {"given": b"in"}),
            ("echo whole > o; exec sleep 9", ["brief", "-o", "o", "s"], {"out": "o", "signal": (signal.SIGTERM, 0.5), "more": frozenset({-15})}),
            (f"[ -p pipe ] && [ -L link ] && [ s -ef hard ] && {SAYS} 70", ["brief", "s"], {"links": {"link": "s"}, "hard": {"hard": "s"}, "pipes": ("pipe",), "wanted": frozenset({70})}),
        ):
            with self.subTest(script):
                ended, found = self.judged(script, words, **more)
                self.assertEqual(found, [], ended)

    def test_what_is_wrong(self):
        for script, words, more, wanted in (
            ("exit 1", ["brief", "s"], {}, "status 1 without a line on standard error"),
            (f"{SAYS} 12", ["brief", "s"], {}, "status 12 is none of"),
            (f"{SAYS} 3", ["plan", "s"], {"wanted": frozenset({70})}, "status 3 is none of [70]"),
            ("kill -KILL $$", ["brief", "s"], {}, "status -9 is none of"),
            ("sleep 20", ["brief", "s"], {}, "it hangs: 2 seconds were over"),
            ("echo 'Traceback (most recent call last):' >&2; exit 1", ["brief", "s"], {}, "it says 'Traceback'"),
            ("echo 'mktemp: failed' >&2; exit 70", ["brief", "s"], {}, "it says 'mktemp: '"),
            ("printf 'osp: \\033[2J' >&2; exit 70", ["brief", "s"], {}, r"a raw '\x1b' on standard error"),
            ("printf 'osp: \\342\\200\\256' >&2; exit 70", ["brief", "s"], {}, r"a raw '\u202e' on standard error"),
            ("head -c 30000 /dev/zero | tr '\\0' x >&2; exit 70", ["brief", "s"], {}, "30000 bytes on standard error"),
            (f"echo half; {SAYS} 3", ["brief", "s"], {}, "status 3 with 5 bytes on standard output"),
            ("echo >> s", ["brief", "s"], {}, "file changed: 's'"),
            ("chmod 600 in/t", ["brief", "s"], {}, "file changed: 'in/t'"),
            ("rm in/t", ["brief", "s"], {}, "file lost: 'in/t'"),
            ("touch .osp-1", ["brief", "s"], {}, "file left behind: '.osp-1'"),
            ("touch $TMPDIR/x", ["brief", "s"], {}, "left in TMPDIR: 'x'"),
            ("touch in/CANARY", ["brief", "s"], {}, "what stands in a text or a name was run"),
            (f"echo half > o; {SAYS} 6", ["brief", "-o", "o", "s"], {"out": "o"}, "status 6, and the file behind -o is another one"),
            ("echo half > o; sleep 1; echo >> o", ["brief", "-o", "o", "s"], {"out": "o", "signal": (signal.SIGTERM, 0.5)}, "status -15, and the file"),
            ("sleep 9 > /dev/null 2>&1 &", ["brief", "s"], {}, "1 of its processes went on"),
        ):
            with self.subTest(script):
                ended, found = self.judged(script, words, **more)
                self.assertTrue(any(wanted in it for it in found), (found, ended))


class Cases(unittest.TestCase):
    def test_a_seed_gives_the_same_cases_again(self):
        texts = {it: f"a = 1\nscenario {it}\n# | b = 2\n12\n".encode() for job in strain_cases.JOBS.values() for it in job.split() if it[0] not in "-0123456789"}
        texts["lake.json"] = b'{"trial": 1, "flown": [{"finds": 0.5}]}'
        known = {"grid", "grid.plan", "swath", "swath.gap", "night", "two", "two.made", "flown.made", "lake", "lake.plan", "lake.toml", "lake.json", "ensemble.toml", "tracks.csv"}
        with mock.patch.dict(strain_cases.TEXTS, {it: texts[it] for it in known}, clear=True):
            strain_cases.TEXTS.update({it: b"1" for its in strain_cases.READ_TOO.values() for it in its if it not in known})
            for kind in strain_cases.KINDS:
                if kind is strain_cases.shapes:
                    continue
                one, same, other = (repr([kind(random.Random(f"{seed} {it}")) for it in range(12)]) for seed in (7, 7, 8))
                self.assertEqual(one, same, kind.__name__)
                self.assertNotEqual(one, other, kind.__name__)

    def test_the_statuses_are_those_of_the_document(self):
        """Each command of the table of COMMANDS, and no status that the document doesn't have."""
        with open(f"{TOP}/docs/COMMANDS.md", encoding="utf-8") as file:
            text = file.read()
        for status in set().union(*strain_room.STATUSES.values()):
            self.assertIn(f"\n| {status} | ", text)


if __name__ == "__main__":
    unittest.main()
