#!/usr/bin/env python3
"""What `replan --workers 1` writes, by a second computation: the scenario that forces a flown prefix by desk/derived.py, and its plan by
bench/one_worker.py. As a program it answers `replan [--workers 1] flown NAME ..` alone, for tests where the proved program isn't built."""
import os
import sys

sys.path.insert(0, os.path.dirname(os.path.dirname(os.path.realpath(__file__))))

from bench.one_worker import made_text  # noqa: E402

from desk import forms  # noqa: E402


def replanned(sc, prefix):
    """The text of the scenario that forces a prefix, and its plan, as bytes."""
    return b"".join(made_text(sc, "replan", [sc.positions[it] for it in prefix]))


def main(words):
    if words[:1] != ["replan"] or "flown" not in words or words[1 : words.index("flown")] not in ([], ["--workers", "1"]):
        sys.exit(2)
    sc, _ = forms.read_scenario(sys.stdin.buffer.read(), True)
    sys.stdout.buffer.write(b"".join(made_text(sc, "replan", [it.encode("ascii") for it in words[words.index("flown") + 1 :]])))


if __name__ == "__main__":
    main(sys.argv[1:])
