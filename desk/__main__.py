"""Runs a helper of the desk: python3 -m desk NAME WORDS.. (./osp NAME WORDS.. does this)."""
import importlib
import os
import sys

if not __package__:
    # As python3 -I desk/__main__.py, the folder that holds the desk isn't among those that are searched.
    sys.path.insert(0, os.path.dirname(os.path.dirname(os.path.realpath(__file__))))

from desk import guarding, stopping  # noqa: E402
from door import files  # noqa: E402

# The helpers by name, and the module of each, whose `main` takes the words behind the name and answers the exit status.
HELPERS = {
    "draft": "desk.draft",
    "plan": "desk.timed",
    "next": "desk.following",
    "show": "desk.show",
    "brief": "desk.brief",
    "chart": "desk.chart",
    "page": "desk.planner",
    "explain": "desk.explain",
    "split": "desk.split",
    "join": "desk.join",
    "trial": "desk.trial",
    "vary": "desk.vary",
    # (The front door's own, for files that have a scenario and its plan.)
    "alone": "desk.alone",
}


def stopped(name, number):
    """Ends by a signal, with one line, and with the runs of the program that the helper began."""
    from desk import program, running

    program.RUNS.end_all()
    running.say(f"osp {name}: stopped")
    stopping.end_by(number)


def refused(why):
    """Ends where a file was opened for reading that is written to, with the script's status and line."""
    from desk import program, running
    from desk.status import Status

    program.RUNS.end_all()
    running.say(f"osp: {why}")
    return Status.FAILED


def main(words):
    """Runs the helper that the first word names, and answers its exit status."""
    if not words or words[0] not in HELPERS:
        print(f"usage: python3 -m desk {'|'.join(HELPERS)} WORDS..", file=sys.stderr)
        return 2
    files.guard()
    try:
        stopping.watch()
        return guarding.guarded(words[0], lambda: importlib.import_module(HELPERS[words[0]]).main(words[1:]))
    except stopping.Stopped as it:
        return stopped(words[0], it.number)
    except files.IsTarget as it:
        return refused(it)


if __name__ == "__main__":
    sys.exit(main(sys.argv[1:]))
