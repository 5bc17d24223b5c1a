"""./osp alone FILE: the scenario of a file that has its plan behind it, alone. Where `replan` made it, it is one of which that is made.

The front door lets `replan` and `map` read such a file by it.
"""
from desk import accepted, forms, running, seats, writing
from desk.accepted import Refused
from desk.status import Status
from desk.words import BadWords, Words

WORDS = Words(
    "alone",
    "alone FILE",
    "writes the scenario of a file that has its plan behind it, without the plan; of one that replan made, the scenario it was made of",
    ("FILE", "the file, as replan and duo write it"),
)


def unforced(sc, path):
    """The scenario that one was made of by `replan`, and what a path of the made one stands for; others as they are, and so one whose
    flown positions may stand for several."""
    who = seats.seats(sc)
    if not who.flown or any(len(it) != 1 or it[0] is None for it in who.sources):
        return sc, path
    return who.of, [who.sources[it][0] for it in path]


def scenario_of(name, text):
    """The scenario alone of a file of this name and its text, and what is said of it. Raises Refused."""
    text, _ = accepted.parted(text)
    try:
        sc = forms.read_scenario(text, False)[0]
    except forms.Fault as fault:
        raise Refused(Status.BAD_SCENARIO, f"bad scenario: line {fault.line} {fault.kind}") from None
    own, _ = unforced(sc, [])
    told = f"{accepted.shown(name)} has a plan behind its scenario, which is left out"
    if own is sc:
        return text, told
    return writing.scenario_text(own, []), f"{told}; its flown positions are, too, and names are those of the scenario that it was made of"


def main(words):
    """Runs the helper; answers its exit status."""
    try:
        name = WORDS.one_file(words, "a scenario with its plan behind it")
        text, told = scenario_of(name, accepted.read_file(name))
    except BadWords as wrong:
        return WORDS.refuse(wrong)
    except Refused as why:
        running.say(f"osp alone: {why.said}")
        return why.status
    running.say(f"osp: {told}")
    return running.write_bytes(text)
