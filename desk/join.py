"""./osp join FOLDER: the best path of all, from the parts that the jobs of `split` wrote.

Each path begins with one of the legal prefixes of any length, so the best of the bests of all these is the best. The program's `check`
judges each part; that the parts are all there are, each of the scenario that forces its prefix, is seen here.
"""
import concurrent.futures
import dataclasses
import os

from desk import accepted, derived, forms, parts, paths, percent, program, running, stopping
from desk.accepted import Refused, shown
from desk.status import Status
from desk.words import BadWords, Words

WORDS = Words(
    "join",
    "join FOLDER",
    "checks the parts that these jobs wrote, sees that none is missing, and says the best path and its chance",
    ("FOLDER", "the folder that split made, and in which the jobs ran"),
)
# How the names of files begin that a job was writing when it was cut off.
HALF = ".osp-"


class Unfit(Exception):
    """Why what stands for a part isn't one."""


@dataclasses.dataclass
class Part:
    """A part: its name, and the best path that begins with its prefix, in the positions of the whole scenario, with its value."""

    name: str
    path: list
    value: int


def text_of(file):
    """The bytes of a part's file. Raises Unfit."""
    if not os.path.isfile(file):
        raise Unfit("no file" if os.path.lexists(file) else "missing")
    try:
        return accepted.read_file(file)
    except Refused as why:
        raise Unfit(why.said) from None


def judged(text, notes):
    """Lets the program check the text of a part; what it says of an unproved run becomes a note. Raises Unfit, or Refused where it gives
    no answer."""
    try:
        verdict, note = accepted.asked("check", text)
    except Refused as why:
        if why.status in (Status.WRONG, Status.BAD_SCENARIO, Status.BAD_PLAN):
            raise Unfit(why.said) from None
        raise
    if verdict != b"accepted\n":
        raise Refused(Status.FAILED, f"osp check answered neither accepted nor a reason: {verdict[:80]!r}")
    notes.update(filter(None, [note]))


def part(folder, name, sc, prefix, notes):
    """The part of a prefix. Raises Unfit, or Refused where the program gives no answer."""
    text = text_of(os.path.join(folder, name))
    try:
        judged(text, notes)
    except Refused as why:
        raise Refused(why.status, f"{name}: {why.said}", why.note) from None
    try:
        made, rest = forms.read_scenario(text, False)
        plan = accepted.head(rest, made)
    except (forms.Fault, forms.Wrong, AttributeError) as why:
        raise Refused(Status.FAILED, f"{name}: what osp check accepted isn't understood: {why}") from None
    if made.key() != derived.forced(sc, prefix).key():
        raise Unfit("of another scenario than the one that forces this prefix")
    path = derived.unforced(sc, prefix, plan.path)
    if (paths.value(sc, path), paths.weight(sc)) != (plan.value, plan.weight):
        raise Refused(Status.FAILED, f"{name}: this helper's numbers aren't those of the plan; please tell the project, with the folder")
    return Part(name, path, plan.value)


def tried(*given):
    """The part of a prefix, or why what stands for it isn't one. (An exception would keep the part's text as long as the answer.)"""
    try:
        return part(*given), None
    except Unfit as why:
        return None, str(why)


def opened(folder):
    """The scenario of a folder, and its prefixes by the names of their parts. Raises Refused."""
    strange = f"{shown(folder)} isn't as split made it"
    _, sc = parts.scenario(os.path.join(folder, parts.SCENARIO))
    length = parts.length(sc, accepted.read_file(os.path.join(folder, parts.DEPTH)).decode("ascii", "replace").strip())
    if length is None or parts.count(sc, length) > parts.MOST:
        raise Refused(Status.UNREADABLE, f"{strange}: its file {parts.DEPTH} doesn't say how long prefixes are")
    prefixes = parts.named(sc, length)
    if why := parts.not_forced(sc, prefixes):
        raise Refused(Status.UNREADABLE, f"{strange}: {why}")
    return sc, prefixes


def strangers(folder, prefixes):
    """The files among the parts that are none."""
    try:
        names = sorted(os.listdir(os.path.join(folder, parts.PARTS)))
    except OSError as why:
        raise Refused(Status.UNREADABLE, f"cannot read {shown(os.path.join(folder, parts.PARTS))}: {why.strerror}") from None
    return [it for it in (f"{parts.PARTS}/{name}" for name in names if not name.startswith(HALF)) if it not in prefixes]


def survey(folder, sc, prefixes):
    """The parts, what is said of what is wrong, one line each, and the notes. As many are judged at once as there are processors. Raises
    Refused where the program gives no answer."""
    found, wrong, notes = [], [], set()
    with concurrent.futures.ThreadPoolExecutor(os.cpu_count()) as pool:
        try:
            asked = [(name, pool.submit(tried, folder, name, sc, prefix, notes)) for name, prefix in prefixes.items()]
            for name, answer in asked:
                it, why = answer.result()
                found += [it] if it else []
                wrong += [f"{name} ({parts.words(sc, prefixes[name])}): {why}"] if why else []
        except Refused:
            pool.shutdown(cancel_futures=True)
            raise
        except stopping.Stopped:
            # The runs that go on would be waited for.
            pool.shutdown(wait=False, cancel_futures=True)
            program.RUNS.end_all()
            raise
    wrong += [f"{shown(it)}: no part of this plan" for it in strangers(folder, prefixes)]
    return found, wrong, notes


def told(sc, found):
    """The best of the parts, as a text: of equal ones the one with the smaller path by the numbers of positions."""
    best, whole = min(found, key=lambda it: (-it.value, it.path)), paths.weight(sc)
    chance = f"chance {best.value} {whole} {percent.cut(best.value, whole)}"
    return f"path {parts.words(sc, best.path)}\n{chance}\npart {best.name}\n{len(found)} of {len(found)} prefixes\n"


def main(words):
    """Runs the helper; answers its exit status."""
    try:
        folder = WORDS.one_file(words, "a folder of split")
        sc, prefixes = opened(folder)
        found, wrong, notes = survey(folder, sc, prefixes)
    except BadWords as not_words:
        return WORDS.refuse(not_words)
    except Refused as why:
        running.say(f"{why.note}\nosp join: {why.said}".lstrip())
        return why.status
    for it in sorted(notes):
        running.say(it)
    if wrong:
        for it in [*wrong, f"{len(found)} of {len(prefixes)} prefixes"]:
            running.say(f"osp join: {it}")
        return Status.WRONG
    return running.write(told(sc, found))
