"""./osp plan --seconds N | --minutes N [SCENARIO] [-o FILE] [--workers N] [--json yes]: the best that can be had in so long.

The program's `gap` is asked in rounds, each with twice as many records as the one before, until nothing waits any more or the time is
over. What the best round wrote is kept: a gap plan, which `checkgap` accepts, or at the end of the proof a plan, which `check` does.
"""
import dataclasses
import json
import time

from desk import accepted, forms, limits, outfile, percent, program, running, stopping
from desk.accepted import Refused
from desk.status import Status
from desk.words import BadWords, Words

# How many records the first round may have.
FEWEST = 64
# The longest time, in seconds: a week.
LONGEST = 604_800
WORDS = Words(
    "plan",
    "plan --seconds N | --minutes N [SCENARIO] [--workers N] [--json yes]",
    "writes the best plan that can be had in so long, or a gap plan with a ceiling that no path exceeds",
    ("SCENARIO", "the scenario's file; - or none: standard input"),
    ("--seconds N", f"how long it may take, 1 to {LONGEST}"),
    ("--minutes N", f"the same in minutes, 1 to {LONGEST // 60}"),
    ("--workers N", "how many threads search at once, 1 to 16; 4 where it is not given"),
    ("--json yes", "a line of JSON on standard output for each round; the plan goes to the file behind -o"),
    ("-o FILE", "the file that is replaced by the best plan so far, whole, after each round"),
)


@dataclasses.dataclass(frozen=True)
class Asked:
    """What the words ask for: the scenario's file, the seconds, the number of workers as a word, the file to write or None, and whether
    a line of JSON tells each round."""

    file: str
    seconds: int
    workers: str
    target: str | None
    is_json: bool


@dataclasses.dataclass(frozen=True)
class Round:
    """A round: its number, from 1, its text, what the lines before its records say (as in desk.forms), its path by names, how many
    prefixes wait, and the seconds that had passed at its end."""

    number: int
    text: bytes
    plan: forms.Plan
    path: list
    waiting: int
    seconds: float

    @property
    def is_gap(self):
        """Whether the text is that of a gap plan."""
        return self.text.startswith(b"gap")

    def is_better(self, other):
        """Whether this is to be kept in place of another round, or of none (None): it finds more, or as much with no greater ceiling."""
        return other is None or (self.plan.value, -self.plan.ceiling) >= (other.plan.value, -other.plan.ceiling)


class Timed:
    """The program, asked about one scenario until some time: `text` are the scenario's bytes, `until` is by the monotonic clock."""

    def __init__(self, text, workers, seconds):
        self.text, self.workers, self.sc = text, workers, None
        self.began = time.monotonic()
        self.until, self.said = self.began + seconds, ""

    def ask(self, word, given, *behind):
        """What the program answers. Raises Refused, and program.OutOfTime where the time is over before. What it says of an unproved
        run is said once."""
        left = self.until - time.monotonic()
        if left <= 0:
            raise program.OutOfTime
        answer, note = accepted.asked(word, given, *behind, seconds=left)
        if note and note != self.said:
            self.said = note
            running.say(note)
        return answer

    def round(self, number, word, records):
        """A round by `gap` or `plan` with so many records. Raises as `ask` does."""
        text = self.ask(word, self.text, "--workers", self.workers, "--nodes", str(records))
        try:
            self.sc = self.sc or forms.read_scenario(self.text, True)[0]
            plan = accepted.head(text, self.sc)
        except (forms.Fault, forms.Wrong, AttributeError) as why:
            raise Refused(Status.FAILED, f"what osp {word} answered isn't understood: {why}") from None
        path = [self.sc.positions[it].decode("ascii") for it in plan.path]
        return Round(number, text, plan, path, text.count(b"\nO "), time.monotonic() - self.began)

    def rounds(self):
        """The rounds, the last of which may be one of `plan`; the one in which nothing waits ends them, and then its text as a plan's.
        Raises as `ask` does."""
        number, records = 1, FEWEST
        while True:
            it = self.round(number, "gap", records)
            yield it
            if not it.waiting:
                yield dataclasses.replace(it, text=self.closed(it.text))
                return
            if records == limits.MOST_GAP_RECORDS:
                yield self.round(number + 1, "plan", limits.MOST_NODES)
                return
            number, records = number + 1, min(2 * records, limits.MOST_GAP_RECORDS)

    def closed(self, gap):
        """The text of the plan that a gap plan is in which nothing waits, and which `check` accepts. Raises as `ask` does."""
        _, path, chance, _, rest = gap.split(b"\n", 4)
        text = b"\n".join((forms.plan_line(self.sc), path, chance, rest))
        try:
            verdict = self.ask("check", accepted.joined(self.text, text))
        except Refused as why:
            raise Refused(Status.FAILED, f"osp check refuses what osp gap wrote, please tell the project, with the scenario: {why.said}") from None
        if verdict != b"accepted\n":
            raise Refused(Status.FAILED, f"osp check answered neither accepted nor a reason: {verdict[:80]!r}")
        return text


# ---- what is said


def shares(it):
    """What a round finds and its ceiling, in percent."""
    up = percent.up if it.plan.ceiling > it.plan.value else percent.cut
    return f"chance {percent.cut(it.plan.value, it.plan.weight)} % ceiling {up(it.plan.ceiling, it.plan.weight)} %"


def line_of(it):
    """What a round says on a terminal."""
    return f"osp plan: {shares(it)} (round {it.number}, {it.plan.nodes} records, {it.seconds:.1f} s)"


def json_of(it):
    """A round as a line of JSON, with its keys in the order of their bytes. V, W and the ceiling are texts of their decimals."""
    told = {
        "ceiling": str(it.plan.ceiling),
        "chance": str(it.plan.value),
        "path": it.path,
        "records": it.plan.nodes,
        "round": it.number,
        "waiting": it.waiting,
        "weight": str(it.plan.weight),
    }
    return json.dumps(told, sort_keys=True, separators=(",", ":")) + "\n"


def told(it, why):
    """What is said of a gap plan that was kept."""
    return f"osp plan: {why}: {shares(it)}, by a gap plan of {it.plan.nodes} records, which osp checkgap accepts"


# ---- running


class Keeper:
    """Keeps the best round: in the file that is named, after each round, else up to the end."""

    def __init__(self, asked):
        self.asked, self.best, self.told = asked, None, 0

    def take(self, it):
        """Takes a round, and tells it. Raises Refused where it can't be written."""
        if it.is_better(self.best):
            self.best = it
            self.write(it.text)
        if it.number == self.told:
            return
        self.told = it.number
        if running.is_terminal():
            running.say(line_of(it))
        if self.asked.is_json and running.write(json_of(it)) != Status.DONE:
            raise Refused(Status.UNWRITABLE, "")

    def write(self, text):
        """Lets the file hold a text, where one is named."""
        if self.asked.target is None:
            return
        try:
            outfile.replace(self.asked.target, text)
        except OSError as why:
            raise Refused(Status.UNWRITABLE, f"{accepted.shown(self.asked.target)} cannot be written: {why.strerror}") from None

    def end(self, why):
        """Answers the exit status, and writes the text to standard output where no file is named. Of a gap plan it is said `why` the
        rounds ended."""
        if self.best.is_gap:
            running.say(told(self.best, why))
        written = Status.DONE if self.asked.target is not None else running.write_bytes(self.best.text)
        return written or (Status.GAP_WRITTEN if self.best.is_gap else Status.DONE)


def searched(asked, keeper):
    """Goes through the rounds, and answers why they ended. Raises Refused where there is nothing to keep."""
    text = accepted.read_file(asked.file)
    timed = Timed(text, asked.workers, asked.seconds)
    try:
        for it in timed.rounds():
            keeper.take(it)
    except program.OutOfTime:
        return "the time is over"
    except stopping.Stopped:
        if keeper.best is None:
            raise
        return "stopped"
    except Refused as why:
        if keeper.best is None or why.status in (Status.UNWRITABLE, Status.FAILED):
            raise
        return why.said
    return "nothing waits"


def taken(words):
    """What the words ask for. Raises BadWords."""
    files, found = WORDS.taken(words)
    if len(files) > 1:
        raise BadWords(f"one scenario is planned, and here are {len(files)} files")
    times = [(it, found[it]) for it in ("--seconds", "--minutes") if found[it] is not None]
    if len(times) != 1:
        raise BadWords("one of --seconds and --minutes stands, as in --seconds 60")
    ((option, word),) = times
    each = 60 if option == "--minutes" else 1
    seconds = each * WORDS.number(option, word, 1, LONGEST // each)
    workers = WORDS.number("--workers", found["--workers"] or "4", 1, limits.MOST_WORKERS)
    if found["--json"] not in (None, "yes"):
        raise BadWords("behind --json stands yes")
    if found["--json"] and found["-o"] is None:
        raise BadWords("with --json yes the plan goes to a file: write -o FILE")
    return Asked(files[0] if files else "-", seconds, str(workers), found["-o"], found["--json"] is not None)


def main(words):
    """Runs the helper; answers its exit status."""
    try:
        asked = taken(words)
    except BadWords as wrong:
        return WORDS.refuse(wrong)
    keeper = Keeper(asked)
    try:
        why = searched(asked, keeper)
    except Refused as refused:
        running.say("\n".join(filter(None, [refused.note, refused.said and f"osp plan: {refused.said}"])))
        return refused.status
    if keeper.best is None:
        running.say("osp plan: the time was over before the first round, and nothing was written: give it more")
        return Status.NOTHING_YET
    return keeper.end(why)
