"""./osp build: proves and builds the program; and what stands here: its version, its commit, and how it was proved."""
import datetime
import os
import subprocess
import sys
import time

from door import kit, saying, sources
from door.place import HERE, IS_RELEASE, PROGRAM
from door.running import KEPT, begin, created, end_of, time_of
from door.saying import fail, tell

ONE_CELL = f"{HERE}/examples/one-cell"
OUT = f"{HERE}/crates/osp/out"
# How many lines of the log are shown of a build that failed, and how often the time of a crate is told, in seconds.
SHOWN, EACH = 12, 0.2


def quiet(*words, **how):
    """What a program writes, without what it says; "" where it fails."""
    how = {"stdin": subprocess.DEVNULL, "stdout": subprocess.PIPE, "stderr": subprocess.DEVNULL, "check": False, **how}
    try:
        done = subprocess.run(words, **how)
    except OSError:
        return ""
    return "" if done.returncode else os.fsdecode(done.stdout).rstrip("\n")


# ---- what stands here


def minute():
    """This minute."""
    return datetime.datetime.now().strftime("%Y-%m-%d %H:%M")


def version():
    """The version."""
    with open(f"{HERE}/VERSION", encoding="utf-8") as file:
        return file.readline().rstrip("\n")


def commit():
    """The commit of a checkout, or of the release, and whether files were edited since."""
    if IS_RELEASE:
        with open(f"{HERE}/RELEASE", encoding="utf-8") as file:
            return next((it.removeprefix("commit ").rstrip("\n") for it in file if it.startswith("commit ")), "")
    name = quiet("git", "-C", HERE, "rev-parse", "--short=12", "HEAD")
    if not name or quiet("git", "-C", HERE, "rev-parse", "--show-toplevel") != HERE:
        return "unknown"
    edits = quiet("git", "-C", HERE, "status", "--porcelain", env={**os.environ, "GIT_OPTIONAL_LOCKS": "0"})
    return f"{name}, with edits" if edits else name


def moment():
    """The time of a release, in seconds, so that the same sources give the same bytes: that of the commit, or of the program's sums."""
    if IS_RELEASE:
        return int(os.stat(f"{HERE}/RELEASE").st_mtime)
    told = quiet("git", "-C", HERE, "log", "-1", "--format=%ct") if commit() != "unknown" else ""
    return int(told) if told else int(os.stat(f"{PROGRAM}.sums").st_mtime)


def day():
    """Its day."""
    return datetime.datetime.fromtimestamp(moment(), datetime.timezone.utc).strftime("%Y-%m-%d")


def proved_by():
    """How the program was proved, or why a run is unproved."""
    why, edits = sources.judged()
    if why:
        return f"unproved: {why}"
    return f"{sources.recorded()[0]}{', before edits of definitions or proofs' if edits else ''}"


def version_text():
    """What --version says."""
    return f"osp {version()}\ncommit {commit()}\n{proved_by()}\n"


def gate_text():
    """The lines of GATE for these sources."""
    return f"kit {kit.name()}\ndate {datetime.date.today()}\ncommit {commit()}\nsum {sources.sum_of_sums()}\n"


# ---- what is built


def plans_one_cell():
    """Whether the program plans the smallest example as it has to."""
    with open(f"{ONE_CELL}.scenario", "rb") as given:
        try:
            done = subprocess.run([PROGRAM, "plan"], stdin=given, stdout=subprocess.PIPE, stderr=subprocess.DEVNULL, check=False)
        except OSError:
            return False
    return done.stdout == sources.read(f"{ONE_CELL}.plan")


def record(how):
    """Writes beside the program what it was built from: a line on how, the program's own checksum, and those of the files."""
    lines = [how, sources.checksum(PROGRAM), *sources.sums()]
    with open(f"{PROGRAM}.new-sums", "wb") as file:
        file.write(os.fsencode("".join(f"{it}\n" for it in lines)))
    os.replace(file.name, f"{PROGRAM}.sums")


def is_made(ending):
    """Whether a file that was made of the program stands beside it, and is that program's: its ending is `wasm` or `aarch64`."""
    made = f"{PROGRAM}.{ending}"
    if not os.path.isfile(made) or not os.path.isfile(f"{made}.sums"):
        return False
    return sources.read(f"{made}.sums").decode("utf-8", "replace").split() == [sources.checksum(it) for it in (PROGRAM, made)]


def build_web():
    """Makes the module beside the program, which the pages of show carry, and says what came of it. Without it nothing else is lacking."""
    if is_made("wasm"):
        return
    words = [sys.executable, "-B", f"{HERE}/door/web/build.py", f"{PROGRAM}.wasm"]
    if end_of(begin(words, err=1, given=os.open(os.devnull, os.O_RDONLY))):
        saying.write("so the pages of show carry no program\n")


class Steps:
    """The steps of a build: the crates, each in its turn."""

    def __init__(self, crates, log):
        self.crates, self.log, self.is_terminal = crates, log, os.isatty(1)

    def run(self, at, words, out, given):
        """Builds a crate by a program, in the crate's folder, and says how long it took."""
        name, began = self.crates[at], time.monotonic()
        head = f"[{at + 1:2}/{len(self.crates)}] {name:16}"
        saying.write(head)
        saying.put(self.log, f"== {name}\n".encode())
        process = begin(words, out=self.log if out is None else out, err=self.log, folder=f"{HERE}/crates/{name}", given=given)
        status = self.wait(process, head, began)
        if not status:
            saying.write(f" {time_of(int(time.monotonic() - began))}\n")
            return
        saying.write(" failed\n")
        saying.tell_part("".join(os.fsdecode(it) for it in sources.read(f"{OUT}/build.log").splitlines(True)[-SHOWN:]))
        note = kit.about()
        fail(f"{name} isn't proved or built; crates/osp/out/build.log has all that rt said{f' ({note})' if note else ''}")

    def wait(self, process, head, began):
        """Waits for a program, on a terminal with the time that it takes; answers its exit status."""
        while self.is_terminal and not os.waitid(os.P_PID, process, os.WEXITED | os.WNOHANG | os.WNOWAIT):
            saying.write(f"\r{head} {time_of(int(time.monotonic() - began))} ")
            time.sleep(EACH)
        if self.is_terminal:
            saying.write(f"\r{head}")
        return end_of(process)


def new_log():
    """A descriptor of the log of a build."""
    try:
        os.makedirs(OUT, exist_ok=True)
        return os.open(f"{OUT}/build.log", os.O_WRONLY | os.O_CREAT | os.O_TRUNC | os.O_APPEND, 0o666)
    except OSError:
        fail("crates/osp/out cannot be written: is the checkout writable?")


def prove(crates):
    """Proves all crates, and builds the program."""
    steps, nothing = Steps(crates, new_log()), os.open(os.devnull, os.O_RDONLY)
    for at in range(len(crates) - 1):
        steps.run(at, ["rt", "lib"], None, nothing)
    # The last crate is the program. It is proved, built, and run once on a small scenario.
    plan = created(f"{KEPT.make_room()}/plan")
    steps.run(len(crates) - 1, ["rt", "run", "--", "plan"], plan, os.open(f"{ONE_CELL}.scenario", os.O_RDONLY))
    if sources.read(f"{KEPT.room}/plan") != sources.read(f"{ONE_CELL}.plan"):
        fail("the program was built, but its plan of examples/one-cell.scenario is not one-cell.plan")


def build():
    """Proves and builds the program, and says which crate of how many it is at."""
    if IS_RELEASE:
        fail("this program is proved and built already; its sources come with the repository")
    if sources.changed() == []:
        saying.write(f"crates/osp/out/osp is built from these sources: {sources.recorded()[0]}\n")
        build_web()
        return
    kit.need("nothing was built")
    KEPT.make_room()
    began, before, crates, note = time.monotonic(), sources.sum_of_sums(), list(sources.crate_lines()), kit.about()
    if note:
        tell(f"osp: {note}")
    saying.write(f"osp: {kit.name()} proves {len(crates)} crates, the lowest first, and builds the program\n")
    prove(crates)
    if before != sources.sum_of_sums():
        fail("files changed during the build: run ./osp build again")
    how = f"proved and built by {kit.name()} on {minute()}, in {time_of(int(time.monotonic() - began))}"
    try:
        record(how)
    except OSError:
        fail("crates/osp/out cannot be written")
    saying.write(f"crates/osp/out/osp is {how}\n")
    build_web()
