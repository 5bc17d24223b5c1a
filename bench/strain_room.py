"""One hostile run of ./osp for bench/strained: a room of its own with files, the run, and what is wrong with how it ended."""
import dataclasses
import hashlib
import os
import re
import signal
import stat
import subprocess
import tempfile
import threading
import time

from bench.runs import TOP

OSP = os.path.join(TOP, "osp")
# How many seconds a run may take before it is said to hang, and how long what it began gets to end behind it.
SECONDS, GRACE = 180, 3
# The file that no run may make: texts and names have commands in them that would.
CANARY = "CANARY"
# The statuses by command, as docs/COMMANDS.md has them; `timed` is plan with --seconds or --minutes.
STATUSES = {
    **dict.fromkeys(("plan", "gap"), {0, 2, 3, 5, 6, 7, 8, 9, 70}),
    **dict.fromkeys(("check", "checkgap", "report", "convert"), {0, 1, 2, 3, 4, 5, 6, 7, 9, 70}),
    "make": {0, 2, 6, 7, 70},
    "drill": {0, 2, 6, 7, 8, 70},
    "replan": {0, 2, 3, 5, 6, 7, 8, 9, 10, 70},
    "map": {0, 2, 3, 5, 6, 7, 9, 10, 70},
    "duo": {0, 2, 3, 5, 6, 7, 8, 9, 11, 70},
    "timed": {0, 2, 3, 5, 6, 7, 8, 9, 12, 13, 70},
    "draft": {0, 1, 2, 5, 6, 9, 70},
    "explain": {0, 1, 2, 3, 4, 5, 6, 7, 8, 9, 10, 11, 70},
    **dict.fromkeys(("trial", "next", "show", "brief", "chart", "join"), {0, 1, 2, 3, 4, 5, 6, 7, 9, 70}),
    "vary": {0, 1, 2, 3, 4, 5, 6, 7, 8, 9, 70},
    "split": {0, 2, 3, 5, 6, 7, 9, 10, 70},
    "page": {0, 2, 6, 70},
}
# Any other word: help, versions, and what is no command.
OTHER = {0, 2, 6, 70}
# Of which statuses something may stand on standard output, and of which the file behind -o may be another one than before.
ANSWERED, WRITTEN = {0, 1, 6, 7, 12}, {0, 12}
# What no line on standard error may have: traces of Python, the shell's own complaints, tools that failed.
NEVER_SAID = re.compile(
    rb"Traceback|most recent call last|Exception ignored|Fatal Python|Warning:|panicked|Segmentation|osp: line \d+:|\.bash: line|"
    rb"unbound variable|command not found|^(?:mv|cat|head|tail|mktemp|chmod|sync|awk|sed|grep|rm|wc): |\w+Error: ",
    re.MULTILINE,
)
STEERS = re.compile("[\x00-\x08\x0b-\x1f\x7f-\x9f\u061c\u200e\u200f\u2028-\u202e\u2066-\u2069\udc80-\udcff]")
# The longest text on standard error, in bytes.
LONGEST_SAID = 20_000


@dataclasses.dataclass
class Case:
    """A run: what is tried, the words behind ./osp, and the files of its folder by name, as bytes. `line` is a line of bash that runs it as
    "$0" "$@"; `given` its standard input. `made` are names that it may make or change, `out` the one behind -o, which changes where the
    answer is written alone. `links` and `pipes` stand in the folder, too. `more` are statuses beside the documented ones, `wanted` the
    only ones, where these are known. A signal of a number is sent behind so many seconds."""

    kind: str
    words: list
    files: dict
    line: str | None = None
    given: bytes | None = None
    made: tuple = ()
    out: str | None = None
    links: dict = dataclasses.field(default_factory=dict)
    hard: dict = dataclasses.field(default_factory=dict)
    pipes: tuple = ()
    env: dict = dataclasses.field(default_factory=dict)
    drop: tuple = ()
    more: frozenset = frozenset()
    wanted: frozenset | None = None
    signal: tuple | None = None

    @property
    def told(self):
        """The case on one line."""
        words = " ".join(ascii(it)[:60] for it in self.words)
        return f"{self.kind}: osp {words}" + (f" | {self.line}" if self.line else "") + (f" | {self.env}"[:120] if self.env else "")

    @property
    def command(self):
        """What the words ask for, as a key of STATUSES."""
        is_timed = self.words[:1] == ["plan"] and any(it.startswith(("--seconds", "--minutes")) for it in self.words)
        return "timed" if is_timed else self.words[0] if self.words else ""

    @property
    def statuses(self):
        """The statuses with which it may end."""
        return self.wanted if self.wanted is not None else STATUSES.get(self.command, OTHER) | self.more


@dataclasses.dataclass
class Ended:
    """How a run ended: its status (None where it hung), its output, what it said, and what of it went on."""

    status: int | None
    out: bytes
    said: bytes
    left: list


def put(folder, case):
    """Fills a folder with what a case has in it."""
    for name, text in case.files.items():
        path = os.path.join(os.fsencode(folder), os.fsencode(name))
        os.makedirs(os.path.dirname(path), exist_ok=True)
        with open(path, "wb") as file:
            file.write(text)
    for name, to in case.links.items():
        os.symlink(to, os.path.join(folder, name))
    for name, to in case.hard.items():
        os.link(os.path.join(folder, to), os.path.join(folder, name))
    for it in case.pipes:
        os.mkfifo(os.path.join(folder, it))


def filled(room, case):
    """The folder for a case in a room, with what it has in it, and that as `seen` has it."""
    folder = os.path.join(room, "here")
    for it in (folder, f"{room}/tmp"):
        os.mkdir(it)
    put(folder, case)
    return folder, seen(folder)


def seen(folder):
    """What stands in a folder and below, by name: for a file its rights and the sum of its bytes, for a link where it leads."""
    found = {}
    for top, folders, names in os.walk(folder):
        for it in (*folders, *names):
            path = os.path.join(top, it)
            told = os.lstat(path)
            kind, text = stat.S_IFMT(told.st_mode), b""
            if stat.S_ISREG(told.st_mode):
                with open(path, "rb") as file:
                    text = file.read()
            link = os.readlink(path) if stat.S_ISLNK(told.st_mode) else ""
            found[os.path.relpath(path, folder)] = kind, told.st_mode & 0o7777 if not link else 0, hashlib.sha256(text).digest(), link
    return found


def going(mark):
    """The numbers of the processes whose environment has a mark."""
    found = []
    for it in filter(str.isdigit, os.listdir("/proc")):
        try:
            with open(f"/proc/{it}/environ", "rb") as file:
                if mark in file.read().split(b"\0"):
                    found.append(int(it))
        except OSError:
            pass
    return found


def ended_all(mark):
    """The processes with a mark that go on behind the time they have; they are killed."""
    until = time.monotonic() + GRACE
    while (left := going(mark)) and time.monotonic() < until:
        time.sleep(0.05)
    for it in left:
        try:
            os.kill(it, signal.SIGKILL)
        except OSError:
            pass
    return left


def run(folder, room, case, mark):
    """Runs a case in a folder; its standard streams are files of the room. Answers how it ended."""
    env = {"PATH": "/usr/bin:/bin", "HOME": room, "LANG": "C.UTF-8", "TMPDIR": f"{room}/tmp", **case.env, "STRAINED": mark}
    env = {name: value for name, value in env.items() if name not in case.drop}
    command = [OSP, *case.words] if case.line is None else ["bash", "-c", case.line, OSP, *case.words]
    with open(f"{room}/in", "w+b") as given, open(f"{room}/out", "w+b") as out, open(f"{room}/err", "w+b") as err:
        given.write(case.given or b"")
        given.seek(0)
        streams = {"stdin": given if case.given is not None else subprocess.DEVNULL, "stdout": out, "stderr": err}
        with subprocess.Popen(command, cwd=folder, env=env, start_new_session=True, **streams) as begun:
            sent = threading.Timer(case.signal[1], begun.send_signal, case.signal[:1]) if case.signal else None
            if sent:
                sent.start()
            try:
                status = begun.wait(SECONDS)
            except subprocess.TimeoutExpired:
                status = None
                os.killpg(begun.pid, signal.SIGKILL)
            if sent:
                sent.cancel()
        left = ended_all(f"STRAINED={mark}".encode())
        out.seek(0)
        err.seek(0)
        return Ended(status, out.read(), err.read(), left)


def faults_of_status(case, it):
    """What is wrong with a status, and with what stands on both streams for it."""
    if it.status is None:
        yield f"it hangs: {SECONDS} seconds were over"
        return
    if it.status not in case.statuses:
        yield f"status {it.status} is none of {sorted(case.statuses)}"
    is_told = case.command in ("check", "checkgap") and it.status == 1 or case.command == "explain" and (it.out or "-o" in case.words)
    # (Where standard error is closed or full, as files are with no room for a byte, nothing can be said.)
    can_say = not any(each in (case.line or "") for each in ("2>", "ulimit -f"))
    if it.status > 0 and not it.said.strip() and not is_told and can_say and not case.signal:
        yield f"status {it.status} without a line on standard error"
    if it.out and it.status not in ANSWERED and case.command != "explain" and not case.signal:
        yield f"status {it.status} with {len(it.out)} bytes on standard output"


def faults_of_text(it):
    """What is wrong with what was said."""
    if found := NEVER_SAID.search(it.said):
        yield f"it says {found[0].decode()!r}"
    if found := STEERS.search(it.said.decode("utf-8", "surrogateescape")):
        yield f"a raw {found[0]!a} on standard error"
    if len(it.said) > LONGEST_SAID:
        yield f"{len(it.said)} bytes on standard error"


def is_whole(case, now):
    """Whether the file behind -o is the one that the case writes without its signal, which may have come just behind it."""
    with tempfile.TemporaryDirectory(prefix="strained-") as room:
        folder, _ = filled(room, case)
        run(folder, room, dataclasses.replace(case, signal=None), "again")
        return seen(folder).get(case.out) == now.get(case.out)


def faults_of_files(case, it, before, now):
    """Which files were changed, made, left or lost that may not be."""
    may = {*case.made, *([case.out] if case.out else [])}
    for name in sorted({*before, *now}):
        if os.path.basename(name) == CANARY:
            yield "what stands in a text or a name was run"
        elif before.get(name) != now.get(name) and name not in may and not any(name.startswith(f"{each}/") for each in may):
            yield f"file {'left behind' if name not in before else 'lost' if name not in now else 'changed'}: {name!a}"
    is_answer = it.status in WRITTEN or case.command in ("check", "checkgap") and it.status == 1 or case.command in ("explain", "timed")
    if case.out and not is_answer and before.get(case.out) != now.get(case.out) and not (case.signal and is_whole(case, now)):
        yield f"status {it.status}, and the file behind -o is another one"


def faults(case, number):
    """Makes a room, runs a case in it, and answers how it ended and what is wrong with that."""
    with tempfile.TemporaryDirectory(prefix="strained-") as room:
        folder, before = filled(room, case)
        it = run(folder, room, case, f"{os.getpid()}.{number}")
        found = [*faults_of_status(case, it), *faults_of_text(it), *faults_of_files(case, it, before, seen(folder))]
        found += [f"left in TMPDIR: {name!a}" for name in os.listdir(f"{room}/tmp")]
        return it, found + [f"{len(it.left)} of its processes went on"] * bool(it.left)
