"""./osp split DEPTH SCENARIO FOLDER [--jobs N]: a plan in parts, for more than one machine: a folder with a job for each legal prefix of
DEPTH positions, which finds the best path that begins with it. `join` takes together what the jobs write."""
import os
import re
import shlex
import shutil
import tempfile

from desk import accepted, outfile, parts, program, quoting, running, stopping
from desk.accepted import Refused
from desk.status import Status
from desk.words import BadWords, Words

WORDS = Words(
    "split",
    "split DEPTH SCENARIO FOLDER [--jobs N]",
    "makes a folder of jobs for several machines: a part of the plan for each way to begin with DEPTH looks",
    ("DEPTH", "how many looks of a path its prefix has, 1 to the periods of the scenario"),
    ("SCENARIO", "the scenario's file"),
    ("FOLDER", "the folder that is made; it may be there already where it is empty"),
    ("--jobs N", "how many jobs there may be; 1000 where it is not given"),
)
# How many jobs there may be where --jobs doesn't say.
FEW = 1000
# The greatest number that may stand behind --jobs: there are fewer jobs than that in any case (desk.parts).
MOST_SAID = 9_999_999
# The script of a job, with the place of the program that stands here. Its -o is what leaves a file whole or not at all.
SCRIPT = """\
#!/bin/sh
# A job of osp split, which is run in this folder: sh job PART NAME .. plans what begins with these positions, and writes PART. Where
# PART is there, nothing is done; a job that is cut off leaves none. It runs the osp that OSP names, else the one that split, where that
# stands on this machine, else that of the PATH. --workers may be changed here: osp join takes what osp check accepts.
part=$1
shift
[ ! -e "$part" ] || exit 0
mkdir -p %(parts)s
exec "${OSP:-$(command -v %(osp)s || echo osp)}" replan %(scenario)s --workers 1 -o "$part" flown "$@"
"""


def options(words):
    """DEPTH, SCENARIO, FOLDER and N of the words. Raises BadWords."""
    files, found = WORDS.taken(words)
    if len(files) != 3 or not all(files):
        raise BadWords(f"DEPTH, SCENARIO and FOLDER are needed, and here {'is' if len(files) == 1 else 'are'} {len(files)} of them")
    if not re.fullmatch("[0-9]{1,20}", files[0], re.ASCII):
        raise BadWords(f"DEPTH is a whole number, and not {ascii(files[0])[1:-1]}")
    return *files, FEW if found["--jobs"] is None else WORDS.number("--jobs", found["--jobs"], 1, MOST_SAID)


def length(sc, word, most):
    """The length of prefixes that DEPTH says, where there are at most so many of them. Raises Refused."""
    said = parts.length(sc, word)
    if said is None:
        raise Refused(Status.WRONG_WORDS, f"{word} cannot stand for DEPTH: a whole number from 1 to {sc.horizon}, the periods of the scenario, can")
    count = parts.count(sc, said)
    if count > parts.MOST:
        raise Refused(Status.WRONG_WORDS, f"that would be {count:,} jobs, and {parts.MOST:,} are the most: take a smaller DEPTH")
    if count > most:
        raise Refused(Status.WRONG_WORDS, f"that would be {count:,} jobs, and {most:,} are allowed: take a smaller DEPTH, or write --jobs {count}")
    return said


def prefixes(sc, word, most):
    """The prefixes by the names of their parts, at most so many. Raises Refused, also where no scenario forces them."""
    found = parts.named(sc, length(sc, word, most))
    if why := parts.not_forced(sc, found):
        raise Refused(Status.BAD_FLOWN, why)
    return found


def files(text, sc, word, found):
    """What is in the folder, by name."""
    jobs = "".join(f"sh {parts.JOB} {name} {parts.words(sc, it)}\n" for name, it in found.items())
    script = SCRIPT % {"parts": parts.PARTS, "osp": shlex.quote(program.OSP), "scenario": parts.SCENARIO}
    return {parts.SCENARIO: text, parts.DEPTH: f"{word}\n".encode("ascii"), parts.JOB: os.fsencode(script), parts.JOBS: jobs.encode("ascii")}


def put(folder, contents):
    """Makes a folder of these files, and an empty one for the parts, whole or not at all. Raises Refused."""
    end, beside = os.path.realpath(folder), None
    with stopping.held():
        try:
            beside = tempfile.mkdtemp(prefix=".osp-", dir=os.path.dirname(end))
            os.mkdir(os.path.join(beside, parts.PARTS))
            for name, text in contents.items():
                with open(os.path.join(beside, name), "wb") as file:
                    file.write(text)
            os.chmod(beside, 0o777 & ~outfile.mask())
            # (An empty folder is replaced, and no other one.)
            os.rename(beside, end)
        except OSError as why:
            shutil.rmtree(beside or "", ignore_errors=True)
            raise Refused(Status.UNWRITABLE, f"the folder {accepted.shown(folder)} cannot be made: {why.strerror}") from None


def told(folder, count):
    """What is said of the jobs, and of what comes next."""
    name, jobs = quoting.shell(folder), quoting.counted(count, "job")
    return f"{jobs} in {name}: to run them, there:\n  xargs -d '\\n' -n 1 -P $(nproc) sh -c < {parts.JOBS}\nthen, here:\n  osp join {name}\n"


def main(words):
    """Runs the helper; answers its exit status."""
    try:
        word, scenario, folder, most = options(words)
    except BadWords as wrong:
        return WORDS.refuse(wrong)
    try:
        text, sc = parts.scenario(scenario)
        found = prefixes(sc, word, most)
        put(folder, files(text, sc, word, found))
    except Refused as why:
        running.say(f"osp split: {why.said}")
        return why.status
    return running.write(told(folder, len(found)))
