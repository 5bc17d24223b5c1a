"""A run without a proof: the sources are compiled and run at once by `rt try`."""
import os

from door import kit, saying
from door.place import HERE
from door.running import KEPT, Clock, attend, copy, created, show_file
from door.saying import fail, tell

# What `rt try` takes as input at most.
MOST_IN = 64 << 20
# How lines begin that `rt` itself says of the run.
OF_RT = (b"checked: ", b"interpreter: ", b"races: ", b"run=", b"rt: ")


def why_none(status, said):
    """Why `rt try` gave no answer, and what to do."""
    lines = said.decode("utf-8", "surrogateescape").splitlines()
    if any(it.startswith("checked: no-answer: the program wrote more than") for it in lines):
        return "an unproved run writes at most 1 MiB, and this output is longer; ./osp build makes the program, which has no such limit"
    if any(it.startswith("checked: no-answer: the program did not end within") for it in lines):
        return "an unproved run gets 60 seconds, and this one takes longer; ./osp build makes the program, which has no such limit"
    error = next((it for it in lines if "error[" in it), None)
    if error is not None:
        note = kit.about()
        return f"the sources don't compile; mend them: {error}{f' ({note})' if note else ''}"
    last = lines[-1] if lines else ""
    return f"the unproved run broke off; (cd crates/osp && rt try -- WORDS) shows it: rt ended with {status}, {last}"


def whole_input(room):
    """A descriptor of all that standard input has. (`rt try` takes what has come after two silent seconds for the whole input.)"""
    whole = created(f"{room}/in")
    try:
        copy(0, whole)
    except OSError:
        fail("standard input cannot be read to its end, or not be kept in the folder for temporary files")
    if os.fstat(whole).st_size > MOST_IN:
        fail("an unproved run reads at most 64 MiB; ./osp build makes the program, which reads all that docs/COMMANDS.md says")
    os.lseek(whole, 0, os.SEEK_SET)
    return whole


def run(why, of, reads):
    """Runs the words of a command, on what standard input has where the command reads. Answers the exit status."""
    if not KEPT.target:
        saying.needs_output()
    kit.need(why)
    tell(f"osp: unproved run, since {why}; it compiles first, for 20 to 60 seconds; ./osp build proves and builds the program")
    room = KEPT.make_room()
    given = whole_input(room) if reads else os.open(os.devnull, os.O_RDONLY)
    if not os.path.isdir(f"{HERE}/crates/osp"):
        fail(f"there is no folder {HERE}/crates/osp")
    with Clock(False):
        words = ["rt", "try", "--", *of.words]
        status = attend(words, out=created(f"{room}/out"), err=created(f"{room}/err"), folder=f"{HERE}/crates/osp", given=given)
    with open(f"{room}/err", "rb") as file:
        said = file.read()
    last = said.splitlines()[-1:] or [b""]
    if not (last[0].startswith(b"run=ended status=") and last[0].endswith(b" proved=no")):
        fail(why_none(status, said))
    saying.tell_part("".join(it.decode("utf-8", "surrogateescape") for it in said.splitlines(True) if not it.startswith(OF_RT)))
    try:
        show_file(f"{room}/out", KEPT.target.descriptor if KEPT.target else 1)
    except OSError:
        saying.cannot_write()
    return status
