"""What the words of the script lead to: a command of the proved program, a helper of the desk, or the script's own words."""
import os
import sys

from door import files, place, saying, signals, table, words
from door.files import Target
from door.place import called
from door.running import KEPT, copy, created, run_instead, run_whole, attend
from door.saying import Ended, fail, shown, tell, wrong

# A little more than the program reads of any input.
MOST_READ = 512 << 20
# How a helper is run: neither the folder where one stands nor what is set for another Python counts (-I), and nothing is kept (-B).
DESK = [sys.executable or "python3", "-I", "-B", f"{place.HERE}/desk/__main__.py"]


class Input:
    """What a command reads: the files that are named, and whether a person types it."""

    def __init__(self, sorted_words):
        self.of, self.files, self.is_typed = sorted_words, sorted_words.files, False

    def reads_standard(self):
        """Whether standard input is read."""
        return not self.files or "-" in self.files

    def see(self):
        """Ends the script where one can't be read, and says where a person types."""
        for it in self.files:
            files.see_file(it)
        if not self.reads_standard():
            return
        example = f"{called()} {self.of.command} {' '.join(self.of.form.inputs)}"
        if not saying.is_open(0):
            fail(f"standard input is closed; give it a file, as in {example}")
        if os.isatty(0):
            self.is_typed = True
            tell(f"osp: reads from the terminal, up to Ctrl-D; a file is given as in {example}")

    def open(self, target):
        """Lets standard input be what is named: a file, or a scenario, a line feed where it lacks its last one, and a plan."""
        if not self.of.form.inputs:
            return
        self.see()
        if len(self.files) > 1:
            if self.files == ["-", "-"]:
                wrong("standard input can be read only once: one of the two is a file")
            self.join(target)
        elif self.files not in ([], ["-"]):
            found = files.opened(self.files[0], target)
            os.dup2(found, 0)
            os.close(found)

    def join(self, target):
        """Lets standard input be both files."""
        whole = created(f"{KEPT.make_room()}/input")
        self.take(self.files[0], whole, target)
        if os.lseek(whole, 0, os.SEEK_CUR) and os.pread(whole, 1, os.lseek(whole, 0, os.SEEK_CUR) - 1) != b"\n":
            saying.put(whole, b"\n")
        self.take(self.files[1], whole, target)
        os.lseek(whole, 0, os.SEEK_SET)
        os.dup2(whole, 0)
        os.close(whole)

    def take(self, name, whole, target):
        """Puts a part of the input behind what is there."""
        found = files.opened(name, target)
        try:
            copy(found, whole, MOST_READ)
        except OSError:
            fail(f"{shown(name)} cannot be read to its end, or not be kept in the folder for temporary files")
        finally:
            os.close(found)


# ---- a command


def other_command(sorted_words):
    """The command that reads the plan that is named, where it is of the other family than those that this one reads; else ""."""
    if len(sorted_words.files) != 2 or not files.is_plain(sorted_words.files[1]):
        return ""
    try:
        with open(sorted_words.files[1], "rb", buffering=0) as file:
            begins = file.read(5).replace(b"\0", b"")
    except OSError:
        return ""
    if sorted_words.command == "checkgap":
        return "check" if begins.startswith(b"plan ") else ""
    return "checkgap" if sorted_words.command in ("check", "report", "convert") and begins.startswith(b"gap ") else ""


def name_other(status, other, sorted_words):
    """Behind a refusal names the command that takes what was given, if there is one."""
    if status == 4 and other:
        what = "a plan" if other == "check" else "a gap plan"
        scenario, plan = map(shown, sorted_words.files)
        tell(f"osp: {plan} is {what}, which {sorted_words.command} does not read: {called()} {other} {scenario} {plan} reads it")


def name_explain(status, sorted_words, reads_standard):
    """Behind a refusal names what says more, on a terminal. Of the words those from `flown` or `start` on, as explain takes them."""
    count = {3: 1, 4: 2, 10: 1, 11: 1}.get(status)
    if count is None or not os.isatty(2):
        return
    names = ["SCENARIO", "PLAN"] if reads_standard else sorted_words.files
    rest = sorted_words.rest if status in (10, 11) else []
    tell(f"osp: {called()} explain {' '.join([*map(shown, names[:count]), *map(shown, rest)])} says more")


def unmake_input(sorted_words):
    """Lets replan and map read the scenario alone of a file that has its plan behind it, as replan and duo write both."""
    if sorted_words.command not in ("replan", "map") or len(sorted_words.files) != 1 or not files.has_plan(sorted_words.files[0]):
        return
    alone = created(f"{KEPT.make_room()}/alone")
    status = attend([*DESK, "alone", "--", sorted_words.files[0]], out=alone)
    if status:
        raise Ended(status)
    os.lseek(alone, 0, os.SEEK_SET)
    os.dup2(alone, 0)
    os.close(alone)


def run_command(row, given):
    """Runs the proved program on what is read, or the sources where there is none. Answers its exit status."""
    it = words.Sorted(row, given)
    other, target, reads = other_command(it), Target(it.target), Input(it)
    target.see(it.files)
    KEPT.hold(target)
    reads.open(target)
    unmake_input(it)
    status = run_judged(it, reads, not other)
    name_other(status, other, it)
    name_explain(status, it, reads.reads_standard())
    return finish(it.command, status)


def run_judged(it, reads, is_last):
    """Runs the program where it is proved, else the sources."""
    from door import sources

    why, edits = sources.judged()
    if why and place.IS_RELEASE:
        fail(f"{why}: unpack or install it anew")
    if why:
        from door import unproved

        return unproved.run(why, it, bool(it.form.inputs))
    if edits:
        tell(f"osp: this program was proved before these edits, which leave its code as it is: {edits[0]} .. (./osp build proves them)")
    return run_whole([place.PROGRAM, *it.words], reads.is_typed, is_last)


def finish(command, status):
    """Keeps what was written where that is an answer: a rejection is the answer of check. Answers the exit status."""
    target = KEPT.target
    if target and (status == 0 or (status in table.ANSWERS.get(command, ()) and target.size())):
        with signals.held():
            target.keep()
    return status


# ---- a helper


def run_helper(given):
    """Runs a helper, and answers its exit status."""
    behind, name = words.of_helper(given)
    target = Target(name)
    target.see(behind[1:])
    target.tell()
    if not os.environ.get("OSP"):
        os.environ.pop("OSP", None)
    if words.is_timed(given) or behind[0] == "chart":
        # The one replaces the file after each round, and ends at a signal with what it has; the other goes by the ending of its name.
        run_instead([*DESK, behind[0], *(["-o", name] if target.end else []), *behind[1:]])
    KEPT.hold(target)
    return finish(behind[0], run_whole([*DESK, *behind], False, True))


# ---- what to run


def run_page(name):
    """Shows the page of a command, or of one of the script's own words."""
    from door import pages

    saying.write(pages.page_text(name))
    return 0


def run_named(given):
    """Runs what the first word names. Answers the exit status."""
    if words.is_timed(given):
        return run_helper(given)
    if row := table.found(table.COMMANDS, given[0]):
        try:
            return run_command(row, given[1:])
        except words.PageWanted:
            return run_page(given[0])
    if table.found(table.HELPERS, given[0]):
        return run_helper(given)
    from door import own

    return own.run(given)


def run(given):
    """Runs the script's words, and answers the exit status."""
    if given:
        return run_named(given)
    from door import pages

    saying.tell_part(pages.help_text())
    return saying.WRONG_WORDS


def main(given):
    """Runs the script's words, and ends the process with their status, or by a signal that came."""
    # (What was told to the process that runs this isn't for those that it starts.)
    os.environ.pop(files.TOLD, None)
    signals.unwatch()
    signals.see_children()
    saying.see_streams()
    try:
        status = run(given)
    except Ended as it:
        if it.line:
            tell(f"osp: {it.line}")
        status = it.status
    except signals.Stopped as it:
        stop(it.number)
    except (OSError, MemoryError) as why:
        tell(f"osp: {why if str(why) else 'memory ran out'}")
        status = saying.FAILED
    end(status)


def end(status):
    """Clears up, and ends the process. (Nothing is left to be written.)"""
    try:
        KEPT.clean()
    except signals.Stopped as it:
        stop(it.number)
    os._exit(status)


def stop(number):
    """Clears up, and ends by a signal."""
    with signals.held():
        KEPT.end_children()
        KEPT.clean()
        signals.end_by(number)
    os._exit(128 + number)
