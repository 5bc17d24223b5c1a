"""Files by name, which the script `osp` reads, and what -o writes."""
import os
import random
import stat
import subprocess
import sys
import tempfile
import unittest

from door import files, quoted
from tests.house import SIGNALS, TOP, UNPROVED, InHouse, read, run

SCENARIO, PLAN = "the scenario\n", "the plan\n"
# Names that a careless script would take for something else.
NAMES = ["lake", "a lake", " ", "-lake", "--workers", "lake*", "$HOME", "lake\nof mine", "lake\n", "\n", "lake\x1b[2J", "läke", "'", 'a"b', "\\"]


def named(name):
    """A name behind a command: one that begins with a dash needs its folder before it."""
    return f"./{name}" if name.startswith("-") else name


# In the place of the program: it tells what it reads, and counts it.
READER = '#!/bin/sh\necho "$*"\nexec od -An -c\n'


def as_read(*parts):
    return subprocess.run(["od", "-An", "-c"], input=b"".join(parts), capture_output=True, check=True).stdout.decode()


def reader(house):
    """A house whose program tells the bytes that it reads."""
    house.write("program", READER, 0o755)
    house.write("examples/one-cell.plan", f"plan\n{as_read(b'one cell', bytes([10]))}")
    return house


class Named(InHouse):
    """Files that are read."""

    def test_scenario(self):
        """a scenario by its name, with blanks, a leading dash or odd letters, is what the program reads"""
        for make in (lambda: None, self.house.built):
            make()
            for name in NAMES:
                self.house.write(f"files/{name}", SCENARIO)
                how = {**self.house.how(), "cwd": f"{self.house.at}/files"}
                wanted = f"words <plan>\n{SCENARIO}"
                run([self.house.script, "plan", named(name)], b"another\n", **how).gives(0, wanted)
                run([self.house.script, "plan", "--", name], b"another\n", **how).gives(0, wanted)
        run([self.house.script, "plan", "--workers", "2", "lake"], **how).gives(0, f"words <plan> <--workers> <2>\n{SCENARIO}", "")
        run([self.house.script, "plan", "lake", "--workers", "2"], **how).gives(0, f"words <plan> <--workers> <2>\n{SCENARIO}", "")
        self.house.leaves_nothing()

    def test_called_like_an_option(self):
        """a file called like an option is told to be one, by its name with its folder"""
        self.house.write("files/-lake", SCENARIO)
        run([self.house.script, "plan", "-lake"], **{**self.house.how(), "cwd": f"{self.house.at}/files"}).refuses("a file of that name is given as ./-lake")

    def test_scenario_and_plan(self):
        """a scenario and a plan by name come one behind the other, with a line feed between where it lacks"""
        reader(self.house)
        for make in (lambda: None, self.house.built):
            make()
            for scenario, between in ((b"s\n", b""), (b"s", b"\n"), (b"s\n\n", b""), (b"", b""), (b"s\r", b"\n"), (b"s\0", b"\n")):
                with open(f"{self.house.at}/a lake", "wb") as file:
                    file.write(scenario)
                with open(f"{self.house.at}/-plan", "wb") as file:
                    file.write(b"p")
                for command in ("check", "report", "convert"):
                    how = {**self.house.how(), "cwd": self.house.at}
                    ran = run([self.house.script, command, "a lake", "--", "-plan"], b"another\n", **how)
                    ran.gives(0, f"{command}\n{as_read(scenario, between, b'p')}")
            self.house.leaves_nothing()

    def test_standard_input(self):
        """- stands for standard input, in the place of either file"""
        reader(self.house).built()
        self.house.write("lake", SCENARIO)
        self.house.write("plan", PLAN)
        lake, plan = SCENARIO.encode(), PLAN.encode()
        self.house.run("plan", "-", given=lake).gives(0, f"plan\n{as_read(lake)}", "")
        self.house.run("check", f"{self.house.at}/lake", "-", given=plan).gives(0, f"check\n{as_read(lake, plan)}", "")
        self.house.run("check", "-", f"{self.house.at}/plan", given=lake).gives(0, f"check\n{as_read(lake, plan)}", "")
        self.house.leaves_nothing()

    def test_pipe(self):
        """a pipe by name is read to its end, and standard input goes on working"""
        reader(self.house).built()
        lake, plan = SCENARIO.encode(), PLAN.encode()
        line = f"'{self.house.script}' check <(printf 'the scenario\\n') <(sleep 0.3; printf 'the plan\\n')"
        run(["bash", "-c", line], **self.house.how()).gives(0, f"check\n{as_read(lake, plan)}", "")
        self.house.run("check", given=lake + plan).gives(0, f"check\n{as_read(lake, plan)}", "")
        self.house.leaves_nothing()

    def test_both_in_one(self):
        """a pipe, or standard input by -, may have a scenario and its plan behind it, where a file may"""
        reader(self.house).built()
        both = f"check\n{as_read(SCENARIO.encode(), PLAN.encode())}"
        line = f"'{self.house.script}' check <(printf 'the scenario\\nthe plan\\n')"
        run(["bash", "-c", line], **self.house.how()).gives(0, both, "")
        self.house.run("check", "-", given=SCENARIO.encode() + PLAN.encode()).gives(0, both, "")
        self.house.write("lake", SCENARIO)
        self.house.run("check", f"{self.house.at}/lake").refuses("is one file alone")

    def test_long_names(self):
        """a name of 100,000 letters is told in one short line"""
        name = "a" * 100_000
        for words in (["plan", name], ["check", "-", name], ["plan", "-o", name], ["show", "lake", "-o", name]):
            self.assertLess(len(self.house.run(*words).fails(" .. (100000 letters)").err), 200)
        for words in ([name], ["plan", f"--{name}"], ["map", "flown", name], ["make", name], ["show", name], ["explain", "a", "flown", name], ["build", name]):
            self.assertLess(len(self.house.run(*words).refuses("letters)").err), 250)

    def test_unreadable(self):
        """no file, a folder, a device, or a file that may not be read: one line, status 70, and nothing is compiled"""
        how = self.as_nobody()
        self.house.write("lake", SCENARIO)
        self.house.write("shut", SCENARIO, 0o000)
        os.symlink("nowhere", f"{self.house.at}/dangling")
        for name, says in (("none", "there is no file"), ("dangling", "there is no file"), ("crates", "is a folder"), ("shut", "cannot be read")):
            for words in (["plan", name], ["check", "lake", name], ["check", name, "lake"]):
                ran = run([self.house.script, *(f"{self.house.at}/{it}" if at else it for at, it in enumerate(words))], **how).fails(says)
                self.assertTrue(name in ran.err and ran.out == "", ran.err)
        self.house.run("plan", "/dev/zero").fails("neither a file nor a pipe")
        self.house.run("plan", "").fails("there is no file ''")
        self.assertEqual(self.house.calls(), [])
        self.house.leaves_nothing()

    def test_signal_while_a_pipe_is_read(self):
        """a signal while a named pipe is read leaves nothing"""
        self.house.built()
        os.mkfifo(f"{self.house.tmp}/slow")
        self.house.write("plan", PLAN)
        # (It is opened for writing here, so that the reading begins, and never ends.)
        held = os.open(f"{self.house.tmp}/slow", os.O_RDWR)
        try:
            for number in SIGNALS:
                begun = lambda: any("input" in os.listdir(f"{self.house.tmp}/{it}") for it in os.listdir(self.house.tmp) if os.path.isdir(f"{self.house.tmp}/{it}"))
                self.house.stops(number, "check", f"{self.house.tmp}/slow", f"{self.house.at}/plan", begun=begun)
                self.assertEqual(os.listdir(self.house.tmp), ["slow"])
        finally:
            os.close(held)


class Output(InHouse):
    """Files that -o writes."""

    def test_any_name(self):
        """-o writes the output to a file of any name, with the permissions of a new file, and says nothing"""
        folder = self.out_folder()
        wanted = "words <plan>\ntext\n"
        for make in (lambda: None, self.house.built):
            make()
            for name in NAMES:
                how = {**self.house.how(), "cwd": folder}
                ran = run([self.house.script, "plan", "-o", name], b"text\n", **how).gives(0, "")
                self.assertTrue(ran.err == "" or ran.err.startswith(UNPROVED), ran.err)
                self.assertWritten(f"{folder}/{name}", wanted)
                self.assertEqual(sorted(os.listdir(folder)), [name])
                mask = os.umask(0)
                os.umask(mask)
                self.assertEqual(stat.S_IMODE(os.stat(f"{folder}/{name}").st_mode), 0o666 & ~mask, "its permissions are others")
                os.remove(f"{folder}/{name}")
        self.house.run("plan", "-o", "-", given=b"text\n").gives(0, wanted, "")
        self.house.write("lake", SCENARIO)
        self.house.run("plan", f"{self.house.at}/lake", "-o", f"{folder}/new", closed=[0, 1, 2]).gives(0, "", "")
        self.assertWritten(f"{folder}/new", f"words <plan>\n{SCENARIO}")
        os.remove(f"{folder}/new")
        self.assertEqual(os.listdir(folder), [])
        self.house.leaves_nothing()

    def test_replaces_whole(self):
        """-o replaces a file whole, with its permissions, and leaves it as it is where the command refuses"""
        folder, target = self.out_folder(), f"{self.house.at}/out put/a plan"
        for make in (lambda: None, self.house.built):
            make()
            self.house.write("out put/a plan", "older\n", 0o640)
            before = os.stat(target)
            self.house.run("check", "-o", target, given=b"text\n").gives(3, "", "bad scenario")
            self.assertWritten(target, "older\n")
            self.assertEqual(os.stat(target).st_ino, before.st_ino, "it was replaced")
            self.house.run("check", "-o", f"{folder}/new", given=b"text\n").gives(3, "", "bad scenario")
            self.assertEqual(os.listdir(folder), ["a plan"])
            self.house.run("plan", "-o", target, given=b"text\n").gives(0, "")
            self.assertWritten(target, "words <plan>\ntext\n")
            self.assertEqual(stat.S_IMODE(os.stat(target).st_mode), 0o640, "its permissions are others")
            self.assertEqual(os.listdir(folder), ["a plan"])
        self.house.leaves_nothing()

    def test_keeps_a_rejection(self):
        """-o keeps a rejection, which is check's answer, and no half output of another failure"""
        folder = self.out_folder()
        self.house.write("program", '#!/bin/sh\ncase "$1" in plan) printf "words <plan>\\n"; cat ;; check) echo "rejected 8 MissingChild"; exit 1 ;; report) echo half; exit 6 ;; *) echo half; exit 1 ;; esac\n', 0o755)
        self.house.built()
        self.house.run("check", "-o", f"{folder}/check").gives(1, "", "")
        self.house.run("report", "-o", f"{folder}/report").gives(6, "", "")
        self.house.run("convert", "-o", f"{folder}/convert").gives(1, "", "")
        self.assertWritten(f"{folder}/check", "rejected 8 MissingChild\n")
        self.assertEqual(os.listdir(folder), ["check"])

    def test_symbolic_link(self):
        """-o at a symbolic link replaces the file that it names, also where there is none yet"""
        folder = self.out_folder()
        self.house.built()
        os.makedirs(f"{self.house.at}/elsewhere")
        os.symlink("../elsewhere/a plan", f"{folder}/link")
        os.symlink("link", f"{folder}/second")
        for _ in range(2):
            self.house.run("plan", "-o", f"{folder}/second", given=b"text\n").gives(0, "", "")
            self.assertWritten(f"{self.house.at}/elsewhere/a plan", "words <plan>\ntext\n")
            self.assertTrue(os.path.islink(f"{folder}/link") and os.path.islink(f"{folder}/second"), "a link was replaced")
            self.assertEqual(os.listdir(f"{self.house.at}/elsewhere"), ["a plan"])
        os.symlink("loop", f"{folder}/loop")
        self.house.run("plan", "-o", f"{folder}/loop").fails("no folder")

    def test_unwritable(self):
        """-o at a folder, a device, without its folder or without permission: one line, status 70, before anything is compiled"""
        folder = self.out_folder()
        os.chmod(folder, 0o755)
        self.house.write("out put/theirs", "older\n", 0o444)
        how = self.as_nobody()
        before = os.stat("/dev/full")
        for name, says in ((folder, "is a folder"), (f"{folder}/new/", "is a folder"), (f"{folder}/none/plan", "no folder"), (f"{folder}/theirs/plan", "no folder"), ("/dev/full", "no plain file")):
            self.house.run("plan", "-o", name).fails(says)
        for name, says in ((f"{folder}/new", "nothing can be written"), (f"{folder}/theirs", "cannot be written")):
            if os.geteuid() == 0:
                run([self.house.script, "plan", "-o", name], **how).fails(says)
            else:
                os.chmod(folder, 0o555)
                self.house.run("plan", "-o", name).fails(says)
                os.chmod(folder, 0o755)
        self.assertEqual(os.stat("/dev/full").st_rdev, before.st_rdev, "/dev/full was replaced")
        self.assertEqual(os.listdir(folder), ["theirs"])
        self.assertEqual(self.house.calls(), [])

    def test_file_that_is_read(self):
        """-o at a file that is read is refused, by whatever name"""
        self.house.write("lake", SCENARIO)
        self.house.write("plan", PLAN)
        os.symlink("lake", f"{self.house.at}/link")
        for words in (["plan", "lake", "-o", "lake"], ["plan", "lake", "-o", "./lake"], ["check", "link", "plan", "-o", "lake"], ["check", "lake", "plan", "-o", "plan"], ["show", "lake", "plan", "-o", "link"]):
            run([self.house.script, *words], **{**self.house.how(), "cwd": self.house.at}).fails("is read")
        self.assertWritten(f"{self.house.at}/lake", SCENARIO)
        self.assertWritten(f"{self.house.at}/plan", PLAN)

    def test_name_with_a_line_feed(self):
        """a line feed at the end of a name behind -o is a part of it: another file is written, and the one without it stays"""
        self.house.built()
        self.house.write("lake", SCENARIO)
        how = {**self.house.how(), "cwd": self.house.at}
        run([self.house.script, "plan", "lake", "-o", "lake\n"], **how).gives(0, "", "")
        self.assertWritten(f"{self.house.at}/lake", SCENARIO)
        self.assertWritten(f"{self.house.at}/lake\n", f"words <plan>\n{SCENARIO}")
        run([self.house.script, "plan", "lake\n", "-o", "lake\n"], **how).fails(r"-o $'lake\n' names a file that is read")

    def test_killed(self):
        """a program or a helper that is killed while its output is kept: one line, status 70, and an older file stays"""
        folder = self.out_folder()
        self.house.write("out put/plan", "older\n")
        self.house.write("program", '#!/bin/sh\n[ -e "$HOUSE/is built" ] || { echo "words <plan>"; exec cat; }\necho half; kill -s KILL $$\n', 0o755)
        self.house.built()
        self.house.write("is built", "")
        self.house.write("desk/__main__.py", "import os\nprint('half', flush=True)\nos.kill(os.getpid(), 9)\n")
        self.house.run("plan", "-o", f"{folder}/plan").fails("osp: osp was ended by SIGKILL, and wrote no answer")
        self.house.run("show", "a", "-o", f"{folder}/plan").fails("osp: show was ended by SIGKILL, and wrote no answer")
        self.assertWritten(f"{folder}/plan", "older\n")
        self.assertEqual(os.listdir(folder), ["plan"])

    def test_full_disk(self):
        """-o onto a full disk: one line or the program's, nothing is left, and an older file stays"""
        if os.geteuid() != 0 or subprocess.run(["unshare", "-m", "true"], capture_output=True, check=False).returncode:
            self.skipTest("a small disk can be made by root alone")
        disk = f"{self.house.at}/disk"
        os.makedirs(disk)
        self.house.write("large", "x" * 200_000)
        # What the disk holds before, what is run, and then the status and what is left.
        line = 'mount -t tmpfs -o size=64k none "$0" && echo older > "$0/plan" && "$@"; status=$?; ls -A "$0"; cat "$0/plan"; exit $status'
        for make in (lambda: None, self.house.built):
            make()
            for name in ("plan", "new"):
                ran = run(["unshare", "-m", "sh", "-c", line, disk, self.house.script, "plan", f"{self.house.at}/large", "-o", f"{disk}/{name}"], **self.house.how())
                self.assertTrue(ran.status != 0 and ran.out == "plan\nolder\n", f"status {ran.status}, {ran.out!r}, {ran.err!r}")
        self.house.leaves_nothing()

    def test_signal(self):
        """a signal during a run with -o leaves nothing, and an older file as it was"""
        folder = self.out_folder()
        self.house.built()
        self.house.write("out put/plan", "older\n")
        for number in SIGNALS:
            self.house.stops(number, "wait", "-o", f"{folder}/plan")
            self.assertEqual(os.listdir(folder), ["plan"])
        self.assertWritten(f"{folder}/plan", "older\n")
        self.house.leaves_nothing()


class Environment(InHouse):
    """What a shell would take from the environment."""

    def test_changes_nothing(self):
        """a locale that isn't there, and what means something to bash, change nothing and are not told"""
        self.house.built()
        self.house.write("lake", SCENARIO)
        self.house.write("begins", "echo from the environment\n")
        wanted = f"words <plan>\n{SCENARIO}"
        for more in ({"LC_ALL": "xx_YY.nowhere"}, {"FUNCNEST": "2"}, {"IFS": "aeo/"}, {"BASH_ENV": f"{self.house.at}/begins"}, {"ENV": f"{self.house.at}/begins"}, {"BASH_FUNC_readlink%%": "() { echo /; }"}, {"OSP": ""}, {"POSIXLY_CORRECT": "1"}, {"PYTHONPATH": f"{self.house.at}/nowhere"}, {"OSP_TARGET": "1:2:a"}):
            how = self.house.how(with_rt=False)
            how["env"] = {**how["env"], **more}
            run([self.house.script, "plan", f"{self.house.at}/lake"], **how).gives(0, wanted, "")
            run([self.house.script, "show", "a"], **how).gives(0, f"show|a\n{self.house.at}/desk {self.house.at} True\n", "")


class Same(unittest.TestCase):
    """door.files: which files are one."""

    def setUp(self):
        room = tempfile.TemporaryDirectory(prefix="front-door-")
        self.addCleanup(room.cleanup)
        self.room = room.name

    def path(self, name, text=""):
        with open(f"{self.room}/{name}", "w", encoding="utf-8") as file:
            file.write(text)
        return file.name

    def target(self, name):
        """What is written, which is let go of at the end."""
        found = files.Target(name)
        self.addCleanup(lambda: os.close(found.held) if found.held not in (None, 1) else None)
        return found

    def test_each_name(self):
        """a file is the same by each name: its own, a link's, a hard link's, from another folder"""
        target = self.target(self.path("a"))
        os.link(f"{self.room}/a", f"{self.room}/hard")
        os.symlink("a", f"{self.room}/soft")
        for name in ("a", "hard", "soft", "../" + os.path.basename(self.room) + "/a"):
            self.assertTrue(target.is_one(f"{self.room}/{name}"), name)
        self.assertFalse(target.is_one(self.path("b")))
        self.assertFalse(target.is_one(f"{self.room}/none"))

    def test_no_inode_is_taken_again(self):
        """a file that comes after another one is gone isn't taken for it, whatever its inode: as long as what is written is held, no other
        file gets its inode"""
        target = self.target(self.path("a", "older"))
        was = files.identity(f"{self.room}/a")
        os.unlink(f"{self.room}/a")
        for number in range(200):
            name = self.path(f"a{number}", "newer")
            self.assertNotEqual(files.identity(name), was)
            self.assertFalse(target.is_one(name))

    def test_an_inode_that_comes_again(self):
        """a file that was read and is gone leaves its inode to one that is written then: that isn't refused"""
        # (The very same inode: the file that was read gets the new name, as a file system may do it with the number.)
        read_before = self.path("read", "text")
        target = self.target(f"{self.room}/new")
        with open(read_before, "rb") as file:
            target.see_input(file.fileno())
        os.rename(read_before, f"{self.room}/new")
        target.see([])
        target.open()
        os.write(target.descriptor, b"whole")
        target.keep()
        self.assertEqual(read(f"{self.room}/new"), b"whole")
        self.assertEqual(os.listdir(self.room), ["new"])

    def test_guard(self):
        """in a process that must not read a file, opening it is stopped by each name, opening others and writing aren't"""
        name = self.path("a", "text")
        os.link(name, f"{self.room}/hard")
        lines = f"""import os, sys
sys.path.insert(0, {TOP!r})
from door import files
files.guard()
open({self.path("b")!r}).close()
os.close(os.open({name!r}, os.O_WRONLY))
for ask in (lambda it: open(it), lambda it: os.open(it, os.O_RDONLY), lambda it: open(it, "r+b")):
    try:
        ask({self.room!r} + "/hard")
    except files.IsTarget as why:
        print(why)
"""
        told = "{}:{}:{}".format(*files.identity(name), "a b")
        ran = run([sys.executable, "-c", lines], env={"OSP_TARGET": told})
        ran.gives(0, "-o a\\ b names a file that is read: give another name\n" * 3, "")


class Quoted(unittest.TestCase):
    """door.quoted: a word as bash's printf writes it."""

    def test_as_bash_writes_it(self):
        """words with all sorts of letters are quoted as bash quotes them"""
        letters = "abcZ09 _-+=.,/:~#!@$%^&*()[]{}<>?|;'\"\\`\n\t\x1b\x01\x7f\u00e4\u00df\u20ac\r\v"
        draws = random.Random(61)
        words = ["", "~", "a:~", "a~", "#", "a#", *("".join(draws.choices(letters, k=draws.randint(1, 6))) for _ in range(2000))]
        told = subprocess.run(["bash", "-c", 'printf "%q\\0" "$@"', "bash", *words], env={"LC_ALL": "C.UTF-8", "PATH": "/usr/bin:/bin"}, capture_output=True, check=True).stdout
        for word, wanted in zip(words, told.decode().split("\0")):
            self.assertEqual(quoted.quoted(word), wanted)

    def test_what_steers_a_terminal(self):
        """a letter that turns others around is an escape, also where bash shows it"""
        self.assertEqual(quoted.shown("a\u202eb"), r"$'a\342\200\256b'")
        self.assertEqual(quoted.shown("a\udc80"), r"$'a\200'")
