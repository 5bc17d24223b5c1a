"""The script `osp`, in a made repository with stand-ins for `rt` and for the program: its help, runs without a proof and with the built
program, where it stands, signals, and `./osp build`."""
import os
import re
import signal
import subprocess
import sys
import time

from tests.house import FAILED, SIGNALS, STAND_IN_PROGRAM, TOP, UNPROVED, InHouse, Ran, read, run


class Help(InHouse):
    """`--help`, and all that answers it."""

    def test_help_is_on_standard_output(self):
        """--help, -h and help answer on standard output, and behind a command its own page, with no call of rt"""
        first = self.house.run("--help").gives(0, None, "").out
        for words in (["-h"], ["help"]):
            self.house.run(*words).gives(0, first, "")
        for words, usage in (
            (["plan", "--help"], "plan [SCENARIO] [--workers N] [--nodes N] [-o FILE]"),
            (["check", "-h"], "check [SCENARIO PLAN] [-o FILE]"),
            (["replan", "lake", "--help"], "replan [SCENARIO] [--workers N] [--nodes N] [-o FILE] flown NAME .."),
            (["make", "--help"], "make NUMBER [-o FILE]"),
            (["build", "-h"], "build"),
        ):
            page = self.house.run(*words).gives(0, None, "").out
            self.assertTrue(page.startswith(f"usage: ./osp {usage}\n\n"), page)
            self.assertLess(len(page), len(first) / 3)
        self.assertEqual(self.house.calls(), [])

    def test_no_words(self):
        """no words answer with the same help on standard error, and status 2"""
        self.assertEqual(self.house.run().gives(2, "").err, self.house.run("--help").out)
        self.assertEqual(self.house.calls(), [])

    def test_help_without_rt(self):
        """the help needs no rt"""
        self.house.run("--help", with_rt=False).gives(0, None, "")

    def test_help_has_examples_of_documents(self):
        """the help has what each command does and an example, and each example is a command of a document"""
        lines = run([f"{TOP}/osp", "--help"]).out.splitlines()
        documents = b"".join(read(f"{TOP}/{it}") for it in ("README.md", "docs/COMMANDS.md")).decode()
        heads = [at for at, it in enumerate(lines) if it.startswith("  ./osp ")]
        self.assertGreaterEqual(len(heads), 15)
        for at in heads:
            self.assertTrue(lines[at + 1].startswith("      ") and lines[at + 2].startswith("      as in  ./osp "), lines[at])
            example = lines[at + 2].split("as in  ")[1]
            self.assertIn(f"{example}\n", documents)

    def test_a_row_of_the_table(self):
        """a row of the script's table is all that a command needs: its help, its words, and whether it reads"""
        self.house.add_row("linger NUMBER [--workers N]", "", "waits so long", "./osp linger 7")
        self.assertIn("  ./osp linger NUMBER [--workers N]\n      waits so long\n      as in  ./osp linger 7\n", self.house.run("--help").out, "the help lacks it")
        self.house.run("linger").gives(2, "", "linger needs NUMBER")
        self.house.run("linger", "7", "--workers", "17").gives(2, "", "17 cannot stand for --workers N")
        self.assertEqual(self.house.calls(), [])
        self.house.stops(signal.SIGTERM, "linger", "7", given=subprocess.PIPE, mood="hangs")
        self.assertEqual(self.house.calls(), ["osp try -- linger 7"])

    def test_help_into_a_closed_output(self):
        """the help into a closed or full output is a failure in one line"""
        self.house.run("--help", closed=[1]).fails("standard output is closed")
        with open("/dev/full", "wb") as full:
            self.house.run("--help", out=full).fails("closed, or full")


class Unproved(InHouse):
    """Runs without a built program."""

    def test_says_so(self):
        """an unproved run says so in one line, and gives the program's output and status"""
        ran = self.house.run("plan", given=b"text\n").gives(0, "words <plan>\ntext\n")
        self.assertTrue(ran.err.startswith(UNPROVED) and ran.err.count("\n") == 1, ran.err)
        self.house.leaves_nothing()

    def test_refusal_of_the_program(self):
        """an unproved run gives the program's refusal as it is, and nothing that rt says"""
        ran = self.house.run("check", given=b"text\n").gives(3, "")
        self.assertEqual(ran.err.splitlines()[1:], ["bad scenario: line 3 BadNumber"])

    def test_words_as_they_are(self):
        """words reach the program one by one, as they are"""
        words = ["plan", "--nodes", "12", "--workers", "3"]
        wanted = "words " + " ".join(f"<{it}>" for it in words) + "\n"
        self.house.run(*words).gives(0, wanted)
        self.house.built().run(*words).gives(0, wanted, "")

    def test_slow_input(self):
        """an unproved run waits for the whole input, however slowly it comes"""
        words = ["sh", "-c", 'printf one; sleep 2.5; printf two | cat', "sh"]
        with subprocess.Popen(words, stdout=subprocess.PIPE) as slow:
            self.house.run("plan", given=slow.stdout).gives(0, "words <plan>\nonetwo")

    def test_words_that_read_nothing(self):
        """words that read nothing don't wait for an input"""
        reads, writes = os.pipe()
        try:
            run([self.house.script, "make", "7"], reads, timeout=20, **self.house.how()).gives(2, "", "usage: osp ..")
        finally:
            os.close(reads)
            os.close(writes)

    def test_long_output(self):
        """an output past 1 MiB without a proof: one line, status 70"""
        self.house.run("plan", mood="long").fails("at most 1 MiB")
        self.house.leaves_nothing()

    def test_long_run(self):
        """a run past 60 seconds without a proof: one line, status 70"""
        self.house.run("plan", mood="slow").fails("60 seconds")

    def test_wrong_sources(self):
        """sources that don't compile: one line with the first error, status 70"""
        self.house.run("plan", mood="wrong").fails("error[unclosed-delimiter]")

    def test_broken_run(self):
        """a run that breaks off: one line, status 70"""
        self.house.run("plan", mood="broken").fails("run=fault")

    def test_no_rt(self):
        """no rt on the PATH: one line, status 70"""
        self.house.run("plan", with_rt=False).fails("rt isn't on the PATH")
        self.house.run("build", with_rt=False).fails("rt isn't on the PATH")

    def test_closed_output(self):
        """a closed output of an unproved run: one line, status 70, before anything is compiled"""
        self.house.run("plan", closed=[1]).fails("standard output is closed")
        self.assertEqual(self.house.calls(), [])

    def test_full_output(self):
        """a full output, or one that nobody reads, of an unproved run: one line, status 70"""
        with open("/dev/full", "wb") as full:
            self.house.run("plan", out=full).fails("closed, or full")
        reads, writes = os.pipe()
        os.close(reads)
        self.house.run("plan", out=writes).fails("closed, or full")
        os.close(writes)
        self.house.leaves_nothing()

    def test_closed_input(self):
        """a closed input of an unproved run: one line, status 70; words that read nothing don't mind"""
        self.house.run("plan", closed=[0]).fails("standard input is closed")
        self.house.run("make", "7", closed=[0]).gives(2, "", "usage")

    def test_closed_standard_error(self):
        """a closed standard error changes nothing but that nothing is said"""
        self.house.run("plan", given=b"text\n", closed=[2]).gives(0, "words <plan>\ntext\n", "")

    def test_unreadable_or_long_input(self):
        """an input that can't be read, or is past 64 MiB: one line, status 70"""
        folder = os.open("/", os.O_RDONLY)
        self.house.run("plan", given=folder).fails("cannot be read")
        os.close(folder)
        self.house.run("plan", given=bytes((64 << 20) + 1)).fails("64 MiB")

    def test_no_temporary_folder(self):
        """no folder for temporary files: one line, status 70"""
        how = self.house.how()
        how["env"]["TMPDIR"] = "/nowhere at all"
        run([self.house.script, "plan"], **how).fails("set TMPDIR")

    def test_input_from_a_terminal(self):
        """an input from a terminal is announced in one line, and read up to Ctrl-D"""
        for make in (lambda: None, self.house.built):
            make()
            ours, theirs = os.openpty()
            how = {"stdout": subprocess.PIPE, "stderr": subprocess.PIPE, **self.house.how()}
            with subprocess.Popen([self.house.script, "plan"], stdin=theirs, **how) as started:
                os.close(theirs)
                os.write(ours, b"text\n\x04")
                out, err = started.communicate(timeout=30)
            os.close(ours)
            ran = Ran(started.returncode, out, err).gives(0, "words <plan>\ntext\n", "osp: reads from the terminal, up to Ctrl-D")
            self.assertIn("./osp plan SCENARIO", ran.err)


class Proved(InHouse):
    """Runs with a built program, and what makes it count as proved."""

    def test_runs_without_rt(self):
        """a built program runs, says nothing more, and needs no rt"""
        self.house.built()
        self.house.run("plan", given=b"text\n", with_rt=False).gives(0, "words <plan>\ntext\n", "")
        self.house.run("check", with_rt=False).gives(3, "", "bad scenario: line 3 BadNumber")
        self.house.run("make", "7", with_rt=False).gives(2, "", "usage: osp ..")
        self.assertEqual(self.house.calls(), [])

    def test_touched_and_moved(self):
        """a touched file, an edit that is taken back, and a moved checkout leave the program proved"""
        self.house.built()
        for at, _, names in os.walk(f"{self.house.at}/crates"):
            for name in names:
                os.utime(f"{at}/{name}")
        self.house.run("plan").gives(0, "words <plan>\n", "")
        self.house.write("crates/low/src/lib.rt", "another\n")
        self.house.run("plan").gives(0, "words <plan>\n", UNPROVED + "crates/low/src/lib.rt isn't as it was")
        self.house.write("crates/low/src/lib.rt", "low src/lib.rt\n")
        self.house.run("plan").gives(0, "words <plan>\n", "")
        moved = f"{self.house.at} moved"
        os.rename(self.house.at, moved)
        run([f"{moved}/osp", "plan"], env={"PATH": "/usr/bin:/bin"}).gives(0, "words <plan>\n", "")

    def test_new_and_missing_files(self):
        """a file of the program's crates that is new or gone, or its line of crates.txt, makes runs unproved"""
        self.house.built()
        self.house.write("crates/middle/src/more.rt", "more\n")
        self.house.run("plan").gives(0, None, UNPROVED + "crates/middle/src/more.rt")
        os.remove(f"{self.house.at}/crates/middle/src/more.rt")
        os.remove(f"{self.house.at}/crates/osp/src/lib.rt")
        self.house.run("plan").gives(0, None, UNPROVED + "crates/osp/src/lib.rt")
        self.house.write("crates/osp/src/lib.rt", "osp src/lib.rt\n")
        self.house.write("crates.txt", self.house.CRATES.replace("middle: low", "middle: low more_of_the_kit"))
        self.house.run("plan").gives(0, None, UNPROVED + "crates.txt")

    def test_other_crates(self):
        """crates that the program doesn't stand on, and comments of crates.txt, change nothing"""
        self.house.built()
        self.house.write("crates/other/src/lib.rt", "another\n")
        self.house.write("crates.txt", "# more\n" + self.house.CRATES.replace("other: low", "other: low middle"))
        self.house.run("plan").gives(0, "words <plan>\n", "")

    def test_edited_proofs(self):
        """edited specs or proofs are noted in one line, and the program runs"""
        for part in ("specs/Lib.antt", "proofs/Lib.antt"):
            self.house.built()
            self.house.write(f"crates/low/{part}", f"another for {part}\n")
            ran = self.house.run("plan", with_rt=False).gives(0, "words <plan>\n", "proved before these edits")
            self.assertTrue(f"crates/low/{part}" in ran.err and ran.err.count("\n") == 1, ran.err)

    def test_another_program(self):
        """a program that something else built, or that was changed, isn't taken for the proved one"""
        self.house.built()
        self.house.write("crates/osp/out/osp", STAND_IN_PROGRAM + "# changed\n", 0o755)
        self.house.run("plan").gives(0, "words <plan>\n", UNPROVED + "nothing says")
        os.remove(f"{self.house.at}/crates/osp/out/osp.sums")
        self.house.run("plan").gives(0, "words <plan>\n", UNPROVED + "nothing says")

    def test_record_of_the_gate(self):
        """what the merge gate built is noted only where no file changed meanwhile, and where it plans as these sources do"""
        total = self.house.run("--sums").gives(0, None, "").out.strip()
        self.house.write("crates/osp/out/osp", STAND_IN_PROGRAM, 0o755)
        self.house.write("crates/low/src/lib.rt", "another\n")
        self.house.run("--record", total).gives(1, "", "")
        self.house.run("plan").gives(0, None, UNPROVED)
        self.house.write("crates/low/src/lib.rt", "low src/lib.rt\n")
        self.house.write("crates/osp/out/osp", "#!/bin/sh\necho another plan\n", 0o755)
        self.house.run("--record", total).gives(1, "", "is not one of these sources")
        self.house.write("crates/osp/out/osp", STAND_IN_PROGRAM, 0o755)
        self.house.run("--record", total).gives(0, "", "")
        self.house.run("plan", with_rt=False).gives(0, "words <plan>\n", "")


class Cost(InHouse):
    """What a proved run does besides running the program."""

    def test_what_is_imported(self):
        """a proved run by files imports no module that takes long to begin"""
        self.house.built()
        self.house.write("lake", "text\n")
        # (In the place of Python: it tells what the run has imported when the program takes its place.)
        tells = f"""#!/bin/sh
exec {os.path.realpath("/usr/bin/python3")} -I -S -B -c 'import os, sys
name = next(it for it in sys.argv if it.endswith("__main__.py"))
sys.argv = sys.argv[sys.argv.index(name):]
os.execvp = lambda *_: (os.write(1, " ".join(sys.modules).encode()), os._exit(0))
exec(compile(open(name).read(), name, "exec"), {{"__name__": "__main__", "__file__": name}})' "$@"
"""
        self.house.write("bin/python3", tells, 0o755)
        found = self.house.run("plan", f"{self.house.at}/lake").gives(0, None, "").out.split()
        self.assertTrue({"door.front", "door.running", "door.files", "door.sources"} <= {*found}, found)
        slow = {"argparse", "collections", "contextlib", "dataclasses", "enum", "functools", "hashlib", "re", "shutil", "signal", "subprocess", "tempfile", "typing"}
        self.assertEqual(slow & {*found}, set())

    def test_sources_that_stand_still(self):
        """sources that didn't change aren't read again, and a change that keeps size and time is seen all the same"""
        self.house.built()
        at = f"{self.house.at}/crates/low/src/lib.rt"
        # (What has just changed is read in each run.)
        time.sleep(2.1)
        self.house.run("plan").gives(0, "words <plan>\n", "")
        kept = f"{self.house.at}/crates/osp/out/osp.seen"
        before = os.stat(kept)
        self.house.run("plan").gives(0, "words <plan>\n", "")
        self.assertEqual(os.stat(kept).st_ino, before.st_ino, "all was read again")
        was = os.stat(at)
        self.house.write("crates/low/src/lib.rt", "LOW src/lib.rt\n")
        os.utime(at, ns=(was.st_atime_ns, was.st_mtime_ns))
        self.assertEqual(os.stat(at).st_size, was.st_size)
        self.house.run("plan").gives(0, "words <plan>\n", UNPROVED + "crates/low/src/lib.rt isn't as it was")
        self.house.write("crates/low/src/lib.rt", "low src/lib.rt\n")
        self.house.write("crates/middle/specs/More.antt", "more\n")
        self.house.run("plan").gives(0, "words <plan>\n", "proved before these edits")


class Places(InHouse):
    """From where the script is called."""

    def test_links(self):
        """by a symbolic link, a link to a link and a relative one, from another folder"""
        os.symlink(self.house.script, f"{self.house.tmp}/first")
        os.symlink("first", f"{self.house.tmp}/a second")
        os.symlink("../with  blanks/osp", f"{self.house.tmp}/third")
        for make in (lambda: None, self.house.built):
            make()
            for name in ("first", "a second", "third"):
                run([f"{self.house.tmp}/{name}", "plan"], b"text", **self.house.how()).gives(0, "words <plan>\ntext")
                run([f"./{name}", "plan"], b"text", **self.house.how()).gives(0, "words <plan>\ntext")

    def test_path(self):
        """from the PATH, from inside crates/, and with CDPATH set"""
        self.house.built()
        how = self.house.how()
        # (In front: an installed osp may stand in the folders of the system.)
        how["env"]["PATH"] = f"{self.house.at}:{how['env']['PATH']}"
        how["env"]["CDPATH"] = f"{self.house.at}:{self.house.tmp}"
        for folder in (self.house.at, f"{self.house.at}/crates/low/src", "/"):
            how["cwd"] = folder
            run(["osp", "plan"], b"text", **how).gives(0, "words <plan>\ntext", "")


class Signals(InHouse):
    """A signal ends it, and leaves nothing."""

    def test_unproved_run(self):
        """a signal ends an unproved run, in the reading and in the run, and leaves nothing"""
        for number in SIGNALS:
            self.house.stops(number, "plan", mood="hangs")
            self.house.leaves_nothing()
            begun = lambda: any("in" in os.listdir(f"{self.house.tmp}/{it}") for it in os.listdir(self.house.tmp))
            self.house.stops(number, "plan", begun=begun, given=subprocess.PIPE, mood="hangs")
            self.house.leaves_nothing()

    def test_build(self):
        """a signal ends a build, and leaves nothing running"""
        for number in SIGNALS:
            self.house.stops(number, "build", mood="hangs")
            self.house.leaves_nothing()
        self.house.run("plan", given=b"text").gives(0, None, UNPROVED)

    def test_built_program(self):
        """a signal reaches the built program"""
        self.house.built()
        for number in (signal.SIGTERM, signal.SIGINT, signal.SIGKILL):
            self.house.stops(number, "wait")


    def test_just_before_a_wait(self):
        """a signal that comes in the very instant before a program is waited for ends the wait"""
        # (It waits to be taken already when the wait begins.)
        lines = f"""import os, signal, sys
sys.path.insert(0, {TOP!r})
from door import running, signals
signals.watch()
process = running.begin(["sleep", "600"])
signal.pthread_sigmask(signal.SIG_BLOCK, [signal.SIGTERM])
os.kill(os.getpid(), signal.SIGTERM)
try:
    running.end_of(process)
except signals.Stopped as it:
    print("stopped by", it.number)
running.KEPT.end_children()
"""
        run([sys.executable, "-c", lines], timeout=60).gives(0, f"stopped by {int(signal.SIGTERM)}\n", "")


class Building(InHouse):
    """`./osp build`."""

    def test_says_each_crate(self):
        """a build says each crate of how many, the lowest first, and where it stands"""
        ran = self.house.run("build").gives(0, None, "")
        self.assertEqual(self.house.calls(), ["low lib", "middle lib", "osp run -- plan"])
        lines = ran.out.splitlines()
        self.assertTrue(re.fullmatch(r"\[ 1/3\] low +\d+ s", lines[1]) and re.fullmatch(r"\[ 3/3\] osp +\d+ s", lines[3]), ran.out)
        self.assertTrue(lines[4].startswith("crates/osp/out/osp is proved and built by made-kit on "), ran.out)
        # (The made kit has no clang, so that no module is made. That is said, and the build ends well.)
        self.assertTrue(lines[5].startswith("no module of WebAssembly was made: ") and len(lines) == 7, ran.out)
        self.house.run("plan", with_rt=False).gives(0, "words <plan>\n", "")
        self.house.leaves_nothing()

    def test_clock_on_a_terminal(self):
        """on a terminal a build counts the time of the crate at hand"""
        ours, theirs = os.openpty()
        with subprocess.Popen([self.house.script, "build"], stdin=subprocess.DEVNULL, stdout=theirs, stderr=theirs, **self.house.how()) as started:
            os.close(theirs)
            started.wait(timeout=60)
        out = os.read(ours, 1 << 16).decode()
        os.close(ours)
        self.assertTrue(started.returncode == 0 and "\r[ 2/3] middle" in out and "is proved and built by made-kit" in out, repr(out))

    def test_full_output(self):
        """a build into a full output stops at once, in one line"""
        for make in (lambda: None, self.house.built):
            make()
            with open("/dev/full", "wb") as full:
                self.house.run("build", out=full).fails("closed, or full")
        self.assertEqual(self.house.calls(), [])

    def test_second_build(self):
        """a second build says at once that all is built; after an edit of a proof it proves again"""
        self.house.built()
        self.house.run("build", with_rt=False).gives(0, None, "")
        self.house.write("crates/low/proofs/Lib.antt", "another\n")
        self.house.run("build").gives(0, None, "")
        self.assertEqual(len(self.house.calls()), 3, f"rt was called: {self.house.calls()}")
        self.house.run("plan", with_rt=False).gives(0, "words <plan>\n", "")

    def test_failing_build(self):
        """a build that fails names the crate, ends with 70, and leaves no program that counts as proved"""
        ran = self.house.run("build", mood="fails").gives(FAILED, None, "osp: middle isn't proved or built")
        self.assertIn("middle is wrong", ran.err)
        self.house.run("plan").gives(0, None, UNPROVED)
        self.house.leaves_nothing()

    def test_edits_meanwhile(self):
        """a build while files change isn't taken for a proof of them"""
        self.house.run("build", mood="edits").fails("files changed during the build")
        self.house.run("plan").gives(0, None, UNPROVED)

    def test_wrong_answer(self):
        """a program that answers something else than it should isn't taken"""
        self.house.write("examples/one-cell.plan", "something else\n")
        self.house.run("build").fails("one-cell.plan")
        self.house.run("plan").gives(0, None, UNPROVED)

    def test_unknown_kit(self):
        """a kit with which the gate wasn't seen to pass is named by a build, a build that fails, and sources that don't compile"""
        note = "proved with good-kit and old-kit, this is made-kit: proofs may fail"
        self.assertNotIn(note, self.house.run("build").err, "made-kit is among those of KIT")
        self.house.write("crates/low/proofs/Lib.antt", "another\n")
        self.house.write("KIT", "# kits\ngood-kit  0123456  2026-01-02\n\nold-kit  0123455  2026-01-01\n")
        self.assertEqual(self.house.run("build").gives(0).err, f"osp: {note}\n", "a build doesn't say it")
        self.house.write("crates/low/src/lib.rt", "another\n")
        self.assertEqual(self.house.run("build", mood="fails").gives(70).err.count(f"({note})"), 1, "a build that fails doesn't say it")
        self.house.run("plan", mood="wrong").fails(note)
        self.house.write("KIT", "made-kit-2 a b\n")
        self.assertIn("proved with made-kit-2, this is made-kit", self.house.run("build").err, "a longer name is taken for it")
