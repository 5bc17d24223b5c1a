"""Which words the script `osp` takes, what it hands on to the program and to the helpers of the desk, and `--version`."""
import os
import subprocess

from tests.house import UNPROVED, InHouse, read, run
from tests.words import ROWS

SCENARIO = "the scenario\n"
# Commands with the word behind which all words are names of positions, and such names: of files, options and words, too.
NAMING = [
    ("replan", ["--nodes", "3"], ["flown", "lake", "-o", "new", "--workers", "--", "flown"]),
    ("map", [], ["flown", "lake", "-", "--help"]),
    ("duo", ["--workers", "2"], ["start", "lake"]),
    ("duo", [], ["start", "--nodes"]),
]
# In the place of Python: an older one, by what it says of itself.
OLDER = """#!/bin/sh
exec %s -I -c 'import sys
sys.version_info = (3, 10, 12)
name = next(it for it in sys.argv if it.endswith("__main__.py"))
exec(compile(open(name).read(), name, "exec"), {"__name__": "__main__", "__file__": name})' "$@"
"""


class Words(InHouse):
    """Words of commands."""

    def test_that_spell_no_command(self):
        """words that spell no command are refused in one line that names the wrong one, and nothing is compiled"""
        for row in ROWS:
            if row.wrong:
                self.house.run(*row.words, with_rt=False).refuses(row.wrong)
        for words, says in (
            (["plan", "-o"], "-o needs the name"),
            (["plan", "-o", ""], "-o needs the name"),
            (["plan", "-o", "a", "-o", "b"], "-o stands twice: a and b"),
            (["plan", "-oa"], "write -o a"),
            (["plan", "a", "b"], "b is one word too many"),
            (["check", "a"], "reads SCENARIO PLAN, and a is one file alone"),
            (["check", "a", "b", "c"], "c is one word too many"),
            (["check", "-", "-"], "only once"),
            (["replan", "a", "b", "flown", "c"], "b is one word too many"),
            (["replan", "--", "a", "flown", "b"], "flown is one word too many"),
            (["map", "flown", "a", ""], "'' cannot stand behind flown"),
            (["duo", "start", "a\n"], "$'a\\n' cannot stand behind start"),
            (["duo", "start", "ä"], "cannot stand behind start"),
            (["replan", "a", "b", "flown", "c"], "spelled ./osp replan [SCENARIO] [--workers N] [--nodes N] [-o FILE] flown NAME .."),
            (["plan", "--no\nsuch\x1b[2J"], r"$'--no\nsuch\E[2J' is no word of plan"),
            ([""], "'' is no command"),
            (["*"], r"\* is no command"),
            (["@"], "@ is no command"),
            (["build", "now"], "now is one word too many"),
            (["install", "a", "b"], "b is one word too many"),
            (["--version", "now"], "now is one word too many"),
            (["--verson"], "--verson is no command"),
        ):
            self.house.run(*words, with_rt=False).refuses(says)
        self.assertEqual(self.house.calls(), [])

    def test_that_spell_a_command(self):
        """words that spell a command reach the program as they are"""
        # (The stand-in answers `usage` where it isn't asked to plan or to check: it notes all words.)
        self.house.write("program", '#!/bin/sh\nprintf "%s\\n" "$*" >> "$HOUSE/words"\n', 0o755)
        self.house.write("examples/one-cell.plan", "")
        self.house.built()
        os.remove(f"{self.house.at}/words")
        wanted = [" ".join(it.words) for it in ROWS if not it.wrong]
        for words in wanted:
            self.house.run(*words.split()).gives(0, "", "")
        self.assertEqual(read(f"{self.house.at}/words").decode().splitlines(), wanted)

    def test_behind_a_word_in_small_letters(self):
        """a word in small letters among the words of a row hands on all that follows it"""
        self.house.add_row("plan-on [--workers N] flown NAME ..", "SCENARIO", "plans on", "./osp plan-on")
        self.house.write("program", '#!/bin/sh\nprintf "%s\\n" "$*" && cat\n', 0o755)
        self.house.write("lake", SCENARIO)
        self.house.run("plan-on", "lake").refuses("plan-on needs flown")
        self.house.run("plan-on", f"{self.house.at}/lake", "flown").refuses("plan-on needs flown")
        ran = self.house.run("plan-on", f"{self.house.at}/lake", "--workers", "2", "flown", "-o", "--workers")
        ran.gives(0, f"plan-on --workers 2 flown -o --workers\n{SCENARIO}")

    def test_names_behind_flown_and_start(self):
        """replan, map and duo read a scenario by name, by - or from standard input, and write behind -o; behind flown and start all words are names"""
        self.house.write("program", '#!/bin/sh\nprintf "<%s>" "$@" && cat\n', 0o755)
        self.house.write("examples/one-cell.plan", "<plan>one cell\n")
        for name in ("lake", "flown", "start", "-lake"):
            self.house.write(f"files/{name}", f"{name}, {SCENARIO}")
        for make in (lambda: None, self.house.built):
            make()
            how = {**self.house.how(), "cwd": f"{self.house.at}/files"}
            for command, options, behind in NAMING:
                told = "".join(f"<{it}>" for it in (command, *options, *behind))
                for read_by, given, wanted in ((["lake"], b"", f"lake, {SCENARIO}"), (["-"], b"typed\n", "typed\n"), ([], b"typed\n", "typed\n"), ([f"./{behind[0]}"], b"", f"{behind[0]}, {SCENARIO}"), (["./-lake"], b"", f"-lake, {SCENARIO}")):
                    run([self.house.script, command, *read_by, *options, *behind], given, **how).gives(0, told + wanted)
                    run([self.house.script, command, *options, *read_by, "-o", "a new", *behind], given, **how).gives(0, "")
                    self.assertWritten(f"{self.house.at}/files/a new", told + wanted)
                    os.remove(f"{self.house.at}/files/a new")
        run([self.house.script, "replan", "lake", "-o", "lake", "flown", "a"], **how).fails("is read")
        run([self.house.script, "map", "none", "flown", "a"], **how).fails("there is no file")
        self.assertEqual(sorted(os.listdir(f"{self.house.at}/files")), ["-lake", "flown", "lake", "start"])
        self.house.leaves_nothing()

    def test_names_that_are_refused(self):
        """names that the scenario refuses: the program's line and status are handed on, and a file behind -o stays as it was"""
        says = {"replan": (10, "bad flown: NotLegal\n"), "map": (10, "bad flown: UnknownName\n"), "duo": (11, "bad duo: TooFine\n")}
        self.house.write("program", '#!/bin/sh\ncase "$1" in plan) printf "words <plan>\\n"; cat ;;' + "".join(f" {it}) echo '{err.strip()}' >&2; exit {status} ;;" for it, (status, err) in says.items()) + " esac\n", 0o755)
        self.house.write("lake", SCENARIO)
        folder = self.out_folder()
        self.house.write("out put/made", "older\n")
        for make in (lambda: None, self.house.built):
            make()
            for command, _, behind in NAMING:
                status, err = says[command]
                ran = self.house.run(command, f"{self.house.at}/lake", "-o", f"{folder}/made", *behind).gives(status, "", err)
                self.assertEqual([it for it in ran.err.splitlines(True) if not it.startswith(UNPROVED)], [err])
                self.house.run(command, f"{self.house.at}/lake", "-o", f"{folder}/new", *behind).gives(status, "", err)
        self.assertWritten(f"{folder}/made", "older\n")
        self.assertEqual(os.listdir(folder), ["made"])


class Helpers(InHouse):
    """Words of the helpers of the desk."""

    def test_as_they_are(self):
        """a helper gets its words as they are, from any folder, and nothing else of that folder"""
        words = ["SCENARIO", "a b", "", "--flown", "3", "--", "-o"]
        self.house.write("elsewhere/desk/__main__.py", "print('another')\n")
        self.house.write("elsewhere/os.py", "print('another')\n")
        for folder in (self.house.tmp, f"{self.house.at}/elsewhere"):
            ran = run([self.house.script, "next", *words], **{**self.house.how(with_rt=False), "cwd": folder})
            ran.gives(0, "next|" + "|".join(words) + f"\n{self.house.at}/desk {self.house.at} True\n", "")
        self.house.run("draft", "--help").gives(0, f"draft|--help\n{self.house.at}/desk {self.house.at} True\n", "")
        for name in ("draft", "trial", "vary", "show", "brief", "chart", "split", "join", "explain"):
            self.house.run(name, "a").gives(0, f"{name}|a\n{self.house.at}/desk {self.house.at} True\n", "")
        self.assertEqual(sorted(os.listdir(f"{self.house.at}/desk")), ["__main__.py"])
        self.assertEqual(self.house.calls(), [])

    def test_output_file(self):
        """-o works for a helper as for a command: whole, or not at all"""
        folder = self.out_folder()
        self.house.run("show", "a", "-o", f"{folder}/a page", "b").gives(0, "", "")
        self.assertWritten(f"{folder}/a page", f"show|a|b\n{self.house.at}/desk {self.house.at} True\n")
        self.house.run("show", "-o", f"{folder}/a page", "fails").gives(1, "", "it is wrong")
        self.assertWritten(f"{folder}/a page", f"show|a|b\n{self.house.at}/desk {self.house.at} True\n")
        self.house.run("explain", "faults", "-o", f"{folder}/b page").gives(3, "", "")
        self.assertWritten(f"{folder}/b page", "line 3 is wrong\n")
        self.house.run("next", "faults", "-o", f"{folder}/c page").gives(3, "", "")
        self.house.run("explain", "dies", "-o", f"{folder}/c page").gives(1, "", "it is wrong")
        self.assertEqual(sorted(os.listdir(folder)), ["a page", "b page"])
        self.house.run("show", "-o").refuses("-o needs the name")

    def test_without_python(self):
        """without a Python of 3.11 or later, or without any: one line, status 70"""
        self.house.run("show", "a").gives(0)
        self.house.write("bin/python3", OLDER % os.path.realpath("/usr/bin/python3"), 0o755)
        for words in (["show", "a"], ["plan"], ["--help"]):
            self.house.run(*words).fails("python3 of version 3.11 or later is needed on the PATH, and this is another")
        for name in ("readlink", "sh"):
            os.symlink(f"/usr/bin/{name}", f"{self.house.tmp}/{name}")
        how = self.house.how()
        how["env"]["PATH"] = self.house.tmp
        for words in (["show", "a"], ["plan"], ["--help"]):
            run([self.house.script, *words], **how).fails("python3 of version 3.11 or later is needed on the PATH: apt install python3")


class Version(InHouse):
    """`--version`."""

    def git(self, *words):
        """What git answers in the made repository."""
        names = {f"GIT_{who}_{what}": "a@b" for who in ("AUTHOR", "COMMITTER") for what in ("NAME", "EMAIL")}
        how = {"env": {"PATH": "/usr/bin:/bin", "HOME": self.house.tmp, **names}, "capture_output": True, "check": True}
        return subprocess.run(["git", "-C", self.house.at, *words], **how).stdout.decode().strip()

    def test_how_it_was_proved(self):
        """--version says the version, the commit, and how the program was proved, and calls nothing"""
        self.house.run("--version", with_rt=False).gives(0, "osp 0.0.7\ncommit unknown\nunproved: the program isn't built\n", "")
        self.house.built()
        lines = self.house.run("--version", with_rt=False).gives(0, None, "").out.splitlines()
        self.assertTrue(lines[2].startswith("proved and built by made-kit on 2"), lines)
        self.house.write("crates/low/proofs/Lib.antt", "another\n")
        self.assertTrue(self.house.run("--version").out.endswith(", before edits of definitions or proofs\n"), "the edit isn't told")
        self.house.write("crates/low/src/lib.rt", "another\n")
        self.assertIn("\nunproved: crates/low/src/lib.rt isn't as it was", self.house.run("--version").out, "it isn't unproved")
        self.assertEqual(self.house.calls(), [])
        with open("/dev/full", "wb") as full:
            self.house.run("--version", out=full).fails("closed, or full")

    def test_commit(self):
        """--version names the commit of a checkout, and that files were edited; a repository around it isn't taken for its own"""
        self.git("init", "-q")
        self.git("add", "-A")
        self.git("commit", "-q", "-m", "all")
        name = self.git("rev-parse", "--short=12", "HEAD")
        commit = lambda at: run([f"{at}/osp", "--version"], **self.house.how()).out.splitlines()[1]
        self.assertEqual(commit(self.house.at), f"commit {name}")
        self.house.write("crates/other/src/lib.rt", "another\n")
        self.assertEqual(commit(self.house.at), f"commit {name}, with edits")
        os.makedirs(f"{self.house.at}/inner")
        subprocess.run(["cp", "-R", *(f"{self.house.at}/{it}" for it in ("osp", "door", "crates", "crates.txt", "VERSION")), f"{self.house.at}/inner"], check=True)
        self.assertEqual(commit(f"{self.house.at}/inner"), "commit unknown")
