"""A plan in parts, by `split`, its jobs, and `join`, with the desk as it is. The program is the one that is built from these sources; where
there is none, second computations stand in for it."""
import os
import re
import shlex
import shutil
import signal
import subprocess
import unittest

from desk import forms
from tests.answers import is_built
from tests.house import EXAMPLES, SIGNALS, TOP, InHouse, at_start, left_in, read, run, stopped_by, until
from tests.made import ROW
from tests.replanned import replanned

# In the place of the program: it notes where and what it is asked, or stops half-way.
PROGRAM = """#!/bin/sh
echo "$PWD: $*" >> "$HOUSE/asked"
[ ! -e "$HOUSE/hangs" ] || {{ echo 'half of it'; echo $$ > "$HOUSE/pid"; exec sleep 600; }}
[ ! -e "$HOUSE/refuses" ] || {{ echo 'half of it'; echo 'too many nodes: 1' >&2; exit 8; }}
{}
"""
BUILT = f"""exec {shlex.quote(TOP)}/crates/osp/out/osp "$@" """
STANDS_IN = f"""cd {shlex.quote(TOP)} || exit
case $1 in
  plan) exec bench/tree /dev/stdin ;;
  replan) exec tests/replanned.py "$@" ;;
  *) exec tests/stand-in-osp "$@" ;;
esac"""
# In the place of ssh: a host is a folder on this machine, in which its home is.
SSH = """#!/bin/sh
cd "$HOUSE/hosts/$1" || exit
HOME=$PWD SHELL=/bin/sh
export HOME SHELL
shift
[ "$1" != -- ] || shift
exec sh -c "$*"
"""


def folder_of(house, depth, scenario):
    """A new folder of jobs, and the line by which it says that they are run."""
    folder = f"{house.at}/the parts"
    ran = house.run("split", str(depth), scenario, folder).gives(0, None, "")
    return folder, ran.out.splitlines()[1].strip()


def job_of(house, folder, line=0, **more):
    """How a job is run: its words, and where."""
    words = read(f"{folder}/jobs").decode().splitlines()[line].split(" ")
    how = house.how(with_rt=False)
    return words, {**how, "cwd": folder, "env": {**how["env"], **more}}


def asked_of(house):
    """Where the program was asked to replan, and what."""
    return [it for it in read(f"{house.at}/asked").decode().splitlines() if ": replan " in it]


def parts_of(folder):
    return {it: read(f"{folder}/parts/{it}") for it in sorted(os.listdir(f"{folder}/parts"))}


def ways(of_parallel):
    """The commands of docs/COMMANDS.md that run the jobs of a folder: those of GNU parallel, or the others."""
    shown = read(f"{TOP}/docs/COMMANDS.md").decode().split("In the folder any of these runs the jobs:\n\n```\n")[1].split("```")[0]
    found = [re.split(" {3,}", it)[0] for it in shown.splitlines() if not it.startswith(" ")]
    return [it for it in found if it.startswith("parallel ") == of_parallel]


class Jobs(InHouse):
    """The jobs of a plan in parts."""

    def setUp(self):
        super().setUp()
        house = self.house
        shutil.rmtree(f"{house.at}/desk")
        shutil.copytree(f"{TOP}/desk", f"{house.at}/desk", ignore=shutil.ignore_patterns("__pycache__"))
        for name in ("one-cell.scenario", "one-cell.plan"):
            shutil.copy(f"{EXAMPLES}/{name}", f"{house.at}/examples")
        house.write("program", PROGRAM.format(BUILT if is_built() else STANDS_IN), 0o755)
        house.write("row.scenario", ROW.decode())
        house.built()
        os.remove(f"{house.at}/asked")

    def by_way(self, way, **more):
        """Runs the jobs by a command, perhaps one after the other, and joins what they wrote. Answers where they ran."""
        folder, _ = folder_of(self.house, 2, f"{self.house.at}/row.scenario")
        for number in range(1, 5 if "TASK_ID" in way else 2):
            _, how = job_of(self.house, folder, SLURM_ARRAY_TASK_ID=str(number), **more)
            run(["sh", "-c", way], **how).gives(0, "")
        self.house.run("join", folder).gives(0, "path c d\nchance 6 9 66.666\npart parts/4\n4 of 4 prefixes\n", "")
        places = {it.split(": ")[0] for it in asked_of(self.house)}
        os.remove(f"{self.house.at}/asked")
        shutil.rmtree(folder)
        return {os.path.relpath(it, self.house.at) for it in places}

    def test_write_the_second_computation(self):
        """the jobs of split, run by the words that it says, write what the second computation does, and join tells the example's best path"""
        for name, depth in (("small-lake", 1), ("small-lake", 2), ("tide", 1), ("swath", 2)):
            scenario = f"{EXAMPLES}/{name}.scenario"
            folder, line = folder_of(self.house, depth, scenario)
            _, how = job_of(self.house, folder)
            run(["sh", "-c", line], **how).gives(0, "", "")
            sc, _ = forms.read_scenario(read(scenario), True)
            jobs = [it.split(" ") for it in read(f"{folder}/jobs").decode().splitlines()]
            parts = parts_of(folder)
            self.assertTrue(len(parts) == len(jobs) > 1, f"{len(parts)} parts of {len(jobs)} jobs")
            for _, _, part, *names in jobs:
                prefix = [sc.positions.index(it.encode()) for it in names]
                self.assertEqual(parts[os.path.basename(part)], replanned(sc, prefix), f"{name}, {part}")
            path, chance = read(f"{EXAMPLES}/{name}.plan").decode().splitlines()[1], read(f"{EXAMPLES}/{name}.report").decode().splitlines()[1]
            told = self.house.run("join", folder, with_rt=False).gives(0, None, "").out.splitlines()
            self.assertTrue(told[:2] == [path, chance] and told[3:] == [f"{len(jobs)} of {len(jobs)} prefixes"], told)
            best = re.fullmatch(r"part (parts/\d+)", told[2])
            self.assertTrue(best and path.startswith(" ".join(["path", *next(it[3:] for it in jobs if it[2] == best[1])])), told)
            shutil.rmtree(folder)
        self.house.leaves_nothing()

    def test_that_are_done(self):
        """a job that is done does nothing more, and one that isn't is done by the same words"""
        folder, line = folder_of(self.house, 2, f"{self.house.at}/row.scenario")
        _, how = job_of(self.house, folder)
        run(["sh", "-c", line], **how).gives(0, "", "")
        before = {it: os.stat(f"{folder}/parts/{it}") for it in os.listdir(f"{folder}/parts")}
        self.assertTrue(len(asked_of(self.house)) == len(before) == 4, asked_of(self.house))
        run(["sh", "-c", line], **how).gives(0, "", "")
        self.assertEqual(len(asked_of(self.house)), 4, "a job that was done was run again")
        os.remove(f"{folder}/parts/2")
        self.house.run("join", folder).gives(1, "", "parts/2 (a b): missing")
        run(["sh", "-c", line], **how).gives(0, "", "")
        self.assertEqual(asked_of(self.house)[4:], [f"{folder}: replan --workers 1 flown a b"])
        self.assertTrue(all(os.stat(f"{folder}/parts/{it}").st_ino == was.st_ino for it, was in before.items() if it != "2"), "another part was replaced")
        self.house.run("join", folder).gives(0, "path c d\nchance 6 9 66.666\npart parts/4\n4 of 4 prefixes\n", "")

    def test_that_are_killed(self):
        """a job that is killed in the middle leaves no part, and nothing running; the same words do it again"""
        folder, line = folder_of(self.house, 1, f"{self.house.at}/row.scenario")
        words, how = job_of(self.house, folder)
        self.house.write("hangs", "")
        for number in SIGNALS:
            self.house.forget()
            stopped_by(number, words, self.house.has_begun, self.house.at, **how)
            self.assertEqual(parts_of(folder), {})
        self.house.forget()
        with subprocess.Popen(words, stdin=subprocess.DEVNULL, stderr=subprocess.PIPE, preexec_fn=at_start(()), start_new_session=True, **how) as started:
            self.assertTrue(until(self.house.has_begun, 60), "it didn't begin")
            os.killpg(started.pid, signal.SIGKILL)
        self.assertTrue(until(lambda: not left_in(self.house.at)), f"left running: {left_in(self.house.at)}")
        # (Nothing can tidy up behind SIGKILL.)
        self.assertTrue(all(it.startswith(".osp-") for it in os.listdir(f"{folder}/parts")), os.listdir(f"{folder}/parts"))
        os.remove(f"{self.house.at}/hangs")
        ran = self.house.run("join", folder).gives(1, "", "parts/1 (a): missing")
        self.assertEqual(ran.err.splitlines()[1:], ["osp join: parts/2 (c): missing", "osp join: 0 of 2 prefixes"])
        run(["sh", "-c", line], **how).gives(0, "", "")
        self.house.run("join", folder).gives(0, None, "")

    def test_that_are_refused(self):
        """a job that the program refuses ends with its status, and leaves nothing"""
        folder, line = folder_of(self.house, 1, f"{self.house.at}/row.scenario")
        self.house.write("refuses", "")
        words, how = job_of(self.house, folder)
        run(words, **how).gives(8, "", "too many nodes: 1")
        self.assertNotIn(run(["sh", "-c", line], **how).status, (0, 8), "xargs doesn't say that a job failed")
        self.assertEqual(os.listdir(f"{folder}/parts"), [])

    def test_which_osp(self):
        """a job runs the osp that OSP names, else the one that split, else that of the PATH"""
        for name in ("named/osp", "it's/the script", "on path/osp"):
            self.house.write(name, f'#!/bin/sh\necho "{os.path.dirname(name)} $*"\n', 0o755)
        folder = f"{self.house.at}/the parts"
        how = self.house.how()
        run([self.house.script, "split", "1", f"{self.house.at}/row.scenario", folder], **{**how, "env": {**how["env"], "OSP": f"{self.house.at}/it's/the script"}}).gives(0)
        path = f"{self.house.at}/on path:/usr/bin:/bin"
        asked = "replan scenario --workers 1 -o parts/2 flown c\n"
        words, how = job_of(self.house, folder, 1, PATH=path, OSP=f"{self.house.at}/named/osp")
        run(words, **how).gives(0, f"named {asked}", "")
        words, how = job_of(self.house, folder, 1, PATH=path)
        run(words, **how).gives(0, f"it's {asked}", "")
        shutil.rmtree(f"{self.house.at}/it's")
        run(words, **how).gives(0, f"on path {asked}", "")

    def test_each_way(self):
        """each way to run the jobs that docs/COMMANDS.md shows runs them"""
        self.assertEqual(len(ways(False)), 2)
        for way in ways(False):
            self.assertEqual(self.by_way(way), {"the parts"}, way)

    @unittest.skipUnless(shutil.which("parallel") and shutil.which("rsync"), "there is no GNU parallel, or no rsync")
    def test_each_way_by_parallel(self):
        """each way that docs/COMMANDS.md shows to run them by GNU parallel does, here, on hosts with the same folder, and on others"""
        self.house.write("of hosts/ssh", SSH, 0o755)
        for name in ("one", "two"):
            os.makedirs(f"{self.house.at}/hosts/{name}")
        path, wanted = f"{self.house.at}/of hosts:/usr/bin:/bin", [{"the parts"}, {"the parts"}, {"hosts/one/osp-parts", "hosts/two/osp-parts"}]
        self.assertEqual(len(ways(True)), len(wanted))
        for way, places in zip(ways(True), wanted):
            self.assertEqual(self.by_way(way, PATH=path, HOME=self.house.tmp), places, way)
