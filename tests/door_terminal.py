"""What the script `osp` shows on a terminal during a run, and behind a refusal."""
import os
import re
import subprocess
import time

from tests.house import SIGNALS, InHouse, at_start, run

SCENARIO, PLAN = "the scenario\n", "the plan\n"
# What the clock shows, from two seconds on, up to where it goes.
CLOCK = r"(?:\rosp: (?:[2-9]|\d\d) s +|\rosp: \d min \d+ s +)+\r +\r"
# In the place of the program: it takes its time, and then writes to both streams.
SLOW = '#!/bin/sh\n[ "$1" != plan ] || { sleep "$(cat "$HOUSE/seconds")"; echo words "<plan>"; cat; exit; }\nsleep "$(cat "$HOUSE/seconds")"; echo "bad scenario: line 3 BadNumber" >&2; exit "$(cat "$HOUSE/status")"\n'


def shown_on(terminal):
    """What comes to a terminal until nobody has its other end."""
    shown = b""
    while True:
        try:
            more = os.read(terminal, 1 << 16)
        except OSError:
            more = b""
        if not more:
            return shown
        shown += more


def on_terminal(house, *words, seconds=0.0, whole=False):
    """Runs words with standard error, or all output, on a terminal, and gives status, standard output and what it showed."""
    ours, theirs = os.openpty()
    house.write("seconds", str(seconds))
    how = {"stdin": subprocess.DEVNULL, "stdout": theirs if whole else subprocess.PIPE, "stderr": theirs, "preexec_fn": at_start(()), **house.how()}
    with subprocess.Popen([house.script, *words], **how) as started:
        os.close(theirs)
        out = b"" if whole else started.stdout.read()
        shown = shown_on(ours)
        os.close(ours)
    return started.returncode, out.decode(), shown.decode().replace("\r\n", "\n")


class Terminal(InHouse):
    """Runs on a terminal."""

    def test_clock(self):
        """on a terminal the seconds are told after two of them, and go before what is written"""
        self.house.write("program", SLOW, 0o755)
        self.house.write("seconds", "0")
        self.house.built()
        self.house.write("lake", SCENARIO)
        lake = f"{self.house.at}/lake"
        for words, rest, whole in ((["plan", lake], "", False), (["plan", lake, "-o", f"{self.house.at}/new"], "", False), (["plan", lake], f"words <plan>\n{SCENARIO}", True)):
            # (On a busy machine the clock may begin late: then the program takes longer.)
            for seconds in (3.5, 15, 60):
                status, out, shown = on_terminal(self.house, *words, seconds=seconds, whole=whole)
                if re.fullmatch(CLOCK + rest, shown):
                    break
            self.assertTrue(status == 0 and re.fullmatch(CLOCK + rest, shown), f"{status} {out!r} {shown!r}")
        self.assertWritten(f"{self.house.at}/new", f"words <plan>\n{SCENARIO}")
        began = time.monotonic()
        status, out, shown = on_terminal(self.house, "plan", lake, seconds=0.1, whole=True)
        # (On a busy machine this, too, may take two seconds.)
        self.assertTrue(time.monotonic() - began > 2 or (status, shown) == (0, f"words <plan>\n{SCENARIO}"), f"{status} {shown!r}")
        ran = run([self.house.script, "plan", lake], **self.house.how())
        self.house.write("seconds", "2.5")
        self.assertTrue(run([self.house.script, "plan", lake], **self.house.how()).err == ran.err == "", "without a terminal it says something")
        self.house.leaves_nothing()

    def test_refusal(self):
        """on a terminal a refusal is followed by the words that say more"""
        self.house.write("program", SLOW, 0o755)
        self.house.write("seconds", "0")
        self.house.add_row("go-on [--workers N] flown NAME ..", "SCENARIO", "goes on", "./osp go-on")
        self.house.built()
        lake, plan = f"{self.house.at}/lake", f"{self.house.at}/plan"
        self.house.write("lake", SCENARIO)
        self.house.write("plan", PLAN)
        refusal, shown_lake, shown_plan = "bad scenario: line 3 BadNumber\n", lake.replace(" ", "\\ "), plan.replace(" ", "\\ ")
        for status, words, more in (
            (3, ["check", lake, plan], f" {shown_lake}"),
            (4, ["check", lake, plan], f" {shown_lake} {shown_plan}"),
            (3, ["check"], " SCENARIO"),
            (4, ["check"], " SCENARIO PLAN"),
            (4, ["check", lake, "-"], " SCENARIO PLAN"),
            (10, ["go-on", lake, "--workers", "2", "flown", "a", "flown"], f" {shown_lake} flown a flown"),
            (11, ["go-on", "flown", "--x"], " SCENARIO flown --x"),
            (3, ["go-on", lake, "flown", "a"], f" {shown_lake}"),
            (1, ["check", lake, plan], None),
            (8, ["check", lake, plan], None),
        ):
            self.house.write("status", str(status))
            got, out, shown = on_terminal(self.house, *words)
            shown = re.sub(f"^{CLOCK}", "", shown)
            wanted = refusal + (f"osp: ./osp explain{more} says more\n" if more else "")
            self.assertEqual((got, out, shown), (status, "", wanted))
            self.house.run(*words, with_rt=False).gives(status, "", refusal)
            self.assertEqual(self.house.run(*words, with_rt=False).err, refusal, "without a terminal it says more")

    def test_signal(self):
        """a signal during a run on a terminal leaves no clock behind"""
        self.house.built()
        ours, theirs = os.openpty()
        try:
            for number in SIGNALS:
                self.house.stops(number, "wait", stderr=theirs)
                self.house.leaves_nothing()
        finally:
            os.close(ours)
            os.close(theirs)
