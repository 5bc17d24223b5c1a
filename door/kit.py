"""The Rattle kit that proves and builds the program."""
import os
import shutil
import subprocess

from door.place import HERE
from door.saying import fail


def need(what):
    """Ends the script where there is no kit."""
    if not shutil.which("rt"):
        fail(f"{what}: rt isn't on the PATH; it comes with the Rattle kit, see README.md")


def name():
    """What this kit calls itself, or ""."""
    try:
        done = subprocess.run(["rt", "version"], stdin=subprocess.DEVNULL, capture_output=True, check=False)
    except OSError:
        return ""
    return os.fsdecode(done.stdout).rstrip("\n").split(" ")[0]


def known():
    """The kits with which the merge gate was seen to pass."""
    try:
        with open(f"{HERE}/KIT", encoding="utf-8") as file:
            return [it.split()[0] for it in file if it.strip() and not it.startswith("#")]
    except OSError:
        return []


def about():
    """What is said where this kit is none of these, or ""."""
    these, this = known(), name()
    if not these or this in these:
        return ""
    return f"proved with {' and '.join(these)}, this is {this or 'another kit'}: proofs may fail"
