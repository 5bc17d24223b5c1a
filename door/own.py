"""The script's own words."""
import os

from door import place, saying, sources, table
from door.place import called
from door.saying import Ended, shown, wrong


def say_sums():
    """Prints one checksum of all sources of the program."""
    saying.write(f"{sources.sum_of_sums()}\n")


def record(total):
    """Notes that the program that stands here was just proved from the files with this sum, where they are still the same."""
    from door import building, kit

    if place.IS_RELEASE or not os.access(place.PROGRAM, os.X_OK) or total != [sources.sum_of_sums()]:
        raise Ended(1)
    if not building.plans_one_cell():
        said = "the program in crates/osp/out is not one of these sources: its plan of examples/one-cell.scenario is not one-cell.plan"
        raise Ended(1, said)
    building.record(f"proved and built by {kit.name()}, in rt ci, on {building.minute()}")


def say_gate():
    """Prints the lines of the file GATE for what stands here, of which the merge gate has just proved the program."""
    from door import building

    if place.IS_RELEASE:
        raise Ended(1)
    saying.write(building.gate_text())


def say_completion():
    """Prints the completion for bash."""
    from door import completion

    saying.write(completion.completion_text())


def say_version():
    """Prints the version, the commit, and how the program was proved."""
    from door import building

    saying.needs_output()
    saying.write(building.version_text())


def build():
    """Proves and builds the program."""
    from door import building

    building.build()


def install(prefix="/usr/local"):
    """Installs the proved program."""
    from door import installing

    installing.install_at(prefix)


def release(folder=f"{place.HERE}/out"):
    """Writes the packages."""
    from door import package

    package.release_to(folder)


# By word what is done, and how many words may stand behind it. Those without a row in the table are for other programs than people.
WORDS = {"--version": (say_version, 0), "build": (build, 0), "install": (install, 1), "release": (release, 1)}


def run_row(row, given):
    """Runs one of the words that the table has."""
    name, behind = given[0], given[1:]
    if behind[:1] in (["--help"], ["-h"]):
        say_page(name)
        return
    saying.needs_output()
    does, most = WORDS.get(name, (None, 0))
    if does is None or len(behind) > most:
        wrong(f"{shown(given[-1])} is one word too many: it is spelled {called()} {row[0]}")
    if "" in behind:
        wrong(f"'' is no folder: it is spelled {called()} {row[0]}")
    does(*behind)


def say_page(name):
    """Prints the page of a word, or the whole help."""
    from door import pages

    saying.write(pages.page_text(name) if name else pages.help_text())


def refuse(word):
    """Says that a word is no command, and which one may be meant."""
    from door.meant import meant

    near = meant(word)
    wrong(f"{shown(word)} is no command: {f'is {near} meant? ' if near else ''}{called()} --help shows all")


def run(given):
    """Runs what the first word names, and answers the exit status."""
    word, *behind = given
    hidden = {"--sums": say_sums, "--record": lambda: record(behind[:1]), "--gate": say_gate, "--completion": say_completion}
    if word in ("--help", "-h", "help"):
        say_page("")
    elif word in hidden:
        hidden[word]()
    else:
        name = "--version" if word == "-V" else word
        row = table.found(table.OWN, name) or refuse(word)
        run_row(row, [name, *behind])
    return 0
