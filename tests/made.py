"""What the tests of pages share of scenarios that `replan` and `duo` make: their texts, with plans by bench/tree."""
import functools
import os
import subprocess
import sys
import tempfile

from desk import derived, forms, writing
from tests.pages import TOP

# Three by four cells, where two searchers come from two corners.
GRID = b"""scenario 1
horizon 3
parts 1 10 10
grid 3 4
start r0c0
first r1c2 1
spread 2
rate 3
end
"""


# Four cells in a row with the boat at the second one; the target stays where it is, and a look finds it for sure.
ROW = b"""scenario 1
horizon 2
parts 9 1 1
cell a
cell b
cell c
cell d
start b
first a 3 c 2 d 4
moves a a b
moves b a c
moves c c d
moves d c d
drift a a 1
drift b b 1
drift c c 1
drift d d 1
rate 0
end
"""


def read(text):
    """The scenario of a text."""
    return forms.read_scenario(text, True)[0]


def again(sc):
    """A scenario as its text says it."""
    return read(writing.scenario_text(sc))


@functools.cache
def with_plan(scenario):
    """A scenario's text with the plan of bench/tree behind it, as `replan` and `duo` write both."""
    with tempfile.TemporaryDirectory() as folder:
        name = os.path.join(folder, "s")
        with open(name, "wb") as file:
            file.write(scenario)
        return scenario + subprocess.run([sys.executable, os.path.join(TOP, "bench", "tree"), name], capture_output=True, check=True).stdout


def numbers(sc, names):
    return derived.numbers_of(sc, [it.encode() for it in names.split()])


def forced(text, names):
    """What `replan flown NAMES` writes."""
    sc = read(text)
    return with_plan(writing.scenario_text(derived.forced(sc, numbers(sc, names))))


def paired(text, name):
    """What `duo start NAME` writes."""
    sc = read(text)
    return with_plan(writing.scenario_text(derived.product(sc, *numbers(sc, name))))
