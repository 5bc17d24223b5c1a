"""The limits of docs/FORMATS.md, each at one place."""
import math

# Of a scenario: cells, and positions of the searcher, each; moves from a position; periods; each number of `parts`; letters of a name;
# bytes of its text.
MOST_CELLS = 200
MOST_MOVES = 64
MOST_PERIODS = 32
MOST_PART = 1_000_000
LONGEST_NAME = 24
MOST_SCENARIO = 1_048_576
# Of a plan: records. Of `gap`: closed records that it makes, and nodes that `checkgap` reads.
MOST_NODES = 1_048_576
MOST_GAP_RECORDS = 65_536
MOST_GAP_NODES = 4_194_305
# Of the input of `check`: bytes.
MOST_INPUT = 336_592_896
# Of a run: threads that search, and names behind `flown`.
MOST_WORKERS = 16
MOST_NAMES = MOST_PERIODS
# Of two searchers: positions, moves from each, and the third number of `parts`.
MOST_IN_PAIRS = math.isqrt(MOST_CELLS)
MOST_MOVES_EACH = math.isqrt(MOST_MOVES)
FINEST_LOOK = math.isqrt(MOST_PART)
