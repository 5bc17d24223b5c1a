"""Writes scenarios: the canonical text that docs/FORMATS.md defines, of version 1 where that can say the scenario."""
from desk import quoting
from desk.forms import NAME, is_narrow
from desk.limits import LONGEST_NAME, MOST_CELLS, MOST_MOVES, MOST_PART, MOST_PERIODS


def scenario_text(sc, comments=()):
    """The canonical text of a `desk.forms.Scenario` as bytes, behind a line `# ..` for each comment (text or bytes).

    Raises ValueError where no text says the scenario: a bad name, a missing row, a row with a wrong sum, too wide.
    """
    check(sc)
    lines = [*map(comment_line, comments), *(version_1 if is_version_1(sc) else version_2)(sc), b"end"]
    return b"".join(it + b"\n" for it in lines)


def is_version_1(sc):
    """Whether version 1 can say it: the positions are the cells, nothing depends on the period, and a look finds in its own cell alone."""
    own = sc.positions == sc.names and all(sc.covered(1, it).keys() <= {it} for it in range(len(sc.names)))
    return own and next(changed_drift(sc), None) is None and next(changed_looks(sc), None) is None


def changed_drift(sc):
    """The rows of drift that differ from those of the step after period 1: the period, the cell, the row."""
    for t in range(2, sc.horizon):
        for cell in range(len(sc.names)):
            if sc.row(t, cell) != sc.row(1, cell):
                yield t, cell, sc.row(t, cell)


def changed_looks(sc):
    """The rows of looks that differ from those of period 1: the period, the position, the row."""
    for t in range(2, sc.horizon + 1):
        for position in range(len(sc.positions)):
            if sc.covered(t, position) != sc.covered(1, position):
                yield t, position, sc.covered(t, position)


def version_1(sc):
    """The lines of version 1, but for `end`."""
    yield line(b"scenario", 1)
    yield from sizes_and_cells(sc)
    yield from start_to_drift(sc)
    for cell, name in enumerate(sc.names):
        yield line(b"overlook", name, sc.covered(1, cell).get(cell, sc.parts[2]))


def version_2(sc):
    """The lines of version 2, but for `end`. A row of a later period stands only where it differs from that of period 1."""
    yield line(b"scenario", 2)
    yield from sizes_and_cells(sc)
    for name in sc.positions:
        yield line(b"position", name)
    yield from start_to_drift(sc)
    for t, cell, row in changed_drift(sc):
        yield line(b"driftin", t, sc.names[cell], *entries(sc, row))
    for position, name in enumerate(sc.positions):
        yield line(b"look", name, *entries(sc, sc.covered(1, position)))
    for t, position, row in changed_looks(sc):
        yield line(b"lookin", t, sc.positions[position], *entries(sc, row))


def sizes_and_cells(sc):
    """The lines `horizon`, `parts` and `cell`."""
    yield line(b"horizon", sc.horizon)
    yield line(b"parts", *sc.parts)
    for name in sc.names:
        yield line(b"cell", name)


def start_to_drift(sc):
    """The lines `start`, `first`, `moves` and `drift`; the rows of drift are those of the step after period 1."""
    yield line(b"start", sc.positions[sc.start])
    yield line(b"first", *entries(sc, {cell: part for cell, part in enumerate(sc.first) if part}))
    for position, name in enumerate(sc.positions):
        yield line(b"moves", name, *(sc.positions[it] for it in sorted(sc.moves[position])))
    for cell, name in enumerate(sc.names):
        yield line(b"drift", name, *entries(sc, sc.row(1, cell)))


def line(word, *fields):
    """A line of a keyword and fields, each a number or a name."""
    return b" ".join([word, *(it if isinstance(it, bytes) else b"%d" % it for it in fields)])


def entries(sc, row):
    """The names and parts of a row by cell, in ascending order of cells."""
    return [it for cell in sorted(row) for it in (sc.names[cell], row[cell])]


def comment_line(text):
    """A comment on one line, whatever its text holds; nothing in it steers a terminal."""
    text = text if isinstance(text, bytes) else text.encode("utf-8", "replace")
    text = quoting.marked(text.decode("utf-8", "surrogateescape")).encode("utf-8", "surrogateescape")
    return (b"# " + b" ".join(text.splitlines())).rstrip()


def check(sc):
    """Raises ValueError, with a reason, where no text says the scenario."""
    for names in (sc.names, sc.positions):
        need(1 <= len(names) <= MOST_CELLS and len(set(names)) == len(names), "there are 1 to 200 names, each once")
        need(all(NAME.match(it) and 1 <= len(it) <= LONGEST_NAME for it in names), "a name has 1 to 24 bytes of a-z A-Z 0-9 _ -")
    need(1 <= sc.horizon <= MOST_PERIODS, "the horizon is 1 to 32")
    need(all(1 <= it <= MOST_PART for it in sc.parts), "denominators are 1 to 1,000,000")
    need(is_narrow(sc.horizon, sc.parts), "the scenario is too wide for 128 bits")
    need(len(sc.first) == len(sc.names) and min(sc.first) >= 0 and sum(sc.first) == sc.parts[0], "the first distribution sums to A")
    need(len(sc.moves) == len(sc.looks) == len(sc.positions), "each position has its moves and its look")
    need(all(1 <= len(set(it)) == len(it) <= MOST_MOVES for it in sc.moves.values()), "each position has 1 to 64 moves")
    need(len(sc.drift) == len(sc.names), "each cell has its drift")
    rows = [*sc.drift.values(), *sc.drift_in.values()]
    need(all(min(it.values(), default=0) > 0 and sum(it.values()) == sc.parts[1] for it in rows), "positive parts of drift sum to D")
    looks = [*sc.looks.values(), *sc.looks_in.values()]
    need(all(0 <= part <= sc.parts[2] for it in looks for part in it.values()), "each part of a look is 0 to G")


def need(holds, why):
    if not holds:
        raise ValueError(why)
