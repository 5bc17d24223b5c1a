// The squares of a scenario, and where they, cells and positions lie: squares.py and layout.py in the page.
const layout = (function () {
  const { MOST_ACROSS, MOST_OUTSIDE, MOST_PARTS, NEAR } = RULES.layout;
  const [AT, OF_SQUARE, ROW_AND_COLUMN] = ["at", "of_square", "row_and_column"].map((it) => markup.whole(RULES.patterns[it]));
  const LOST = "lost";

  // There can't be a map. It says why.
  class NoPlaces extends Error {}

  // The row and the column of a square with a name such as r3c4; null for other names.
  function rowAndColumn(name) {
    const found = name.match(ROW_AND_COLUMN);
    return found && [Number(found[1]), Number(found[2])];
  }

  // The squares of a scenario by number: their names, the cells in each, and which of them have parts. Positions that are named as squares
  // and have no cell stand behind those that have one.
  function squares(sc) {
    const found = new Map();
    sc.names.forEach((name, cell) => {
      const square = (name.match(OF_SQUARE) || [name, name])[1];
      found.set(square, [...(found.get(square) || []), cell]);
    });
    const empty = sc.positions.filter((it) => !found.has(it) && rowAndColumn(it));
    const [names, cells] = [[...found.keys(), ...empty], [...found.values(), ...empty.map(() => [])]];
    const split = names.flatMap((name, at) => (cells[at].some((it) => sc.names[it] !== name) ? [at] : []));
    return {
      names,
      cells,
      split,
      noun: split.length ? "square" : "cell",
      filled: names.flatMap((_, at) => (cells[at].length ? [at] : [])),
      ofCells: sc.names.map((_, cell) => cells.findIndex((it) => it.includes(cell))),
      sums: (masses) => cells.map((its) => its.reduce((all, it) => all + masses[it], 0n)),
    };
  }

  // The places that comments give: metres east and south of some corner, by name. A name's last line counts.
  function placesTold(lines) {
    return new Map(lines.map((it) => it.match(AT)).filter(Boolean).map(([, name, x, y]) => [name, [Number(x), Number(y)]]));
  }

  // The places that names such as r3c4 give, by name. What is lost is apart, east of them.
  function placesNamed(names) {
    const places = new Map(names.map((it) => [it, rowAndColumn(it)]).filter((it) => it[1]).map(([name, [row, column]]) => [name, [column, row]]));
    if (names.includes(LOST) && places.size) {
      const [east, south] = [0, 1].map((axis) => Math.max(...[...places.values()].map((it) => it[axis])));
      places.set(LOST, [east + 1.5, south]);
    }
    return places;
  }

  // The greatest side of squares around all these middles that don't overlap.
  function sideOf(places) {
    const distance = (one, other) => Math.max(Math.abs(one[0] - other[0]), Math.abs(one[1] - other[1]));
    const apart = places.flatMap((one, at) => places.slice(0, at).map((other) => distance(one, other)));
    const [least, most] = [Math.min(...apart), Math.max(...apart)];
    if (least === 0) {
      throw new NoPlaces(markup.filled("same_place"));
    }
    if (most > least * MOST_ACROSS) {
      throw new NoPlaces(markup.filled("too_far"));
    }
    return apart.length ? least : 1;
  }

  // Where a position lies: its own place, else the middle of the cells that its looks cover in any period, else null.
  function placeOf(sc, position, places, cells) {
    const periods = Array.from({ length: sc.horizon }, (_, at) => at + 1);
    const covered = new Set(periods.flatMap((t) => [...sc.look(t, position)].filter((it) => it[1] < sc.parts[2]).map((it) => it[0])));
    const seen = [...covered].sort((a, b) => a - b).map((it) => cells[it]);
    const own = places.get(sc.positions[position]) || null;
    return own || !seen.length ? own : [0, 1].map((axis) => seen.reduce((sum, it) => sum + it[axis], 0) / seen.length);
  }

  // Whether a place lies among the squares, or not far outside of them.
  function isNear(place, drawn, side) {
    return [0, 1].every((axis) => {
      const along = drawn.map((it) => it[axis]);
      return Math.min(...along) - side * MOST_OUTSIDE <= place[axis] && place[axis] <= Math.max(...along) + side * MOST_OUTSIDE;
    });
  }

  // How many parts side by side make a square: the least number for which each cell of a square with parts is in the middle of one.
  function partsOf(own, places, cells, side) {
    const away = own.split.flatMap((at) => own.cells[at].flatMap((cell) => [0, 1].map((axis) => (cells[cell][axis] - places[at][axis]) / side + 1 / 2)));
    const counts = Array.from({ length: MOST_PARTS - 1 }, (_, at) => at + 2);
    const fits = (count) => away.every((it) => Math.abs(((it * count) % 1) - 1 / 2) < NEAR && it > 0 && it < 1);
    return (away.length && counts.find(fits)) || 1;
  }

  // The middles of squares, cells and positions by number, the side of a square, whether they are metres, and how many parts side by side
  // make a square. Throws NoPlaces.
  function layout(sc, own, lines) {
    const told = placesTold(lines);
    const lying = own.filled.map((it) => own.names[it]);
    const metres = lying.every((it) => told.has(it));
    const named = metres ? told : placesNamed([...own.names, ...sc.positions]);
    const lacking = lying.find((it) => !named.has(it));
    if (lacking !== undefined) {
      throw new NoPlaces(markup.filled("no_place", { noun: own.noun, name: lacking }));
    }
    const places = own.names.map((it) => named.get(it) || null);
    const drawn = places.filter(Boolean);
    const side = sideOf(drawn);
    const within = sc.names.map((it) => told.get(it));
    const finer = metres && within.every(Boolean) ? partsOf(own, places, within, side) : 1;
    const cells = finer > 1 ? within : own.ofCells.map((it) => places[it]);
    const positions = sc.positions.map((_, it) => placeOf(sc, it, named, cells)).map((it) => (it && isNear(it, drawn, side) ? it : null));
    return { squares: places, cells, positions, side, metres: metres && drawn.length > 1, finer };
  }

  return { NoPlaces, squares, layout };
}());
