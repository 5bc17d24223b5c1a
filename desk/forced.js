// The scenario that forces a flown prefix, as `replan` makes it (docs/FORMATS.md), and its canonical text. The program writes such a
// scenario with its whole plan alone: where that needs too many records, `gap` plans this one.
const forced = (function () {
  const upTo = (count) => Array.from({ length: count }, (_, at) => at);
  const later = (last) => upTo(Math.max(last - 1, 0)).map((it) => it + 2);

  // The names and parts of a row, which has parts by the numbers of cells, in the order of the cells, as text.
  function entries(sc, row) {
    return [...row].sort((a, b) => a[0] - b[0]).map(([cell, part]) => ` ${sc.names[cell]} ${part}`).join("");
  }

  // Where `spread` lets a cell of a grid drift: to each side neighbour with one part, and it stays with the rest.
  function spread(sc, cell, part) {
    const around = sc.moves.get(cell).filter((it) => it !== cell);
    const row = [...around.map((it) => [it, part]), [cell, Number(sc.parts[1]) - part * around.length]];
    return entries(sc, row.filter((it) => it[1] > 0));
  }

  // The entries of the drift of a cell in the step after a period, as a function of both, by the lines of the scenario.
  function drifts(sc, lines) {
    const [rows, cells] = [new Map(), new Map(sc.names.map((it, at) => [it, at]))];
    const own = (fields) => entries(sc, upTo(fields.length / 2).map((it) => [cells.get(fields[2 * it]), Number(fields[2 * it + 1])]));
    for (const [word, ...fields] of lines.map((it) => it.split(/[ \t\r]+/))) {
      if (word === "end") {
        break;
      } else if (word === "drift") {
        rows.set(fields[0], own(fields.slice(1)));
      } else if (word === "driftin") {
        rows.set(`${fields[0]} ${fields[1]}`, own(fields.slice(2)));
      } else if (word === "spread") {
        sc.names.forEach((name, cell) => rows.set(name, spread(sc, cell, Number(fields[0]))));
      }
    }
    return (t, cell) => rows.get(`${t} ${sc.names[cell]}`) ?? rows.get(sc.names[cell]);
  }

  // The lines of rows by period: for each of `names` that of period 1, and those of later periods, up to the last one, that differ from it.
  function ruled([word, wordIn], names, row, last) {
    const first = names.map((_, at) => row(1, at));
    const changed = later(last).map((t) => names.map((name, at) => [`${wordIn} ${t} ${name}`, row(t, at), first[at]]));
    const others = changed.flat().filter(([, own, other]) => own !== other);
    return [...names.map((name, at) => `${word} ${name}${first[at]}`), ...others.map(([begin, own]) => begin + own)];
  }

  // The text of the scenario (bytes) that goes through the positions (numbers) of a flown prefix, which is legal and not empty.
  function text(scenario, flown) {
    const lines = reading.lines(scenario);
    const [sc, stops] = [reading.scenario(lines), upTo(flown.length + 1).map((it) => `flown-${it}`)];
    const [names, source] = [[...sc.positions, ...stops], [...sc.positions.keys(), sc.start, ...flown]];
    const onward = (it) => sc.moves.get(it).map((to) => sc.positions[to]).join(" ");
    const covered = (look) => new Map([...look].filter((it) => it[1] < sc.parts[2]));
    return [
      "scenario 2",
      `horizon ${sc.horizon}`,
      `parts ${sc.parts.join(" ")}`,
      ...sc.names.map((it) => `cell ${it}`),
      ...names.map((it) => `position ${it}`),
      "start flown-0",
      `first${entries(sc, sc.first)}`,
      ...sc.positions.map((name, it) => `moves ${name} ${onward(it)}`),
      ...flown.map((_, it) => `moves flown-${it} flown-${it + 1}`),
      `moves flown-${flown.length} ${onward(flown[flown.length - 1])}`,
      ...ruled(["drift", "driftin"], sc.names, drifts(sc, lines), sc.horizon - 1),
      ...ruled(["look", "lookin"], names, (t, it) => entries(sc, covered(sc.look(t, source[it]))), sc.horizon),
      "end\n",
    ].join("\n");
  }

  return { text };
}());
