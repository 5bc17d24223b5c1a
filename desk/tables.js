// The tables of a page: periods, what is left at the end, all squares behind all looks, and the numbers behind it.
const tables = (function () {
  // How many squares the table of what is left names, and how many looks a table of all squares has side by side, so that it fits on paper.
  const [MOST_LEFT, MOST_COLUMNS] = [10, 11];
  const { filled, escaped, plural } = markup;
  const { cut, share } = told;
  const { classOf } = picture;

  // A table. Heads are pairs of text and whether numbers stand below; rows are ready markup.
  function table(caption, heads, rows) {
    const row = heads.map(([text, isNumber]) => filled("head", { sort: isNumber ? " class=number" : "", text }));
    return filled("table", { caption, heads: row.join(""), rows: rows.join("") });
  }

  // A share in percent, with the exact fraction in a box that hover and focus show. The name makes it one of its own.
  function exact(name, part, whole) {
    return filled("exact", { name, share: cut(part, whole), part, whole });
  }

  // What the looks of a period are said to do.
  function finds({ seats }) {
    return seats.count === 1 ? "This look finds" : "These looks find";
  }

  // What the program accepted, as a sentence.
  function verdict({ ceiling, value, weight, seats }) {
    return sentences.verdict({ value, whole: weight, ceiling }, seats);
  }

  // What the plan finds, and in how many looks.
  function chance({ value, weight, sc, seats }) {
    return filled("chance", { percent: cut(value, weight), looks: plural(sc.horizon, "look"), each: seats.count === 1 ? "" : " each" });
  }

  // What is said of a flown prefix.
  function aboutFlown({ seats, frames, value, weight, sc }) {
    return sentences.aboutFlown({ value, whole: weight, found: frames[seats.flown].soFar }, seats.flown, sc.horizon);
  }

  // What is said of names that are numbers.
  function aboutNames({ seats }) {
    return seats.isNumbered ? [filled("numbered", {})] : [];
  }

  // A period's row: its number (a button where there is a map), when it begins if known, and what its look finds.
  function periodRow({ seats, weight }, frame, clock, withMap) {
    const t = frame.period;
    const flown = t <= seats.flown ? filled("period_flown", {}) : "";
    return filled("period", {
      data: withMap ? filled("period_data", { period: t }) : "",
      head: withMap ? filled("period_button", { period: t }) : t,
      time: clock ? filled("period_time", { begins: clock.at(t) }) : "",
      places: seats.names[frame.position].map((it) => filled("period_place", { name: escaped(it), flown })).join(""),
      found: exact(`found-${t}`, frame.found, weight),
      so_far: exact(`so-far-${t}`, frame.soFar, weight),
      bar: filled("bar", { width: cut(frame.soFar, weight) }),
    });
  }

  // The table of periods.
  function periods(search, clock, withMap) {
    const time = clock ? [["Begins", false]] : [];
    const isAlone = search.seats.count === 1;
    const heads = isAlone ? ["Look from"] : ["First looks from", "Second looks from"];
    const columns = [["Period", false], ...time, ...heads.map((it) => [it, false]), [finds(search), true], ["Found so far", true]];
    const rows = search.frames.slice(1).map((it) => periodRow(search, it, clock, withMap));
    const move = isAlone ? "searcher moves, then looks" : "searchers move, then look";
    return filled("periods", { table: table(filled("periods_caption", { move }), columns, rows) });
  }

  // The numbers of those that hold something, where most is first; of equal masses the smaller number.
  function greatest(masses) {
    const held = masses.flatMap((mass, at) => (mass ? [at] : []));
    return held.sort((a, b) => (masses[a] === masses[b] ? a - b : masses[a] < masses[b] ? 1 : -1));
  }

  // Where they are after the last look if no look found them: the likeliest squares.
  function left({ frames, weight, squares }) {
    const last = frames[frames.length - 1];
    const [sums, noun] = [squares.sums(last.left), squares.noun];
    const order = greatest(sums);
    if (!order.length) {
      return filled("left", { told: filled("left_nowhere", {}) });
    }
    const row = (it) => [exact(`left-${it}`, sums[it], weight), exact(`rest-${it}`, sums[it], last.missed)].map((number) => filled("number", { number }));
    const rows = order.slice(0, MOST_LEFT).map((it) => filled("row_of_name", { name: escaped(squares.names[it]), shares: row(it).join("") }));
    const others = order.slice(MOST_LEFT);
    const rest = others.reduce((sum, it) => sum + sums[it], 0n);
    const more = rest ? filled("left_rest", { count: plural(others.length, noun), share: cut(rest, weight) }) : "";
    const heads = [[noun[0].toUpperCase() + noun.slice(1), false], ["Share of all", true], ["If nothing was found", true]];
    return filled("left", { told: table(filled("left_caption", { period: last.period, noun, share: cut(last.missed, weight) }), heads, rows) + more });
  }

  // The row of a place, with its share after each of these looks, and the colour that it has on the map.
  function allRow({ weight }, place, frames) {
    const masses = frames.map((it) => place.cells.reduce((sum, cell) => sum + it.left[cell], 0n));
    const shares = masses.map((mass) => filled("all_share", { colour: classOf(mass * place.count, weight), mass, whole: weight, share: share(mass, weight) }));
    return filled("row_of_name", { name: escaped(place.name), shares: shares.join("") });
  }

  // The table of all places after these looks.
  function someLooks(search, noun, places, frames) {
    const heads = [[noun[0].toUpperCase() + noun.slice(1), false], ...frames.map((it) => [it.period ? `look ${it.period}` : "before", true])];
    const found = frames.map((it) => filled("number", { number: share(it.soFar, search.weight) }));
    const rows = [...places.map((it) => allRow(search, it, frames)), filled("all_sum", { shares: found.join("") })];
    return table(filled("all_caption", { noun }), heads, rows);
  }

  // The tables of all places after all looks, which say in numbers what the maps say in colours.
  function allLooks(search, noun, places, isOpen) {
    const parts = search.frames.flatMap((_, at) => (at % MOST_COLUMNS ? [] : [search.frames.slice(at, at + MOST_COLUMNS)]));
    const told = filled("all_tables", { noun, tables: parts.map((it) => someLooks(search, noun, places, it)).join("") });
    return filled(isOpen ? "all_open" : "all_closed", { noun, tables: told });
  }

  // The tables of all squares after all looks, and those of all states where these are parts of squares.
  function allCells(search, isOpen, finer) {
    const { squares, sc } = search;
    const own = squares.filled.map((it) => ({ name: squares.names[it], cells: squares.cells[it], count: 1n }));
    const count = (square) => (squares.split.includes(square) ? BigInt(finer ** 2) : 1n);
    const states = squares.ofCells.map((square, cell) => ({ name: sc.names[cell], cells: [cell], count: count(square) }));
    return allLooks(search, squares.noun, own, isOpen) + (squares.split.length ? allLooks(search, "state", states, false) : "");
  }

  // The numbers behind the page, and the checksums by which its files are known again, where the browser makes them.
  function numbers(search) {
    const { sc, squares, weight } = search;
    const [a, d, g] = sc.parts;
    const cells = plural(squares.filled.length, squares.noun) + (squares.split.length ? ` in ${sc.names.length} states` : "");
    const slots = { version: search.version, records: plural(search.records, "record") };
    const rows = [
      ["Chance", filled("of_whole", { part: search.value, whole: weight })],
      ...(search.ceiling === null ? [] : [["Ceiling", filled("ceiling", { ceiling: search.ceiling, whole: weight })]]),
      ["Denominators", filled("denominators", { a, d, g, steps: sc.horizon - 1, periods: sc.horizon })],
      ["Size", `${plural(sc.horizon, "period")}, ${cells}, ${plural(sc.positions.length, "position")} of the ${search.seats.count === 1 ? "searcher" : "pair"}`],
      search.ceiling === null ? ["Plan", filled("plan_records", slots)] : ["Gap plan", filled("gap_records", slots)],
    ];
    const sums = Object.entries(search.checksums).map(([name, text]) => filled("sum_row", { name, text }));
    return filled("numbers", { rows: [...rows.map(([name, text]) => filled("number_row", { name, text })), ...sums].join("") });
  }

  return { verdict, chance, aboutFlown, aboutNames, finds, periods, greatest, left, allCells, numbers };
}());
