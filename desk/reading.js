// What stands in texts that the program has accepted: a scenario, its comments, the lines of a plan before its records. Nothing is checked
// here: the program has told all faults before.
const reading = (function () {
  const [TIMES, SPELLED] = [RULES.patterns.times, RULES.patterns.moment].map(markup.whole);
  // A minute, an hour's minutes and a day's, in hundredths of a second, by which all times are whole numbers.
  const [MINUTE, HOUR, DAY] = [6000, 60, 24 * 60];
  // More bytes than the lines of a plan before its records have, of which the path is the longest: 32 names of 24 letters.
  const HEAD = 4096;
  // How much of the comments at the front of a scenario a page repeats, in characters; and what of them it doesn't: places, and what leads there.
  const MOST_COMMENT = 4000;
  const [AT, EARTH] = [RULES.patterns.at, RULES.patterns.earth].map(markup.whole);
  const { at_head: AT_HEAD, earth_head: EARTH_HEAD } = RULES.heads;

  // Bytes as letters, whatever each of them stands for.
  function letters(bytes) {
    return new TextDecoder("latin1").decode(bytes);
  }

  // Each letter with its byte, and all that are blanks to Python.
  const BYTES = new Map(Array.from(letters(Uint8Array.from({ length: 256 }, (_, it) => it)), (it, at) => [it, at]));
  const BLANKS = " \t\r\n\f\v";

  // A line without the blanks around it. (A pattern for those at its end would take a time with the square of those within it.)
  function stripped(line, blanks = " \t\r") {
    let [from, to] = [0, line.length];
    while (from < to && blanks.includes(line[from])) {
      from += 1;
    }
    while (from < to && blanks.includes(line[to - 1])) {
      to -= 1;
    }
    return line.slice(from, to);
  }

  // The lines of a text, without the blanks around them.
  function lines(bytes) {
    return letters(bytes).split("\n").map((it) => stripped(it));
  }

  // The text of an accepted scenario without its comments, which `map`, other than `check`, counts for its length.
  function bare(bytes) {
    return new TextEncoder().encode(lines(bytes).filter((it) => it !== "" && !it.startsWith("#")).map((it) => `${it}\n`).join(""));
  }

  // A row of cells with a part each, by the numbers of the cells.
  function row(fields, cells) {
    return new Map(fields.flatMap((it, at) => (at % 2 ? [] : [[cells.get(it), Number(fields[at + 1])]])));
  }

  // What each line adds to a scenario, where the page needs it. Drift it doesn't.
  const ADDS = {
    scenario: (sc, [version]) => { sc.isFirst = version === "1"; },
    horizon: (sc, [periods]) => { sc.horizon = Number(periods); },
    parts: (sc, parts) => { sc.parts = parts.map(BigInt); },
    cell: (sc, [name]) => { sc.cells.set(name, sc.cells.size); },
    position: (sc, [name]) => { sc.places.set(name, sc.places.size); },
    grid(sc, [rows, columns]) {
      const side = (row, column) => row >= 0 && row < rows && column >= 0 && column < columns;
      for (let at = 0; at < rows * columns; at += 1) {
        const [row, column] = [Math.floor(at / columns), at % columns];
        const around = [[row - 1, column], [row, column - 1], [row, column], [row, column + 1], [row + 1, column]].filter((it) => side(...it));
        ADDS.cell(sc, [`r${row}c${column}`]);
        sc.moves.set(at, around.map(([r, c]) => r * columns + c));
      }
    },
    start(sc, [name]) {
      sc.places = sc.isFirst ? sc.cells : sc.places;
      sc.start = sc.places.get(name);
    },
    moves: (sc, [position, ...fields]) => { sc.moves.set(sc.places.get(position), fields.map((it) => sc.places.get(it)).sort((a, b) => a - b)); },
    first: (sc, fields) => { sc.first = row(fields, sc.cells); },
    look: (sc, [position, ...fields]) => { sc.looks.set(sc.places.get(position), row(fields, sc.cells)); },
    lookin: (sc, [period, position, ...fields]) => { sc.looksIn.set(`${period} ${sc.places.get(position)}`, row(fields, sc.cells)); },
    overlook: (sc, [name, part]) => { ADDS.look(sc, [name, name, part]); },
    rate: (sc, [part]) => sc.places.forEach((_, name) => ADDS.overlook(sc, [name, part])),
  };

  // The scenario of lines: names of cells and of positions, horizon, denominators, start, the first distribution, where moves lead, and which
  // cells a look covers, with the parts that it misses.
  function scenario(all) {
    const sc = { cells: new Map(), places: new Map(), moves: new Map(), looks: new Map(), looksIn: new Map() };
    for (const [word, ...fields] of all.filter((it) => it !== "" && !it.startsWith("#")).map((it) => it.split(/[ \t\r]+/))) {
      if (word === "end") {
        break;
      }
      (ADDS[word] || (() => null))(sc, fields);
    }
    sc.names = [...sc.cells.keys()];
    sc.positions = [...sc.places.keys()];
    sc.look = (t, position) => sc.looksIn.get(`${t} ${position}`) || sc.looks.get(position);
    return sc;
  }

  // The minutes of a time of day in hundredths of a second, its date, and whether it is UTC; null where there is no such time.
  function moment(text) {
    const [, year, month, day, hour, minute, second, zone] = text.match(SPELLED) || [];
    const date = year && `${year}-${month}-${day}`;
    const isDay = !date || (year >= 1900 && year < 2200 && new Date(Date.UTC(year, month - 1, day)).toISOString().startsWith(date));
    if (hour === undefined || hour > 23 || minute > 59 || second > 59 || !isDay) {
      return null;
    }
    return { at: (hour * HOUR + Number(minute)) * MINUTE + Number(second || 0) * 100, date, isUtc: zone === "Z" };
  }

  // A time of day as in 19:45; it has seconds where there are any.
  function ofDay(at) {
    const [seconds, two] = [Math.floor(at / 100), (it) => String(it).padStart(2, "0")];
    return [Math.floor(seconds / 3600), Math.floor(seconds / 60) % 60, ...(seconds % 60 ? [seconds % 60] : [])].map(two).join(":");
  }

  // When periods of so many minutes begin, the first at a time of day; null where these are none.
  function timesFrom(minutes, text) {
    const [length, begins] = [Math.round(Number(minutes) * 100) * (MINUTE / 100), moment(text)];
    if (begins === null || length <= 0 || length > DAY * MINUTE) {
      return null;
    }
    return { about: about(begins), at: (period) => since(begins.at + (period - 1) * length) };
  }

  // When periods begin, by what comments say; null where none does. The last such comment counts.
  function times(all) {
    const told = all.filter((it) => it.startsWith("#")).map((it) => stripped(it.slice(1)).match(TIMES)).reverse();
    return told.filter(Boolean).map(([, minutes, text]) => timesFrom(minutes, text)).find(Boolean) || null;
  }

  // What a comment says, without what leads to places; nothing where it says where a place is.
  function words(line) {
    const said = stripped(line.replace(/^#+/, ""), BLANKS);
    const plain = stripped(said.endsWith(AT_HEAD) ? said.slice(0, -AT_HEAD.length) : said, BLANKS);
    return plain === EARTH_HEAD || AT.test(line) || EARTH.test(line) ? "" : plain;
  }

  // What the comments at the front of a scenario say, as text that can be shown: of its lines.
  function comment(all) {
    const ends = all.findIndex((it) => it !== "" && !it.startsWith("#"));
    const said = all.slice(0, ends < 0 ? all.length : ends).map(words).filter(Boolean).join("\n").slice(0, 4 * MOST_COMMENT);
    const text = new TextDecoder().decode(Uint8Array.from(said, (it) => BYTES.get(it)));
    const clean = Array.from(text, (it) => (it === "\n" || it === " " || !/[\p{C}\p{Z}]/u.test(it) ? it : "\ufffd"));
    return clean.length <= MOST_COMMENT ? clean.join("") : `${clean.slice(0, MOST_COMMENT).join("")} …`;
  }

  // The date of the first period and the zone of all times, where one of them is known.
  function about({ date, isUtc }) {
    const zone = isUtc ? "UTC" : "local";
    return date ? markup.filled("times_from", { zone, date }) : isUtc ? markup.filled("times_utc", {}) : "";
  }

  // A time of day with the days that it is later, if it is.
  function since(at) {
    const days = Math.floor(at / (DAY * MINUTE));
    return ofDay(at % (DAY * MINUTE)) + (days ? `+${days}` : "");
  }

  // A scenario and what stands behind it, without the blank lines between them.
  function parts(bytes) {
    const text = letters(bytes);
    const end = text.match(/(?:^|\n)[ \t\r]*end[ \t\r]*(?:\n|$)/);
    const length = end === null ? text.length : end.index + end[0].length;
    return [bytes.subarray(0, length), bytes.subarray(length + text.slice(length).match(/^[ \t\r\n]*/)[0].length)];
  }

  // What the lines of a plan, or a gap plan, before its records say.
  function plan(bytes) {
    const all = letters(bytes.subarray(0, HEAD)).split("\n");
    const said = Object.fromEntries(all.slice(0, 5).map((it) => it.split(" ")).map(([word, ...fields]) => [word, fields]));
    const [value, weight] = said.chance.map(BigInt);
    const ceiling = said.ceiling === undefined ? null : BigInt(said.ceiling[0]);
    return { version: (said.plan || said.gap)[0], path: said.path, value, weight, ceiling, records: Number(said.nodes[0]) };
  }

  return { lines, bare, scenario, times, timesFrom, comment, parts, plan };
}());
