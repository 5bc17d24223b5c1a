// The brief of what is flown and planned, as `osp brief` writes it: the page has its words, and here is how they are put together.
const radio = (function () {
  const [STAY, AROUND] = [1, 3];
  const { filled } = markup;

  // A share in percent with its sign.
  function share(part, whole) {
    return filled("brief_share", { share: told.cut(part, whole) });
  }

  // Lines of a table whose first one has the heads, each column as wide as its widest text.
  function table(lines, texts) {
    const widths = lines[0].map((_, at) => Math.max(...lines.map((it) => it[at].length)));
    const cell = (it, at) => (texts.includes(lines[0][at]) ? it.padEnd(widths[at]) : it.padStart(widths[at]));
    return lines.map((it) => it.map(cell).join("  ").trimEnd());
  }

  // A sentence as lines.
  function wrapped(words, sentence) {
    const lines = [];
    for (const word of sentence.split(" ")) {
      const longer = lines.length ? `${lines[lines.length - 1]} ${word}` : "";
      lines.push(longer && longer.length <= words.width ? lines.pop() && longer : word);
    }
    return lines;
  }

  // The names of a look's places, of which the last one says that the look is flown.
  function places(words, search, period) {
    const names = search.names ? [...search.names[period]] : search.path[period].map((it) => search.places[it]);
    const last = names.pop();
    return [...names, period <= search.flown ? filled("brief_flown", { name: last }) : last];
  }

  function begins(words, period) {
    return words.begins === null ? [] : [words.begins[period - 1]];
  }

  // A line for each period: when it begins, from where the looks are, what they find, and what is found so far.
  function periods(words, search) {
    const rows = search.found.map((so_far, at) => {
      const shares = [so_far - (at ? search.found[at - 1] : 0n), so_far].map((it) => share(it, search.whole));
      return [String(at + 1), ...begins(words, at + 1), ...places(words, search, at + 1), ...shares];
    });
    return table([words.periods, ...rows], words.texts);
  }

  // The ways of a searcher from period to period.
  function legs(words, search, who) {
    const stops = search.path.map((it) => it[who]);
    return stops.slice(1).map((to, at) => words.legs[stops[at]]?.[to] ?? words.unknown);
  }

  // Where a searcher goes: no lines where no place is known.
  function going(words, search, who) {
    if (!search.path.slice(1).some((it) => words.known[it[who]])) {
      return [];
    }
    const rows = legs(words, search, who).map(([course, way], at) => {
      const middle = words.middles === null ? [] : [words.middles[search.path[at + 1][who]] ?? words.unknown[0]];
      return [String(at + 1), ...begins(words, at + 1), places(words, search, at + 1)[who], ...middle, course, way];
    });
    return ["", words.going[who], ...table([words.ways, ...rows], words.texts)];
  }

  // How squares are searched, and what is to say of courses.
  function searching(words, search) {
    const kinds = words.going.flatMap((_, who) => legs(words, search, who).map((it) => it[2]));
    const courses = kinds.some((it) => it > STAY) ? words.courses : [];
    const lines = [...words.searching, ...courses, ...(kinds.includes(AROUND) ? words.around : [])];
    return lines.length === 0 ? [] : ["", ...lines];
  }

  // Where they are if nothing was found: the squares that hold most, as shares of all and of what is left.
  function left(words, { squares, path, whole }) {
    const missed = told.sum(squares);
    const order = told.greatest(squares);
    if (order.length === 0) {
      return [filled("brief_nowhere", {})];
    }
    const rows = order.slice(0, words.most).map(([name, mass]) => [name, share(mass, whole), share(mass, missed)]);
    const rest = new Map(order.slice(words.most));
    const more = rest.size === 0 ? [] : [filled("brief_more", { count: rest.size, share: told.cut(told.sum(rest), whole) })];
    return [filled("brief_left", { period: path.length - 1 }), ...table([words.left, ...rows], [words.left[0]]), ...more];
  }

  // What `text` wants of a search of desk/shown.js.
  function of(own) {
    const { name, value, weight, ceiling, seats, frames, squares, checksums } = own;
    const sums = squares.sums(frames[frames.length - 1].left);
    return {
      ...{ name, sum: checksums.scenario, value, whole: weight, ceiling, flown: seats.flown },
      trial: own.trial ? sentences.aboutTrial({ value, whole: weight }, own.trial) : [],
      path: frames.map((it) => seats.sources[it.position]),
      names: frames.map((it) => seats.names[it.position]),
      found: frames.slice(1).map((it) => it.soFar),
      squares: new Map(squares.filled.map((it) => [squares.names[it], sums[it]])),
    };
  }

  // The whole text of a search: the name and the checksum of its file's scenario; its value, whole and ceiling; how many looks are flown;
  // what a trial says, as sentences, if there was one; by period, the start first, the numbers of its places, whose names `places` has, or
  // `names` by period; what is found behind each look; and the masses by square behind the last one.
  function text(words, search) {
    const [[name, slots], seats] = [words.chance, { count: words.going.length, flown: search.flown }];
    const lines = [
      filled("brief_title", { name: search.name }),
      sentences.verdict(search, seats),
      words.checked,
      filled(name, { share: told.cut(search.value, search.whole), ...slots }),
      ...(search.trial ?? []).flatMap((it) => wrapped(words, it)),
      ...words.about,
      ...sentences.aboutFlown({ ...search, found: search.found[search.flown - 1] }, search.flown, search.found.length),
      ...words.names,
      "",
      ...periods(words, search),
      ...words.going.flatMap((_, who) => going(words, search, who)),
      ...searching(words, search),
      "",
      ...left(words, search),
      "",
      filled("brief_cut", {}),
      ...(search.ceiling === null ? [] : [filled("brief_up", {})]),
      filled("brief_sum", { begin: search.sum.slice(0, 32), rest: search.sum.slice(32) }),
    ];
    return `${lines.join("\n")}\n`;
  }

  return { text, of };
}());
