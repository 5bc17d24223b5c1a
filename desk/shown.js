// What a page shows of an accepted plan, made of texts that the program wrote and accepted: the head, and all below it.
const shown = (function () {
  // The least width of a square on a screen, in pixels: below it a map can be moved sideways; and how many columns a map has that doesn't
  // have the whole width of the page.
  const [LEAST_CELL, MOST_BESIDE] = [36, 15];
  // How many of the likeliest squares the text above a map names.
  const MOST_LIKELIEST = 3;
  const { filled, escaped } = markup;

  // The frames of a path: before the first look, and behind each, with what stands there by the map, in the order of the cells.
  function frames(sc, { path, weight }, looks) {
    const before = sc.names.map((_, cell) => BigInt(sc.first.get(cell) || 0) * (weight / sc.parts[0]));
    const made = [{ period: 0, position: sc.start, found: 0n, soFar: 0n, left: before, covered: [], missed: weight }];
    path.forEach((name, at) => {
      const [period, position, left] = [at + 1, sc.places.get(name), sc.names.map((it) => looks[at].left.get(it))];
      const missed = left.reduce((sum, it) => sum + it, 0n);
      const covered = [...sc.look(period, position)].filter((it) => it[1] < sc.parts[2]).map((it) => it[0]);
      made.push({ period, position, found: made[at].missed - missed, soFar: weight - missed, left, covered, missed });
    });
    return made;
  }

  // Throws an Error where a map isn't that of the path of a plan, or doesn't have its numbers.
  function agree({ path, value, weight }, looks) {
    const missed = looks.length ? told.sum(looks[looks.length - 1].left) : null;
    if (looks.map((it) => it.position).join() !== path.join() || missed !== weight - value) {
      throw new Error("the masses of the map aren't those of the plan");
    }
  }

  // The SHA-256 of texts by their names; none where the browser makes none.
  async function checksums(texts) {
    if (!globalThis.crypto?.subtle) {
      return {};
    }
    const pairs = Object.entries(texts).map(async ([name, text]) => [name, await told.sha256(text)]);
    return Object.fromEntries(await Promise.all(pairs));
  }

  // A scenario, an accepted plan or gap plan of it, and what `map` says of its path (bytes, bytes, text), as one; with what else is known:
  // `of`, the text of the scenario that it was made of, and the `name` of its file, the minutes of its periods and the begin of the first one
  // (`times`), a `trial` of the plan, where on the `earth` its places are, and the words for the `radio`, as page.py has them.
  async function search(scenario, plan, map, { of, name, times, trial, earth, radio: words } = {}) {
    const [sc, head, looks] = [reading.scenario(reading.lines(scenario)), reading.plan(plan), told.looks(map)];
    agree(head, looks);
    const lines = reading.lines(of || scenario);
    const who = seats.seats(sc, of ? reading.scenario(lines) : null);
    const clock = times ? reading.timesFrom(...times) : reading.times(lines);
    const own = { ...head, sc, lines, seats: who, squares: layout.squares(who.of), clock, frames: frames(sc, head, looks), name, trial, earth };
    return { ...own, radio: words, checksums: await checksums({ scenario, plan }) };
  }

  // The likeliest squares after a look, as shares of all and of what is left.
  function likeliest({ squares, weight }, frame) {
    if (frame.missed === 0n) {
      return filled("certain", {});
    }
    const sums = squares.sums(frame.left);
    const greatest = tables.greatest(sums).slice(0, MOST_LIKELIEST);
    const sorts = Object.entries({ "of-all": weight, "of-left": frame.missed });
    const names = (whole) => greatest.map((it) => filled("named_share", { name: escaped(squares.names[it]), share: told.cut(sums[it], whole) })).join(", ");
    return sorts.map(([sort, whole]) => filled("likeliest", { sort, names: names(whole) })).join("");
  }

  // The map of a frame, with what it says in words above it.
  function figure(own, drawn, frame) {
    const { clock, weight } = own;
    const [period, isLook] = [frame.period, frame.period > 0];
    const time = clock && isLook ? filled("time", { begins: clock.at(period), ends: clock.at(period + 1) }) : "";
    const shares = { share: told.cut(frame.found, weight), so_far: told.cut(frame.soFar, weight) };
    const found = isLook ? filled("found", { finds: tables.finds(own), ...shares }) : "";
    const head = escaped(picture.when(own, frame));
    return filled("figure", { period, head: head[0].toUpperCase() + head.slice(1), time, said: found + likeliest(own, frame), map: drawn.svg(frame) });
  }

  // What the colours say, of squares or of parts of squares.
  function key(isParted) {
    const rows = picture.classNames().map(([at, text]) => filled("key_row", { at, text }));
    return filled("key", { head: isParted ? filled("key_head", {}) : "", rows: rows.join("") });
  }

  // What the signs of the map of so many searchers say.
  function signs(count) {
    const way = filled("leg", picture.leg([-26, 0], [26, 0], 0));
    const who = count === 1 ? ["searcher, in this period"] : ["first searcher, in this period", "second searcher"];
    const shapes = [filled("sign_disc", {}), filled("sign_square", {})];
    const searchers = who.map((text, at) => [filled("sign_searcher", { shape: shapes[at] }), text]);
    const moves = [["now", "this move"], ["gone", "moves before"], ["coming", "moves to come"]].map(([kind, text]) => [filled("layer", { kind, drawn: way }), text]);
    const others = [["sign_covers", "seen by this look"], ["sign_start", "start"], ["sign_visits", "periods of looks from there"]].map(([name, text]) => [filled(name, {}), text]);
    return filled("signs", { signs: [...searchers, ...moves, ...others].map(([drawing, text]) => filled("sign", { drawing, text })).join("") });
  }

  // Where north is, how wide squares and their parts are, where that is known, and what the colour of a part says.
  function width(drawn) {
    const { metres, side, finer } = drawn.layout;
    if (!metres) {
      return "";
    }
    const part = side / finer;
    const slots = { north: drawn.north(), side: markup.general(side), part: markup.fixed(part, part >= 100 ? 0 : 1) };
    return filled(drawn.parted.length ? "width_of_parts" : "width", slots);
  }

  // The choice of whether simulated drifts are drawn, where there are some.
  function driftsBox({ trial }) {
    return trial ? filled("drifts_box", { count: markup.plural(trial.drifts[0].length, "simulated drift") }) : "";
  }

  // The line that says where on the earth the pointer is, where that is known.
  function where({ earth }, drawn) {
    if (!earth || !drawn.layout.metres) {
      return "";
    }
    const { count, latitudes, longitudes, corner } = earth;
    return filled("where", { corner: escaped(corner), nodes: escaped(JSON.stringify({ box: drawn.boxed(earth.box), count, latitudes, longitudes })) });
  }

  // The maps with all that belongs to them: one for each look, and one before the first. One is shown at a time; print has all.
  function maps(own, drawn) {
    const off = drawn.notDrawn();
    const lacking = off.length ? filled("not_drawn", { names: escaped(off.join(", ")) }) : "";
    return filled("maps", {
      controls: filled("controls", { count: own.sc.horizon, drifts: driftsBox(own) }),
      figures: own.frames.map((it) => figure(own, drawn, it)).join(""),
      key: key(drawn.parted.length > 0),
      where: where(own, drawn),
      signs: signs(own.seats.count),
      note: filled("map_note", { width: width(drawn), lacking }),
    });
  }

  // The picture of a search, or why there is none.
  function pictureOf(own) {
    try {
      return { drawn: new picture.Picture(own, layout.layout(own.seats.of, own.squares, own.lines)), why: "" };
    } catch (why) {
      if (why instanceof layout.NoPlaces) {
        return { drawn: null, why: why.message };
      }
      throw why;
    }
  }

  // All that is shown below the head: with a map where there is one, else the table of all cells.
  function main(own) {
    const { drawn, why } = pictureOf(own);
    const periods = tables.periods(own, own.clock, drawn !== null);
    if (drawn === null) {
      const none = filled("no_map", { why: escaped(why), noun: own.squares.noun });
      return { drawn, text: periods + tables.left(own) + tables.allCells(own, true, 1) + none + tables.numbers(own) };
    }
    const two = drawn.columns <= MOST_BESIDE ? " two" : "";
    const first = filled("columns", { two, maps: maps(own, drawn), tables: periods + tables.left(own) });
    return { drawn, text: first + tables.allCells(own, false, drawn.layout.finer) + tables.numbers(own) };
  }

  // What is said of a plan beside its verdict, as sentences: when its looks are, what a trial says, which looks are flown, and how positions
  // are named.
  function sentencesOf(own) {
    const trial = own.trial ? sentences.aboutTrial({ value: own.value, whole: own.weight }, own.trial) : [];
    return [...(own.clock && own.clock.about ? [own.clock.about] : []), ...trial, ...tables.aboutFlown(own), ...tables.aboutNames(own)];
  }

  // The same as one text.
  function about(own) {
    return sentencesOf(own).join(" ");
  }

  // The head of an accepted plan: its chance, what no other is better than, and by whom it was checked; and what stands below that.
  function head(own, by) {
    const said = reading.comment(own.lines);
    return {
      verdict: filled("verdict", { chance: tables.chance(own), said: escaped(tables.verdict(own)), by: escaped(by) }),
      notes: filled("notes", { up: own.ceiling === null ? "" : filled("notes_up", {}) })
        + (about(own) ? filled("about", { text: escaped(about(own)) }) : "") + (said ? filled("own", { text: escaped(said) }) : ""),
    };
  }

  // What of the style depends on a picture: the least width of a map, how large names are written, how large parts are.
  function sizes(drawn) {
    const part = drawn.parted.length ? drawn.partSide().toFixed(2) : "0";
    return { "--least-width": `${Math.ceil(drawn.columns * LEAST_CELL)}px`, "--name-size": `${markup.fixed(drawn.nameSize(), 1)}px`, "--part-side": `${part}px` };
  }

  // Puts what `main` made of a search into an element of the page, with the styles that belong to it.
  function put(place, own, { drawn, text }) {
    const media = { states: drawn !== null && drawn.parted.length > 0, pair: own.seats.count > 1 };
    Object.entries(media).forEach(([name, isWanted]) => { document.getElementById(`style-${name}`).media = isWanted ? "all" : "not all"; });
    place.className = drawn === null ? "shown" : "shown with-map";
    place.innerHTML = text;
    Object.entries(drawn === null ? {} : sizes(drawn)).forEach(([name, size]) => place.style.setProperty(name, size));
  }

  return { search, main, about, head, put };
}());
