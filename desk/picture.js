// Draws the map behind a look, as SVG: squares, or the finer cells in them, coloured by where the target may be, the path with arrows, the
// searcher's place, and below the squares a scale and an arrow to north.
const picture = (function () {
  // The side of a square and the margin around the squares, in units of the picture; and the gap between squares, and between parts of one.
  const [SIDE, MARGIN, GAP, THIN_GAP] = [100, 14, 2, 0.5];
  // How much further a leg of the path bows to its right each time that it is gone again, in either direction.
  const [BOW, MOST_BOWS] = [15, 3];
  // The longest name that is drawn whole in a square, how many ranges of periods a square's label has, and how long a name may be so that
  // these stand beside it, and not below.
  const [MOST_LETTERS, MOST_RANGES, LETTERS_BESIDE] = [13, 3, 6];
  // How much further down the periods of the second searcher's looks stand, and how far two searchers at one place stand from its middle.
  const [BELOW, ASIDE] = [17, 17];
  // The greatest and the widest writing of names, in units, and the width of a letter in parts of its height.
  const [NAME_SIZE, NAME_WIDTH, LETTER] = [16, 86, 0.62];
  // A class of colour begins at each of these shares, in thousandths of a percent; class 0 is exactly nothing.
  const CLASSES = [0n, 1n, 100n, 300n, 1000n, 3000n, 10000n, 30000n];
  // How high the strip below the squares is, and how far its drawings lie from the edges; how long the scale is at most, in sides of a square
  // and as a share of the map; and from how many degrees between up and true north on it is said.
  const COMPASS = { HEIGHT: 50, ASIDE: 20, MOST_SIDES: 2.5, MOST_SHARE: 0.6, TURNED: 0.5 };
  const { filled, escaped, number, fixed } = markup;
  const { cut, share } = told;

  // The class of colour of a share.
  function classOf(part, whole) {
    return told.colour(part, whole, CLASSES);
  }

  // What each class of colour says, in percent, the greatest first: its number and its text.
  function classNames() {
    const limits = CLASSES.map((it) => String(Number(it) / 1000));
    const between = [6, 5, 4, 3, 2].map((at) => [at, `${limits[at]} to ${limits[at + 1]}`]);
    return [[7, `${limits[7]} and more`], ...between, [1, `below ${limits[2]}`], [0, "0"]];
  }

  // A name, cut where it would be too long for a cell.
  function short(name) {
    return name.length <= MOST_LETTERS ? name : `${name.slice(0, MOST_LETTERS - 1)}…`;
  }

  // Numbers of periods in short, as in 1·4–6, and cut where there are too many for a cell.
  function ranges(times) {
    const runs = [];
    for (const t of times) {
      if (runs.length && runs[runs.length - 1][1] === t - 1) {
        runs[runs.length - 1][1] = t;
      } else {
        runs.push([t, t]);
      }
    }
    const texts = runs.map(([first, last]) => (first === last ? `${first}` : `${first}–${last}`));
    return (texts.length <= MOST_RANGES ? texts : [...texts.slice(0, MOST_RANGES - 1), "…"]).join("·");
  }

  // A curve from one place to another that bows to the right of its course, and the arrow in its middle.
  function leg(one, other, bow) {
    const [dx, dy] = [other[0] - one[0], other[1] - one[1]];
    const length = Math.hypot(dx, dy);
    const [ex, ey] = [dx / length, dy / length];
    const bend = [(one[0] + other[0]) / 2 - ey * 2 * bow, (one[1] + other[1]) / 2 + ex * 2 * bow];
    const at = (point) => point.map(number).join(" ");
    const [x, y] = [(one[0] + other[0]) / 4 + bend[0] / 2, (one[1] + other[1]) / 4 + bend[1] / 2];
    const [tip, back, half] = [9, 6, 7];
    const wide = [-ey * half, ex * half];
    const corners = [[x + ex * tip, y + ey * tip], ...[1, -1].map((way) => [x - ex * back + way * wide[0], y - ey * back + way * wide[1]])];
    return { curve: `M${at(one)}Q${at(bend)} ${at(other)}`, arrow: `M${corners.map(at).join("L")}Z` };
  }

  // Whether two points are the same.
  function isSame(one, other) {
    return one[0] === other[0] && one[1] === other[1];
  }

  // A rectangle by its corner; its kind says how large it is.
  function box(x, y) {
    return filled("box", { x: number(x), y: number(y) });
  }

  // The least and the greatest of points along both axes.
  function span(points) {
    return [Math.min, Math.max].map((of) => [0, 1].map((axis) => of(...points.map((it) => it[axis]))));
  }

  // The maps of a search whose squares have places.
  class Picture {
    constructor(search, places) {
      [this.search, this.layout, this.own] = [search, places, search.squares];
      this.scale = SIDE / places.side;
      [[this.left, this.top]] = span(places.squares.filter(Boolean));
      this.squares = places.squares.map((it) => it && this.point(it));
      this.parted = places.finer > 1 ? this.own.split : [];
      this.ways = Array.from({ length: search.seats.count }, (_, it) => this.way(it));
      const [low, high] = span([...this.squares, ...this.ways.flat()].filter(Boolean));
      this.low = low.map((it) => it - SIDE / 2 - MARGIN);
      this.size = high.map((it, axis) => it + SIDE / 2 + MARGIN - this.low[axis]);
      this.legs = this.allLegs();
      // How many squares the picture is wide.
      this.columns = this.size[0] / SIDE;
      // The true bearing of up in the middle of the picture, in degrees.
      this.up = search.earth ? search.earth.up : 0;
      this.below = places.metres ? this.compass() : "";
    }

    // A place in units of the picture.
    point([x, y]) {
      return [(x - this.left) * this.scale, (y - this.top) * this.scale];
    }

    // The points that a searcher goes through from the start on; null where one isn't drawn.
    way(searcher) {
      const sources = this.search.frames.map((it) => this.search.seats.sources[it.position][searcher]);
      return sources.map((it) => it === null ? null : this.layout.positions[it]).map((it) => it && this.point(it));
    }

    // The names of positions of the path that aren't on the map, in their order.
    notDrawn() {
      const { frames, seats } = this.search;
      const off = this.ways.flatMap((way, who) => frames.filter((_, at) => !way[at]).map((it) => seats.names[it.position][who]));
      return [...new Set(off)].sort();
    }

    // How large the names of squares are written so that the longest fits.
    nameSize() {
      return Math.min(NAME_SIZE, NAME_WIDTH / (LETTER * Math.max(...this.own.names.map((it) => short(it).length))));
    }

    // By searcher the curve and the arrow of the way to each period's position, or null where nothing is drawn.
    allLegs() {
      const gone = new Map();
      return this.ways.map((way) => way.slice(1).map((other, at) => {
        const one = way[at];
        if (!one || !other || isSame(one, other)) {
          return null;
        }
        const ends = [one.join(), other.join()].sort().join(" ");
        gone.set(ends, gone.has(ends) ? gone.get(ends) + 1 : 0);
        return leg(one, other, BOW * Math.min(gone.get(ends), MOST_BOWS));
      }));
    }

    // Lets the picture have a strip below its squares, with a scale and an arrow to north.
    compass() {
      const most = Math.min(COMPASS.MOST_SIDES, COMPASS.MOST_SHARE * this.columns) * this.layout.side;
      const lengths = Array.from({ length: 11 }, (_, at) => at - 3).flatMap((power) => [1, 2, 5].map((it) => it * 10 ** power));
      const metres = Math.max(...lengths.filter((it) => it <= most));
      const [[x], bottom] = [this.low, this.low[1] + this.size[1] + COMPASS.HEIGHT / 2];
      const [long, east] = [metres * this.scale, x + this.size[0] - COMPASS.ASIDE];
      const [at, length] = [(it) => fixed(it, 1), metres >= 1000 ? `${markup.general(metres / 1000)} km` : `${markup.general(metres)} m`];
      this.size[1] += COMPASS.HEIGHT;
      const bar = `M${at(x + COMPASS.ASIDE)} ${at(bottom - 7)}v14m0 -7h${at(long)}m0 -7v14`;
      const arrow = `M${at(east)} ${at(bottom - 20)}l9 36l-9 -8l-9 8z`;
      const low = at(bottom + 6);
      const scale = filled("scale", { bar, x: at(x + COMPASS.ASIDE + long + 10), y: low, length });
      const up = fixed(this.up, 1);
      const turn = Number(up) === 0 ? "" : filled("turn", { by: fixed(-Number(up), 1), x: at(east), y: at(bottom) });
      return scale + filled("north", { turn, arrow, x: at(east - 24), y: low });
    }

    // What is said of north.
    north() {
      const by = fixed(Math.abs(this.up), 1);
      return Math.abs(this.up) < COMPASS.TURNED ? filled("north_is_up", {}) : filled("north_is_aside", { by, side: this.up > 0 ? "left" : "right" });
    }

    // The box of a mesh, which is told in metres, in units of the picture: its corner, its width and its height.
    boxed([x, y, wide, high]) {
      return [...this.point([x, y]), wide * this.scale, high * this.scale];
    }

    // The map of a frame.
    svg(frame) {
      const label = escaped(filled("map_label", { when: when(this.search, frame), noun: this.own.noun }));
      const sums = this.own.sums(frame.left);
      const each = (drawing) => this.ways.map((_, who) => (who ? filled("layer", { kind: "second", drawn: drawing(who) }) : drawing(who))).join("");
      const [ways, signs] = [each((it) => this.path(it, frame)), each((it) => this.labels(it, frame) + this.searcher(it, frame))];
      const drawn = [this.colours(frame, sums), this.borders(), this.outlines(frame), this.drifts(frame), ways, this.texts(frame, sums), signs];
      return filled("map", { label, box: [...this.low, ...this.size].map(number).join(" "), drawn: drawn.join("") + this.below });
    }

    // The classes of colour of a place, of which so many make a square: as a share of all, and as a share of what is left.
    classes(frame, mass, parts = 1n) {
      return `a${classOf(mass * parts, this.search.weight)} b${frame.missed === 0n ? 0 : classOf(mass * parts, frame.missed)}`;
    }

    // What the title of a place says of it, without its exact fraction.
    shares(name, frame, mass) {
      return filled("shares", { name, of_all: share(mass, this.search.weight), of_left: share(mass, frame.missed) });
    }

    // A square for each square, whose title says its numbers, and on it its parts where it has any.
    colours(frame, sums) {
      const square = (point, at) => {
        const title = filled("square_title", { shares: this.shares(this.own.names[at], frame, sums[at]), mass: sums[at], whole: this.search.weight });
        const colour = this.classes(frame, this.parted.includes(at) ? 0n : sums[at]);
        return filled("square", { colour, x: number(point[0] - 49), y: number(point[1] - 49), title: escaped(title) });
      };
      const drawn = this.squares.map((point, at) => (point ? square(point, at) : ""));
      const parts = this.parted.flatMap((at) => this.own.cells[at].map((it) => this.part(frame, it)));
      return filled("layer", { kind: "cells", drawn: [...drawn, ...parts].join("") });
    }

    // A part of a square, coloured as a whole square that has as much in each part.
    part(frame, cell) {
      const [x, y] = this.point(this.layout.cells[cell]).map((it) => it - this.partSide() / 2);
      const colour = `${this.classes(frame, frame.left[cell], BigInt(this.layout.finer ** 2))} part`;
      return filled("square", { colour, x: number(x), y: number(y), title: escaped(this.shares(this.search.sc.names[cell], frame, frame.left[cell])) });
    }

    // The side of a part of a square, in units of the picture.
    partSide() {
      return (SIDE - GAP) / this.layout.finer - THIN_GAP;
    }

    // The borders of the squares with parts.
    borders() {
      const drawn = this.parted.map((it) => this.squares[it]).map(([x, y]) => box(x - 49, y - 49));
      return drawn.length ? filled("layer", { kind: "borders", drawn: drawn.join("") }) : "";
    }

    // An outline on each square that the look covers.
    outlines(frame) {
      const seen = this.squares.filter((point, it) => point && this.own.cells[it].some((cell) => frame.covered.includes(cell)));
      return filled("layer", { kind: "covers", drawn: seen.map(([x, y]) => box(x - 45, y - 45)).join("") });
    }

    // A dot for each simulated drift that is in the area at the look, where there are some and places are metres.
    drifts({ period }) {
      if (!this.search.trial || period === 0 || !this.layout.metres) {
        return "";
      }
      const dots = this.search.trial.drifts[period - 1].filter(Boolean).map((it) => this.point(it).map((each) => fixed(each, 0)));
      return filled("drifts", { dots: dots.map(([x, y]) => `M${x} ${y}h0`).join("") });
    }

    // The way that is to come, the way before this period, and this period's move on top, with an arrow on each leg; and the start.
    path(searcher, { period }) {
      const [before, start, all] = [Math.max(period - 1, 0), this.ways[searcher][0], this.legs[searcher]];
      const parts = { coming: all.slice(period), gone: all.slice(0, before), now: all.slice(before, period) };
      const drawn = Object.entries(parts).map(([kind, legs]) => filled("layer", { kind, drawn: legs.map((it) => (it ? filled("leg", it) : "")).join("") }));
      return drawn.join("") + (start ? filled("start", { x: number(start[0]), y: number(start[1]) }) : "");
    }

    // The name of each square, and its share in percent of all and of what is left.
    texts(frame, sums) {
      const texts = ([x, y], it) => filled("square_texts", {
        colour: this.classes(frame, sums[it]),
        left: number(x - 42),
        top: number(y - 31),
        name: escaped(short(this.own.names[it])),
        x: number(x),
        y: number(y + 38),
        of_all: share(sums[it], this.search.weight),
        of_left: share(sums[it], frame.missed),
      });
      return filled("layer_aside", { kind: "texts", drawn: this.squares.map((point, it) => (point ? texts(point, it) : "")).join("") });
    }

    // Beside each place of a way, the periods in which the searcher looks from there, where these aren't this period alone; those of the second
    // searcher stand below.
    labels(searcher, { period }) {
      const stops = new Map();
      this.ways[searcher].slice(1).forEach((point, at) => {
        if (point) {
          stops.set(point.join(), [point, [...(stops.get(point.join()) || [null, []])[1], at + 1]]);
        }
      });
      const up = (Math.max(...this.own.names.map((it) => it.length)) <= LETTERS_BESIDE ? 29 : 13) - BELOW * searcher;
      const others = [...stops.values()].filter(([, times]) => times.join() !== String(period));
      const drawn = others.map(([[x, y], times]) => filled("text", { x: number(x + 43), y: number(y - up), text: ranges(times) }));
      return filled("layer_aside", { kind: "visits", drawn: drawn.join("") });
    }

    // A searcher's place, with the number of the period. Two at one place stand beside each other.
    searcher(searcher, { period }) {
      const places = this.ways.map((it) => it[period]);
      if (!places[searcher]) {
        return "";
      }
      const isShared = places.filter((it) => it && isSame(it, places[searcher])).length > 1;
      const [x, y] = [places[searcher][0] + (isShared ? (searcher * 2 - 1) * ASIDE : 0), places[searcher][1]];
      const sign = searcher ? box(x - 14, y - 14) : filled("disc", { x: number(x), y: number(y) });
      return filled("layer_aside", { kind: "searcher", drawn: sign + filled("text", { x: number(x), y: number(y + 5.5), text: period || "S" }) });
    }
  }

  // Which look a frame is behind, in words.
  function when({ seats }, { period, position }) {
    const where = seats.names[position].join(" and ") + (period > 0 && period <= seats.flown ? " (flown)" : "");
    return filled(period ? "behind_look" : "before_looks", { period, who: seats.count === 1 ? "searcher is" : "searchers are", where });
  }

  return { Picture, CLASSES, classOf, classNames, leg, ranges, short, when };
}());
