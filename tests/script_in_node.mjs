// Runs functions of the script by which pages show a plan: script_in_node.mjs SCRIPT. Each line of standard input is JSON: what is asked
// `of` the script, and what it is given. On the same line of standard output stands the answer, as JSON. `told`, of a scenario with its plan
// behind it, in base64, of what `map` says of its path, and perhaps of the scenario that it was made of, is what a page says and shows of it.
import { readFileSync } from "node:fs";
import { createInterface } from "node:readline";
import { webcrypto } from "node:crypto";

globalThis.crypto ??= webcrypto;
const parts = new Function(`${readFileSync(process.argv[2], "utf8")}\nreturn { markup, reading, layout, seats, picture, tables, shown };`)();
const bytes = (it) => new Uint8Array(Buffer.from(it, "base64"));

// What a page says of a plan in its head, and what it shows below; or why nothing is shown.
async function told({ both, map, of }) {
  try {
    const own = await parts.shown.search(...parts.reading.parts(bytes(both)), map, { of: of && bytes(of) });
    return [parts.tables.chance(own), parts.tables.verdict(own), parts.shown.about(own), parts.shown.main(own).text];
  } catch (why) {
    return why.message;
  }
}

// Where squares, cells and positions of a scenario lie, or why there is no map.
function laid(text) {
  const lines = parts.reading.lines(bytes(text));
  const sc = parts.reading.scenario(lines);
  const squares = parts.layout.squares(sc);
  try {
    return { ...squares, ...parts.layout.layout(sc, squares, lines), names: squares.names, groups: squares.cells };
  } catch (why) {
    return why.message;
  }
}

const ASKED = {
  told,
  laid,
  parts: (text) => parts.reading.parts(bytes(text)).map((it) => Buffer.from(it).toString()),
  comment: (text) => parts.reading.comment(parts.reading.lines(bytes(text))),
  begins: (text) => {
    const clock = parts.reading.times(parts.reading.lines(bytes(text)));
    return clock && [clock.about, clock.at(1), clock.at(2), clock.at(9)];
  },
  classes: (masses) => masses.map((it) => parts.picture.classOf(BigInt(it), 10_000n)),
  names: () => parts.picture.classNames(),
  ranges: (times) => parts.picture.ranges(times),
  short: (name) => parts.picture.short(name),
  leg: ([one, other, bow]) => parts.picture.leg(one, other, bow),
  fixed: (given) => parts.markup.fixed(...given),
  general: (given) => parts.markup.general(...given),
};
for await (const line of createInterface({ input: process.stdin })) {
  const { of, given } = JSON.parse(line);
  console.log(JSON.stringify(await ASKED[of](given)));
}
