// Writes the brief of each search that standard input has, a line of JSON each, by the script of pages: node radio_in_node.mjs SCRIPT
import { readFileSync } from "node:fs";

const text = new Function(`${readFileSync(process.argv[2], "utf8")}\nreturn radio.text;`)();
const numbers = (it) => (it === null ? null : BigInt(it));
for (const line of readFileSync(0, "utf8").split("\n").filter(Boolean)) {
  const { words, search } = JSON.parse(line);
  const { value, whole, ceiling, found, squares } = search;
  const masses = new Map(squares.map(([name, mass]) => [name, BigInt(mass)]));
  const known = { value: numbers(value), whole: numbers(whole), ceiling: numbers(ceiling), found: found.map(BigInt), squares: masses };
  console.log(JSON.stringify(text(words, { ...search, ...known })));
}
