// Writes the scenario that forces each flown prefix that standard input has, by the script of pages: node forced_in_node.mjs SCRIPT. Each line
// is JSON: a scenario in base64, and the numbers of the positions. On the same line of standard output stands the text, as JSON.
import { readFileSync } from "node:fs";
import { createInterface } from "node:readline";

const text = new Function(`${readFileSync(process.argv[2], "utf8")}\nreturn forced.text;`)();
for await (const line of createInterface({ input: process.stdin })) {
  const [scenario, flown] = JSON.parse(line);
  console.log(JSON.stringify(text(Buffer.from(scenario, "base64"), flown)));
}
