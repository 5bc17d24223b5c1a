// Runs the module of WebAssembly in node: in_node.mjs MODULE, with a case on each line of standard input, as JSON: its words, its input
// in base64, and how many pages of memory it may have, or null. On each line of standard output stands what it answered, with the seconds
// of a processor that it took, those of compiling included.
import fs from "node:fs";
import { run } from "../door/web/osp.mjs";

const module = new WebAssembly.Module(fs.readFileSync(process.argv[2]));
const in_base64 = (it) => Buffer.from(it).toString("base64");
const answers = [];
for (const line of fs.readFileSync(0, "utf8").split("\n").filter((it) => it !== "")) {
  const { words, given, pages } = JSON.parse(line);
  const began = process.cpuUsage();
  const { status, out, err, memory } = run(module, words, Buffer.from(given, "base64"), pages ?? undefined);
  const took = process.cpuUsage(began);
  answers.push(JSON.stringify({ status, out: in_base64(out), err: in_base64(err), memory, seconds: (took.user + took.system) / 1e6 }));
}
process.stdout.write(answers.map((it) => `${it}\n`).join(""));
