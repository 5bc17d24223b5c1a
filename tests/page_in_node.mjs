// Opens pages of `show` in node, over a small DOM: page_in_node.mjs PROGRAM, with the path of a page on each line of standard input. Their own
// script runs, but for the worker, in the place of whose module the program for Linux answers. On each line of standard output stands what
// the script made of the elements of the page, as JSON by their ids: `html`, `text`, `className`, `hidden`, `media` and `style`, each where it
// was set.
import { spawnSync } from "node:child_process";
import { readFileSync } from "node:fs";
import { createInterface } from "node:readline";
import { webcrypto } from "node:crypto";

globalThis.crypto ??= webcrypto;
const PROGRAM = process.argv[2];
const SIGNS = { "&amp;": "&", "&lt;": "<", "&gt;": ">", "&quot;": '"', "&#x27;": "'" };
const unescaped = (it) => it.replace(/&(amp|lt|gt|quot|#x27);/g, (sign) => SIGNS[sign]);
const nothing = () => null;

// An element, of which nothing is known but what it is given.
class Element {
  constructor(text) {
    this.textContent = text;
    this.content = { textContent: text };
    this.told = {};
    this.style = { setProperty: (name, value) => { (this.told.style ??= {})[name] = value; } };
    this.classList = { add: nothing, remove: nothing, toggle: nothing };
    Object.assign(this, { addEventListener: nothing, setAttribute: nothing, getAttribute: nothing, replaceChildren: nothing, append: nothing });
    this.querySelector = nothing;
    this.querySelectorAll = () => [];
  }

  set innerHTML(value) {
    this.told.html = value;
  }

  set className(value) {
    this.told.className = value;
  }

  set hidden(value) {
    this.told.hidden = value;
  }

  set media(value) {
    this.told.media = value;
  }

  set textContent(value) {
    this.own = value;
    if (this.told) {
      this.told.text = value;
    }
  }

  get textContent() {
    return this.own;
  }
}

// The program in the place of the page's worker.
class Worker {
  postMessage({ program, words, input }) {
    if (program) {
      setTimeout(() => this.onmessage({ data: { ready: true } }));
      return;
    }
    const { status, stdout, stderr } = spawnSync(PROGRAM, words, { input, maxBuffer: 2 ** 30 });
    setTimeout(() => this.onmessage({ data: { status, out: stdout.toString(), err: stderr.toString(), bytes: stdout, seconds: 0 } }));
  }

  terminate() {}
}

// What the script of a page made of its elements; null where it has no script.
async function opened(page) {
  const scripts = [...page.matchAll(/<script>([^]*?)<\/script>/g)].map((it) => it[1]);
  if (scripts.length === 0) {
    return null;
  }
  const found = new Map([...page.matchAll(/ id="([^"]+)"[^>]*>([^<]*)/g)].map(([, id, text]) => [id, new Element(unescaped(text))]));
  const document = {
    getElementById: (id) => found.get(id) ?? null,
    createElement: () => new Element(""),
    ...{ querySelector: nothing, querySelectorAll: () => [], addEventListener: nothing, documentElement: new Element("") },
  };
  const last = scripts.pop();
  await new Function("document", "Worker", "window", `${scripts.join("\n")}\nreturn ${last}`)(document, Worker, globalThis);
  return Object.fromEntries([...found].map(([id, it]) => [id, it.told]).filter(([, it]) => Object.keys(it).length > 0));
}

for await (const line of createInterface({ input: process.stdin })) {
  console.log(JSON.stringify(await opened(readFileSync(line, "utf8"))));
}
