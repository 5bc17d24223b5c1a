// Calls the functions of door/web/host.c in node: host_in_node.mjs MODULE, with a JSON list of calls on standard input. What each
// answers stands in a JSON list on standard output. Numbers are decimal texts. A call is a list:
//   [NAME, A, B]            arithmetic of 128 bits; shifts have a number of bits as B: the number that comes of it
//   ["alloc", BYTES, ALIGN], ["malloc", BYTES]  a new block: its address, or null where there is none. Blocks are numbered from 0
//   ["realloc", BLOCK, USED, BYTES]             the block's new address, or null
//   ["dealloc", BLOCK], ["free", BLOCK]
//   ["fill", BLOCK, BYTES, BYTE]                writes so many bytes of a block
//   ["bytes", BLOCK, BYTES]                     which bytes stand there, each once
import fs from "node:fs";

const module = new WebAssembly.Module(fs.readFileSync(process.argv[2]));
const host = new WebAssembly.Instance(module, {}).exports;
const blocks = [];
const LOW = (1n << 64n) - 1n;
// Where a pair that a function answers is written: within the first page, which is the stack's.
const PLACE = 1024;

function pair() {
  const view = new DataView(host.memory.buffer, PLACE, 16);
  return [view.getBigUint64(0, true), view.getBigUint64(8, true)];
}

function arithmetic(name, a, b) {
  const halves = (it) => [BigInt.asIntN(64, it & LOW), BigInt.asIntN(64, it >> 64n)];
  const second = name.endsWith("shlti3") || name.endsWith("shrti3") ? [Number(b)] : halves(BigInt(b));
  host[name](PLACE, ...halves(BigInt(a)), ...second);
  const [low, high] = pair();
  return String((high << 64n) | low);
}

function tried(block) {
  const [ok, at] = pair();
  if (ok) {
    blocks[block] = Number(at);
  }
  return ok ? Number(at) : null;
}

const calls = {
  alloc(bytes, align) {
    host.rattle_alloc(PLACE, BigInt(bytes), BigInt(align));
    return tried(blocks.length);
  },
  malloc(bytes) {
    const at = host.malloc(BigInt(bytes));
    blocks.push(at);
    return at || null;
  },
  realloc(block, used, bytes) {
    host.rattle_realloc(PLACE, blocks[block], BigInt(used), BigInt(bytes), 8n);
    return tried(block);
  },
  dealloc: (block) => host.rattle_dealloc(blocks[block]) ?? null,
  free: (block) => host.free(block === null ? 0 : blocks[block]) ?? null,
  fill: (block, bytes, byte) => new Uint8Array(host.memory.buffer, blocks[block], bytes).fill(byte) && null,
  bytes: (block, bytes) => [...new Set(new Uint8Array(host.memory.buffer, blocks[block], bytes))],
};

const asked = JSON.parse(fs.readFileSync(0, "utf8"));
process.stdout.write(JSON.stringify(asked.map(([name, ...given]) => (name in calls ? calls[name](...given) : arithmetic(name, ...given)))));
