// Runs the program as a module of WebAssembly, with its words, its input and its outputs in memory. It stands where the C library's
// calls of the system stand under Linux; it gives the program nothing else. Nothing proves this file; tests/desk_web.py compares what
// comes out with the program for Linux.

// Where a growth of memory is refused, the program ends with this status.
const NO_MEMORY = 7;
// What stops the program from outside, as a stack that is too small for it.
const STOPPED = 70;
const EAGAIN = 11;
// How many pages of 64 KiB the program has from the start, and may have: those that its module is linked with (build.py).
const [FIRST_PAGES, MOST_PAGES] = [144, 16384];
const [NO_WORD, NO_ROOM] = [-1n, -2n];

// How the program ends: by a call that doesn't come back.
class Ended {
  constructor(status) {
    this.status = status;
  }
}

// The calls that a program without other threads doesn't make.
function never(name) {
  return () => { throw new Error(`the program called ${name}`); };
}

// Bytes that come in pieces, as one piece.
function joined(pieces) {
  const whole = new Uint8Array(pieces.reduce((sum, it) => sum + it.length, 0));
  let at = 0;
  for (const piece of pieces) {
    whole.set(piece, at);
    at += piece.length;
  }
  return whole;
}

// What the program calls, by name: `words` and `input` are its words and its standard input as bytes, `outputs` takes the pieces
// that it writes, standard output first. No thread can be started: the program then does by one what it would do by several.
function calls(memory, words, input, outputs) {
  const bytes = (at, count) => new Uint8Array(memory.buffer, at >>> 0, count);
  let errno = 0;
  let taken = 0;
  const named = {
    read(file, to, room) {
      const piece = file === 0 ? input.subarray(taken, taken + Number(room)) : null;
      if (piece === null) {
        return -1n;
      }
      bytes(to, piece.length).set(piece);
      taken += piece.length;
      return BigInt(piece.length);
    },
    write(file, from, count) {
      if (file !== 1 && file !== 2) {
        return -1n;
      }
      outputs[file - 1].push(bytes(from, Number(count)).slice());
      return count;
    },
    rattle_arg(at, to, room) {
      const word = words[Number(at)];
      if (word === undefined) {
        return NO_WORD;
      }
      const fits = word.subarray(0, Number(room));
      bytes(to, fits.length).set(fits);
      return fits.length < word.length ? NO_ROOM : BigInt(word.length);
    },
    rattle_errno: () => errno,
    rattle_set_errno(to) { errno = to; },
    _exit(status) { throw new Ended(status); },
    sched_yield: () => 0,
    pthread_attr_init: () => 0,
    pthread_attr_setguardsize: () => 0,
    pthread_attr_destroy: () => 0,
    pthread_create: () => EAGAIN,
  };
  for (const name of ["pthread_join", "pthread_detach", "pthread_self", "syscall", "abort"]) {
    named[name] = never(name);
  }
  return { memory, ...named };
}

/// The program's run on `input` (bytes) with the words behind its name (strings): its exit status, what it wrote to standard output and
/// to standard error (bytes), and how many bytes of memory it had. `most` is how many pages of 64 KiB it may have, at most.
export function run(module, words, input, most) {
  const encoder = new TextEncoder();
  const outputs = [[], []];
  const ended = (status, memory) => ({ status, out: joined(outputs[0]), err: joined(outputs[1]), memory: memory ? memory.buffer.byteLength : 0 });
  let memory = null;
  try {
    memory = new WebAssembly.Memory({ initial: FIRST_PAGES, maximum: Math.max(FIRST_PAGES, Math.min(most ?? MOST_PAGES, MOST_PAGES)) });
    const env = calls(memory, ["osp", ...words].map((it) => encoder.encode(it)), input, outputs);
    const exports = new WebAssembly.Instance(module, { env }).exports;
    return ended(exports.osp(), memory);
  } catch (why) {
    if (why instanceof Ended) {
      return ended(why.status, memory);
    }
    if (memory === null) {
      outputs[1].push(encoder.encode("no memory\n"));
      return ended(NO_MEMORY, null);
    }
    outputs[1].push(encoder.encode(`osp: the browser stopped the program: ${why.message}\n`));
    return ended(STOPPED, memory);
  }
}
