
// The worker: its first message has the module's bytes, each other one the words and the input of a run. It answers what came of it, and
// how long it took, in seconds.
let module = null;
onmessage = async (event) => {
  const { program, words, input } = event.data;
  try {
    if (program) {
      module = await WebAssembly.compile(program);
      postMessage({ ready: true });
      return;
    }
    const began = performance.now();
    const { status, out, err } = run(module, words, input);
    const decoder = new TextDecoder();
    postMessage({ status, out: decoder.decode(out), err: decoder.decode(err), bytes: out, seconds: (performance.now() - began) / 1000 });
  } catch (why) {
    postMessage({ failed: String(why.message) });
  }
};
