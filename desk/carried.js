"use strict";
// The program that the page carries, in a worker, so that the page stays alive.
const carried = (function () {
  let worker = null;
  let last = Promise.resolve();
  let refuse = null;

  // What a template holds, as bytes.
  async function unpacked(name) {
    const text = document.getElementById(`carried-${name}`).content.textContent;
    const bytes = Uint8Array.from(atob(text), (it) => it.charCodeAt(0));
    const stream = new Blob([bytes]).stream().pipeThrough(new DecompressionStream("gzip"));
    return new Uint8Array(await new Response(stream).arrayBuffer());
  }

  // Says everywhere in the page what the SHA-256 of the program is that the page carries.
  async function tellSum() {
    const sum = await told.sha256(await unpacked("program"));
    document.querySelectorAll(".program-sum").forEach((it) => { it.textContent = sum; });
  }

  // A scenario and a plan as one input, with a line feed between them where the scenario lacks its last one.
  function joined(scenario, plan) {
    const feed = scenario[scenario.length - 1] === 10 ? 0 : 1;
    const whole = new Uint8Array(scenario.length + feed + plan.length).fill(10);
    whole.set(scenario);
    whole.set(plan, scenario.length + feed);
    return whole;
  }

  // What this browser lacks, if anything.
  function lacking() {
    if (typeof WebAssembly !== "object") {
      return "this browser runs no WebAssembly";
    }
    return typeof DecompressionStream === "function" && typeof Worker === "function" ? "" : "this browser is too old for it";
  }

  // What the worker answers to a message.
  function answer(message) {
    return new Promise((resolve, reject) => {
      refuse = reject;
      worker.onerror = (event) => reject(new Error(event.message || "no worker"));
      worker.onmessage = (event) => (event.data.failed === undefined ? resolve(event.data) : reject(new Error(event.data.failed)));
      worker.postMessage(message);
    });
  }

  async function answered(words, input) {
    if (worker === null) {
      const program = await unpacked("program");
      worker = new Worker(URL.createObjectURL(new Blob([WORKER], { type: "text/javascript" })));
      await answer({ program });
    }
    return answer({ words, input });
  }

  // Runs the program on an input (bytes): its status, what it wrote, and how many seconds it took. One run comes behind the other.
  function ask(words, input) {
    const mine = last.then(() => answered(words, input));
    last = mine.catch(() => null);
    return mine;
  }

  // Ends the run at hand, which then fails.
  function stop() {
    if (worker !== null) {
      worker.terminate();
      worker = null;
      refuse(new Error("it was stopped"));
    }
  }

  // What it answers to one of the steps of some work, unless that was ended meanwhile.
  async function asked(work, words, input) {
    const answer = await ask(words, input);
    if (work.isStopped) {
      throw new Error("it was stopped");
    }
    return answer;
  }

  // Ends some work, where there is any, with the run at hand.
  function end(work) {
    if (work !== null) {
      work.isStopped = true;
      stop();
    }
  }

  return { unpacked, tellSum, joined, lacking, ask, asked, end };
}());
