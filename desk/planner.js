// A page to plan in: a scenario goes in, and the program plans it, checks the plan, and what both say is shown.
(function () {
  const at = (id) => document.getElementById(`planner-${id}`);
  const [ACCEPTED, BAD_SCENARIO, TOO_MANY] = [0, 3, 8];
  const MOST_OF_A_GAP = Number(at("part").dataset.gap);
  // What a scenario is called that was written in the box: it is no file's.
  const [WRITTEN, EMPTY] = ["pasted", "There is no scenario: open one, paste it, or take an example."];
  const [encoder, decoder] = [new TextEncoder(), new TextDecoder()];
  // All that is given by hand. It is locked while something runs, so that what comes of a run is of what stands here.
  const inputs = at("part").querySelectorAll(".intake input, .intake select, .intake textarea, .intake button:not(#planner-stop)");
  // The scenario as it was opened, or null where it was written here, and its name; what runs now, with what it was given, or null.
  let opened = null;
  let name = WRITTEN;
  let running = null;

  function say(text, isWrong) {
    at("said").textContent = text;
    at("said").classList.toggle("wrong", Boolean(isWrong));
  }

  // Says what runs, and for how long.
  function tick() {
    say(`${running.what} … ${((performance.now() - running.began) / 1000).toFixed(0)} s`);
  }

  // Takes away what is shown of another plan.
  function forget() {
    at("found").hidden = at("shown").hidden = true;
    at("found").querySelector(".verdict").classList.remove("good");
    at("shown").replaceChildren();
    maps.begin();
  }

  function locked(isLocked) {
    inputs.forEach((it) => { it.disabled = isLocked; });
    at("stop").hidden = !isLocked;
  }

  // Locks the page for what runs, which can be stopped, until it ends: what it is says what it was given, and what is shown of others goes.
  async function alone(what, action) {
    running = { what, began: performance.now(), isStopped: false };
    const focused = document.activeElement;
    locked(true);
    forget();
    tick();
    const clock = window.setInterval(tick, 1000);
    const [said, isWrong] = await action().catch((why) => [`Nothing is shown: ${why.message}.`, true]);
    window.clearInterval(clock);
    running = null;
    locked(false);
    focused.focus({ preventScroll: true });
    say(said, isWrong);
  }

  // What the program answers, unless it is stopped.
  const ask = (words, input) => carried.asked(running, words, input);
  const stop = () => carried.end(running);

  // What the program said of a text, and of a scenario the line itself, too.
  function fault(answer, scenario) {
    const said = (answer.out || answer.err).trim();
    const line = answer.status === BAD_SCENARIO ? said.match(/line (\d+)/) : null;
    const text = line === null ? "" : decoder.decode(scenario).split("\n")[Number(line[1]) - 1];
    return line === null ? `${said}.` : `${said}: ${text === undefined ? "the text ends before it" : text.slice(0, 200)}`;
  }

  // Shows an accepted plan, or gap plan, of what was given, as a page of `show` does. All that the program says of it is asked before.
  async function show(given, plan, word, checked) {
    const both = carried.joined(given.scenario, plan);
    const mapped = await ask(["map", "flown", ...reading.plan(plan).path], reading.bare(given.scenario));
    const report = word === "check" ? await ask(["report"], both) : null;
    const own = await shown.search(given.scenario, plan, mapped.out);
    const here = markup.filled("checked_here", { seconds: checked.seconds.toFixed(2) });
    shown.put(at("shown"), own, shown.main(own));
    at("name").textContent = given.name;
    at("chance").innerHTML = tables.chance(own);
    at("verdict").replaceChildren(told.element("span", tables.verdict(own)), " ", told.element("small", here));
    at("about").textContent = shown.about(own);
    at("found").querySelector(".verdict").classList.add("good");
    saved(given.name, [plan, report, both], word);
    at("found").hidden = at("shown").hidden = false;
    maps.begin();
  }

  // Lets what is shown be saved, under the name of the scenario that it is of: the plan, its report, and the scenario with its plan.
  function saved(called, [plan, report, both], word) {
    told.save(at("save"), plan, `${called}.${word === "check" ? "plan" : "gap"}`);
    told.save(at("made"), both, `${called}.made`);
    at("report").hidden = report === null;
    if (report !== null) {
      told.save(at("report"), report.bytes, `${called}.report`);
    }
  }

  // Has a plan checked, and shows it where it is accepted: what is to be said then.
  async function judge(given, plan, said) {
    const word = decoder.decode(plan.subarray(0, 4)) === "gap " ? "checkgap" : "check";
    const checked = await ask([word], carried.joined(given.scenario, plan));
    if (checked.status !== ACCEPTED) {
      return [`Not accepted: ${fault(checked, given.scenario)}`, true];
    }
    await show(given, plan, word, checked);
    return [said, false];
  }

  // Plans; where the records run out, a path with a ceiling is made of those that there may be.
  async function plan(given) {
    let made = await ask(["plan", "--workers", "1", "--nodes", String(given.most)], given.scenario);
    if (made.status === TOO_MANY) {
      running.what = `Too many records are needed for ${given.name}: a path with a ceiling is made`;
      made = await ask(["gap", "--workers", "1", "--nodes", String(Math.min(given.most, MOST_OF_A_GAP))], given.scenario);
    }
    return made.status === 0
      ? judge(given, made.bytes, `Planned in ${made.seconds.toFixed(2)} s.`)
      : [`Nothing is planned: ${fault(made, given.scenario)}`, true];
  }

  // Checks the plan behind the scenario, or else that of the file that was chosen.
  async function check(given) {
    if (given.behind !== null) {
      return judge(given, given.behind, "The plan behind the scenario is accepted.");
    }
    if (given.file) {
      return judge(given, new Uint8Array(await given.file.arrayBuffer()), `${given.file.name} is accepted.`);
    }
    return ["There is no plan to check: choose its file.", true];
  }

  // All that stands here now, as one value: the scenario, its name, and the plan behind it, if there is one; the file of a plan; the most
  // records.
  function given() {
    const bytes = opened || encoder.encode(at("text").value);
    const [scenario, behind] = reading.parts(bytes);
    const both = /^(plan|gap) /.test(decoder.decode(behind.subarray(0, 5))) ? [scenario, behind] : [bytes, null];
    return Object.freeze({ name, scenario: both[0], behind: both[1], file: at("file-of-plan").files[0], most: Number(at("nodes").value) });
  }

  // Runs what asks the program of what stands here now.
  function attempt(what, action) {
    if (at("text").value.trim() === "") {
      say(EMPTY, true);
    } else if (!at("nodes").checkValidity()) {
      say(`Records are a whole number from 1 to ${at("nodes").max}.`, true);
    } else {
      const taken = given();
      alone(`${what} ${taken.name}`, () => action(taken));
    }
  }

  // Takes the bytes of a scenario as they are, with their name, which was chosen at `own`; `other` is where one may have been chosen
  // before. (A dialog that was open before something ran may end while it runs.)
  function take(source, [own, other], called) {
    if (running !== null) {
      at(own).value = "";
      return;
    }
    alone(`Opening ${called}`, async () => {
      const bytes = await source();
      [opened, name, at(other).value] = [bytes, called, ""];
      at("text").value = decoder.decode(bytes);
      return [`${called} is open.`, false];
    });
  }

  // What is written or pasted in the box is no file's, and no example.
  function written() {
    [opened, name, at("file").value, at("example").value] = [null, WRITTEN, "", ""];
    forget();
    say(at("text").value.trim() === "" ? "" : `The scenario was written here. It is called ${WRITTEN}.`);
  }

  if (carried.lacking()) {
    say(`Nothing can be planned here: ${carried.lacking()}.`, true);
    return;
  }
  at("file").addEventListener("change", () => {
    const file = at("file").files[0];
    if (file) {
      take(async () => new Uint8Array(await file.arrayBuffer()), ["file", "example"], file.name.replace(/\.(scenario|made)$/, ""));
    }
  });
  at("example").addEventListener("change", () => {
    const chosen = at("example").value;
    take(() => carried.unpacked(`example-${chosen}`), ["example", "file"], chosen);
  });
  at("text").addEventListener("input", written);
  at("plan").addEventListener("click", () => attempt("Planning", plan));
  at("check").addEventListener("click", () => attempt("Checking", check));
  at("stop").addEventListener("click", stop);
  locked(false);
  carried.tellSum();
}());
