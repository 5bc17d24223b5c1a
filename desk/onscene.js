// On scene the searcher is not where the plan says: what was flown is marked, and the program plans the rest. The newest accepted plan
// leads: all that the page shows is of it, and one line has the chance of the plan that the page came with.
const onscene = (function () {
  const [NO_LETTER, TOO_MANY] = [/[^0-9a-z]/gi, 8];
  const [encoder, decoder] = [new TextEncoder(), new TextDecoder()];
  const part = document.getElementById("onscene");
  const at = (id) => document.getElementById(`onscene-${id}`);
  // What the page carries, as bytes by name; what desk/onscene.py says of the search, positions and places standing by their numbers; by
  // the places of a look its position.
  let [parts, scene, positions] = [null, null, null];
  // The plan that the page came with, and the newest that was accepted, which the page shows: what checked.js says of it, its path as
  // positions, how many looks of it are flown, and of the newest the bytes that are saved.
  let [first, newest] = [null, null];
  // The positions of the looks that are marked as flown; of the next look the places that are known; and what is planned now, or null.
  let [flown, places, running] = [[], [], null];

  function say(text, isWrong) {
    at("said").textContent = text;
    at("said").classList.toggle("wrong", Boolean(isWrong));
  }

  // So many looks, in words.
  function looks(count) {
    return count === 0 ? "no look" : markup.plural(count, "look");
  }

  // The names of a position's places, in words.
  function named(position) {
    return scene.at[position].map((it) => scene.places[it]).join(" and ");
  }

  // Whether the plan that is shown begins as marked, and has no other looks as flown.
  function fits() {
    return flown.length >= newest.flown && flown.every((it, look) => it === newest.path[look]);
  }

  // Says by the head of what plan the page is. It is green where that is one of what is marked; else its chance and its words for the radio
  // are struck out.
  function head() {
    const { value, weight } = first.search;
    document.getElementById("head").className = fits() ? "verdict good" : "verdict old";
    document.getElementById("radio").classList.toggle("old", !fits());
    at("before").textContent = newest === first ? "" : `Before: ${told.percent(value, weight)}, ${looks(first.flown)} flown.`;
    const stale = `The plan that is shown isn't one of what is marked as flown (${looks(flown.length)}): plan the rest.`;
    at("stale").textContent = fits() ? "" : stale;
  }

  // Shows what is marked as flown, and what can be done; and has the browser keep the marks.
  function show() {
    places = [];
    marks.keep(flown, flown.length - scene.flown);
    at("flown").replaceChildren(...flown.map((it) => told.element("li", named(it))));
    at("none").hidden = flown.length > 0;
    at("lost").hidden = marks.areSafe();
    part.querySelectorAll("button:not(#onscene-stop), input").forEach((it) => { it.disabled = running !== null; });
    at("stop").hidden = running === null;
    if (running === null) {
      at("undo").disabled = at("clear").disabled = flown.length === scene.flown;
      at("plan").disabled = flown.length === 0;
      at("next").disabled = flown.length === scene.path.length || !fits();
    }
    head();
  }

  // Lets the whole page show a plan, and of its maps the one behind the last look that is flown.
  function lead(plan) {
    newest = plan;
    checked.show(plan);
    document.querySelector("h1 bdi").textContent = plan.search.name;
    document.title = markup.filled("title", { name: plan.search.name });
    maps.begin(plan.flown);
    at("found").hidden = plan === first;
    if (plan !== first) {
      told.save(at("save"), plan.bytes, plan.search.name);
    }
  }

  function add(position) {
    if (flown.length === scene.path.length) {
      say(`The plan has ${scene.path.length} looks, and all are flown.`, true);
    } else {
      flown.push(position);
      say(`Look ${flown.length} was from ${named(position)}.`);
      show();
    }
  }

  // Takes the place of the next searcher's look; with the last one's the look is marked.
  function take(name) {
    const place = scene.places.indexOf(name);
    if (place < 0) {
      say(`${name} is no place to look from.`, true);
      return false;
    }
    places.push(place);
    if (places.length === scene.start.length) {
      add(positions.get(String(places)));
    } else {
      say(`The first searcher looked from ${name}; now the place of the second one.`);
    }
    return true;
  }

  // The place to look from that a square of a map, or a part of one, stands for.
  function place(square) {
    const cell = square.querySelector("title").textContent.split(": ")[0];
    const { squares, sc } = first.search;
    const own = squares.filled.find((it) => squares.cells[it].some((one) => sc.names[one] === cell));
    return scene.places.includes(cell) || own === undefined ? cell : squares.names[own];
  }

  function mark(event) {
    const square = event.target.closest(".figures .cells rect");
    if (running === null && square !== null && at("mark").getAttribute("aria-pressed") === "true") {
      take(place(square));
    }
  }

  function written(event) {
    const fields = Array.from(part.querySelectorAll(".onscene-name"));
    event.preventDefault();
    if (running === null) {
      places = [];
      if (fields.every((it) => take(it.value.trim()))) {
        fields[0].focus();
      }
      fields.forEach((it) => { it.value = ""; });
    }
  }

  // What the program answers, unless it is stopped.
  const ask = (words, input) => carried.asked(running, words, input);
  const stop = () => carried.end(running);

  // The words of positions that are flown.
  function words(path) {
    return ["flown", ...path.map((it) => scene.positions[it])];
  }

  // The scenario that forces the looks that are flown with its plan behind it; where the records run out, with a path with a ceiling. Of
  // that the program doesn't write the scenario, which forces these looks and no others.
  async function planned(base, most) {
    const made = await ask(["replan", "--workers", "1", "--nodes", String(most), ...words(flown)], base);
    if (made.status !== TOO_MANY) {
      return made;
    }
    say("Too many records are needed: a path with a ceiling is made …");
    const own = encoder.encode(forced.text(base, flown));
    const gap = await ask(["gap", "--workers", "1", "--nodes", String(Math.min(most, scene.gap))], own);
    return gap.status === 0 ? { ...gap, bytes: carried.joined(own, gap.bytes) } : gap;
  }

  // Throws where the looks of a path don't leave in the scenario of the page what they leave in the one that was planned.
  async function held(base, path, { sc, frames }) {
    const left = told.looks((await ask(["map", ...words(path)], base)).out).map((it) => it.left);
    const isOther = (it, look) => sc.names.some((name, cell) => it.get(name) !== frames[look + 1].left[cell]);
    if (left.length !== path.length || left.some(isOther)) {
      throw new Error("the masses of the map aren't those of the plan");
    }
  }

  // Who looked from where, as it is marked: where several places look alike, the plan can't say it.
  function seat({ sc, seats }) {
    const begin = sc.positions.length - flown.length - 1;
    [scene.start, ...flown.map((it) => scene.at[it])].forEach((its, look) => {
      seats.sources[begin + look] = its;
      seats.names[begin + look] = its.map((it) => scene.places[it]);
    });
  }

  // What was planned, once it is accepted: all that the page shows of it. What the page says of times, places and names holds of it, too.
  async function accepted(made, base) {
    const own = first.search;
    const name = `${scene.name.replace(NO_LETTER, "-")}-flown-${flown.length}.made`;
    const of = parts.of ?? (scene.start.length > 1 ? undefined : base);
    const { answer, search } = await checked.asked(reading.parts(made.bytes), { of, name, earth: own.earth, radio: own.radio }, ask);
    if (search === undefined) {
      return { answer };
    }
    const path = search.path.map((it, look) => flown[look] ?? scene.positions.indexOf(it));
    await held(base, path, search);
    seat(search);
    return { answer, search: { ...search, clock: own.clock, lines: own.lines }, path, flown: flown.length, bytes: made.bytes };
  }

  // Plans the rest, has it checked, and shows it: what is to be said then.
  async function attempt(most) {
    const base = parts[scene.base];
    const made = await planned(base, most);
    const plan = made.status === 0 ? await accepted(made, base) : { answer: made };
    if (plan.search === undefined) {
      return [`Nothing is planned: ${(plan.answer.out || plan.answer.err).trim()}.`, true];
    }
    lead(plan);
    const chance = told.percent(plan.search.value, plan.search.weight);
    return [`Planned in ${made.seconds.toFixed(2)} s. The page shows this plan: ${chance}, ${looks(plan.flown)} flown.`, false];
  }

  // Marks are locked while it plans: the plan is one of those that stand here.
  async function plan() {
    if (!at("most").checkValidity()) {
      say(`Records are a whole number from 1 to ${at("most").max}.`, true);
      return;
    }
    const focused = document.activeElement;
    running = { isStopped: false };
    show();
    say("Planning …");
    const [text, isWrong] = await attempt(Number(at("most").value)).catch((why) => [`Nothing is planned: ${why.message}.`, true]);
    running = null;
    show();
    focused.focus({ preventScroll: true });
    say(text, isWrong);
  }

  // Takes marks away. Where none is left that the page didn't come with, it shows the plan that it came with.
  function cleared(count, text) {
    flown = flown.slice(0, count);
    if (count === scene.flown && newest !== first) {
      lead(first);
    }
    say(text);
    show();
  }

  function toggle() {
    at("mark").setAttribute("aria-pressed", String(at("mark").getAttribute("aria-pressed") !== "true"));
  }

  function listen() {
    at("next").addEventListener("click", () => add(newest.path[flown.length]));
    at("undo").addEventListener("click", () => cleared(flown.length - 1, "The last mark is taken back."));
    at("clear").addEventListener("click", () => cleared(scene.flown, "The plan is as it was made."));
    at("plan").addEventListener("click", plan);
    at("stop").addEventListener("click", stop);
    at("mark").addEventListener("click", toggle);
    at("form").addEventListener("submit", written);
    document.getElementById("shown").addEventListener("click", mark);
  }

  // The marks that the browser has kept of this plan, if they are some.
  async function kept() {
    const found = await marks.begin(carried.joined(parts.scenario, parts.plan));
    const begins = first.path.slice(0, first.flown).every((it, look) => it === found[look]);
    const areSome = found.length > first.flown && found.length <= scene.path.length;
    return begins && areSome && found.every((it) => scene.at[it] !== undefined) ? found : null;
  }

  // Begins behind what checked.js shows, a plan with its answer, and the parts that the page carries.
  async function begin(shownNow, carriedNow) {
    part.hidden = false;
    if (carriedNow.scene === undefined) {
      return;
    }
    [parts, scene] = [carriedNow, JSON.parse(decoder.decode(carriedNow.scene))];
    positions = new Map(scene.at.map((its, position) => [String(its), position]));
    first = newest = { ...shownNow, path: scene.path, flown: scene.flown };
    const again = await kept();
    flown = again ?? scene.path.slice(0, scene.flown);
    say(again === null ? "" : `This browser kept the marks that were made here: ${looks(again.length)} flown.`);
    listen();
    show();
  }

  // What is said where it can't begin.
  function lacks(why) {
    part.hidden = false;
    part.replaceChildren(told.element("p", `Nothing can be planned here: ${why.message}.`, "note"));
  }

  return { begin, lacks };
}());
