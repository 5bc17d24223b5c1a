// The page's own data are held against their checksums, the program checks the plan that the page carries, and from that plan, once it is
// accepted, all is drawn that is shown. Whatever goes wrong before leaves the words that nothing is checked, or says in red what is wrong.
const checked = (function () {
  const [ACCEPTED, REJECTED, UNREAD] = [0, 1, [3, 4]];
  const { filled } = markup;
  const at = (id) => document.getElementById(id);

  // What is said in place of a verdict, and by whom, or why.
  function say(said, by) {
    at("head").className = "verdict";
    at("head").innerHTML = filled("told_verdict", { said: markup.escaped(said), by: markup.escaped(by) });
  }

  function unchecked(why) {
    say(filled("unchecked", {}), `Nothing is checked here: ${why}.`);
  }

  // What is wrong is said in red, and the plan as text goes: nobody should fly it.
  function warn(said, by) {
    say(said, by);
    at("head").className = "verdict refused";
    at("shown").innerHTML = "";
  }

  // What the program wrote of a plan that it doesn't accept.
  function refuse(answer) {
    const text = (answer.out || answer.err).trim();
    const here = filled("checked_here", { seconds: answer.seconds.toFixed(2) });
    if (answer.status === REJECTED) {
      warn(`Rejected: ${text.replace(/^rejected (\d+) /, "line $1 of the plan, ")}.`, here);
    } else if (UNREAD.includes(answer.status)) {
      warn(`Not accepted: ${text}.`, here);
    } else {
      unchecked(`the program ended with status ${answer.status} (${text})`);
    }
  }

  // All parts that the page carries, as bytes by name, and those that aren't what was written: the checksums of these are `sums`, by name.
  async function parts(sums) {
    const [found, wrong] = [{}, []];
    for (const [name, sum] of Object.entries(sums)) {
      const bytes = name === "text" ? new TextEncoder().encode(at("text").textContent) : await carried.unpacked(name).catch(() => null);
      found[name] = bytes;
      wrong.push(...(bytes !== null && (await told.sha256(bytes)) === sum ? [] : [name]));
    }
    return { found, wrong };
  }

  // Asks the program, by `ask`, for the verdict on the plan of a scenario (bytes), and for the masses behind each look of an accepted plan: all
  // that is shown of it. `more` is what shown.search takes besides.
  async function asked([scenario, plan], more, ask) {
    const both = carried.joined(scenario, plan);
    const [own, behind] = reading.parts(both);
    const word = new TextDecoder().decode(behind.subarray(0, 4)) === "gap " ? "checkgap" : "check";
    const answer = await ask([word], both);
    if (answer.status !== ACCEPTED || answer.out !== "accepted\n") {
      return { answer };
    }
    const map = await ask(["map", "flown", ...reading.plan(behind).path], reading.bare(own));
    if (map.status !== ACCEPTED) {
      return { answer: map };
    }
    return { answer, search: await shown.search(scenario, behind, map.out, more) };
  }

  // Shows an accepted plan, and no part of it where one can't be drawn.
  function show({ answer, search }) {
    const [drawing, head] = [shown.main(search), shown.head(search, filled("checked_here", { seconds: answer.seconds.toFixed(2) }))];
    const text = radio.text(search.radio, radio.of(search));
    shown.put(at("shown"), search, drawing);
    at("notes").innerHTML = head.notes;
    at("radio-text").textContent = text;
    at("radio").hidden = at("worth").hidden = false;
    at("head").className = "verdict good";
    at("head").innerHTML = head.verdict;
    [maps, drifts, where].forEach((it) => it.begin());
  }

  // Checks what the page carries, by the checksums of its parts, and shows what came of it. Nothing is shown of what isn't whole.
  async function checkedOf(sums) {
    const { found, wrong } = await parts(sums);
    if (wrong.length > 0) {
      warn(filled("damaged", {}), filled("damaged_parts", { parts: wrong.map((it) => filled(`part_${it}`, {})).join(", ") }));
      return;
    }
    await carried.tellSum();
    const known = JSON.parse(new TextDecoder().decode(found.known));
    const plan = await asked([found.scenario, found.plan], { ...known, of: found.of }, carried.ask);
    if (plan.search === undefined) {
      refuse(plan.answer);
      return;
    }
    show(plan);
    await onscene.begin(plan, found).catch((why) => onscene.lacks(why));
  }

  // Begins, once the whole page is there: `sums` are the checksums of its parts. It is called by the last line of the page.
  async function begin(sums) {
    const lacking = carried.lacking() || (globalThis.crypto?.subtle ? "" : filled("no_sums", {}));
    if (lacking) {
      unchecked(lacking);
      return;
    }
    say(filled("unchecked", {}), "Being checked here …");
    try {
      await checkedOf(sums);
    } catch (why) {
      unchecked(`the browser stopped it (${why.message})`);
    }
  }

  return { begin, asked, show };
}());
