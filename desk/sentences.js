// What is said of an accepted plan, as sentences.py says it for a brief, in all pages in which the program runs.
const sentences = (function () {
  const { filled } = markup;

  // What no other is better than the plan's.
  function best({ count, flown }) {
    return (count === 1 ? "path" : "pair of paths") + (flown ? " that begins as flown" : "");
  }

  // What the program accepted, by what the path finds of a whole, and by what no path exceeds, which is null of a plan.
  function verdict({ value, whole, ceiling }, seats) {
    if (ceiling === null) {
      return filled("no_better", { best: best(seats) });
    }
    if (ceiling > value && ceiling >= whole) {
      return filled("nothing_shown", {});
    }
    return filled("no_more", { best: best(seats), than: ceiling > value ? ` than ${told.up(ceiling, whole)} %` : "" });
  }

  // What is said of a flown prefix, in short sentences: how many looks are flown, and what those to come find if these, by which so much is
  // found, found nothing.
  function aboutFlown({ value, whole, found }, flown, horizon) {
    if (flown === 0) {
      return [];
    }
    if (flown === horizon) {
      return [filled("all_flown", {})];
    }
    const [head, these] = [filled(flown === 1 ? "first_flown" : "flown", { count: flown }), flown === 1 ? "it" : "these"];
    const missed = whole - found;
    return [head, missed === 0n ? filled("flown_certain", { these }) : filled("flown_rest", { these, share: told.cut(value - found, missed) })];
  }

  // What is said of a trial of the plan: what it finds of so many simulated drifts, with its standard error, beside what the plan says.
  function aboutTrial({ value, whole }, { count, finds, error, isOff }) {
    const digits = error >= 0.0005 ? 1 : 2;
    const [says, found, by] = [Number(value) / Number(whole), finds, error].map((it) => markup.fixed(it * 100, digits));
    const said = filled("trial_both", { says, finds: found, error: by, count: String(count).replace(/\B(?=(\d{3})+$)/g, ",") });
    return [said, ...(isOff ? [filled("trial_is_off", {})] : [])];
  }

  return { verdict, aboutFlown, aboutTrial };
}());
