// Who stands where at a position of a scenario that `replan` or `duo` made, as seats.py tells it: one searcher whose first periods are flown,
// or two. No name alone makes a position a flown one, or a pair: the scenario has to be the one that is made of the other, which may be given.
// (How the target drifts says nothing of who stands where, and isn't compared.)
const seats = (function () {
  const upTo = (count) => Array.from({ length: count }, (_, at) => at);
  const isSame = (one, other) => one.join() === other.join();
  const periods = (sc) => upTo(sc.horizon).map((it) => it + 1);

  // What a look from a position covers in a period, without the cells of which it misses all: as a text that can be compared.
  function covered(look, whole) {
    return [...look].filter((it) => it[1] < whole).sort((a, b) => a[0] - b[0]).join(";");
  }

  // What the looks from a position cover, period by period, as a text that can be compared.
  function seen(sc, position) {
    return periods(sc).map((t) => covered(sc.look(t, position), sc.parts[2])).join("|");
  }

  // Whether another scenario has the same cells, where somebody is alike at the begin, and as many periods.
  function isOfSame(sc, other) {
    const begins = (it) => [...it.first].sort((a, b) => a[0] - b[0]).join(";");
    return isSame(sc.names, other.names) && begins(sc) === begins(other) && sc.horizon === other.horizon && isSame(sc.parts.slice(0, 2), other.parts.slice(0, 2));
  }

  // ---- a flown prefix

  // Whether a scenario's own positions are those of another one: their names, moves and looks.
  function isMadeOf(sc, own, old) {
    const isAlike = (it) => isSame(sc.moves.get(it), old.moves.get(it)) && seen(sc, it) === seen(old, it);
    return isOfSame(sc, old) && sc.parts[2] === old.parts[2] && isSame(sc.positions.slice(0, own.length), old.positions) && own.every(isAlike);
  }

  // Of sets of positions for a walk to go through, one behind another, those positions that some such walk does go through.
  function narrowed(moves, given) {
    const fits = [...given];
    for (let at = 1; at < fits.length; at += 1) {
      fits[at] = fits[at].filter((to) => fits[at - 1].some((it) => moves[it].includes(to)));
    }
    for (let at = fits.length - 1; at > 0; at -= 1) {
      fits[at - 1] = fits[at - 1].filter((it) => fits[at].some((to) => moves[it].includes(to)));
    }
    return fits;
  }

  // Where the searcher of a scenario that forces a flown prefix is, or null. Where several walks look alike, any of them was flown. `old` is
  // the scenario that it was made of, or null.
  function behindFlown(sc, old) {
    const [count, flown] = [sc.start, sc.positions.length - sc.start - 1];
    const [own, moves] = [upTo(count), upTo(sc.positions.length).map((it) => sc.moves.get(it))];
    const isNamed = isSame(sc.positions.slice(count), upTo(flown + 1).map((it) => `flown-${it}`));
    if (flown < 1 || !isNamed || own.some((it) => moves[it].some((to) => to >= count)) || (old && !isMadeOf(sc, own, old))) {
      return null;
    }
    const looks = moves.map((_, it) => seen(sc, it));
    const alike = looks.slice(count).map((here) => own.filter((it) => looks[it] === here));
    alike[0] = old ? alike[0].filter((it) => it === old.start) : alike[0];
    alike[flown] = alike[flown].filter((it) => isSame(moves[it], moves[count + flown]));
    const fits = narrowed(moves, alike);
    if (fits.some((it) => !it.length) || !upTo(flown).every((it) => isSame(moves[count + it], [count + it + 1]))) {
      return null;
    }
    const sources = [...own, ...fits.map((it) => (it.length === 1 ? it[0] : null))];
    const names = sources.map((it, at) => sc.positions[it === null ? at : it]);
    const of = { ...(old || sc), positions: sc.positions.slice(0, count), start: fits[0][0] };
    return { of, sources: sources.map((it) => [it]), names: names.map((it) => [it]), flown, isNumbered: false };
  }

  // ---- two searchers

  // The square root of a part that two searchers at one position miss, or one that no part has where there is none.
  function root(part) {
    const found = Math.round(Math.sqrt(part));
    return found * found === part ? found : RULES.limits.MOST_PART + 1;
  }

  // The scenario of one of the two searchers, by the pairs of a position with itself. Its positions are named by their numbers.
  function oneOfTwo(sc, count) {
    const own = (it) => it * count + it;
    const looks = (t, it) => [...sc.look(t, own(it))].filter(([, part]) => part < sc.parts[2]).map(([cell, part]) => [cell, root(part)]);
    const moves = upTo(count).map((it) => [it, [...new Set(sc.moves.get(own(it)).map((to) => Math.floor(to / count)))].sort((a, b) => a - b)]);
    const parts = [...sc.parts.slice(0, 2), BigInt(root(Number(sc.parts[2])))];
    return { ...sc, positions: upTo(count).map(String), start: Math.floor(sc.start / count), parts, moves: new Map(moves), look: (t, it) => new Map(looks(t, it)) };
  }

  // Whether a scenario may be that of one of two searchers: it has so many positions, the start of the first, and what else both share.
  function isOfOne(sc, old, count) {
    return old.positions.length === count && old.start === Math.floor(sc.start / count) && isOfSame(sc, old);
  }

  // Where the two searchers of a scenario are, or null. `old` is the scenario of one of them, or null.
  function ofTwo(sc, old) {
    const count = Math.floor(Math.sqrt(sc.positions.length));
    const pairs = upTo(count * count).map((it) => [Math.floor(it / count), it % count]);
    if (!isSame(sc.positions, pairs.map(([one, other]) => `p${one}-${other}`)) || (old && !isOfOne(sc, old, count))) {
      return null;
    }
    const of = old || oneOfTwo(sc, count);
    const g = Number(of.parts[2]);
    // What two looks miss together; of a cell that isn't named they miss all.
    const both = (one, other) => [...new Set([...one.keys(), ...other.keys()])].map((it) => [it, (one.get(it) ?? g) * (other.get(it) ?? g)]);
    const isPair = ([one, other], at) => isSame(sc.moves.get(at), of.moves.get(one).flatMap((to) => of.moves.get(other).map((it) => to * count + it)))
      && periods(sc).every((t) => covered(both(of.look(t, one), of.look(t, other)), g * g) === covered(sc.look(t, at), sc.parts[2]));
    if (BigInt(g) * BigInt(g) !== sc.parts[2] || !pairs.every(isPair)) {
      return null;
    }
    return { of, sources: pairs, names: pairs.map((its) => its.map((it) => of.positions[it])), flown: 0, isNumbered: !old };
  }

  // ---- any of them

  // Where the two searchers of a scenario that forces a flown prefix are, or null.
  function flownByTwo(sc, old) {
    const flown = behindFlown(sc, null);
    const pairs = flown && ofTwo(flown.of, old);
    if (!pairs) {
      return null;
    }
    const sources = flown.sources.map(([it]) => (it === null ? [null, null] : pairs.sources[it]));
    const names = flown.sources.map(([it], at) => (it === null ? [...flown.names[at], ...flown.names[at]] : pairs.names[it]));
    return { ...pairs, sources, names, flown: flown.flown };
  }

  // Where the searchers, one or two, of a scenario are: `of` is the scenario that it was made of, or it itself. By position `sources` has for
  // each searcher the position of `of`, or null where several look alike, and `names` their names. `old` is the scenario that it was made of,
  // or null where that isn't given. Throws an Error where it wasn't made of that.
  function seats(sc, old) {
    const alone = { of: sc, sources: sc.positions.map((_, it) => [it]), names: sc.positions.map((it) => [it]), flown: 0, isNumbered: false };
    const found = flownByTwo(sc, old) || behindFlown(sc, old) || ofTwo(sc, old);
    if (old && !found) {
      throw new Error("the scenario isn't made of the one that is said to be behind it");
    }
    return { ...(found || alone), count: (found || alone).names[0].length };
  }

  return { seats };
}());
