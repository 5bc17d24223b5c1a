// What the program's texts say, and how it is shown: shared by the parts of a page in which the program runs.
const told = (function () {
  const PERCENT = 100000n;

  // A new element with a text, or with others in it.
  function element(kind, inner, ...classes) {
    const made = document.createElement(kind);
    made.classList.add(...classes);
    if (Array.isArray(inner)) {
      made.append(...inner);
    } else {
      made.textContent = inner;
    }
    return made;
  }

  // So many thousandths of a percent, as percent.
  function thousandths(count) {
    return `${count / 1000n}.${String(count % 1000n).padStart(3, "0")}`;
  }

  // A part of a whole as percent, cut off after three digits, as reports have it.
  function cut(of, whole) {
    return thousandths((of * PERCENT) / whole);
  }

  // The same, rounded up: for what nothing exceeds.
  function up(of, whole) {
    return thousandths((of * PERCENT + whole - 1n) / whole);
  }

  // A share as it stands on a map: nothing as 0, and a dash where there is no whole.
  function share(part, whole) {
    if (whole === 0n) {
      return "–";
    }
    return part === 0n ? "0" : cut(part, whole);
  }

  // A part of a whole in percent, with its sign.
  function percent(of, whole) {
    return `${cut(of, whole)} %`;
  }

  // The class of colour of a share: 0 for nothing, 1 for what is below the first limit, and so on.
  function colour(part, whole, limits) {
    return part === 0n ? 0 : Math.max(1, limits.filter((it) => part * PERCENT >= it * whole).length - 1);
  }

  // The looks of a report, or of a map: the position of each, what is found up to it (of a report), and the masses behind it (of a map).
  function looks(text) {
    const found = [];
    for (const [kind, ...words] of text.split("\n").map((it) => it.split(" "))) {
      if (kind === "period") {
        found.push({ position: words[1], value: words[2] === undefined ? 0n : BigInt(words[2]), left: new Map() });
      } else if (kind === "left") {
        found[found.length - 1].left.set(words[0], BigInt(words[1]));
      }
    }
    return found;
  }

  // All that masses hold.
  function sum(left) {
    return [...left.values()].reduce((all, it) => all + it, 0n);
  }

  // The pairs of a name and its mass where this isn't nothing, the greatest first; of equal masses the one that stands first.
  function greatest(left) {
    return [...left].filter((it) => it[1] > 0n).sort((a, b) => (a[1] < b[1] ? 1 : a[1] > b[1] ? -1 : 0));
  }

  // The SHA-256 of bytes, in hexadecimal.
  async function sha256(bytes) {
    const sum = new Uint8Array(await crypto.subtle.digest("SHA-256", bytes));
    return Array.from(sum, (it) => it.toString(16).padStart(2, "0")).join("");
  }

  // Lets a link save bytes under a name.
  function save(link, bytes, name) {
    if (link.href) {
      URL.revokeObjectURL(link.href);
    }
    link.href = URL.createObjectURL(new Blob([bytes], { type: "text/plain" }));
    link.download = name;
  }

  return { element, cut, up, share, percent, colour, looks, sum, greatest, sha256, save };
}());
