// The markup and the sentences of markup.toml with their slots filled, and numbers as the helpers write them. RULES has what the helpers'
// own modules say: the markup, sizes, limits and patterns.
const markup = (function () {
  const SIGNS = { "&": "&amp;", "<": "&lt;", ">": "&gt;", '"': "&quot;", "'": "&#x27;" };

  // The markup or the sentence of a name, with a value for each of its slots. What comes of texts is escaped before.
  function filled(name, slots) {
    return RULES.markup[name].replace(/\{(\w+)\}/g, (_, slot) => slots[slot]);
  }

  function escaped(text) {
    return text.replace(/[&<>"']/g, (it) => SIGNS[it]);
  }

  // A number with so many digits behind the point: of two that are as near, the one whose last digit is even.
  function fixed(value, digits) {
    const [halves, ten] = [value * 2 ** (digits + 1), 10 ** digits];
    const isBetween = Number.isInteger(halves) && Math.abs(halves % 2) === 1;
    const text = (isBetween ? (2 * Math.round((value * ten) / 2)) / ten : value).toFixed(digits);
    return value < 0 || Object.is(value, -0) ? `-${text.replace("-", "")}` : text;
  }

  // A coordinate of a picture, with no more digits than can be seen.
  function number(value) {
    return fixed(value, 1).replace(/\.0$/, "");
  }

  // A number with six digits that count at most, and no zero behind them.
  function general(value) {
    const [digits, power] = value.toExponential(5).split("e").map(Number);
    if (power >= -4 && power < 6) {
      return String(Number(fixed(value, 5 - power)));
    }
    const rounded = power < 0 ? digits : Number(fixed(value / 10 ** (power - 5), 0)) / 100000;
    return `${rounded}e${power < 0 ? "-" : "+"}${String(Math.abs(power)).padStart(2, "0")}`;
  }

  // A count with its noun.
  function plural(count, one) {
    return count === 1 ? `${count} ${one}` : `${count} ${one}s`;
  }

  // A text whose form is that of a pattern, from its begin to its end.
  function whole(pattern) {
    return new RegExp(`^(?:${pattern})$`);
  }

  return { filled, escaped, fixed, number, general, plural, whole };
}());
