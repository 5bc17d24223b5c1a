"""What to write in place of a field that isn't one of a scenario's whole numbers."""
import fractions
import re

from desk import quoting

# Fields as people write chances: 0.3, 30%, 1/3; and whole numbers with something too much.
DECIMAL = re.compile(rb"([0-9]{0,20})\.([0-9]{1,20})\Z")
PERCENT = re.compile(rb"([0-9]{1,20}(?:\.[0-9]{1,20})?)%\Z")
RATIO = re.compile(rb"([0-9]{1,20})/([0-9]{1,20})\Z")
PADDED = re.compile(rb"0+(0|[1-9][0-9]{0,20})\Z")
MARKED = re.compile(rb"\+?([0-9]{1,3}(?:[,_'][0-9]{3})+|[0-9]{1,20})\Z")
# The place of a denominator in the line `parts`.
PLACES = ("first", "second", "third")


def share(field):
    """The chance that a field spells as a decimal, in percent or as a ratio: a Fraction, or None where it spells none."""
    if found := DECIMAL.match(field):
        return fractions.Fraction(int(b"0" + found[1] + found[2]), 10 ** len(found[2]))
    if found := PERCENT.match(field):
        return fractions.Fraction(found[1].decode("ascii")) / 100
    if (found := RATIO.match(field)) and int(found[2]):
        return fractions.Fraction(int(found[1]), int(found[2]))
    return None


def of_parts(chance, whole, at):
    """How a chance is written in parts; `whole` is the denominator if it is known, and `at` its place in the line `parts`."""
    if isinstance(whole, int) and (chance * whole).denominator == 1:
        return f"in parts of {whole} it is {chance * whole}"
    return f"with {chance.denominator} as the {PLACES[at]} number of `parts` it is {chance.numerator}"


def advice(field, least, whole=None, at=None):
    """What to write in place of a field that isn't a plain decimal, or is below the least. `at` is None where it is no chance."""
    chance = share(field)
    if chance is not None and at is not None and chance <= 1:
        return of_parts(chance, whole, at)
    if re.fullmatch(rb"-[0-9.]+", field):
        return f"the least is {least}"
    if found := PADDED.match(field):
        return f"without zeros in front: {int(found[1])}"
    if found := MARKED.match(field):
        return f"digits alone: {int(re.sub(rb'[^0-9]', b'', found[1]))}"
    return "a number is written in digits alone"


def said(field, least, whole=None, at=None):
    """What is wrong with a field in a number's place, and what to write."""
    if field == b"0":
        return f"`0` is too little: the least is {least}"
    return f"{quoting.field(field)} isn't a whole number: {advice(field, least, whole, at)}"
