"""Turns shares into whole parts of a denominator, and chooses denominators that fit into 128 bits."""
import math
from fractions import Fraction

from desk.forms import is_narrow
from desk.limits import MOST_PERIODS

# The finest denominator that is chosen: no share is known better than to a thousandth. Those of the drift that are tried.
MOST_TRIED = 1000
TRIED = (2, 3, 4, 5, 6, 7, 8, 10, 12, 15, 20, 30, 50)
# What a plan is off by is about the rounding of its looks, and a tenth of the greatest total variation of its chain (measured: see
# docs/PLANNING.md). By so much more than the best, as a share of 1, a smaller denominator may be off: that of looks, and that of drift.
OF_VARIATION = 0.1
CLOSE_LOOK, CLOSE = 0.001, 0.0005
# What floats are taken as equal by.
NINE_DIGITS = 5e-10


def largest_remainder(shares, whole):
    """Shares (by key; not negative, with a positive sum) as whole parts that sum to `whole`, in proportion.

    Each gets the whole part of its quota, and what is left goes one each to the largest remainders, of equal ones to the larger
    share and then to the first (the method of Hamilton). No part is off its quota by 1 or more. Parts of 0 are left out.
    """
    total = sum(shares.values())
    quotas = {key: Fraction(it) * whole / Fraction(total) for key, it in shares.items()}
    parts = {key: math.floor(it) for key, it in quotas.items()}
    order = sorted(quotas, key=lambda it: (parts[it] - quotas[it], -quotas[it]))
    for key in order[: whole - sum(parts.values())]:
        parts[key] += 1
    return {key: it for key, it in parts.items() if it}


def largest_error(shares, parts, whole):
    """How far the part of a key is from its share of the sum at most, as a share of one."""
    total = Fraction(sum(shares.values()))
    return max(abs(Fraction(it) / total - Fraction(parts.get(key, 0), whole)) for key, it in shares.items())


def nearest_miss(miss, whole):
    """The part of `whole` that is nearest to the chance of a miss; of two the greater. It is 0 only for a miss of 0.

    So no look is said to be sure where it isn't.
    """
    part = math.floor(Fraction(miss) * whole + Fraction(1, 2))
    return max(part, 1) if miss else part


def greatest(most, fits):
    """The greatest number from 1 to `most` that fits, where a smaller one fits if a greater does; 0 where none fits."""
    least, over = 0, most + 1
    while over - least > 1:
        middle = (least + over) // 2
        least, over = (middle, over) if fits(middle) else (least, middle)
    return least


def most_periods(parts):
    """The greatest horizon that fits with these denominators, or 0."""
    return max((it for it in range(1, MOST_PERIODS + 1) if is_narrow(it, parts)), default=0)


def miss_error(miss, whole):
    """The rounding of a chance of a miss in parts of `whole`."""
    return abs(Fraction(miss) - Fraction(nearest_miss(miss, whole), whole))


def look_errors(misses, most):
    """How far chances of a miss are rounded at most, as a float, by denominator from 1 to `most`."""
    return {it: float(max(miss_error(each, it) for each in misses)) for it in range(1, most + 1)}


def exact(shares, most):
    """The least denominator up to `most` that says shares (with a positive sum) exactly, but for nine digits; None where none does."""
    total = sum(shares.values())
    ratios = [float(it / total) for it in shares.values()]
    return next((it for it in range(1, most + 1) if all(abs(ratio - round(ratio * it) / it) < NINE_DIGITS for ratio in ratios)), None)


def denominators(horizon, given, misses, variation):
    """The denominators A, D, G for a horizon: those of `given` that aren't None (A isn't), and the others for the truth of the plan.

    `variation(d)` is the greatest total variation of the chain in parts A and d. For each D of TRIED, G is the least number up to
    MOST_TRIED that fits and rounds no miss by more than CLOSE_LOOK above what the best one that fits does. By the sum of that rounding and
    of OF_VARIATION times the variation, the least D is taken that is at most CLOSE above the best one: greater numbers make longer
    texts, and leave less room for more periods and searchers. Answers None where none fit.
    """
    a, d, g = given
    most = {it: greatest(MOST_TRIED, lambda look: is_narrow(horizon, (a, it, g or look))) for it in ([d] if d else TRIED)}
    errors = {g: 0.0} if g else look_errors(misses, max(most.values()))
    found = []
    for it in (it for it in most if most[it]):
        fit = {look: error for look, error in errors.items() if g or look <= most[it]}
        close = min(fit.values()) + CLOSE_LOOK
        look = next(look for look, error in fit.items() if error <= close)
        found.append((OF_VARIATION * variation(it) + fit[look], it, look))
    best = min((error for error, *_ in found), default=0)
    return next(((a, it, look) for error, it, look in found if error <= best + CLOSE), None)


def carried(counts, masses, whole, weight, total):
    """The rows of a step in parts of `whole`, so rounded that what they bring to each state is what the tracks bring there.

    `counts` are {state: {to: tracks}}, of `total` tracks; `masses` what is in each state, in parts of `weight`. Rows are rounded one after
    the other, those of the greatest mass first, and of equal ones those of the smallest number. A row gives each target the whole part
    of its quota, `whole` times its share of the state's tracks. What is left of the row goes one each to those of its targets with a
    remainder that lack most, of equal ones to the larger share and then to the first. What a target lacks are the tracks that this row
    and those before it should bring to it, less the mass that those before it brought and that this row's whole parts bring. So an
    error is carried on until a row makes it good, and no part is off its quota by 1 or more. Mass and tracks are compared exactly, in
    parts of weight * whole * total.
    """
    rows, lack = {}, {}
    for state in sorted(counts, key=lambda it: (-masses.get(it, 0), it)):
        row, mass = counts[state], masses.get(state, 0) * total
        tracks = sum(row.values())
        parts = {to: whole * it // tracks for to, it in row.items()}
        for to, it in row.items():
            lack[to] = lack.get(to, 0) + it * weight * whole - parts[to] * mass
        order = sorted((it for it in row if whole * row[it] % tracks), key=lambda it: (-lack[it], -row[it], it))
        for to in order[: whole - sum(parts.values())]:
            parts[to] += 1
            lack[to] -= mass
        rows[state] = {to: it for to, it in sorted(parts.items()) if it}
    return rows
