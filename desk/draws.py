"""Random quantities from uniform numbers, the same on every machine: what the C library may round otherwise is rounded here.

A `draw` is a function as `random.Random(seed).random`, whose numbers from 0 to below 1 python3 promises to be stable.
"""
import math
from statistics import NormalDist

# Digits behind the point of normal numbers, of their chances and of waiting times. Those of the C library agree beyond them.
DIGITS = 9
STANDARD = NormalDist()
# A circular normal distribution has half of its mass within this many of its standard deviations: 1 - exp(-r^2 / 2) is a half there.
# (That radius is the probable error of position in the IAMSAR manual, volume II.)
HALF_WITHIN = 1.1774100225154747


def normal(chance):
    """The standard normal number that others are below with a chance; 0 for what is no chance above 0 and below 1."""
    return round(STANDARD.inv_cdf(chance), DIGITS) if 0 < chance < 1 else 0.0


def pair(deviation, draw):
    """Two normal numbers of a standard deviation; zeros, and no draw, where that is 0."""
    return (deviation * normal(draw()), deviation * normal(draw())) if deviation else (0.0, 0.0)


def below(number):
    """The chance that a standard normal number is below one."""
    return round(STANDARD.cdf(number), DIGITS)


def rate(chance):
    """The rate of a Poisson process, in events a unit of time, that has an event in that time with a chance below 1."""
    return round(-math.log1p(-chance), DIGITS)


def waiting(a_rate, draw):
    """The time until the next event of a Poisson process of a rate above 0."""
    return round(-math.log1p(-draw()), DIGITS) / a_rate


class Circle:
    """Displacements of a person who is anywhere in a circle of a radius in metres around a place, within bounds to each side."""

    def __init__(self, radius, bounds):
        self.square = radius**2
        self.box = [(max(low, -radius), min(high, radius)) for low, high in bounds]

    def drawn(self, draw):
        """Metres east and south: drawn in the box around the circle until they are in the circle."""
        (west, east), (north, south) = self.box
        while True:
            x, y = west + (east - west) * draw(), north + (south - north) * draw()
            if x * x + y * y <= self.square:
                return x, y


class Normal:
    """Displacements of a person by a circular normal distribution, half of which is within a probable error in metres, within bounds."""

    def __init__(self, probable_error, bounds):
        self.deviation = probable_error / HALF_WITHIN
        self.chances = [tuple(below(it / self.deviation) for it in pair) for pair in bounds]

    def drawn(self, draw):
        """Metres east and south."""
        return tuple(self.deviation * normal(low + (high - low) * draw()) for low, high in self.chances)
