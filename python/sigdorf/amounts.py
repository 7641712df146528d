"""Sums and comparisons of numbers as they are: floats of 64 bits and whole numbers of 64 bits, without rounding.

A finite float of 64 bits is a whole number of 2^-1074, so that Python's whole numbers hold it in a fine enough unit.
"""
import fractions
import math

import numpy

# The bits of a float's fraction, and the unit in which each float is whole.
BITS_OF_FLOAT, FINEST = 53, 1074
FEW = 60
# Each Python's Fraction keeps its two numbers in these. Where it doesn't, a Fraction is made as others make it.
_HAS_PARTS = getattr(fractions.Fraction, "__slots__", None) == ("_numerator", "_denominator")


def _of_coprime(number, below):
    """The Fraction of two numbers without a common factor, since to look for one would take longer than all else."""
    if not _HAS_PARTS:
        return fractions.Fraction(number, below)
    made = object.__new__(fractions.Fraction)
    made._numerator, made._denominator = number, below
    return made


def unit_of(costs):
    """The least exponent e, from 0, so that each of the costs is a whole number of 2^-e. Whole numbers have 0."""
    if costs.dtype.kind != "f" or not costs.size:
        return 0
    fractions_of, exponents = numpy.frexp(costs)
    digits = numpy.ldexp(fractions_of, BITS_OF_FLOAT).astype(numpy.int64)
    # The exponent of the lowest bit that is set; of nothing but zeros, 0.
    lowest = exponents - BITS_OF_FLOAT + numpy.frexp((digits & -digits).astype(numpy.float64))[1] - 1
    return max(0, -int(numpy.min(lowest, where=digits != 0, initial=0)))


def in_units(costs, unit):
    """The costs times 2^unit, exactly, as an object array of Python's whole numbers. The unit is that of :func:`unit_of`, or a finer one."""
    if costs.dtype.kind != "f":
        return costs.astype(object) << unit
    fractions_of, exponents = numpy.frexp(costs)
    digits = numpy.ldexp(fractions_of, BITS_OF_FLOAT).astype(numpy.int64).astype(object)
    shifts = (exponents.astype(numpy.int64) + (unit - BITS_OF_FLOAT)).astype(object)
    return (digits << numpy.maximum(shifts, 0)) >> numpy.maximum(-shifts, 0)


def exact_sum(costs):
    """The sum of the costs, as a Fraction."""
    if costs.size <= FEW and costs.dtype.kind == "f":
        # Of few numbers Python's own arithmetic is sooner done than numpy's calls.
        parts = [number.as_integer_ratio() for number in costs.tolist()]
        below = max((part[1] for part in parts), default=1)
        return fractions.Fraction(sum(part[0] * (below // part[1]) for part in parts), below)
    unit = unit_of(costs)
    return fractions.Fraction(int(in_units(costs, unit).sum()) if costs.size else 0, 1 << unit)


def fraction_of(number, unit):
    """number / 2^unit as a Fraction; the number is odd, or the unit isn't above 0."""
    return _of_coprime(number << -unit, 1) if unit <= 0 else _of_coprime(number, 1 << unit)


def nearest_float(amount):
    """The float next to a Fraction; an infinite one where it is beyond all of them."""
    try:
        # As float(amount), which takes some times as long.
        return amount.numerator / amount.denominator
    except OverflowError:
        return math.inf if amount > 0 else -math.inf


def float_below(amount):
    """The greatest float that isn't above a Fraction."""
    found = nearest_float(amount)
    return found if found == -math.inf or found <= amount else math.nextafter(found, -math.inf)


def outer_bound(amount, maximize, is_whole):
    """A bound as solutions show it, rounded away from all sums: whole where they are."""
    outer = -amount if maximize else amount
    shown = math.floor(outer) if is_whole else float_below(outer)
    return -shown if maximize else shown
