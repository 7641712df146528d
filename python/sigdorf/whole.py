"""Prices as whole numbers: those of the library made exact, and those of levels put together."""
import numpy


def whole_prices(persons, prices, picked):
    """Prices in whole units at which no arc is better than the choice of its person at all, of prices at which none is more than 1 better.

    prices: in units of costs times persons + 1, as an int64 or object array. picked: the objects of the choices.

    All prices are moved up by one number, so that none of a picked object is a multiple of s = persons + 1: of the numbers 0 to persons each
    picked object forbids one, and one is left. For an arc of cost c to an object of price p, beside a choice of c' at p', that leaves
    s c' + (p' - 1) <= s c + p, and rounding down by s gives c' + floor(p' / s) <= c + floor(p / s), since s doesn't divide p'. What was 0 is
    below s, and 0 again.
    """
    scale = persons + 1
    taken = numpy.zeros(scale, bool)
    taken[(prices[picked] % scale).astype(numpy.int64)] = True
    return (prices + -int(taken.argmin()) % scale) // scale


def priced(persons, objects, levels, are_whole):
    """The prices of levels, and their scale, of which persons + 1 are one of the least units.

    levels: pairs of an array with a number for each object, and a unit: a price is the sum of its numbers times 2^-unit
    each. Where they aren't `are_whole`, persons + 1 are one.
    """
    numbers, unit = levels[0][0], 0
    if len(levels) > 1 or levels[0][1] != 0:
        numbers, unit = _combined(levels)
        if persons == objects:
            numbers = numbers - min(numbers)
    return narrow(numbers * (persons + 1) if are_whole else numbers), (persons + 1) << unit


def _combined(levels):
    """The sums of levels as Python's whole numbers of 2^-unit, and this unit, from 0."""
    unit = max(0, max(unit for _, unit in levels))
    total = numpy.zeros(len(levels[0][0]), object)
    for numbers, own in levels:
        some = numpy.flatnonzero(numbers)
        total[some] += numbers[some].astype(object) << (unit - own)
    return total, unit


def narrow(numbers):
    """Whole numbers as int64 where they are all within it, else as they are."""
    if numbers.dtype != object or numbers.size and not -(2**63) <= min(numbers) <= max(numbers) < 2**63:
        return numbers
    return numbers.astype(numpy.int64)
