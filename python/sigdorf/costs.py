"""Costs of a caller, exactly: as they are, or decimal numbers in whole units."""
import decimal
import fractions

import numpy

from .amounts import exact_sum, nearest_float, outer_bound

MOST = 10**9
MOST_DECIMALS = 9
KINDS = "biuf"


def costs_of(given, decimals, maximize, fault):
    """The costs of a caller's array: in units of 10^-decimals, or where `decimals` is None as they are.

    `fault` makes the ValueError of a place in the array and of a sentence about its cost.
    """
    sign = -1 if maximize else 1
    # What a signalling or an infinite cost does to the arithmetic is of no matter: it is refused.
    with numpy.errstate(all="ignore"):
        return Costs(_finite(given, fault), sign) if decimals is None else DecimalCosts(_decimal(given, decimals, fault), decimals, sign)


class Costs:
    """Finite costs of a caller.

    A search takes `numbers`, which are float64, int64 or uint64, and `maximize`: whether the most of them is wanted.
    `is_small` says that they are all whole numbers to 10^9.
    """

    decimals, shown_units = 0, None

    def __init__(self, given, sign):
        self.numbers, self.maximize, self.is_small = given, sign < 0, are_small(given)

    @property
    def whole(self):
        """Small costs, turned so that the least is wanted: int64."""
        numbers = self.numbers.astype(numpy.int64, copy=False)
        return -numbers if self.maximize else numbers

    def at(self, places):
        """The caller's costs at these places: float64, int64 or uint64."""
        return self.numbers[places]

    def total(self, places):
        """The sum of the caller's costs at these places: a Fraction."""
        return exact_sum(self.numbers[places])

    def shown(self, amount):
        """A sum as solutions show it: of whole numbers an int, else the float next to it."""
        return int(amount) if self._has_whole_sums() else nearest_float(amount)

    def shown_bound(self, amount):
        """A bound as solutions show it, rounded away from all sums."""
        return outer_bound(amount, self.maximize, self._has_whole_sums())

    def _has_whole_sums(self):
        return self.numbers.dtype.kind != "f" or self.is_small


class DecimalCosts:
    """Whole numbers of 10^-decimals, turned so that the least is wanted."""

    maximize, is_small = False, True

    def __init__(self, whole, decimals, sign):
        self.numbers = self.whole = sign * whole
        self.decimals, self._sign = decimals, sign

    def at(self, places):
        """The caller's costs at these places: Decimals in an object array, or whole numbers."""
        units = self._sign * self.whole[places]
        costs = numpy.empty(len(units), object if self.decimals else numpy.int64)
        costs[:] = [self._shown(number) for number in units.tolist()]
        return costs

    def total(self, places):
        """The sum of the caller's costs at these places: a Fraction."""
        return self.amount(int(self.whole[places].sum()))

    def amount(self, units):
        """What so many units are of the caller's costs: a Fraction."""
        return fractions.Fraction(self._sign * units, 10**self.decimals)

    def shown(self, amount):
        """A sum as solutions show it: exact, whatever precision the caller's decimals have."""
        return self._shown(int(amount * 10**self.decimals))

    shown_bound = shown

    def shown_units(self, units):
        """A sum of so many units as solutions show it."""
        return self._shown(self._sign * units)

    def _shown(self, units):
        return decimal.Decimal(f"{units}e-{self.decimals}") if self.decimals else units


def may_be_rounded(numbers):
    """Whether there are floats of 64 bits that several whole numbers of 64 bits are next to."""
    with numpy.errstate(all="ignore"):
        return numbers.dtype == numpy.float64 and bool((numpy.abs(numbers) >= 2.0**53).any())


def look_at_rounding(given, numbers):
    """A ValueError where numpy had to round whole numbers of a caller's list, since a negative one or a fraction is beside a long one."""
    if isinstance(given, numpy.ndarray) or not may_be_rounded(numbers):
        return
    for number, value in zip(numpy.array(given, object).ravel().tolist(), numbers.ravel().tolist()):
        if isinstance(number, int) and number != value:
            raise ValueError(f"costs must be all whole numbers of 64 bits, of one sign where they are beyond 63, or all floats: {number} would be rounded")


def _finite(given, fault):
    """The costs as float64, int64 or uint64. A ValueError names the first that isn't finite, or has more digits than these hold."""
    if given.dtype.kind != "f":
        return given.astype(numpy.uint64 if given.dtype.kind == "u" and given.dtype.itemsize == 8 else numpy.int64, copy=False)
    finite = numpy.isfinite(given)
    if not finite.all():
        raise fault(int(numpy.argmin(finite)), "is no finite number")
    wide = given.astype(numpy.float64, copy=False)
    if given.dtype.itemsize > wide.dtype.itemsize and not (wide == given).all():
        raise fault(int(numpy.argmin(wide == given)), "has more digits than a float of 64 bits")
    return wide


def are_small(given):
    """Whether all costs are whole numbers to 10^9."""
    if not given.size:
        return True
    return -MOST <= given.min() <= given.max() <= MOST and (given.dtype.kind != "f" or numpy.array_equal(numpy.rint(given), given))


def _decimal(given, decimals, fault):
    """The costs times 10^decimals as int64. A ValueError names the first that isn't a whole number then, or is beyond 10^9 in magnitude."""
    # In at least double precision: a product of narrower floats would be rounded to another number.
    wide = given.astype(numpy.result_type(given.dtype, numpy.float64))
    factor = 10**decimals
    fits = numpy.abs(wide) <= MOST / factor
    if not fits.all():
        raise fault(int(numpy.argmin(fits)), f"is beyond {MOST // factor} in magnitude, or no number")
    if given.dtype.kind != "f":
        return given.astype(numpy.int64) * factor
    whole = numpy.rint(wide * factor)
    # A float means a decimal number where it is the one nearest to it.
    stands = (whole / factor).astype(given.dtype) == given
    if not stands.all():
        raise fault(int(numpy.argmin(stands)), f"has more than {decimals} decimals: {_way_out(wide, decimals)}")
    return whole.astype(numpy.int64)


def _way_out(costs, decimals):
    """What is said of costs with more decimals: `decimals` only where costs as great as these may have more."""
    has_room = decimals < MOST_DECIMALS and numpy.abs(costs).max() <= MOST / 10 ** (decimals + 1)
    return "pass decimals=, or leave it out" if has_room else "round it first, or leave decimals out"
