"""Claims: whether a solution, whoever found it, is an assignment of a problem than which none costs less.

Nothing of the solver is used. Whole costs are looked at by the library's own check, which is proved; others here, by a filter of floats and
then in whole numbers.
"""
import decimal
import fractions

import numpy

from .amounts import FINEST, in_units, unit_of
from .arguments import INT64, array_of, attempt, is_whole, whole_numbers
from .faults import Refused
from .library import CLAIM_FAULTS, OTHER_SIZE, check_arcs
from .solution import Solution
from .whole import whole_prices

# The finest unit of prices that is looked at, and how many units of it they may be: beyond all that costs can ask for.
MOST_UNIT, MOST_BITS = 2 * FINEST, 4 * FINEST
# So many entries are looked at at a time, to take little memory.
BLOCK = 1 << 20
NO_ENTRY = "the solution names an entry that the problem doesn't have"
# Above what floats below the least normal one may be off by.
LEAST = 1e-322


def check_claim(problem, solution):
    """Raises Refused, with a sentence, where the solution isn't least."""
    look_at_kind(solution)
    entries = _entries_of(problem, solution)
    choice = entries[numpy.argsort(problem.arcs["person"][entries], kind="stable")]
    cost = problem.costs.total(choice)
    if _amount(solution.cost) != problem.costs.shown(cost):
        raise Refused(CLAIM_FAULTS[4])
    if problem.persons == 0:
        _look_at_free_prices(whole_list(solution.prices, problem.objects))
    elif problem.has_whole_costs:
        prices = listed_of(solution.prices, "prices", INT64, problem.objects, CLAIM_FAULTS[2])
        check_arcs(problem.persons, problem.objects, problem.arcs, choice, prices, int(problem.arcs["cost"][choice].sum()))
    else:
        _check_exactly(problem, solution, choice)
    _look_at_amounts(problem, solution, cost)
    _look_at_costs(problem, entries, solution)
    look_at_names(problem.labels(solution.rows, solution.columns), problem.lists.sides, solution)


def look_at_kind(solution):
    """Refuses what is no Solution."""
    if not isinstance(solution, Solution):
        raise Refused(f"a Solution is wanted, and not a {type(solution).__name__}")


def _has_sides(shape, sides):
    """Whether these are its sides. The length comes first: somebody's shape may be a range of any length."""
    return len(shape) == len(sides) and tuple(shape) == sides


def look_at_names(labels, sides, solution):
    """Refuses a solution with other labels or of another shape."""
    if type(solution.labels) is not type(labels) or attempt(lambda given: given == labels, solution.labels) is not True:
        raise Refused("the labels of the solution are not those of its rows and columns")
    if solution.shape is not None and attempt(lambda given: _has_sides(given, sides), solution.shape) is not True:
        raise Refused("the shape of the solution is not that of the problem")


def _look_at_costs(problem, entries, solution):
    """Refuses a solution with other costs of its pairs, or of the other way."""
    if solution.costs is not None:
        costs = attempt(lambda given: array_of(given, "costs", len(entries)), solution.costs)
        if costs is None or costs.shape != entries.shape or costs.tolist() != problem.costs.at(entries).tolist():
            raise Refused("the costs of the solution are not those of its entries")
    if solution.maximize is not (problem.sign < 0):
        raise Refused("the solution doesn't say whether the most is wanted")


def _entries_of(problem, solution):
    """The places of the entries of a solution, whose pairs are entries of the problem."""
    entries = listed_of(solution.entries, "entries", (0, len(problem.arcs) - 1), problem.persons, NO_ENTRY)
    for name, side in (("rows", problem.lists.rows), ("columns", problem.lists.columns)):
        places = listed_of(getattr(solution, name), name, INT64, problem.persons, OTHER_SIZE)
        if not numpy.array_equal(places, side[entries]):
            raise Refused("the rows and columns of the solution are not those of its entries")
    return entries


def _look_at_amounts(problem, solution, cost):
    """Refuses a solution of least cost whose bound, scale, exact cost or gap says something else."""
    if _amount(solution.bound) != _amount(solution.cost):
        raise Refused("the bound of the solution is not its cost")
    least_scale = (problem.persons + 1) * problem.decimal_scale
    if problem.has_whole_costs and _amount(solution.scale) != least_scale:
        raise Refused(f"the scale of the prices is not {least_scale}")
    if solution.exact_cost is not None and _amount(solution.exact_cost) != cost:
        raise Refused("the exact cost of the solution is not the sum of the entries")
    if _amount(solution.gap) != 0:
        raise Refused("the solution has a gap between its cost and the least one")


def _look_at_free_prices(prices):
    """Refuses prices of objects that are left over."""
    if any(prices):
        raise Refused(CLAIM_FAULTS[6].format(place=next(place for place, price in enumerate(prices) if price)))


def _check_exactly(problem, solution, choice):
    """Refuses prices at which a person has a better entry, or at which something that is left over has a price."""
    objects = problem.arcs["object"].astype(numpy.int64)
    if not numpy.array_equal(problem.arcs["person"][choice], numpy.arange(problem.persons)):
        raise Refused("the solution doesn't have each number of the smaller side once")
    if len(numpy.unique(objects[choice])) != problem.persons:
        raise Refused("a number is taken twice")
    unit = _unit_of(solution.scale, problem.persons + 1)
    prices = whole_prices(problem.persons, whole_list(solution.prices, problem.objects), objects[choice])
    if problem.objects > problem.persons:
        if min(prices) < 0:
            raise Refused(CLAIM_FAULTS[2])
        left = prices.copy()
        left[objects[choice]] = 0
        _look_at_free_prices(left)
    Slacks(problem, choice, prices, unit).look()


class Slacks:
    """Of each arc how much it is worse than the choice of its person, at exact prices: whole numbers of 2^-unit."""

    def __init__(self, problem, choice, prices, unit):
        self._costs, self._sign = problem.costs, problem.sign
        self._person, self._object = problem.arcs["person"], problem.arcs["object"]
        chosen = self._turned(choice)
        self._unit = max(unit, unit_of(chosen))
        self._prices = prices << self._unit - unit
        self._worth = in_units(chosen, self._unit) + self._prices[self._object[choice]]
        self._bits = max(number.bit_length() for side in (self._prices, self._worth) for number in side)
        self._floats = [(side / (1 << self._bits)).astype(numpy.float64) for side in (self._prices, self._worth)]

    def _turned(self, places):
        """Costs at places, to be least; whole numbers as Python's, since not each has an opposite of its kind."""
        costs = self._costs.at(places)
        return self._sign * (costs if costs.dtype.kind == "f" else costs.astype(object))

    def look(self):
        """Refuses the claim where an arc is better. What floats can't tell is compared in whole numbers."""
        for start in range(0, len(self._person), BLOCK):
            places = numpy.arange(start, min(start + BLOCK, len(self._person)))
            near = places[self._are_near(places)]
            if len(near):
                self._compare(near)

    def _are_near(self, places):
        """Which arcs the floats can't tell: a sum of three has an error of less than 2^-50 of their magnitudes."""
        price, worth = self._floats[0][self._object[places]], self._floats[1][self._person[places]]
        with numpy.errstate(all="ignore"):
            cost = numpy.ldexp(self._sign * self._costs.at(places).astype(numpy.float64), self._unit - self._bits)
            slack = cost + price - worth
            error = (numpy.abs(cost) + numpy.abs(price) + numpy.abs(worth)) * 2.0**-50 + LEAST
            self._refuse_better(places, slack < -error)
            return ~(slack > error)

    def _compare(self, places):
        costs = self._turned(places)
        unit = max(self._unit, unit_of(costs))
        # Of the few that are near alone: all prices would take longer than they, once for each block.
        worse = self._prices[self._object[places]] - self._worth[self._person[places]]
        self._refuse_better(places, in_units(costs, unit) + (worse << unit - self._unit) < 0)

    def _refuse_better(self, places, better):
        if better.any():
            raise Refused(CLAIM_FAULTS[5].format(place=self._person[places[numpy.argmax(better)]]))


def _unit_of(scale, step):
    """The unit of prices of this scale, which is a power of two times the step."""
    times, rest = divmod(scale, step) if is_whole(scale) else (0, 0)
    if times < 1 or rest or times & (times - 1) or times.bit_length() > MOST_UNIT:
        raise Refused(f"the scale of the prices is not {step} times a power of two")
    return int(times).bit_length() - 1


def whole_list(value, count):
    """One list of so many whole numbers of any length, as an object array of Python's."""
    if not (isinstance(value, (list, tuple)) or isinstance(value, numpy.ndarray) and value.dtype == object and value.ndim == 1):
        return listed_of(value, "prices", INT64, count, CLAIM_FAULTS[2]).astype(object)
    if len(value) != count:
        raise Refused(OTHER_SIZE)
    if not all(map(is_whole, value)):
        raise Refused("prices of the solution must be one list of whole numbers")
    listed = numpy.empty(count, object)
    listed[:] = [int(number) for number in value]
    if any(number.bit_length() > MOST_BITS for number in listed):
        raise Refused(CLAIM_FAULTS[2])
    return listed


def listed_of(value, name, limits, count, fault):
    """One list of whole numbers of a solution, so many of them; what is beyond the limits is refused by this fault."""
    try:
        listed = whole_numbers(value, f"{name} of the solution", *INT64)
    except ValueError as why:
        raise Refused(str(why)) from None
    if len(listed) != count:
        raise Refused(OTHER_SIZE)
    if listed.size and not limits[0] <= listed.min() <= listed.max() <= limits[1]:
        raise Refused(fault)
    return listed


def _amount(value):
    """A number as solutions have them: an int, a float, a Fraction or a finite Decimal; None of anything else."""
    if isinstance(value, decimal.Decimal):
        return value if value.is_finite() else None
    if is_whole(value):
        return int(value)
    return value if isinstance(value, fractions.Fraction) or isinstance(value, float) and value == value else None
