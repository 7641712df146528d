"""Duals of rows and columns in the caller's unit, and what they show of each cost: exactly, as Fractions."""
import fractions
import math

import numpy

from .amounts import in_units, unit_of
from .arguments import MOST_ENTRIES, array_of, attempt, whole_numbers
from .faults import Unsettled

# So many entries are looked at at a time, to take little memory.
BLOCK = 1 << 16


def duals_of(solution):
    """The duals of all rows and of all columns: Fractions in object arrays. Raises Unsettled where a limit was met."""
    if solution.costs is None or solution.shape is None:
        raise ValueError("the solution has no costs of its pairs, or no shape")
    if not solution.is_optimal:
        raise Unsettled(solution)
    prices = _array(solution.exact_prices())
    priced = prices if solution.maximize else -prices
    by_rows = has_row_prices(solution)
    mine, taken = (solution.columns, solution.rows) if by_rows else (solution.rows, solution.columns)
    other = numpy.full(solution.shape[1 if by_rows else 0], fractions.Fraction(0))
    other[mine] = _exactly(solution.costs.tolist()) - priced[taken]
    return (priced, other) if by_rows else (other, priced)


def has_row_prices(solution):
    """Whether the prices are of rows, since there are more of them than columns."""
    return len(solution.prices) > solution.shape[1]


def reduced_costs_of(solution, rows, columns, costs):
    """The costs of these pairs less the duals of their rows and columns."""
    u, v = duals_of(solution)
    rows, columns, costs = _looked_at(solution, rows, columns, costs)
    return _exactly(costs.tolist()) - u[rows] - v[columns]


def margins_of(solution, rows, columns, costs):
    """By how much the cost of each pair may change for the worse, alone, while duals show the solution best.

    Rows, columns and costs are those of all entries.
    """
    duals = duals_of(solution)
    rows, columns, costs = _looked_at(solution, rows, columns, costs)
    is_other = ~numpy.isin(rows * solution.shape[1] + columns, solution.rows * solution.shape[1] + solution.columns)
    # In whole numbers of one part, since Fractions would take minutes for a million rows.
    unit = unit_of(costs) if costs.dtype != object else 0
    parts = math.lcm(1 << unit, *{dual.denominator for side in duals for dual in side})
    duals = [_array([dual.numerator * (parts // dual.denominator) for dual in side]) for side in duals]
    least = [numpy.full(count, math.inf, object) for count in solution.shape]
    for start in range(0, len(costs), BLOCK):
        some = start + numpy.flatnonzero(is_other[start : start + BLOCK])
        exact = _exactly(costs[some]) * parts if costs.dtype == object else in_units(costs[some], unit) * (parts >> unit)
        slack = abs(exact - duals[0][rows[some]] - duals[1][columns[some]])
        for side, places in zip(least, (rows, columns)):
            numpy.minimum.at(side, places[some], slack)
    # A price may not fall below 0, since what nobody takes has none.
    priced = 0 if has_row_prices(solution) else 1
    least[priced] = numpy.minimum(least[priced], duals[priced] if solution.maximize else -duals[priced])
    pairs = zip(least[0][solution.rows], least[1][solution.columns])
    # A Fraction that is too great for a float can't be added to infinity.
    return _array([math.inf if math.inf in pair else fractions.Fraction(sum(pair), parts) for pair in pairs])


def _looked_at(solution, rows, columns, costs):
    """Rows and columns as int64, and costs as whole numbers, floats of 64 bits, or Python's own numbers."""
    rows, columns = (
        whole_numbers(side, name, 0, count - 1)
        for side, name, count in zip((rows, columns), ("rows", "columns"), solution.shape)
    )
    listed = array_of(costs, "costs", MOST_ENTRIES)
    is_right = listed.dtype.kind in "biufO" and listed.shape == rows.shape == columns.shape
    if is_right and listed.dtype.kind == "f":
        is_right = listed.dtype.itemsize <= 8 and bool(numpy.isfinite(listed).all())
        listed = listed.astype(numpy.float64)
    if is_right and listed.dtype == object:
        is_right = attempt(_exactly, listed.tolist()) is not None
    if not is_right:
        raise ValueError("costs must be finite numbers, as many as rows and columns")
    return rows, columns, listed


def _exactly(numbers):
    return _array([fractions.Fraction(number) for number in numbers])


def _array(numbers):
    """An array of these objects."""
    array = numpy.empty(len(numbers), object)
    array[:] = numbers
    return array
