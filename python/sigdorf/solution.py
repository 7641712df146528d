"""Solutions: what a search answers, and what a check is asked of."""
import decimal
import fractions
import typing

import numpy
from numpy.typing import ArrayLike

from .duals import duals_of, margins_of, reduced_costs_of
from .shown import compared_and_shown, shown_pairs
from .whole import whole_prices


@compared_and_shown
class Solution(typing.NamedTuple):
    """A full assignment of the smaller side, and what shows that it costs least. Two are equal where all parts of them are.

    >>> solution = sigdorf.solve([[1, 2], [1, 4]])
    >>> solution
    Solution(cost=3, pairs={0: 1, 1: 0})
    >>> solution == sigdorf.solve([[1, 2], [1, 4]]), solution.is_optimal, solution.exact_prices()
    (True, True, [Fraction(3, 1), Fraction(2, 1)])
    """

    rows: numpy.ndarray
    """The rows that have a column, rising: int64, as many as the smaller side."""
    columns: numpy.ndarray
    """The column of each of these rows: int64."""
    entries: numpy.ndarray
    """The place of each pair in the caller's lists, or among the entries of the caller's matrix, row by row: int64."""
    cost: int | float | decimal.Decimal
    """The sum of the costs: an int of whole numbers, the nearest float of floats that aren't, and a Decimal where `decimals` was given and isn't 0."""
    bound: int | float | decimal.Decimal
    """What no assignment costs less than (or more than, where the most is wanted): the cost, unless a limit ended the search."""
    prices: numpy.ndarray
    """A price of each column, or of each row where there are more rows than columns and no capacity, in units of
    1 / `scale`: int64, or where that is too short Python's whole numbers in an object array. At these prices no entry
    is more than 1 better for its row than the row's own pair. `u` and `v` are in the unit of the costs."""
    scale: int
    """A price of this number is one unit of the costs."""
    exact_cost: fractions.Fraction | None = None
    """The sum of the costs, exactly."""
    gap: fractions.Fraction | int = 0
    """What the cost is above the least one at most (below the greatest), exactly: 0, unless a limit ended the search."""
    labels: list[tuple] | None = None
    """The names of each pair's row and column, where the problem was a table that has names, such as a DataFrame; `dict(labels)` gives each its own."""
    costs: numpy.ndarray | None = None
    """The cost of each pair, as the caller gave it, or a Decimal where `decimals` was given and isn't 0."""
    shape: tuple[int, int] | None = None
    """The numbers of rows and of columns."""
    maximize: bool = False
    """Whether the most was wanted."""

    def __repr__(self):
        bound = "" if self.is_optimal else f"bound={self.bound!r}, "
        return f"Solution(cost={self.cost!r}, {bound}pairs={shown_pairs(self)})"

    @property
    def is_optimal(self) -> bool:
        """Whether the cost is the least (or the most)."""
        return self.cost == self.bound and self.gap == 0

    def exact_prices(self) -> list[fractions.Fraction]:
        """A price of each column (or row), in the unit of the costs: Fractions at which no entry is better for its row than the row's own pair at all.

        So the costs of the pairs are exactly the sum of what is best for each row, less the sum of the prices, and
        nothing is below that.
        """
        persons, whole = len(self.rows), numpy.asarray(self.prices)
        if persons == 0:
            return [fractions.Fraction(0)] * len(whole)
        picked = self.rows if numpy.max(self.columns) < persons < len(whole) else self.columns
        return [
            fractions.Fraction(int(price) * (persons + 1), self.scale) for price in whole_prices(persons, whole, picked)
        ]

    @property
    def u(self) -> numpy.ndarray:
        """The dual of each row, in the unit of the costs: an object array of Fractions; `u.astype(float)` has floats.

        No allowed cost of a row and a column is below the sum of their duals (or above it, where the most is wanted),
        and those of the pairs are this sum. What the smaller side leaves free has the dual 0. So the duals show the
        cost least: each column's counts as often as it may be taken. Raises Unsettled where a limit ended the search.

        >>> solution = sigdorf.solve([[1, 2.5], [1, 4]])
        >>> print(solution.u[0] + solution.v[1], solution.u[1] + solution.v[0], sum(solution.u) + sum(solution.v))
        5/2 1 7/2
        """
        return duals_of(self)[0]

    @property
    def v(self) -> numpy.ndarray:
        """The dual of each column, as `u` has those of rows."""
        return duals_of(self)[1]

    def reduced_costs(self, rows: ArrayLike, columns: ArrayLike, costs: ArrayLike) -> numpy.ndarray:
        """The cost of each of these pairs less the duals of its row and column, exactly: an object array of Fractions.

        It is how far the cost of a pair that isn't the solution's may fall (or rise, where the most is wanted and it is
        negative), alone, while this solution stays best.

        >>> print(*sigdorf.solve([[1, 1, 3.5]]).reduced_costs([0, 0, 0], [0, 1, 2], [1, 1, 3.5]))
        0 0 5/2
        """
        return reduced_costs_of(self, rows, columns, costs)

    def margins(self, rows: ArrayLike, columns: ArrayLike, costs: ArrayLike) -> numpy.ndarray:
        """How far the cost of each pair may rise, alone, while the solution stays best; or fall, where the most is wanted.

        The arguments are all entries of the problem. It is what the duals show, and may be more in truth: Fractions, or
        infinity where the pair is the only entry of its row and column.

        >>> print(*sigdorf.solve([[1, 9]]).margins([0, 0], [0, 1], [1, 9]))
        8
        """
        return margins_of(self, rows, columns, costs)
