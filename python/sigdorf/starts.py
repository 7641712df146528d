"""Where a search may start from: the duals of an earlier solution as prices, whatever the unit of its costs was."""
import numpy

from .arguments import attempt
from .duals import has_row_prices
from .solution import Solution
from .tables import NUMBERS


class Kept:
    """Prices of the rows and of the columns of a solved problem, by their names or numbers, for a problem to come."""

    def __init__(self, solution, names=NUMBERS):
        self._maximize, self._names, self._prices = solution.maximize, names, attempt(_prices_of, solution)

    def prices(self, by_rows, count, names, maximize):
        """A price of each row or of each column, in the unit of the costs, 0 of a new name; or None of no use."""
        if self._prices is None or maximize is not self._maximize:
            return None
        place = 0 if by_rows else 1
        kept, old, new = self._prices[place], self._names[place], names[place]
        if old is None or new is None:
            return kept if old is new and len(kept) == count else None
        return attempt(_prices_by_names, (old, kept, new))


def kept_of(start):
    """A start that isn't a list of prices, as what is kept of it, or None."""
    return Kept(start) if isinstance(start, Solution) else start if isinstance(start, Kept) else None


def _prices_of(solution):
    """Prices of rows and of columns in the unit of the costs, from 0."""
    prices = numpy.array([price / solution.scale for price in numpy.asarray(solution.prices).tolist()])
    by_rows = has_row_prices(solution)
    mine, taken = (solution.columns, solution.rows) if by_rows else (solution.rows, solution.columns)
    other = numpy.zeros(solution.shape[1 if by_rows else 0])
    with numpy.errstate(all="ignore"):
        other[mine] = (1 if solution.maximize else -1) * solution.costs.astype(float) - prices[taken]
        found = prices, other - other.min(initial=0)
    if not all(numpy.isfinite(side).all() for side in found):
        return None
    return found if by_rows else found[::-1]


def _prices_by_names(given):
    old, kept, new = given
    price_of = dict(zip(old, kept.tolist()))
    return numpy.array([price_of.get(name, 0.0) for name in new])
