"""As many pairs as possible, and of all such choices the one of least cost."""
import fractions
import math
import typing

import numpy
from numpy.typing import ArrayLike

from .amounts import exact_sum
from .asked import bids_of
from .gated import Match, asked_to_match, matched
from .library import USUAL_BIDS
from .matrices import numbers_of
from .waiting import time_limit

# Whole numbers to 2^53 are floats too; greater ones are compared as whole numbers of 64 bits.
MOST_OF_FLOAT, MOST_EXPONENT, MOST_WHOLE_EXPONENT = 2**53, 1023, 62


def max_cardinality_match(
    costs: typing.Any,
    *,
    rows: ArrayLike | None = None,
    columns: ArrayLike | None = None,
    shape: typing.Sequence[int] | None = None,
    maximize: bool = False,
    missing: typing.Literal["forbidden"] | None = None,
    bids: int = USUAL_BIDS,
    seconds: float | None = None,
) -> Match:
    """As many pairs as possible, and of all choices of so many pairs the one of least cost.

    It is for tables where not every row can have a column.

    The arguments are those of :func:`match`, which has a limit besides. The sum is exact, of floats too. Costs are
    refused where the sum of as many as there may be pairs could be beyond their type: whole numbers near 2^63, and
    floats near 1e308. After `seconds` come the pairs found by then; the `gap` of the :class:`Match` says how far off the
    sum of their costs may be, and is infinite where there may be more pairs.

    Raises ValueError where an argument is at fault, and Unsettled where bids didn't suffice and no `seconds` were given.

    >>> sigdorf.max_cardinality_match([[1, numpy.inf], [0, numpy.inf], [5, 7]])
    Match(pairs={1: 0, 2: 1}, free_rows=[0], free_columns=[])
    """
    watch, asked = time_limit(seconds), asked_to_match(costs, rows, columns, shape, maximize, missing)
    values = asked.costs if asked.table is None else numbers_of(asked.table)
    limit = _beyond(values, min(asked.sides))
    found = matched(asked, -limit if asked.maximize else limit, bids_of(bids), watch)
    return found if found.is_optimal or _are_most(found, limit, asked.maximize) else found._replace(gap=math.inf)


def _are_most(found, limit, maximize):
    """Whether a gap shows that there are no more pairs.

    Any pairs cost less than half the limit together, and one more saves the whole limit.
    """
    return found.gap <= fractions.Fraction(limit) / 2 + (-1 if maximize else 1) * exact_sum(found.costs)


def _beyond(costs, pairs):
    """A limit by which one pair more is worth any change of others: above 2 * pairs times the greatest magnitude."""
    finite = costs[numpy.isfinite(costs)] if costs.dtype.kind == "f" else costs
    most = max(-finite.min().item(), finite.max().item()) if finite.size else 0
    exponent = (2 * pairs).bit_length() + (math.frexp(most)[1] if costs.dtype.kind == "f" else most.bit_length())
    is_float = costs.dtype.kind == "f" or most <= MOST_OF_FLOAT
    if exponent > (MOST_EXPONENT if is_float else MOST_WHOLE_EXPONENT):
        raise ValueError(f"costs to {most} are too great to make as many of {pairs} pairs as possible: scale them down")
    return math.ldexp(1.0, exponent) if is_float else 1 << exponent
