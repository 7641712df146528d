"""The best pairs under a limit: whoever has no good pair stays free. What trackers ask for."""
import fractions
import math
import typing

import numpy
from numpy.typing import ArrayLike

from . import fast
from .amounts import nearest_float
from .arguments import MOST_OBJECTS, attempt, is_whole
from .asked import NO_ASSIGNMENT, Asked, bids_of
from .costs import costs_of
from .faults import Unsettled
from .library import USUAL_BIDS
from .limits import in_one_type, is_listed, limits_of, with_all_outlets, with_outlets
from .problem import Problem
from .shown import compared_and_shown, shown_list, shown_pairs
from .waiting import time_limit


@compared_and_shown
class Match(typing.NamedTuple):
    """Pairs of rows and columns, and those that stay free. Two are equal where all parts of them are.

    >>> found = sigdorf.match([[1.0, 9.0], [9.0, 8.0]], 2.0)
    >>> found
    Match(pairs={0: 0}, free_rows=[1], free_columns=[1])
    >>> found.is_optimal
    True
    """

    rows: numpy.ndarray
    """The rows that have a column, rising: int64."""
    columns: numpy.ndarray
    """The column of each of these rows: int64."""
    free_rows: numpy.ndarray
    """The rows without a column, rising: int64."""
    free_columns: numpy.ndarray
    """The columns without a row, rising: int64."""
    costs: numpy.ndarray
    """The cost of each pair, as the caller gave it."""
    labels: list[tuple] | None = None
    """The names of each pair's row and column, where the table has names."""
    gap: fractions.Fraction | int | float = 0
    """What the sum, of costs and of the limits of what stays free, is above the least at most (below the greatest),
    exactly: 0, unless `seconds` ended the search. Of :func:`max_cardinality_match` the same of the costs alone, and
    infinite where there may be more pairs."""

    def __repr__(self):
        gap = "" if self.is_optimal else f"gap={nearest_float(self.gap) if self.gap < math.inf else self.gap}, "
        free = f"free_rows={shown_list(self.free_rows)}, free_columns={shown_list(self.free_columns)}"
        return f"Match({gap}pairs={shown_pairs(self)}, {free})"

    @property
    def is_optimal(self) -> bool:
        """Whether these pairs are the best."""
        return self.gap == 0


def match(
    costs: typing.Any,
    limit: float | ArrayLike,
    *,
    column_limit: float | ArrayLike | None = None,
    rows: ArrayLike | None = None,
    columns: ArrayLike | None = None,
    shape: typing.Sequence[int] | None = None,
    maximize: bool = False,
    missing: typing.Literal["forbidden"] | None = None,
    bids: int = USUAL_BIDS,
    seconds: float | None = None,
) -> Match:
    """The pairs whose costs have the least sum, together with the limit of each row that stays free.

    So no pair dearer than the limit is made, and one more pair is made only where the others don't pay more than it
    gains. A pair of just the limit counts as much as none. The sum is exact, of floats too: no other pairs have a
    smaller one.

    costs: a table as :func:`solve` takes it (a matrix, dense or sparse, or a DataFrame), or with `rows` and `columns`
        one list. Of a matrix what is infinite is no pair.
    limit: what a row costs that stays free: a finite number, or a list with one of each row. Where costs are whole
        numbers beyond 2^53, it is whole.
    column_limit: what a column costs that stays free, where that isn't nothing: a number, or a list with one of each
        column. Then a pair costs its row's and its column's limit together at most.
    rows, columns, shape: those of :func:`solve`. Rows and columns number 4,194,304 at most together.
    maximize: whether the most is wanted: then no pair of less than the limit is made.
    missing, bids: those of :func:`solve`.
    seconds: a limit of time, from 0. After it come the pairs found by then, none of them beyond the limit: no fault,
        but a :class:`Match` whose `is_optimal` is False, and whose `gap` says how far off the sum may be. With seconds,
        bids that don't suffice are answered in the same way.

    Raises ValueError where an argument is at fault, and Unsettled where bids didn't suffice and no `seconds` were
    given. KeyboardInterrupt ends a long search at once.

    >>> found = sigdorf.match([[1.0, 9.0, 9.0], [9.0, 0.5, 9.0], [9.0, 0.75, 9.0]], 2.0)
    >>> found.rows.tolist(), found.columns.tolist(), found.free_rows.tolist()
    ([0, 1], [0, 1], [2])
    >>> sigdorf.match([[1.0, 9.0], [9.0, 4.0]], [2.0, 3.0], column_limit=[0.0, 1.0])
    Match(pairs={0: 0, 1: 1}, free_rows=[], free_columns=[])
    >>> found = sigdorf.match(numpy.outer(range(9), range(9)), 20, seconds=5)
    >>> found.is_optimal, found.gap
    (True, 0)
    """
    return match_by(time_limit(seconds), costs, limit, column_limit, rows, columns, shape, maximize, missing, bids)


def match_by(
    watch,
    costs,
    limit,
    column_limit=None,
    rows=None,
    columns=None,
    shape=None,
    maximize=False,
    missing=None,
    bids=USUAL_BIDS,
):
    """The Match of :func:`match`, under a Watch or None."""
    asked, bids = asked_to_match(costs, rows, columns, shape, maximize, missing), bids_of(bids)
    if column_limit is not None or is_listed(limit):
        return _by_own_limits(asked, limit, column_limit, bids, watch)
    return matched(asked, limit_of(asked.costs, limit), bids, watch)


def asked_to_match(costs, rows, columns, shape, maximize, missing):
    """What is asked with a table, or with a list of costs and its rows and columns."""
    if rows is None and columns is None:
        rows, costs = costs, None
    return Asked(rows, columns, costs, shape, maximize, missing=missing)


def matched(asked, limit, bids, watch=None):
    """The Match of one limit: a whole number of the costs' type, or a float."""
    found = fast.found(asked.plain(as_limit(asked.costs, limit)), asked.maximize, False, limit, None, bids, watch)
    if found is None:
        return _by_lists(asked, limit, bids, watch)
    rows, columns, places, free_rows, free_columns, *gap = found
    costs = asked.costs[places] if asked.table is None else costs_at(asked.table, rows, columns, places)
    return Match(rows, columns, free_rows, free_columns, costs, asked.labels(rows, columns), gap_of(*gap) if gap else 0)


def gap_of(number, unit):
    """A gap of the extension's: so many 2^-unit."""
    return fractions.Fraction(number) / fractions.Fraction(2) ** unit


def costs_at(table, rows, columns, places):
    """The caller's costs of pairs: by their places in a table that lies row by row, which is sooner done."""
    return table.take(places) if table.flags.c_contiguous else table[rows, columns]


def limit_of(costs, limit):
    """The limit as a whole number of the costs' type, or a float; neither is rounded."""
    if costs.dtype.kind != "f" and is_whole(limit):
        type_of_costs = numpy.iinfo(numpy.uint64 if costs.dtype == numpy.uint64 else numpy.int64)
        if not type_of_costs.min <= limit <= type_of_costs.max:
            raise ValueError(f"limit must be within the type of the costs, {type_of_costs.dtype}")
        return int(limit)
    near = None if isinstance(limit, (str, bytes)) else attempt(_exact_float, limit)
    if near is None:
        raise ValueError("limit must be a finite number, that a float of 64 bits is")
    if costs.dtype.kind in "biu" and costs.size and max(-int(costs.min()), int(costs.max())) > 2**53:
        raise ValueError("limit must be a whole number where costs are whole numbers beyond 2^53")
    return near


def _exact_float(number):
    """A finite number as a float, or None where that isn't the same."""
    near = float(number)
    return near if math.isfinite(near) and near == number else None


def as_limit(costs, limit):
    """The costs as numbers that can be compared with the limit; none is rounded."""
    if type(limit) is float and costs.dtype.kind in "biu":
        return costs.astype(numpy.float64)
    return costs.astype(numpy.int64) if costs.dtype.kind == "u" and limit < 0 else costs


def _by_lists(asked, limit, bids, watch):
    """The Match, where the extension has none."""
    lists = asked.lists
    values = fast.plain(as_limit(lists.costs, limit))
    _look_at_lists(asked)
    by_columns, persons = lists.sides[0] > lists.sides[1], min(lists.sides)
    some = numpy.flatnonzero(values >= limit if asked.maximize else values <= limit)
    sides = (lists.columns, lists.rows) if by_columns else (lists.rows, lists.columns)
    limits = numpy.full(persons, limit, values.dtype)
    more = with_outlets(*(side[some] for side in sides), values[some], limits, max(lists.sides))
    solution = _settled(Problem(more, asked.maximize, None).solution(None, bids, NO_ASSIGNMENT, watch), watch)
    return _matched(asked, some[solution.entries[solution.entries < len(some)]], solution.gap)


def _by_own_limits(asked, limit, column_limit, bids, watch):
    """The Match of limits of rows, and of columns or none."""
    lists = asked.lists
    _look_at_lists(asked)
    limits = [limits_of(limit, lists.sides[0], "limit", "row")]
    if column_limit is not None:
        limits.append(limits_of(column_limit, lists.sides[1], "column_limit", "column"))
    costs, *limits = in_one_type(lists.costs, *limits)
    if column_limit is None:
        more = with_outlets(lists.rows, lists.columns, costs, *limits, lists.sides[1])
    else:
        more = with_all_outlets(lists, costs, *limits)
    solution = _settled(Asked.of_lists(more, asked.maximize).solution(None, bids, watch=watch), watch)
    entries, gap = solution.entries[solution.entries < len(costs)], solution.gap
    if gap:
        entries, gap = _without_dear(lists, costs, limits, asked.maximize, entries, gap)
    return _matched(asked, entries, gap)


def _without_dear(lists, costs, limits, maximize, entries, gap):
    """The pairs of a search that was ended, without those beyond their limits, and what that leaves of the gap."""
    own = (side[of[entries]].tolist() for side, of in zip(limits, (lists.rows, lists.columns)))
    sign, exact = -1 if maximize else 1, fractions.Fraction
    # What each costs more than it costs to leave its row and column free.
    more = [sign * (exact(cost) - sum(map(exact, free))) for cost, *free in zip(costs[entries].tolist(), *own)]
    return entries[numpy.array([part <= 0 for part in more], bool)], gap - sum(part for part in more if part > 0)


def _look_at_lists(asked):
    """A ValueError where there are too many rows and columns, or a cost isn't finite, before some are left out."""
    if sum(asked.sides) > MOST_OBJECTS:
        raise ValueError(f"rows and columns must number {MOST_OBJECTS:,} at most together")
    costs_of(asked.lists.costs, None, asked.maximize, asked.lists.fault)


def _settled(solution, watch):
    """The solution: who has set a time takes what was found by then, and Unsettled is raised for others."""
    if solution.gap and watch is None:
        raise Unsettled(solution)
    return solution


def _matched(asked, entries, gap):
    """The Match of these entries."""
    lists = asked.lists
    entries = entries[numpy.argsort(lists.rows[entries])]
    rows, columns = lists.rows[entries], lists.columns[entries]
    free = (numpy.setdiff1d(numpy.arange(side), held) for side, held in zip(lists.sides, (rows, columns)))
    return Match(rows, columns, *free, lists.costs[entries], asked.labels(rows, columns), gap)
