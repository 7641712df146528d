"""Assignments of anybody's, held against the least cost."""
import typing

import numpy
from numpy.typing import ArrayLike

from .arguments import INT64, whole_numbers
from .asked import Asked, bids_of
from .faults import Refused, Unsettled
from .library import USUAL_BIDS
from .solution import Solution
from .waiting import time_limit


def certify(
    rows: ArrayLike,
    columns: ArrayLike,
    table: typing.Any,
    *,
    maximize: bool = False,
    missing: typing.Literal["forbidden"] | None = None,
    bids: int = USUAL_BIDS,
    seconds: float | None = None,
) -> Solution:
    """The :class:`Solution` of an assignment, whoever found it, with prices that show that none costs less; it passes :func:`check`.

    rows, columns: the pairs, in any order: whole numbers from 0. SciPy's linear_sum_assignment answers such two.
    table: as :func:`solve` takes it: a matrix, dense or sparse, or a table with names.
    `maximize`, `missing` and `bids` are those of :func:`solve`; `seconds` is a limit of time, from 0.

    Raises :class:`Refused` where these pairs are no full assignment of the table, or where one costs less, which the
    message tells, exactly compared. Raises Infeasible where there is no full assignment, Unsettled where a limit ended
    the search before either was known, and ValueError where an argument is at fault.

    >>> sigdorf.certify([0, 1], [1, 0], [[1, 2], [1, 4]])
    Solution(cost=3, pairs={0: 1, 1: 0})
    >>> sigdorf.certify([0, 1], [0, 1], [[1, 2], [1, 4]])
    Traceback (most recent call last):
        ...
    sigdorf.faults.Refused: the assignment costs 5, and the least one costs 3
    """
    watch, asked, bids = time_limit(seconds), Asked(table, maximize=maximize, missing=missing), bids_of(bids)
    sides = [whole_numbers(side, name, *INT64) for side, name in ((rows, "rows"), (columns, "columns"))]
    if len(sides[0]) != len(sides[1]):
        raise ValueError("rows and columns must be as many")
    pairs = [side[numpy.argsort(sides[0], kind="stable")] for side in sides]
    entries = _entries_of(asked.lists, *pairs)
    least = asked.solution(None, bids, watch=watch)
    cost = asked.problem.costs.total(entries)
    if cost < least.exact_cost if asked.maximize else cost > least.exact_cost:
        raise Refused(_told(asked, cost, least))
    if least.gap:
        raise Unsettled(least, "seconds" if watch is not None and watch.is_over() else "bids")
    labels, costs = asked.labels(*pairs), asked.problem.costs.at(entries)
    claim = least._replace(rows=pairs[0], columns=pairs[1], entries=entries, labels=labels, costs=costs)
    asked.check(claim)
    return claim


def _entries_of(lists, rows, columns):
    """The places of these pairs among the entries of a table, where each appears once."""
    for name, given, side in (("row", rows, lists.sides[0]), ("column", columns, lists.sides[1])):
        outside = (given < 0) | (given >= side)
        if outside.any():
            raise Refused(f"there is no {name} {given[outside.argmax()]} in a table of {side} {name}s")
        numbers, times = numpy.unique(given, return_counts=True)
        if len(numbers) < len(given):
            raise Refused(f"{name} {numbers[times.argmax()]} appears {times.max()} times")
    if len(rows) != min(lists.sides):
        raise Refused(f"{len(rows)} pairs are no full assignment, which has {min(lists.sides)}")
    places, wanted = lists.rows * lists.sides[1] + lists.columns, rows * lists.sides[1] + columns
    order = numpy.argsort(places, kind="stable")
    entries = numpy.append(order, len(places))[numpy.searchsorted(places, wanted, sorter=order)]
    is_entry = numpy.append(places, -1)[entries] == wanted
    if not is_entry.all():
        place = is_entry.argmin()
        raise Refused(f"row {rows[place]}, column {columns[place]} is no entry of the table")
    return entries


def _told(asked, cost, least):
    """How far an assignment is from the least one, or from a better one; where floats show no difference, the difference."""
    shown, best = asked.problem.costs.shown(cost), "the greatest" if asked.maximize else "the least"
    more = "" if shown != least.cost else f"; they differ by {abs(cost - least.exact_cost)}"
    return f"the assignment costs {shown}, and {'another' if least.gap else best} one costs {least.cost}{more}"
