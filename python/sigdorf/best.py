"""Assignments in the order of their costs."""
import decimal
import fractions
import heapq
import typing

import numpy

from .arguments import number
from .asked import NO_ASSIGNMENT, Asked, bids_of
from .faults import Infeasible, Unsettled
from .library import USUAL_BIDS
from .shown import compared_and_shown, shown_pairs
from .waiting import time_limit

MOST_BEST = 10**6


@compared_and_shown
class Ranked(typing.NamedTuple):
    """One of the best assignments.

    >>> sigdorf.k_best([[1, 2], [1, 4]], 1)[0].cost
    3
    """

    rows: numpy.ndarray
    """The rows that have a column, rising: int64, as many as the smaller side."""
    columns: numpy.ndarray
    """The column of each of these rows: int64."""
    cost: int | float | decimal.Decimal
    """The sum of the costs, as a :class:`Solution` has it."""
    exact_cost: fractions.Fraction
    """The same, exactly."""
    labels: list[tuple] | None = None
    """The names of each pair's row and column, where the table has names."""

    def __repr__(self):
        return f"Ranked(cost={self.cost!r}, pairs={shown_pairs(self)})"


class Ranking(list):
    """A list of the best assignments, the best first.

    >>> sigdorf.k_best([[1, 2], [1, 4]], 9, seconds=5).is_complete
    True
    """

    is_complete: bool = True
    """Whether it has as many as were wanted, or all that there are: False where `seconds` ended it before."""


class OutOfTime(Exception):
    """The time came before a search began."""


def k_best(
    table: typing.Any,
    k: int,
    *,
    maximize: bool = False,
    missing: typing.Literal["forbidden"] | None = None,
    bids: int = USUAL_BIDS,
    seconds: float | None = None,
) -> Ranking:
    """The k best full assignments of a table, the best first: each costs least of all those that aren't before it. There may be fewer.

    table: as :func:`solve` takes it: a matrix, dense or sparse, or a table with names.
    k: how many, from 1.
    maximize, missing, bids: those of :func:`solve`.
    seconds: a limit of time, from 0. After it come those found by then, each in its place, or none: no fault, but a
        list whose `is_complete` is False. With seconds, bids that don't suffice are answered in the same way.

    Sums are exact, of floats too. Of several that cost the same the first rows have the lowest columns, as everywhere
    here. The method is K. G. Murty's (Operations Research 16, 1968): what is left is parted by the pairs of each
    answer, and each part is solved. So it takes k * rows searches at most.

    Raises Infeasible where there is no full assignment, Unsettled where bids didn't suffice and no `seconds` were given,
    and ValueError where an argument is at fault.

    >>> for found in sigdorf.k_best([[1, 2, 4], [1, 4, 9]], 3):
    ...     print(found)
    Ranked(cost=3, pairs={0: 1, 1: 0})
    Ranked(cost=5, pairs={0: 0, 1: 1})
    Ranked(cost=5, pairs={0: 2, 1: 0})
    """
    watch, bids = time_limit(seconds), bids_of(bids)
    asked, k, found = Asked(table, maximize=maximize, missing=missing), number(k, "k", 1, MOST_BEST), Ranking()
    try:
        parts = [Part(asked, numpy.ones(len(asked.lists.costs), bool), 0, bids, watch)]
        while parts and len(found) < k:
            part = heapq.heappop(parts)
            found.append(part.ranked())
            if len(found) < k:
                for rest in part.rests(bids, watch):
                    heapq.heappush(parts, rest)
    except (Unsettled, OutOfTime):
        if watch is None:
            raise
        found.is_complete = False
    return found


class Part:
    """All assignments by some of the entries, of which the pairs of the first `kept` persons are settled, and the best of these."""

    def __init__(self, asked, is_left, kept, bids, watch):
        if watch is not None and watch.is_over():
            raise OutOfTime
        self._asked, self._is_left, self._kept = asked, is_left, kept
        self._some = numpy.flatnonzero(is_left)
        some = Asked.of_lists(asked.lists.where(self._some), asked.maximize)
        self._solution = some.solution(None, bids, NO_ASSIGNMENT, watch)
        if self._solution.gap:
            raise Unsettled(self._solution)
        # By persons, so that ties are in order.
        rows, columns = self._solution.rows, self._solution.columns
        self._by_columns = asked.sides[0] > asked.sides[1]
        self._order = numpy.argsort(columns) if self._by_columns else numpy.arange(len(rows))
        sign = -1 if asked.maximize else 1
        self._rank = sign * self._solution.exact_cost, (rows[self._order] if self._by_columns else columns).tolist()

    def __lt__(self, other):
        return self._rank < other._rank

    def ranked(self):
        found = self._solution
        return Ranked(found.rows, found.columns, found.cost, found.exact_cost, self._asked.labels(found.rows, found.columns))

    def rests(self, bids, watch):
        """The rest of this part, in parts: one for each person whose pair is the first that isn't kept."""
        lists, is_left = self._asked.lists, self._is_left.copy()
        for place, pair in enumerate(self._order.tolist()):
            row, column, entry = self._solution.rows[pair], self._solution.columns[pair], self._some[self._solution.entries[pair]]
            without = is_left.copy()
            without[entry] = False
            # Nobody is left without any entry.
            if place >= self._kept and without[lists.columns == column if self._by_columns else lists.rows == row].any():
                try:
                    yield Part(self._asked, without, place, bids, watch)
                except Infeasible:
                    pass
            is_left &= (lists.rows != row) & (lists.columns != column)
            is_left[entry] = True
