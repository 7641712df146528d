"""Pairs that are forced or forbidden, and columns that several rows may take: as a problem that has none of these."""
import numpy

from .arguments import INT64, MOST_ENTRIES, MOST_INDEX, attempt, number, whole_numbers
from .asked import NO_ASSIGNMENT, Asked
from .claims import NO_ENTRY, listed_of, look_at_kind, look_at_names, whole_list
from .faults import Infeasible, Refused
from .library import LIST_FAULTS, OTHER_SIZE, START_FAULTS
from .pairs import Pairs, ranks_of
from .problem import Lists, look_at_sides
from .starts import kept_of
from .whole import narrow

WORDS = f"{NO_ASSIGNMENT} with these pairs and capacities"


def asked_of(rows, columns, costs, shape, maximize, decimals, missing, forced, forbidden, capacity):
    """What is asked, with or without restrictions."""
    asked = Asked(rows, columns, costs, shape, maximize, decimals, missing)
    return (
        asked
        if forced is None and forbidden is None and capacity is None
        else Restricted(asked, forced, forbidden, capacity)
    )


class Restricted:
    """What is asked, with the entries that are allowed, and a place of a column for each row that it may take.

    It is solved and checked as Asked is. A forced pair has a place of its own: nothing else is allowed to its row, nor
    to this place.
    """

    def __init__(self, asked, forced, forbidden, capacity):
        self._asked, lists = asked, asked.problem.lists
        self._capacity = _capacity_of(capacity, lists.sides)
        self._first = numpy.cumsum(self._capacity) - self._capacity
        self.maximize, self.sides = asked.maximize, (lists.sides[0], int(self._capacity.sum()))
        self._by_columns = self.sides[0] > self.sides[1]
        look_at_sides(self.sides)
        if capacity is not None and self._by_columns:
            raise self._infeasible(numpy.arange(self.sides[0]), numpy.flatnonzero(self._capacity), False)
        # Of each row its own place, and of each place its own row, by a forced pair.
        self._place_of, self._row_of = (numpy.full(side, -1) for side in self.sides)
        self._some, places = self._placed(
            self._allowed(Pairs(asked, forced, "forced"), Pairs(asked, forbidden, "forbidden"))
        )
        self._inner = Asked.of_lists(
            Lists(lists.rows[self._some], places, lists.costs[self._some], self.sides), asked.maximize, asked.decimals
        )

    def _allowed(self, forced, forbidden):
        """The caller's entries that aren't forbidden; each forced pair is one of them, and gets its place."""
        lists, ranks = self._asked.lists, ranks_of(forced.columns)
        codes = lists.rows * lists.sides[1] + lists.columns
        some = numpy.flatnonzero(~numpy.isin(codes, forbidden.codes))
        forced.refuse(numpy.isin(forced.codes, forbidden.codes), "is forbidden too")
        forced.refuse(~numpy.isin(forced.codes, codes), "is no entry")
        forced.refuse(ranks_of(forced.rows) > 0, "isn't the first pair of its row")
        forced.refuse(ranks >= self._capacity[forced.columns], "is beyond the capacity of its column")
        places = self._first[forced.columns] + ranks
        self._place_of[forced.rows], self._row_of[places] = places, forced.rows
        return some

    def _placed(self, some):
        """These entries once for each place that they may lead to, and the places."""
        lists = self._asked.lists
        counts = self._capacity[lists.columns[some]]
        if counts.sum() > MOST_ENTRIES:
            raise ValueError(LIST_FAULTS[3])
        entries = numpy.repeat(some, counts)
        rows, before = lists.rows[entries], numpy.repeat(numpy.cumsum(counts) - counts, counts)
        places = numpy.arange(len(entries)) - before + self._first[lists.columns[entries]]
        own, other = self._place_of[rows], self._row_of[places]
        fits = ((own == -1) | (own == places)) & ((other == -1) | (other == rows))
        return entries[fits], places[fits]

    def _infeasible(self, rows, columns, by_columns):
        return Infeasible(rows, columns, by_columns, WORDS, self._asked.lists.named(rows, columns))

    def start_of(self, start):
        """The prices of a start, or None."""
        if start is None or self._by_columns:
            return self._inner.start_of(start)
        kept = kept_of(start)
        if kept is not None:
            prices = kept.prices(False, len(self._capacity), self._asked.names, self.maximize)
            return prices if prices is None else numpy.repeat(prices, self._capacity)
        start = whole_numbers(start, "start", *INT64)
        if len(start) != len(self._capacity):
            raise ValueError(START_FAULTS[2])
        return self._inner.start_of(numpy.repeat(start, self._capacity))

    def solution(self, start, bids, watch=None):
        """The Solution, in the caller's entries."""
        try:
            found = self._inner.solution(start, bids, watch=watch)
        except Infeasible as fault:
            columns = numpy.unique(numpy.searchsorted(self._first + self._capacity, fault.columns, "right"))
            raise self._infeasible(fault.rows, columns, fault.by_columns) from None
        entries, prices = self._some[found.entries], found.prices
        columns = self._asked.lists.columns[entries]
        if not self._by_columns:
            # The last place of a column has the price of all that aren't forced.
            last = numpy.append(prices, 0)[self._first + self._capacity - 1]
            prices = numpy.where(self._capacity > 0, last, 0)
        labels = self._asked.labels(found.rows, columns)
        return found._replace(columns=columns, entries=entries, prices=prices, labels=labels, shape=self._asked.sides)

    def check(self, solution):
        """Raises Refused where a Solution in the caller's entries isn't least."""
        look_at_kind(solution)
        lists, persons = self._asked.lists, min(self.sides)
        entries = listed_of(solution.entries, "entries", (0, len(lists.costs) - 1), persons, NO_ENTRY)
        columns = listed_of(solution.columns, "columns", INT64, persons, OTHER_SIZE)
        rows = lists.rows[entries]
        if not numpy.array_equal(columns, lists.columns[entries]):
            raise Refused("the rows and columns of the solution are not those of its entries")
        has_own = self._place_of[rows] >= 0
        # Those without a forced pair have the other places of their column in turn.
        ranks = numpy.where(has_own, 0, ranks_of(numpy.where(has_own, -1 - rows, columns)))
        places, ends = (numpy.searchsorted(self._some, entries, side) for side in ("left", "right"))
        if (places + ranks >= ends).any():
            place = (places + ranks >= ends).argmax()
            told = self._asked.names.told(rows[place], columns[place])
            raise Refused(f"{told} isn't allowed by these pairs and capacities")
        look_at_names(self._asked.labels(rows, columns), self._asked.sides, solution)
        places, prices = places + ranks, solution.prices
        if not self._by_columns:
            prices = narrow(numpy.repeat(whole_list(prices, len(self._capacity)), self._capacity))
        parts = {"columns": self._inner.lists.columns[places], "entries": places, "prices": prices}
        self._inner.check(solution._replace(labels=None, shape=self.sides, **parts))


def _capacity_of(capacity, sides):
    """How many rows each column may take, of one number for all or of one of each.

    More than all rows are one more, so that a place is left over, and the column has no price.
    """
    if capacity is None:
        return numpy.ones(sides[1], numpy.int64)
    if attempt(len, capacity) is None or isinstance(capacity, (str, bytes)):
        each = numpy.full(sides[1], number(capacity, "capacity", 0, MOST_INDEX))
    else:
        each = whole_numbers(capacity, "capacity", 0, MOST_INDEX)
    if len(each) != sides[1]:
        raise ValueError(f"capacity must be a whole number, or one of each of the {sides[1]} columns")
    return numpy.minimum(each, sides[0] + 1)
