"""Problems: lists of a caller, of which the smaller side takes the larger one."""
import fractions

import numpy

from .arguments import MOST_ENTRIES, MOST_INDEX, MOST_OBJECTS, MOST_PERSONS, array_of, sides_of, whole_numbers
from .costs import KINDS, costs_of, look_at_rounding
from .faults import Infeasible
from .library import ARC, LIST_FAULTS, Answer, NoAssignment, solve_entries
from .solution import Solution
from .tables import NUMBERS
from .whole import priced


def lists_of(rows, columns, costs, shape):
    """The Lists of a caller's own. A ValueError says what is at fault."""
    rows, columns = (whole_numbers(side, name, 0, MOST_INDEX) for side, name in ((rows, "rows"), (columns, "columns")))
    costs = costs_in(costs)
    if not len(rows) == len(columns) == len(costs):
        raise ValueError("rows and columns must be as many as the costs")
    if shape is None:
        shape = tuple(int(side.max()) + 1 if side.size else 0 for side in (rows, columns))
    lists = Lists(rows, columns, costs, sides_of(shape))
    look_at_sides(lists.sides)
    lists.look_at_indices()
    return lists


class Lists:
    """Which row may have which column at which cost, and the numbers of rows and columns. `names` are those of a matrix; a caller's lists have none, and their
    faults tell the entry too."""

    def __init__(self, rows, columns, costs, sides, names=None):
        self.names, self._is_matrix = names or NUMBERS, names is not None
        self.rows, self.columns, self.costs, self.sides = rows, columns, costs, sides

    def look_at_indices(self):
        """A ValueError names an entry that isn't within the sides."""
        outside = (self.rows >= self.sides[0]) | (self.columns >= self.sides[1])
        if outside.any():
            place = int(numpy.argmax(outside))
            raise ValueError(f"{LIST_FAULTS[4].format(place=place)}: {self._told(place)}")

    def where(self, some):
        """The Lists of some of the entries."""
        names = self.names if self._is_matrix else None
        return Lists(self.rows[some], self.columns[some], self.costs[some], self.sides, names)

    def fault(self, place, sentence):
        """The fault of the cost at a place: what is said of it follows its row and column."""
        entry = "" if self._is_matrix else f" of entry {place}"
        return ValueError(f"{self._told(place)}: the cost {self.costs[place]}{entry} {sentence}")

    def _told(self, place):
        return self.names.told(self.rows[place], self.columns[place])

    def named(self, rows, columns):
        """The names of some rows and of some columns, or None where there are no names."""
        return self.names.of(rows, columns)


class Problem:
    """The entries of a caller's lists, and how to tell what is found in the caller's terms.

    Where there are more rows than columns (`by_columns`), the columns are the persons.
    """

    def __init__(self, lists, maximize, decimals):
        self.lists, self.sign = lists, -1 if maximize else 1
        self.costs = costs_of(lists.costs, decimals, maximize, lists.fault)
        self.by_columns = lists.sides[0] > lists.sides[1]
        self.persons, self.objects = sorted(lists.sides)
        self._arcs = None

    @property
    def arcs(self):
        """The entries as the library's check takes them; costs that it can't look at are 0."""
        if self._arcs is None:
            rows, columns = self.lists.rows, self.lists.columns
            self._arcs = numpy.empty(len(rows), ARC)
            self._arcs["person"], self._arcs["object"] = (columns, rows) if self.by_columns else (rows, columns)
            self._arcs["cost"] = self.costs.whole if self.has_whole_costs else 0
        return self._arcs

    @property
    def has_whole_costs(self):
        """Whether the library's own check can look at the costs: whole numbers to 10^9, in units of the decimals."""
        return self.costs.is_small

    @property
    def decimal_scale(self):
        """How many units of the costs are one of the caller's."""
        return 10**self.costs.decimals

    def labels(self, rows, columns):
        """The names of pairs, or None."""
        named = self.lists.named(rows, columns)
        return named and list(zip(*named))

    def solution(self, start, bids, words, watch=None):
        """The Solution, by the library's call for lists. These words begin an Infeasible.

        start: prices in units of whole costs, floats in the unit of `costs.numbers`, or None; watch: a Watch, or None.
        """
        answer, lists = self._answer(start, bids, words, watch), self.lists
        places, cost, gap = answer.places, self.costs.total(answer.places), answer.gap / self.decimal_scale
        shown = self.costs.shown(cost)
        told = self.costs.shown_bound(cost - self.sign * gap) if gap else shown
        prices, scale = priced(self.persons, self.objects, answer.levels, answer.are_whole)
        pairs = lists.rows[places], lists.columns[places], places
        parts = shown, told, prices, scale * self.decimal_scale, cost, gap or 0, None
        return Solution(*pairs, *parts, self.costs.at(places), lists.sides, self.sign < 0)

    def _answer(self, start, bids, words, watch):
        if self.persons == 0:
            free = numpy.zeros(self.objects, numpy.int64)
            return Answer(numpy.zeros(0, numpy.int64), [(free, 0)], True, fractions.Fraction(0))
        sides, costs = self.lists.sides, self.costs
        if watch is not None and watch.progress:
            watch.progress.expect(self.persons, costs.maximize, costs.shown_units)
        try:
            entries = self.lists.rows, self.lists.columns, costs.numbers
            return solve_entries(entries, sides, costs.maximize, start, bids, watch)
        except NoAssignment as fault:
            rows, columns = (fault.objects, fault.persons) if self.by_columns else (fault.persons, fault.objects)
        raise Infeasible(rows, columns, self.by_columns, words, self.lists.named(rows, columns))

    def solution_of_units(self, found):
        """The Solution in the caller's decimals of one in whole units."""
        cost, gap = self.costs.amount(int(found.exact_cost)), abs(self.costs.amount(found.gap))
        shown = self.costs.shown(cost)
        told = self.costs.shown_bound(cost - self.sign * gap) if gap else shown
        amounts = {"cost": shown, "bound": told, "exact_cost": cost, "gap": gap or 0, "costs": self.costs.at(found.entries)}
        return found._replace(scale=found.scale * self.decimal_scale, maximize=self.sign < 0, **amounts)


def look_at_sides(sides):
    """A ValueError where a problem can't have so many rows and columns."""
    if min(sides) > MOST_PERSONS:
        raise ValueError(LIST_FAULTS[1])
    if max(sides) > MOST_OBJECTS:
        raise ValueError(LIST_FAULTS[2])


def costs_in(costs):
    """A caller's list of costs, as an array of numbers."""
    numbers = array_of(costs, "costs", MOST_ENTRIES)
    if numbers.ndim != 1 or numbers.dtype.kind not in KINDS:
        raise ValueError("costs must be one list of numbers")
    look_at_rounding(costs, numbers)
    return numbers
