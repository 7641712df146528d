"""What a caller asks for, made plain, and the one road to an answer."""
from . import fast
from .arguments import HIGHEST_START, INT64, MOST_BIDS, number, truth, whole_numbers
from .claims import check_claim
from .costs import MOST_DECIMALS
from .edges import Edges
from .faults import Unsettled
from .library import START_FAULTS, USUAL_BIDS
from .matrices import is_sparse, lists_of_matrix, numbers_of, without_missing
from .problem import Problem, lists_of
from .starts import kept_of
from .tables import NUMBERS, named

NO_ASSIGNMENT = "no full assignment exists"
# What missing= may say of cells without a number.
FORBIDDEN = "forbidden"


class Asked:
    """A dense table or Lists of entries, whatever they came as, and what is wanted of them. A ValueError says what is at fault.

    `table` is an array, or None where there are lists alone. An array of the caller's is looked at closer where the extension doesn't take it.
    """

    def __init__(self, rows, columns=None, costs=None, shape=None, maximize=False, decimals=None, missing=None):
        self.maximize = truth(maximize, "maximize")
        self.decimals = None if decimals is None else number(decimals, "decimals", 0, MOST_DECIMALS)
        self.names, self.table, self._lists, self._problem = NUMBERS, None, None, None
        if missing is not None and not (isinstance(missing, str) and missing == FORBIDDEN):
            raise ValueError(f"missing must be {FORBIDDEN!r}, or left out")
        if missing and (columns is not None or costs is not None or isinstance(rows, Edges)):
            raise ValueError("missing is of tables alone: leave out the entries that are missing")
        if columns is not None or costs is not None:
            self._lists = lists_of(rows, columns, costs, shape)
        elif shape is not None:
            raise ValueError("a table has a shape of its own")
        elif isinstance(rows, Edges):
            self._lists, self.names = rows.lists, rows.lists.names
        elif type(rows) is fast.ARRAY and decimals is None and missing is None:
            self.table = rows
        else:
            self._take_table(rows, missing)

    @classmethod
    def of_lists(cls, lists, maximize, decimals=None):
        """What is asked of Lists that were looked at before."""
        asked = cls.__new__(cls)
        asked.maximize, asked.decimals, asked.names, asked.table, asked._lists, asked._problem = maximize, decimals, NUMBERS, None, lists, None
        return asked

    def _take_table(self, table, missing):
        # A sparse matrix has no names, and to ask it for some takes longer than to solve a small one.
        is_stored = is_sparse(table)
        values, self.names = (table, NUMBERS) if is_stored else named(table)
        if missing:
            values = without_missing(values, self.maximize)
        if self.decimals is not None or is_stored:
            self._lists = lists_of_matrix(values, self.maximize, self.names)
        else:
            self.table = numbers_of(values)

    # What functools keeps of such is made under one lock for all callers, which a fork may leave locked.
    @property
    def lists(self):
        """The entries, as Lists."""
        if self._lists is None:
            self._lists = lists_of_matrix(self.table, self.maximize, self.names)
        return self._lists

    @property
    def problem(self):
        """The entries and their costs, without a fault."""
        if self._problem is None:
            self._problem = Problem(self.lists, self.maximize, self.decimals)
        return self._problem

    @property
    def sides(self):
        """The numbers of rows and columns."""
        return self.lists.sides if self.table is None else numbers_of(self.table).shape

    @property
    def costs(self):
        """The caller's costs: the table, or those of the entries."""
        return self.lists.costs if self.table is None else self.table

    def plain(self, costs=None):
        """What the extension takes: these costs, or the caller's, as a table or with rows, columns and sides."""
        if self.table is not None:
            return fast.plain(self.table if costs is None else costs)
        if costs is None:
            costs = self.lists.costs if self.decimals is None else self.problem.costs.whole
        return fast.plain(self.lists.rows), fast.plain(self.lists.columns), fast.plain(costs), *self.lists.sides

    def labels(self, rows, columns):
        """The names of pairs, or None where there are none."""
        named = self.names.of(rows, columns)
        return named and list(zip(*named))

    def start_of(self, start):
        """The prices of a start, or None: whole numbers, or floats in the unit of the costs.

        What the library takes for none, an empty list, is a fault.
        """
        if start is None:
            return None
        kept = kept_of(start)
        if kept is not None:
            return kept.prices(self.sides[0] > self.sides[1], max(self.sides), self.names, self.maximize)
        start = whole_numbers(start, "start", *INT64)
        if len(start) != max(self.sides):
            raise ValueError(START_FAULTS[2])
        outside = (start < 0) | (start > HIGHEST_START)
        if outside.any():
            raise ValueError(START_FAULTS[3].format(place=outside.argmax()))
        return fast.plain(start)

    def solution(self, start, bids, words=NO_ASSIGNMENT, watch=None, asks=True):
        """The Solution, under a watch or None. These words begin an Infeasible. `asks` says whether the extension wasn't asked before."""
        if self.decimals is not None and start is not None and start.dtype.kind == "f":
            start = start * self.problem.decimal_scale
        found = self._by_extension(start, bids, watch) if asks else None
        if found is None:
            found = self.problem.solution(start, bids, words, watch)
        elif self.decimals is not None:
            found = self.problem.solution_of_units(found)
        labels = self.labels(found.rows, found.columns)
        return found if labels is None else found._replace(labels=labels)

    def _by_extension(self, start, bids, watch):
        """The Solution, of decimals in whole units, or None."""
        # Decimals are turned already.
        maximize = self.maximize and self.decimals is None
        if watch is not None and watch.progress:
            shown = None if self.decimals is None else self.problem.costs.shown_units
            watch.progress.expect(min(self.sides), maximize, shown)
        return fast.solution_of(self.plain(), maximize, start, bids, watch)

    def check(self, solution):
        """Raises Refused where a Solution isn't least."""
        check_claim(self.problem, solution)

    def pairs(self, bids, words, asks=True):
        """Rows and columns of the least pairs, and Unsettled where a limit ended the search for them. `asks` says whether the extension wasn't asked before."""
        found = fast.found(self.plain(), self.maximize and self.decimals is None, False, None, None, bids) if asks else None
        if found is not None:
            return found
        solution = self.problem.solution(None, bids, words)
        if solution.gap:
            raise Unsettled(solution)
        return solution.rows, solution.columns


def bids_of(bids):
    return bids if bids is USUAL_BIDS else number(bids, "bids", 0, MOST_BIDS)
