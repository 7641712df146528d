"""Assignments of rows to columns."""
import time
import typing

from numpy.typing import ArrayLike

from . import fast
from .asked import bids_of
from .library import USUAL_BIDS
from .restricted import asked_of
from .solution import Solution
from .waiting import watch_of

# Rows and columns by numbers, or by names where the table has them.
Pairs = typing.Iterable[tuple[typing.Any, typing.Any]]


def solve(
    rows: typing.Any,
    columns: ArrayLike | None = None,
    costs: ArrayLike | None = None,
    shape: typing.Sequence[int] | None = None,
    *,
    maximize: bool = False,
    decimals: int | None = None,
    missing: typing.Literal["forbidden"] | None = None,
    forced: Pairs | None = None,
    forbidden: Pairs | None = None,
    capacity: int | ArrayLike | None = None,
    start: Solution | ArrayLike | None = None,
    bids: int = USUAL_BIDS,
    seconds: float | None = None,
    progress: typing.Callable[[typing.Any, typing.Any], typing.Any] | None = None,
) -> Solution:
    """An assignment of least cost where `is_optimal` says so, else the best that a limit allowed, and a bound.

    Look at `is_optimal` of the :class:`Solution`: where it is False, a limit ended the search, and another assignment
    may cost less, down to `bound`. Where it is True, the prices of the solution show that none does. A limit is that of
    bids, of time, or with more than 33,000 rows that of prices, 2^61 on the scale of whole costs times rows + 1.

    Entry k says that row rows[k] may have column columns[k] at costs[k]. Each row gets a column, or where there are
    more rows than columns each column a row, none twice. The search of a first assignment takes O(rows * entries) time
    at most, mostly far less. The solver is the direct one, as the program's with --direct; the numbers of rows and
    columns may be unequal.

    rows, columns: int arrays of one length, from 0; a pair may appear twice.
    costs: int or float array of the same length, of at most 64 bits a number. Each counts exactly as it is: no
        assignment has a smaller sum, of all digits that these numbers have. Costs that are no whole numbers to 10^9
        take a few searches in place of one.
    shape: numbers of rows and of columns; where it is left out, one more than the greatest of each. There may be
        4,194,304 of each, and 268,435,456 entries.
    maximize: whether the most is wanted.
    decimals: 0 to 9, for floats that mean decimal numbers: what counts is costs * 10^decimals, which must be whole
        numbers to 10^9 in magnitude, and a float must be the one nearest to such a number, of its own type.
    missing: "forbidden" makes no entries of a table's cells that are NaN, or missing; where it is left out, such cells
        are a fault.
    forced, forbidden: lists of pairs (row, column), by numbers, or by names where the table has them: the assignment
        has each forced pair, and no forbidden one. A forced pair is an entry.
    capacity: how many rows a column may take, a whole number or a list with one of each column. Each row gets a column
        then, and a column appears in the solution as often as it is taken.
    start: an earlier Solution of a problem like this one, of any costs, from whose duals the search begins. Square
        tables of 400 rows took 0.4 to 1.1 of the time, 1.2 from another problem's duals. Where its duals don't fit,
        as of another number of columns, it is dropped. Or prices from
        0 to 2^60, on the scale of whole costs times the smaller side + 1 (of decimals, 10^decimals times that); they
        may be wrong. :class:`Solver` does this for problems that follow one another.
    bids: how many bids a phase may take, from 0 to 2^64 - 1. The usual 10^8 are 1,000 for each of the smaller side where
        that is more.
    seconds: a limit of time, from 0. After it comes what was found by then: no fault, but a solution whose
        `is_optimal` is False. An answer takes as long as it takes to read the entries and to find any assignment,
        whatever the limit. docs/PYTHON.md says how late it may be.
    progress: is called with a bound and a cost, while the search runs each time that one of them is better, and at the
        end with those of the solution. What it raises ends the search.

    In place of the lists there may be one table: a matrix, dense (what is infinite is no entry) or sparse (what isn't
    stored is none), or a table with `index`, `columns` and `to_numpy`, such as pandas' DataFrame, or :class:`Edges`,
    whose names are in the solution's `labels` and in every fault.

    Raises Infeasible where there is no full assignment, ValueError where an argument is at fault (a masked array among
    them), and MemoryError. KeyboardInterrupt ends a long search at once.

    >>> solution = sigdorf.solve([0, 0, 1, 1], [0, 1, 0, 1], [1, 2.5, 1, 4])
    >>> solution.rows.tolist(), solution.columns.tolist(), solution.cost
    ([0, 1], [1, 0], 3.5)
    >>> sigdorf.solve([[1, 2], [1, 4], [1, 3]], forced=[(0, 1)], capacity=2)
    Solution(cost=4, pairs={0: 1, 1: 0, 2: 0})
    """
    is_table = type(rows) is fast.ARRAY and columns is costs is shape is None
    has_no_words = decimals is missing is forced is forbidden is capacity is start is seconds is progress is None
    found = False
    if is_table and has_no_words:
        # The same road, some steps shorter, since these calls end so soon.
        found = fast.solution_of_small(rows, maximize, bids)
    if found:
        return found
    began = time.monotonic_ns()
    asked = asked_of(rows, columns, costs, shape, maximize, decimals, missing, forced, forbidden, capacity)
    start, bids = asked.start_of(start), bids_of(bids)
    watch = watch_of(seconds, progress, asked.maximize, began)
    solution = asked.solution(start, bids, watch=watch) if found is False else asked.solution(start, bids, asks=False)
    if progress is not None:
        watch.progress.end(solution)
    return solution


def check(
    solution: Solution,
    rows: typing.Any,
    columns: ArrayLike | None = None,
    costs: ArrayLike | None = None,
    shape: typing.Sequence[int] | None = None,
    *,
    maximize: bool = False,
    decimals: int | None = None,
    missing: typing.Literal["forbidden"] | None = None,
    forced: Pairs | None = None,
    forbidden: Pairs | None = None,
    capacity: int | ArrayLike | None = None,
) -> None:
    """Raises :class:`Refused` where a solution isn't an assignment than which none costs less, as its prices show.

    The other arguments are those of :func:`solve`, and a ValueError says which one is at fault. Whoever found the
    solution is not trusted: type, length and range of each of its parts are looked at, and each number exactly; nothing
    of the solver is used. What a limit has ended (`is_optimal` is False) is refused. O(entries) time. An assignment
    without prices is what :func:`certify` takes.

    >>> table = [[1, 2], [1, 4]]
    >>> sigdorf.check(sigdorf.solve(table), table)
    >>> sigdorf.check(sigdorf.solve(table), [[0, 2], [1, 4]])
    Traceback (most recent call last):
        ...
    sigdorf.faults.Refused: number 0 has a better entry at these prices
    """
    asked_of(rows, columns, costs, shape, maximize, decimals, missing, forced, forbidden, capacity).check(solution)
