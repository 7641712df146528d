"""Calls with the names and answers of the packages `lap` and `lapx`, for programs that change an import alone."""
import math

import numpy
from numpy.typing import ArrayLike

from .amounts import exact_sum, nearest_float
from .arguments import MOST_PERSONS, number, truth, whole_numbers
from .assignment import solve
from .gated import match
from .scipy_calls import linear_sum_assignment


def lapjv(cost: ArrayLike, extend_cost: bool = False, cost_limit: float = math.inf, return_cost: bool = True) -> tuple:
    """As the call of this name of the package `lap`: the sum, the column of each row, the row of each column, or -1.

    cost: a matrix; as many rows as columns, unless `extend_cost` is True. What is infinite is no pair.
    cost_limit: no pair dearer than this is made; see :func:`match`.
    return_cost: whether the sum is wanted; else the two arrays of int32 alone are answered.

    Raises Infeasible where there is no limit and no full assignment, and what :func:`match` does.

    >>> total, of_row, of_column = sigdorf.lapjv([[1.0, 9.0], [9.0, 8.0]], cost_limit=2.0)
    >>> total, of_row.tolist(), of_column.tolist()
    (1.0, [0, -1], [0, -1])
    """
    matrix, rows, columns = _solved(cost, extend_cost, cost_limit)
    return _answer(return_cost, matrix[rows, columns], *_of_each(rows, columns, matrix.shape))


def lapjvx(cost: ArrayLike, extend_cost: bool = False, cost_limit: float = math.inf, return_cost: bool = True) -> tuple:
    """As the call of this name of the package `lapx`: the sum, and the rows and columns of the pairs.

    The arguments are those of :func:`lapjv`.

    >>> total, rows, columns = sigdorf.lapjvx([[1.0, 9.0], [9.0, 8.0]], cost_limit=2.0)
    >>> total, rows.tolist(), columns.tolist()
    (1.0, [0], [0])
    """
    matrix, rows, columns = _solved(cost, extend_cost, cost_limit)
    return _answer(return_cost, matrix[rows, columns], rows, columns)


def lapjvxa(
    cost: ArrayLike, extend_cost: bool = False, cost_limit: float = math.inf, return_cost: bool = True
) -> tuple | numpy.ndarray:
    """As the call of this name of the package `lapx`: the sum, and an array with a row and a column for each pair.

    The arguments are those of :func:`lapjv`.

    >>> total, pairs = sigdorf.lapjvxa([[1.0, 9.0], [9.0, 8.0]])
    >>> total, pairs.tolist()
    (9.0, [[0, 0], [1, 1]])
    """
    matrix, rows, columns = _solved(cost, extend_cost, cost_limit)
    return _answer(return_cost, matrix[rows, columns], numpy.column_stack([rows, columns]))


def lapjvc(cost: ArrayLike, return_cost: bool = True) -> tuple:
    """As the call of this name of the package `lapx`: :func:`lapjvx` of a matrix of any shape, without a limit.

    >>> total, rows, columns = sigdorf.lapjvc([[3, 1, 2]])
    >>> total, rows.tolist(), columns.tolist()
    (1.0, [0], [1])
    """
    return lapjvx(cost, True, math.inf, return_cost)


def lapmod(
    n: int,
    cc: ArrayLike,
    ii: ArrayLike,
    kk: ArrayLike,
    fast: bool = True,
    return_cost: bool = True,
    fp_version: int = 0,
) -> tuple:
    """As the call of this name of the package `lap`, for sparse matrices: what :func:`lapjv` answers.

    n: the number of rows, and of columns.
    cc, ii, kk: the costs row by row, n + 1 places in them where rows begin, the last one where all end, and the column
        of each cost.
    fast, fp_version: ways of lap's own method, by which no answer differs.

    Raises Infeasible where there is no full assignment, and ValueError where an argument is at fault.

    >>> total, of_row, of_column = sigdorf.lapmod(2, [4, 1, 3], [0, 2, 3], [0, 1, 0])
    >>> total, of_row.tolist(), of_column.tolist()
    (4.0, [1, 0], [1, 0])
    """
    n, begins, costs = number(n, "n", 0, MOST_PERSONS), whole_numbers(ii, "ii", 0, 2**32), numpy.asarray(cc)
    counts = numpy.diff(begins)
    if len(begins) != n + 1 or begins[0] != 0 or (counts < 0).any() or costs.shape != (begins[-1],):
        raise ValueError("ii must be n + 1 places in cc, from 0 to its end, and none before the one in front of it")
    solution = solve(numpy.repeat(numpy.arange(n), counts), kk, costs, (n, n))
    return _answer(return_cost, solution.costs, *_of_each(solution.rows, solution.columns, (n, n)))


def _solved(cost, extend_cost, cost_limit):
    """The matrix, and the rows and columns of its least pairs."""
    matrix = numpy.asarray(cost)
    if matrix.ndim != 2:
        raise ValueError("2-dimensional array expected")
    if matrix.shape[0] != matrix.shape[1] and not truth(extend_cost, "extend_cost"):
        raise ValueError("Square cost array expected. If cost is intentionally non-square, pass extend_cost=True.")
    return matrix, *(linear_sum_assignment(matrix) if cost_limit == math.inf else match(matrix, cost_limit)[:2])


def _of_each(rows, columns, shape):
    """The column of each row and the row of each column, or -1."""
    of_row, of_column = (numpy.full(side, -1, numpy.int32) for side in shape)
    of_row[rows], of_column[columns] = columns, rows
    return of_row, of_column


def _answer(return_cost, costs, *parts):
    """The parts, after the sum where it is wanted."""
    if not truth(return_cost, "return_cost"):
        return parts if len(parts) > 1 else parts[0]
    return nearest_float(exact_sum(costs.astype(numpy.float64) if costs.dtype.kind == "f" else costs)), *parts
