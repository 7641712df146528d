"""Problems one after another, each of which is solved from the duals of the one before."""
import typing

from numpy.typing import ArrayLike

from .assignment import solve
from .edges import Edges
from .solution import Solution
from .starts import Kept
from .tables import named


class Solver:
    """Solves problems that are like one another, such as frames, or a table that is changed for a "what if".

    Each answer is that of :func:`solve`. The duals of the last one are where the next search starts from, by names
    where the table has some; else a row or column is the one of the same number. Where they don't fit, as with another
    number of columns, they are dropped. `start` of :func:`solve` says when this takes less time.

    >>> solver, table = sigdorf.Solver(), numpy.array([[4.5, 1], [2, 3]])
    >>> solver.solve(table)
    Solution(cost=3.0, pairs={0: 1, 1: 0})
    >>> table[0, 1] = 9
    >>> solver.solve(table)
    Solution(cost=7.5, pairs={0: 0, 1: 1})
    >>> solver.solve(table[:1])
    Solution(cost=4.5, pairs={0: 0})
    """

    def __init__(self):
        self._kept = None

    def solve(
        self,
        rows: typing.Any,
        columns: ArrayLike | None = None,
        costs: ArrayLike | None = None,
        shape: typing.Sequence[int] | None = None,
        **words: typing.Any,
    ) -> Solution:
        """The Solution of this problem; all arguments are those of :func:`solve`, but for `start`.

        >>> sigdorf.Solver().solve([[1, 2], [1, 4]], maximize=True).cost
        5
        """
        solution = solve(rows, columns, costs, shape, start=self._kept, **words)
        self._kept = Kept(solution, rows.lists.names if isinstance(rows, Edges) else named(rows)[1])
        return solution
