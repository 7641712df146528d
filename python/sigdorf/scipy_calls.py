"""Calls with the names, answers, faults and words of SciPy's, for programs that change an import alone. Their costs count exactly."""
import typing
import warnings

import numpy

from . import fast
from .asked import Asked, bids_of
from .faults import Mistyped
from .library import USUAL_BIDS
from .matrices import is_sparse


def linear_sum_assignment(
    cost_matrix: typing.Any, maximize: bool = False, *, decimals: int | None = None, bids: int = USUAL_BIDS
) -> tuple[numpy.ndarray, numpy.ndarray]:
    """As SciPy's call of this name: row_ind and col_ind of the assignment of least cost, and of no other.

    cost_matrix: an array of two dimensions, in which an infinite cost is no entry, or a sparse matrix or array (coo, csc, csr, dok, lil), in
        which what isn't stored is none. A masked array is refused.
    `maximize`, `decimals` and `bids` are those of :func:`solve`.

    Raises what :func:`solve` does, and Unsettled where a limit ended the search before the least cost was found. A cost that is NaN or
    infinite the other way is a ValueError, and a matrix of what aren't numbers a :class:`~.faults.Mistyped`.

    >>> sigdorf.linear_sum_assignment([[4, 1, 3], [2, 0, 5], [3, 2, 2]])
    (array([0, 1, 2]), array([1, 0, 2]))
    """
    found = False
    if type(cost_matrix) is fast.ARRAY and decimals is None:
        # The same road, some steps shorter, since these calls end so soon.
        found = fast.found_of_small(cost_matrix, maximize, False, bids)
    if found:
        return found
    bids = bids_of(bids)
    asked = Asked(cost_matrix, None, None, None, maximize, decimals)
    return asked.pairs(bids, "cost matrix is infeasible", found is False)


def min_weight_full_bipartite_matching(
    biadjacency: typing.Any, maximize: bool = False, *, decimals: int | None = None, bids: int = USUAL_BIDS
) -> tuple[numpy.ndarray, numpy.ndarray]:
    """As SciPy's call of this name, for a sparse matrix or array: row_ind and col_ind of the full matching of least weight, and of no other.

    Stored zeros are no entries here, and a warning says so; to :func:`solve` and :func:`linear_sum_assignment` they are. Stored infinities are
    none either. Raises what :func:`linear_sum_assignment` does.

    >>> sigdorf.min_weight_full_bipartite_matching(scipy.sparse.csr_matrix([[4, 1, 0], [2, 0, 5], [3, 2, 2]]))
    (array([0, 1, 2]), array([1, 0, 2]))
    """
    if not is_sparse(biadjacency):
        raise Mistyped("graph must be in CSC, CSR, or COO format, and this one isn't sparse.")
    asked = Asked(biadjacency, None, None, None, maximize, decimals)
    if not asked.lists.costs.all():
        warnings.warn("explicit zero weights are removed before matching.", stacklevel=2)
        asked = Asked.of_lists(asked.lists.where(asked.lists.costs != 0), asked.maximize, asked.decimals)
    return asked.pairs(bids_of(bids), "no full matching exists")
