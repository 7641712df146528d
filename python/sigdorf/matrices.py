"""Matrices of a caller, dense or sparse, as Lists of entries."""
import numpy

from .arguments import MOST_ENTRIES, MOST_OBJECTS, array_of, attempt, sides_of, whole_numbers
from .costs import KINDS, look_at_rounding
from .faults import Mistyped
from .library import LIST_FAULTS
from .problem import Lists, look_at_sides
from .tables import NUMBERS

# The sparse formats that store what the caller has put there; others fill up with zeros, or leave some out.
FORMATS = ("coo", "csc", "csr", "dok", "lil")


def is_sparse(matrix):
    """Whether a matrix is one of SciPy's sparse ones, or goes by their names."""
    return attempt(lambda given: given.tocoo, matrix) is not None


def lists_of_matrix(matrix, maximize, names=NUMBERS):
    """The Lists of a matrix: of a sparse one what is stored, of a dense one all, and of both what isn't infinite.

    A ValueError tells a row and a column by these names.
    """
    none = -numpy.inf if maximize else numpy.inf
    return _stored(matrix, none, names) if is_sparse(matrix) else _dense(matrix, none, names)


def _stored(matrix, none, names):
    """The entries of a sparse matrix, whose parts are looked at as those of any caller. One that is stored twice is the sum."""
    if attempt(lambda given: given.format in FORMATS, matrix) is not True:
        raise ValueError(f"a sparse matrix must be of a format that stores its entries alone: {', '.join(FORMATS)}")
    shape = sides_of(attempt(lambda given: given.shape, matrix))
    look_at_sides(shape)
    parts = _compressed(matrix, shape) if matrix.format == "csr" else _listed(matrix, shape)
    rows, columns, costs = _summed(*parts, shape)
    is_entry = _are_entries(costs, none, lambda place: names.told(rows[place], columns[place]))
    lists = Lists(rows, columns, costs, shape, names)
    return lists if is_entry is None else lists.where(is_entry)


def _compressed(matrix, shape):
    """Rows, columns and costs of a matrix by rows, or what another way makes of it where its parts are no such arrays."""
    parts = attempt(lambda given: (given.indptr, given.indices, given.data), matrix)
    are_arrays = parts is not None and all(type(part) is numpy.ndarray and part.ndim == 1 for part in parts)
    if not are_arrays or parts[0].dtype.kind != "i" or parts[1].dtype.kind != "i" or parts[2].dtype.kind not in KINDS or len(parts[0]) != shape[0] + 1:
        return _listed(matrix, shape)
    counts, stored = parts[0][1:] - parts[0][:-1], len(parts[2])
    if stored > MOST_ENTRIES or len(parts[1]) != stored or shape[0] and (parts[0][0] != 0 or parts[0][-1] != stored or counts.min() < 0):
        return _listed(matrix, shape)
    columns = parts[1].astype(numpy.int64)
    # A negative one is a great one without a sign.
    if stored and columns.view(numpy.uint64).max() >= shape[1]:
        return _listed(matrix, shape)
    return numpy.arange(shape[0]).repeat(counts), columns, parts[2]


def _listed(matrix, shape):
    """Rows, columns and costs of a matrix of any of the formats."""
    entries = attempt(lambda given: given.tocoo(copy=False), matrix)
    parts = attempt(lambda given: (given.row, given.col, given.data), entries)
    if parts is None:
        raise ValueError("the sparse matrix has faults in it, so that its entries can't be listed")
    rows, columns = (whole_numbers(part, f"{name} indices of the matrix", 0, side - 1) for part, name, side in zip(parts, ("row", "column"), shape))
    costs = array_of(parts[2], "the matrix", MOST_ENTRIES)
    if costs.dtype.kind not in KINDS:
        raise Mistyped(f"expected a matrix containing numerical entries, got {costs.dtype}")
    if costs.ndim != 1 or not len(rows) == len(columns) == len(costs):
        raise ValueError("the sparse matrix must have a number for each of its entries")
    return rows, columns, costs


def _summed(rows, columns, costs, shape):
    """The entries by rows and columns, with one of each pair: the sum, which a type of few bits might not hold. What is sorted isn't sorted again."""
    places = rows * shape[1] + columns
    if (places[1:] > places[:-1]).all():
        return rows, columns, costs
    order = numpy.argsort(places, kind="stable")
    rows, columns, costs, places = rows[order], columns[order], costs[order], places[order]
    firsts = numpy.flatnonzero(numpy.diff(places, prepend=-1))
    if len(firsts) == len(rows):
        return rows, columns, costs
    with numpy.errstate(all="ignore"):
        return rows[firsts], columns[firsts], numpy.add.reduceat(_wide(costs), firsts)


def _wide(costs):
    """Costs of a type that holds the sums of those that are stored twice. Sums of floats are rounded, as ever."""
    if costs.dtype.kind == "f":
        return costs.astype(numpy.result_type(costs.dtype, numpy.float64))
    if costs.size and max(-int(costs.min()), int(costs.max())) * len(costs) >= 2**63:
        raise ValueError("the matrix has entries that are stored twice, and sums of these may be beyond 64 bits")
    return costs.astype(numpy.int64)


def numbers_of(matrix):
    """A dense matrix as an array of numbers."""
    numbers = array_of(matrix, "the matrix", MOST_OBJECTS)
    if numbers.dtype.kind not in KINDS:
        raise Mistyped(f"Cannot cast array data from {numbers.dtype!r} to dtype('float64') according to the rule 'safe'")
    if numbers.ndim != 2:
        raise ValueError(f"expected a matrix (2-D array), got a {numbers.ndim} array")
    look_at_sides(numbers.shape)
    look_at_rounding(matrix, numbers)
    return numbers


def without_missing(matrix, maximize):
    """A dense matrix in which NaN is no entry."""
    if is_sparse(matrix):
        raise ValueError("missing is of dense tables alone: what a sparse one doesn't store is no entry")
    numbers = numbers_of(matrix)
    if numbers.dtype.kind != "f":
        return numbers
    return numpy.where(numpy.isnan(numbers), numbers.dtype.type(-numpy.inf if maximize else numpy.inf), numbers)


def _dense(matrix, none, names):
    numbers = numbers_of(matrix)
    is_entry = _are_entries(numbers, none, lambda place: names.told(*divmod(place, numbers.shape[1])))
    # Lists of entries take far more memory than a matrix may.
    if (numbers.size if is_entry is None else numpy.count_nonzero(is_entry)) > MOST_ENTRIES:
        raise ValueError(LIST_FAULTS[3])
    if is_entry is None:
        rows, columns = numpy.indices(numbers.shape).reshape(2, -1)
        return Lists(rows, columns, numbers.ravel(), numbers.shape, names)
    rows, columns = numpy.nonzero(is_entry)
    return Lists(rows, columns, numbers[rows, columns], numbers.shape, names)


def _are_entries(costs, none, told):
    """Which costs are entries, or None where all are: those of floats that aren't the infinite one. A ValueError names the first that is none at all."""
    if costs.dtype.kind != "f" or numpy.isfinite(costs).all():
        return None
    with numpy.errstate(all="ignore"):
        is_entry = costs != none
        is_number = (costs != -none) & (costs == costs)
    if not is_number.all():
        place = int(numpy.argmin(is_number))
        cost = costs.ravel()[place]
        way_out = "; where that is no entry, solve and match take missing='forbidden'" if cost != cost else ""
        raise ValueError(f"matrix contains invalid numeric entries: {told(place)} has {cost}{way_out}")
    return is_entry
