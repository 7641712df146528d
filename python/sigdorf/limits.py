"""What rows and columns cost that stay free, as entries of a problem in which nobody is free."""
import numpy

from .arguments import MOST_OBJECTS, array_of, attempt
from .problem import Lists


def is_listed(limit):
    """Whether a limit is a list of them."""
    # To ask a number for its length takes as long as all else of a small call.
    return not isinstance(limit, (float, int, str, bytes)) and attempt(len, limit) is not None


def limits_of(given, count, name, side):
    """A limit of each row or column, of one for all or of one of each."""
    limits = array_of(given, name, MOST_OBJECTS)
    if limits.ndim == 0:
        limits = numpy.full(count, limits)
    if limits.shape != (count,) or limits.dtype.kind not in "iuf" or not numpy.isfinite(limits).all():
        raise ValueError(f"{name} must be a finite number, or a list with one of each {side}")
    return limits


def in_one_type(*numbers):
    """Costs and limits as numbers of one type, of which none is rounded."""
    kind = numpy.float64 if any(part.dtype.kind == "f" for part in numbers) else numpy.int64
    with numpy.errstate(all="ignore"):
        turned = [part.astype(kind) for part in numbers]
        # Long whole numbers without a sign are negative where they are too long.
        are_same = all(
            numpy.array_equal(new.astype(old.dtype), old) and ((new < 0) == (old < 0)).all()
            for new, old in zip(turned, numbers)
        )
    if not are_same:
        raise ValueError(
            "costs and limits must be whole numbers below 2^63 all, or floats of 64 bits without being rounded"
        )
    return turned


def with_outlets(persons, objects, costs, limits, count):
    """The Lists of entries of so many objects, with an outlet of each person's own that costs his limit."""
    mine = numpy.arange(len(limits))
    return Lists(
        numpy.concatenate([persons, mine]),
        numpy.concatenate([objects, count + mine]),
        numpy.concatenate([costs, limits]),
        (len(mine), count + len(mine)),
    )


def with_all_outlets(lists, costs, limits, column_limits):
    """The Lists of entries, with an outlet of each row's own and of each column's.

    The outlets of a row and a column are a pair for nothing where these are a pair.
    """
    row, column = map(numpy.arange, lists.sides)
    return Lists(
        numpy.concatenate([lists.rows, row, len(row) + column, len(row) + lists.columns]),
        numpy.concatenate([lists.columns, len(column) + row, column, len(column) + lists.rows]),
        numpy.concatenate([costs, limits, column_limits, numpy.zeros_like(costs)]),
        (sum(lists.sides),) * 2,
    )
