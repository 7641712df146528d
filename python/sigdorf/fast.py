"""The extension `_fast`, where it was built: the one road of tables, matrices and lists.

Without it, and wherever it answers None, the library solves the same as lists of entries, by the same code in C. That
is slower, and Python knows what to say of a fault.
"""
import fractions
import os

import numpy

from .amounts import exact_sum, fraction_of, nearest_float, outer_bound
from .arguments import MOST_ENTRIES
from .library import USUAL_BIDS, address_of
from .solution import Solution
from .waiting import call_waiting
from .whole import priced

# A call of a table with fewer entries, or of a list with fewer, ends so soon that a thread of its own isn't worth its time.
FEWEST, FEWEST_LISTED = 1 << 18, 1 << 15
# That of the extension of these sources; one that was built of others isn't used.
INTERFACE = 10
ARRAY = numpy.ndarray
FLOAT, WHOLE, NATURAL = map(numpy.dtype, ("f8", "i8", "u8"))


def _bound():
    """The extension, or None. The variable SIGDORF_PLAIN has the package go without it."""
    if os.environ.get("SIGDORF_PLAIN"):
        return None
    try:
        from . import _fast
    except ImportError:
        return None
    if getattr(_fast, "INTERFACE", None) != INTERFACE:
        return None
    _fast.bind(address_of("sigdorf_solve_dense_watched"), address_of("sigdorf_solve_watched"))
    return _fast


_extension = _bound()


def is_there():
    """Whether the extension is used."""
    return _extension is not None


def plain(numbers):
    """An array of numbers as one of native doubles or whole numbers of 64 bits, row by row: itself where it is that, or no such array can be made of it.

    The extension reads a table where it lies if it is read-only and owns its memory, and a copy of others.
    """
    kind = numbers.dtype
    if (kind is FLOAT or kind is WHOLE) and numbers.flags.c_contiguous:
        return numbers
    if kind.kind not in "biuf" or numbers.size > MOST_ENTRIES:
        return numbers
    if kind.itemsize > 8:
        return _narrow(numbers)
    try:
        made = numbers.astype(FLOAT if kind.kind == "f" else NATURAL if kind.kind == "u" and kind.itemsize == 8 else WHOLE, order="C", copy=False)
    except (FloatingPointError, RuntimeWarning):
        # A caller has numpy raise where a number that isn't one is met, which is said later.
        return numbers
    if made is not numbers and made.base is None:
        # Nobody else has it, so that the extension needs no copy of it.
        made.flags.writeable = False
    return made


def _narrow(numbers):
    """Long floats as doubles, where nothing is lost."""
    with numpy.errstate(all="ignore"):
        narrow = numbers.astype(FLOAT, order="C")
        return narrow if (narrow == numbers).all() else numbers


def found(problem, maximize, wants_prices, limit=None, start=None, bids=USUAL_BIDS, watch=None):
    """What the extension finds of a plain table, or of (rows, columns, costs, number of rows, number of columns): None where it has to be looked at closer.

    The arrays of the pairs; with a limit their places too, and rows and columns that stay free. Or the parts of a solution, where prices are wanted.
    """
    if _extension is None:
        return None
    is_long = problem[2].size >= FEWEST_LISTED if type(problem) is tuple else problem.size >= FEWEST
    if not is_long and watch is None:
        return _extension.found(problem, maximize, wants_prices, limit, start, bids)
    return call_waiting(is_long, watch, _extension.found, problem, maximize, wants_prices, limit, start, bids)


def found_of_small(table, maximize, wants_prices, bids):
    """What :func:`found` answers of a caller's array, if that is small and the words are plain, and else False: a plain one isn't looked at by Python at all."""
    if _extension is None or table.size >= FEWEST or bids is not USUAL_BIDS or not (maximize is False or maximize is True):
        return False
    answer = _extension.found(table, maximize, wants_prices, None, None, bids)
    if answer is None and (made := plain(table)) is not table:
        answer = _extension.found(made, maximize, wants_prices, None, None, bids)
    return answer


def found_under_limits(tables, limits, maximize, bids, watch=None):
    """What :func:`found` answers of each of some plain tables and its limit, by one call; arrays are slices of longer ones."""
    if _extension is None:
        return [None] * len(tables)
    is_long = any(table.size >= FEWEST for table in tables)
    return call_waiting(is_long, watch, _extension.matched_all, tables, limits, maximize, bids)


def solution_of(problem, maximize, start=None, bids=USUAL_BIDS, watch=None):
    """The Solution of such a problem, or None."""
    parts = found(problem, maximize, True, None, start, bids, watch)
    return None if parts is None else _made(problem, maximize, parts)


def solution_of_small(table, maximize, bids):
    """The Solution of a small array of the caller's, by :func:`found_of_small`, or what that answers in its place."""
    parts = found_of_small(table, maximize, True, bids)
    return _made(table, maximize, parts) if parts else parts


def solutions_of(tables, maximize, watch):
    """The Solution of each plain table of a list, or None in its place."""
    is_long = any(table.size >= FEWEST for table in tables)
    all_parts = call_waiting(is_long, watch, _extension.found_all, tables, maximize)
    return [None if parts is None else _made(table, maximize, parts) for table, parts in zip(tables, all_parts)]


def _made(problem, maximize, parts):
    """The Solution of what the extension has found."""
    (rows, columns, places), costs, prices, unit, total, total_unit, shown, gap, gap_unit = parts
    sides = problem[3:] if type(problem) is tuple else problem.shape
    if total is None:
        exact = exact_sum(costs)
    else:
        exact = fraction_of(total, total_unit)
    if shown is None:
        shown = nearest_float(exact)
    if type(prices) is tuple:
        prices, scale = priced(len(rows), max(sides), prices, True)
    else:
        prices, scale = numpy.array(prices, object) if type(prices) is list else prices, (len(rows) + 1) << unit
    bound = shown
    if gap:
        gap = fractions.Fraction(gap) / fractions.Fraction(2) ** gap_unit
        bound = outer_bound(exact + gap if maximize else exact - gap, maximize, type(shown) is int)
    return Solution._make((rows, columns, places, shown, bound, prices, scale, exact, gap or 0, None, costs, sides, maximize))
