"""The C library, by ctypes: each call with arrays that are right by construction."""
import ctypes
import fractions
import os
import pathlib
import typing

import numpy

from .arguments import MOST_ENTRIES, MOST_OBJECTS, MOST_PERSONS
from .faults import Refused
from .waiting import call_waiting

ARC = numpy.dtype([("cost", "<i8"), ("person", "<u4"), ("object", "<u4")])
OPTIMAL, SIZES, INFEASIBLE, BRACKET, REFUSED, MEMORY = 0, 2, 3, 4, 5, 6
INVALID = INFEASIBLE
# Of a phase; c/levels takes more for millions of persons, each of whom may bid in it.
USUAL_BIDS = 100_000_000
# A call with fewer entries ends so soon that a thread of its own isn't worth its time.
FEWEST = 2_000
LIST_FAULTS = {
    1: f"the smaller side of the problem must number 1 to {MOST_PERSONS:,}",
    2: f"the larger side of the problem must number {MOST_OBJECTS:,} at most",
    3: f"there are more than {MOST_ENTRIES:,} entries",
    4: "entry {place} names a row or column that the shape doesn't have",
    5: "entry {place} names a row or column that the shape doesn't have",
    6: "the cost of entry {place} is beyond 10^9 in magnitude, scaled",
}
# Costs of 64 bits by their kind, as c/levels has them.
TYPES = {"f": b"d", "i": b"q", "u": b"Q"}
START_FAULTS = {
    2: "a start has a price for each column, or for each row where there are more rows",
    3: "the price {place} of the start is not from 0 to 2^60",
}
OTHER_SIZE = "the solution is not of the size of the problem"
CLAIM_FAULTS = {
    1: "entry number {place} of the solution is no entry of its row",
    2: "a number of the solution is out of range",
    3: "number {place} is taken twice",
    4: "the cost is not the sum of the entries",
    5: "number {place} has a better entry at these prices",
    6: "number {place} is left over and has a price",
    7: "the set doesn't lead to fewer than it numbers",
}


class Found(ctypes.Structure):
    _fields_ = [(name, ctypes.c_int64) for name in ("cost", "lower")] + [(name, ctypes.c_uint32) for name in ("persons", "objects", "kind", "place")]
    _fields_ += [("reserved", 4 * ctypes.c_uint64)]


class Watched(ctypes.Structure):
    _fields_ = [("until", ctypes.c_int64), *((name, ctypes.c_int32) for name in ("stop", "progress")), *((name, ctypes.c_uint32) for name in ("stopped", "asked"))]


class Levels(ctypes.Structure):
    """What a search of any costs has found: python_found of c/python.c, but for what nobody reads here."""

    _fields_ = [
        *((name, ctypes.c_void_p) for name in ("places", "hall_persons", "hall_objects", "prices", "changes", "units")),
        ("levels", ctypes.c_size_t),
        ("gap", ctypes.c_int64),
        *((name, ctypes.c_int32) for name in ("status", "unit", "gap_unit", "are_whole")),
        *((name, ctypes.c_uint32) for name in ("kind", "place", "persons", "objects")),
    ]


class Answer(typing.NamedTuple):
    """An assignment, and its prices."""

    places: numpy.ndarray
    """The place of each pair's entry, by rising rows: int64."""
    levels: list
    """Of prices, as :func:`~.whole.priced` takes them."""
    are_whole: bool
    """Whether these are in units of the costs, and not in parts of one."""
    gap: fractions.Fraction
    """What the costs are above the least at most, in the unit of the costs: 0 but where a limit ended the search."""


class NoAssignment(Exception):
    """All entries of these persons lead to these objects, which are fewer."""

    def __init__(self, persons, objects):
        super().__init__(persons, objects)
        self.persons, self.objects = persons, objects


NO_WATCH = 0, -1, -1
# The calls that the package makes.
CALLS = "sigdorf_python_solve", "sigdorf_solve_watched", "sigdorf_solve_dense_watched", "sigdorf_check"


def _path():
    """The library that SIGDORF_LIBRARY names, or the one beside this module, or the one that `c/build` has made, or an installed one."""
    named = os.environ.get("SIGDORF_LIBRARY")
    if named:
        return named
    here = pathlib.Path(__file__).resolve()
    for path in (here.with_name("libsigdorf.so"), here.parents[2] / "c" / "out" / "libsigdorf.so"):
        if path.exists():
            return str(path)
    return "libsigdorf.so.1"


PATH = _path()


def _load():
    try:
        library = ctypes.CDLL(PATH)
    except OSError as fault:
        raise ImportError(f"libsigdorf.so can't be loaded: make it by c/build, install it, or name it in the variable SIGDORF_LIBRARY ({fault})") from None
    missing = [name for name in CALLS if not hasattr(library, name)]
    if missing:
        raise ImportError(f"{PATH} is older than this package: it has no {missing[0]}; make it by c/build, or name another one in the variable SIGDORF_LIBRARY")
    number, pointer, size, bids = ctypes.c_uint32, ctypes.c_void_p, ctypes.c_size_t, ctypes.c_uint64
    found, levels, watch = map(ctypes.POINTER, (Found, Levels, Watched))
    lists = [number, number, *[pointer] * 3, size, ctypes.c_char]
    library.sigdorf_python_solve.argtypes = [*lists, ctypes.c_int, pointer, pointer, bids, watch]
    library.sigdorf_python_solve.restype = levels
    library.sigdorf_python_end.argtypes, library.sigdorf_python_end.restype = [levels], None
    library.sigdorf_check.argtypes = [number, number, pointer, size, *[pointer, size] * 2, ctypes.c_int64, found]
    library.sigdorf_check.restype = ctypes.c_int32
    return library


_library = _load()


def version():
    """The version of the library that was loaded."""
    call = _library.sigdorf_version
    call.restype = ctypes.c_char_p
    return call().decode()


def address_of(name):
    """Where a call of the library is."""
    return ctypes.cast(getattr(_library, name), ctypes.c_void_p).value


def _own(numbers, kind):
    """Numbers as C takes them: one after another, of this type, and in memory that no other thread writes meanwhile."""
    return numpy.array(numbers, kind, order="C")


def _passed(*arrays):
    """Pointers and lengths, as C takes them."""
    return [word for array in arrays for word in (array.ctypes.data, len(array))]


def _refuse(status, found):
    if status == REFUSED:
        raise ValueError(LIST_FAULTS[found.kind].format(place=found.place))
    if status == MEMORY:
        raise MemoryError
    raise AssertionError(f"the library answered {status}")


def solve_entries(entries, sides, maximize, start, bids, watch=None):
    """The Answer to rows, columns and costs: int64, int64, and float64, int64 or uint64. Raises NoAssignment.

    start: a price of each of the larger side, whole ones in units of whole costs times persons + 1 or floats in the
    unit of the costs, or None; watch: a Watch, or None.
    """
    rows, columns, costs = entries
    own = _own(rows, numpy.int64), _own(columns, numpy.int64), _own(costs, f"{costs.dtype.kind}8")
    starts = [None if start is None or start.dtype.kind != kind else _own(start, f"{kind}8") for kind in "if"]
    return call_waiting(len(costs) >= FEWEST, watch, _solve, own, sides, maximize, starts, bids)


def _solve(own, sides, maximize, starts, bids, watch):
    costs, watched = own[2], ctypes.byref(Watched(*(watch or NO_WATCH)))
    lists = *sides, *(part.ctypes.data for part in own), len(costs), TYPES[costs.dtype.kind]
    prices = (None if start is None else start.ctypes.data for start in starts)
    found = _library.sigdorf_python_solve(*lists, maximize, *prices, bids, watched)
    if not found:
        raise MemoryError
    try:
        return _taken(found.contents, sides)
    finally:
        _library.sigdorf_python_end(found)


def _taken(found, sides):
    """The Answer that was found."""
    if found.status == INFEASIBLE:
        halls = (found.hall_persons, found.persons), (found.hall_objects, found.objects)
        raise NoAssignment(*(_copied(side, numpy.uint32, count).astype(numpy.int64) for side, count in halls))
    if found.status not in (OPTIMAL, BRACKET):
        _refuse(found.status, found)
    units = _copied(found.units, numpy.int32, found.levels).tolist()
    changes = _copied(found.changes, numpy.int64, found.levels, max(sides))
    levels = [(_copied(found.prices, numpy.int64, max(sides)), found.unit), *zip(changes, units)]
    gap = fractions.Fraction(found.gap) / fractions.Fraction(2) ** found.gap_unit
    return Answer(_copied(found.places, numpy.int64, min(sides)), levels, bool(found.are_whole), gap)


def _copied(address, kind, *shape):
    """A copy of an array of the library's."""
    copy = numpy.empty(shape, kind)
    ctypes.memmove(copy.ctypes.data, address, copy.nbytes)
    return copy


def check_arcs(persons, objects, arcs, choice, prices, cost):
    """Raises Refused where the claim doesn't pass: the place of an arc of each person, a price of each object, and a cost."""
    choice, prices, found = _own(choice, numpy.uint32), _own(prices, numpy.int64), Found()
    status = _library.sigdorf_check(persons, objects, *_passed(arcs, choice, prices), cost, ctypes.byref(found))
    if status == INVALID:
        raise Refused(CLAIM_FAULTS[found.kind].format(place=found.place))
    if status == SIZES:
        raise Refused(OTHER_SIZE)
    if status != OPTIMAL:
        _refuse(status, found)
