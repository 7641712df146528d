"""The best pairs of many tables under limits: the extension takes some dozens of arrays in one call."""
import collections.abc
import typing

from numpy.typing import ArrayLike

from . import fast
from .arguments import truth
from .asked import bids_of
from .faults import note
from .gated import Match, as_limit, costs_at, gap_of, limit_of, match_by
from .library import USUAL_BIDS
from .limits import is_listed
from .waiting import time_limit

# The extension solves so many arrays in one call, with so many entries together, so that Ctrl-C waits for few of them.
MOST_TOGETHER, MOST_ENTRIES = 64, 50_000


def match_many(
    tables: collections.abc.Iterable[typing.Any],
    limit: float | collections.abc.Sequence[float | ArrayLike] | ArrayLike,
    *,
    maximize: bool = False,
    missing: typing.Literal["forbidden"] | None = None,
    bids: int = USUAL_BIDS,
    seconds: float | None = None,
) -> list[Match | None]:
    """The Match of each table, in their order: what :func:`match` answers of each, sooner where they are small arrays.

    tables: of each what :func:`match` takes: a table, or a tuple of lists (rows, columns, costs, and a shape or none).
        An array of three dimensions is many tables.
    limit: one for all tables, or a list with one of each: a number, or a list with one of each of its rows.
    maximize, missing, bids: those of :func:`match`, for all tables.
    seconds: a limit of time for all tables together, from 0. What is under way then is answered as by :func:`match`,
        which `is_optimal` tells; no other table is begun, and in its place stands None.

    It starts no threads, and gives up the interpreter's lock for tables of 2,000 entries together.

    Raises what :func:`match` does, of a table that is at fault, with a note that has its number, from 0; the others are
    given up.

    >>> frames = [[[1.0, 9.0], [9.0, 0.5]], [[3.0, 9.0, 0.25]]]
    >>> sigdorf.match_many(frames, 2.0)
    [Match(pairs={0: 0, 1: 1}, free_rows=[], free_columns=[]), Match(pairs={0: 2}, free_rows=[], free_columns=[0, 1])]
    >>> [found.rows.tolist() for found in sigdorf.match_many(frames, [0.75, 0.125])]
    [[1], []]
    >>> sigdorf.match_many(frames, 2.0, seconds=0)
    [None, None]
    """
    watch, tables = time_limit(seconds), list(tables)
    limits = _limits_of(limit, len(tables))
    words = {"maximize": truth(maximize, "maximize"), "missing": missing, "bids": bids_of(bids)}
    found = []
    for part in _parts(_plain(tables, limits, missing)):
        found += _matches(tables, limits, part, words, watch)
    return found


def _limits_of(limit, count):
    """The limit of each table."""
    if not is_listed(limit):
        return [limit] * count
    if len(limit) != count:
        raise ValueError("limit must be a finite number, or a list with one of each table")
    return list(limit)


def _plain(tables, limits, missing):
    """The number of each table, and what the extension takes of it and of its limit; None of what `match` has to look at."""
    last = kind = exact = None
    for number, (table, limit) in enumerate(zip(tables, limits)):
        if type(table) is not fast.ARRAY or table.ndim != 2 or missing is not None or is_listed(limit):
            yield number, None, None
            continue
        try:
            if limit is not last or table.dtype is not kind:
                exact, last, kind = limit_of(table, limit), limit, table.dtype
            yield number, fast.plain(as_limit(table, exact)), exact
        except ValueError:
            yield number, None, None
        if type(exact) is float and table.dtype.kind != "f":
            # Whether whole costs can be compared with such a limit depends on each table.
            kind = None


def _parts(plain):
    """Numbers and tables by some dozens, in their order."""
    part, room = [], MOST_ENTRIES
    for each in plain:
        size = 0 if each[1] is None else each[1].size
        if part and (size > room or len(part) == MOST_TOGETHER):
            yield part
            part, room = [], MOST_ENTRIES
        part.append(each)
        room -= size
    if part:
        yield part


def _matches(tables, limits, part, words, watch):
    """The Match of each table of a part, by one call of the extension where it takes them, or None where there is no time."""
    if watch is not None and watch.is_over():
        return [None] * len(part)
    plain = [table for _, table, _ in part if table is not None]
    exact = [limit for _, table, limit in part if table is not None]
    answers, matches = iter(fast.found_under_limits(plain, exact, words["maximize"], words["bids"], watch)), []
    for number, table, _ in part:
        found = None if table is None else next(answers)
        if found is None:
            matches.append(_alone(number, tables[number], limits[number], words, watch))
            continue
        rows, columns, places, free_rows, free_columns, *gap = found
        costs = costs_at(tables[number], rows, columns, places)
        matches.append(Match(rows, columns, free_rows, free_columns, costs, None, gap_of(*gap) if gap else 0))
    return matches


def _alone(number, table, limit, words, watch):
    """The Match of a table that the extension doesn't take, or that is at fault; None where there is no time."""
    if watch is not None and watch.is_over():
        return None
    try:
        if not isinstance(table, tuple):
            return match_by(watch, table, limit, **words)
        if not 3 <= len(table) <= 4:
            raise ValueError("a tuple must be of rows, columns, costs, and a shape or none")
        rows, columns, costs, *shape = table
        return match_by(watch, costs, limit, rows=rows, columns=columns, shape=shape[0] if shape else None, **words)
    except Exception as fault:
        note(fault, f"in table {number}")
        raise
