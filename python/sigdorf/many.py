"""Many problems at once, over threads: the interpreter's lock is given up while the library works."""
import collections.abc
import concurrent.futures
import os
import typing

import numpy

from . import fast
from .arguments import number, truth
from .asked import Asked, bids_of
from .faults import note
from .library import USUAL_BIDS
from .solution import Solution
from .waiting import Watch, time_limit

MOST_THREADS = 1024
# Of arrays that the extension solves in one call: so many entries and so many arrays at most, and so few entries that no more calls are worth while;
# and how many such calls each thread is to have, so that all end at about the same time.
MOST_ENTRIES, MOST_TOGETHER, FEWEST_ENTRIES, PARTS = 50_000, 64, 2_000, 4


def solve_many(
    problems: collections.abc.Iterable[typing.Any],
    threads: int | None = None,
    *,
    maximize: bool = False,
    decimals: int | None = None,
    bids: int = USUAL_BIDS,
    seconds: float | None = None,
) -> list[Solution | None]:
    """The Solution of each problem, in their order.

    problems: of each what :func:`solve` takes: a tuple of its lists (rows, columns, costs, and a shape or none), or a table.
    threads: how many work at a time, from 1 to 1024; the processors that the process may use, where it is left out.
    maximize, decimals, bids: those of :func:`solve`, for all problems.
    seconds: a limit of time for all problems together, from 0. What is under way then is answered as by :func:`solve`,
        which `is_optimal` tells; no other problem is begun, and in its place stands None.

    The library works side by side, and what Python and numpy do around it one after another. Arrays are solved some dozens at a time by the
    extension, where it was built, and all else one by one.

    Raises what :func:`solve` does, of a problem that is at fault, with a note that tells its number, from 0; the others are given up.

    >>> [solution.cost for solution in sigdorf.solve_many([[[4, 1], [2, 3]], ([0, 1], [0, 1], [7, 8])], threads=2)]
    [3, 15]
    >>> sigdorf.solve_many([[[4, 1], [2, 3]]], seconds=0)
    [None]
    """
    watch = time_limit(seconds)
    problems = list(problems)
    threads = len(os.sched_getaffinity(0)) if threads is None else number(threads, "threads", 1, MOST_THREADS)
    words = {"maximize": truth(maximize, "maximize"), "decimals": decimals, "bids": bids_of(bids)}
    parts = _parts(problems, words, threads)
    if threads == 1 or len(parts) < 2:
        return _in_order(problems, parts, [_solved(problems, part, words, watch) for part in parts])
    pool, watch = concurrent.futures.ThreadPoolExecutor(threads), watch or Watch()
    stop = watch.stopping()
    try:
        answers = [pool.submit(_solved, problems, part, words, watch) for part in parts]
        return _in_order(problems, parts, [answer.result() for answer in answers])
    except BaseException:
        # After a fault or Ctrl-C what is under way ends.
        stop.write()
        raise
    finally:
        pool.shutdown(cancel_futures=True)


def _parts(problems, words, threads):
    """Numbers of problems that are solved by one thread at a time, by their first number: some arrays together, so that each thread has a few parts, and others alone."""
    if not fast.is_there() or words["decimals"] is not None or words["bids"] != USUAL_BIDS:
        return [[number] for number in range(len(problems))]
    sizes = [problem.size if type(problem) is numpy.ndarray else None for problem in problems]
    most = max(FEWEST_ENTRIES, min(MOST_ENTRIES, sum(size or 0 for size in sizes) // (PARTS * threads)))
    parts, part, room = [], None, 0
    for number, size in enumerate(sizes):
        if size is None:
            parts.append([number])
            continue
        if part is None or room < size or len(part) == MOST_TOGETHER:
            part, room = [], most
            parts.append(part)
        part.append(number)
        room -= size
    return parts


def _solved(problems, part, words, watch):
    """The Solutions of a part, together where that can be."""
    together = [None] * len(part)
    if len(part) > 1 and not _is_over(watch):
        together = fast.solutions_of([fast.plain(problems[number]) for number in part], words["maximize"], watch)
    return [_solved_alone(problems, number, words, watch) if solution is None else solution for number, solution in zip(part, together)]


def _is_over(watch):
    return watch is not None and watch.is_over()


def _solved_alone(problems, number, words, watch):
    if _is_over(watch):
        return None
    problem = problems[number]
    try:
        lists = problem if isinstance(problem, tuple) else (problem,)
        asked = Asked(*lists, maximize=words["maximize"], decimals=words["decimals"])
        return asked.solution(None, words["bids"], watch=watch)
    except Exception as fault:
        note(fault, f"in problem {number}")
        raise


def _in_order(problems, parts, answers):
    """The Solutions of all parts by the numbers of their problems."""
    solutions = [None] * len(problems)
    for part, answer in zip(parts, answers):
        for number, solution in zip(part, answer):
            solutions[number] = solution
    return solutions
