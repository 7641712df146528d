"""Least-cost assignments of sparse problems by the proved solver Sigdorf.

    solve(rows, columns, costs)                     a pair for each row, the cost, and prices that show it to be the least; or a bound
    check(solution, rows, columns, costs)           whether a solution holds, whoever found it
    linear_sum_assignment(cost_matrix)              as SciPy's call of this name, dense or sparse
    min_weight_full_bipartite_matching(matrix)      as SciPy's call of this name
    match(costs, limit)                             the best pairs of at most a limit; whoever has none stays free
    match_many(tables, limit)                       the same of many tables, as of the frames and classes of a tracker
    max_cardinality_match(costs)                    as many pairs as possible, and of all such choices the cheapest
    lapjv(cost, cost_limit=limit)                   the same as `lap` has it; also lapjvx, lapjvxa, lapjvc and lapmod
    solve_many(problems, threads)                   solves many problems, over threads
    Solver().solve(..)                              problems one after another, each from the duals of the one before
    certify(rows, columns, table)                   anybody's assignment, with prices that show it to be the least, or how far it is off
    Edges(rows, columns, costs)                     pairs by names, of a long table or a graph, in place of a table
    k_best(table, k)                                the k best assignments, the best first

Costs count exactly as they stand, floats too (docs/EXACT.md). Where there is no full assignment, each raises Infeasible, which names the rows
that together know too few columns. Where a limit ended the search, `solve` answers a solution whose `is_optimal` is False, as `match` does with
`seconds`, and the two calls of SciPy's names raise Unsettled, which holds it. An argument that is at fault is a ValueError. What is proved is the
library that these functions call; this module itself is only tested.
"""
try:
    import numpy
except ModuleNotFoundError:
    raise ModuleNotFoundError("sigdorf wants numpy: pip install numpy, or Debian's python3-numpy", name="numpy") from None
del numpy

from .assignment import check, solve
from .best import Ranked, Ranking, k_best
from .cardinality import max_cardinality_match
from .certified import certify
from .edges import Edges
from .faults import Infeasible, Mistyped, Refused, Unsettled
from .gated import Match, match
from .gated_many import match_many
from .lap_calls import lapjv, lapjvc, lapjvx, lapjvxa, lapmod
from .library import USUAL_BIDS
from .many import solve_many
from .scipy_calls import linear_sum_assignment, min_weight_full_bipartite_matching
from .solution import Solution
from .solver import Solver

__version__ = "1.1"
__all__ = [
    "Edges",
    "Infeasible",
    "Match",
    "Mistyped",
    "Ranked",
    "Ranking",
    "Refused",
    "Solution",
    "Solver",
    "USUAL_BIDS",
    "Unsettled",
    "certify",
    "check",
    "k_best",
    "lapjv",
    "lapjvc",
    "lapjvx",
    "lapjvxa",
    "lapmod",
    "linear_sum_assignment",
    "match",
    "match_many",
    "max_cardinality_match",
    "min_weight_full_bipartite_matching",
    "solve",
    "solve_many",
]
