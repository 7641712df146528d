"""Pairs by names with a cost each, as a long table or a graph has them."""
import typing

import numpy
from numpy.typing import ArrayLike

from .arguments import MOST_ENTRIES, attempt
from .problem import Lists, costs_in, look_at_sides
from .tables import Names

Nodes = typing.Iterable[typing.Hashable]


class Edges:
    """Names of rows and columns that may be paired, at which cost, in place of a table: what isn't named is no pair.

    rows, columns: names of one length, whatever can be a key of a dict, such as the columns of a long DataFrame. Rows
        and columns are numbered by their first edges, and no pair appears twice.
    costs: int or float array of the same length, as :func:`solve` takes it.

    >>> edges = sigdorf.Edges(["Ada", "Ada", "Bo"], ["roof", "wall", "roof"], [4, 1, 3])
    >>> sigdorf.solve(edges)
    Solution(cost=4, pairs={'Ada': 'wall', 'Bo': 'roof'})
    """

    def __init__(self, rows: Nodes, columns: Nodes, costs: ArrayLike):
        self.lists = _lists_of(_numbered(rows, "rows", {}), _numbered(columns, "columns", {}), costs)

    @classmethod
    def of_graph(cls, graph: typing.Any, rows: Nodes | None = None, weight: str = "weight") -> "Edges":
        """The edges of a bipartite graph of networkx.

        rows: the nodes of one side; where it is left out, those whose attribute `bipartite` is 0. All other nodes are
            columns.
        weight: the attribute of an edge that is its cost.

        >>> graph = networkx.Graph()
        >>> graph.add_weighted_edges_from([("Ada", "roof", 4), ("Ada", "wall", 1), ("Bo", "roof", 3)])
        >>> sigdorf.solve(sigdorf.Edges.of_graph(graph, ["Ada", "Bo"]))
        Solution(cost=4, pairs={'Ada': 'wall', 'Bo': 'roof'})
        """
        nodes = attempt(lambda given: dict(given.nodes(data="bipartite")), graph)
        if nodes is None:
            raise ValueError("a graph of networkx is wanted")
        mine = {node for node, side in nodes.items() if side == 0} if rows is None else set(rows)
        if not mine <= set(nodes):
            raise ValueError(f"the graph has no node {next(node for node in mine if node not in nodes)!r}")
        edges = [_directed(edge, mine, weight) for edge in graph.edges(data=weight)]
        ends, costs = [[edge[side] for edge in edges] for side in (0, 1)], [edge[2] for edge in edges]
        sides = ([node for node in nodes if (node in mine) == is_mine] for is_mine in (True, False))
        numbers = ({node: place for place, node in enumerate(side)} for side in sides)
        found = cls.__new__(cls)
        row_ends, column_ends = (_numbered(side, "nodes", known) for side, known in zip(ends, numbers))
        found.lists = _lists_of(row_ends, column_ends, costs)
        return found


def _directed(edge, mine, weight):
    """An edge of a graph as a row, which is one of mine, a column and a cost."""
    one, other, cost = edge
    row, column = (one, other) if one in mine else (other, one)
    if row not in mine or column in mine:
        way_out = "name the nodes of one side by rows=, or by the attribute bipartite"
        raise ValueError(f"the edge {row!r}, {column!r} is within one side: {way_out}")
    if cost is None:
        raise ValueError(f"the edge {row!r}, {column!r} has no {weight}")
    return row, column, cost


def _lists_of(numbered_rows, numbered_columns, costs):
    """The Lists of rows and columns with their names, where no pair appears twice."""
    (rows, row_names), (columns, column_names), costs = numbered_rows, numbered_columns, costs_in(costs)
    if not len(rows) == len(columns) == len(costs):
        raise ValueError("rows and columns must be as many as the costs")
    names, sides = Names(list(row_names), list(column_names)), (len(row_names), len(column_names))
    look_at_sides(sides)
    order = numpy.lexsort((columns, rows))
    again = (numpy.diff(rows[order]) == 0) & (numpy.diff(columns[order]) == 0)
    if again.any():
        place = order[again.argmax()]
        raise ValueError(f"{names.told(rows[place], columns[place])}: the pair appears twice")
    return Lists(rows, columns, costs, sides, names)


def _numbered(names, argument, numbers):
    """The numbers of names, and a dict of all names that are numbered, in order; new ones are put into it."""
    if (attempt(len, names) or 0) > MOST_ENTRIES:
        raise ValueError(f"{argument} must number {MOST_ENTRIES:,} at most")
    places = attempt(lambda given: [numbers.setdefault(name, len(numbers)) for name in given], names)
    if places is None or isinstance(names, (str, bytes)):
        raise ValueError(f"{argument} must be a list of names")
    if any(attempt(lambda given: bool(given == given), name) is not True or name is None for name in numbers):
        raise ValueError(f"{argument}: a name is missing")
    return numpy.array(places, numpy.int64), numbers
