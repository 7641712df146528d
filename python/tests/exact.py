"""The least cost of a small problem, by looking at all assignments: nothing of the package is used."""
import math


def least_cost(entries, shape, maximize=False):
    """The least sum (or the greatest) of a full assignment of the smaller side, or None where there is none.

    entries: triples of row, column and cost; a pair may stand twice. shape: numbers of rows and columns, the greater one 12 at most.
    """
    if shape[0] > shape[1]:
        return least_cost([(column, row, cost) for row, column, cost in entries], shape[::-1], maximize)
    if maximize:
        found = least_cost([(row, column, -cost) for row, column, cost in entries], shape)
        return None if found is None else -found
    # For each set of columns that the rows up to here may have taken, the least that it costs.
    sums = {0: 0}
    for row in range(shape[0]):
        mine = [(1 << column, cost) for here, column, cost in entries if here == row]
        further = {}
        for taken, cost in sums.items():
            for column, more in mine:
                if not taken & column:
                    further[taken | column] = min(further.get(taken | column, math.inf), cost + more)
        sums = further
    return min(sums.values(), default=None)
