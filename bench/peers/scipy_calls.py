"""The least cost of a problem by SciPy: `scipy_calls.py sparse|dense FILE`.

Prints the seconds of the call alone, without reading and making the matrix, the peak memory in bytes, and the cost.
"""
import resource
import sys
import time

import numpy
from scipy.optimize import linear_sum_assignment
from scipy.sparse import csr_matrix
from scipy.sparse.csgraph import min_weight_full_bipartite_matching


def read(name):
    numbers = numpy.fromfile(name, dtype=numpy.int64, sep=" ")
    arcs = numbers[1:].reshape(-1, 3)
    return int(numbers[0]), arcs[:, 0] - 1, arcs[:, 1] - 1, arcs[:, 2].astype(float)


def sparse(persons, rows, columns, costs):
    # The call takes a cost of 0 for no arc, so all costs are moved by as much.
    move = 1 - costs.min()
    matrix = csr_matrix((costs + move, (rows, columns)), shape=(persons, persons))
    start = time.perf_counter()
    picked = min_weight_full_bipartite_matching(matrix)
    seconds = time.perf_counter() - start
    return seconds, matrix[picked].sum() - persons * move


def dense(persons, rows, columns, costs):
    matrix = numpy.full((persons, persons), numpy.inf)
    matrix[rows, columns] = costs
    start = time.perf_counter()
    picked = linear_sum_assignment(matrix)
    seconds = time.perf_counter() - start
    return seconds, matrix[picked].sum()


def main():
    _, call, name = sys.argv
    seconds, cost = {"sparse": sparse, "dense": dense}[call](*read(name))
    print(f"{seconds:.6f} {resource.getrusage(resource.RUSAGE_SELF).ru_maxrss * 1024} {round(cost)}")


if __name__ == "__main__":
    main()
