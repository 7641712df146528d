"""As many pairs as possible, then the least cost, against all choices of pairs."""
import fractions
import itertools
import math
import unittest

from limited import Limited, numpy, scipy, sigdorf

if numpy:
    import floats


def best_of_all(table, maximize):
    """The greatest number of pairs and the least sum of so many (or the greatest), of all choices; what is infinite is no pair."""
    if table.shape[0] > table.shape[1]:
        return best_of_all(table.T, maximize)
    rows, columns = table.shape
    sign, costs = -1 if maximize else 1, table.tolist()
    found = []
    for taken in itertools.permutations(range(columns + rows), rows):
        pairs = [(row, column) for row, column in enumerate(taken) if column < columns]
        if all(math.isfinite(costs[row][column]) for row, column in pairs):
            found.append((-len(pairs), sign * sum(fractions.Fraction(costs[row][column]) for row, column in pairs)))
    return min(found)


class Cardinality(Limited):
    def test_against_all(self):
        random = numpy.random.default_rng(1)
        for number in range(300):
            shape, maximize = random.integers(1, 4, 2), number % 2 == 1
            table = floats.KINDS[number % len(floats.KINDS)](random, shape)
            # Sums of the greatest ones are refused.
            if table.dtype == numpy.float64:
                table = numpy.clip(table, -1e300, 1e300)
            if table.dtype.kind == "f":
                table = numpy.where(random.random(shape) < 0.5, -numpy.inf if maximize else numpy.inf, table)
            elif table.dtype.itemsize == 8:
                table = table >> table.dtype.type(8)
            with self.subTest(table=table.tolist(), maximize=maximize):
                found = sigdorf.max_cardinality_match(table, maximize=maximize)
                self.assertEqual(found.costs.tolist(), table[found.rows, found.columns].tolist())
                total = (-1 if maximize else 1) * sum(map(fractions.Fraction, found.costs.tolist()))
                self.assertEqual((-len(found.rows), total), best_of_all(table, maximize))
                for side, held, free in zip(shape, (found.rows, found.columns), (found.free_rows, found.free_columns)):
                    self.assertEqual(sorted([*held, *free]), list(range(side)))

    def test_more_pairs_count_more_than_any_cost(self):
        for great in (1e9, 1e300, 2.0**60):
            self.assertEqual(
                sigdorf.max_cardinality_match([[-great, great], [math.inf, -great], [great, math.inf]]).rows.tolist(),
                [0, 1],
            )
            self.assertEqual(
                sigdorf.max_cardinality_match([[-great, great], [-great, math.inf]]).columns.tolist(), [1, 0]
            )
        self.assertEqual(len(sigdorf.max_cardinality_match(numpy.zeros((3, 4))).rows), 3)

    def test_forms(self):
        rows, columns, costs = [0, 1, 1, 2], [0, 0, 2, 2], [5, 2, 4, 1]
        found = sigdorf.max_cardinality_match(costs, rows=rows, columns=columns, shape=(4, 3))
        self.assertEqual([side.tolist() for side in found[:4]], [[1, 2], [0, 2], [0, 3], [1]])
        if scipy:
            self.assertEqual(
                sigdorf.max_cardinality_match(scipy.sparse.csr_matrix((costs, (rows, columns)), (4, 3))), found
            )
        for kind in ("u1", "i4", "i8", "u8", "f4", "g", "?"):
            for maximize in (False, True):
                found = sigdorf.max_cardinality_match(numpy.array([[1, 0], [0, 0], [1, 1]], kind), maximize=maximize)
                self.assertEqual(found.costs.tolist(), [1, 1] if maximize else [0, 0])
        self.assertEqual(sigdorf.max_cardinality_match(numpy.array([[2**58 + 1, 2**58 + 2]])).columns.tolist(), [0])
        for shape in [(0, 0), (0, 3), (2, 0)]:
            self.assertEqual(
                [len(side) for side in sigdorf.max_cardinality_match(numpy.zeros(shape))[:4]], [0, 0, *shape]
            )

    def test_faults(self):
        for costs in ([[1.0, math.nan]], [[1.0, -math.inf]], [1.0], "ab", [[None]], numpy.zeros((2, 2), object)):
            with self.assertRaises(ValueError):
                sigdorf.max_cardinality_match(costs)
        for costs in (numpy.full((2, 2), 2**61), numpy.full((2, 2), 2**60, "u8"), numpy.full((2, 2), 1e308)):
            with self.assertRaisesRegex(
                ValueError, "too great to make as many of 2 pairs as possible: scale them down"
            ):
                sigdorf.max_cardinality_match(costs)


if __name__ == "__main__":
    unittest.main()
