"""More columns than rows, or more rows, at costs that differ so much that bids by the smallest steps would take very long."""
import time

from exact import least_cost
from limited import Limited, numpy, scipy, sigdorf

# Three rows that all want the first two columns, with outlets at very unequal costs.
OUTLETS = [[0, 0, 10**9, 5 * 10**8], [0, 0, 999_999_500, 10**8], [0, 0, 999_999_000, 6 * 10**8]]
HIGHEST = 2**60


def entries_of(matrix):
    """Rows, columns and costs of what is finite."""
    rows, columns = numpy.nonzero(numpy.isfinite(matrix))
    return rows, columns, numpy.asarray(matrix)[rows, columns].astype(numpy.int64)


def with_ends(rows, shared, end):
    """A matrix in which each row may have a shared column cheaply, or one of its own at a great cost; what isn't there is infinite."""
    random = numpy.random.default_rng(3)
    ends = numpy.where(numpy.eye(rows, dtype=bool), end, numpy.inf)
    return numpy.hstack([random.integers(0, 10, (rows, shared)).astype(float), ends])


class Spare(Limited):
    def assert_least(self, matrix, least, start=None):
        """In less than a second, and also with rows and columns changed about."""
        entries, shape = entries_of(matrix), numpy.shape(matrix)
        for given, size in [(entries, shape), ((entries[1], entries[0], entries[2]), shape[::-1])]:
            begun = time.process_time()
            solution = sigdorf.solve(*given, size, start=start)
            self.assertLess(time.process_time() - begun, 1)
            self.assertTrue(solution.is_optimal)
            self.assertEqual(solution.cost, least)
            sigdorf.check(solution, *given, size)
        return solution

    def assert_least_from_any_start(self, matrix, least):
        prices = self.assert_least(matrix, least).prices
        columns = numpy.shape(matrix)[1]
        for start in [prices, numpy.full(columns, HIGHEST), numpy.where(numpy.arange(columns) % 2, HIGHEST, 0)]:
            self.assert_least(matrix, least, start)

    def test_outlets(self):
        least = least_cost(list(zip(*(part.tolist() for part in entries_of(OUTLETS)))), (3, 4))
        self.assertEqual(least, 10**8)
        self.assert_least_from_any_start(OUTLETS, least)

    def test_ends(self):
        if not scipy:
            self.skipTest("SciPy is not there")
        for rows, shared in [(20, 10), (100, 50)]:
            with self.subTest(rows=rows):
                matrix = with_ends(rows, shared, 10**6)
                finite = numpy.where(numpy.isfinite(matrix), matrix, 10**9)
                chosen = scipy.optimize.linear_sum_assignment(finite)
                self.assert_least_from_any_start(matrix, int(finite[chosen].sum()))

    def test_a_start_has_the_larger_sides_size(self):
        for shape in [(3, 4), (4, 3)]:
            for start in [[0] * 3, [0] * 5]:
                entries = numpy.indices(shape).reshape(2, -1)
                with self.subTest(shape=shape), self.assertRaisesRegex(ValueError, "a price for each column, or for each row where there are more"):
                    sigdorf.solve(*entries, numpy.ones(12, int), shape, start=start)

    def test_a_limit_leaves_a_bound(self):
        solution = sigdorf.solve(*entries_of(OUTLETS), bids=0, start=[0, 0, HIGHEST, HIGHEST])
        self.assertTrue(solution.bound <= 10**8 <= solution.cost)
