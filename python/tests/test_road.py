"""One road: what has an answer is answered by the extension, whatever it comes as, and with whatever words."""
import unittest
import unittest.mock

from limited import Limited, numpy, scipy, sigdorf
from test_ties import guises, listed

if numpy:
    from sigdorf import fast
    from sigdorf.problem import Problem


class Named:
    """A table with names, as pandas' DataFrame is one."""

    def __init__(self, values):
        self._values, self.index, self.columns = values, [f"row {row}" for row in range(len(values))], [f"column {column}" for column in range(values.shape[1])]

    def to_numpy(self, kind=None):
        return self._values if kind is None else self._values.astype(kind)


class Road(Limited):
    def setUp(self):
        super().setUp()
        if not fast.is_there():
            self.skipTest("the extension isn't used")
        other = unittest.mock.patch.object(Problem, "solution", side_effect=AssertionError("not by the extension"))
        other.start()
        self.addCleanup(other.stop)
        self.table = numpy.random.default_rng(1).integers(1, 100, (9, 11))

    def test_types(self):
        great = [self.table * factor + more for factor, more in ((10**9, 0), (10**10, 7), (10**16, -(2**62)), (1024, 17 * 10**17))]
        for table in (self.table, self.table / 8, self.table / 10, *great):
            for given in (*guises(table), table.astype(numpy.uint64), numpy.asmatrix(table), Named(table)):
                for maximize in (False, numpy.False_, 0):
                    sigdorf.linear_sum_assignment(given, maximize)
                    sigdorf.solve(given, maximize=maximize)
        for limit in (50, 50.0, numpy.float32(50), numpy.int8(50)):
            for given in guises(self.table):
                self.assertEqual(len(sigdorf.match(given, limit).rows), 9)

    def test_words(self):
        for table in (self.table, self.table / 10):
            start = numpy.arange(11) * 100
            for words in ({"start": start}, {"start": start.tolist()}, {"seconds": 60}, {"progress": lambda bound, cost: None}, {"bids": 10**6}, {"maximize": numpy.True_}, {"decimals": 1}):
                for given in ((table,), listed(table)):
                    self.assertTrue(sigdorf.solve(*given, **words).is_optimal)
            self.assertEqual(len(sigdorf.solve_many([table, listed(table), table.tolist(), Named(table)], 2)), 4)
            self.assertEqual(len(sigdorf.k_best(table, 3)), 3)

    def test_brackets(self):
        """What a limit ends goes the same way."""
        gaps = numpy.where(numpy.eye(9, 11, 2, dtype=bool), numpy.inf, self.table)
        for bids in (0, 3, 50):
            solution = sigdorf.solve(gaps / 10, bids=bids)
            self.assertLessEqual(solution.exact_cost - solution.gap, sigdorf.solve(gaps / 10).exact_cost)

    def test_tables_with_gaps(self):
        """Those with many are solved entry by entry, and answered as tables."""
        random = numpy.random.default_rng(2)
        for shape in [(60, 60), (50, 70), (70, 50), (9, 300), (300, 9)]:
            for share in (0.1, 0.3, 0.7, 0.95):
                for kind in range(4):
                    costs = [random.integers(0, 5, shape) * 1.0, random.random(shape), random.integers(0, 3, shape) / 10, random.integers(0, 10**12, shape) * 1.0][kind]
                    is_entry = random.random(shape) < share
                    for side in range(max(shape)):
                        is_entry[side % shape[0], side % shape[1]] = True
                    maximize = kind == 1
                    table = numpy.where(is_entry, costs, -numpy.inf if maximize else numpy.inf)
                    solution = sigdorf.solve(table, maximize=maximize)
                    sigdorf.check(solution, table, maximize=maximize)
                    listed = sigdorf.solve(*numpy.nonzero(is_entry), costs[is_entry], shape, maximize=maximize)
                    self.assertEqual([side.tolist() for side in solution[:3]], [side.tolist() for side in listed[:3]])
                    if scipy:
                        pairs = scipy.optimize.linear_sum_assignment(table, maximize)
                        self.assertAlmostEqual(float(solution.cost), table[pairs].sum(), delta=1e-9 * abs(table[pairs].sum()))

    @unittest.skipUnless(scipy, "scipy is not there")
    def test_sparse(self):
        for table in (self.table, self.table / 10, self.table * 10**12):
            for form in ("csr", "csc", "coo", "lil", "dok"):
                for transposed in (False, True):
                    matrix = scipy.sparse.csr_matrix(table.T if transposed else table).asformat(form)
                    sigdorf.min_weight_full_bipartite_matching(matrix)
                    sigdorf.linear_sum_assignment(matrix, numpy.True_)
                    sigdorf.solve(matrix)
                    sigdorf.match(matrix, 50)

    @unittest.skipUnless(scipy, "scipy is not there")
    def test_nothing_is_sorted_again(self):
        matrix = scipy.sparse.random(60, 80, 0.5, "csr", random_state=1)
        with unittest.mock.patch.object(numpy, "argsort", side_effect=AssertionError("sorted again")), unittest.mock.patch.object(numpy, "lexsort", side_effect=AssertionError("sorted again")):
            for form in ("csr", "coo"):
                sigdorf.min_weight_full_bipartite_matching(matrix.asformat(form))


if __name__ == "__main__":
    unittest.main()
