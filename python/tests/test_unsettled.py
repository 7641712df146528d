"""What a limit has ended: a solution that says so, and never pairs that aren't of least cost."""
import pickle

from limited import Limited, numpy, scipy, sigdorf

# More columns than rows at very unequal costs, which take a phase of bids by the smallest steps.
UNEQUAL = [[0, 0, 10**9, 5 * 10**8], [0, 0, 999_999_500, 10**8], [0, 0, 999_999_000, 6 * 10**8]]
BIDS = 10**5
# A table without gaps is solved before any bid.
GAPS = [[1, 2, float("inf")], [1, 4, 9], [float("inf"), 3, 7]]
LISTS = [0, 0, 1, 1, 1, 2, 2], [0, 1, 0, 1, 2, 1, 2], [1, 2, 1, 4, 9, 3, 7]


def with_ends(rows, shared, end):
    """A matrix in which each row may have a shared column cheaply, or one of its own at a great cost; what isn't there is infinite."""
    random = numpy.random.default_rng(3)
    ends = numpy.where(numpy.eye(rows, dtype=bool), end, numpy.inf)
    return numpy.hstack([random.integers(0, 10, (rows, shared)).astype(float), ends])


class Limits(Limited):
    def assert_least_or_told(self, call, matrix, least):
        """A call answers pairs of least cost, or tells a cost and a bound."""
        try:
            rows, columns = call(matrix)
        except sigdorf.Unsettled as fault:
            self.assertLess(fault.solution.bound, fault.solution.cost)
            self.assertFalse(fault.solution.is_optimal)
            self.assertTrue(fault.solution.bound <= least <= fault.solution.cost)
            return
        self.assertEqual(numpy.asarray(matrix)[rows, columns].sum(), least)

    def test_unequal_costs(self):
        self.assert_least_or_told(lambda matrix: sigdorf.linear_sum_assignment(matrix, bids=BIDS), UNEQUAL, 10**8)

    def test_ends_of_their_own(self):
        matrix = with_ends(100, 50, 10**6)
        # As many as one another, with a column that costs nothing to each row in place of those left over.
        least = 50 * 10**6 + int(self.least_of_shared(matrix))
        self.assert_least_or_told(lambda given: sigdorf.linear_sum_assignment(given, bids=BIDS), matrix, least)

    def least_of_shared(self, matrix):
        """The least cost of giving each shared column a row: the ends cost all the same."""
        shared = matrix[:, :50].astype(int)
        spare = numpy.zeros((100, 50), int)
        rows, columns = sigdorf.linear_sum_assignment(numpy.hstack([shared, spare]))
        return shared[rows[columns < 50], columns[columns < 50]].sum()

    def test_pairs_that_no_limit_allows(self):
        for call in self.calls():
            with self.subTest(call), self.assertRaises(sigdorf.Unsettled) as caught:
                call(GAPS, bids=0)
            self.assertIn("bids", str(caught.exception))
            self.assertTrue(caught.exception.solution.bound <= 10 <= caught.exception.solution.cost)
            again = pickle.loads(pickle.dumps(caught.exception))
            self.assertEqual((type(again), str(again)), (sigdorf.Unsettled, str(caught.exception)))

    def calls(self):
        yield sigdorf.linear_sum_assignment
        if scipy:
            yield lambda matrix, **words: sigdorf.min_weight_full_bipartite_matching(scipy.sparse.csr_matrix(matrix), **words)

    def test_is_no_value_error(self):
        self.assertTrue(issubclass(sigdorf.Unsettled, RuntimeError))
        self.assertFalse(issubclass(sigdorf.Unsettled, ValueError))

    def test_solve_answers(self):
        solution = sigdorf.solve(*LISTS, bids=0)
        self.assertFalse(solution.is_optimal)
        self.assertTrue(solution.bound <= 10 <= solution.cost)
        with self.assertRaises(sigdorf.Refused):
            sigdorf.check(solution, *LISTS)
        self.assertIn("is_optimal", sigdorf.solve.__doc__.split("\n")[0])
