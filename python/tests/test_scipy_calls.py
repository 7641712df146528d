"""The calls of SciPy's names: SciPy's words and kinds of faults, and what is an entry of a matrix."""
import unittest
import warnings

from limited import Limited, numpy, scipy, sigdorf


class Dense(Limited):
    def test_words(self):
        diagonal = numpy.eye(3)
        for matrix, kind, words in [
            ([1, 2, 3], ValueError, "expected a matrix"),
            (diagonal.astype(str), TypeError, "Cannot cast array data from dtype.* to dtype.'float64'. according to the rule 'safe'"),
            (numpy.diag([numpy.nan, 1, 1]), ValueError, "contains invalid numeric entries: row 0, column 0 has nan"),
            (numpy.diag([1, -numpy.inf, 1]), ValueError, "contains invalid numeric entries: row 1, column 1 has -inf"),
            (numpy.where(diagonal, numpy.inf, [numpy.inf, 1, 1]), ValueError, "cost matrix is infeasible"),
        ]:
            with self.subTest(words), self.assertRaisesRegex(kind, words):
                sigdorf.linear_sum_assignment(matrix)

    def test_kinds_of_faults(self):
        for value in (numpy.eye(2).astype(str), numpy.eye(2).astype(object), numpy.eye(2) * 1j, [[None, 1], [1, 1]]):
            for kind in (TypeError, ValueError):
                with self.subTest(value=value), self.assertRaises(kind):
                    sigdorf.linear_sum_assignment(value)

    def test_infinite_entries(self):
        matrix = numpy.array([[1, numpy.inf], [numpy.inf, 2]])
        self.assertEqual(sigdorf.linear_sum_assignment(matrix)[1].tolist(), [0, 1])
        self.assertEqual(sigdorf.linear_sum_assignment(-matrix, True)[1].tolist(), [0, 1])
        for call, given, maximize in [(sigdorf.linear_sum_assignment, -matrix, False), (sigdorf.linear_sum_assignment, matrix, True)]:
            with self.assertRaisesRegex(ValueError, "row 0, column 1"):
                call(given, maximize)

    def test_empty(self):
        for shape in [(0, 0), (0, 3), (3, 0)]:
            for kind in ("f8", "i4", "?"):
                self.assertEqual([len(side) for side in sigdorf.linear_sum_assignment(numpy.empty(shape, kind))], [0, 0])

    def test_constant(self):
        for side in (1, 8, 30):
            self.assertEqual(sigdorf.linear_sum_assignment(numpy.ones((side, side)))[1].tolist(), list(range(side)))


@unittest.skipUnless(scipy, "scipy is not there")
class Sparse(Limited):
    def matching(self, matrix, maximize=False):
        with warnings.catch_warnings():
            warnings.simplefilter("error")
            return sigdorf.min_weight_full_bipartite_matching(matrix, maximize)

    def test_stored_zeros(self):
        matrix = scipy.sparse.csr_matrix(([2.0, 0.0, 3.0, 1.0], ([0, 0, 1, 1], [0, 1, 0, 1])))
        with self.assertWarnsRegex(UserWarning, "explicit zero weights are removed before matching"):
            self.assertEqual(sigdorf.min_weight_full_bipartite_matching(matrix)[1].tolist(), [0, 1])
        matrix.data[3] = 4
        with self.assertWarns(UserWarning):
            self.assertEqual(sigdorf.min_weight_full_bipartite_matching(matrix)[1].tolist(), [0, 1])
        self.assertEqual(sigdorf.linear_sum_assignment(matrix)[1].tolist(), [1, 0])

    def test_stored_infinities(self):
        matrix = scipy.sparse.csr_matrix([[10, numpy.inf, numpy.inf], [numpy.inf, numpy.inf, 1], [numpy.inf, 7, numpy.inf]])
        self.assertEqual(self.matching(matrix)[1].tolist(), [0, 2, 1])
        self.assertEqual(self.matching(-matrix, True)[1].tolist(), [0, 2, 1])
        with self.assertRaisesRegex(ValueError, "invalid numeric entries: row 0, column 1 has -inf"):
            self.matching(-matrix)

    def test_words(self):
        for matrix, kind, words in [
            (numpy.eye(2), TypeError, "graph must be in CSC, CSR, or COO format"),
            (scipy.sparse.csr_matrix(numpy.eye(2) * 1j), ValueError, "expected a matrix containing numerical entries"),
            (scipy.sparse.csr_matrix([[1, 1, 1], [1, 0, 0], [2, 0, 0]]), ValueError, "no full matching exists"),
            (scipy.sparse.csr_matrix([[1.5, numpy.nan]]), ValueError, "invalid numeric entries: row 0, column 1 has nan"),
        ]:
            with self.subTest(words), self.assertRaisesRegex(kind, words):
                self.matching(matrix)

    def test_trivial(self):
        for shape in [(0, 2), (2, 0)]:
            self.assertEqual([len(side) for side in self.matching(scipy.sparse.csr_matrix(shape))], [0, 0])

    def test_never_dearer(self):
        """SciPy's floats miss the least sum of these; the answer here doesn't."""
        for matrix, least in [([[5, 1e17], [4, 1e17]], 10**17 + 4), (2**60 + numpy.array([[1, 3], [0, 1]]), 2**61 + 2)]:
            pairs = sigdorf.linear_sum_assignment(matrix)
            self.assertEqual(sum(map(int, numpy.array(matrix)[pairs].tolist())), least)
            self.assertGreaterEqual(sum(map(int, numpy.array(matrix)[scipy.optimize.linear_sum_assignment(matrix)].tolist())), least)


if __name__ == "__main__":
    unittest.main()
