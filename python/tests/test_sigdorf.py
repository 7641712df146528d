"""Tests of the module: small random problems against SciPy's dense call, worked ones, and each refusal."""
import decimal
import unittest

from limited import Limited, numpy, scipy, sigdorf


class Worked(Limited):
    TWO = ([0, 0, 1, 1], [0, 1, 0, 1], [1, 2, 1, 4])

    def test_least(self):
        solution = sigdorf.solve(*self.TWO)
        self.assertEqual((solution.columns.tolist(), solution.entries.tolist(), solution.cost), ([1, 0], [1, 2], 3))
        self.assertTrue(solution.is_optimal)
        self.assertEqual(solution.scale, 3)
        sigdorf.check(solution, *self.TWO)

    def test_most(self):
        solution = sigdorf.solve(*self.TWO, maximize=True)
        self.assertEqual((solution.columns.tolist(), solution.cost), ([0, 1], 5))
        sigdorf.check(solution, *self.TWO, maximize=True)

    def test_start(self):
        solution = sigdorf.solve(*self.TWO)
        self.assertEqual(sigdorf.solve(*self.TWO, start=solution.prices).cost, 3)
        with self.assertRaisesRegex(ValueError, "price 1 of the start"):
            sigdorf.solve(*self.TWO, start=[0, -1])

    def test_bracket(self):
        solution = sigdorf.solve(*self.TWO, bids=0)
        self.assertTrue(solution.bound <= 3 <= solution.cost)

    def test_decimals(self):
        costs = [0.1, 0.29, 0.1, 0.4]
        with decimal.localcontext(decimal.Context(prec=1)):
            solution = sigdorf.solve(self.TWO[0], self.TWO[1], costs, decimals=2)
        self.assertEqual((solution.cost, solution.scale), (decimal.Decimal("0.39"), 300))
        sigdorf.check(solution, self.TWO[0], self.TWO[1], costs, decimals=2)
        with self.assertRaisesRegex(ValueError, "0.29 of entry 1 has more than 1 decimals"):
            sigdorf.solve(self.TWO[0], self.TWO[1], costs, decimals=1)

    def test_more_rows(self):
        solution = sigdorf.solve([0, 1, 2, 2], [0, 0, 0, 1], [3, 1, 2, 5])
        self.assertEqual((solution.rows.tolist(), solution.columns.tolist(), solution.cost), ([1, 2], [0, 1], 6))
        sigdorf.check(solution, [0, 1, 2, 2], [0, 0, 0, 1], [3, 1, 2, 5])

    def test_infeasible(self):
        with self.assertRaises(sigdorf.Infeasible) as caught:
            sigdorf.solve([0, 1], [1, 1], [1, 1], (2, 3))
        self.assertEqual((caught.exception.rows.tolist(), caught.exception.columns.tolist()), ([0, 1], [1]))
        with self.assertRaises(sigdorf.Infeasible) as caught:
            sigdorf.solve([1, 1], [0, 1], [1, 1], (3, 2))
        self.assertEqual((caught.exception.rows.tolist(), caught.exception.columns.tolist()), ([1], [0, 1]))

    def test_nothing(self):
        self.assertEqual(sigdorf.solve([], [], []).cost, 0)
        self.assertEqual(sigdorf.linear_sum_assignment(numpy.zeros((0, 3)))[0].size, 0)

    def test_refused(self):
        rows, columns, costs = self.TWO
        for fault, words in [
            ("many entries|as many as", (rows[:3], columns, costs)),
            ("not be below 0", ([0, 0, 1, -1], columns, costs)),
            ("nan of entry 3", (rows, columns, [1, 2, 3, numpy.nan])),
            ("shape doesn't have", (rows, columns, costs, (1, 2))),
            ("larger side", (rows, columns, costs, (2, 4_194_305))),
            ("smaller side", (rows, columns, costs, (4_194_305, 4_194_305))),
            ("one list of numbers", (rows, columns, ["a"] * 4)),
        ]:
            with self.subTest(fault), self.assertRaisesRegex(ValueError, fault):
                sigdorf.solve(*words)
        with self.assertRaisesRegex(ValueError, "row 1, column 1: the cost 1000000001 of entry 3 is beyond 1000000000"):
            sigdorf.solve(rows, columns, [1, 2, 3, 10**9 + 1], decimals=0)

    def test_check_refuses(self):
        solution = sigdorf.solve(*self.TWO)
        for fault, wrong in [
            ("sum", solution._replace(cost=4)),
            ("better entry", solution._replace(prices=numpy.array([1000, 0]))),
            ("of its entries", solution._replace(columns=solution.columns[::-1])),
            ("doesn't have", solution._replace(entries=numpy.array([1, 4]))),
            ("size", solution._replace(prices=numpy.zeros(1, numpy.int64))),
        ]:
            with self.subTest(fault), self.assertRaisesRegex(sigdorf.Refused, fault):
                sigdorf.check(wrong, *self.TWO)


@unittest.skipUnless(scipy, "scipy is not there")
class AsSciPy(Limited):
    def test_random(self):
        random = numpy.random.default_rng(1)
        for _ in range(1000):
            shape = random.integers(1, 8, 2)
            dense = random.integers(-5, 6, shape) * (random.random(shape) < random.uniform(0.2, 1))
            maximize = bool(random.integers(2))
            gaps = numpy.where(dense != 0, dense.astype(float), -numpy.inf if maximize else numpy.inf)
            # The dense call: the sparse one of SciPy 1.10 doesn't return on some problems without a full matching.
            try:
                wanted = gaps[scipy.optimize.linear_sum_assignment(gaps, maximize)].sum()
            except ValueError:
                wanted = None
            self.compare(dense, scipy.sparse.csr_matrix(dense), sigdorf.min_weight_full_bipartite_matching, maximize, wanted)
            self.compare(dense, gaps, sigdorf.linear_sum_assignment, maximize, wanted)

    def compare(self, dense, matrix, call, maximize, wanted):
        try:
            rows, columns = call(matrix, maximize)
        except sigdorf.Infeasible as fault:
            self.assertIsNone(wanted)
            block = dense[fault.rows] if not fault.by_columns else dense[:, fault.columns].T
            some, few = (fault.columns, fault.rows) if fault.by_columns else (fault.rows, fault.columns)
            self.assertEqual(numpy.flatnonzero((block != 0).any(axis=0)).tolist(), few.tolist())
            self.assertLess(len(few), len(some))
            return
        self.assertEqual(dense[rows, columns].sum(), wanted)
        self.assertEqual(len(rows), min(dense.shape))
        self.assertTrue((numpy.diff(rows) > 0).all() and len(set(columns.tolist())) == len(columns) and (dense[rows, columns] != 0).all())

    def test_known_to_hang(self):
        matrix = scipy.sparse.csr_matrix([[0, 4, 3, 0], [5, 0, 0, -3], [-1, 0, 0, 1], [3, 0, 0, -4]])
        with self.assertRaises(sigdorf.Infeasible) as caught:
            sigdorf.min_weight_full_bipartite_matching(matrix)
        self.assertEqual((caught.exception.rows.tolist(), caught.exception.columns.tolist()), ([1, 2, 3], [0, 3]))


if __name__ == "__main__":
    unittest.main()
