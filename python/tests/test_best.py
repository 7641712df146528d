"""Assignments in the order of their costs, and anybody's held against the least, by looking at all of them; results as they are shown; examples of docstrings."""
import doctest
import fractions
import itertools
import math
import pickle
import unittest

from limited import Limited, numpy, scipy, sigdorf
from test_ties import NUMBERS

try:
    import networkx
except ImportError:
    networkx = None
if numpy:
    import floats


def all_of(table, maximize):
    """Exact cost and columns (or rows, of more rows than columns) of all full assignments, the best and first before the others."""
    if table.shape[0] > table.shape[1]:
        return all_of(table.T, maximize)
    exact = [[fractions.Fraction(cost) if numpy.isfinite(cost) else None for cost in row] for row in table.tolist()]
    found = []
    for columns in itertools.permutations(range(table.shape[1]), table.shape[0]):
        costs = [row[column] for row, column in zip(exact, columns)]
        if None not in costs:
            found.append((sum(costs), list(columns)))
    return sorted(found, key=lambda pair: (-pair[0] if maximize else pair[0], pair[1]))


def nearest(exact):
    try:
        return float(exact)
    except OverflowError:
        return math.inf if exact > 0 else -math.inf


def table_of(random, number):
    shape = tuple(random.integers(1, 5, 2))
    if number % 3:
        table = random.choice(NUMBERS[number % len(NUMBERS)], shape)
    else:
        table = floats.KINDS[number % len(floats.KINDS)](random, shape)
    if number % 4 == 0 and table.dtype.kind == "f":
        table = numpy.where(random.random(shape) < 0.25, -numpy.inf if number % 2 else numpy.inf, table)
    return table


class Best(Limited):
    def test_against_all(self):
        random = numpy.random.default_rng(1)
        for number in range(250):
            table, maximize, k = table_of(random, number), number % 2 == 1, int(random.integers(1, 12))
            wanted = all_of(table, maximize)
            with self.subTest(table=table.tolist(), maximize=maximize, k=k):
                if not wanted:
                    with self.assertRaises(sigdorf.Infeasible):
                        sigdorf.k_best(table, k, maximize=maximize)
                    continue
                found = sigdorf.k_best(table, k, maximize=maximize)
                by_columns = table.shape[0] > table.shape[1]
                self.assertEqual([(one.exact_cost, (one.rows[numpy.argsort(one.columns)] if by_columns else one.columns).tolist()) for one in found], wanted[:k])
                self.assertEqual([one.cost for one in found], [int(exact) if type(one.cost) is int else nearest(exact) for one, (exact, _) in zip(found, wanted)])

    def test_forms(self):
        table = numpy.array([[4.0, 1, 3], [2, 5, 5], [3, 2, 2]])
        wanted = sigdorf.k_best(table, 6)
        self.assertEqual([one.cost for one in wanted], sorted(one.cost for one in wanted))
        self.assertEqual(sigdorf.k_best(table.tolist(), 6), wanted)
        self.assertEqual(sigdorf.k_best(table, 100), wanted)
        if scipy:
            self.assertEqual(sigdorf.k_best(scipy.sparse.coo_matrix(table), 6), wanted)
        self.assertEqual(len(sigdorf.k_best(numpy.zeros((0, 3)), 5)), 1)

    def test_faults(self):
        for k in (0, -1, 1.5, True, "2", None):
            with self.assertRaisesRegex(ValueError, "k must be"):
                sigdorf.k_best([[1]], k)
        with self.assertRaises(sigdorf.Unsettled):
            sigdorf.k_best([[1, 2, numpy.inf], [1, 4, 9], [numpy.inf, 3, 7]], 2, bids=0)


class Certified(Limited):
    def test_against_all(self):
        random = numpy.random.default_rng(2)
        for number in range(250):
            table, maximize = table_of(random, number), number % 2 == 1
            assignments = all_of(table, maximize)
            for exact, taken in assignments[:: max(1, len(assignments) // 5)]:
                rows, columns = numpy.arange(len(taken)), numpy.array(taken)
                if table.shape[0] > table.shape[1]:
                    rows, columns = columns, rows
                order = random.permutation(len(taken))
                with self.subTest(table=table.tolist(), maximize=maximize, rows=rows.tolist(), columns=columns.tolist()):
                    if exact == assignments[0][0]:
                        solution = sigdorf.certify(rows[order], columns[order], table, maximize=maximize)
                        sigdorf.check(solution, table, maximize=maximize)
                        self.assertEqual((solution.exact_cost, dict(zip(solution.rows, solution.columns))), (exact, dict(zip(rows, columns))))
                    else:
                        with self.assertRaisesRegex(sigdorf.Refused, "and the (least|greatest) one costs"):
                            sigdorf.certify(rows[order], columns[order], table, maximize=maximize)

    def test_no_assignments(self):
        table = [[1, 2, numpy.inf], [1, 4, 9]]
        for rows, columns, words in [
            ([0, 2], [0, 1], "no row 2 in a table of 2 rows"),
            ([0, 1], [0, -1], "no column -1 in a table of 3 columns"),
            ([0, 1], [1, 1], "column 1 appears 2 times"),
            ([0], [1], "1 pairs are no full assignment, which has 2"),
            ([0, 1], [2, 0], "row 0, column 2 is no entry"),
        ]:
            with self.assertRaisesRegex(sigdorf.Refused, words):
                sigdorf.certify(rows, columns, table)
        for rows, columns in [([0.0, 1.0], [0, 1]), ([0, 1], [0]), (None, [0]), ([True, False], [0, 1])]:
            with self.assertRaises(ValueError) as caught:
                sigdorf.certify(rows, columns, table)
            self.assertIs(type(caught.exception), ValueError)

    def test_last_bits(self):
        """Two sums that are one float."""
        with self.assertRaisesRegex(sigdorf.Refused, "costs 1e\\+17, and the least one costs 1e\\+17; they differ by 1"):
            sigdorf.certify([0, 1], [0, 1], [[5.0, 1e17], [4.0, 1e17]])

    @unittest.skipUnless(scipy, "scipy is not there")
    def test_scipys(self):
        table = numpy.random.default_rng(3).random((40, 50))
        rows, columns = scipy.optimize.linear_sum_assignment(table)
        self.assertEqual(sigdorf.certify(rows, columns, table).columns.tolist(), columns.tolist())


class Shown(Limited):
    def test_short(self):
        table = numpy.random.default_rng(4).random((300, 300))
        for found in (sigdorf.solve(table), sigdorf.match(table, 0.5), sigdorf.k_best(table[:9, :9], 1)[0]):
            self.assertLess(len(repr(found)), 250)
        self.assertRegex(repr(sigdorf.solve(table)), r"^Solution\(cost=[\d.]+, pairs=\{0: \d+, 1: \d+, .*5: \d+, and 294 more\}\)$")
        self.assertIn("bound=", repr(sigdorf.solve([[1, 2, numpy.inf], [1, 4, 9], [numpy.inf, 3, 7]], bids=0)))

    def test_equal(self):
        table = [[1.5, 2], [1, 4]]
        for call in (sigdorf.solve, lambda given: sigdorf.match(given, 2), lambda given: sigdorf.k_best(given, 1)[0]):
            one = call(table)
            self.assertEqual(one, call(table))
            self.assertEqual(hash(one), hash(call(table)))
            self.assertEqual(one, pickle.loads(pickle.dumps(one)))
            self.assertNotEqual(one, call([[1, 2], [1.5, 2.5]]))
            self.assertNotEqual(one, tuple(one))
            self.assertFalse(one != call(table))
            self.assertEqual(len({one, call(table)}), 1)


class Examples(Limited):
    def test_each(self):
        """Each public name has an example, and it comes out so."""
        words = {"sigdorf": sigdorf, "numpy": numpy, "scipy": scipy, "networkx": networkx}
        for name in sigdorf.__all__:
            given = getattr(sigdorf, name)
            if name == "USUAL_BIDS" or name == "min_weight_full_bipartite_matching" and not scipy:
                continue
            told = []
            # Those of a class's calls too.
            tests = [test for test in doctest.DocTestFinder().find(given, name, globs=words) if test.examples]
            tests = [test for test in tests if networkx or "networkx" not in test.docstring]
            self.assertTrue(tests, name)
            for test in tests:
                self.assertFalse(doctest.DocTestRunner(verbose=False).run(test, out=told.append).failed, "".join(told))


if __name__ == "__main__":
    unittest.main()
