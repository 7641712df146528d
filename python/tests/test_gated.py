"""Pairs under a limit, against all choices of pairs and against a doubled table; and the call of the package lap."""
import fractions
import itertools
import math
import unittest

from limited import Limited, numpy, scipy, sigdorf

if numpy:
    import floats


def least_of_all(matrix, limit, maximize):
    """The least (or the greatest) sum of pairs, each less the limit, over all choices, in Fractions."""
    rows, columns = matrix.shape
    if rows > columns:
        return least_of_all(matrix.T, limit, maximize)
    gains = [[fractions.Fraction(cost) - fractions.Fraction(limit) for cost in row] for row in matrix.tolist()]
    best = max if maximize else min
    # Who stays free takes a column of his own.
    return best(sum(gains[row][column] for row, column in enumerate(taken) if column < columns) for taken in itertools.permutations(range(columns + rows), rows))


class Match(Limited):
    def test_random(self):
        random = numpy.random.default_rng(1)
        for number in range(400):
            shape, maximize = random.integers(1, 4, 2), bool(random.integers(2))
            matrix = floats.KINDS[number % len(floats.KINDS)](random, shape)
            limit = random.choice(matrix.ravel()).item() if number % 3 else 1
            found = sigdorf.match(matrix, limit, maximize=maximize)
            costs = matrix[found.rows, found.columns]
            self.assertEqual(found.costs.tolist(), costs.tolist())
            self.assertTrue((costs >= limit).all() if maximize else (costs <= limit).all())
            total = sum(fractions.Fraction(cost) - fractions.Fraction(limit) for cost in costs.tolist())
            self.assertEqual(total, least_of_all(matrix, limit, maximize))
            for side, held, free in zip(shape, (found.rows, found.columns), (found.free_rows, found.free_columns)):
                self.assertEqual(sorted([*held, *free]), list(range(side)))

    def test_sparse_and_lists(self):
        rows, columns, costs = [0, 1, 1, 2], [0, 0, 2, 2], [0.5, 0.25, 0.75, 0.125]
        found = sigdorf.match(costs, 0.6, rows=rows, columns=columns, shape=(4, 3))
        self.assertEqual([side.tolist() for side in found[:4]], [[1, 2], [0, 2], [0, 3], [1]])
        if scipy:
            again = sigdorf.match(scipy.sparse.csr_matrix((costs, (rows, columns)), (4, 3)), 0.6)
            self.assertEqual([side.tolist() for side in again[:4]], [side.tolist() for side in found[:4]])

    def test_nothing(self):
        for shape in [(0, 0), (0, 3), (2, 0)]:
            found = sigdorf.match(numpy.zeros(shape), 1.0)
            self.assertEqual([len(side) for side in found[:4]], [0, 0, *shape])
        self.assertEqual(sigdorf.match([[5.0, math.inf]], 1)[2].tolist(), [0])

    def test_limits(self):
        for limit in (math.inf, -math.inf, math.nan, None, "1", fractions.Fraction(1, 3), 10**400, [1, 2], [[1]], [math.inf], ["1"], [None], [True], []):
            with self.subTest(limit=limit), self.assertRaisesRegex(ValueError, "limit must be"):
                sigdorf.match([[0.5]], limit)
        for costs, limit in [(numpy.array([[2**53 + 1]]), 0.5), (numpy.array([[1]]), 2**63)]:
            with self.assertRaisesRegex(ValueError, "limit must be"):
                sigdorf.match(costs, limit)
        self.assertEqual(sigdorf.match(numpy.array([[2**63 - 1, 2**63 - 2]]), 2**63 - 2).columns.tolist(), [1])
        self.assertEqual(sigdorf.match([[3, 2]], 2.5).columns.tolist(), [1])

    def test_faults(self):
        for costs in ([[1.0, math.nan]], [[1.0, -math.inf]], [1.0], "ab"):
            with self.assertRaises(ValueError):
                sigdorf.match(costs, 5)
        with self.assertRaisesRegex(ValueError, "nan of entry 0"):
            sigdorf.match([math.nan], 5, rows=[0], columns=[0])
        with self.assertRaisesRegex(ValueError, "at most together"):
            sigdorf.match([1], 5, rows=[0], columns=[0], shape=(5_000, 4_189_305))


def least_of_own(table, limits, column_limits, maximize):
    """The least (or greatest) sum of pairs and of what stays free, over all choices, in Fractions."""
    rows, columns = table.shape
    exact, limits, column_limits = ([fractions.Fraction(number) for number in numbers.ravel().tolist()] for numbers in (table, limits, column_limits))
    best = max if maximize else min

    def total(taken):
        held = {column for column in taken if column < columns}
        pairs = sum(exact[row * columns + column] if column < columns else limits[row] for row, column in enumerate(taken))
        return pairs + sum(limit for column, limit in enumerate(column_limits) if column not in held)

    return best(map(total, itertools.permutations(range(columns + rows), rows)))


class OwnLimits(Limited):
    def assert_best(self, table, limits, column_limits, maximize):
        words = {} if column_limits is None else {"column_limit": column_limits}
        found = sigdorf.match(table, limits, maximize=maximize, **words)
        every = [numpy.zeros(table.shape[1], int) if column_limits is None else numpy.broadcast_to(column_limits, table.shape[1]), numpy.broadcast_to(limits, table.shape[0])]
        self.assertEqual(found.costs.tolist(), table[found.rows, found.columns].tolist())
        total = sum(map(fractions.Fraction, found.costs.tolist()))
        for free, limit in zip((found.free_columns, found.free_rows), every):
            total += sum(map(fractions.Fraction, numpy.asarray(limit)[free].tolist()))
        self.assertEqual(total, least_of_own(table, numpy.asarray(every[1]), numpy.asarray(every[0]), maximize))
        for side, held, free in zip(table.shape, found[:2], found[2:4]):
            self.assertEqual(sorted([*held, *free]), list(range(side)))

    def test_random(self):
        random = numpy.random.default_rng(3)
        for number in range(300):
            shape, maximize = random.integers(1, 4, 2), bool(random.integers(2))
            table = floats.KINDS[number % len(floats.KINDS)](random, shape)
            if table.dtype == numpy.uint64:
                table = table >> numpy.uint64(1)
            limits, column_limits = (random.choice(table.ravel(), side) for side in shape)
            with self.subTest(table=table.tolist(), limits=limits.tolist(), column_limits=column_limits.tolist(), maximize=maximize):
                self.assert_best(table, limits, None, maximize)
                self.assert_best(table, limits, column_limits // 2 if table.dtype.kind != "f" else column_limits / 2, maximize)
                self.assert_best(table, limits[0].item(), column_limits.tolist(), maximize)
                self.assert_best(table, limits.tolist(), column_limits[0].item(), maximize)

    def test_one_for_all(self):
        """A list of one limit is that limit."""
        random = numpy.random.default_rng(4)
        for number in range(60):
            table = random.choice([0.25, 0.5, 1.5], random.integers(1, 6, 2))
            for sides in (table, table.T[: len(table)]):
                found = sigdorf.match(sides, [0.5] * len(sides))
                self.assertEqual(found.costs.sum() + 0.5 * len(found.free_rows), (one := sigdorf.match(sides, 0.5)).costs.sum() + 0.5 * len(one.free_rows))
                if len(sides) <= sides.shape[1]:
                    self.assertEqual(found, one)

    def test_worked(self):
        self.assertEqual(sigdorf.match([[5, 5], [5, 5]], [4, 6]).free_rows.tolist(), [0])
        self.assertEqual(sigdorf.match([[5, 5], [5, 5]], [4, 4], column_limit=[0, 2]).columns.tolist(), [1])
        self.assertEqual(sigdorf.match([5, 6], [6, 5], rows=[0, 1], columns=[0, 0]).rows.tolist(), [0])
        self.assertEqual([len(side) for side in sigdorf.match(numpy.zeros((0, 2)), [], column_limit=1)[:4]], [0, 0, 0, 2])

    def test_faults(self):
        for words in ({"column_limit": [1]}, {"column_limit": math.inf}, {"column_limit": "1"}, {"column_limit": [1, math.nan]}):
            with self.subTest(words), self.assertRaisesRegex(ValueError, "column_limit must be"):
                sigdorf.match([[1, 2]], 5, **words)
        for costs, limit in [(numpy.array([[2**53 + 1]]), [0.5]), (numpy.array([[0.5]]), [2**53 + 1]), (numpy.array([[2**63]], "u8"), [1]), (numpy.array([[1]]), numpy.array([2**63], "u8"))]:
            with self.assertRaisesRegex(ValueError, "without being rounded"):
                sigdorf.match(costs, limit)
        with self.assertRaisesRegex(ValueError, "row 0, column 1 has nan"):
            sigdorf.match([[1, math.nan]], [1])
        for words in ({"limit": 5, "column_limit": 1}, {"limit": [5] * 5_000}):
            with self.assertRaisesRegex(ValueError, "4,194,304 at most together"):
                sigdorf.match([1], rows=[0], columns=[0], shape=(5_000, 4_189_305), **words)
        with self.assertRaises(sigdorf.Unsettled):
            sigdorf.match([[1, 2, 5], [1, 4, 9], [8, 3, 7]], [5, 4, 3], column_limit=1, bids=0)


class Lap(Limited):
    def test_worked(self):
        cost = numpy.array([[1.0, 9.0, 9.0], [9.0, 0.5, 9.0], [9.0, 0.75, 9.0]])
        total, of_row, of_column = sigdorf.lapjv(cost, cost_limit=2.0)
        self.assertEqual((total, of_row.tolist(), of_column.tolist(), of_row.dtype), (1.5, [0, 1, -1], [0, 1, -1], numpy.int32))
        total, of_row, of_column = sigdorf.lapjv(cost)
        self.assertEqual((total, sorted(of_row)), (10.5, [0, 1, 2]))
        self.assertEqual([side.tolist() for side in sigdorf.lapjv(cost, cost_limit=2.0, return_cost=False)], [[0, 1, -1], [0, 1, -1]])

    def test_sums_beyond_floats(self):
        self.assertEqual(sigdorf.lapjv([[1.7e308, 1.0], [1.0, 1.7e308]], cost_limit=0.5)[0], 0)
        self.assertEqual(sigdorf.lapjv(numpy.eye(2) * -1.7e308)[0], -math.inf)
        self.assertEqual(sigdorf.lapjv(numpy.eye(2, dtype=bool))[0], 0)

    def test_other_shapes(self):
        total, of_row, of_column = sigdorf.lapjv([[3, 1, 2]], extend_cost=True)
        self.assertEqual((total, of_row.tolist(), of_column.tolist()), (1, [1], [-1, 0, -1]))
        with self.assertRaisesRegex(ValueError, "Square cost array expected"):
            sigdorf.lapjv([[3, 1, 2]])
        with self.assertRaisesRegex(ValueError, "2-dimensional array expected"):
            sigdorf.lapjv([3, 1, 2])
        self.assertEqual([len(side) for side in sigdorf.lapjv(numpy.zeros((0, 2)), True, 1.0)[1:]], [0, 2])

    def test_other_answers(self):
        random = numpy.random.default_rng(5)
        for number in range(40):
            cost, limit = random.random(random.integers(1, 7, 2)), [math.inf, 0.5][number % 2]
            total, of_row, of_column = sigdorf.lapjv(cost, True, limit)
            rows = numpy.flatnonzero(of_row >= 0)
            for answer in (sigdorf.lapjvx(cost, True, limit), (sigdorf.lapjvx if number % 2 else sigdorf.lapjvc)(cost, **({"extend_cost": True, "cost_limit": limit} if number % 2 else {}))):
                self.assertEqual([answer[0], *(side.tolist() for side in answer[1:])], [total, rows.tolist(), of_row[rows].tolist()])
            self.assertEqual(sigdorf.lapjvxa(cost, True, limit)[1].tolist(), [[row, of_row[row]] for row in rows])
            self.assertEqual(sigdorf.lapjvxa(cost, True, limit, False).shape, (len(rows), 2))
            self.assertEqual(len(sigdorf.lapjvx(cost, True, limit, False)), 2)
        with self.assertRaisesRegex(ValueError, "Square cost array expected"):
            sigdorf.lapjvx([[3, 1, 2]])

    def test_lapmod(self):
        random = numpy.random.default_rng(6)
        for _ in range(40):
            n = int(random.integers(1, 7))
            cost = numpy.where((random.random((n, n)) < 0.5) | numpy.eye(n, dtype=bool), random.random((n, n)), math.inf)
            is_entry = numpy.isfinite(cost)
            given = cost[is_entry], numpy.append(0, numpy.cumsum(is_entry.sum(axis=1))), numpy.nonzero(is_entry)[1]
            wanted = sigdorf.lapjv(cost)
            for found in (sigdorf.lapmod(n, *given), sigdorf.lapmod(n, *(part.tolist() for part in given), fast=False)):
                self.assertEqual([found[0], *(side.tolist() for side in found[1:])], [wanted[0], *(side.tolist() for side in wanted[1:])])
            self.assertEqual(len(sigdorf.lapmod(n, *given, True, False)), 2)
        for given in ((2, [1, 2], [0, 1], [0, 1]), (2, [1, 2], [0, 2, 1], [0, 1]), (2, [1, 2], [1, 1, 2], [0, 1]), (2, [1], [0, 1, 2], [0, 1]), (2, 5, [0, 1, 2], [0, 1])):
            with self.subTest(given=given), self.assertRaisesRegex(ValueError, "ii must be n \\+ 1 places in cc"):
                sigdorf.lapmod(*given)
        for given in ((1.5, [1], [0, 1], [0]), (1, [1], [0, 1], [1]), (1, ["1"], [0, 1], [0]), (1, [1], [0, 1], [0, 0])):
            with self.subTest(given=given), self.assertRaises(ValueError):
                sigdorf.lapmod(*given)
        with self.assertRaises(sigdorf.Infeasible):
            sigdorf.lapmod(2, [1, 2], [0, 1, 2], [0, 0])

    def test_as_a_doubled_table(self):
        """The package lap puts half the limit beside the table for whoever stays free, and nothing where free meets free."""
        random = numpy.random.default_rng(2)
        for _ in range(60):
            shape = random.integers(1, 9, 2)
            cost, limit = random.random(shape), random.random()
            doubled = numpy.full((sum(shape), sum(shape)), limit / 2)
            doubled[shape[0] :, shape[1] :] = 0
            doubled[: shape[0], : shape[1]] = cost
            rows, columns = sigdorf.linear_sum_assignment(doubled)
            mine = (rows < shape[0]) & (columns < shape[1])
            total, of_row, _ = sigdorf.lapjv(cost, True, limit)
            self.assertAlmostEqual(total - limit * (of_row >= 0).sum(), (cost[rows[mine], columns[mine]] - limit).sum())


if __name__ == "__main__":
    unittest.main()
