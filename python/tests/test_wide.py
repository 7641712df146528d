"""Problems of more rows and columns than 32 bits hold the pairs of, and of so many that what takes the square of them would be seen."""
import ctypes
import math
import unittest

from limited import Limited, numpy, scipy, sigdorf
from test_fast import without

if numpy:
    from sigdorf import fast, library

MOST = 4_194_304


def entries_of(random, shape, degree, costs):
    """Random entries, so many a row, and a full assignment among them: by `costs` of how many."""
    rows, mine = numpy.repeat(numpy.arange(shape[0]), degree), numpy.arange(shape[0])
    rows, columns = numpy.append(rows, mine), numpy.append(random.integers(0, shape[1], len(rows)), random.permutation(shape[1])[: shape[0]])
    # Each pair once.
    rows, columns = numpy.divmod(numpy.unique(rows * shape[1] + columns), shape[1])
    return rows, columns, costs(len(rows)), shape


def banded(random, shape, degree):
    """Entries whose least sum is known, and that: each costs the duals of its row and column, and those beside the chosen ones more."""
    mine = numpy.arange(shape[0])
    rows, columns = numpy.repeat(mine, degree), (numpy.arange(shape[0])[:, None] + numpy.arange(degree)).ravel() % shape[1]
    chosen = (mine + random.integers(0, degree)) % shape[1]
    of_row, of_column = random.integers(-(10**8), 10**8, shape[0]), numpy.zeros(shape[1], int)
    of_column[chosen] = -random.integers(0, 10**8, shape[0])
    more = numpy.where(columns == chosen[rows], 0, random.integers(1, 10**6, len(rows)))
    return (rows, columns, of_row[rows] + of_column[columns] + more, shape), int(of_row.sum() + of_column.sum())


class Wide(Limited):
    def assert_least(self, lists, least=None):
        """A check passes, turned about too, and from the duals of the answer the same comes out."""
        solution = sigdorf.solve(*lists)
        self.assertTrue(solution.is_optimal)
        sigdorf.check(solution, *lists)
        if least is not None:
            self.assertEqual(solution.cost, least)
        rows, columns, costs, shape = lists
        turned = columns, rows, costs, shape[::-1]
        other = sigdorf.solve(*turned)
        sigdorf.check(other, *turned)
        self.assertEqual(other.exact_cost, solution.exact_cost)
        starts = [solution] if costs.dtype.kind == "f" else [solution, solution.prices]
        for start in starts:
            again = sigdorf.solve(*lists, start=start)
            self.assertEqual((again.exact_cost, again.columns.tolist()), (solution.exact_cost, solution.columns.tolist()))
        return solution

    def test_known(self):
        random = numpy.random.default_rng(1)
        for shape in [(30_000, 30_000), (25_000, 40_000)]:
            with self.subTest(shape=shape):
                lists, least = banded(random, shape, 8)
                self.assert_least(lists, least)

    def test_beside_scipy(self):
        if not scipy:
            self.skipTest("SciPy is not there")
        random = numpy.random.default_rng(2)
        for shape in [(30_000, 30_000), (25_000, 40_000)]:
            lists = entries_of(random, shape, 8, lambda count: random.integers(1, 10**6, count))
            matrix = scipy.sparse.csr_matrix((lists[2], lists[:2]), shape)
            # That of whole numbers is exact, as floats are.
            least = matrix[scipy.sparse.csgraph.min_weight_full_bipartite_matching(matrix)].sum()
            with self.subTest(shape=shape):
                solution = self.assert_least(lists, least)
                pairs = sigdorf.min_weight_full_bipartite_matching(matrix)
                self.assertEqual([side.tolist() for side in pairs], [solution.rows.tolist(), solution.columns.tolist()])

    def test_floats(self):
        """Which of two rows gets a column that both want hangs on last bits; and slacks have more bits than those of 10,000 rows, so that rounds are less fine."""
        random = numpy.random.default_rng(3)
        for shape, last in [((200_000, 200_000), 1e-10), ((30_000, 40_000), 1e-14), ((60_000, 60_000), 1e-6)]:
            mine, own = numpy.arange(shape[0]), random.random(shape[0])
            dearer = numpy.repeat(random.random(shape[0] // 2) / 100, 2) + random.random(shape[0]) * last
            rows = numpy.concatenate([mine] * 4)
            columns = numpy.concatenate([mine & ~1, mine | 1, *random.integers(0, shape[1], (2, shape[0]))])
            lists = rows, columns, own[rows] + numpy.concatenate([0 * own, dearer, *(0.01 + random.random((2, shape[0])) / 100)]), shape
            with self.subTest(shape=shape):
                solution = sigdorf.solve(*lists)
                sigdorf.check(solution, *lists)
                with without():
                    self.assertEqual(sigdorf.solve(*lists).columns.tolist(), solution.columns.tolist())

    def test_ties(self):
        random = numpy.random.default_rng(4)
        for shape, most in [((20_000, 20_000), 9), ((20_000, 27_000), 9), ((8_000, 8_000), 2), ((20_000, 27_000), 2)]:
            lists = entries_of(random, shape, 6, lambda count: random.integers(1, most, count))
            with self.subTest(shape=shape, most=most):
                solution = sigdorf.solve(*lists)
                with without():
                    self.assertEqual(sigdorf.solve(*lists).columns.tolist(), solution.columns.tolist())

    def test_infeasible(self):
        random = numpy.random.default_rng(5)
        rows, columns, costs, shape = entries_of(random, (50_000, 50_000), 6, lambda count: random.integers(1, 1000, count))
        # So many rows have one column fewer.
        few = random.permutation(50_000)[:700]
        columns = numpy.where(rows < 701, few[columns % 700], columns)
        for turned in (False, True):
            with self.subTest(turned=turned), self.assertRaises(sigdorf.Infeasible) as caught:
                sigdorf.solve(*((columns, rows) if turned else (rows, columns)), costs, (50_001, 50_000) if turned else shape)
            fault = caught.exception
            # With a row more the columns are the persons, and these entries' rows.
            some, led = (fault.columns, fault.rows) if fault.by_columns else (fault.rows, fault.columns)
            mine, theirs = (rows, columns) if fault.by_columns is turned else (columns, rows)
            self.assertLess(len(led), len(some))
            self.assertTrue(set(theirs[numpy.isin(mine, some)].tolist()) <= set(led.tolist()))

    def test_checks_refuse(self):
        lists, least = banded(numpy.random.default_rng(6), (30_000, 40_000), 4)
        solution = sigdorf.solve(*lists)
        prices = solution.prices.copy()
        prices[solution.columns[12_345]] += 10**9 * solution.scale
        for fault, parts in [("sum", {"cost": least - 1}), ("better entry", {"prices": prices}), ("of its entries", {"columns": solution.columns[::-1]}), ("size", {"prices": prices[:-1]})]:
            with self.subTest(fault), self.assertRaisesRegex(sigdorf.Refused, fault):
                sigdorf.check(solution._replace(**parts), *lists)

    def test_pairs_beyond_32_bits(self):
        """Row 42,950 and column 0, and row 0 and column 32,704, of 100,000, have the same number in 32 bits."""
        side = numpy.arange(100_000)
        rows, columns = (numpy.append(side, ends).astype(numpy.int32) for ends in ([42_950, 0], [0, 32_704]))
        costs = numpy.append(numpy.full(100_000, 5), [1, 1])
        lists = rows, columns, costs, (100_000, 100_000)
        solution = sigdorf.solve(*lists)
        self.assertEqual(solution.cost, 500_000)
        # All rows but these have no other entry.
        self.assertEqual(numpy.flatnonzero(solution.margins(*lists[:3]) < math.inf).tolist(), [0, 42_950])
        with self.assertRaises(sigdorf.Infeasible):
            sigdorf.solve(*lists, forced=[(42_950, 0)])
        with self.assertRaises(sigdorf.Infeasible):
            sigdorf.solve(*lists, forbidden=[(42_950, 42_950)])
        self.assertEqual(sigdorf.solve(*lists, forbidden=[(42_950, 0)]).columns.tolist(), side.tolist())
        with self.assertRaisesRegex(ValueError, "is no entry"):
            sigdorf.solve(*lists, forced=[(42_950, 32_704)])
        if scipy:
            matrix = scipy.sparse.coo_matrix((costs, (rows, columns)), (100_000, 100_000))
            self.assertEqual(len(sigdorf.solve(matrix).rows), 100_000)
            self.assertEqual(sigdorf.certify(side, side, matrix).cost, 500_000)

    def test_limits_of_pairs(self):
        """Who is dearer than the limit stays free."""
        random = numpy.random.default_rng(7)
        mine = numpy.arange(50_000)
        rows, columns = numpy.append(mine, mine), numpy.append(mine, (mine + 1) % 60_000)
        costs = numpy.append(random.integers(1, 99, 50_000), numpy.full(50_000, 100))
        for words in ({"limit": 50}, {"limit": numpy.full(50_000, 50)}, {"limit": 50, "column_limit": 0}):
            with self.subTest(words.keys()):
                found = sigdorf.match(costs, rows=rows, columns=columns, shape=(50_000, 60_000), **words)
                self.assertEqual(found.costs.sum() + 50 * len(found.free_rows), numpy.minimum(costs[:50_000], 50).sum())
                self.assertEqual((found.rows == found.columns).all(), True)
                self.assertEqual((len(found.rows) + len(found.free_rows), len(found.rows) + len(found.free_columns)), (50_000, 60_000))

    def test_columns_for_several(self):
        random = numpy.random.default_rng(8)
        rows, columns, costs, _ = entries_of(random, (30_000, 30_000), 4, lambda count: random.integers(1, 1000, count))
        halves = rows, columns // 2, costs, (30_000, 15_000)
        solution = sigdorf.solve(*halves, capacity=2)
        sigdorf.check(solution, *halves, capacity=2)
        self.assertLessEqual(solution.cost, sigdorf.solve(rows, columns, costs, (30_000, 30_000)).cost)
        self.assertEqual(numpy.bincount(solution.columns).tolist(), [2] * 15_000)

    def test_limit_of_prices(self):
        """A chain in which each price is above the next one by all that costs may differ: where that is beyond 2^61 there is a bound."""
        for rows in (30_000, 50_000):
            mine = numpy.arange(rows)
            lists = numpy.append(mine, mine[1:]), numpy.append(mine, mine[:-1]), numpy.append(numpy.full(rows, 10**9), numpy.full(rows - 1, -(10**9))), (rows, rows)
            solution = sigdorf.solve(*lists)
            self.assertTrue(solution.bound <= rows * 10**9 <= solution.cost)
            self.assertEqual(solution.is_optimal, solution.gap == 0)
            if solution.is_optimal:
                sigdorf.check(solution, *lists)
            else:
                self.assertGreater(rows, 33_000)
                with self.assertRaisesRegex(sigdorf.Unsettled, "a limit ended the search"):
                    solution.u
                with self.assertRaises(sigdorf.Refused):
                    sigdorf.check(solution, *lists)

    def test_most(self):
        solution = sigdorf.solve([0], [MOST - 1], [5])
        self.assertEqual((solution.cost, len(solution.prices), solution.shape), (5, MOST, (1, MOST)))
        for shape, fault in [((MOST + 1, MOST + 1), "smaller side of the problem must number 1 to 4,194,304"), ((1, MOST + 1), "larger side of the problem must number 4,194,304 at most")]:
            with self.assertRaisesRegex(ValueError, fault):
                sigdorf.solve([0], [0], [5], shape)
        # More entries than there may be, in an array of one.
        many = numpy.broadcast_to(numpy.int64(0), (2**28 + 1,))
        for given in ((many, [0], [0]), ([0], many, [0]), ([0], [0], many)):
            with self.assertRaisesRegex(ValueError, "must number 268,435,456 at most"):
                sigdorf.solve(*given)
        with self.assertRaisesRegex(ValueError, "more than 268,435,456 entries"):
            sigdorf.solve(numpy.broadcast_to(numpy.int8(0), (16_384, 16_385)))


class Bids(Limited):
    """The usual bids are 1,000 a row where that is more; others are as they are given."""

    ROWS = 200_000

    def asked(self, bids):
        mine = numpy.arange(self.ROWS)
        return sigdorf.solve(mine, mine, numpy.ones(self.ROWS, int), **({} if bids is None else {"bids": bids}))

    def test_extension(self):
        if not fast.is_there():
            self.skipTest("the extension isn't used")
        seen, number, pointer, size = [], ctypes.c_uint32, ctypes.c_void_p, ctypes.c_size_t
        kind = ctypes.CFUNCTYPE(ctypes.c_int32, number, number, pointer, size, pointer, size, ctypes.c_uint64)
        # It answers that there is no memory, so that the library is asked without the extension.
        call = kind(lambda persons, objects, arcs, count, start, starts, bids: seen.append(bids) or library.MEMORY)
        real = fast.address_of("sigdorf_solve_dense_watched"), fast.address_of("sigdorf_solve_watched")
        fast._extension.bind(real[0], ctypes.cast(call, ctypes.c_void_p).value)
        try:
            for bids in (None, 77, 10**9):
                self.assertEqual(self.asked(bids).cost, self.ROWS)
        finally:
            fast._extension.bind(*real)
        self.assertEqual(seen, [1_000 * self.ROWS, 77, 10**9])


if __name__ == "__main__":
    unittest.main()
