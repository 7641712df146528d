"""Searches from earlier solutions: the answers are those without a start, and the prices arrive in the right unit."""
import ctypes
import fractions
import math
import unittest
import unittest.mock

from limited import Limited, numpy, scipy, sigdorf
from test_fast import DENSE
from test_manners import Frame
from test_ties import listed

if numpy:
    import floats
    from sigdorf import fast
    from sigdorf.asked import Asked


def same(one, other):
    """Whether two solutions have the same pairs at the same cost; prices may differ."""
    return all(numpy.array_equal(left, right) for left, right in zip(one[:3], other[:3])) and (
        one.cost,
        one.exact_cost,
        one.labels,
        one.shape,
    ) == (other.cost, other.exact_cost, other.labels, other.shape)


def handed_over(asked, start):
    """The costs of a table and the start that the extension hands over to the library."""
    kept, real = [], [fast.address_of(name) for name in ("sigdorf_solve_dense_watched", "sigdorf_solve_watched")]

    @ctypes.CFUNCTYPE(ctypes.c_int32, *DENSE)
    def call(persons, objects, costs, count, stride, gap, prices, starts, *others):
        kept.append(numpy.array((ctypes.c_int64 * count).from_address(costs)))
        kept.append(list((ctypes.c_int64 * starts).from_address(prices)))
        return 6

    fast._extension.bind(ctypes.cast(call, ctypes.c_void_p).value, real[1])
    try:
        fast.solution_of(asked.plain(), asked.maximize, start)
    except MemoryError:
        pass
    finally:
        fast._extension.bind(*real)
    return kept


class Starts(Limited):
    def assert_same(self, table, start, **words):
        solution = sigdorf.solve(table, start=start, **words)
        self.assertTrue(same(solution, sigdorf.solve(table, **words)), (table, words))
        self.assertIs(type(solution.cost), type(sigdorf.solve(table, **words).cost))
        sigdorf.check(solution, table, **words)
        self.assertEqual(sum(solution.u) + sum(solution.v), solution.exact_cost)

    def test_any_start(self):
        random = numpy.random.default_rng(1)
        before = None
        for number in range(400):
            shape = random.integers(1, 6, 2)
            table = floats.KINDS[number % len(floats.KINDS)](random, shape)
            maximize = bool(random.integers(2))
            for start in (before, sigdorf.solve(table, maximize=maximize), sigdorf.solve(table.T, maximize=maximize)):
                self.assert_same(table, start, maximize=maximize)
            before = sigdorf.solve(table, maximize=maximize)

    def test_forms(self):
        random = numpy.random.default_rng(2)
        for number in range(40):
            table = random.integers(1, 1000, random.integers(1, 7, 2)) / 1000
            start = sigdorf.solve(table + random.random(table.shape) / 10)
            wanted = sigdorf.solve(table)
            for given in ((table.tolist(),), listed(table), (numpy.asfortranarray(table),), (table.astype("g"),)):
                self.assertEqual(sigdorf.solve(*given, start=start).exact_cost, wanted.exact_cost)
            self.assertEqual(
                sigdorf.solve(table, start=start, decimals=3).columns.tolist(),
                sigdorf.solve(table, decimals=3).columns.tolist(),
            )
            self.assertEqual(sigdorf.solve(table, start=start, seconds=60).columns.tolist(), wanted.columns.tolist())
            shared = sigdorf.solve(table, capacity=9)
            for one in (start, shared):
                self.assertTrue(same(sigdorf.solve(table, start=one, capacity=9), shared))
            with unittest.mock.patch.object(fast, "_extension", None):
                self.assert_same(table, start)
            if scipy:
                self.assertEqual(
                    sigdorf.solve(scipy.sparse.csr_matrix(table), start=start).exact_cost, wanted.exact_cost
                )

    def test_unit(self):
        """The library gets the very prices of the solution, whatever the unit of the costs."""
        if not fast.is_there():
            self.skipTest("the extension is not there")
        random = numpy.random.default_rng(3)
        for factor, kind in (
            (1, int),
            (1, float),
            (0.125, float),
            (1e-12, float),
            (1e-300, float),
            (1e300, float),
            (10**6, int),
        ):
            for shape in ((5, 7), (6, 6), (7, 5)):
                table = (
                    random.integers(1, 999, shape) * (factor * (1.1 if kind is float and factor != 1 else 1))
                ).astype(kind)
                for maximize in (False, True):
                    solution = sigdorf.solve(table, maximize=maximize)
                    for given in (
                        solution,
                        solution._replace(scale=2 * solution.scale, prices=2 * solution.prices.astype(object)),
                    ):
                        asked = Asked(table, maximize=maximize)
                        costs, start = handed_over(asked, asked.start_of(given))
                        spread = fractions.Fraction(table.max().item()) - fractions.Fraction(table.min().item())
                        unit = (costs.max() - costs.min()) / spread
                        wanted = [price * unit * (min(shape) + 1) for price in solution.exact_prices()]
                        self.assertTrue(
                            all(abs(one - other) <= 1 + other / 2**20 for one, other in zip(start, wanted)),
                            (start, wanted),
                        )
                        if kind is float and factor != 1:
                            self.assertGreater(costs.max() - costs.min(), 2**26)

    def test_of_no_use(self):
        table = numpy.array([[1.5, 2], [1, 4]])
        solution = sigdorf.solve(table)
        faults = [
            {"scale": 0},
            {"prices": None},
            {"prices": [math.nan] * 2},
            {"prices": [10**400] * 2},
            {"shape": None},
            {"costs": None},
            {"maximize": None},
            {"prices": []},
            {"columns": [9, 9]},
        ]
        for parts in faults:
            self.assertEqual(sigdorf.solve(table, start=solution._replace(**parts)), solution)
        for start in (tuple(solution), "solution", [0.5, 1.5]):
            with self.assertRaisesRegex(ValueError, "start must be"):
                sigdorf.solve(table, start=start)

    def test_limits(self):
        table = [[0.1, 0.2, 0.5], [0.1, 0.4, 0.9], [0.8, 0.3, 0.7]]
        solution = sigdorf.solve(table, start=sigdorf.solve(table), bids=0)
        least = sigdorf.solve(table)
        self.assertTrue(solution.exact_cost - solution.gap <= least.exact_cost <= solution.exact_cost)
        self.assertLessEqual(solution.bound, least.cost)


class Solvers(Limited):
    def test_frames(self):
        random = numpy.random.default_rng(4)
        for factor in (1, 100, 1e-9):
            solver, table = sigdorf.Solver(), random.random((6, 8)) * factor
            for _ in range(60):
                change = random.integers(5)
                if change == 0:
                    table = numpy.delete(table, random.integers(len(table)), 0) if len(table) > 1 else table
                elif change == 1:
                    table = numpy.vstack([table, random.random(table.shape[1]) * factor])
                elif change == 2:
                    table = numpy.delete(table, random.integers(table.shape[1]), 1) if table.shape[1] > 1 else table
                elif change == 3:
                    table = numpy.hstack([table, random.random((len(table), 1)) * factor])
                table[tuple(map(random.integers, table.shape))] = random.random() * factor
                solution = solver.solve(table)
                self.assertTrue(same(solution, sigdorf.solve(table)))
                sigdorf.check(solution, table)

    def test_names(self):
        """What is kept goes with the names."""
        random = numpy.random.default_rng(5)
        table, rows, columns = random.random((5, 6)), list("abcde"), list("uvwxyz")
        solver = sigdorf.Solver()
        solver.solve(Frame(table, rows, columns))
        for _ in range(20):
            some, others = sorted(random.choice(5, 4, False)), random.permutation(6)
            frame = Frame(table[some][:, others], [rows[place] for place in some], [columns[place] for place in others])
            with unittest.mock.patch.object(Asked, "solution", autospec=True, side_effect=Asked.solution) as called:
                found = solver.solve(frame)
            self.assertEqual(found.labels, sigdorf.solve(frame).labels)
            self.assertEqual(len(called.call_args[0][1]), 6)
        edges = sigdorf.Edges(["a", "b"], ["z", "new"], [1.5, 2])
        self.assertEqual(solver.solve(edges).cost, 3.5)
        self.assertEqual(solver.solve([0, 1], [1, 0], [1.5, 2]).cost, 3.5)
        self.assertEqual(solver.solve([[1, 2], [1, 4]], maximize=True, seconds=60).cost, 5)

    def test_faults(self):
        solver = sigdorf.Solver()
        self.assertEqual(solver.solve([[1.5, 2]]).cost, 1.5)
        with self.assertRaises(sigdorf.Infeasible):
            solver.solve([[math.inf, math.inf]])
        with self.assertRaises(ValueError):
            solver.solve("no table")
        self.assertEqual(solver.solve([[2.5, 2]]).cost, 2)
        with self.assertRaises(TypeError):
            solver.solve([[1, 2]], start=[0, 0])


if __name__ == "__main__":
    unittest.main()
