"""Costs as they stand: random problems of floats.py, worked ones, and claims that are wrong by next to nothing."""
import contextlib
import ctypes
import fractions
import importlib.util
import math
import os
import pathlib
import subprocess
import tempfile
import unittest
import unittest.mock

from limited import Limited, numpy, sigdorf

if numpy:
    import floats
    from sigdorf import fast

SIZE, WORD = ctypes.c_size_t, ctypes.c_void_p
# The words of sigdorf_solve_watched; addresses are whole numbers.
ARCS = [ctypes.c_uint32] * 2 + [WORD, SIZE] * 2 + [ctypes.c_uint64, WORD] + [WORD, SIZE] * 3 + [WORD]
TWO = [0, 0, 1, 1], [0, 1, 0, 1]


class Random(Limited):
    def test_greater(self):
        for number in range(60):
            floats.greater(f"greater {number}")

    def test_where_there_is_no_room_for_one_more(self):
        """The way that a problem of 4,194,304 objects takes, by an extension with a smaller limit."""
        for columns in (4, 7):
            with extension_of(columns) as calls:
                for number in range(60):
                    floats.floats(f"limits {number}", (number % (columns - 1) + 1, columns))
            self.assertLessEqual(max(objects for _, objects, _ in calls), columns)
            # A search without the object that everybody may have, and one with it.
            again = [(persons, objects, arcs + persons) for persons, objects, arcs in calls]
            self.assertGreater(sum(call in again[place : place + 1] for place, call in enumerate(calls[1:])), 5)


@contextlib.contextmanager
def extension_of(columns):
    """Has calls go by an extension whose rounds have so many objects at most; persons, objects and arcs of searches."""
    script, calls = pathlib.Path(__file__).resolve().parents[1] / "extension", []
    kind = ctypes.CFUNCTYPE(ctypes.c_int32, *ARCS)
    real = kind(fast.address_of("sigdorf_solve_watched"))

    @kind
    def counted(persons, objects, arcs, count, *words):
        calls.append((persons, objects, count))
        return real(persons, objects, arcs, count, *words)

    with tempfile.TemporaryDirectory() as folder:
        flags = os.environ | {"CFLAGS": f"-O0 -DMOST_OF_ROUND={columns}"}
        if not script.exists() or subprocess.run([script, folder], env=flags, capture_output=True).returncode:
            raise unittest.SkipTest("the extension can't be built here")
        spec = importlib.util.spec_from_file_location("_fast", pathlib.Path(folder, "_fast.abi3.so"))
        extension = importlib.util.module_from_spec(spec)
        spec.loader.exec_module(extension)
    extension.bind(fast.address_of("sigdorf_solve_dense_watched"), ctypes.cast(counted, ctypes.c_void_p).value)
    with unittest.mock.patch.object(fast, "_extension", extension):
        yield calls


def small(first):
    def test(_):
        for number in range(first, first + 100):
            floats.floats(f"small {number}")

    return test


# One test of all would take too long on a busy machine.
for first in range(0, 1600, 100):
    setattr(Random, f"test_small_from_{first}", small(first))


class Worked(Limited):
    def test_floats(self):
        costs = [0.1, 0.2, 0.1, 0.4]
        solution = sigdorf.solve(*TWO, costs)
        self.assertEqual((solution.columns.tolist(), solution.cost, solution.gap), ([1, 0], 0.2 + 0.1, 0))
        self.assertEqual(solution.exact_cost, fractions.Fraction(0.2) + fractions.Fraction(0.1))
        prices = solution.exact_prices()
        best = [min(fractions.Fraction(costs[2 * row + column]) + prices[column] for column in range(2)) for row in range(2)]
        self.assertEqual(sum(best) - sum(prices), solution.exact_cost)
        sigdorf.check(solution, *TWO, costs)

    def test_sums_that_floats_round(self):
        """Both sums are 1e17 as floats; one is less."""
        for costs, least in [([5.0, 1e17, 4.0, 1e17], 10**17 + 4), ([5.0, 1e17 + 16, 4.0, 1e17], 10**17 + 5)]:
            solution = sigdorf.solve(*TWO, costs)
            self.assertEqual((solution.exact_cost, solution.cost), (least, 1e17))
            matrix = numpy.reshape(costs, (2, 2))
            self.assertEqual(sum(map(int, matrix[sigdorf.linear_sum_assignment(matrix)])), least)

    def test_ends_of_whole_numbers(self):
        low, high = -(2**63), 2**63 - 1
        for maximize, least in [(False, 2 * low), (True, low + high)]:
            solution = sigdorf.solve(*TWO, numpy.array([low, high, low, low]), maximize=maximize)
            self.assertEqual((solution.cost, solution.exact_cost), (least, least))
        natural = numpy.array([2**64 - 1, 2**64 - 2, 2**64 - 3, 2**64 - 3], numpy.uint64)
        self.assertEqual(sigdorf.solve(*TWO, natural).cost, 2**65 - 5)
        self.assertEqual(sigdorf.solve(*TWO, natural, maximize=True).cost, 2**65 - 4)

    def test_sums_beyond_floats(self):
        solution = sigdorf.solve([0, 1], [0, 1], [1.7e308, 1.7e308])
        self.assertEqual((solution.cost, solution.exact_cost), (math.inf, 2 * fractions.Fraction(1.7e308)))
        sigdorf.check(solution, [0, 1], [0, 1], [1.7e308, 1.7e308])

    def test_what_numpy_would_round(self):
        for costs in ([2**53 + 1, 0.5, 1, 1], [2**63 + 1, -1, 0, 0]):
            with self.assertRaisesRegex(ValueError, "would be rounded"):
                sigdorf.solve(*TWO, costs)
        with self.assertRaisesRegex(ValueError, "more digits"):
            sigdorf.solve(*TWO, numpy.array([1, 2, 3, numpy.longdouble(1) / 3]))

    def test_starts(self):
        random = numpy.random.default_rng(1)
        rows, columns = numpy.indices((30, 30)).reshape(2, -1)
        for costs in (random.random(900), random.integers(-(2**62), 2**62, 900)):
            first = sigdorf.solve(rows, columns, costs)
            for start in (numpy.zeros(30, int), random.integers(0, 2**60, 30)):
                self.assertEqual(sigdorf.solve(rows, columns, costs, start=start).exact_cost, first.exact_cost)

    def test_brackets(self):
        random = numpy.random.default_rng(1)
        # One pair is no entry: without gaps it would be solved before any bid.
        rows, columns = numpy.indices((9, 9)).reshape(2, -1)[:, 1:]
        for maximize in (False, True):
            for costs in (random.random(80), random.integers(-(2**62), 2**62, 80), random.integers(-9, 9, 80) / 8):
                least = sigdorf.solve(rows, columns, costs, maximize=maximize).exact_cost
                solution = sigdorf.solve(rows, columns, costs, maximize=maximize, bids=0)
                sign = -1 if maximize else 1
                bound = solution.exact_cost - sign * solution.gap
                self.assertTrue(sign * solution.bound <= sign * bound <= sign * least <= sign * solution.exact_cost)
                self.assertFalse(solution.is_optimal)
                with self.assertRaises(sigdorf.Refused):
                    sigdorf.check(solution, rows, columns, costs, maximize=maximize)


class Claims(Limited):
    COSTS = [0.1, 0.2, 0.1, 0.4]

    def test_wrong_by_next_to_nothing(self):
        solution = sigdorf.solve(*TWO, self.COSTS)
        for name, value in [("cost", math.nextafter(solution.cost, 1)), ("bound", math.nextafter(solution.cost, 0)), ("gap", fractions.Fraction(1, 2**1000)), ("exact_cost", fractions.Fraction(3, 10)),
                            ("scale", solution.scale + 1), ("scale", solution.scale * 5), ("scale", 0), ("scale", -3), ("prices", [10**2000, 0]), ("prices", [0.0, 1.0]), ("prices", [0, 0, 0])]:
            with self.subTest(name=name, value=value), self.assertRaises(sigdorf.Refused):
                sigdorf.check(solution._replace(**{name: value}), *TWO, self.COSTS)

    def test_other_costs(self):
        """What is least of one problem isn't of another one that differs by a last bit."""
        costs = [0.5, 0.25, 0.5, 0.25]
        solution = sigdorf.solve(*TWO, costs)
        other = min(set(range(4)) - set(solution.entries.tolist()))
        costs[other] = math.nextafter(costs[other], 0)
        with self.assertRaises(sigdorf.Refused):
            sigdorf.check(solution, *TWO, costs)

    def test_other_units(self):
        """The same prices on a finer scale say the same."""
        solution = sigdorf.solve(*TWO, self.COSTS)
        finer = solution._replace(scale=solution.scale << 70, prices=[price << 70 for price in solution.prices.tolist()])
        sigdorf.check(finer, *TWO, self.COSTS)
        self.assertEqual(sum(finer.exact_prices()), sum(solution.exact_prices()))


if __name__ == "__main__":
    unittest.main()
