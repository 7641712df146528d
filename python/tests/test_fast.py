"""The extension: the same answers as without it, from every layout and type, and what it leaves to Python."""
import concurrent.futures
import contextlib
import ctypes
import gc
import os
import pathlib
import signal
import subprocess
import sys
import threading
import tracemalloc
import unittest
import unittest.mock

from limited import Limited, numpy, sigdorf

if numpy:
    import floats
    from sigdorf import fast, library
    from sigdorf.amounts import exact_sum

SIZE, WORD = ctypes.c_size_t, ctypes.c_void_p
# The words of sigdorf_solve_dense_watched; addresses are whole numbers.
DENSE = [ctypes.c_uint32, ctypes.c_uint32, WORD, SIZE, SIZE, ctypes.c_int64, WORD, SIZE, ctypes.c_uint64, WORD, WORD, SIZE, WORD, SIZE, WORD, SIZE, WORD]
KINDS = ("i1", "u1", "i2", "u2", "i4", "u4", "i8", "u8", "?", "f4", "f8", ">i4", ">f8", "f2", "g")


def layouts(matrix):
    """The matrix in other strides, of which the last isn't aligned."""
    yield numpy.ascontiguousarray(matrix)
    yield numpy.asfortranarray(matrix)
    yield matrix[::-1].copy()[::-1]
    yield numpy.repeat(matrix, 3, 0)[::3]
    yield numpy.repeat(matrix, 2, 1)[:, ::2]
    yield numpy.hstack([matrix, matrix])[:, : matrix.shape[1]]
    room = numpy.zeros(matrix.nbytes + 1, "u1")[1:].view(matrix.dtype).reshape(matrix.shape)
    room[:] = matrix
    yield room


def sum_of(matrix, pairs):
    chosen = matrix[pairs]
    return exact_sum(chosen.astype(numpy.float64)) if chosen.dtype.kind == "f" else sum(map(int, chosen))


def pairs(matrix, maximize=False):
    """What the extension itself finds."""
    return fast._extension.found(matrix, maximize, False, None, None, sigdorf.USUAL_BIDS)


def solved(matrix, maximize=False):
    return fast._extension.found(matrix, maximize, True, None, None, sigdorf.USUAL_BIDS)


@contextlib.contextmanager
def without():
    with unittest.mock.patch.object(fast, "_extension", None):
        yield


class Counted:
    """The extension, and how often it was asked."""

    def __init__(self, extension):
        self.extension, self.asked = extension, 0

    def found(self, *words):
        self.asked += 1
        return self.extension.found(*words)


class Fast(Limited):
    def setUp(self):
        super().setUp()
        if not fast.is_there():
            self.skipTest("the extension isn't used")

    def test_what_has_no_assignment_is_asked_for_once(self):
        for call in (sigdorf.solve, sigdorf.linear_sum_assignment):
            with unittest.mock.patch.object(fast, "_extension", Counted(fast._extension)) as counted:
                with self.subTest(call=call.__name__), self.assertRaises(sigdorf.Infeasible):
                    call(numpy.array([[1.0, numpy.inf], [2.0, numpy.inf]]))
                self.assertEqual(counted.asked, 1)

    def test_types_and_layouts(self):
        random = numpy.random.default_rng(1)
        for shape in [(1, 1), (4, 4), (3, 7), (7, 3), (50, 50), (60, 45)]:
            for kind in KINDS:
                matrix = random.integers(0, 100, shape).astype(kind)
                for maximize in (False, True):
                    with without():
                        wanted = sum_of(matrix, sigdorf.linear_sum_assignment(matrix, maximize))
                    for given in layouts(matrix):
                        with self.subTest(shape=shape, kind=kind, strides=given.strides):
                            pairs = sigdorf.linear_sum_assignment(given, maximize)
                            self.assertEqual((sum_of(matrix, pairs), pairs[0].dtype, pairs[1].dtype), (wanted, numpy.int64, numpy.int64))
                            self.assertTrue((numpy.diff(pairs[0]) > 0).all() and len(set(pairs[1].tolist())) == min(shape))
                            solution = sigdorf.solve(given, maximize=maximize)
                            self.assertEqual(solution.exact_cost, wanted)
                            sigdorf.check(solution, matrix, maximize=maximize)
                            self.assertEqual(solution.costs.tolist(), matrix[solution.rows, solution.columns].tolist())

    def test_kinds_of_costs(self):
        """Solutions as without the extension: cost, exact cost and types; and a check lets them pass."""
        random = numpy.random.default_rng(2)
        for number in range(400):
            matrix = floats.KINDS[number % len(floats.KINDS)](random, tuple(random.integers(1, 9, 2)))
            if number % 3 == 0 and matrix.dtype.kind == "f":
                matrix = numpy.where(random.random(matrix.shape) < 0.1, numpy.inf, matrix)
            with self.subTest(number=number):
                with without():
                    wanted = self.outcome(matrix)
                found = self.outcome(matrix)
                self.assertEqual(found[:3], wanted[:3])
                if isinstance(found[-1], sigdorf.Solution):
                    sigdorf.check(found[-1], matrix)

    def outcome(self, matrix):
        try:
            solution = sigdorf.solve(matrix)
        except sigdorf.Infeasible as fault:
            return str(fault), None, None
        return solution.exact_cost, solution.cost, type(solution.cost), solution

    def test_numbers_at_the_ends(self):
        for value in (10**9, 10**9 + 1, -(10**9) - 1, 2**63 - 1, -(2**63)):
            self.assertEqual(sigdorf.solve(numpy.array([[value, 0], [0, value]]), maximize=value < 0).cost, 0)
        self.assertEqual(sigdorf.solve(numpy.array([[2**64 - 1, 0], [0, 2**64 - 10**9]], numpy.uint64)).cost, 0)
        for value in (5e-324, 1e308, 1e-300, 2.0**1000):
            self.assertEqual(sigdorf.solve(numpy.array([[value, 0.0], [value / 2, value]])).exact_cost, sum_of(numpy.array([[value / 2]]), ([0], [0])))

    def test_gates(self):
        """One number far above all others, with pairs that have it and without."""
        random = numpy.random.default_rng(6)
        for number in range(120):
            shape, share = tuple(random.integers(1, 30, 2)), random.choice([0.05, 0.5, 0.9])
            near = random.random(shape) * random.choice([1e-3, 1, 1e4]) + random.choice([0, -5, 1e3])
            matrix = numpy.where(random.random(shape) < share, random.choice([1e5, 1e6, 2.0**40 / 3, 1e18, 1e300]), near)
            if number % 4 == 0:
                matrix = numpy.where(random.random(shape) < 0.1, numpy.inf, matrix)
            self.assert_same(matrix, number % 2 == 1 and not numpy.isinf(matrix).any())

    def test_two_numbers(self):
        for low, high in [(0, 1e-300), (0.1, 0.7), (1, 1 + 2**-52), (-1e18, 1e18), (5e-324, 1e-323), (0, 1.5)]:
            for side in (1, 2, 5, 40):
                matrix = numpy.random.default_rng(side).choice([low, high], (side, side))
                for maximize in (False, True):
                    self.assert_same(matrix, maximize)

    def test_least_gates(self):
        """A number that is just so much greater than all others, or not quite."""
        # In units of 2^-29: some round up, and some are the least that the extension takes for a gate.
        for side in (1, 2, 3):
            for part in numpy.arange(0, 1, 0.05):
                for more in numpy.arange(3.5, 5, 0.1) * side:
                    matrix = numpy.full((side, side + 1), (2**28 + part) * 2.0**-29)
                    matrix[:, 1:] += more * 2.0**-29
                    self.assert_same(matrix, False)

    def test_far_from_zero(self):
        """Differences that are next to nothing beside the numbers."""
        random = numpy.random.default_rng(7)
        for base, step in [(1e9, 1e-3), (-1e15, 0.25), (2.0**60, 256), (1, 2**-52), (1e300, 1e285), (-1e-300, 1e-316)]:
            for shape in [(6, 6), (25, 25), (20, 30)]:
                self.assert_same(base + step * random.integers(0, 100, shape), False)

    def assert_same(self, matrix, maximize):
        """The cost is that without the extension, and a check lets the solution pass."""
        with self.subTest(matrix=matrix, maximize=maximize):
            try:
                found = sigdorf.solve(matrix, maximize=maximize)
            except sigdorf.Infeasible:
                return
            with without():
                self.assertEqual(found.exact_cost, sigdorf.solve(matrix, maximize=maximize).exact_cost)
            sigdorf.check(found, matrix, maximize=maximize)
            self.assertEqual(sum_of(matrix, sigdorf.linear_sum_assignment(matrix, maximize)), found.exact_cost)

    def test_written_meanwhile(self):
        """A thread that writes a matrix of floats while it is solved does no harm beyond the answer."""
        random = numpy.random.default_rng(8)
        matrices, ends = [random.random((60, 60)), random.random((60, 60)) * 1e6, numpy.full((60, 60), 1e300)], threading.Event()
        matrix = matrices[0].copy()

        def write():
            while not ends.is_set():
                for other in matrices:
                    matrix[:] = other

        writer = threading.Thread(target=write)
        writer.start()
        try:
            for number in range(400):
                found = pairs(matrix) if number % 2 else (solved(matrix) or [None])[0]
                # What is no answer is looked at by Python.
                self.assertTrue(found is None or sorted(found[1].tolist()) == list(range(60)))
        finally:
            ends.set()
            writer.join()

    def test_read_only_tables(self):
        """They get the answers of others, views of them too, and stay as they are."""
        random = numpy.random.default_rng(10)
        for number in range(200):
            shape, kind = tuple(random.integers(1, 70, 2)), random.choice(["i8", "u8", "i4", "f8"])
            table = random.integers(0, random.choice([3, 10**9 + 1, 10**12]) if kind != "i4" else 9, shape).astype(kind)
            kept, maximize = table.copy(), number % 2 == 1
            kept.flags.writeable = False
            with self.subTest(number=number):
                wanted = sigdorf.solve(table, maximize=maximize)
                for given in (kept, kept[:], kept.T.copy().T):
                    found = sigdorf.solve(given, maximize=maximize)
                    self.assertEqual((found.columns.tolist(), found.cost), (wanted.columns.tolist(), wanted.cost))
                    self.assertEqual(*(list(map(list, map(numpy.ndarray.tolist, sigdorf.linear_sum_assignment(each)))) for each in (given, table)))
                    sigdorf.check(found, given, maximize=maximize)
            self.assertTrue((kept == table).all())

    def test_memory_of_tables(self):
        """One that is read-only takes next to nothing beside it, and others a copy; one of 32 bits its numbers in 64 bits."""
        for name, most in [("whole numbers, read-only", 0.25), ("whole numbers, linear", 1.25), ("whole numbers of 32 bits", 2.25)]:
            signal.alarm(60)
            program = pathlib.Path(__file__).with_name("memory")
            done = subprocess.run([sys.executable, "-B", program, "--rows", "1500", "--only", name], env=self.with_library(), capture_output=True, text=True)
            self.assertEqual(done.returncode, 0, done.stderr)
            share = float(done.stdout.splitlines()[-1].split("|")[4])
            self.assertLess(share, most, name)

    def test_entries_among_gaps(self):
        matrix = numpy.array([[numpy.inf, 1.5, 2], [1, numpy.inf, 7], [numpy.inf, 3, 2.5], [9, 9, numpy.inf]])
        for given in (matrix, matrix.T.copy(), matrix * 2, matrix.T * 2):
            solution = sigdorf.solve(given)
            entries = numpy.argwhere(numpy.isfinite(given))
            self.assertEqual(entries[solution.entries].tolist(), list(map(list, zip(solution.rows.tolist(), solution.columns.tolist()))))
            sigdorf.check(solution, given)

    def test_lists_as_arrays(self):
        """Of several least assignments a list gets that of the array."""
        random = numpy.random.default_rng(3)
        for _ in range(50):
            matrix = random.integers(0, 3, (6, 6))
            self.assertEqual(*(sigdorf.linear_sum_assignment(given)[1].tolist() for given in (matrix, matrix.tolist())))

    def test_what_it_leaves(self):
        extension = fast._extension
        for matrix in [numpy.zeros((0, 3)), numpy.zeros(3), numpy.zeros((2, 2, 2)), numpy.zeros((2, 2), complex), numpy.zeros((2, 2), object), numpy.eye(1).view(type('Own', (numpy.ndarray,), {})), numpy.ma.array([[1]]), [[1]], None,
                       numpy.array([[numpy.nan]]), numpy.array([[-numpy.inf]]), numpy.array([[numpy.inf]]), numpy.zeros((1, 2), [("a", "i8")]), numpy.zeros((1, 1), "M8[s]"), numpy.eye(3)[::2], numpy.eye(2, dtype=">f8"),
                       numpy.broadcast_to(numpy.int8(0), (10**9, 10**9)), numpy.zeros((1, 1), "S1"), numpy.zeros((1, 1), "U1"), numpy.zeros((1, 1), "V8"), numpy.eye(2, dtype="f4"), numpy.eye(2, dtype="i4")]:
            with self.subTest(kind=type(matrix), dtype=getattr(matrix, "dtype", None)):
                self.assertIsNone(pairs(matrix))
                self.assertIsNone(solved(matrix))
                self.assertEqual(extension.found_all([matrix], False), [None])
        two, ones = numpy.arange(2), numpy.ones(2)
        for problem in [(), (two, two), (two, two, ones, 2), (two, two, ones, 2, -1), (two, two, ones, 2, 1), (two, -two, ones, 2, 2), (two, two[:1], ones, 2, 2), (two, two, ones[:1], 2, 2), (two, two, two.astype("i4"), 2, 2),
                        (two, ones, ones, 2, 2), (two.astype("i4"), two, ones, 2, 2), (two, two, numpy.array([1, numpy.inf]), 2, 2), (two, two, ones * numpy.nan, 2, 2), (two, two, ones, 2, "2"), (two, two, ones, 10**30, 2)]:
            self.assertIsNone(solved(problem), problem)
        matrix = numpy.eye(2)
        for limit, start, bids in [("1", None, 9), (numpy.inf, None, 9), (numpy.nan, None, 9), (None, two.astype("f4"), 9), (None, numpy.arange(3), 9), (None, None, -1), (None, None, 2**64), (None, None, 0.5)]:
            self.assertIsNone(extension.found(matrix, False, False, limit, start, bids))
        for arguments in [(), (matrix,), (matrix, 1, True, None, None, 9), (matrix, None, True, None, None, 9), (matrix, False, 1, None, None, 9), (matrix, False)]:
            with self.assertRaises(TypeError):
                extension.found(*arguments)
        for arguments in [(), (matrix,), ([matrix], 1), (matrix, False), ([matrix], None)]:
            with self.assertRaises(TypeError):
                extension.found_all(*arguments)
        for arguments in [(), (1,), (0, 1), (1, 0), ("1", 1), (1, None)]:
            with self.assertRaises((TypeError, ValueError)):
                extension.bind(*arguments)

    def test_other_statuses(self):
        """Whatever the library answers but a least assignment is looked at by Python."""
        kind = ctypes.CFUNCTYPE(ctypes.c_int32)
        real = fast.address_of("sigdorf_solve_dense_watched"), fast.address_of("sigdorf_solve_watched")
        matrix = numpy.array([[1.5, 2.25], [1.1, 4.7]])
        for status in (2, 3, 4, 5, 6, 7, 99):
            call = kind(lambda: status)
            address = ctypes.cast(call, ctypes.c_void_p).value
            for dense, arcs in ((address, real[1]), (address, address)):
                fast._extension.bind(dense, arcs)
                try:
                    self.assertIsNone(pairs(matrix))
                    self.assertEqual(sigdorf.linear_sum_assignment(matrix)[1].tolist(), [1, 0])
                    self.assertEqual(sigdorf.solve_many([matrix] * 3, 1)[2].columns.tolist(), [1, 0])
                finally:
                    fast._extension.bind(*real)

    def test_raised_prices(self):
        """A limit's answer is the same where all prices of a square table are higher, which the library may answer too."""
        kind, real = ctypes.PYFUNCTYPE(ctypes.c_int32, *DENSE), (fast.address_of("sigdorf_solve_dense_watched"), fast.address_of("sigdorf_solve_watched"))
        solve_dense, calls = kind(real[0]), []

        def raised(*words):
            calls.append(words[:2])
            status, prices = solve_dense(*words), (ctypes.c_int64 * words[13]).from_address(words[12])
            for place in range(len(prices)):
                prices[place] += 77 * (words[0] + 1) + 5
            return status

        other, random = kind(raised), numpy.random.default_rng(5)
        matrices = [make(random, (6, 6)) for make in (floats.ties, floats.levels, floats.last_bits, floats.half_units) for _ in range(20)]
        limits = [random.choice(matrix.ravel()).item() for matrix in matrices]
        answers = [sigdorf.match(matrix, limit) for matrix, limit in zip(matrices, limits)]
        fast._extension.bind(ctypes.cast(other, ctypes.c_void_p).value, real[1])
        try:
            self.assertEqual([sigdorf.match(matrix, limit) for matrix, limit in zip(matrices, limits)], answers)
        finally:
            fast._extension.bind(*real)
        self.assertEqual(calls, [(6, 6)] * len(matrices))
        self.assertGreater(sum(len(answer.free_rows) > 0 for answer in answers), 20)

    def test_memory(self):
        """Nothing is kept of what a call has seen or made."""
        random = numpy.random.default_rng(4)
        matrices = [random.random((9, 9)), random.integers(0, 9, (9, 9)), numpy.full((3, 3), numpy.inf), floats.levels(random, (8, 8)), floats.any_exponents(random, (6, 6)), random.random((60, 70))]
        rows = numpy.arange(2)
        matrices.append(rows)
        counts = [sys.getrefcount(matrix) for matrix in matrices]
        tracemalloc.start()
        try:
            for turn in range(300):
                if turn == 100:
                    gc.collect()
                    before = tracemalloc.get_traced_memory()[0]
                for matrix in matrices:
                    pairs(matrix)
                    solved(matrix, True)
                    fast._extension.found((rows, rows, numpy.ones(2), 2, 2), False, True, None, None, 0)
                    fast._extension.found(matrix, False, False, 1, None, 9)
                fast._extension.found_all(matrices, False)
                fast._extension.matched_all(matrices, [1] * len(matrices), False, 9)
            gc.collect()
            self.assertLess(tracemalloc.get_traced_memory()[0] - before, 20_000)
        finally:
            tracemalloc.stop()
        del matrix
        self.assertEqual([sys.getrefcount(matrix) for matrix in matrices], counts)

    def test_results_are_the_callers(self):
        matrix = numpy.eye(3, dtype=int)
        first = sigdorf.linear_sum_assignment(matrix)
        for side in first:
            self.assertTrue(side.flags.writeable and side.flags.owndata)
            side[:] = 7
        self.assertEqual(matrix[sigdorf.linear_sum_assignment(matrix)].sum(), 0)

    def test_threads(self):
        random = numpy.random.default_rng(5)
        matrices = [random.random((side, side)) for side in (5, 20, 60, 300) for _ in range(6)]
        wanted = [sigdorf.linear_sum_assignment(matrix)[1].tolist() for matrix in matrices]
        with concurrent.futures.ThreadPoolExecutor(6) as pool:
            for _ in range(5):
                self.assertEqual([pairs[1].tolist() for pairs in pool.map(sigdorf.linear_sum_assignment, matrices)], wanted)

    def test_sanitized(self):
        """Few of the calls of `sanitized`; with sanitizers the imports alone take some seconds."""
        signal.alarm(300)
        done = subprocess.run([sys.executable, "-B", pathlib.Path(__file__).with_name("sanitized"), "1000"], env=self.with_library(), capture_output=True, text=True)
        told = done.stdout.splitlines()
        if told[-1:] == ["0 passed, 0 failed"]:
            self.skipTest(told[-2])
        self.assertEqual((done.returncode, told[-1:]), (0, ["1000 passed, 0 failed"]), done.stdout + done.stderr)

    def with_library(self):
        return os.environ | {"SIGDORF_LIBRARY": library.PATH}


if __name__ == "__main__":
    unittest.main()
