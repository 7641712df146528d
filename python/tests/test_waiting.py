"""A limit of time, progress, and Ctrl-C: what ends a search, what it has told before, and what is left of it."""
import fractions
import math
import os
import signal
import subprocess
import sys
import threading
import time
import unittest
import unittest.mock

from limited import Limited, numpy, scipy, sigdorf

if numpy:
    import floats
    from sigdorf import fast, waiting

TWO = [0, 0, 1, 1], [0, 1, 0, 1], [1, 2, 1, 4]
# So long after a limit an answer may come, on a machine that has much else to do.
LATE = 0.3


def products(side):
    """A table that takes long, since all want the same columns, and its least cost: the dearest row takes the cheapest column."""
    ours, theirs = (numpy.sort(numpy.random.default_rng(seed).integers(1, 31_000, side)) for seed in (1, 2))
    return numpy.outer(ours, theirs), int((ours * theirs[::-1]).sum())


def forms(table):
    """The same problem in several forms: what is given, and by what its pairs have their costs."""
    rows, columns = numpy.indices(table.shape).reshape(2, -1)
    yield (table,)
    yield (table / 3,)
    yield rows, columns, table.ravel()
    if scipy:
        yield (scipy.sparse.csr_array(table),)


class Seconds(Limited):
    def test_ends_in_time(self):
        """An answer is an assignment, and the least cost is between its bound and its cost."""
        table, least = products(1_500)
        for given in forms(table):
            # What reading the entries and finding any assignment takes.
            first = time.monotonic()
            sigdorf.solve(*given, seconds=0)
            first = time.monotonic() - first
            for seconds in (0.05, 0.2):
                began = time.monotonic()
                solution = sigdorf.solve(*given, seconds=seconds)
                took = time.monotonic() - began
                with self.subTest(given=len(given), kind=type(given[0]), seconds=seconds, first=first):
                    self.assertLess(took, max(seconds, first) + LATE)
                    self.assert_valid(solution, given, least)

    def assert_valid(self, solution, given, least):
        is_float = len(given) == 1 and given[0].dtype.kind == "f"
        self.assertEqual((solution.rows.tolist(), sorted(solution.columns.tolist())), (list(range(len(solution.rows))),) * 2)
        costs = given[2][solution.entries] if len(given) == 3 else given[0][solution.rows, solution.columns]
        self.assertEqual(solution.exact_cost, sum(map(fractions.Fraction, costs.tolist())))
        self.assertEqual(solution.is_optimal, solution.gap == 0)
        # Thirds are rounded.
        margin = fractions.Fraction(1, 1_000) if is_float else 0
        least = fractions.Fraction(least, 3) if is_float else least
        self.assertTrue(solution.exact_cost - solution.gap - margin <= least <= solution.exact_cost + margin)
        self.assertLessEqual(solution.bound, solution.cost)

    def test_short_problems(self):
        random = numpy.random.default_rng(1)
        for matrix in (random.integers(0, 99, (30, 30)), random.random((20, 30)), random.random((30, 20)), numpy.zeros((0, 3))):
            for maximize in (False, True):
                wanted, sign = sigdorf.solve(matrix, maximize=maximize), -1 if maximize else 1
                for seconds in (0, 1e-9, 5, numpy.float32(5), fractions.Fraction(5), 1e300):
                    told = []
                    solution = sigdorf.solve(matrix, maximize=maximize, seconds=seconds, progress=lambda *amounts: told.append(amounts))
                    self.assertTrue(sign * solution.bound <= sign * wanted.cost <= sign * solution.cost)
                    self.assertTrue(all(sign * bound <= sign * wanted.cost <= sign * cost for bound, cost in told) and told)
                    if seconds >= 1:
                        self.assertEqual(solution, wanted)
                        sigdorf.check(solution, matrix, maximize=maximize)

    def test_bids_end_it_too(self):
        table = numpy.where(numpy.eye(40), 1, numpy.inf)
        table[numpy.tril_indices(40, -1)] = numpy.arange(780)
        self.assertEqual(sigdorf.solve(table, seconds=60, bids=0), sigdorf.solve(table, bids=0))

    def test_faults(self):
        for seconds in (-1, -1e-300, math.nan, math.inf, "1", b"1", True, [1], object(), 10**400):
            with self.subTest(seconds=seconds), self.assertRaisesRegex(ValueError, "seconds must be"):
                sigdorf.solve(*TWO, seconds=seconds)
        for told in (1, "print", []):
            with self.subTest(progress=told), self.assertRaisesRegex(ValueError, "progress must be"):
                sigdorf.solve(*TWO, progress=told)
        for words in ({"seconds": 1}, {"progress": print}):
            with self.assertRaises(sigdorf.Infeasible):
                sigdorf.solve([0, 1], [0, 0], [1, 1], (2, 2), **words)

    def test_restricted(self):
        table, _ = products(200)
        solution = sigdorf.solve(table, seconds=0, forced=[(0, 0)], capacity=2)
        self.assertEqual(solution.columns[0], 0)
        self.assertLessEqual(numpy.bincount(solution.columns).max(), 2)
        least = sigdorf.solve(table, forced=[(0, 0)], capacity=2)
        self.assertTrue(solution.bound <= least.cost <= solution.cost)


class Told(Limited):
    def told(self, *given, **words):
        """What a call tells, and its solution, which is the last that it tells."""
        told = []
        solution = sigdorf.solve(*given, progress=lambda *amounts: told.append(amounts), **words)
        self.assertEqual(told[-1], (solution.bound, solution.cost))
        return told, solution

    def assert_told(self, told, solution, least, sign=1):
        """Bounds and costs only become better, are around the least cost, and are of the solution's type."""
        for bound, cost in told:
            self.assertTrue(sign * bound <= sign * least <= sign * cost, (bound, least, cost))
            self.assertEqual((type(bound), type(cost)), (type(solution.bound), type(solution.cost)))
        for (bound, cost), (later_bound, later_cost) in zip(told[:-1], told[1:-1]):
            self.assertTrue(sign * bound <= sign * later_bound and sign * later_cost <= sign * cost)
            self.assertNotEqual((bound, cost), (later_bound, later_cost))
        self.assertTrue(all(sign * solution.cost <= sign * cost for _, cost in told))

    def test_long(self):
        table, least = products(700)
        for given in forms(table):
            told, solution = self.told(*given)
            with self.subTest(given=len(given), kind=type(given[0])):
                self.assertTrue(solution.is_optimal)
                self.assert_told(told, solution, solution.cost)

    def test_phases(self):
        """Phases of a sparse problem tell of what they leave."""
        random, side = numpy.random.default_rng(2), 5_000
        rows, own = numpy.repeat(numpy.arange(side), 8), numpy.arange(side)
        lists = numpy.append(rows, own), numpy.append(random.integers(0, side, len(rows)), random.permutation(side))
        for costs in (random.integers(0, 10**6, len(lists[0])), random.random(len(lists[0]))):
            told, solution = self.told(*lists, costs)
            self.assertGreater(len(told), 1)
            self.assert_told(told, solution, solution.cost)

    def test_kinds(self):
        """Of any costs, turned or not, with gaps and gates."""
        random = numpy.random.default_rng(3)
        for number in range(150):
            matrix = floats.KINDS[number % len(floats.KINDS)](random, tuple(random.integers(1, 40, 2)))
            with self.subTest(number=number):
                maximize = bool(random.integers(2))
                told, solution = self.told(matrix, maximize=maximize)
                self.assert_told(told, solution, sigdorf.solve(matrix, maximize=maximize).cost, -1 if maximize else 1)

    def test_great_numbers(self):
        table, least = products(300)
        for kind, shift in (("i8", 0), ("i8", -(2**62)), ("u8", 2**63)):
            for maximize in (False, True):
                given = (table * 10**8).astype(kind) + numpy.array(shift, kind)
                told, solution = self.told(given, maximize=maximize)
                with self.subTest(kind=kind, shift=shift, maximize=maximize):
                    self.assert_told(told, solution, solution.cost, -1 if maximize else 1)
                    self.assertTrue(solution.is_optimal)

    def test_gates(self):
        """One number far above all others, that the best assignment has a few times."""
        random = numpy.random.default_rng(4)
        for gate in (1e9, 1e300):
            table = numpy.where(random.random((300, 300)) < 0.9, gate, random.random((300, 300)))
            table[:5] = gate
            told, solution = self.told(table)
            self.assert_told(told, solution, solution.cost)

    def test_decimals(self):
        table, _ = products(300)
        told, solution = self.told(table / 100, decimals=2)
        self.assert_told(told, solution, solution.cost)

    def test_named(self):
        told, solution = self.told(sigdorf.Edges(["a", "a", "b"], ["x", "y", "x"], [1.5, 2, 4]))
        self.assertEqual((told[-1], dict(solution.labels)), ((6.0, 6.0), {"a": "y", "b": "x"}))

    def test_raises(self):
        with self.assertRaisesRegex(ZeroDivisionError, "by zero"):
            sigdorf.solve(*TWO, progress=lambda bound, cost: 1 / 0)
        table, _ = products(2_000)
        for given in forms(table):
            began = time.monotonic()
            with self.assertRaisesRegex(ZeroDivisionError, "by zero"):
                sigdorf.solve(*given, progress=lambda bound, cost: 1 / 0)
            with self.subTest(given=len(given), kind=type(given[0]), took=time.monotonic() - began):
                self.assertEqual(names_of_threads(), [])

    def test_other_threads(self):
        """It is called by the thread that has made the call."""
        told, found, table = [], [], products(300)[0]

        def work():
            found.append(sigdorf.solve(table, progress=lambda *amounts: told.append((threading.current_thread(), amounts))))

        thread = threading.Thread(target=work)
        thread.start()
        thread.join()
        self.assertEqual({who for who, _ in told}, {thread})
        self.assertEqual(told[-1][1], (found[0].bound, found[0].cost))

    def test_calls_within(self):
        """What is called may solve problems too."""
        table, inner = products(400)[0], []
        sigdorf.solve(table, progress=lambda *amounts: inner.append(sigdorf.solve(table, seconds=0, progress=lambda *amounts: None).cost))
        self.assertTrue(inner)


class Ended(Limited):
    def test_is_near(self):
        """A table whose search was ended has an assignment near the least, where any one costs hundreds of times as much."""
        if not fast.is_there():
            self.skipTest("without the extension a table is solved as a list")
        random = numpy.random.default_rng(1)
        for table in (random.random((1_500, 1_500)), random.integers(0, 10**6, (1_200, 1_500))):
            least, found = sigdorf.solve(table), sigdorf.solve(table, seconds=0)
            self.assertLess(found.cost, 2 * least.cost)
            self.assertGreater(found.bound, 0.5 * least.cost)


class Records(Limited):
    def test_lost_scale(self):
        """Records whose scale the pipe hasn't taken aren't written either."""
        if not fast.is_there():
            self.skipTest("the extension isn't used")
        pipe, table = waiting.Pipe(), products(100)[0] / 3
        while True:
            try:
                os.write(pipe.writes, b"\0" * 40)
            except BlockingIOError:
                break
        os.read(pipe.reads, 20)
        fast._extension.found(table, False, True, None, None, sigdorf.USUAL_BIDS, (0, -1, pipe.writes))
        while left := os.read(pipe.reads, 2**16):
            self.assertEqual(left.strip(b"\0"), b"")
            if len(left) < 2**16:
                break

    def test_descriptors(self):
        """All are closed after a call, however it ends."""
        before = len(os.listdir("/proc/self/fd"))
        table = products(300)[0]
        for _ in range(20):
            sigdorf.solve(table, seconds=0.01, progress=lambda *amounts: None)
            sigdorf.linear_sum_assignment(table)
            with self.assertRaises(ZeroDivisionError):
                sigdorf.solve(table, progress=lambda *amounts: 1 / 0)
            sigdorf.solve_many([table, TWO], 2)
        self.assertEqual((len(os.listdir("/proc/self/fd")), names_of_threads()), (before, []))

    def test_without_descriptors(self):
        """A call that nobody watches is made where there are none left."""
        table, least = products(300)
        with unittest.mock.patch.object(waiting.os, "pipe", side_effect=OSError(24, "Too many open files")):
            rows, columns = sigdorf.linear_sum_assignment(table)
            self.assertEqual(table[rows, columns].sum(), least)
            self.assertEqual(sigdorf.solve(table, seconds=60).cost, least)
            with self.assertRaises(OSError):
                sigdorf.solve(table, progress=lambda *amounts: None)


def names_of_threads():
    """What is left of calls. A thread that has answered may take a moment to its end."""
    for thread in threading.enumerate():
        if thread.name == "sigdorf":
            thread.join(1)
    return [thread.name for thread in threading.enumerate() if thread.name == "sigdorf"]


INTERRUPTED = """
import signal, sys, threading, time, numpy, sigdorf
# Whoever runs the tests in the background may have it ignored.
signal.signal(signal.SIGINT, signal.default_int_handler)
def products(side):
    return numpy.outer(*numpy.sort(numpy.random.default_rng(1).integers(1, 31_000, (2, side))))
# Python itself makes lists of the smaller one.
table, small = products(2_500), products(1_500)
rows, columns = numpy.indices(small.shape).reshape(2, -1)
lists = rows, columns, small.ravel()
told = lambda bound, cost: None
calls = {
    "linear_sum_assignment": lambda: sigdorf.linear_sum_assignment(table),
    "solve": lambda: sigdorf.solve(*lists),
    "progress": lambda: sigdorf.solve(table / 3, progress=told),
    "seconds": lambda: sigdorf.solve(table, seconds=1000),
    "match": lambda: sigdorf.match(table, 2**40),
    "match_seconds": lambda: sigdorf.match(table, 2**40, seconds=1000),
    "match_many": lambda: sigdorf.match_many([table, table], 2**40),
    "max_cardinality": lambda: sigdorf.max_cardinality_match(table),
    "Solver": lambda: sigdorf.Solver().solve(table),
    "solve_many": lambda: sigdorf.solve_many([small] * 8, 2),
    "certify": lambda: sigdorf.certify(range(1_500), range(1_500), small),
    "solve_many_seconds": lambda: sigdorf.solve_many([small] * 8, 1, seconds=1000),
    "k_best": lambda: sigdorf.k_best(small, 2, seconds=1000),
}
call = calls[sys.argv[1]]
print("begun", flush=True)
try:
    call()
except KeyboardInterrupt:
    print(time.monotonic(), threading.active_count(), flush=True)
"""


class Interrupted(Limited):
    CALLS = ("linear_sum_assignment", "solve", "progress", "seconds", "match", "match_many", "solve_many", "certify", "k_best") + (
        "match_seconds", "max_cardinality", "Solver", "solve_many_seconds")

    def test_keyboard(self):
        """Ctrl-C raises at once, and nothing of the search is left."""
        for call in self.CALLS:
            child = subprocess.Popen([sys.executable, "-B", "-c", INTERRUPTED, call], stdout=subprocess.PIPE, text=True)
            self.assertEqual(child.stdout.readline(), "begun\n")
            time.sleep(0.15)
            sent = time.monotonic()
            child.send_signal(signal.SIGINT)
            told = child.communicate(timeout=30)[0].split()
            with self.subTest(call):
                self.assertEqual(len(told), 2, "it had ended before")
                self.assertLess(float(told[0]) - sent, 4 * LATE)
                self.assertEqual(told[1], "1")


if __name__ == "__main__":
    unittest.main()
