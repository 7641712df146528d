"""Many tables under limits: each is answered as it is alone, its fault has its number, and arrays go to the extension some dozens at a time."""
import concurrent.futures
import ctypes
import gc
import math
import sys
import threading
import unittest
import unittest.mock

from limited import Limited, numpy, scipy, sigdorf

if numpy:
    import floats
    from sigdorf import fast, gated_many

try:
    import pandas
except ImportError:
    pandas = None

KINDS = ("i1", "u1", "i2", "u2", "i4", "u4", "i8", "u8", "?", "f2", "f4", "f8", ">f8", ">i4", "g")
LAYOUTS = [lambda table: table, numpy.asfortranarray, lambda table: table[::-1], lambda table: numpy.repeat(table, 2, 1)[:, ::2]] if numpy else []


def some_table(random, number):
    """A table of any kind and type, with ties, and here and there a gap."""
    shape = random.integers(0, 7, 2) if number % 50 else random.integers(60, 80, 2)
    way = number % 3
    if way == 0:
        table = floats.KINDS[random.integers(len(floats.KINDS))](random, shape)
    else:
        table = random.integers(0, 4, shape).astype(random.choice(KINDS)) if way == 1 else random.integers(0, 5, shape) / 10
    if table.dtype.kind == "f":
        table = numpy.where(random.random(shape) < random.choice([0, 0, 0.5]), table.dtype.type(numpy.inf), table)
    return LAYOUTS[random.integers(len(LAYOUTS))](table)


def some_limit(random, table):
    """A limit at which some entries are, one between them, or one that is none of them beyond."""
    finite = table[numpy.isfinite(table)] if table.dtype.kind == "f" else table.ravel()
    if finite.size == 0:
        return 1
    most = sys.float_info.max if table.dtype.kind == "f" else 2**63 - 1 if table.dtype.itemsize == 8 else 2**31
    chosen = random.choice(finite).item()
    return [chosen, chosen, 1, most][random.integers(4)]


class MatchMany(Limited):
    def assert_as_alone(self, tables, limit, **words):
        """Each is answered as by `match`, by arrays of the same types that nobody else has."""
        found = sigdorf.match_many(tables, limit, **words)
        limits = limit if isinstance(limit, list) else [limit] * len(found)
        self.assertEqual(len(found), len(limits))
        for number, (table, own, one) in enumerate(zip(tables, limits, found)):
            alone = sigdorf.match(table, own, **words)
            with self.subTest(number=number, table=table, limit=own):
                self.assertEqual(one, alone)
                self.assertEqual([part.dtype for part in one[:5]], [part.dtype for part in alone[:5]])
                self.assertTrue(all(part.flags.writeable for part in one[:5]))
        return found

    def test_random(self):
        """2,000 tables over all types, with ties, each with a limit of its own, and with one that none is beyond."""
        random = numpy.random.default_rng(1)
        # Without the extension each goes the way that it goes alone.
        for first in range(0, 2_000 if fast.is_there() else 250, 125):
            maximize = first % 250 == 125
            tables = [some_table(random, number) for number in range(first, first + 125)]
            # Maximized, what is infinite has the other sign.
            turned = [-table if maximize and table.dtype.kind == "f" else table for table in tables]
            self.assert_as_alone(turned, [some_limit(random, table) for table in turned], maximize=maximize)

    def test_one_limit(self):
        random = numpy.random.default_rng(2)
        tables = [random.integers(0, 5, random.integers(0, 9, 2)) / 4 for _ in range(90)]
        whole = [random.integers(0, 5, random.integers(0, 9, 2)).astype(random.choice(["i8", "u1", "f4"])) for _ in range(90)]
        for limit in (0.5, 2, 1.5, -1, numpy.float32(0.5), numpy.int64(1), 1e300):
            self.assert_as_alone(tables, limit)
            self.assert_as_alone([*whole, *tables[:20], *whole[:20]], limit)
            self.assert_as_alone(whole, limit, maximize=True)

    def test_limits(self):
        random = numpy.random.default_rng(3)
        tables = [random.integers(0, 5, (4, 3)) / 4 for _ in range(100)]
        limits = [(random.integers(0, 5) / 4).item() for _ in tables]
        wanted = self.assert_as_alone(tables, limits)
        self.assertEqual(sigdorf.match_many(tables, numpy.array(limits)), wanted)
        self.assertEqual(sigdorf.match_many(numpy.array(tables), tuple(limits)), wanted)
        # Of some tables a limit for each row.
        mixed = [limit if number % 3 else [limit] * 4 for number, limit in enumerate(limits)]
        mixed[50] = numpy.array([0.25, 1, 0, 0.5])
        self.assert_as_alone(tables, mixed)

    def test_forms(self):
        """Tables that are no arrays, and lists."""
        table = [[1.0, 9.0, 9.0], [9.0, 0.5, math.inf]]
        forms = [table, numpy.array(table), numpy.array(table, "f4"), numpy.array([[1, 2], [3, 4]]).view(type("Own", (numpy.ndarray,), {}))]
        forms += [sigdorf.Edges(["a", "b"], ["x", "y"], [1.0, 0.5])]
        if scipy:
            forms.append(scipy.sparse.csr_matrix([[1.0, 9.0], [9.0, 0.5]]))
        if pandas:
            forms.append(pandas.DataFrame(table, ["a", "b"], ["x", "y", "z"]))
        found = self.assert_as_alone(forms * 20, 2.0)
        self.assertEqual(found[4].labels, [("a", "x"), ("b", "y")])
        lists = [([0, 1, 1], [0, 0, 1], [1.0, 0.5, 3.0]), ([0, 1, 1], [0, 0, 1], [1.0, 0.5, 3.0], (3, 4)), ([0, 1, 1], [0, 0, 1], [1.0, 0.5, 3.0], None)]
        for found, (rows, columns, costs, *shape) in zip(sigdorf.match_many(lists, 2), lists):
            self.assertEqual(found, sigdorf.match(costs, 2, rows=rows, columns=columns, shape=shape[0] if shape else None))

    def test_missing(self):
        tables = [numpy.array([[math.nan, 1.0], [0.5, 3.0]]), numpy.array([[1.0, math.nan]])]
        self.assert_as_alone(tables, 2.0, missing="forbidden")
        self.assert_as_alone([-table for table in tables], -2.0, missing="forbidden", maximize=True)

    def test_nothing(self):
        self.assertEqual(sigdorf.match_many([], 1.0), [])
        self.assertEqual(sigdorf.match_many([], []), [])
        self.assertEqual(sigdorf.match_many(numpy.zeros((0, 3, 3)), 1.0), [])
        self.assertEqual(sigdorf.match_many(iter([numpy.zeros((2, 3))]), 1)[0].columns.tolist(), [0, 1])
        for found in self.assert_as_alone([numpy.zeros(shape) for shape in ((0, 0), (0, 3), (2, 0))] * 40, 1.0):
            self.assertEqual(len(found.rows), 0)

    def test_large(self):
        """Great tables among small ones, of which some are solved entry by entry."""
        random = numpy.random.default_rng(4)
        sides = [5, 300, 3, 120, 260, 7, 60, 200, 1]
        tables = [random.random((side, side + 3)) for side in sides] + [random.integers(0, 50, (side + 2, side)) for side in sides]
        for limit in (0.05, 0.9, 3):
            self.assert_as_alone(tables, limit)

    def test_results_are_the_callers(self):
        """What is written into one answer is in no other."""
        tables = numpy.random.default_rng(5).random((100, 5, 6))
        found, kept = sigdorf.match_many(tables, 0.4), sigdorf.match_many(tables, 0.4)
        for part in found[40][:5]:
            part[:] = 77
        for number, (one, other) in enumerate(zip(found, kept)):
            self.assertEqual(one == other, number != 40)

    def assert_fault(self, kind, words, number, *arguments, **more):
        with self.assertRaisesRegex(kind, words) as caught:
            sigdorf.match_many(*arguments, **more)
        self.assertEqual(getattr(caught.exception, "__notes__", None), None if number is None else [f"in table {number}"])
        return caught.exception

    def test_faults(self):
        right = [numpy.eye(3) + 0.5] * 100
        for wrong, words in [
            (numpy.array([[0.5, math.nan]]), "row 0, column 1 has nan"), (numpy.array([[-math.inf]]), "-inf"), (numpy.zeros(3), ""), (numpy.zeros((2, 2, 2)), ""),
            ("ab", ""), (None, ""), (numpy.array([["1"]]), ""), (([0], [0]), "a tuple must be of rows, columns, costs"), (([0], [0], [1.0], (1, 1), 5), "a tuple must be"),
            (([0], [0], [math.nan]), "nan of entry 0"), (numpy.zeros((2, 2), complex), ""), (numpy.ma.masked_array([[1.0]], [[True]]), "")]:
            with self.subTest(wrong=wrong):
                alone = None
                if not isinstance(wrong, tuple):
                    with self.assertRaises(ValueError) as caught:
                        sigdorf.match(wrong, 5.0)
                    alone = caught.exception
                for place in (0, 70, 100):
                    fault = self.assert_fault(ValueError, words, place, [*right[:place], wrong, *right[place:]], 5.0)
                    self.assertTrue(alone is None or (type(fault), str(fault)) == (type(alone), str(alone)))

    def test_faults_of_limits(self):
        tables = [numpy.eye(2) + 0.5] * 3
        for limit in (math.inf, math.nan, None, "1", 10**400):
            self.assert_fault(ValueError, "limit must be a finite number, that a float of 64 bits is", 0, tables, limit)
            self.assert_fault(ValueError, "limit must be a finite number, that a float of 64 bits is", 2, tables, [1, 2, limit])
        for limit in ([], [1.0], [1.0] * 4, numpy.zeros(2)):
            self.assert_fault(ValueError, "limit must be a finite number, or a list with one of each table", None, tables, limit)
        self.assert_fault(ValueError, "limit must be a finite number, or a list with one of each row", 1, tables, [1.0, [1.0], 1.0])
        whole = [numpy.array([[1]]), numpy.array([[2**53 + 1]])]
        self.assert_fault(ValueError, "limit must be a finite number", 1, whole[:1] * 2, [0.5, None])
        self.assert_fault(ValueError, "limit must be a whole number", 1, whole, 0.5)
        self.assert_fault(ValueError, "limit must be within the type", 0, whole, 2**63)
        for words in ({"maximize": 2}, {"bids": -1}, {"bids": 0.5}):
            self.assert_fault(ValueError, f"{[*words][0]} must be", None, tables, 1.0, **words)
        self.assert_fault(ValueError, "missing must be", 0, tables, 1.0, missing="no")
        with self.assertRaises(TypeError):
            sigdorf.match_many(5, 1.0)

    def test_unsettled(self):
        """Without bids nothing is refined."""
        for table, limit in (([[0.1, 0.5], [0.5, 0.6]], 0.6), ([[0.4, 1.0], [0.4, 1.1]], 0.8)):
            for form in (numpy.array(table), table):
                fault = self.assert_fault(sigdorf.Unsettled, "a limit ended the search", 65, [numpy.zeros((0, 2))] * 65 + [form], limit, bids=0)
                self.assertFalse(fault.solution.is_optimal)

    def test_threads(self):
        random = numpy.random.default_rng(6)
        batches = [random.random((30, side, side)) for side in (2, 5, 40) for _ in range(3)]
        wanted = [sigdorf.match_many(batch, 0.3) for batch in batches]
        with concurrent.futures.ThreadPoolExecutor(6) as pool:
            for _ in range(3):
                self.assertEqual(list(pool.map(lambda batch: sigdorf.match_many(batch, 0.3), batches)), wanted)


@unittest.skipUnless(numpy and fast.is_there(), "the extension isn't used")
class Together(Limited):
    def test_as_without(self):
        """The same pairs as without the extension, with ties."""
        random = numpy.random.default_rng(9)
        tables = [some_table(random, number) for number in range(1, 300)]
        limits = [some_limit(random, table) for table in tables]
        found = sigdorf.match_many(tables, limits)
        with unittest.mock.patch.object(fast, "_extension", None):
            self.assertEqual(sigdorf.match_many(tables, limits), found)

    def test_parts(self):
        """Few calls of the extension, of some dozens each; one that is great goes alone."""
        sizes, real = [], fast.found_under_limits

        def counted(tables, *words):
            sizes.append([table.size for table in tables])
            return real(tables, *words)

        with unittest.mock.patch.object(fast, "found_under_limits", counted):
            sigdorf.match_many(numpy.ones((150, 5, 5)), 0.5)
            sigdorf.match_many([numpy.ones((150, 150))] * 5 + [numpy.ones((2, 2))] * 2 + [numpy.ones((300, 300))] + [numpy.ones((2, 2))], 0.5)
        self.assertEqual([len(part) for part in sizes[:3]], [64, 64, 22])
        self.assertEqual(sizes[3:], [[22_500] * 2, [22_500] * 2, [22_500, 4, 4], [90_000], [4]])

    def test_arrays_are_taken(self):
        """No array without a fault is looked at once more."""
        random, asked = numpy.random.default_rng(7), []
        tables = [random.integers(0, 9, (4, 5)).astype(kind) for kind in KINDS for _ in range(3)]
        with unittest.mock.patch.object(gated_many, "match_by", lambda *words, **more: asked.append(words[1:])):
            sigdorf.match_many(tables, 5)
            sigdorf.match_many([table for table in tables if table.dtype.kind == "f"], 2.5)
        self.assertEqual([table.dtype.str for table, _ in asked], [])

    def test_what_it_leaves(self):
        call, table, bids = fast._extension.matched_all, numpy.eye(2), sigdorf.USUAL_BIDS
        for problem in (None, 5, numpy.zeros(3), numpy.zeros((0, 3)), numpy.eye(2, dtype="f4"), numpy.array([[math.nan]]), (), numpy.zeros((2, 2), object)):
            found = call([table, problem, table], [1.0] * 3, False, bids)
            self.assertEqual([found[0] is None, found[1], found[2] is None], [False, None, False])
        for limit in ("1", math.inf, math.nan, [1]):
            self.assertEqual(call([table], [limit], False, bids), [None])
        self.assertEqual(call([table], [1.0], False, -1), [None])
        rows = numpy.arange(2)
        lists = call([(rows, rows, numpy.ones(2), 2, 3)], [1.0], False, bids)[0]
        self.assertEqual([side.tolist() for side in lists], [[0, 1], [0, 1], [0, 1], [], [2]])
        for words in ((), ([table],), ([table], [1.0], 1, bids), ((table,), [1.0], False, bids), ([table], (1.0,), False, bids), ([table], [1.0], False)):
            with self.assertRaises(TypeError):
                call(*words)
        for words in (([table], [], False, bids), ([], [1.0], False, bids)):
            with self.assertRaises(ValueError):
                call(*words)

    def test_other_statuses(self):
        """Whatever the library answers but a least assignment is looked at by Python."""
        kind, real = ctypes.CFUNCTYPE(ctypes.c_int32), (fast.address_of("sigdorf_solve_dense_watched"), fast.address_of("sigdorf_solve_watched"))
        tables = [numpy.array([[1.5, 2.25], [1.1, 4.7]])] * 5
        wanted = sigdorf.match_many(tables, 3.0)
        for status in (2, 3, 4, 5, 6, 7, 99):
            call = kind(lambda: status)
            fast._extension.bind(*[ctypes.cast(call, ctypes.c_void_p).value] * 2)
            try:
                self.assertEqual(fast._extension.matched_all(tables, [3.0] * 5, False, 9), [None] * 5)
                self.assertEqual(sigdorf.match_many(tables, 3.0), wanted)
            finally:
                fast._extension.bind(*real)

    def test_memory(self):
        """Nothing is kept of what a call has seen."""
        tables = [numpy.eye(3), numpy.ones((2, 4), int), numpy.full((3, 3), math.nan), numpy.ones((60, 70)), numpy.zeros((0, 2))]
        gc.collect()
        counts = [sys.getrefcount(table) for table in tables]
        for _ in range(100):
            fast._extension.matched_all(tables, [0.5, 1, 0.5, 0.5, "1"], False, sigdorf.USUAL_BIDS)
        gc.collect()
        self.assertEqual([sys.getrefcount(table) for table in tables], counts)

    def test_written_meanwhile(self):
        """A thread that writes tables while they are solved does no harm beyond the answers."""
        random, ends = numpy.random.default_rng(8), threading.Event()
        matrices = [random.random((60, 60)), random.random((60, 60)) * 1e6, numpy.full((60, 60), 1e300)]
        table = matrices[0].copy()

        def write():
            while not ends.is_set():
                for other in matrices:
                    table[:] = other

        writer = threading.Thread(target=write)
        writer.start()
        try:
            for _ in range(50):
                for found in fast._extension.matched_all([table] * 5, [0.5] * 5, False, sigdorf.USUAL_BIDS):
                    # What is no answer is looked at by Python.
                    self.assertTrue(found is None or sorted([*found[1], *found[4]]) == list(range(60)))
        finally:
            ends.set()
            writer.join()


if __name__ == "__main__":
    unittest.main()
