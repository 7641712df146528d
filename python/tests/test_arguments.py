"""Each argument that is at fault is told as such, before the library sees it; each that is right in another guise counts."""
import collections
import decimal
import fractions
import pickle
import types

from guises import Broken
from limited import Limited, numpy, scipy, sigdorf

LISTS = ([0, 0, 1, 1], [0, 1, 0, 1], [1, 2, 1, 4])


def no_lists():
    """Values that are no list of four whole numbers."""
    masked = numpy.ma.masked_array([0, 1, 0, 1], [1, 0, 0, 0])
    return [
        None, 5, 1.5, "0101", b"0101", {0, 1}, {0: 1}, (number for number in range(4)), object(), [[0, 1], [0, 1]], [[0], [1, 0]], [0, 1, None, 1], ["0", "1", "0", "1"],
        numpy.int64(4), numpy.array(4), numpy.zeros((4, 0), int), numpy.zeros((4, 1), int), numpy.array([0, 1, 0, 1], object), numpy.array([0, 1, 0, 1], complex), numpy.array(["0"] * 4),
        numpy.zeros(4, "M8[s]"), numpy.zeros(4, "m8[s]"), numpy.zeros(4, [("a", int)]), numpy.zeros(4, "V8"), [decimal.Decimal(1)] * 4, [fractions.Fraction(1)] * 4,
        masked, numpy.ma.masked_array([0, 1, 0, 1]), [0, numpy.ma.masked, 0, 1], collections.deque([0, numpy.ma.masked, 0, 1]), numpy.matrix([0, 1, 0, 1]), [2**64, 0, 0, 0], [2**63 + 1, 0, 0, -1],
        numpy.broadcast_to(numpy.int64(0), (10**12,)), numpy.broadcast_to(numpy.int64(0), (4, 10**12)), range(10**12), Broken(), [Broken()] * 4,
    ]


def no_whole_lists():
    """Values that are no list of four whole numbers, though numbers."""
    return [*no_lists(), [0.0, 1.0, 0.0, 1.0], [False, True, False, True], numpy.array([0, 1, 0, 1], numpy.longdouble)]


def no_numbers():
    return [None, 1.5, 1.0, True, False, numpy.True_, "1", b"1", [1], numpy.array([1]), -1, 2**64, 10**5000, float("nan"), float("inf"), decimal.Decimal(1), fractions.Fraction(1), Broken(), object()]


def anew(value):
    """The value, or where it is a generator one that nobody has read."""
    return (number for number in range(4)) if isinstance(value, types.GeneratorType) else value


class Lists(Limited):
    def assert_refused(self, call, *arguments, kind=ValueError, **words):
        """A fault of an argument, and none that stands for something else."""
        with self.assertRaises(ValueError) as caught:
            call(*arguments, **words)
        self.assertIs(type(caught.exception), kind)
        self.assertTrue(str(caught.exception))

    def test_lists_of_a_problem(self):
        solution = sigdorf.solve(*LISTS)
        for place, values in [(0, no_whole_lists()), (1, no_whole_lists()), (2, no_lists())]:
            for value in values:
                given = [*LISTS]
                given[place] = value
                with self.subTest(place=place, value=type(value)):
                    self.assert_refused(sigdorf.solve, *given)
                given[place] = anew(value)
                with self.subTest(place=place, value=type(value), call="check"):
                    self.assert_refused(sigdorf.check, solution, *given)

    def test_other_lengths(self):
        for place in range(3):
            for value in ([], [0, 1, 0], [0, 1, 0, 1, 0]):
                given = [*LISTS]
                given[place] = value
                with self.subTest(place=place, value=value):
                    self.assert_refused(sigdorf.solve, *given)

    def test_shapes(self):
        shapes = [5, "22", {2, 3}, {2: 2, 3: 3}, (), (2,), (2, 2, 2), (2.0, 2), (True, 2), (2, None), (-1, 2), (2**32, 2**32), (2**64, 2), [[2, 2], [2, 2]], numpy.zeros((2, 2), int), numpy.array(2)]
        shapes += [(2**32 - 1, 2**32 - 1), (2, 2**32 - 1), (2**32 - 1, 2), (0, 2**32 - 1), (4_194_305, 4_194_305), (2, 4_194_305), Broken(), (Broken(), 2), (numpy.float64(2), 2), numpy.array([2.0, 2.0])]
        for shape in shapes:
            with self.subTest(shape=shape if not isinstance(shape, Broken) else "broken"):
                self.assert_refused(sigdorf.solve, *LISTS, shape)
        for shape in [(2, 2), [2, 2], numpy.array([2, 2]), (numpy.uint8(2), numpy.int64(2)), numpy.array([2, 2], ">i4")]:
            with self.subTest(shape=shape):
                self.assertEqual(sigdorf.solve(*LISTS, shape).cost, 3)

    def test_entries_outside_an_empty_shape(self):
        for shape in [(0, 5), (5, 0), (0, 0)]:
            with self.subTest(shape=shape), self.assertRaisesRegex(ValueError, "entry 0 names a row or column"):
                sigdorf.solve([7], [9], [5], shape)
            self.assertEqual(sigdorf.solve([], [], [], shape).cost, 0)

    def test_numbers(self):
        for value in no_numbers():
            for name in ("bids", "decimals"):
                if value is None and name == "decimals":
                    continue
                with self.subTest(name=name, kind=type(value)):
                    self.assert_refused(sigdorf.solve, *LISTS, **{name: value})
        self.assert_refused(sigdorf.solve, *LISTS, decimals=10)
        for kind in (int, numpy.int8, numpy.uint64):
            self.assertEqual(sigdorf.solve(*LISTS, bids=kind(100), decimals=kind(2)).cost, 3)

    def test_maximize(self):
        for value in [None, "no", 2, -1, 0.0, [True], numpy.array([1, 0]), Broken()]:
            with self.subTest(kind=type(value)):
                self.assert_refused(sigdorf.solve, *LISTS, maximize=value)
                self.assert_refused(sigdorf.linear_sum_assignment, [[1, 2], [1, 4]], value)
        for value in [True, 1, numpy.True_, numpy.int8(1)]:
            self.assertEqual(sigdorf.solve(*LISTS, maximize=value).cost, 5)

    def test_starts(self):
        for value in [[2**64, 0], [2**63, 0], [-1, 0], [2**60 + 1, 0], [], [0], [0, 0, 0], [0.0, 0.0], [True, False], numpy.zeros((2, 0), int), numpy.zeros((2, 2), int), "00", 5,
                      numpy.ma.masked_array([0, 1], [0, 1]), Broken()]:
            with self.subTest(kind=type(value), value=value if isinstance(value, list) else ""):
                self.assert_refused(sigdorf.solve, *LISTS, start=value)
        for rows, columns in [([0, 0], [0, 1]), ([0, 1], [0, 0])]:
            for value in [[0], [0, 0, 0], [0, -1], [2**60 + 1, 0]]:
                self.assert_refused(sigdorf.solve, rows, columns, [1, 2], start=value)
            self.assertEqual(sigdorf.solve(rows, columns, [1, 2], start=[2**60, 0]).cost, 1)
        for value in [(0, 4), numpy.array([0, 4], ">i8"), numpy.array([9, 0, 9, 4], numpy.uint8)[1::2], numpy.array([4, 0])[::-1]]:
            self.assertEqual(sigdorf.solve(*LISTS, start=value).cost, 3)


class Guises(Limited):
    def test_arrays(self):
        """Arrays in whatever order of bytes, stride and type, and what isn't to be written."""
        for kind in ("i1", "u1", ">i2", "<u4", ">u4", ">i8", "u8", ">u8"):
            for guise in (lambda array: array, lambda array: numpy.repeat(array, 3)[::3], lambda array: array[::-1].copy()[::-1], self.not_to_be_written):
                given = [guise(numpy.array(side, kind)) for side in LISTS]
                with self.subTest(kind=kind):
                    solution = sigdorf.solve(*given)
                    self.assertEqual((solution.cost, solution.columns.tolist()), (3, [1, 0]))
                    sigdorf.check(solution, *given)
        for kind in ("f2", "f4", ">f8", "g", "?"):
            least = 1 if kind == "?" else 3
            self.assertEqual(sigdorf.solve(*LISTS[:2], numpy.array([1, 2, 1, 4] if least == 3 else [0, 1, 1, 1], kind)).cost, least)

    def not_to_be_written(self, array):
        array.setflags(write=False)
        return array

    def test_matrices(self):
        for matrix in ([[1, 2], [1, 4]], ((1, 2), (1, 4)), numpy.matrix([[1, 2], [1, 4]]), numpy.array([[1, 1], [2, 4]], ">i2").T, numpy.array([[1, 4], [1, 2]], "f2")[::-1]):
            self.assertEqual(sigdorf.linear_sum_assignment(matrix)[1].tolist(), [1, 0])

    def test_matrices_at_fault(self):
        infinite = numpy.full((2, 2), numpy.inf)
        for value in [None, 5, "12", [1, 2], [[1, 2], [3]], numpy.zeros((2, 2, 2)), numpy.zeros((2, 2), complex), numpy.zeros((2, 2), object), numpy.zeros((2, 2), "M8[s]"), [["1", "2"], ["3", "4"]],
                      numpy.ma.masked_array([[1, 2], [1, 4]], [[0, 1], [0, 0]]), [numpy.ma.masked_array([1, 2], [0, 1]), [1, 4]], [[1, numpy.ma.masked], [1, 4]], [[decimal.Decimal(1)]], {1: 2},
                      numpy.broadcast_to(numpy.int8(0), (10**9, 10**9)), numpy.broadcast_to(numpy.int8(0), (16_384, 16_385)), numpy.broadcast_to(numpy.float32(0), (3, 10**9)),
                      [[1, numpy.nan], [1, 2]], [[1, -numpy.inf], [1, 2]], [[1, 2**64], [1, 2]], Broken(), numpy.zeros((2, 2), [("a", int)]), range(10**12)]:
            with self.subTest(kind=type(value)):
                with self.assertRaises(ValueError) as caught:
                    sigdorf.linear_sum_assignment(value)
                self.assertIn(type(caught.exception), (ValueError, sigdorf.Mistyped))
                with self.assertRaises(ValueError):
                    sigdorf.min_weight_full_bipartite_matching(value)
        with self.assertRaises(sigdorf.Infeasible):
            sigdorf.linear_sum_assignment(infinite)

    def test_sparse_matrices(self):
        if not scipy:
            self.skipTest("scipy is not there")
        dense = numpy.array([[1, 2], [1, 4]])
        for name in ("coo", "csc", "csr", "dok", "lil"):
            self.assertEqual(sigdorf.linear_sum_assignment(scipy.sparse.csr_matrix(dense).asformat(name))[1].tolist(), [1, 0])
        for kind, costs in [("i1", [100, 100, 100, 1]), ("f2", [2048, 1, 2048, 1]), ("u4", [10**9, 0, 5, 1])]:
            twice = scipy.sparse.coo_matrix((numpy.array(costs, kind), ([0, 0, 0, 0], [0, 0, 1, 1])), (1, 2))
            self.assertEqual(sigdorf.linear_sum_assignment(twice)[1].tolist(), [1 if costs[0] + costs[1] > costs[2] + costs[3] else 0])
        broken = scipy.sparse.csr_matrix(dense)
        broken.indices[0] = 77
        for value in [scipy.sparse.bsr_matrix(dense), scipy.sparse.dia_matrix(dense), broken, scipy.sparse.coo_matrix((2**31 - 1, 2**31 - 1)), scipy.sparse.csr_matrix(dense.astype(complex))]:
            with self.subTest(kind=type(value)), self.assertRaises(ValueError):
                sigdorf.min_weight_full_bipartite_matching(value)

    def test_narrow_floats(self):
        """A float of 32 or 16 bits is the number that it is, and its product with a power of ten isn't rounded to its own few bits."""
        amount = decimal.Decimal
        self.assertEqual(sigdorf.solve([0], [0], numpy.float32([123456.789]), decimals=3).cost, amount("123456.789"))
        self.assertEqual(sigdorf.solve([0], [0], numpy.float16([1234.0]), decimals=3).cost, amount("1234.000"))
        self.assertEqual(sigdorf.solve([0], [0], numpy.float32([0.1]), decimals=1).cost, amount("0.1"))
        self.assertEqual(sigdorf.solve([0], [0], numpy.float16([0.1]), decimals=4).cost, amount("0.1000"))
        with self.assertRaisesRegex(ValueError, "more than 1 decimals"):
            sigdorf.solve([0], [0], numpy.float16([0.12]), decimals=1)
        for seed in range(50):
            costs = numpy.random.default_rng(seed).uniform(0, 900_000, 4).round(3).astype(numpy.float32)
            least = min(costs[0].item() + costs[3].item(), costs[1].item() + costs[2].item())
            found = sigdorf.solve([0, 0, 1, 1], [0, 1, 0, 1], costs, decimals=3).cost
            self.assertLess(abs(found - amount(least)), amount("0.002"))

    def test_way_out_of_too_many_decimals(self):
        for costs, decimals, has_room in [([0.25], 1, True), ([1e-10], 9, False), ([0.1234567891], 9, False), ([10.123456789], 8, False), ([1.0, 0.123456789], 8, True)]:
            with self.subTest(costs=costs), self.assertRaises(ValueError) as caught:
                sigdorf.solve([0] * len(costs), list(range(len(costs))), costs, decimals=decimals)
            self.assertEqual("pass decimals=" in str(caught.exception), has_room)
            if has_room:
                sigdorf.solve([0] * len(costs), list(range(len(costs))), costs, decimals=decimals + 1)


class Claims(Limited):
    def test_parts_of_a_solution(self):
        solution = sigdorf.solve(*LISTS)
        for name in ("rows", "columns", "entries", "prices"):
            for value in [*no_whole_lists(), [], [0], [0, 1, 0], [-1, 0], [2**63, 0], [2**62, 2**62], numpy.zeros((2, 0)), numpy.zeros((2, 0), int), numpy.zeros((2, 2), int), [0.0, 1.0], [True, False]]:
                with self.subTest(name=name, kind=type(value)), self.assertRaises(sigdorf.Refused):
                    sigdorf.check(solution._replace(**{name: anew(value)}), *LISTS)

    def test_amounts_of_a_solution(self):
        solution = sigdorf.solve(*LISTS)
        faults = [None, float("inf"), float("-inf"), float("nan"), "3", [3], True, 4, 2**64, -(2**64), 10**5000, numpy.timedelta64(3), Broken(), numpy.array([3, 3])]
        faults += [decimal.Decimal(text) for text in ("sNaN", "NaN", "Infinity", "1e999999", "1e-999999", "3.0000000000000000000000000000000001")]
        for name in ("cost", "bound", "scale"):
            for value in faults:
                with self.subTest(name=name, kind=type(value)), self.assertRaises(sigdorf.Refused):
                    sigdorf.check(solution._replace(**{name: value}), *LISTS)
        for value in (numpy.int8(3), numpy.uint64(3), decimal.Decimal("3.000")):
            sigdorf.check(solution._replace(cost=value), *LISTS)

    def test_no_solutions(self):
        for value in [None, 5, "solution", (), sigdorf.solve(*LISTS)[:6], object(), Broken()]:
            with self.subTest(kind=type(value)), self.assertRaises(sigdorf.Refused):
                sigdorf.check(value, *LISTS)

    def test_empty_problems(self):
        nothing = sigdorf.solve([], [], [], (0, 2))
        sigdorf.check(nothing, [], [], [], (0, 2))
        for part in ({"cost": 1}, {"prices": [0, 1]}, {"prices": [0]}, {"entries": [0]}, {"rows": [0]}, {"scale": 2}):
            with self.subTest(part), self.assertRaises(sigdorf.Refused):
                sigdorf.check(nothing._replace(**part), [], [], [], (0, 2))
        with self.assertRaises(sigdorf.Refused):
            sigdorf.check(sigdorf.solve(*LISTS), [], [], [], (0, 2))

    def test_order_of_pairs(self):
        """Pairs may stand in any order, as long as each is the one of its entry."""
        solution = sigdorf.solve(*LISTS)
        turned = solution._replace(rows=solution.rows[::-1], columns=solution.columns[::-1], entries=solution.entries[::-1], costs=solution.costs[::-1])
        sigdorf.check(turned, *LISTS)

    def test_faults_in_other_processes(self):
        for fault in (sigdorf.Infeasible(numpy.array([0, 1]), numpy.array([1])), sigdorf.Infeasible(numpy.array([1]), numpy.array([0, 1]), True)):
            again = pickle.loads(pickle.dumps(fault))
            self.assertEqual((str(again), again.rows.tolist(), again.by_columns), (str(fault), fault.rows.tolist(), fault.by_columns))
