"""A limit of time of each call that has one but `solve`: what is left of a search, and what isn't begun."""
import contextlib
import ctypes
import fractions
import math
import pickle
import time
import unittest

from limited import Limited, numpy, sigdorf

if numpy:
    import floats
    from sigdorf import fast, library
    from test_fast import DENSE
    from test_gated import least_of_all
    from test_waiting import LATE, forms, products

LONG = 60


def worth(found, limit, column_limit=0):
    """The sum of pairs, each less what it costs to leave its row and column free, as a Fraction."""
    return sum((fractions.Fraction(cost) for cost in found.costs.tolist()), fractions.Fraction(0)) - len(found.rows) * (
        fractions.Fraction(limit) + fractions.Fraction(column_limit)
    )


@contextlib.contextmanager
def ended():
    """The library answers of each table at once that the time is up, with each row's own column and a bound that is of no use."""

    @ctypes.CFUNCTYPE(ctypes.c_int32, *DENSE)
    def call(persons, objects, costs, count, stride, gap, *words):
        table = numpy.array((ctypes.c_int64 * count).from_address(costs)).reshape(persons, objects)
        cost = int(table[range(persons), range(persons)].sum())
        (ctypes.c_uint32 * persons).from_address(words[4])[:] = range(persons)
        library.Watched.from_address(words[3]).stopped = 1
        found = library.Found.from_address(words[10])
        found.cost, found.lower, found.kind = cost, cost - 10**15, 1
        return library.BRACKET

    real = fast.address_of("sigdorf_solve_dense_watched"), fast.address_of("sigdorf_solve_watched")
    fast._extension.bind(ctypes.cast(call, ctypes.c_void_p).value, real[1])
    try:
        yield
    finally:
        fast._extension.bind(*real)


class Matches(Limited):
    def assert_match(self, found, table, limit, maximize=False):
        """Pairs of a table within the limit, nobody in two of them, and everybody else free."""
        costs = table[found.rows, found.columns]
        self.assertEqual(found.costs.tolist(), costs.tolist())
        self.assertTrue((costs >= limit).all() if maximize else (costs <= limit).all())
        for side, held, free in zip(table.shape, found[:2], found[2:4]):
            self.assertEqual(sorted([*held.tolist(), *free.tolist()]), list(range(side)))

    def test_ends_in_time(self):
        """The sum of an answer is above the least one by its gap at most."""
        # Lists of all entries take longer, and without the extension all are such.
        tables, unsettled = [*forms(products(1_200 if fast.is_there() else 400)[0])][:2], 0
        for given in tables + [*forms(products(400)[0])][2:]:
            is_list = len(given) == 3
            costs, own = (given[2], {"rows": given[0], "columns": given[1]}) if is_list else (given[0], {})
            # Half of all entries, or hardly any, are beyond it.
            for limit in (2 * 10**8, 10**9):
                best = sigdorf.match(costs, limit, **own)
                for seconds in (0, 0.05):
                    began = time.monotonic()
                    found = sigdorf.match(costs, limit, seconds=seconds, **own)
                    took = time.monotonic() - began
                    with self.subTest(kind=type(costs), limit=limit, seconds=seconds, is_optimal=found.is_optimal):
                        # Reading takes its time.
                        self.assertLess(took, seconds + 1 + LATE)
                        dense = costs.reshape(400, 400) if is_list else costs.toarray() if hasattr(costs, "toarray") else costs
                        self.assert_match(found, dense, limit)
                        self.assertEqual(found.is_optimal, found.gap == 0)
                        unsettled += not found.is_optimal
                        self.assertTrue(0 <= worth(found, limit) - worth(best, limit) <= found.gap)

        self.assertGreater(unsettled, 0)

    def test_settled(self):
        """With time enough, or where a search is short, it is the answer without a limit."""
        random = numpy.random.default_rng(1)
        for number in range(200):
            table = floats.KINDS[number % len(floats.KINDS)](random, tuple(random.integers(1, 9, 2)))
            limit, maximize = random.choice(table.ravel()).item(), bool(random.integers(2))
            wanted = sigdorf.match(table, limit, maximize=maximize)
            for seconds in (LONG, numpy.float32(LONG), 1e300):
                self.assertEqual(sigdorf.match(table, limit, maximize=maximize, seconds=seconds), wanted)
            found, sign = sigdorf.match(table, limit, maximize=maximize, seconds=0), -1 if maximize else 1
            self.assertTrue(0 <= sign * (worth(found, limit) - worth(wanted, limit)) <= found.gap)
            few = random.integers(-9, 10, table.shape)
            self.assertEqual(sigdorf.max_cardinality_match(few, seconds=LONG), sigdorf.max_cardinality_match(few))

    def test_bids_end_it_too(self):
        """Who has set a time takes what bids have left, and others are told by a fault."""
        for table, limit in (([[0.1, 0.5], [0.5, 0.6]], 0.6), ([[0.4, 1.0], [0.4, 1.1]], 0.8)):
            for form in (numpy.array(table), table):
                with self.assertRaises(sigdorf.Unsettled):
                    sigdorf.match(form, limit, bids=0)
                found = sigdorf.match(form, limit, bids=0, seconds=LONG)
                self.assert_match(found, numpy.array(table), limit)
                self.assertFalse(found.is_optimal)
                self.assertTrue(0 <= worth(found, limit) - least_of_all(numpy.array(table), limit, False) <= found.gap)
                self.assertRegex(repr(found), r"^Match\(gap=[\d.e-]+, pairs=")
                self.assertEqual(pickle.loads(pickle.dumps(found)), found)
                self.assertEqual(sigdorf.match_many([form], limit, bids=0, seconds=LONG), [found])

    def test_own_limits(self):
        """No pair of a search that was ended is beyond the limits of its row and column."""
        table, _ = products(300)
        random = numpy.random.default_rng(2)
        for given in (table, table / 3):
            scale = 1 if given is table else 3
            limits, column_limits = random.integers(10**6, 3 * 10**8, (2, 300)) // scale
            for maximize in (False, True):
                for words in ({}, {"column_limit": column_limits}):
                    best, own = sigdorf.match(given, limits, maximize=maximize, **words), column_limits if words else numpy.zeros(300, int)
                    for seconds in (0, 0.01, LONG):
                        found = sigdorf.match(given, limits, maximize=maximize, seconds=seconds, **words)
                        free = limits[found.rows] + own[found.columns]
                        sign = -1 if maximize else 1
                        self.assertTrue((sign * found.costs <= sign * free).all())
                        sums = [sum(fractions.Fraction(cost) for cost in one.costs.tolist()) - int((limits[one.rows] + own[one.columns]).sum()) for one in (found, best)]
                        with self.subTest(maximize=maximize, words=[*words], seconds=seconds, is_optimal=found.is_optimal):
                            self.assertTrue(0 <= sign * (sums[0] - sums[1]) <= found.gap)
                            self.assertTrue(seconds < LONG or found == best)

    @unittest.skipUnless(numpy and fast.is_there(), "the extension isn't used")
    def test_any_assignment(self):
        """Whatever assignment is left of a table, pairs beyond the limit aren't among those that are answered."""
        random, unsettled = numpy.random.default_rng(3), 0
        for number in range(400):
            table = floats.KINDS[number % len(floats.KINDS)](random, tuple(random.integers(1, 6, 2)))
            limit, maximize = random.choice(table.ravel()).item(), bool(random.integers(2))
            best = sigdorf.match(table, limit, maximize=maximize)
            with ended():
                found = sigdorf.match(table, limit, maximize=maximize, seconds=LONG)
            with self.subTest(table=table.tolist(), limit=limit, maximize=maximize):
                self.assert_match(found, table, limit, maximize)
                self.assertTrue(0 <= (-1 if maximize else 1) * (worth(found, limit) - worth(best, limit)) <= found.gap)
            unsettled += not found.is_optimal
        self.assertGreater(unsettled, 300)

    @unittest.skipUnless(numpy and fast.is_there(), "the extension isn't used")
    def test_most_pairs(self):
        """A gap that isn't infinite is one of costs, of as many pairs as possible."""
        random, seen = numpy.random.default_rng(4), [0, 0]
        for number in range(300):
            table = random.integers(-9, 10, tuple(random.integers(1, 6, 2))) / random.choice([1, 4])
            table[random.random(table.shape) < 0.5] = numpy.inf
            maximize = bool(number % 2)
            if maximize:
                table = -table
            best = sigdorf.max_cardinality_match(table, maximize=maximize)
            with ended():
                found = sigdorf.max_cardinality_match(table, maximize=maximize, seconds=LONG)
            self.assertLessEqual(len(found.rows), len(best.rows))
            seen[math.isinf(found.gap)] += 1
            if not math.isinf(found.gap):
                self.assertEqual(len(found.rows), len(best.rows))
                self.assertTrue(0 <= (-1 if maximize else 1) * (worth(found, 0) - worth(best, 0)) <= found.gap)
        self.assertGreater(seen[1], 0)

    def test_gap_of_costs(self):
        """Where all have a column and the bound shows it, the gap is one of costs."""
        best = sigdorf.max_cardinality_match([[0.1, 0.2], [0.1, 0.4]])
        found = sigdorf.max_cardinality_match([[0.1, 0.2], [0.1, 0.4]], bids=0, seconds=LONG)
        self.assertEqual(len(found.rows), 2)
        self.assertTrue(0 <= worth(found, 0) - worth(best, 0) <= found.gap < 1)
        self.assertIn("gap=inf", repr(found._replace(gap=math.inf)))

    def test_faults(self):
        calls = {
            "match": lambda seconds: sigdorf.match([[1, 2]], 5, seconds=seconds),
            "match_many": lambda seconds: sigdorf.match_many([[[1, 2]]], 5, seconds=seconds),
            "max_cardinality_match": lambda seconds: sigdorf.max_cardinality_match([[1, 2]], seconds=seconds),
            "solve_many": lambda seconds: sigdorf.solve_many([[[1, 2]]], seconds=seconds),
            "k_best": lambda seconds: sigdorf.k_best([[1, 2]], 2, seconds=seconds),
            "certify": lambda seconds: sigdorf.certify([0], [0], [[1, 2]], seconds=seconds),
            "Solver": lambda seconds: sigdorf.Solver().solve([[1, 2]], seconds=seconds),
        }
        for name, call in calls.items():
            for seconds in (-1, math.nan, math.inf, "1", True, [1]):
                with self.subTest(name, seconds=seconds), self.assertRaisesRegex(ValueError, "seconds must be"):
                    call(seconds)
            self.assertTrue(call(LONG))
        with self.assertRaisesRegex(ValueError, "limit must be"):
            sigdorf.match([[1, 2]], None, seconds=0)


class Many(Limited):
    def test_nothing_is_begun(self):
        small = [[1.0, 9.0], [9.0, 0.5]]
        tables = [small, numpy.array(small), ([0, 1], [0, 1], [1.0, 0.5])] * 50
        self.assertEqual(sigdorf.match_many(tables, 2.0, seconds=0), [None] * 150)
        self.assertEqual(sigdorf.match_many(tables, 2.0, seconds=LONG), sigdorf.match_many(tables, 2.0))
        for threads in (1, 3):
            self.assertEqual(sigdorf.solve_many(tables, threads, seconds=0), [None] * 150)
            self.assertEqual(sigdorf.solve_many(tables, threads, seconds=LONG), sigdorf.solve_many(tables, threads))
        # What isn't begun isn't looked at.
        self.assertEqual((sigdorf.match_many(["no"], 2.0, seconds=0), sigdorf.solve_many(["no"], seconds=0)), ([None], [None]))

    def assert_ended(self, answers, first, took):
        """The first are answered; then one is ended, perhaps; and no later one is begun."""
        self.assertLess(took, 0.3 + 0.5 + LATE)
        self.assertTrue(all(answer.is_optimal for answer in answers[:first]))
        began = [answer for answer in answers if answer is not None]
        self.assertEqual(answers[len(began) :], [None] * (len(answers) - len(began)))
        self.assertIsNone(answers[-1])
        return began

    def test_match_many(self):
        table, small = products(1_000)[0], numpy.array([[1, 2**40], [2**40, 3]])
        for long in (table, table / 3):
            tables = [small, small] + [long] * 12 + [small]
            began = time.monotonic()
            found = sigdorf.match_many(tables, 2**38, seconds=0.3)
            self.assert_ended(found, 2, time.monotonic() - began)

    def test_solve_many(self):
        table, small = products(1_000)[0], numpy.array([[1, 2], [1, 4]])
        for long in (table, table / 3):
            for threads in (1, 2):
                began = time.monotonic()
                solutions = sigdorf.solve_many([small, small] + [long] * 12 + [small], threads, seconds=0.3)
                took = time.monotonic() - began
                with self.subTest(threads=threads, kind=long.dtype):
                    self.assertLess(took, 0.3 + 0.5 * threads + LATE)
                    self.assertEqual([solution.cost for solution in solutions[:2]], [3, 3])
                    self.assertIn(None, solutions)
                    for solution in filter(None, solutions):
                        self.assertEqual(len(set(solution.columns.tolist())), len(solution.rows))

    def test_faults_go_on(self):
        """A fault is one within the time too."""
        with self.assertRaises(sigdorf.Infeasible) as caught:
            sigdorf.solve_many([[[1]], [[numpy.inf]]], seconds=LONG)
        self.assertEqual(caught.exception.__notes__, ["in problem 1"])
        with self.assertRaisesRegex(ValueError, "nan") as caught:
            sigdorf.match_many([numpy.ones((2, 2)), numpy.full((1, 1), numpy.nan)], 1.0, seconds=LONG)
        self.assertEqual(caught.exception.__notes__, ["in table 1"])


class Best(Limited):
    def test_begins_as_the_whole(self):
        table = numpy.random.default_rng(5).integers(0, 50, (40, 40))
        wanted = sigdorf.k_best(table, 30)
        self.assertTrue(wanted.is_complete)
        self.assertEqual(sigdorf.k_best(table, 30, seconds=LONG), wanted)
        began = time.monotonic()
        found = sigdorf.k_best(table, 10**5, seconds=0.3)
        self.assertLess(time.monotonic() - began, 0.3 + LATE)
        self.assertFalse(found.is_complete)
        most = min(len(found), 30)
        self.assertEqual((list(found[:most]), most > 0), (wanted[:most], True))
        again = pickle.loads(pickle.dumps(found))
        self.assertEqual((again, again.is_complete), (found, False))

    def test_none_is_found(self):
        table, _ = products(1_500)
        for given, words in ((table, {"seconds": 0.05}), ([[1, 2]], {"seconds": 0}), ([[1, 2, numpy.inf], [1, 4, 9], [numpy.inf, 3, 7]], {"bids": 0, "seconds": LONG})):
            found = sigdorf.k_best(given, 2, **words)
            self.assertEqual((found, found.is_complete), ([], False))

    def test_fewer_than_wanted(self):
        found = sigdorf.k_best([[1, 2], [1, 4]], 9, seconds=LONG)
        self.assertEqual((len(found), found.is_complete), (2, True))
        with self.assertRaises(sigdorf.Infeasible):
            sigdorf.k_best([[numpy.inf]], 9, seconds=LONG)


class Certified(Limited):
    def test_ends(self):
        table, _ = products(1_500)
        worst, best = numpy.arange(1_500), numpy.arange(1_500)[::-1]
        self.assertEqual(sigdorf.certify(best, best[::-1], table, seconds=LONG).is_optimal, True)
        for rows, columns in ((worst, worst), (best, best[::-1])):
            began = time.monotonic()
            with self.assertRaises((sigdorf.Unsettled, sigdorf.Refused)) as caught:
                sigdorf.certify(rows, columns, table, seconds=0.05)
            self.assertLess(time.monotonic() - began, 1 + LATE)
            self.assertRegex(str(caught.exception), "another one costs|more seconds= may settle it")

    def test_better_ones(self):
        """A claim is refused as soon as anything better is known."""
        gaps = [[1, 2, numpy.inf], [1, 4, 9], [numpy.inf, 3, 7]]
        self.assertFalse(sigdorf.solve(gaps, bids=0).is_optimal)
        found = sigdorf.solve(gaps, bids=0)
        claims = [([0, 1, 2], [0, 1, 2]), ([0, 1, 2], [0, 2, 1]), ([0, 1, 2], [1, 0, 2])]
        for rows, columns in claims:
            cost = sum(gaps[row][column] for row, column in zip(rows, columns))
            kind, words = (sigdorf.Refused, "and another one costs") if cost > found.cost else (sigdorf.Unsettled, "a limit ended the search")
            with self.assertRaisesRegex(kind, words) as caught:
                sigdorf.certify(rows, columns, gaps, bids=0, seconds=LONG)
            again = pickle.loads(pickle.dumps(caught.exception))
            self.assertEqual((type(again), str(again)), (kind, str(caught.exception)))


if __name__ == "__main__":
    unittest.main()
