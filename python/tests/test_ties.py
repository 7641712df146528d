"""Of several least assignments the first, by looking at all of them: for each type, layout and form of a table, with the extension and without it."""
import fractions
import functools
import itertools
import unittest
import unittest.mock

from limited import Limited, numpy, scipy, sigdorf

if numpy:
    from sigdorf import fast

# Few different numbers, so that most tables have several least assignments; all are whole numbers of 2^-58, and so are sums of them.
NUMBERS = ([0, 1, 2], [1, 1, 1], [0.25, 0.5, 1.5], [0.1, 0.2, 0.3], [0.1, 0.7, 1.1], [1, 1 + 2.0**-52, 1 + 2.0**-51], [0.5, 0.5 + 2.0**-29, 0.5 + 2.0**-30], [-1, 0, 2])
TABLES = 5_000


@functools.lru_cache
def choices(persons, objects):
    """All choices of an object for each person, the first before the others."""
    return numpy.array(list(itertools.permutations(range(objects), persons)))


def first_of_all(table, maximize=False):
    """The rows and columns of the first least assignment."""
    if table.shape[0] > table.shape[1]:
        rows, columns = first_of_all(table.T, maximize)
        order = numpy.argsort(columns)
        return columns[order], rows[order]
    units = numpy.ldexp(table.astype(float), 58).astype(numpy.int64) * (-1 if maximize else 1)
    persons = numpy.arange(table.shape[0])
    all_choices = choices(*table.shape)
    return persons, all_choices[units[persons, all_choices].sum(axis=1).argmin()]


def first_match(table, limit, maximize=False):
    """The same of pairs under a limit: whoever stays free comes behind all columns."""
    if table.shape[0] > table.shape[1]:
        rows, columns = first_match(table.T, limit, maximize)
        order = numpy.argsort(columns)
        return columns[order], rows[order]
    outlets = numpy.full((table.shape[0],) * 2, 1.0 if maximize else -1.0) * -1e9
    numpy.fill_diagonal(outlets, limit)
    units = [[fractions.Fraction(cost) * (-1 if maximize else 1) for cost in row] for row in numpy.hstack([table, outlets]).tolist()]
    taken = min(itertools.permutations(range(sum(table.shape)), table.shape[0]), key=lambda columns: (sum(row[column] for row, column in zip(units, columns)), columns))
    rows = [row for row, column in enumerate(taken) if column < table.shape[1]]
    return numpy.array(rows, int), numpy.array([taken[row] for row in rows], int)


def tables(count, seed):
    random = numpy.random.default_rng(seed)
    for number in range(count):
        shape = tuple(random.integers(1, 6, 2) + [0, number % 2])
        yield number, random.choice(NUMBERS[number % len(NUMBERS)], shape), number % 3 == 1


def guises(table):
    """The same numbers in other types, orders of bytes and layouts."""
    for kind in ("f8", ">f8", "f4", ">f4", "f2", "g", "i1", "i4", ">i4", "i8", ">i8", "u2", ">u8", "u8"):
        with numpy.errstate(all="ignore"):
            given = table.astype(kind)
        if (given == table).all():
            yield given
    yield numpy.asfortranarray(table)
    yield numpy.repeat(table, 2, 1)[:, ::2]
    yield table[::-1, ::-1].copy()[::-1, ::-1]
    yield table.tolist()


def listed(table):
    """Rows, columns and costs in no order."""
    rows, columns = numpy.indices(table.shape).reshape(2, -1)
    order = numpy.random.default_rng(table.size).permutation(table.size)
    return rows[order], columns[order], table[rows[order], columns[order]], table.shape


class Ties(Limited):
    def assert_first(self, found, wanted, told):
        self.assertEqual([side.tolist() for side in found[:2]], [side.tolist() for side in wanted], told)

    def test_all_types(self):
        for number, table, maximize in tables(TABLES, 1):
            wanted = first_of_all(table, maximize)
            some = list(guises(table))
            # Without the extension each call takes some hundred microseconds.
            for given in some if fast.is_there() or number % 20 == 0 else [some[number % len(some)], table]:
                told = table.tolist(), getattr(given, "dtype", list), maximize
                self.assert_first(sigdorf.linear_sum_assignment(given, numpy.bool_(maximize)), wanted, told)
                self.assert_first(sigdorf.solve(given, maximize=int(maximize)), wanted, told)

    def test_all_forms(self):
        for number, table, maximize in tables(TABLES // 4, 2):
            wanted, given, words = first_of_all(table, maximize), listed(table), {"maximize": maximize}
            start = numpy.random.default_rng(number).integers(0, 100, max(table.shape))
            for found in (sigdorf.solve(*given, **words), sigdorf.solve(table, start=start, **words), sigdorf.solve(table, seconds=60, **words), sigdorf.solve_many([table] * 2, 1, **words)[1]):
                self.assert_first(found, wanted, (table.tolist(), maximize))
                self.assertEqual(given[2][sigdorf.solve(*given, **words).entries].tolist(), table[wanted].tolist())
            if scipy and table.all():
                for form in ("csr", "coo", "lil"):
                    matrix = scipy.sparse.csr_matrix(table).asformat(form)
                    self.assert_first(sigdorf.min_weight_full_bipartite_matching(matrix, maximize), wanted, (table.tolist(), maximize))

    def test_gates(self):
        for number, table, maximize in tables(300, 3):
            table = table[:4, :3]
            limit = table.ravel()[number % table.size].item()
            wanted = first_match(table, limit, maximize)
            for given in (limit, numpy.float64(limit), numpy.float32(limit) if numpy.float32(limit) == limit else limit):
                self.assert_first(sigdorf.match(table, given, maximize=maximize), wanted, (table.tolist(), limit, maximize))
            rows, columns, costs, shape = listed(table)
            self.assert_first(sigdorf.match(costs, limit, rows=rows, columns=columns, shape=shape, maximize=maximize), wanted, (table.tolist(), limit, maximize))

    def test_without_the_extension(self):
        with unittest.mock.patch.object(fast, "_extension", None):
            for number, table, maximize in tables(TABLES // 4, 4):
                wanted = first_of_all(table, maximize)
                self.assert_first(sigdorf.linear_sum_assignment(table, maximize), wanted, (table.tolist(), maximize))
                if number % 10 == 0:
                    limit = table.ravel()[0].item()
                    self.assert_first(sigdorf.match(table[:3, :3], limit), first_match(table[:3, :3], limit), (table.tolist(), limit))

    def test_one_pair_twice(self):
        """Of two entries of one pair and one cost the first."""
        self.assertEqual(sigdorf.solve([0, 0, 1, 1, 0], [1, 0, 1, 1, 0], [5, 2.5, 1, 1, 2.5]).entries.tolist(), [1, 2])

    def test_greater(self):
        """The way makes no difference where nobody can look at all assignments."""
        random = numpy.random.default_rng(5)
        for number in range(60):
            shape = tuple(random.integers(2, 40, 2))
            table = random.integers(0, random.choice([1, 2, 5, 50]) + 1, shape) / random.choice([1, 4, 10])
            wanted = sigdorf.linear_sum_assignment(table)
            with unittest.mock.patch.object(fast, "_extension", None):
                self.assert_first(sigdorf.linear_sum_assignment(table), wanted, table.tolist())
            self.assert_first(sigdorf.solve(*listed(table)), wanted, table.tolist())
            self.assertEqual(sigdorf.solve(table).exact_cost, sum(map(fractions.Fraction, table[wanted].tolist())))
            if scipy:
                self.assertAlmostEqual(table[wanted].sum(), table[scipy.optimize.linear_sum_assignment(table)].sum())


if __name__ == "__main__":
    unittest.main()
