"""Forced and forbidden pairs and capacities, against all assignments."""
import fractions
import itertools
import unittest

from limited import Limited, numpy, sigdorf
from test_best import table_of
from test_manners import Frame

try:
    import pandas
except ImportError:
    pandas = None


def assignments_of(table, capacity):
    """The columns of each row, or the rows of each column where there is no capacity and there are more rows: all that there are, as pairs."""
    rows, columns = table.shape
    if capacity is None and rows > columns:
        for taken in itertools.permutations(range(rows), columns):
            yield list(zip(taken, range(columns)))
        return
    most = numpy.broadcast_to(1 if capacity is None else capacity, columns)
    for taken in itertools.product(range(columns), repeat=rows):
        if (numpy.bincount(taken, minlength=columns) <= most).all():
            yield list(enumerate(taken))


def least_of_all(table, maximize, forced, forbidden, capacity):
    """The least (or greatest) cost of these, or None."""
    costs = []
    for pairs in assignments_of(table, capacity):
        if (
            set(forced) <= set(pairs)
            and not set(forbidden) & set(pairs)
            and all(numpy.isfinite(table[pair]) for pair in pairs)
        ):
            costs.append(sum(fractions.Fraction(table[pair].item()) for pair in pairs))
    return (max if maximize else min)(costs, default=None)


class Restricted(Limited):
    def test_against_all(self):
        random = numpy.random.default_rng(1)
        counts = {False: 0, True: 0}
        for number in range(400):
            table, maximize = table_of(random, number), number % 2 == 1
            every = [tuple(pair.tolist()) for pair in random.permutation(numpy.argwhere(numpy.isfinite(table)))]
            forced = [
                pair
                for place, pair in enumerate(every[: number % 3])
                if pair[0] not in [other[0] for other in every[:place]]
            ]
            forbidden = [pair for pair in every[3:6] if pair not in forced]
            capacity = [None, 2, random.integers(0, 3, table.shape[1])][number // 3 % 3]
            words = {"maximize": maximize, "forced": forced, "forbidden": forbidden, "capacity": capacity}
            with self.subTest(table=table.tolist(), **words):
                least = least_of_all(table, **words)
                counts[least is None] += 1
                if least is None:
                    with self.assertRaisesRegex(
                        ValueError, "with these pairs and capacities|beyond the capacity of its column"
                    ):
                        sigdorf.solve(table, **words)
                    continue
                found = sigdorf.solve(table, **words)
                self.assertEqual(found.exact_cost, least)
                pairs = list(zip(found.rows.tolist(), found.columns.tolist()))
                self.assertIn(pairs, map(sorted, assignments_of(table, capacity)))
                self.assertTrue(set(forced) <= set(pairs) and not set(forbidden) & set(pairs))
                sigdorf.check(found, table, **words)
                rows, columns = numpy.nonzero(numpy.isfinite(table))
                listed = (rows, columns, table[rows, columns], table.shape)
                self.assertEqual(sigdorf.solve(*listed, **words), found)
                sigdorf.check(found, *listed, **words)
                if capacity is None or len(found.prices) == table.shape[1]:
                    start = numpy.arange(max(table.shape) if capacity is None else table.shape[1])
                    self.assertEqual(sigdorf.solve(table, start=start, seconds=60, **words).exact_cost, least)
        self.assertGreater(min(counts.values()), 30)

    def test_wrong_claims(self):
        """A check takes the restrictions too, and refuses what they don't allow, or isn't least with them."""
        table = [[1, 2, 5], [1, 4, 9], [1, 3, 7]]
        free, forced, shared = (
            sigdorf.solve(table),
            sigdorf.solve(table, forced=[(0, 0)]),
            sigdorf.solve(table, capacity=2),
        )
        self.assertEqual([found.cost for found in (free, forced, shared)], [9, 12, 4])
        for claim, words, reason in [
            (free, {"forced": [(0, 0)]}, "isn't allowed"),
            (free, {"forbidden": [(0, int(free.columns[0]))]}, "isn't allowed"),
            (free, {"capacity": 2}, "better entry|left over"),
            (forced, {}, "better entry"),
            (shared, {}, "is taken twice|left over"),
            (shared, {"capacity": [1, 2, 2]}, "isn't allowed"),
            (forced._replace(prices=[0, 0]), {"forced": [(0, 0)]}, "not of the size"),
            (forced._replace(columns=[0, 1, 1]), {"forced": [(0, 0)]}, "are not those of its entries"),
            (forced._replace(entries=[0, 4, 99]), {"forced": [(0, 0)]}, "doesn't have"),
            (forced._replace(labels=[]), {"forced": [(0, 0)]}, "labels"),
            ((), {"forced": [(0, 0)]}, "a Solution is wanted"),
        ]:
            with self.subTest(words), self.assertRaisesRegex(sigdorf.Refused, reason):
                sigdorf.check(claim, table, **words)

    def test_names(self):
        tables = [Frame([[1, 2], [1, 4]], ["Ada", "Bo"], ["roof", "wall"])]
        tables += [pandas.DataFrame([[1, 2], [1, 4]], ["Ada", "Bo"], ["roof", "wall"])] if pandas else []
        for table in tables:
            words = {"forced": [("Ada", "roof")], "forbidden": iter([("Bo", "roof")])}
            self.assertEqual(sigdorf.solve(table, **words).labels, [("Ada", "roof"), ("Bo", "wall")])
            with self.assertRaisesRegex(ValueError, "forced: there is no row 'Ada', column 'door'"):
                sigdorf.solve(table, forced=[("Ada", "door")])
            with self.assertRaisesRegex(
                ValueError, "forced: row 'Bo', column 'roof' is beyond the capacity of its column"
            ):
                sigdorf.solve(table, forced=[("Ada", "roof"), ("Bo", "roof")])
            with self.assertRaises(sigdorf.Infeasible) as caught:
                sigdorf.solve(table, forbidden=[("Ada", "roof"), ("Bo", "roof")])
            self.assertEqual(
                str(caught.exception),
                "no full assignment exists with these pairs and capacities: 2 rows have entries in only 1 column (rows Ada, Bo; column wall)",
            )
            self.assertEqual(sigdorf.solve(table, capacity=[2, 0]).labels, [("Ada", "roof"), ("Bo", "roof")])
        with self.assertRaisesRegex(ValueError, "forbidden: a row or a column has the name of another one"):
            sigdorf.solve(Frame([[1], [1]], ["Ada", "Ada"], ["roof"]), forbidden=[("Ada", "roof")])

    def test_faults(self):
        table = [[1, 2, numpy.inf], [1, 4, 9]]
        for words, told in [
            ({"forced": 5}, "forced must be a list of pairs"),
            ({"forced": [0, 1]}, "forced must be a list of pairs"),
            ({"forced": [(0.0, 1.0)]}, "forced must be a list of pairs"),
            ({"forbidden": [(True, False)]}, "forbidden must be a list of pairs"),
            ({"forbidden": [("a", "b")]}, "forbidden must be a list of pairs"),
            ({"forced": [(0, 3)]}, "forced: there is no row 0, column 3"),
            ({"forbidden": [(-1, 0)]}, "forbidden: there is no row -1, column 0"),
            ({"forced": [(0, 2)]}, "forced: row 0, column 2 is no entry"),
            ({"forced": [(0, 1), (0, 0)]}, "forced: row 0, column 0 isn't the first pair of its row"),
            ({"forced": [(0, 1), (1, 1)]}, "forced: row 1, column 1 is beyond the capacity of its column"),
            ({"forced": [(0, 1)], "forbidden": [(0, 1)]}, "forced: row 0, column 1 is forbidden too"),
            ({"capacity": 1.5}, "capacity must be a whole number"),
            ({"capacity": -1}, "capacity must be a whole number"),
            ({"capacity": [1, 2]}, "capacity must be a whole number, or one of each of the 3 columns"),
            ({"capacity": [1, 2, -1]}, "capacity must not be below 0"),
            ({"capacity": "2"}, "capacity must be a whole number"),
            ({"capacity": 2, "start": [0, 0]}, "a start has a price for each column"),
        ]:
            with self.subTest(words), self.assertRaisesRegex(ValueError, told):
                sigdorf.solve(table, **words)
        with self.assertRaisesRegex(sigdorf.Infeasible, "capacities: 3 rows have entries in only 1 column"):
            sigdorf.solve([[1], [2], [3]], capacity=2)
        with self.assertRaisesRegex(sigdorf.Infeasible, "capacities: 2 rows have entries in only 0 columns"):
            sigdorf.solve(table, capacity=0)
        with self.assertRaisesRegex(ValueError, "row 0, column 0: the cost 1.5 of entry 0 has more than 0 decimals"):
            sigdorf.solve([0], [0], [1.5], decimals=0, capacity=1)
        for capacity in (0, 1, [0, 2, 0]):
            nothing = sigdorf.solve(numpy.zeros((0, 3)), capacity=capacity)
            self.assertEqual((nothing.cost, nothing.prices.tolist()), (0, [0, 0, 0]))
            sigdorf.check(nothing, numpy.zeros((0, 3)), capacity=capacity)
        self.assertEqual(sigdorf.solve([[0.5, 0.25], [0.5, 0.75]], decimals=2, capacity=2).columns.tolist(), [1, 0])

    def test_limits_of_the_search(self):
        table = [[1, 2, 5], [1, 4, 9], [8, 3, 7]]
        for words in ({"capacity": 2}, {"forced": [(0, 1)]}):
            found = sigdorf.solve(table, bids=0, **words)
            self.assertLessEqual(found.bound, sigdorf.solve(table, **words).cost)


if __name__ == "__main__":
    unittest.main()
