"""Duals, reduced costs and margins in the caller's unit, by what has to hold of them; and results as notebooks show them."""
import decimal
import fractions
import math
import pickle
import unittest

from limited import Limited, numpy, sigdorf
from test_best import all_of, table_of
from test_manners import Frame
from test_restricted import assignments_of, least_of_all


def entries_of(table):
    rows, columns = numpy.nonzero(numpy.isfinite(table))
    return rows, columns, table[rows, columns]


class Duals(Limited):
    def assert_duals(self, solution, table, capacity=1):
        """What makes them show the cost: no entry is better than they allow, pairs are as good, and all add up to the cost."""
        sign, (rows, columns, costs) = -1 if solution.maximize else 1, entries_of(table)
        reduced = sign * solution.reduced_costs(rows, columns, costs)
        self.assertTrue((reduced >= 0).all())
        pairs = sign * solution.reduced_costs(solution.rows, solution.columns, solution.costs)
        self.assertTrue((pairs == 0).all())
        self.assertEqual(solution.costs.tolist(), table[solution.rows, solution.columns].tolist())
        self.assertEqual((len(solution.u), len(solution.v)), table.shape)
        self.assertEqual(sum(solution.u) + sum(solution.v * capacity), solution.exact_cost)
        free = sum(numpy.broadcast_to(capacity, table.shape[1])) - table.shape[0]
        # What may be free has no dual that speaks for taking it.
        self.assertTrue(free <= 0 or (sign * solution.v <= 0).all())
        self.assertTrue(free >= 0 or (sign * solution.u <= 0).all())

    def test_random(self):
        random = numpy.random.default_rng(1)
        for number in range(300):
            table, maximize = table_of(random, number), number % 2 == 1
            if not all_of(table, maximize):
                continue
            with self.subTest(table=table.tolist(), maximize=maximize):
                solution = sigdorf.solve(table, maximize=maximize)
                self.assert_duals(solution, table)
                rows, columns, costs = entries_of(table)
                self.assert_duals(sigdorf.solve(rows, columns, costs, table.shape, maximize=maximize), table)
                capacity = random.integers(1, 3, table.shape[1])
                if capacity.sum() >= table.shape[0] and least_of_all(table, maximize, [], [], capacity) is not None:
                    self.assert_duals(sigdorf.solve(table, maximize=maximize, capacity=capacity), table, capacity)

    def test_how_far_costs_may_change(self):
        random = numpy.random.default_rng(2)
        for number in range(200):
            table, maximize = table_of(random, number), number % 2 == 1
            capacity = random.integers(1, 3, table.shape[1]) if number % 4 > 1 else None
            if least_of_all(table, maximize, [], [], capacity) is None:
                continue
            solution, sign = sigdorf.solve(table, maximize=maximize, capacity=capacity), -1 if maximize else 1
            entries = entries_of(table)
            exact = numpy.full(table.shape, None)
            exact[entries[:2]] = [fractions.Fraction(cost) for cost in entries[2].tolist()]
            pairs = list(zip(solution.rows.tolist(), solution.columns.tolist()))
            changes = dict(zip(pairs, sign * solution.margins(*entries)))
            for row, column, cost in zip(*(side.tolist() for side in entries[:2]), solution.reduced_costs(*entries)):
                changes.setdefault((row, column), -cost)
            for pair, change in changes.items():
                changed = exact.copy()
                changed[pair] += 10**330 * sign if abs(change) == math.inf else change
                with self.subTest(table=table.tolist(), maximize=maximize, capacity=capacity, pair=pair):
                    sums = [[changed[one] for one in some] for some in assignments_of(table, capacity)]
                    best = (max if maximize else min)(sum(some) for some in sums if None not in some)
                    self.assertEqual(sum(changed[one] for one in pairs), best)

    def test_units(self):
        """Costs with decimals have duals in the caller's unit, and so have great and small ones."""
        solution = sigdorf.solve([[0.1, 0.25], [0.1, 0.75]], decimals=2)
        self.assertEqual(solution.costs.tolist(), [decimal.Decimal("0.25"), decimal.Decimal("0.10")])
        self.assertEqual(sum(solution.u) + sum(solution.v), fractions.Fraction(35, 100))
        self.assertEqual(sigdorf.solve([[1, 2], [1, 4]], decimals=0, maximize=True).costs.tolist(), [1, 4])
        for factor in (1e-300, 1e300, 10.0**17):
            table = numpy.array([[1, 2], [1, 4]]) * factor
            self.assert_duals(sigdorf.solve(table), table)
        for shape in [(0, 0), (0, 3), (2, 0)]:
            solution = sigdorf.solve(numpy.zeros(shape))
            self.assertEqual((solution.u.tolist(), solution.v.tolist()), ([0] * shape[0], [0] * shape[1]))

    def test_faults(self):
        solution = sigdorf.solve([[1, 2], [1, 4]])
        for given in (
            ([0], [2], [1]),
            ([0], [-1], [1]),
            ([0, 1], [0], [1]),
            ([0], [0], [1, 2]),
            ([0], [0], [math.nan]),
            ([0], [0], [math.inf]),
            ([0], [0], ["1"]),
            ([0.0], [0], [1]),
        ):
            for call in (solution.reduced_costs, solution.margins):
                with self.subTest(given=given), self.assertRaises(ValueError):
                    call(*given)
        with self.assertRaises(sigdorf.Unsettled):
            sigdorf.solve([[1, 2, math.inf], [1, 4, 9], [math.inf, 3, 7]], bids=0).u
        with self.assertRaisesRegex(ValueError, "no costs of its pairs, or no shape"):
            sigdorf.Solution([0], [0], [0], 0, 0, [0], 2).v

    def test_checked(self):
        """A check looks at what the duals are made of."""
        table = [[1, 2], [1, 4]]
        solution = sigdorf.solve(table)
        for parts in (
            {"costs": [2, 2]},
            {"costs": [2]},
            {"costs": "ab"},
            {"costs": 5},
            {"shape": (2, 3)},
            {"shape": 5},
            {"maximize": True},
            {"maximize": None},
        ):
            with self.subTest(parts), self.assertRaises(sigdorf.Refused):
                sigdorf.check(solution._replace(**parts), table)
        sigdorf.check(solution._replace(costs=None, shape=None), table)
        great = sigdorf.solve([[2**53 + 1]])
        with self.assertRaisesRegex(sigdorf.Refused, "the costs of the solution are not those"):
            sigdorf.check(great._replace(costs=numpy.array([2.0**53])), [[2**53 + 1]])


class Html(Limited):
    def test_tables(self):
        solution = sigdorf.solve(Frame([[4, 1], [3, 9]], ["Ada <b>", "Bo"], ["roof", "wall"]))
        self.assertEqual(
            solution._repr_html_(),
            "<table><caption>Solution cost=4</caption><tr><th>row</th><th>column</th><th>cost</th></tr>"
            "<tr><td>Ada &lt;b&gt;</td><td>wall</td><td>1</td></tr><tr><td>Bo</td><td>roof</td><td>3</td></tr></table>",
        )
        shown = sigdorf.match(numpy.eye(300), 5)._repr_html_()
        self.assertIn("<td>280 more</td>", shown)
        self.assertLess(len(shown), 2000)

    def test_equal(self):
        one, other = sigdorf.solve([[1, 2], [1, 4]]), sigdorf.solve([[1, 2], [1, 4]])
        self.assertIs(one == other, True)
        self.assertIs(one == sigdorf.solve([[1, 3], [1, 5]]), False)
        self.assertIs(one == pickle.loads(pickle.dumps(one)), True)
        self.assertEqual(hash(one), hash(other))


if __name__ == "__main__":
    unittest.main()
