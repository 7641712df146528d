"""Many problems, over threads: the answers of each alone, in their order."""
import unittest

from limited import Limited, numpy, sigdorf

if numpy:
    import floats


class Many(Limited):
    def problems(self):
        random = numpy.random.default_rng(1)
        for number in range(60):
            matrix = random.random((number % 7 + 1, number % 7 + 1)) if number % 2 else random.integers(0, 99, (5, 5))
            rows, columns = numpy.indices(matrix.shape).reshape(2, -1)
            yield matrix if number % 3 else (rows, columns, matrix.ravel())

    def test_as_one_by_one(self):
        problems = list(self.problems())
        wanted = [sigdorf.solve(*problem) if isinstance(problem, tuple) else sigdorf.solve(problem) for problem in problems]
        for threads in (None, 1, 2, 5):
            found = sigdorf.solve_many(iter(problems), threads)
            self.assertEqual([solution.exact_cost for solution in found], [solution.exact_cost for solution in wanted])
        self.assertEqual(sigdorf.solve_many([]), [])
        most = sigdorf.solve_many([[[1, 2], [1, 4]]] * 9, 3, maximize=True, decimals=0)
        self.assertEqual([solution.cost for solution in most], [5] * 9)

    def assert_as_alone(self, matrices, maximize=False):
        """Each is answered as it is alone, but for other pairs of the same cost."""
        for matrix, found in zip(matrices, sigdorf.solve_many(matrices, 2, maximize=maximize)):
            alone = sigdorf.solve(matrix, maximize=maximize)
            self.assertEqual((found.exact_cost, type(found.cost), found.cost, found.gap), (alone.exact_cost, type(alone.cost), alone.cost, alone.gap))
            self.assertEqual((found.rows.dtype, found.columns.dtype, found.entries.dtype), (numpy.int64,) * 3)
            sigdorf.check(found, matrix, maximize=maximize)

    def test_together(self):
        random = numpy.random.default_rng(3)
        for kind in floats.KINDS:
            with self.subTest(kind=kind.__name__):
                self.assert_as_alone([kind(random, (side, side)) for side in random.integers(1, 9, 25)], bool(random.integers(2)))

    def test_kinds_together(self):
        """Matrices of several kinds and shapes, in any order."""
        random = numpy.random.default_rng(4)
        whole = [random.integers(0, 9, (3, 3)).astype(kind) for kind in ("i1", "u4", "i8", "u8", "?", "f4", ">f8", "g") for _ in range(4)]
        gaps = [numpy.where(random.random((4, 4)) < 0.3, numpy.inf, random.random((4, 4)).round(2)) for _ in range(20)]
        for gap in gaps:
            gap[numpy.diag_indices(4)] = 1.5
        others = [[[1, 2], [1, 4]], numpy.zeros((0, 3)), numpy.zeros((101, 2)), numpy.asfortranarray(random.random((5, 5))), random.random((9, 9))[::2, ::2]]
        matrices = [*whole, *gaps, *others]
        self.assert_as_alone([matrices[place] for place in random.permutation(len(matrices))])
        wide = [random.integers(0, 9, shape) for shape in [(2, 3), (3, 2), (4, 4), (1, 5), (6, 2)] * 5]
        self.assert_as_alone(wide, True)
        self.assert_as_alone([matrix / 8 for matrix in wide])

    def test_faults_together(self):
        matrices = [numpy.eye(3) + 0.5] * 30
        for fault, kind, words in [(numpy.full((3, 3), numpy.nan), ValueError, "row 0, column 0 has nan"), (numpy.where(numpy.eye(3), 1.5, numpy.inf)[[0, 0, 1]], sigdorf.Infeasible, "2 rows")]:
            with self.assertRaisesRegex(kind, words) as caught:
                sigdorf.solve_many([*matrices, fault, *matrices], 2)
            self.assertEqual(caught.exception.__notes__, ["in problem 30"])

    def test_bids_together(self):
        found = sigdorf.solve_many([numpy.array([[1, 2], [1, 4]])] * 30, 2, bids=0)
        self.assertTrue(all(solution.bound <= 3 <= solution.cost for solution in found))

    def test_faults(self):
        problems = [[[1, 2], [1, 4]]] * 20 + [[[numpy.inf, 1], [numpy.inf, 2]], [[numpy.nan]]]
        for threads in (1, 4):
            with self.assertRaises(sigdorf.Infeasible) as caught:
                sigdorf.solve_many(problems, threads)
            self.assertEqual(caught.exception.__notes__, ["in problem 20"])
        for threads in (0, -1, 1.5, True, "4", 1025):
            with self.assertRaisesRegex(ValueError, "threads must be"):
                sigdorf.solve_many(problems, threads)


if __name__ == "__main__":
    unittest.main()
