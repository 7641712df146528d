"""What a call tells, in names where there are some: tables with names, and faults; and calls after a fork."""
import pathlib
import pickle
import subprocess
import sys
import unittest

from limited import Limited, numpy, scipy, sigdorf

try:
    import pandas
except ImportError:
    pandas = None

class Frame:
    """What pandas' DataFrame is to a caller."""

    def __init__(self, values, index, columns):
        self.values, self.index, self.columns = numpy.array(values), index, columns

    def to_numpy(self):
        return self.values


class Named(Limited):
    ROWS, COLUMNS = ["Ada", "Bo"], ["roof", "wall", "door"]

    def frames(self, values):
        yield Frame(values, self.ROWS, self.COLUMNS)
        if pandas:
            yield pandas.DataFrame(values, self.ROWS, self.COLUMNS)

    def test_labels(self):
        for table in self.frames([[1.5, 2.5, numpy.inf], [1.0, 4.5, 9]]):
            solution = sigdorf.solve(table)
            self.assertEqual((dict(solution.labels), solution.cost), ({"Ada": "wall", "Bo": "roof"}, 3.5))
            sigdorf.check(solution, table)
            for labels in (None, [("Ada", "wall"), ("Bo", "door")], 5, numpy.zeros(2)):
                with self.assertRaises(sigdorf.Refused):
                    sigdorf.check(solution._replace(labels=labels), table)

    def test_more_rows(self):
        for table in self.frames([[5, 1, 1], [1, 5, 1]]):
            turned = table.T if pandas and isinstance(table, pandas.DataFrame) else Frame(table.values.T, self.COLUMNS, self.ROWS)
            self.assertEqual(sigdorf.solve(turned, maximize=True).labels, [("roof", "Ada"), ("wall", "Bo")])

    def test_faults(self):
        for table in self.frames([[1.5, numpy.nan, 1], [1, 1, 1]]):
            with self.assertRaisesRegex(ValueError, "row 'Ada', column 'wall' has nan"):
                sigdorf.solve(table)
        for table in self.frames([[1.5, 1, 1], [1, 1, 1]]):
            with self.assertRaisesRegex(ValueError, "row 'Ada', column 'roof': the cost 1.5 has more than 0 decimals"):
                sigdorf.solve(table, decimals=0)
        for table in self.frames([[1.5, numpy.inf, numpy.inf], [1, numpy.inf, numpy.inf]]):
            with self.assertRaises(sigdorf.Infeasible) as caught:
                sigdorf.solve(table)
            self.assertEqual(caught.exception.labels, (["Ada", "Bo"], ["roof"]))
            self.assertEqual(str(caught.exception), "no full assignment exists: 2 rows have entries in only 1 column (rows Ada, Bo; column roof)")
            self.assertEqual(str(pickle.loads(pickle.dumps(caught.exception))), str(caught.exception))

    def test_plain_matrices(self):
        values = numpy.array([[1, 2], [1, 4]])
        for table in [values, values.tolist()] + ([scipy.sparse.csr_matrix(values)] if scipy else []):
            solution = sigdorf.solve(table)
            self.assertEqual((solution.columns.tolist(), solution.entries.tolist(), solution.labels), ([1, 0], [1, 2], None))
            sigdorf.check(solution, table)
        for arguments in ([values, None, None, (2, 2)], [[0], [0]], [[0], None, [1]], [5], [None]):
            with self.subTest(arguments=arguments), self.assertRaises(ValueError):
                sigdorf.solve(*arguments)

    @unittest.skipUnless(pandas, "pandas is not there")
    def test_columns_of_several_types(self):
        table = pandas.DataFrame({"roof": [1, 2**53 + 1], "wall": [0.5, 1.5]})
        with self.assertRaisesRegex(ValueError, "9007199254740993 would be rounded"):
            sigdorf.solve(table)
        table["roof"] = [1, 2]
        self.assertEqual(sigdorf.solve(table).cost, 2.5)

    @unittest.skipUnless(pandas, "pandas is not there")
    def test_other_names(self):
        table = pandas.DataFrame([[3, 1], [1, 9]], pandas.to_datetime(["2026-11-26", "2026-11-27"]), pandas.MultiIndex.from_tuples([("a", 1), ("a", 2)]))
        self.assertEqual([column for _, column in sigdorf.solve(table).labels], [("a", 2), ("a", 1)])


class Told(Limited):
    def test_infeasible(self):
        for rows, columns, by_columns, words in [
            ([0, 2], [1], False, "2 rows have entries in only 1 column (rows 0, 2; column 1)"),
            ([4], [], False, "1 row has entries in only 0 columns (row 4; no column)"),
            ([1], [0, 1], True, "2 columns have entries in only 1 row (columns 0, 1; row 1)"),
            (range(12), range(11), False, "12 rows have entries in only 11 columns (rows 0, 1, 2, 3, 4, 5, 6, 7, 8, 9 and 2 more; columns 0, 1, 2, 3, 4, 5, 6, 7, 8, 9 and 1 more)"),
        ]:
            fault = sigdorf.Infeasible(numpy.array(rows), numpy.array(columns), by_columns)
            self.assertEqual(str(fault), f"no full assignment exists: {words}")

    def test_places(self):
        for words, arguments in [
            ("row 7, column 3: the cost nan of entry 1 is no finite number", ([0, 7], [0, 3], [1.5, numpy.nan])),
            ("entry 1 names a row or column that the shape doesn't have: row 7, column 3", ([0, 7], [0, 3], [1, 2], (4, 4))),
        ]:
            with self.assertRaisesRegex(ValueError, words):
                sigdorf.solve(*arguments)

    def test_package(self):
        self.assertRegex(sigdorf.__version__, r"^\d+\.\d+")
        self.assertTrue(pathlib.Path(sigdorf.__file__).with_name("py.typed").exists())
        for name in sigdorf.__all__:
            self.assertTrue(getattr(sigdorf, name).__doc__ or name == "USUAL_BIDS")


class Wanting(unittest.TestCase):
    def test_without_numpy(self):
        """One sentence says what to install."""
        program = "import sys; sys.modules['numpy'] = None; import sigdorf"
        done = subprocess.run([sys.executable, "-B", "-c", program], capture_output=True, text=True)
        self.assertEqual(done.stderr.splitlines()[-1], "ModuleNotFoundError: sigdorf wants numpy: pip install numpy, or Debian's python3-numpy")
        self.assertLess(len(done.stderr.splitlines()), 8)


FORKED = """
import os, threading, numpy, sigdorf
def work():
    while not done:
        sigdorf.solve(numpy.random.default_rng(1).random((200, 200)))
done = []
threads = [threading.Thread(target=work) for _ in range(3)]
for thread in threads:
    thread.start()
for turn in range(20):
    child = os.fork()
    if not child:
        os._exit(7 if sigdorf.solve([[1.5, 2], [1, 4]]).cost == 3 and sigdorf.solve(numpy.eye(300) + 0.1).cost == 30 else 1)
    assert os.waitstatus_to_exitcode(os.waitpid(child, 0)[1]) == 7
done.append(1)
print("ended")
"""


class Forked(Limited):
    def test_child_of_threads(self):
        """A fork while other threads are within calls: the child's calls answer."""
        done = subprocess.run([sys.executable, "-W", "ignore", "-B", "-c", FORKED], capture_output=True, text=True, timeout=50)
        self.assertEqual((done.returncode, done.stdout), (0, "ended\n"), done.stderr)


if __name__ == "__main__":
    unittest.main()
