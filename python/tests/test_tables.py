"""Tables as pandas has them: missing cells, nullable types; and long tables and graphs, by Edges."""
import math
import unittest
import warnings

from limited import Limited, numpy, scipy, sigdorf
from test_manners import Frame

try:
    import pandas
except ImportError:
    pandas = None
try:
    import networkx
except ImportError:
    networkx = None

needs_pandas = unittest.skipUnless(pandas, "pandas is not there")
needs_networkx = unittest.skipUnless(networkx, "networkx is not there")


class Missing(Limited):
    TABLE = [[1.0, math.nan, 5.0], [1.0, 4.0, math.inf]]

    def test_forbidden(self):
        names = [["Ada", "Bo"], ["roof", "wall", "door"]]
        for kind in ("f8", "f4", "f2", ">f8", "g"):
            array = numpy.array(self.TABLE, kind)
            for table in (array, array.tolist(), Frame(array, *names)) + (
                (pandas.DataFrame(array.astype(float), *names),) if pandas else ()
            ):
                found = sigdorf.solve(table, missing="forbidden")
                self.assertEqual((found.cost, found.columns.tolist()), (5, [0, 1]))
                sigdorf.check(found, table, missing="forbidden")
                self.assertEqual(sigdorf.certify([0, 1], [0, 1], table, missing="forbidden"), found)
                self.assertEqual([one.cost for one in sigdorf.k_best(table, 9, missing="forbidden")], [5, 6, 9])
                self.assertEqual(sigdorf.match(table, 1, missing="forbidden").columns.tolist(), [0])
                self.assertEqual(sigdorf.max_cardinality_match(table, missing="forbidden").columns.tolist(), [0, 1])
                self.assertTrue(
                    numpy.isnan(numpy.asarray(table.to_numpy() if hasattr(table, "to_numpy") else table)[0, 1])
                )
        self.assertEqual(sigdorf.solve([[math.nan, 3.0, 4.0]], missing="forbidden", maximize=True).cost, 4)
        self.assertEqual(sigdorf.solve([[1, 2]], missing="forbidden").cost, 1)

    def test_refused(self):
        for call in (
            sigdorf.solve,
            lambda table: sigdorf.match(table, 5),
            sigdorf.max_cardinality_match,
            sigdorf.linear_sum_assignment,
        ):
            with self.assertRaisesRegex(
                ValueError, "row 0, column 1 has nan; where that is no entry, solve and match take missing='forbidden'"
            ):
                call(self.TABLE)
        with self.assertRaisesRegex(ValueError, "row 0, column 0 has -inf$"):
            sigdorf.solve([[-math.inf, 2]], missing="forbidden")
        for missing in ("no", True, 0, numpy.zeros(2), math.nan):
            with self.assertRaisesRegex(ValueError, "missing must be 'forbidden', or left out"):
                sigdorf.solve(self.TABLE, missing=missing)
        for given in (([0], [0], [1]), (sigdorf.Edges(["a"], ["b"], [1]),)):
            with self.assertRaisesRegex(ValueError, "missing is of tables alone"):
                sigdorf.solve(*given, missing="forbidden")
        if scipy:
            with self.assertRaisesRegex(ValueError, "missing is of dense tables alone"):
                sigdorf.solve(scipy.sparse.csr_matrix([[1.0]]), missing="forbidden")


@needs_pandas
class Nullable(Limited):
    def test_numbers(self):
        for kind in ("Int64", "Int8", "UInt16", "Float64", "Float32"):
            table = pandas.DataFrame([[1, 2], [1, 4]], ["Ada", "Bo"], ["roof", "wall"], dtype=kind)
            found = sigdorf.solve(table)
            self.assertEqual((found.cost, found.labels), (3, [("Ada", "wall"), ("Bo", "roof")]))
            table.iloc[0, 1] = pandas.NA
            with self.assertRaisesRegex(ValueError, "row 'Ada', column 'wall' has nan"):
                sigdorf.solve(table)
            self.assertEqual(sigdorf.solve(table, missing="forbidden").cost, 5)
        mixed = pandas.DataFrame({"roof": [1, 2], "wall": [0.5, None]}).convert_dtypes()
        self.assertEqual(sigdorf.solve(mixed, missing="forbidden").cost, 2.5)
        exact = pandas.DataFrame({"roof": [2**53 + 1]}, dtype="Int64")
        self.assertEqual(sigdorf.solve(exact).cost, 2**53 + 1)
        self.assertEqual(sigdorf.solve(pandas.DataFrame({"roof": []}, dtype="Int64")).cost, 0)

    def test_lists(self):
        frame = pandas.DataFrame({"row": [0, 0, 1], "column": [0, 1, 0], "cost": [4, 1, 3]}).convert_dtypes()
        self.assertEqual(sigdorf.solve(frame["row"], frame["column"], frame["cost"]).cost, 4)
        frame.loc[1, "cost"] = pandas.NA
        with self.assertRaisesRegex(ValueError, "row 0, column 1: the cost nan of entry 1 is no finite number"):
            sigdorf.solve(frame["row"], frame["column"], frame["cost"])
        frame.loc[1, "row"] = pandas.NA
        with self.assertRaisesRegex(ValueError, "rows must be one list of whole numbers"):
            sigdorf.solve(frame["row"], frame["column"], [1, 2, 3])

    def test_refused(self):
        for values in ([[True, False]], [[True, None]]):
            with self.assertRaisesRegex(sigdorf.Mistyped, "booleans with missing ones are no numbers"):
                sigdorf.solve(pandas.DataFrame(values, dtype="boolean"))
        with self.assertRaisesRegex(ValueError, "9007199254740993 would be rounded"):
            sigdorf.solve(pandas.DataFrame([[2**53 + 1, None]], dtype="Int64"), missing="forbidden")
        for values in ([["a", 1]], [[None, 1]], [[pandas.Timestamp(0), 1]]):
            with self.assertRaises(ValueError):
                sigdorf.solve(pandas.DataFrame(values, dtype=object))


class Named(Limited):
    EDGES = (["Ada", "Bo", "Ada", "Bo"], ["roof", "roof", "wall", "door"], [4, 3, 1.5, 9])

    def test_long_tables(self):
        forms = [self.EDGES]
        if pandas:
            frame = pandas.DataFrame(dict(zip(("worker", "task", "cost"), self.EDGES)))
            forms += [
                (frame["worker"], frame["task"], frame["cost"]),
                (frame["worker"].astype("category"), frame["task"].astype("string"), frame["cost"].astype("Float64")),
            ]
        for form in forms:
            edges = sigdorf.Edges(*form)
            found = sigdorf.solve(edges)
            self.assertEqual(
                (found.cost, found.labels, found.entries.tolist()), (4.5, [("Ada", "wall"), ("Bo", "roof")], [2, 1])
            )
            sigdorf.check(found, edges)
            self.assertEqual(sigdorf.certify(found.rows, found.columns, edges), found)
            self.assertEqual([one.cost for one in sigdorf.k_best(edges, 9)], [4.5, 10.5, 13])
            self.assertEqual(sigdorf.match(edges, 3).labels, [("Ada", "wall"), ("Bo", "roof")])
            self.assertEqual(
                sigdorf.max_cardinality_match(edges, maximize=True).labels, [("Ada", "roof"), ("Bo", "door")]
            )
            self.assertEqual(
                sigdorf.solve(edges, forced=[("Bo", "door")], decimals=1).labels, [("Ada", "wall"), ("Bo", "door")]
            )
            self.assertEqual(sigdorf.solve_many([edges] * 2, 1)[1], found)
        self.assertEqual(sigdorf.solve(sigdorf.Edges([], [], [])).cost, 0)

    def test_more_rows(self):
        edges = sigdorf.Edges([(1, 2), 7, "x"], ["only"] * 3, [5, 4, 6])
        self.assertEqual(sigdorf.solve(edges).labels, [(7, "only")])
        with self.assertRaises(sigdorf.Infeasible) as caught:
            sigdorf.solve(
                sigdorf.Edges(["Ada", "Bo", "Cy"], ["roof", "roof", "wall"], [1, 2, 3]), forbidden=[("Cy", "wall")]
            )
        self.assertIn("1 column has entries in only 0 rows (column wall; no row)", str(caught.exception))

    def test_faults(self):
        for given, told in [
            ((["a"], ["b", "c"], [1]), "as many as the costs"),
            (("a", ["b"], [1]), "rows must be a list of names"),
            ((["a"], 5, [1]), "columns must be a list of names"),
            (([["a"]], ["b"], [1]), "rows must be a list of names"),
            (([None], ["b"], [1]), "rows: a name is missing"),
            ((["a"], [math.nan], [1]), "columns: a name is missing"),
            ((["a", "a"], ["b", "b"], [1, 2]), "row 'a', column 'b': the pair appears twice"),
            ((["a"], ["b"], ["1"]), "costs must be one list of numbers"),
        ]:
            with self.subTest(given=given), self.assertRaisesRegex(ValueError, told):
                sigdorf.Edges(*given)
        if pandas:
            with self.assertRaisesRegex(ValueError, "rows: a name is missing"):
                sigdorf.Edges([pandas.NA], ["b"], [1])
        for cost in (math.nan, math.inf):
            with self.assertRaisesRegex(ValueError, f"row 'a', column 'b': the cost {cost} is no finite number"):
                sigdorf.solve(sigdorf.Edges(["a"], ["b"], [cost]))
        with self.assertRaisesRegex(ValueError, "a table has a shape of its own"):
            sigdorf.solve(sigdorf.Edges(["a"], ["b"], [1]), shape=(1, 1))


@needs_networkx
class Graphs(Limited):
    def test_against_networkx(self):
        random = numpy.random.default_rng(1)
        for number in range(60):
            rows, columns = random.integers(1, 6, 2)
            graph = networkx.Graph()
            graph.add_nodes_from([f"row {row}" for row in range(rows)], bipartite=0)
            graph.add_nodes_from([f"column {column}" for column in range(columns)], bipartite=1)
            for row in range(rows):
                for column in range(columns):
                    ends = [f"row {row}", f"column {column}"]
                    graph.add_edge(*ends[:: random.choice([1, -1])], weight=random.integers(1, 9).item())
            found = sigdorf.solve(sigdorf.Edges.of_graph(graph))
            self.assertTrue(all(row.startswith("row") and graph.has_edge(row, column) for row, column in found.labels))
            if scipy:
                with warnings.catch_warnings():
                    # Of networkx's own use of SciPy.
                    warnings.simplefilter("ignore")
                    wanted = networkx.bipartite.minimum_weight_full_matching(graph, [f"row {row}" for row in range(rows)])
                self.assertEqual(2 * found.cost, sum(graph.edges[pair]["weight"] for pair in wanted.items()))

    def test_sides(self):
        graph = networkx.DiGraph()
        graph.add_edge("b", 1, price=2.5)
        graph.add_edge(2, "a", price=1)
        graph.add_node("c")
        found = sigdorf.match(sigdorf.Edges.of_graph(graph, ["a", "b", "c"], "price"), 9)
        self.assertEqual((found.labels, found.free_rows.tolist()), ([("b", 1), ("a", 2)], [2]))
        for words, told in [
            ({}, "within one side: name the nodes of one side by rows="),
            ({"rows": ["a", "b", 1]}, "the edge 'b', 1 is within one side|the edge 1, 'b' is within one side"),
            ({"rows": ["d"]}, "the graph has no node 'd'"),
            ({"rows": ["a", "b"]}, "has no weight"),
        ]:
            with self.subTest(words), self.assertRaisesRegex(ValueError, told):
                sigdorf.Edges.of_graph(graph, **words)
        graph.add_edge(1, "b", price=3)
        with self.assertRaisesRegex(ValueError, "row 'b', column 1: the pair appears twice"):
            sigdorf.Edges.of_graph(graph, ["a", "b"], "price")
        with self.assertRaisesRegex(ValueError, "a graph of networkx is wanted"):
            sigdorf.Edges.of_graph([[1]])


if __name__ == "__main__":
    unittest.main()
