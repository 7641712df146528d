"""from_csv: which tables are read, and which faults are told."""
import random
from fractions import Fraction

from calls import ToolTest
from sigdorf_tools.cost_cells import cells_of
from sigdorf_tools.costs import read_costs


class Tables(ToolTest):
    def test_three_columns_with_titles(self):
        self.assertEqual(self.convert("fitter,job,minutes\nAda,pump,40\nAda,roof,65\nBen,pump,35\n"), "2\n1 1 40\n1 2 65\n2 1 35\n")

    def test_three_columns_without_titles(self):
        self.assertEqual(self.convert("Ada,pump,40\nAda,roof,65\nBen,pump,35\n"), "2\n1 1 40\n1 2 65\n2 1 35\n")

    def test_matrix_with_empty_cells(self):
        self.assertEqual(self.convert(",pump,roof,wiring\nAda,40,,30\nBen,,20,\nCleo,1,2,3\n"), "3\n1 1 40\n1 3 30\n2 2 20\n3 1 1\n3 2 2\n3 3 3\n")

    def test_separators_are_found(self):
        for separator in ",;\t":
            with self.subTest(separator=separator):
                self.assertEqual(self.convert(separator.join(["", "a", "b"]) + "\n" + separator.join(["x", "1", "2"]) + "\n" + separator.join(["y", "3", ""])), "2\n1 1 1\n1 2 2\n2 1 3\n")

    def test_separator_in_names(self):
        """A comma stands in each row once more than a tab, but not in the same number of places."""
        self.assertEqual(self.convert("Smith, Ann\tpump\t4\nJones, Bob, jr.\tpump\t5\nJones, Bob, jr.\troof\t6\n"), "2\n1 1 4\n2 1 5\n2 2 6\n")

    def test_quotes(self):
        self.convert('"Smith, Ann","the ""big"" pump",4\n"Jones",roof,5\nJones,"the ""big"" pump",6\n')
        self.assertIn('"Smith, Ann"', self.read("table.names"))
        self.assertIn(r"the \"big\" pump", self.read("table.names"))

    def test_byte_order_mark_and_line_ends(self):
        plain = self.convert("Ä,pump,4\nB,roof,5\n")
        self.assertEqual(self.convert("\ufeffÄ,pump,4\r\nB,roof,5\r\n"), plain)
        self.assertEqual(self.convert("Ä,pump,4\rB,roof,5\r"), plain)
        self.assertIn("Ä", self.read("table.names"))

    def test_white_space_and_empty_rows(self):
        self.assertEqual(self.convert("\n Ada , pump ,  4\n,,\nBen,roof,5\n\n"), "2\n1 1 4\n2 2 5\n")

    def test_one_pair_twice_at_one_cost(self):
        self.assertEqual(self.convert("Ada,pump,4\nBen,roof,5\nAda,pump,4.0\n"), "2\n1 1 4\n2 2 5\n")

    def test_numbers_as_names(self):
        table = "fitter,job,minutes\n1,7,4\n1,8,5\n2,7,6\n"
        self.assertEqual(self.convert(table, "--pairs"), "2\n1 1 4\n1 2 5\n2 1 6\n")

    def test_form_by_word(self):
        table = "fitter,7,8\n1,4,5\n2,6,7\n"
        self.assertEqual(self.convert(table, "--form", "matrix"), "2\n1 1 4\n1 2 5\n2 1 6\n2 2 7\n")
        self.assertEqual(self.convert(table, "--matrix"), self.convert(table, "--form", "matrix"))
        self.assertEqual(self.convert(table, "--form", "pairs"), "3\n1 1 8\n2 2 5\n3 3 7\n")
        self.assertEqual(self.convert(table, "--pairs"), self.convert(table, "--form", "pairs"))


class Headers(ToolTest):
    """A first row that is all numbers says neither that it is names nor that it is costs."""

    NONE = ["12,2\n1,3\n", "1,2,3\n4,5,6\n7,8,9\n", "1,1,40\n1,2,65\n2,1,35\n", "40;65,5;30;1\n1;2;3;4\n", "1e3,2,5,7\n1,2,3,4\n", "12 \u20ac,3,4,5\n1,2,3,4\n", "40,,30,20\n1,2,3,4\n",
            "inf,2,3,4\n1,2,3,4\n", "-,1,2,3\n1,2,3,4\n", "1,2\n"]

    def test_numbers_alone(self):
        for number, table in enumerate(self.NONE):
            self.write(f"{number}.csv", table)
        calls = [(tool, f"{number}.csv") for number in range(len(self.NONE)) for tool in ("tools/from_csv", "plan")]
        for (_, file), answer in zip(calls, self.answers(calls)):
            table = self.NONE[int(file.removesuffix(".csv"))]
            with self.subTest(table):
                self.assert_fault(answer, file, "line 1", "all numbers", "header on top", "--matrix", "--no-header")
                self.assertEqual("--pairs" in answer[2], table.count(",", 0, table.find("\n")) == 2)

    def test_as_said(self):
        square = "1,2,3\n4,5,6\n7,8,9\n"
        costs = "3\n1 1 1\n1 2 2\n1 3 3\n2 1 4\n2 2 5\n2 3 6\n3 1 7\n3 2 8\n3 3 9\n"
        for table, words, arcs in [
            (square, ["--pairs"], "3\n1 1 3\n2 2 6\n3 3 9\n"),
            (square, ["--matrix"], "2\n1 1 5\n1 2 6\n2 1 8\n2 2 9\n"),
            (square, ["--matrix", "--no-header"], costs),
            (square, ["--pairs", "--no-header"], "3\n1 1 3\n2 2 6\n3 3 9\n"),
            (",a,b,c\na," + square.replace("\n", "\nb,", 1).replace("6\n", "6\nc,"), [], costs),
            ("12,2\n1,3\n", ["--no-header"], "2\n1 1 12\n1 2 2\n2 1 1\n2 2 3\n"),
            ("12,2\n1,3\n", ["--matrix"], "1\n1 1 3\n"),
            ("12,\n,3\n\n", ["--no-header"], "2\n1 1 12\n2 2 3\n"),
            (",7,8\n1,4,5\n2,6,7\n", [], "2\n1 1 4\n1 2 5\n2 1 6\n2 2 7\n"),
            ("Ada,pump,40\nAda,roof,65\nBen,pump,35\n", ["--no-header"], "2\n1 1 40\n1 2 65\n2 1 35\n"),
        ]:
            with self.subTest(table=table, words=words):
                self.assertEqual(self.convert(table, *words), arcs)

    def test_names_of_costs_alone(self):
        self.assertEqual(self.plan("12,2\n1,3\n", "auction 1\noptimal 2 3\nassign 1 2 2\nassign 2 1 1\nprice 1 0\nprice 2 0\n", "--no-header"), (0, "person,object,cost\n1,2,2\n2,1,1\ntotal,,3\n", ""))


class Amounts(ToolTest):
    def test_decimals_are_exact(self):
        """0.1 and 0.7 have no exact floating-point number."""
        self.assertEqual(self.convert("a,x,0.1\na,y,0.70\nb,x,.25\nb,y,-3\n", "--decimals", "2"), "2\n1 1 10\n1 2 70\n2 1 25\n2 2 -300\n")

    def test_comma_where_semicolons_part(self):
        self.assertEqual(self.convert("a;x;0,1\na;y;0,75\nb;x;3\n", "--decimals", "2"), "2\n1 1 10\n1 2 75\n2 1 300\n")

    def test_zeros_lose_nothing(self):
        self.assertEqual(self.convert("a,x,4.00\nb,y,5.\n"), "2\n1 1 4\n2 2 5\n")

    def test_maximise_negates(self):
        self.assertEqual(self.convert("a,x,4\na,y,-5\nb,x,0\n", "--maximise"), "2\n1 1 -4\n1 2 5\n2 1 0\n")

    def test_greatest_costs(self):
        self.assertEqual(self.convert("a,x,1000000000\nb,y,-1000000000.0\n"), "2\n1 1 1000000000\n2 2 -1000000000\n")
        self.assertEqual(self.convert("a,x,1\nb,y,-1\n", "--decimals", "9"), "2\n1 1 1000000000\n2 2 -1000000000\n")


class Decimals(ToolTest):
    """As many as the table has, or as are said. What is advised where decimals aren't kept isn't refused next."""

    FOUND = {
        "a,x,40\na,y,7.28\n": ("1\n1 1 4000\n1 2 728\n", "2 decimals"),
        "a,x,4.00\na,y,.5\nb,x,5.\n": ("2\n1 1 40\n1 2 5\n2 1 50\n", "1 decimal\n"),
        "a,x,1\na,y,0.123456789\n": ("1\n1 1 1000000000\n1 2 123456789\n", "9 decimals"),
        "a,x,-0.0\na,y,-0.05\nb,x,-.50\nb,y,0000000000000000000012.25\n": ("2\n1 1 0\n1 2 -5\n2 1 -50\n2 2 1225\n", "2 decimals"),
        ",x,y\na,1.50,2\nb,3,\n": ("2\n1 1 15\n1 2 20\n2 1 30\n", "1 decimal\n"),
        "0.25,3\n2,0.125\n": ("2\n1 1 250\n1 2 3000\n2 1 2000\n2 2 125\n", "3 decimals"),
        "a;x;2,5\na;y;7\n": ("1\n1 1 25\n1 2 70\n", "1 decimal\n"),
    }
    TOO_MANY = {
        "a,x,0.12345678901234\n": "more decimals than the 9 that are kept; round the costs in the table to 9 decimals, since no cost can have more",
        "a,x,40.12345678901234\n": "round the costs in the table to 7 decimals, since costs as great as these can't have more",
        "a,x,0.12345\na,y,99999999.5\n": "round the costs in the table to 1 decimal, since",
        "a,x,1000000000\na,y,0.5\n": "round the costs in the table to whole numbers, since",
        "a,x,0.5\na,y,1000000001\n": "`0.5` has more decimals than the 0 that are kept; round it in the table",
        "a,x,9.9999999999\n": "round the costs in the table to 8 decimals",
    }
    SAID = {
        "a,x,40\na,y,7.28\n": "--decimals 2 keeps them",
        "a,x,40\na,y,7.2\nb,y,7.284\n": "--decimals 3 keeps them",
        "a,x,40.12345678901234\n": "round the costs in the table to 7 decimals and say --decimals 7",
    }

    def test_found(self):
        for number, table in enumerate(self.FOUND):
            self.write(f"{number}.csv", table)
        answers = self.answers([("tools/from_csv", f"{number}.csv", *(["--no-header"] if table[:1] == "0" else [])) for number, table in enumerate(self.FOUND)])
        for number, ((table, (arcs, said)), answer) in enumerate(zip(self.FOUND.items(), answers)):
            with self.subTest(table):
                self.assertEqual(answer[0], 0, answer)
                self.assertIn(said, answer[2])
                self.assertEqual(self.read(f"{number}.arcs"), arcs)

    def test_too_many(self):
        for number, table in enumerate([*self.TOO_MANY, *self.SAID]):
            self.write(f"{number}.csv", table)
        calls = [("tools/from_csv", f"{number}.csv") for number in range(len(self.TOO_MANY))]
        calls += [("tools/from_csv", f"{number + len(calls)}.csv", "--decimals", "1") for number in range(len(self.SAID))]
        for (table, wanted), answer in zip([*self.TOO_MANY.items(), *self.SAID.items()], self.answers(calls)):
            with self.subTest(table):
                self.assert_fault(answer, "more decimals", wanted)

    def test_in_process(self):
        """Whatever shapes the costs of a row have, they are what exact fractions say."""
        draw = random.Random(7)
        for _ in range(300):
            decimals, maximise = draw.randrange(4), draw.random() < 0.3
            texts = [amount(draw, decimals) for _ in range(draw.randrange(1, 9))]
            read = read_costs(None, [cells_of(texts, None)], decimals, maximise, ".")
            wanted = [(-1 if maximise else 1) * Fraction(text.replace("\u2212", "-")) * 10**decimals for text in texts]
            self.assertEqual(read.texts[0].split("\n"), [str(cost) for cost in wanted], texts)


def amount(draw, decimals):
    """An amount with so many decimals at most, apart from zeros."""
    whole = draw.choice(["0", "00", "7", "12", "0450", "99999"])
    fraction = "".join(draw.choice("0159") for _ in range(draw.randrange(decimals + 1)))
    return draw.choice(["", "", "-", "+", "\u2212"]) + whole + draw.choice(["", f".{fraction}", f".{fraction}0"] if fraction else ["", ".0"])


class UnequalNumbers(ToolTest):
    def test_more_objects(self):
        self.write("table.csv", "a,x,4\na,y,5\n")
        said = "table.arcs: 1 person, 2 objects, 2 arcs; solve and check it with --objects=2\ntable.names: their names\n"
        self.assertEqual(self.call("tools/from_csv", "table.csv"), (0, said, ""))
        self.assertEqual(self.read("table.arcs"), "1\n1 1 4\n1 2 5\n")
        self.assertIn('"dummy_objects": 0', self.read("table.names"))

    def test_more_persons(self):
        self.assertEqual(self.convert("a,x,4\nb,x,5\n"), "2\n1 1 4\n2 1 5\n1 2 0\n2 2 0\n")
        self.assertIn('"dummy_objects": 1', self.read("table.names"))


class Faults(ToolTest):
    FAULTS = {
        "empty": ("", [], "empty"),
        "only empty rows": ("\n\n,,\n", [], "empty"),
        "no table": ("hello\nworld\n", [], "line 1", "no table"),
        "binary": (b"\x00\x01\xff\xfe\x80,1,2\n", [], "line 1", "UTF-8"),
        "UTF-16 that is cut": ("a,b,1\n".encode("utf-16") + b"\xd8", [], "UTF-16"),
        "Latin-1": ("a,b,1\nJosé,c,2\n".encode("latin-1"), ["--encoding", "utf-8"], "line 2", "byte 10", "utf-8"),
        "control character": ("a,b,1\nx\x07y,c,2\n", [], "line 2, column 1", "control character"),
        "ragged pairs": ("a,x,1\nb,y\n", [], "line 2, column 3", "2 columns", "3 are wanted"),
        "ragged matrix": (",x,y,z\na,1,2,3\nb,1,2,3,4\n", [], "line 3, column 5", "5 columns"),
        "person twice": (",x,y,z\na,1,2,3\na,1,2,3\nb,,,\n", [], "line 3, column 1", "`a`", "twice"),
        "object twice": (",x,y,x\na,1,2,3\n", [], "line 1, column 4", "`x`", "twice"),
        "pair twice": ("a,x,1\nb,y,2\na,x,3\n", [], "line 3, column 3", "`a` and `x`", "line 1"),
        "no name": (",x,y,z\n,1,2,3\n", [], "line 2, column 1", "name"),
        "no cost": ("a,x,\nb,y,\n", ["--no-header", "--pairs"], "line 1, column 3", "no row has a cost"),
        "no rows": (",x,y,z\n", [], "line 1", "no person"),
        "titles alone": ("a,b,c\n", [], "line 1, column 3", "no row below"),
        "no number": ("a,x,1\nb,y,2 km\n", [], "line 2, column 3", "`2 km` is no number"),
        "first row is no title": ("Ada,pump,later\nAda,roof,3\n", [], "line 1, column 3", "no title"),
        "exponent": ("a,x,1e\nb,y,2\n", [], "line 1, column 3", "no number"),
        "infinity": (",x,y\na,1,inf\n", [], "line 2, column 3", "no number"),
        "too many decimals": ("a,x,1\nb,y,2.125\n", ["--decimals", "2"], "line 2, column 3", "--decimals 3"),
        "two marks in a table with tabs": ("a\tx\t1,5\nb\ty\t2.5\n", [], "line 2, column 3", "point"),
        "two marks": ("a;x;1,5\nb;y;2.5\n", ["--decimals", "1"], "line 2, column 3", "point"),
        "huge": ("a,x,1\nb,y,1000000001\n", [], "line 2, column 3", "out of range"),
        "huge with decimals": ("a,x,1\nb,y,10000000.01\n", ["--decimals", "2"], "line 2, column 3", "10000000.00"),
        "very long": ("a,x,1\nb,y," + "9" * 100000 + "\n", [], "line 2, column 3", "out of range"),
        "longer than a cell": ("a,x,1\nb,y," + "9" * 1000000 + "\n", [], "line 2", "longer than"),
        "open quote": ('a,x,1\n"b,y,2\n', [], "line 2", "quote"),
        "two forms": ("p,x,y\na,4,5\nb,6,7\n", [], "--pairs or --matrix"),
        "two forms of numbers": ("p,1,2\na,4,5\nb,6,7\n", [], "--pairs or --matrix"),
        "two forms of numbers and a word": ("p,x,y\na,4,5\nb,n/a,7\n", [], "--pairs or --matrix"),
        "empty row where rows are persons": ("1,2\n,\n3,4\n", ["--no-header"], "line 2", "empty"),
        "name where all is costs": ("Ada,2,3,4\nBen,4,5,6\n", ["--no-header"], "line 1, column 1", "`Ada` is no number"),
        "two forms of costs": ("1,2,3\n4,5,6\n", ["--no-header"], "line 1", "--pairs or --matrix"),
        "titles that are said not to be": ("a,b,c\nx,y,3\n", ["--no-header"], "line 1, column 3", "no number"),
        "too many rows of costs": ("1,2\n" * 10_001, ["--no-header"], "10,001 rows", "10,000"),
        "too many columns of costs": (",".join(["1"] * 20_001), ["--no-header"], "20,001 columns", "20,000"),
        "too many persons": ("".join(f"a{n},x,{n}\n" for n in range(10_001)), [], "line 10001, column 1", "10,000"),
        "too many objects": ("".join(f"a,x{n},{n}\n" for n in range(20_001)), [], "line 20001, column 2", "20,000"),
        "too many dummies": ("".join(f"a{n},x,{n}\n" for n in range(9_000)), [], "pairs"),
    }

    def test_faults(self):
        calls = []
        for number, (table, words, *_) in enumerate(self.FAULTS.values()):
            self.write(f"{number}.csv", table)
            calls.append(("tools/from_csv", f"{number}.csv", *words))
        for (name, (_, _, *parts)), call, answer in zip(self.FAULTS.items(), calls, self.answers(calls)):
            with self.subTest(name):
                self.assert_fault(answer, call[1], *parts)

    def test_files(self):
        self.assert_fault(self.call("tools/from_csv", "nosuch.csv"), "nosuch.csv", "no such file")
        self.assert_fault(self.call("tools/from_csv", "."), "folder")
        self.write("table.csv", "a,x,1\n")
        self.assert_fault(self.call("tools/from_csv", "table.csv", "--arcs", "nosuch/table.arcs"), "nosuch/table.arcs")

    def test_words(self):
        for words in ([], ["table.csv", "--decimals", "10"], ["table.csv", "--decimals", "x"], ["table.csv", "--form", "circle"], ["table.csv", "--pairs", "--matrix"]):
            status, output, said = self.call("tools/from_csv", *words)
            self.assertEqual((status, output), (2, ""))
            self.assertNotIn("Traceback", said)
