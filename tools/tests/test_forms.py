"""Which form a table has: told by what can't be otherwise, or asked for in words of the table, on all roads alike. And
names that differ by blanks alone."""
import json
import unittest
from unittest import mock

from calls import ToolTest
from sigdorf_tools import arrays
from sigdorf_tools.faults import Fault
from sigdorf_tools.matrices import problem_by_arrays
from sigdorf_tools.pair_texts import problem_of_pairs
from sigdorf_tools.problems import problem_of
from sigdorf_tools.tables import read_source, table_of_source

# Tables of three columns that may be either, with and without a name that is there twice.
UNCLEAR = [
    "Name;Fr\u00fch;Sp\u00e4t\nM\u00fcller;3;5\nSchmidt;4;2\nM\u00fcller;1;9\nMeier;2;2\n",
    "Name;Fr\u00fch;Sp\u00e4t\nM\u00fcller;3;5\nSchmidt;4;2\n",
    "fitter,job,minutes\n1,7,4\n1,8,5\n2,7,6\n",
    "who,x,y\nAda,35 min,4\nAda,20 min,5\n",
    "who,x,y\nAda,\u20ac 900,800\nAda,\u20ac 700,600\n",
    "who,x,y\nAda,1:30,2\nAda,2:15,3\n",
    "who,x,y\nAda,n/a,5\n",
    "who,x,y\nAda,4,5\nAda,n/a,7\nBen,nein,7\n",
    "Ada,pump,40\nAda,,20\n",
    "Ada,pump,40\nBen,2,20\nBen,3,30\n",
    "Ada,3,40\nAda,roof,20\nAda,4,5\n",
]
# Tables of three columns that can't be otherwise.
CLEAR = {
    "who,what,min\nAda,pump,40\nBen,roof,20\n": (["Ada", "Ben"], ["pump", "roof"]),
    "Ada,pump,40\nAda,roof,20\n": (["Ada"], ["pump", "roof"]),
    "Ada,3,40\nAda,roof,20\n": (["Ada"], ["3", "roof"]),
    "who,early,late\nAda,,5\nBen,4,6\n": (["Ada", "Ben"], ["early", "late"]),
    ",early,late\nAda,3,5\nBen,4,6\n": (["Ada", "Ben"], ["early", "late"]),
}
SAID = None, True, None, False, None


class Forms(ToolTest):
    def problems(self, content):
        """The problem of a table by each road that takes it, the one for all tables last; that one's fault, where there
        is one."""
        source = read_source(str(self.write("table.csv", content)))
        with mock.patch.object(arrays, "LEAST_CHARACTERS", 0):
            found = [road(source, *SAID) for road in (problem_by_arrays, problem_of_pairs)]
        found = [problem for problem in found if problem]
        try:
            return [*found, problem_of(table_of_source(source), *SAID)]
        except Fault as fault:
            return [*found, str(fault)]

    def test_unclear(self):
        for content in UNCLEAR:
            with self.subTest(content):
                sentence, *others = self.problems(content)
                self.assertEqual(others, [])
                either = "it may be a list of person, object and cost, or a table with two objects, `"
                self.assertIn(f"table.csv, line 1: the table has three columns: {either}", sentence)
                self.assertTrue(sentence.endswith("; say --pairs or --matrix"), sentence)
        self.assertIn("`Fr\u00fch` and `Sp\u00e4t`", self.problems(UNCLEAR[0])[0])

    def test_clear(self):
        for content, names in CLEAR.items():
            with self.subTest(content):
                for problem in self.problems(content):
                    self.assertEqual((problem.persons, problem.objects), names)

    def test_json(self):
        self.write("table.json", json.dumps([["who", "early", "late"], ["Ada", 3, 5], ["Ada", 1, 9]]))
        answer = self.call("tools/from_csv", "table.json")
        self.assert_fault(answer, "table.json, row 1", "`early` and `late`", "--pairs or --matrix")

    def test_fields_of_json(self):
        """Records whose fields are called so may have them in any order."""
        pair = {"cost": 7, "object": "2", "person": "1"}
        self.write("table.json", json.dumps([pair, pair | {"person": "3", "cost": 8}]))
        self.assertEqual(self.call("tools/from_csv", "table.json", "--arcs", "arcs")[0], 0)
        self.assertEqual(self.read("arcs"), "2\n1 1 7\n2 1 8\n1 2 0\n2 2 0\n")

    def test_without_a_header(self):
        """A slip in a table of costs alone makes no list of it."""
        for content in ("12,3x,4\n5,6,7\n", "12,3,4\n5,x,7\n"):
            self.write("table.csv", content)
            answer = self.call("tools/from_csv", "table.csv", "--no-header")
            self.assert_fault(answer, "table.csv, line 1", "costs alone with three objects", "--pairs or --matrix")
        self.assertEqual(self.convert("1,pump,40\n2,roof,65\n", "--no-header"), "2\n1 1 40\n2 2 65\n")

    def test_first_pair_without_a_cost(self):
        """It is no row of titles, which would leave a person out without a word."""
        for cell in ("n/a", "None", "?"):
            self.write("table.csv", f"Ada,pump,{cell}\nBen,roof,3\n")
            answer = self.call("tools/from_csv", "table.csv")
            self.assert_fault(answer, f"table.csv, line 1, column 3: `{cell}` is no number")

    def test_as_said(self):
        table = UNCLEAR[0]
        self.assertEqual(self.convert(table, "--pairs"), "3\n1 1 5\n1 3 9\n2 2 2\n3 4 2\n")
        answer = self.call("tools/from_csv", "table.csv", "--matrix")
        self.assert_fault(answer, "table.csv, line 4, column 1", "is there twice")
        self.assertEqual(self.convert(UNCLEAR[1], "--matrix"), "2\n1 1 3\n1 2 5\n2 1 4\n2 2 2\n")


class Blanks(ToolTest):
    """Two names that differ by blanks alone would be one, without a word."""

    def test_names(self):
        for content, place, other in [
            ("Ann  Lee,pump,3\nAnn Lee,roof,4\n", "line 2, column 1", "line 1"),
            ("Ann,the  pump,3\nBen,the pump,4\n", "line 2, column 2", "line 1"),
            ("Ann\u00a0Lee,pump,3\nAnn Lee,roof,4\n", "line 2, column 1", "line 1"),
            ("who,early  shift,late,early shift\nAnn,1,2,3\n", "line 1, column 4", "column 2"),
            ("who,a,b,c\n\nAnn Lee,1,2,3\nBen,1,2,3\nAnn  Lee,1,2,3\n", "line 5, column 1", "line 3"),
        ]:
            with self.subTest(content):
                self.write("table.csv", content)
                answer = self.call("tools/from_csv", "table.csv")
                self.assert_fault(answer, f"table.csv, {place}: ", f" in {other} differ by blanks alone")

    def test_columns_that_are_picked(self):
        self.write("table.csv", "day,who,what,min\nMon,Ann  Lee,pump,3\nMon,Ann Lee,roof,4\n")
        answer = self.call("tools/from_csv", "table.csv", "--columns", "who,what,min")
        self.assert_fault(answer, "table.csv, line 3, column 2: ", "in line 2")

    def test_json(self):
        self.write("table.json", json.dumps({"Ann  Lee": {"pump": 3}, "Ann Lee": {"roof": 4}}))
        answer = self.call("tools/from_csv", "table.json")
        self.assert_fault(answer, "table.json, pair 2, column 1", "differ by blanks alone")

    def test_one_way_throughout(self):
        """Blanks around a name say nothing, nor do two of them where all are written so; and costs are no names."""
        table = " Ann  Lee ,pump,3\nAnn  Lee,roof,1  234\nBen,pump,1 234\n"
        self.assertEqual(self.convert(table), "2\n1 1 3\n1 2 1234\n2 1 1234\n")
        self.assertIn('"Ann Lee"', self.read("table.names"))


if __name__ == "__main__":
    unittest.main()
