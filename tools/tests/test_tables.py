"""Tables of all kinds: text with a line that tells its separator, thousands, columns by their titles, JSON, workbooks; and that no spoiled one ends in a traceback."""
import io
import json
import subprocess
import sys
import unittest
import zipfile

import fuzz_plans
import fuzz_tables
from calls import TOOLS, ToolTest, has_program, python_with

CREW = [["fitter", "pump", "roof"], ["Ada", 40.5, 65], ["Ben", None, 20.1 + 0.2]]
CREW_ARCS = "2\n1 1 405\n1 2 650\n2 2 203\n"
MAKE_XLSX = """
import openpyxl, sys, json
book = openpyxl.Workbook()
for place, (name, rows) in enumerate(json.loads(sys.argv[2]).items()):
    sheet = book.active if place == 0 else book.create_sheet()
    sheet.title = name
    for row in rows:
        sheet.append(row)
book.save(sys.argv[1])
"""
MAKE_ODS = """
import sys, json
from odf.opendocument import OpenDocumentSpreadsheet
from odf.table import Table, TableRow, TableCell
from odf.text import P
book = OpenDocumentSpreadsheet()
for name, rows in json.loads(sys.argv[2]).items():
    table = Table(name=name)
    for row in rows:
        line = TableRow()
        for value in row:
            if isinstance(value, (int, float)):
                line.addElement(TableCell(valuetype="float", value=value))
            else:
                cell = TableCell(valuetype="string") if value else TableCell()
                cell.addElement(P(text=value or ""))
                line.addElement(cell)
        line.addElement(TableCell(numbercolumnsrepeated=1000))
        table.addElement(line)
    empty = TableRow(numberrowsrepeated=1000000)
    empty.addElement(TableCell(numbercolumnsrepeated=1024))
    table.addElement(empty)
    book.spreadsheet.addElement(table)
book.save(sys.argv[1])
"""


class TableTest(ToolTest):
    def arcs(self, name, content, *words, text=None, python=None):
        """The arc file of a table, and what is said of it."""
        if content is not None:
            self.write(name, content)
        status, _, said = self.call("tools/from_csv", name, "--arcs", "arcs", "--names", "names", *words, text=text, python=python)
        self.assertEqual(status, 0, said)
        return self.read("arcs")


class TextTables(TableTest):
    def test_separator_line(self):
        for end in "\n", "\r\n":
            self.assertEqual(self.arcs("a.csv", f"\ufeffsep=;{end}a;x, y;4{end}b;z, y;5{end}"), "2\n1 1 4\n2 2 5\n")
        self.write("bad.csv", "sep=;\na;x;4\nb;y\n")
        self.assert_fault(self.call("tools/from_csv", "bad.csv"), "bad.csv, line 3, column 3")

    def test_thousands(self):
        for table, words, costs in [
            ('a,x,"1,234.5"\na,y,"1,234"\na,z,2\n', [], [12345, 12340, 20]),
            ("a;x;1.234,50\na;y;1.234\na;z;,5\n", [], [12345, 12340, 5]),
            ("a;x;1.234.567\na;y;1.234\n", [], [1234567, 1234]),
            ("a;x;1 234\na;y;1'234\na;z;1\u00a0234,5\n", [], [12340, 12340, 12345]),
            ("a;x;1.234\na;y;2\n", ["--decimal-mark", "comma"], [1234, 2]),
            ("a;x;1.234\na;y;2\n", ["--decimal-mark", "point"], [1234, 2000]),
            ("a;x;1.234\na;y;0.500\n", [], [1234, 500]),
            ("a;x;1.234\na;y;2\n", ["--decimals", "3"], [1234, 2000]),
            ("a,x,1.234\na,y,2\n", [], [1234, 2000]),
            ("a\tx\t1.234,5\na\ty\t2\n", [], [12345, 20]),
            ("a\tx\t3,5\na\ty\t1.234\n", [], [35, 12340]),
            ("a\tx\t1.234\na\ty\t2\n", [], [1234, 2000]),
            ('a,x,"1,5"\na,y,2\n', ["--decimal-mark", "comma"], [15, 20]),
        ]:
            with self.subTest(table=table, words=words):
                arcs = self.arcs("a.csv", table, *words)
                self.assertEqual([int(line.split()[2]) for line in arcs.splitlines()[1:]], costs)

    def test_columns(self):
        table = "day,who,room,\"what, now\",minutes\nMon,Ada,1,pump,40\nMon,Ben,2,roof,20\n"
        self.assertEqual(self.arcs("a.csv", table, "--columns", 'who,"what, now",minutes'), "2\n1 1 40\n2 2 20\n")
        self.assertEqual(self.arcs("a.csv", table.split("\n", 1)[1], "--columns", "2,4,5", "--no-header"), "2\n1 1 40\n2 2 20\n")
        self.write("a.csv", table.replace("20", "20 min"))
        self.assert_fault(self.call("tools/from_csv", "a.csv", "--columns", 'who,"what, now",minutes'), "a.csv, line 3, column 5", "20 min")

    def test_ignored_columns(self):
        for table, words in [
            ("who,x,note,y\na,4,ill,\nb,,,5\n", ["--ignore-column", "note"]),
            ("note,who,what,min,day\n,a,x,4,Mon\nill,b,y,5,Mon\n", ["--ignore-column", "day", "--ignore-column", "note"]),
            ("4,,x\n,5,y\n", ["--ignore-column", "3", "--no-header"]),
        ]:
            with self.subTest(table):
                self.assertEqual(self.arcs("a.csv", table, *words), "2\n1 1 4\n2 2 5\n")
        self.write("a.csv", "who,x,note,y\na,4,ill,few\n")
        self.assert_fault(self.call("tools/from_csv", "a.csv", "--matrix", "--ignore-column", "note"), "line 2, column 4", "`few`")

    def test_titles_that_are_numbers(self):
        """Columns that are named by their titles have these on top, whatever they look like."""
        self.assertEqual(self.arcs("a.csv", "who,what,2025,2026\na,x,1,4\nb,y,2,5\n", "--columns", "who,what,2026"), "2\n1 1 4\n2 2 5\n")

    def test_empty_columns_at_the_end(self):
        for table in ("who,what,min,,\na,x,4,,\nb,y,5,,\n", "a,x,4\nb,y,5,\n", "who,x,y,\na,4,,\nb,,5,\n", "who,x,y\na,4,,\nb,,5,\n"):
            with self.subTest(table):
                self.assertEqual(self.arcs("a.csv", table), "2\n1 1 4\n2 2 5\n")
        self.assertEqual(self.arcs("a.csv", "4,6,\n,5,\n", "--no-header", "--matrix"), "2\n1 1 4\n1 2 6\n2 2 5\n")
        self.assertIn("2 persons, 3 objects", self.call("tools/from_csv", "a.csv", "--no-header", "--matrix")[1])

    def test_standard_input(self):
        self.assertEqual(self.arcs("-", None, text="a,x,4\nb,y,5\n"), "2\n1 1 4\n2 2 5\n")
        self.assertEqual(self.arcs("-", None, text='{"a": {"x": 4}, "b": {"y": 5}}'), "2\n1 1 4\n2 2 5\n")
        self.assert_fault(self.call("tools/from_csv", "-", text="a,x,4\nb,y\n"), "standard input, line 2, column 3")

    def test_json(self):
        for value in [
            [{"who": "a", "what": "x", "cost": 4.5}, {"who": "a", "what": "y", "cost": 7}, {"cost": 3, "what": "x", "who": "b"}],
            {"a": {"x": 4.5, "y": 7}, "b": {"x": 3, "y": None}},
            [["", "x", "y"], ["a", 4.5, 7], ["b", 3, None]],
            [["a", "x", 4.5], ["a", "y", 7], ["b", "x", 3]],
        ]:
            with self.subTest(value):
                self.assertEqual(self.arcs("a.json", json.dumps(value)), "2\n1 1 45\n1 2 70\n2 1 30\n")
        self.assertEqual(self.arcs("a.json", json.dumps([{"who": "a", "what": "x", "cost": 4, "day": "Mon"}]), "--columns", "who,what,cost"), "1\n1 1 4\n")
        for titles in ["who", "what", "3"], ["who", "what", ""], ["a", "what", "cost"]:
            self.assertEqual(self.arcs("a.json", json.dumps([dict(zip(titles, ["a", "x", 4]))])), "1\n1 1 4\n")
        self.assertEqual(self.arcs("a.json", '{"a": {"x": 4}}', "--no-header"), "1\n1 1 4\n")

    def test_json_with_nothing_for_somebody(self):
        """Who has no cost is a person all the same, and what nobody may take an object."""
        self.assertEqual(self.arcs("a.json", '{"a": {"x": 4, "y": 5}, "b": {}}'), "2\n1 1 4\n1 2 5\n")
        self.assertEqual(self.arcs("a.json", '{"a": {"x": 4, "y": null}, "b": {"x": 5}}'), "2\n1 1 4\n2 1 5\n")
        self.write("a.json", '{"a": {"x": "few", "y": 5}, "b": {}}')
        self.assert_fault(self.call("tools/from_csv", "a.json"), "a.json, person 1, column 2", "`few`")


class Roads(ToolTest):
    def test_roads(self):
        """The roads for large tables give what the road for all tables gives, and say nothing of tables that have a fault."""
        python = python_with("numpy")
        done = subprocess.run([python or sys.executable, TOOLS / "tests" / "compare_roads.py"], capture_output=True, text=True, timeout=600)
        *_, taken, last = done.stdout.splitlines()
        self.assertEqual(last, "2000 passed, 0 failed", done.stdout + done.stderr)
        matrices, pairs = (int(word) for word in taken.replace(",", "").split() if word.isdigit())
        self.assertGreater(pairs, 50)
        if not python:
            self.skipTest("it needs numpy for matrices")
        self.assertGreater(matrices, 50)

    def test_large_table(self):
        """A table that is large enough for numpy, sound and with a fault, with and without the library."""
        python = python_with("numpy")
        if not python:
            self.skipTest("it needs numpy")
        rows = [",".join(["who", *(f"job {thing}" for thing in range(400))])]
        rows += [",".join([f"person {person}", *("" if (person + thing) % 7 == 0 else f"{(person * thing) % 9_973 / 100:.2f}" for thing in range(400))]) for person in range(300)]
        for change in (lambda text: text, lambda text: text.replace("person 250", "person 25"), lambda text: text.replace("99.72", "99.7x"), lambda text: text.replace("99.72", '"99.72"')):
            self.write("table.csv", change("\n".join(rows)))
            with_numpy, without = (self.call("tools/from_csv", "table.csv", "--arcs", arcs, "--names", f"{arcs}.names", python=which) for which, arcs in ((python, "a"), (None, "b")))
            self.assertEqual((with_numpy[0], with_numpy[2]), (without[0], without[2]))
            if with_numpy[0] == 0:
                self.assertEqual(self.read("a"), self.read("b"))
                self.assertEqual(self.read("a.names"), self.read("b.names"))


class Workbooks(TableTest):
    """Workbooks as the two libraries write them, where these are installed."""

    def made(self, name, sheets):
        library, script = ("openpyxl", MAKE_XLSX) if name.endswith(".xlsx") else ("odf", MAKE_ODS)
        python = python_with(library)
        if not python:
            raise unittest.SkipTest(f"it needs {library}")
        subprocess.run([python, "-c", script, name, json.dumps(sheets)], cwd=self.folder, check=True)
        return python

    def test_values(self):
        for name in "crew.xlsx", "crew.ods":
            python = self.made(name, {"Plan": CREW})
            self.assertEqual(self.arcs(name, None, python=python), CREW_ARCS)

    def test_sheets(self):
        for name in "crew.xlsx", "crew.ods":
            python = self.made(name, {"Plan": CREW, "Other": [["x", 1]]})
            self.assertEqual(self.arcs(name, None, "--sheet", "Plan", python=python), CREW_ARCS)
            self.assert_fault(self.call("tools/from_csv", name, python=python), name, "more than one sheet", "--sheet", "`Plan`, `Other`")
            self.assert_fault(self.call("tools/from_csv", name, "--sheet", "nosuch", python=python), name, "no sheet `nosuch`")

    def test_formula_without_a_value(self):
        python = self.made("crew.xlsx", {"Plan": [["fitter", "pump"], ["Ada", "=1+1"]]})
        self.assert_fault(self.call("tools/from_csv", "crew.xlsx", python=python), "crew.xlsx, line 2, column 2", "formula")

    def test_faults_have_their_place(self):
        for name in "crew.xlsx", "crew.ods":
            python = self.made(name, {"Plan": [["fitter", "pump", "roof"], ["Ada", 4, "n/a"], ["Ben", 1, 2]]})
            self.assert_fault(self.call("tools/from_csv", name, "--matrix", python=python), f"{name}, line 2, column 3", "`n/a` is no number")

    def test_without_the_libraries(self):
        """Without site packages neither is there."""
        for name, kind, library in [("a.xlsx", None, "openpyxl"), ("a.ods", b"application/vnd.oasis.opendocument.spreadsheet", "odfpy")]:
            content = io.BytesIO()
            with zipfile.ZipFile(content, "w") as archive:
                archive.writestr("mimetype" if kind else "[Content_Types].xml", kind or b"")
            self.write(name, content.getvalue())
            self.assert_fault(self.call("tools/from_csv", name), name, library, "Debian", "CSV")


class Faults(ToolTest):
    FAULTS = {
        "old workbook": ("a.csv", b"\xd0\xcf\x11\xe0\xa1\xb1\x1a\xe1rest", [], "old Excel"),
        "cut workbook": ("a.xlsx", b"PK\x03\x04rest", [], "cut or spoiled"),
        "separator of another kind": ("a.csv", "sep=|\na|x|4\n", [], "line 1, column 1", "sep=|"),
        "two meanings": ("a.csv", "a;x;1.234\nb;y;900\n", [], "line 1, column 3", "--decimal-mark"),
        "two meanings of a comma": ("a.csv", 'a,x,"1,234"\nb,y,900\n', [], "line 1, column 3", "--decimal-mark"),
        "thousands parted wrongly": ("a.csv", "a;x;1.23.456\nb;y;900\n", [], "line 1, column 3", "no number"),
        "two titles": ("a.csv", "a,b,c,d\n1,2,3,4\n", ["--columns", "a,b"], "three titles", "2"),
        "no such title": ("a.csv", "a,b,c,d\n1,2,3,4\n", ["--columns", "a,b,e"], "line 1", "`e`", "`d`"),
        "title twice": ("a.csv", "a,b,c,c\n1,2,3,4\n", ["--columns", "a,b,c"], "line 1", "2 columns `c`"),
        "more columns than three": ("a.csv", "day,who,what,cost\nMon,a,x,1\nTue,b,y,2\n", [], "line 2, column 2", "--columns"),
        "sheet of a text": ("a.csv", "a,x,1\n", ["--sheet", "Plan"], "no workbook"),
        "no JSON": ("a.json", '{"a": {"x": 1}', [], "line 1, column 15", "no JSON"),
        "JSON of another kind": ("a.json", "5", [], "list of records"),
        "mixed JSON": ("a.json", '[{"a": 1}, 5]', [], "record 2", "list of records"),
        "lists in JSON": ("a.json", '[["a", "x", [1]]]', [], "row 1, column 3", "list"),
        "deep JSON": ("a.json", "[" * 100_000, [], "a.json", "too deep"),
        "nothing in JSON": ("a.json", '{"a": {}, "b": {"x": null}}', [], "nobody has a cost"),
        "more titles in JSON": ("a.json", '[{"who": "a", "what": "x", "cost": 1, "day": 2}]', [], "record 1, column 4", "--columns"),
        "name twice in JSON": ("a.json", '{"a": {"x": 1}, "a": {"x": 2}}', [], "`a`", "twice"),
        "truth in JSON": ("a.json", '{"a": {"x": true}}', [], "pair 1, column 3", "`true` is no number"),
        "no cost in JSON": ("a.json", '[{"who": "a", "what": "x", "cost": null}, {"who": "b", "what": "y", "cost": null}]', [], "record 1, column 3", "no row has a cost"),
    }

    def test_faults(self):
        calls = []
        for number, (name, content, words, *_) in enumerate(self.FAULTS.values()):
            self.write(f"{number}{name}", content)
            calls.append(("tools/from_csv", f"{number}{name}", *words))
        for (name, (_, _, _, *parts)), call, answer in zip(self.FAULTS.items(), calls, self.answers(calls)):
            with self.subTest(name):
                self.assert_fault(answer, call[1], *parts)

    def test_spoiled_tables(self):
        """A short run of fuzz_tables.py, which takes more by hand."""
        self.assertEqual(fuzz_tables.faults_of_run(seed=5, count=300), [])


@has_program()
class SpoiledPlans(unittest.TestCase):
    def test_spoiled_plans(self):
        """A short run of fuzz_plans.py, which takes more by hand."""
        statuses, faults = fuzz_plans.results_of_run(seed=5, count=60)
        self.assertEqual(faults, [])
        self.assertGreater(statuses[0], 10)


@has_program()
class Outputs(ToolTest):
    TABLE = "a;x;1,5\nb;x;2\nb;y;4\nc;y;1\n"

    def test_json(self):
        self.write("table.csv", self.TABLE)
        status, output, _ = self.call("plan", "table.csv", "--json")
        told = json.loads(output)
        self.assertEqual((status, told["answer"], told["total"], told["free_persons"], told["free_objects"]), (0, "best", 2.5, [{"person": "b"}], []))
        self.assertEqual(told["pairs"], [{"person": "a", "object": "x", "cost": 1.5}, {"person": "c", "object": "y", "cost": 1.0}])
        self.write("table.csv", "a,x,1\nb,x,2\nc,y,1\nc,z,1\n")
        status, output, _ = self.call("plan", "table.csv", "--json")
        told = json.loads(output)
        self.assertEqual((status, told["answer"], told["persons"], told["objects"]), (3, "no plan", ["a", "b"], ["x"]))

    def test_file(self):
        self.write("table.csv", self.TABLE)
        status, output, _ = self.call("plan", "table.csv", "-o", "plan.csv")
        self.assertEqual((status, output, self.read("plan.csv")), (0, "", "person;object;cost\na;x;1,5\nc;y;1,0\nb;;\ntotal;;2,5\n"))
        self.assert_fault(self.call("plan", "table.csv", "--decimals", "1", "-o", "table.csv"), "table.csv", "over the table")
        self.assert_fault(self.call("plan", "table.csv", "--decimals", "1", "-o", "nosuch/plan.csv"), "nosuch/plan.csv", "can't be written")
