"""Notes on what may not be meant: sums that are read as persons or objects, hidden rows and columns, huge costs, copies
of one object for one person. The answer stays as it is."""
import subprocess
import unittest

from calls import ToolTest, has_program, python_with
from sigdorf_tools.claims import Claim
from sigdorf_tools.names import plain_names
from sigdorf_tools.notes import notes_of_plan
from sigdorf_tools.problems import Arcs, Problem

MANY = "who may take more than one object may take all its copies: write it once and say --need, or forbid such pairs"
MAKE_XLSX = """
import openpyxl
book = openpyxl.Workbook()
for row in [["who", "a", "b", "c"], ["Ann", 1, 2, 3], ["Ben", 3, 1, 2], ["Cleo", 2, 3, 1]]:
    book.active.append(row)
book.save("shown.xlsx")
book.active.row_dimensions[3].hidden = True
# Without cells it is of no account.
book.active.row_dimensions[9].hidden = book.active.column_dimensions["F"].hidden = True
book.save("row.xlsx")
book.active.column_dimensions["C"].hidden = True
book.save("both.xlsx")
"""
MAKE_ODS = """
from odf.opendocument import OpenDocumentSpreadsheet
from odf.table import Table, TableCell, TableColumn, TableRow
from odf.text import P
book, table = OpenDocumentSpreadsheet(), Table(name="Plan")
for how in ({}, {}, {"visibility": "collapse"}, {"numbercolumnsrepeated": 3}):
    table.addElement(TableColumn(**how))
for number, cells in enumerate([["who", "a", "b", "c"], ["Ann", 1, 2, 3], ["Ben", 3, 1, 2], ["Cleo", 2, 3, 1]], 1):
    row = TableRow(visibility="filter") if number == 3 else TableRow()
    for value in cells:
        cell = TableCell(valuetype="float", value=value) if isinstance(value, int) else TableCell(valuetype="string")
        cell.addElement(P(text=str(value)))
        row.addElement(cell)
    table.addElement(row)
book.spreadsheet.addElement(table)
book.save("both.ods")
"""


class Tables(ToolTest):
    REST = "hidden, and left out; show what is meant to be planned\n"

    def said(self, content, *words):
        self.write("table.csv", content)
        status, _, said = self.call("tools/from_csv", "table.csv", *words)
        self.assertEqual(status, 0, said)
        return said

    def test_sums(self):
        for name in ("Total", "SUM", "Summe:", "needed", "Bedarf"):
            told = f"from_csv: note: table.csv: `{name}`, the last"
            more = "is planned like any other; leave it out if it is none\n"
            person, thing = (f"{told} {word} of the table, {more}" for word in ("person", "object"))
            self.assertEqual(self.said(f",a,b\nAnn,1,2\n{name},3,4\n"), person)
            self.assertEqual(self.said(f",a,b,{name}\nAnn,1,2,3\n"), thing)
            self.assertEqual(self.said(f"Ann,a,1\n{name},{name},4\n"), person + thing)
        self.assertEqual(self.said(",a,Total,b\nTotal,1,2,3\nAnn,1,2,3\nTotalisator,1,2,3\n"), "")

    def hidden(self, name):
        """What is said of a workbook, and how many persons are left of its three."""
        status, output, said = self.call("tools/from_csv", name, "--matrix", python=self.python)
        self.assertEqual(status, 0, said)
        return output.split(",")[0].split()[1], said

    def made(self, library, script):
        self.python = python_with(library)
        if not self.python:
            self.skipTest(f"it needs {library}")
        subprocess.run([self.python, "-c", script], cwd=self.folder, check=True)

    def test_hidden_in_xlsx(self):
        self.made("openpyxl", MAKE_XLSX)
        self.assertEqual(self.hidden("shown.xlsx"), ("3", ""))
        self.assertEqual(self.hidden("row.xlsx"), ("2", f"from_csv: note: row.xlsx: row 3 is {self.REST}"))
        self.assertEqual(self.hidden("both.xlsx"), ("2", f"from_csv: note: both.xlsx: row 3 and column 3 are {self.REST}"))
        self.assertEqual(self.read("both.arcs"), "2\n1 1 1\n1 2 3\n2 1 2\n2 2 1\n")

    def test_hidden_in_ods(self):
        self.made("odf", MAKE_ODS)
        self.assertEqual(self.hidden("both.ods"), ("2", f"from_csv: note: both.ods: row 3 and column 3 are {self.REST}"))


class PlansInProcess(unittest.TestCase):
    def notes(self, rows, owners=None, objects=None, maximise=False):
        """The notes on the plan that gives each person the object of the same number; the rows are their costs."""
        names = plain_names(len(rows), len(rows[0]))._replace(maximise=maximise)
        names = names._replace(persons=owners or names.persons, objects=objects or names.objects)
        arcs = [Arcs(list(range(1, len(row) + 1)), "\n".join(map(str, row))) for row in rows]
        problem = Problem(names.titles, ".", 0, list(dict.fromkeys(names.persons)), names.objects, arcs)
        picks = [(number, row[number - 1]) for number, row in enumerate(rows, 1)]
        return list(notes_of_plan(names, problem, Claim("optimal", picks, [], 0, 0, [], [])))

    def test_costs_far_above_all_others(self):
        def told(cost, below):
            way_out = "leave a pair that isn't allowed out of the table"
            return [f"`2` and `2` cost {cost}, where {below} is the next greatest cost; {way_out}"]
        self.assertEqual(self.notes([[40, 9, 9], [9, 4_000, 9], [9, 9, 30]]), told(4000, 40))
        self.assertEqual(self.notes([[40, 9, 9], [9, 3_999, 9], [9, 9, 30]]), [])
        two = self.notes([[99_999, 9, 9, 9], [9, 9_999, 9, 9], [9, 9, 30, 9], [9, 9, 9, 40]])
        self.assertEqual(two, told("9999, and 1 more pair costs as much or more", 40))
        # A small cost among usual ones is none that stands for a pair that isn't allowed.
        self.assertEqual(self.notes([[1, 9, 9], [9, 500, 9], [9, 9, 600]]), [])
        # Where others cost nothing, the person's own row tells what is usual.
        self.assertEqual(self.notes([[0, 5], [5, 9_999]]), told(9999, 5))
        self.assertEqual(self.notes([[0, 5], [0, 9_999]]), [])
        self.assertEqual(self.notes([[-5, 9], [9, 999]], maximise=True), told(-999, 5))

    def test_copies_for_one_person(self):
        objects = ["roof (1)", "roof (2)", "pump (1)", "roof"]
        rows = [[1] * 4 for _ in range(4)]
        told = f"; {MANY}"
        owners = ["Ada", "Ada", "Ben", "Ben"]
        self.assertEqual(self.notes(rows, owners, objects), [f"`Ada` has `roof (1)` and `roof (2)`{told}"])
        self.assertEqual(self.notes(rows, ["Ada", "Ben", "Ada", "Ben"], objects), [])
        (both,) = self.notes(rows, owners, [*objects[:2], "pump (1)", "pump (2)"])
        self.assertEqual(both, f"`Ada` has `roof (1)` and `roof (2)`, and 1 more person has copies of one object{told}")


@has_program()
class Plans(ToolTest):
    def test_notes(self):
        """They are told with --quiet too, above the line of the plan, and the answer stays as it is."""
        self.write("table.csv", "who,a (1),a (2),b\nAda,1,2,7\nTotal,9,9,1000\n")
        first, second, third = (
            "`Total`, the last person of the table, is planned like any other; leave it out if it is none",
            "`Total` and `b` cost 1000, where 2 is the next greatest cost; "
            "leave a pair that isn't allowed out of the table",
            f"`Ada` has `a (1)` and `a (2)`; {MANY}",
        )
        words = ["table.csv", "--capacity", "2", "--fix", "Total=b"]
        status, output, said = self.call("plan", *words, "--quiet")
        rows = ["Ada,a (1),1", "Ada,a (2),2", "Total,b,1000", "total,,1003"]
        self.assertEqual((status, output.splitlines()[1:]), (0, rows))
        self.assertEqual(said, "".join(f"plan: note: table.csv: {sentence}\n" for sentence in (first, second, third)))
        *notes, last = self.call("plan", *words)[2].splitlines()
        self.assertEqual((notes, "3 pairs" in last), (said.splitlines(), True))
