"""Workbooks as offices have them: times, dates as headers, merged cells, hidden columns, sheets by their names. They are made by
the two libraries, where these are installed."""
import functools
import json
import pathlib
import subprocess
import tempfile

from calls import ToolTest, has_program, python_with

MAKE_XLSX = """
import datetime, openpyxl
book = openpyxl.Workbook()
def sheet(name, rows, merged=()):
    made = book.create_sheet(name)
    for row in rows:
        made.append(row)
    for cells in merged:
        made.merge_cells(cells)
    return made
time, day = datetime.time, datetime.datetime
sheet("Times", [["who", "x", "y"], ["a", time(1, 30), time(0, 45)], ["b", time(2), time(12, 5)]])
durations = sheet("Durations", [["who", "x", "y"], ["a", 1.0625, 0.03125], ["b", 2100 / 86400, 0.5]])
for row in durations["B2:C3"]:
    for cell in row:
        cell.number_format = "[h]:mm"
sheet("Dates", [["who", day(2026, 11, 28), day(2026, 11, 29)], ["a", 4, 5], ["b", 6, 7]])
levels = [["Week 48"], ["who", "Mon", None, "Tue", None], [None, "early", "late", "early", "late"], ["a", 1, 2, 3, 4]]
sheet("Levels", levels, ["A1:E1", "A2:A3", "B2:C2", "D2:E2"])
sheet("Merged", [["who", "what", "min"], ["a", "x", 4], [None, "y", 5], ["b", "x", 6], [None, "y", 7]], ["A2:A3", "A4:A5"])
hidden = sheet("Hidden", [["who", "x", "n", "y"], ["a", 4, 9, 5], ["c", 9, 9, 9], ["b", 6, 9, "few"]])
hidden.row_dimensions[3].hidden = hidden.column_dimensions["C"].hidden = True
sheet("Capacities", [["who", "most"], ["a", 2], ["b", 1]])
del book["Sheet"]
book.save("book.xlsx")
"""
MAKE_ODS = """
from odf.opendocument import OpenDocumentSpreadsheet
from odf.table import CoveredTableCell, Table, TableCell, TableRow
from odf.text import P
book = OpenDocumentSpreadsheet()
def cell(value):
    if isinstance(value, tuple):
        kind, told, shown = value
        made = TableCell(valuetype=kind, **{f"{kind}value": told})
        made.addElement(P(text=shown))
        return made
    if isinstance(value, (int, float)):
        return TableCell(valuetype="float", value=value)
    made = TableCell(valuetype="string")
    made.addElement(P(text=value))
    return made
def sheet(name, rows):
    table = Table(name=name)
    for row in rows:
        line = TableRow()
        for value in row:
            line.addElement(value if hasattr(value, "qname") else cell(value))
        table.addElement(line)
    book.spreadsheet.addElement(table)
sheet("Times", [["who", "x", "y"], ["a", ("time", "PT01H30M00S", "01:30"), ("time", "PT00H45M00S", "00:45")],
                ["b", ("time", "PT02H00M00S", "02:00"), ("time", "PT12H05M00S", "12:05")]])
sheet("Dates", [["who", ("date", "2026-11-28", "28.11.26"), ("date", "2026-11-29T00:00:00", "29.11.26")], ["a", 4, 5], ["b", 6, 7]])
down = TableCell(valuetype="string", numberrowsspanned=2)
down.addElement(P(text="a"))
sheet("Merged", [["who", "what", "min"], [down, "x", 4], [CoveredTableCell(), "y", 5], ["b", "x", 6], ["b", "y", 7]])
book.save("book.ods")
"""
CREW = "2\n1 1 4\n1 2 5\n2 1 6\n2 2 7\n"


@functools.cache
def books(python):
    """The two workbooks, which are made once for all tests."""
    with tempfile.TemporaryDirectory() as folder:
        for script in (MAKE_XLSX, MAKE_ODS):
            subprocess.run([python, "-c", script], cwd=folder, check=True)
        return {name: pathlib.Path(folder, name).read_bytes() for name in ("book.xlsx", "book.ods")}


class Books(ToolTest):
    def setUp(self):
        super().setUp()
        self.python = python_with("openpyxl", "odf")
        if not self.python:
            self.skipTest("it needs openpyxl and odfpy")
        for name, content in books(self.python).items():
            self.write(name, content)

    def sheet(self, name, *words):
        """The arc file of a sheet, the names of persons and objects, and the notes."""
        status, _, said = self.call("tools/from_csv", name, "--arcs", "arcs", "--names", "names", *words, python=self.python)
        self.assertEqual(status, 0, said)
        names = json.loads(self.read("names"))
        return self.read("arcs"), [*names["persons"], *names["objects"]], said

    def test_times(self):
        for name in ("book.xlsx:Times", "book.ods:Times"):
            arcs, _, said = self.sheet(name, "--matrix")
            self.assertEqual((arcs, said), ("2\n1 1 90\n1 2 45\n2 1 120\n2 2 725\n", f"from_csv: {name}: the costs are times\n"))
        arcs, _, said = self.sheet("book.xlsx:Durations", "--matrix")
        self.assertEqual((arcs, said), ("2\n1 1 1530\n1 2 45\n2 1 35\n2 2 720\n", "from_csv: book.xlsx:Durations: the costs are times\n"))

    def test_dates(self):
        for name in ("book.xlsx:Dates", "book.ods:Dates"):
            self.assertEqual(self.sheet(name, "--matrix"), (CREW, ["a", "b", "2026-11-28", "2026-11-29"], ""))

    def test_merged_cells(self):
        arcs, names, said = self.sheet("book.xlsx:Levels")
        self.assertEqual((arcs, names[1:]), ("1\n1 1 1\n1 2 2\n1 3 3\n1 4 4\n", ["Mon early", "Mon late", "Tue early", "Tue late"]))
        for part in ("line 1 is above the header", "lines 2 and 3 are read as a header of two levels", "3 merged cells count in all cells"):
            self.assertIn(part, said)
        for name, count in (("book.xlsx:Merged", "2 merged cells count"), ("book.ods:Merged", "1 merged cell counts")):
            arcs, names, said = self.sheet(name)
            self.assertEqual((arcs, names), (CREW, ["a", "b", "x", "y"]))
            self.assertIn(count, said)

    def test_places_beside_hidden_ones(self):
        answer = self.call("tools/from_csv", "book.xlsx:Hidden", "--matrix", python=self.python)
        self.assert_fault(answer, "book.xlsx:Hidden, line 4, column 4", "`few`")
        arcs, _, said = self.sheet("book.xlsx:Hidden", "--matrix", "--gap", "few")
        self.assertEqual(arcs, "2\n1 1 4\n1 2 5\n2 1 6\n")
        self.assertIn("row 3 and column 3 are hidden, and left out", said)

    @has_program()
    def test_lists_in_sheets(self):
        """A sheet is named wherever a file may stand; times are told as they came."""
        answer = self.call("plan", "book.xlsx:Dates", "--matrix", "--capacity", "book.xlsx:Capacities", python=self.python)
        self.assertEqual(answer[1], "who,object,cost\na,2026-11-28,4\na,2026-11-29,5\nb,,\ntotal,,9\n", answer[2])
        answer = self.call("plan", "book.xlsx:Dates", "--matrix", "--capacity", "book.xlsx", python=self.python)
        self.assert_fault(answer, "book.xlsx", "more than one sheet", "as in book.xlsx:Times")
        answer = self.call("plan", "book.xlsx:Times", "--matrix", python=self.python)
        self.assertEqual(answer[1], "who,object,cost\na,y,0:45\nb,x,2:00\ntotal,,2:45\n", answer[2])

    def test_sheets_by_name(self):
        self.assert_fault(self.call("tools/from_csv", "book.xlsx:Plan", python=self.python), "book.xlsx:Plan", "no sheet `Plan`")
        answer = self.call("tools/from_csv", "book.xlsx:Dates", "--sheet", "Times", python=self.python)
        self.assert_fault(answer, "book.xlsx:Dates", "leave one of them out")
        self.assert_fault(self.call("tools/from_csv", "nosuch.xlsx:Dates", python=self.python), "nosuch.xlsx:Dates", "no such file")
        self.write("table.csv", "a,x,1\n")
        self.assert_fault(self.call("tools/from_csv", "table.csv:Plan", python=self.python), "table.csv", "no workbook")
        self.assertEqual(self.sheet("book.xlsx:Dates", "--matrix", "--range", "A1:B3")[0], "2\n1 1 4\n2 1 6\n1 2 0\n2 2 0\n")
