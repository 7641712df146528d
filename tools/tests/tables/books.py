"""Makes the workbooks among these tables in the folder where it is called: those of Excel by openpyxl, the others by odfpy."""
import datetime

import openpyxl
from odf.opendocument import OpenDocumentSpreadsheet
from odf.table import CoveredTableCell, Table, TableCell, TableColumn, TableRow
from odf.text import P

TIME, DAY = datetime.time, datetime.datetime


def book(name, merged=(), **sheets):
    """A workbook of Excel with these sheets, whose first one is given back to be changed; it is saved by `save`."""
    made = openpyxl.Workbook()
    made.remove(made.active)
    for title, rows in sheets.items():
        sheet = made.create_sheet(title)
        for row in rows:
            sheet.append(row)
    for cells in merged:
        made.worksheets[0].merge_cells(cells)
    made.name = name
    return made, made.worksheets[0]


def save(made):
    made.save(made.name)


def formatted(sheet, cells, form):
    for row in sheet[cells]:
        for cell in row:
            cell.number_format = form


def excel_books():
    made, _ = book("times.xlsx", Plan=[["crew", "north", "south", "harbour"], ["red", TIME(1, 30), TIME(0, 45), TIME(2, 10)], ["green", TIME(1, 10), TIME(0, 50), TIME(2)], ["blue", TIME(0, 55), TIME(1, 5), TIME(1, 25)]])
    save(made)
    # 25:30 and 0:45, 26:15 and 0:50, in days.
    made, sheet = book("durations.xlsx", Plan=[["crew", "north", "south"], ["red", 1.0625, 0.03125], ["green", 26.25 / 24, 50 / 1440]])
    formatted(sheet, "B2:C3", "[h]:mm")
    save(made)
    made, sheet = book("currency.xlsx", Plan=[["driver", "tour 1", "tour 2", "tour 3"], ["Ann", 1250.5, 900, 950], ["Lee", 1100, 1020.25, 850.5]])
    formatted(sheet, "B2:D3", '#,##0.00 "\u20ac"')
    save(made)
    made, _ = book("thirds.xlsx", Plan=[["van", "market", "harbour", "school"], ["van 1", 1 / 3, 2, 3], ["van 2", 2, 0.1 + 0.2, 3]])
    save(made)
    made, _ = book("formula.xlsx", Plan=[["van", "market", "harbour", "school"], ["van 1", 4, 2, 3], ["van 2", 2, "=B2+C2", 3]])
    save(made)
    made, _ = book("offset.xlsx", Plan=[[], [None, "Roster of week 48"], [], [None, "nurse", "early", "late", "night"], [None, "Ada", 4, 9, 8], [None, "Ben", 6, 2, 8], [None, "Cleo", 6, 9, 3]])
    save(made)
    levels = [["Roster"], ["nurse", "Mon", None, "Tue", None], [None, "early", "late", "early", "late"], ["Ada", 4, 9, 8, 7], ["Ben", 6, 2, 8, 7], ["Cleo", 6, 9, 3, 7], ["Dan", 6, 9, 8, 5]]
    made, _ = book("levels.xlsx", ["A1:E1", "A2:A3", "B2:C2", "D2:E2"], Plan=levels)
    save(made)
    made, _ = book("merged.xlsx", ["A2:A3", "A4:A5"], Plan=[["driver", "bus", "min"], ["Ines", "bus 4", 35], [None, "bus 7", 20], ["Jon", "bus 4", 10], [None, "bus 7", 45]])
    save(made)
    made, sheet = book("hidden.xlsx", Plan=[["fitter", "pump", "roof", "note", "wiring"], ["Ada", 4, 9, 0, 8], ["Away", 0, 0, 0, 0], ["Ben", 6, 2, 0, 8], ["Cleo", 6, 9, 0, 3]])
    sheet.row_dimensions[3].hidden = sheet.column_dimensions["D"].hidden = True
    save(made)
    made, _ = book("dates.xlsx", Plan=[["nurse", DAY(2026, 11, 28), DAY(2026, 11, 29), DAY(2026, 11, 30)], ["Ada", 4, 9, 8], ["Ben", 6, 2, 8], ["Cleo", 6, 9, 3]])
    save(made)
    made, _ = book("two_sheets.xlsx", Costs=[["van", "market", "harbour", "school"], ["van 1", 1, 2, 3], ["van 2", 5, 7, 9]], Capacity=[["van", "tours"], ["van 1", 2]])
    save(made)


def cell(value):
    """A cell of the other kind: a number, a text, or what a pair or three of its kind, value and shown text tell."""
    if isinstance(value, (int, float)):
        return TableCell(valuetype="float", value=value)
    kind, told, shown = value if isinstance(value, tuple) else ("string", None, value)
    made = TableCell(valuetype=kind, **({f"{kind}value": told} if told else {}))
    made.addElement(P(text=shown))
    return made


def other_book(name, rows, columns=(), hidden_rows=()):
    """A workbook of the other kind with one sheet; columns are told where one is hidden."""
    made, table = OpenDocumentSpreadsheet(), Table(name="Plan")
    for is_hidden in columns:
        table.addElement(TableColumn(**({"visibility": "collapse"} if is_hidden else {})))
    for number, row in enumerate(rows, 1):
        line = TableRow(**({"visibility": "filter"} if number in hidden_rows else {}))
        for value in row:
            line.addElement(value if hasattr(value, "qname") else cell(value))
        table.addElement(line)
    made.spreadsheet.addElement(table)
    made.save(name)


def time_of(hours, minutes):
    return "time", f"PT{hours:02}H{minutes:02}M00S", f"{hours:02}:{minutes:02}"


def other_books():
    rows = [("red", 1, 30, 0, 45, 2, 10), ("green", 1, 10, 0, 50, 2, 0), ("blue", 0, 55, 1, 5, 1, 25)]
    other_book("times.ods", [["crew", "north", "south", "harbour"], *([name, *(time_of(*row[place : place + 2]) for place in (0, 2, 4))] for name, *row in rows)])
    days = [("date", f"2026-11-{day}", f"{day}.11.26") for day in (28, 29, 30)]
    other_book("dates.ods", [["nurse", *days], ["Ada", 4, 9, 8], ["Ben", 6, 2, 8], ["Cleo", 6, 9, 3]])
    hidden = [["fitter", "pump", "roof", "note", "wiring"], ["Ada", 4, 9, 0, 8], ["Away", 0, 0, 0, 0], ["Ben", 6, 2, 0, 8], ["Cleo", 6, 9, 0, 3]]
    other_book("hidden.ods", hidden, [False, False, False, True, False], [3])
    down = [TableCell(valuetype="string", numberrowsspanned=2) for _ in range(2)]
    for each, name in zip(down, ("Ines", "Jon")):
        each.addElement(P(text=name))
    other_book("merged.ods", [["driver", "bus", "min"], [down[0], "bus 4", 35], [CoveredTableCell(), "bus 7", 20], [down[1], "bus 4", 10], [CoveredTableCell(), "bus 7", 45]])


if __name__ == "__main__":
    excel_books()
    other_books()
