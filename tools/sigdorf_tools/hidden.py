"""Rows and columns of a workbook that a spreadsheet doesn't show. They are left out, and a note tells them."""
import re

# In the text of a sheet: what a row or some columns are told by, and an attribute of it.
ROW, COLUMNS = (re.compile(rb"<(?:[A-Za-z0-9_]+:)?%s\b([^>]*)>" % name) for name in (b"row", b"col"))
ATTRIBUTE = re.compile(rb"\b([A-Za-z]+)=[\"']([^\"']*)[\"']")
# How a file says that something is hidden.
HIDDEN_IN_XLSX, HIDDEN_IN_ODS = (b"1", b"true"), ("collapse", "filter")
# No table that a plan can be made of has more rows or columns; and so many numbers are told.
MOST, MOST_TOLD = 20_001, 5


def hidden_in_xlsx(text):
    """The numbers of hidden rows and columns of a sheet, from its text: the library doesn't tell them where it reads
    row by row."""
    rows, columns, number = set(), set(), 0
    for found in ROW.finditer(text):
        told = dict(ATTRIBUTE.findall(found[1]))
        number = int(told.get(b"r", number + 1))
        if told.get(b"hidden") in HIDDEN_IN_XLSX:
            rows.add(number)
    for found in COLUMNS.finditer(text):
        told = dict(ATTRIBUTE.findall(found[1]))
        if told.get(b"hidden") in HIDDEN_IN_XLSX:
            columns.update(range(int(told[b"min"]), min(int(told[b"max"]), MOST) + 1))
    return rows, columns


def hidden_in_ods(table, repeats):
    """The same of a sheet of the other library; repeats tells how often an element stands there."""
    from odf.table import TableColumn, TableRow
    found = []
    for kind, attribute in ((TableRow, "numberrowsrepeated"), (TableColumn, "numbercolumnsrepeated")):
        numbers, number = set(), 1
        for element in table.getElementsByType(kind):
            count = repeats(element, attribute)
            if element.getAttribute("visibility") in HIDDEN_IN_ODS:
                numbers.update(range(number, number + min(count, MOST)))
            number += count
        found.append(numbers)
    return found


def without_hidden(rows, hidden_rows, hidden_columns):
    """The rows by their numbers without hidden ones, and where the columns that are left stand in the file; None where
    all are."""
    shown = {number: cells for number, cells in rows.items() if number not in hidden_rows}
    if not hidden_columns:
        return shown, None
    width = max(map(len, rows.values()), default=0)
    columns = [column for column in range(width) if column + 1 not in hidden_columns]
    return {number: [cells[column] for column in columns] for number, cells in shown.items()}, columns


def note_of_hidden(file, rows, hidden_rows, hidden_columns):
    """A note on the hidden rows and columns that have cells, if there are any."""
    filled = {number for cells in rows.values() for number, cell in enumerate(cells, 1) if cell}
    found = {"row": sorted(hidden_rows & rows.keys()), "column": sorted(hidden_columns & filled)}
    count = sum(map(len, found.values()))
    if not count:
        return []
    told = " and ".join(numbered(word, numbers) for word, numbers in found.items() if numbers)
    return [f"{file}: {told} {'is' if count == 1 else 'are'} hidden, and left out; show what is meant to be planned"]


def numbered(word, numbers):
    """Some rows or columns in a sentence."""
    more = [f"{len(numbers) - MOST_TOLD} more"] if len(numbers) > MOST_TOLD else []
    *some, last = [*map(str, numbers[:MOST_TOLD]), *more]
    return f"{word}s {', '.join(some)} and {last}" if some else f"{word} {last}"
