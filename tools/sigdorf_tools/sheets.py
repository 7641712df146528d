"""Tables in workbooks: .xlsx by openpyxl, and .ods by odfpy, where these are installed. A cell is the text of its value, and not of what a spreadsheet shows for it."""
import datetime
import io
import itertools
import re
import warnings
import zipfile
from decimal import Decimal
from typing import NamedTuple

from .clocks import clock_of_duration, clock_of_seconds, without_seconds
from .faults import Fault, quoted
from .hidden import hidden_in_ods, hidden_in_xlsx, note_of_hidden, without_hidden
from .merged import Merged, filled, merged_in_xlsx, note_of_merged

WORKBOOK = b"PK\x03\x04"
ODS_KIND = b"application/vnd.oasis.opendocument.spreadsheet"
# What a formula begins with in a sheet of a workbook.
FORMULA = re.compile(rb"<(?:[A-Za-z0-9_]+:)?f[ >/]")
# As many digits as a spreadsheet has of a number; what stands after them comes of its binary sums.
DIGITS = 15
# The first day of Excel's calendar, and the day before which it counts one less than there were.
FIRST_DAY, LEAP_DAY = datetime.datetime(1900, 1, 1), datetime.datetime(1900, 3, 1)
# No table that a plan can be made of has a longer row or column.
MOST_REPEATED = 20_001


class Sheet(NamedTuple):
    """The rows of a sheet by their numbers, the numbers of rows and of columns that a spreadsheet doesn't show, and
    which cells are merged."""

    rows: dict
    hidden_rows: set = frozenset()
    hidden_columns: set = frozenset()
    merged: list = []


def read_workbook(file, content, sheet):
    """The rows of a workbook's table, their numbers, where their columns stand if some are left out, and notes on what
    is hidden or merged. Where more than one sheet has cells, one has to be named."""
    read = sheets_of_ods if kind_of(file, content) == ODS_KIND else sheets_of_xlsx
    try:
        sheets = read(file, content)
    except (Fault, MemoryError):
        raise
    except Exception as error:
        # What a library makes of a spoiled file may be any of its faults.
        raise Fault(f"{file}: no workbook that can be read ({type(error).__name__}); open it in a spreadsheet and save it anew, or as CSV in UTF-8") from None
    sheets = {name: found._replace(rows=trimmed(found.rows)) for name, found in sheets.items()}
    rows, hidden_rows, hidden_columns, merged = chosen(file, sheets, sheet)
    rows, count = filled(without_seconds(rows), merged)
    notes = [*note_of_merged(file, count), *note_of_hidden(file, rows, hidden_rows, hidden_columns)]
    shown, columns = without_hidden(rows, hidden_rows, hidden_columns)
    return list(shown.values()), list(shown), columns, notes


def kind_of(file, content):
    try:
        with zipfile.ZipFile(io.BytesIO(content)) as archive:
            return archive.read("mimetype") if "mimetype" in archive.namelist() else None
    except (zipfile.BadZipFile, OSError, NotImplementedError, RuntimeError, ValueError, EOFError):
        raise Fault(f"{file}: no workbook that can be read, since it is cut or spoiled; save it anew, or as CSV in UTF-8") from None


def chosen(file, sheets, sheet):
    names = ", ".join(f"{quoted(name)}" for name in sheets)
    if sheet is not None:
        if sheet not in sheets:
            raise Fault(f"{file}: there is no sheet {quoted(sheet)}; say --sheet with one of {names}")
        return sheets[sheet]
    filled = [found for found in sheets.values() if found.rows]
    if len(filled) > 1:
        example = next(name for name, found in sheets.items() if found.rows)
        raise Fault(f"{file}: more than one sheet has cells; name one after a colon, as in {file}:{example}, or by --sheet, of {names}")
    return filled[0] if filled else Sheet({})


def trimmed(rows):
    """The rows by their numbers, without empty ones, and all as long as the longest."""
    rows = {number: cells for number, cells in rows.items() if any(cells)}
    width = max((place for cells in rows.values() for place, cell in enumerate(cells, 1) if cell), default=0)
    return {number: (cells + [""] * width)[:width] for number, cells in rows.items()}


def text_of_value(value):
    """The text of a cell's value."""
    if value is None:
        return ""
    if isinstance(value, bool):
        return str(value).upper()
    if isinstance(value, float):
        return format(Decimal(f"{value:.{DIGITS}g}"), "f")
    if isinstance(value, datetime.datetime) and value.year <= FIRST_DAY.year:
        # Excel counts durations in days too, and the library takes those of a day and more for dates of long ago.
        value -= FIRST_DAY - datetime.timedelta(days=1 if value < LEAP_DAY else 2)
    if isinstance(value, datetime.datetime) and value.time() == datetime.time():
        return value.date().isoformat()
    if isinstance(value, datetime.time):
        value = datetime.datetime.combine(FIRST_DAY, value) - FIRST_DAY
    return clock_of_seconds(value.total_seconds()) if isinstance(value, datetime.timedelta) else str(value)


def needed(file, kind, library, package):
    return Fault(f"{file}: to read {kind} Python needs {library} ({package} of Debian, `pip install {library}` elsewhere); install it, or save the table as CSV in UTF-8")


def sheets_of_xlsx(file, content):
    """Each sheet by its name."""
    try:
        import openpyxl
    except ImportError:
        raise needed(file, ".xlsx", "openpyxl", "python3-openpyxl") from None
    with warnings.catch_warnings():
        warnings.simplefilter("ignore")
        sheets, formulas = (openpyxl.load_workbook(io.BytesIO(content), read_only=True, data_only=values).worksheets for values in (True, False))
        # Without a formula each cell is read once.
        formulas = formulas if has_formulas(content) else [None] * len(sheets)
        found = {}
        for sheet, formula in zip(sheets, formulas):
            text = text_of_sheet(content, sheet)
            found[sheet.title] = Sheet(dict(rows_of_xlsx(file, sheet, formula)), *hidden_in_xlsx(text), merged_in_xlsx(text))
        return found


def text_of_sheet(content, sheet):
    """The text of a sheet, which tells what the library leaves out where it reads row by row."""
    path = getattr(sheet, "_worksheet_path", None)
    if path is None:
        return b""
    with zipfile.ZipFile(io.BytesIO(content)) as archive:
        return archive.read(path)


def has_formulas(content):
    with zipfile.ZipFile(io.BytesIO(content)) as archive:
        return any(FORMULA.search(archive.read(name)) for name in archive.namelist() if "worksheets/" in name)


def rows_of_xlsx(file, sheet, formulas):
    # Sheets tell their size, and not all of them tell the truth.
    sheet.reset_dimensions()
    if formulas:
        formulas.reset_dimensions()
    written = formulas.iter_rows(values_only=True) if formulas else ()
    for number, (values, formula) in enumerate(itertools.zip_longest(sheet.iter_rows(values_only=True), written, fillvalue=()), 1):
        for column, (value, text) in enumerate(zip(values, formula), 1):
            if value is None and isinstance(text, str) and text.startswith("="):
                raise no_value(file, number, column)
        yield number, list(map(text_of_value, values))


def no_value(file, line, column):
    return Fault(f"{file}, line {line}, column {column}: a formula whose value isn't in the file; open it in a spreadsheet and save it")


def sheets_of_ods(file, content):
    """Each sheet by its name."""
    try:
        from odf.opendocument import load
        from odf.table import Table, TableRow
    except ImportError:
        raise needed(file, ".ods", "odfpy", "python3-odf") from None
    sheets = {}
    for table in load(io.BytesIO(content)).spreadsheet.getElementsByType(Table):
        rows, number, merged = {}, 1, []
        for row in table.getElementsByType(TableRow):
            cells, repeated = list(cells_of_ods(file, row, number, merged)), repeats(row, "numberrowsrepeated")
            if any(cells):
                rows |= {place: list(cells) for place in range(number, number + min(repeated, MOST_REPEATED))}
            number += repeated
        sheets[table.getAttribute("name")] = Sheet(rows, *hidden_in_ods(table, repeats), merged)
    return sheets


def repeats(element, attribute):
    return int(element.getAttribute(attribute) or 1)


def cells_of_ods(file, row, number, merged):
    """The texts of a row's cells. Those that are merged from one of them on are added to the list."""
    column = 1
    for cell in row.childNodes:
        if cell.qname[1] in ("table-cell", "covered-table-cell"):
            text, repeated = text_of_ods(cell), repeats(cell, "numbercolumnsrepeated")
            if cell.qname[1] == "table-cell" and text:
                down, across = (min(repeats(cell, f"number{word}spanned"), MOST_REPEATED) for word in ("rows", "columns"))
                merged += [Merged(number, number + down - 1, column, column + across - 1)] * (down * across > 1)
            if not text and cell.getAttribute("formula") and not cell.getAttribute("valuetype"):
                raise no_value(file, number, column)
            yield from [text] * min(repeated, MOST_REPEATED)
            column += repeated


def day_of(text):
    """The date that a text has, or None."""
    try:
        return datetime.datetime.fromisoformat(text or "")
    except ValueError:
        return None


def text_of_ods(cell):
    """The text of a cell: of a number, a date or a time its value, and otherwise its paragraphs."""
    from odf import teletype
    kind = cell.getAttribute("valuetype")
    if kind in ("float", "currency", "percentage"):
        return text_of_value(float(cell.getAttribute("value")))
    if kind == "date" and (day := day_of(cell.getAttribute("datevalue"))):
        return text_of_value(day)
    if kind == "time" and cell.getAttribute("timevalue"):
        return clock_of_duration(cell.getAttribute("timevalue"))
    paragraphs = [child for child in cell.childNodes if child.qname[1] == "p"]
    return " ".join(map(teletype.extractText, paragraphs)) or cell.getAttribute("stringvalue") or ""
