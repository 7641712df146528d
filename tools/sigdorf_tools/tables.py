"""Tables: rows of cells, each row with the line where it begins, whatever file they come from."""
import sys
import unicodedata
from typing import NamedTuple

from .areas import cut
from .faults import Fault, quoted, read_bytes
from .json_tables import LINES, is_json, read_json
from .reading import Reading, parted_from_sheet, sheet_said
from .sheets import WORKBOOK, read_workbook
from .surroundings import is_at_desk
from .text_tables import Text, parted, read_text

# What an old workbook of Excel begins with.
OLD_WORKBOOK = b"\xd0\xcf\x11\xe0\xa1\xb1\x1a\xe1"


class Table(NamedTuple):
    """The cells of each row that isn't empty, the lines where these rows begin, and the lines of empty rows that have
    cells. Rows and columns are named by places, from 0 on. Of a table that hasn't all columns of its file the columns
    say where these stand there. Where the form is known, it is said: what is `pairs` then has their titles on top.
    Cells with other blanks in them than single ones are kept as they were written, by their places in the file; there
    are notes on what may not be meant; and what stands for a pair that isn't allowed, apart from an empty cell."""

    file: str
    separator: str
    rows: list
    lines: list
    gaps: list
    line_word: str = "line"
    columns: list | None = None
    form: str | None = None
    blanks: dict = {}
    notes: list = []
    not_possible: frozenset = frozenset()

    def column(self, column):
        """Where a column stands in the file. Of a cell that isn't there the place is after the last one."""
        if not self.columns:
            return column
        return self.columns[column] if column < len(self.columns) else self.columns[-1] + 1

    def fault(self, row, column, sentence):
        return Fault(f"{self.file}, {self.line_word} {self.lines[row]}, column {self.column(column) + 1}: {sentence}")

    def fault_of_row(self, row, sentence):
        return Fault(f"{self.file}, {self.line_word} {self.lines[row]}: {sentence}")

    def place(self, row, column):
        """The place of a cell in a sentence."""
        return f"{self.file}, {self.line_word} {self.lines[row]}, column {self.column(column) + 1}"

    def without_rows(self, count):
        """The table without its first rows."""
        blanks = {(row - count, column): cell for (row, column), cell in self.blanks.items() if row >= count}
        return self._replace(rows=self.rows[count:], lines=self.lines[count:], blanks=blanks)

    def without_row(self, taken):
        """The table without one row."""
        blanks = {(row - (row > taken), column): cell for (row, column), cell in self.blanks.items() if row != taken}
        rows, lines = ([each for row, each in enumerate(column) if row != taken] for column in (self.rows, self.lines))
        return self._replace(rows=rows, lines=lines, blanks=blanks)

    def without_columns(self, count):
        """The table without its first columns."""
        width = max(map(len, self.rows))
        columns = [self.column(column) for column in range(count, width)]
        return self._replace(rows=[cells[count:] for cells in self.rows], columns=columns)


def read_table(file, reading=Reading()):
    """The table of a file, without its empty rows. A separator that isn't given is found, and the only sheet of a workbook is taken."""
    return table_of_source(read_source(file, reading))


def read_source(file, reading=Reading()):
    """What a file holds: of a text its `Text`, whose cells aren't parted yet, and of others the table. Its name may end in that of a sheet."""
    path, sheet = parted_from_sheet(file)
    reading = reading._replace(sheet=sheet_said(file, sheet, reading.sheet))
    content, file = sys.stdin.buffer.read() if path == "-" and not is_at_desk() else read_bytes(path), name_of(file)
    if content.startswith(OLD_WORKBOOK):
        raise Fault(f"{file}: it is a workbook of an old Excel (.xls); save it as .xlsx, or as CSV in UTF-8")
    if content.startswith(WORKBOOK):
        if reading.encoding is not None:
            raise Fault(f"{file}: --encoding is said, and a workbook has its own; leave it out")
        rows, lines, columns, notes = read_workbook(file, content, reading.sheet)
        rows, lines, columns = cut(reading.area, rows, lines, columns)
        return table_of(file, ",", rows, lines, False, columns=columns)._replace(notes=notes, not_possible=reading.gaps)
    if reading.sheet is not None:
        raise Fault(f"{file}: {'--sheet is said' if sheet is None else f'the sheet {quoted(sheet)} is named'}, and this is no workbook; leave it out")
    if is_json(path, content):
        return read_json_table(file, path, content, reading)
    return read_text(file, content, reading)


def read_json_table(file, path, content, reading):
    """The table of JSON, which has no cells that a range could name."""
    if reading.area is not None:
        raise Fault(f"{file}: --range is said, and JSON has no cells; leave it out")
    (rows, lines, word), form, notes = read_json(file, content, reading.encoding, path.lower().endswith(LINES))
    return table_of(file, ",", rows, lines, False, word)._replace(form=form, notes=notes, not_possible=reading.gaps)


def table_of_source(source):
    """The table of what a file holds."""
    if not isinstance(source, Text):
        return source
    rows, lines, is_plain = parted(source)
    rows, lines, columns = cut(source.area, rows, lines, None)
    table = table_of(source.file, source.separator, rows, lines, is_plain, columns=columns)
    return table._replace(notes=source.notes, not_possible=source.not_possible)


def name_of(file):
    """What a file is called in sentences: `-` is standard input."""
    return "standard input" if file == "-" else file


def table_of(file, separator, rows, lines, is_plain, line_word="line", columns=None):
    """The table of rows, empty ones among them. Where they aren't plain, white space around a cell is left out, and inside it is one space."""
    written = rows
    if not is_plain:
        rows = [[" ".join(cell.split()) for cell in cells] for cells in rows]
    gaps = [line for line, cells in zip(lines, rows) if len(cells) > 1 and not any(cells)]
    if not all(map(any, rows)):
        kept = [place for place, cells in enumerate(rows) if any(cells)]
        lines, rows, written = ([column[place] for place in kept] for column in (lines, rows, written))
    if not rows:
        raise Fault(f"{file}: the table is empty; put person, object and cost into three columns, or a row for each person")
    table = Table(file, separator, rows, lines, gaps, line_word, columns)
    if max(map(len, rows)) == 1:
        raise table.fault_of_row(0, "no table, since no comma, semicolon or tab parts its columns; save the table as .xlsx, .ods or CSV in UTF-8")
    if is_plain:
        return table
    look_for_control_characters(table)
    return table._replace(blanks=with_odd_blanks(table, written))


def with_odd_blanks(table, written):
    """The cells that have other white space in them than single blanks, as they were written, by their places."""
    changed = (row for row, (before, after) in enumerate(zip(written, table.rows)) if before != after)
    cells = ((row, column, cell.strip()) for row in changed for column, cell in enumerate(written[row]))
    return {(row, table.column(column)): cell for row, column, cell in cells if cell != table.rows[row][column]}


def look_at_blanks(table, names, place_of):
    """Names that differ by blanks alone would be one here, and nobody but the planner knows whether they are; each has
    its place, a row and a column."""
    seen = {}
    for place, name in enumerate(names if table.blanks else ()):
        row, column = place_of(place)
        written = table.blanks.get((row, table.column(column)), name)
        before, *there = seen.setdefault(name, (written, row, column))
        if written != before:
            is_row, line = there[0] != row, f"{table.line_word} {table.lines[there[0]]}"
            told = f"{quoted(before)} in {line if is_row else f'column {table.column(there[1]) + 1}'}"
            way_out = "write both alike, or give each a name of its own"
            raise table.fault(row, column, f"{quoted(written)} and {told} differ by blanks alone; {way_out}")


def look_for_control_characters(table):
    for row, cells in enumerate(table.rows):
        for column, cell in enumerate(cells):
            if not cell.isprintable() and any(unicodedata.category(character) == "Cc" for character in cell):
                raise table.fault(row, column, "a control character; take it out, since a name or a number is wanted")


def below_header(table):
    """A table whose first row is a header, without the columns at its end that have nothing in them, which some
    programs write after the last one. The header has to be as long as the rows below it, where these are all of the
    same length."""
    lengths = {len(cells) for cells in table.rows}
    if table.rows[0][-1] and len(lengths) == 1:
        return table
    width = max((place for cells in table.rows for place, cell in enumerate(cells, 1) if cell), default=1)
    rows = [cells[:width] for cells in table.rows]
    first, *others = map(len, rows)
    if len(others) > 1 and len(set(others)) == 1 and first < others[0]:
        raise table.fault(0, first, f"the row has {columns(first)}, and all others have {others[0]}; fill it up, or leave out what is no part of the table")
    return table._replace(rows=rows)


def look_at_lengths(table, length):
    """Each row has to have so many cells."""
    for row, count in enumerate(map(len, table.rows)):
        if count != length:
            raise table.fault(row, min(count, length), f"the row has {columns(count)}, and {length} are wanted; fill it up, or put a name with a separator in it into double quotes")


def columns(count):
    return f"{count} column{'s' * (count != 1)}"
