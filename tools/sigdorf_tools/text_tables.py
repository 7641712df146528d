"""Tables as text, as spreadsheets write them for others: CSV with commas, semicolons or tabs.

Rows come as fast as the library parts them: what is rare, as a quote or white space around a cell, is looked for once in the whole text, and not in each cell.
"""
import collections
import csv
import io
import itertools
import re
from typing import NamedTuple

from .areas import Area
from .faults import Fault
from .text_encodings import decoded

# In the order in which they are preferred where more than one parts the table evenly.
SEPARATORS = {"tab": "\t", "semicolon": ";", "comma": ","}
# By how many rows, and by how many characters, the separator is found.
SAMPLE, SAMPLE_CHARACTERS = 1_000, 400_000
# What Excel reads above a table: the separator, in a line of its own.
SEPARATOR_LINE = re.compile(r"sep=([^\r\n]?)(?:\r\n|\r|\n|\Z)", re.IGNORECASE)
# How long a cell may be.
MOST_CHARACTERS = csv.field_size_limit()
# The bytes of a plain text in ASCII.
PLAIN_BYTES = bytes(range(32, 127)) + b"\t\r\n"


class Text(NamedTuple):
    """A table whose cells aren't parted yet: its file, what parts them, the text, and how many lines are left out above it; notes on how it was read; the range of cells that is meant, or None for
    all; and what stands for a pair that isn't allowed."""

    file: str
    separator: str
    text: str
    skipped: int
    notes: list = []
    area: Area | None = None
    not_possible: frozenset = frozenset()


def read_text(file, content, reading):
    """The text of a file's content. A separator that isn't given is found."""
    text, notes = decoded(file, content, reading.encoding)
    told, text, skipped = separator_line_of(file, text)
    return Text(file, reading.separator or told or separator_of(text), text, skipped, notes, reading.area, reading.gaps)


def parted(table):
    """The rows of cells, the lines where they begin, and whether all cells are plain."""
    rows, lines = rows_of(*table[:4])
    # A cell with a line end in it makes the lines no range.
    return rows, lines, isinstance(lines, range) and is_plain(table.text, table.separator)


def separator_line_of(file, text):
    """The separator that a first line `sep=;` tells, the text below it, and how many lines are left out so."""
    found = SEPARATOR_LINE.match(text)
    if not found:
        return None, text, 0
    if found[1] not in SEPARATORS.values():
        raise Fault(f"{file}, line 1, column 1: `{found[0].strip()}` names no tab, semicolon or comma; part the columns by one of these")
    return found[1], text[found.end() :], 1


def separator_of(text):
    """The separator that parts the rows evenly, or else the one that parts most rows alike; of several the one that parts the first row most which any does. (`csv.Sniffer` takes `a;x;1,5` to be parted by
    commas.)"""
    sample = text[:SAMPLE_CHARACTERS]
    if len(sample) < len(text):
        # A row that is cut says nothing.
        sample = sample[: max(sample.rfind("\n"), sample.rfind("\r")) + 1]
    alike = dict.fromkeys(SEPARATORS.values(), 0)
    for separator in SEPARATORS.values():
        try:
            lengths = collections.Counter(len(cells) for cells in itertools.islice(reader_of(sample, separator), SAMPLE) if "".join(cells).strip())
        except csv.Error:
            continue
        if len(lengths) == 1 and max(lengths) > 1:
            return separator
        alike[separator] = max((count for length, count in lengths.items() if length > 1), default=0)
    first = next((line for line in lines_of(sample) if any(separator in line for separator in SEPARATORS.values())), "")
    return max(SEPARATORS.values(), key=lambda separator: (alike[separator], first.count(separator)))


def reader_of(text, separator):
    return csv.reader(io.StringIO(text, newline=""), delimiter=separator, strict=True)


def lines_of(text):
    """The lines of a text without quotes."""
    lines = text.replace("\r\n", "\n").replace("\r", "\n").split("\n")
    if len(lines) > 1 and not lines[-1]:
        lines.pop()
    return lines


def rows_of(file, separator, text, skipped):
    """The rows of a text, and the line of each."""
    if '"' not in text:
        lines = lines_of(text)
        if max(map(len, lines)) <= MOST_CHARACTERS:
            return [line.split(separator) for line in lines], range(1 + skipped, len(lines) + 1 + skipped)
    rows, lines, line = [], [], 1 + skipped
    reader = reader_of(text, separator)
    try:
        for cells in reader:
            rows.append(cells)
            lines.append(line)
            line = reader.line_num + 1 + skipped
    except csv.Error as error:
        long = "field larger" in str(error)
        what = f"a cell is longer than {MOST_CHARACTERS:,} characters; shorten it" if long else "a quote doesn't end where its cell ends; write a quote inside a cell twice"
        raise Fault(f"{file}, line {line}, column {column_of_fault(text, separator, line - skipped)}: {what}") from None
    return rows, range(1 + skipped, line) if reader.line_num == len(rows) else lines


def column_of_fault(text, separator, line):
    """The column of the first cell of a row that the reader can't take; the row begins at a line."""
    place = next(itertools.islice(re.finditer(r"^|(?<=\r)(?!\n)|(?<=\n)", text), line - 1, None)).end()
    cell, column = re.compile(rf'(?:"(?:[^"]|"")*+"|[^"\r\n{separator}][^\r\n{separator}]*+|)(?={separator})'), 1
    while (found := cell.match(text, place)) and len(found[0]) <= MOST_CHARACTERS:
        place, column = found.end() + 1, column + 1
    return column


def are_short(*columns):
    """Whether no cell is longer than the reader of CSV takes it."""
    return all(len(cell) <= MOST_CHARACTERS for cells in columns for cell in cells)


def is_plain_name(name):
    """Whether something is in a name, and all white space in it is single blanks between other characters. (What is at fault in a cost is seen when it is read.)"""
    return name.isprintable() and " ".join(name.split()) == name != ""


def is_plain(text, separator):
    """Whether all white space in cells is single blanks between other characters, and no control character is there. Each is looked for by a search for a string."""
    around = (separator, "\n", "\r", '"', " ")
    if any(f" {end}" in text or f"{end} " in text for end in around) or text[:1] == " " or text[-1:] == " ":
        return False
    foreign = text.encode().translate(None, PLAIN_BYTES).decode()
    return foreign.isprintable() and (separator == "\t" or "\t" not in text)
