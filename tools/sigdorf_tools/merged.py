"""Merged cells of a workbook. Only the first one of them has a value, which is meant for all."""
import re
from typing import NamedTuple

from .areas import CELL, place_of

MERGED = re.compile(rb"<(?:[A-Za-z0-9_]+:)?mergeCell\b[^>]*\bref=[\"']([^\"']*)[\"']")
RANGE = re.compile(f"{CELL}:{CELL}")


class Merged(NamedTuple):
    """Numbers of the first and the last row, and of the first and the last column."""

    first_row: int
    last_row: int
    first_column: int
    last_column: int


def merged_in_xlsx(text):
    """The merged cells of a sheet, from its text."""
    found = (RANGE.fullmatch(reference.decode("ascii", "replace")) for reference in MERGED.findall(text))
    return [Merged(int(each[2]), int(each[4]), place_of(each[1]) + 1, place_of(each[3]) + 1) for each in found if each]


def filled(rows, merged):
    """The rows with the value of merged cells in all of them, and how many of these are filled. One whose row has
    nothing else is a title, which is left as it is."""
    count = 0
    for each in merged:
        value = cell_of(rows, each.first_row, each.first_column)
        if not value or is_title(rows, each):
            continue
        count += 1
        for number in range(each.first_row, each.last_row + 1):
            cells = rows.get(number)
            # A row or a column without any cell of its own is none of the table's.
            if cells is not None:
                end = min(each.last_column, len(cells))
                cells[each.first_column - 1 : end] = [value] * (end - each.first_column + 1)
    return rows, count


def is_title(rows, each):
    numbers = range(each.first_row, each.last_row + 1)
    return all(sum(map(bool, rows.get(number, ()))) <= 1 for number in numbers) and each.last_column > each.first_column


def cell_of(rows, row, column):
    cells = rows.get(row, ())
    return cells[column - 1] if column <= len(cells) else ""


def note_of_merged(file, count):
    """A note on merged cells that were filled, if there are any."""
    if not count:
        return []
    told = "1 merged cell counts in all cells that it spans"
    return [f"{file}: {told if count == 1 else f'{count} merged cells count in all cells that they span'}"]
