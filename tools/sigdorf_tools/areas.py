"""A range of cells, as spreadsheets name it."""
import re
from typing import NamedTuple

from .faults import Fault

CELL = r"\$?([A-Z]{1,3})\$?([1-9][0-9]{0,6})"
RANGE = re.compile(f"{CELL}:{CELL}", re.IGNORECASE)


class Area(NamedTuple):
    """The first and the last row, by their numbers, and the first and the last column, by places from 0 on."""

    first_row: int
    last_row: int
    first_column: int
    last_column: int


def area_said(word):
    """The area that a word of the command names."""
    found = RANGE.fullmatch(word.strip())
    if not found:
        raise Fault(f"--range {word}: the first and the last cell are wanted, as in B4:E7")
    first, last = ((int(found[row]), place_of(found[column])) for column, row in ((1, 2), (3, 4)))
    if first[0] > last[0] or first[1] > last[1]:
        raise Fault(f"--range {word}: the last cell is above the first one, or left of it; name them the other way round")
    return Area(first[0], last[0], first[1], last[1])


def place_of(letters):
    """The place of a column, from 0 on, by its letters."""
    place = 0
    for letter in letters.upper():
        place = 26 * place + ord(letter) - ord("A") + 1
    return place - 1


def cut(area, rows, lines, columns):
    """The rows in an area, their lines, and where their columns stand in the file. Nothing is cut where there is no
    area; where no columns are told, they are those of the file."""
    if area is None:
        return rows, lines, columns
    if columns is None:
        columns = range(max(map(len, rows), default=0))
    kept = [place for place, column in enumerate(columns) if area.first_column <= column <= area.last_column]
    inside = [place for place, line in enumerate(lines) if area.first_row <= line <= area.last_row]
    first, end = (kept[0], kept[-1] + 1) if kept else (0, 0)
    return [rows[place][first:end] for place in inside], [lines[place] for place in inside], list(columns[first:end])
