"""Problems of matrices by numpy: the road for millions of cells that are plain numbers. Whatever else a table has in it, it is read on the road for all tables, which gives the same problem."""
import re

from . import arrays
from .faults import Fault
from .forms import form_of
from .problems import MOST_OBJECTS, MOST_PERSONS, TITLES, Problem
from .tables import Table
from .text_tables import Text, are_short, is_plain_name, lines_of

USUAL_MARK = {";": ","}


def problem_by_arrays(source, form, has_header, decimals, maximise, mark):
    """The problem of a matrix as a text; None where it isn't sure that there is one, which the road for all tables has to tell."""
    numpy = arrays.numpy_for(len(source.text)) if isinstance(source, Text) else None
    if numpy is None or '"' in source.text:
        return None
    # Whether the rest is plain is seen when it is read.
    first = re.match("[^\r\n]*", source.text)[0].split(source.separator)
    if not is_matrix(source, first, form, has_header):
        return None
    lines = lines_of(source.text)
    if not all(source.separator in line for line in lines):
        return None
    titles, persons, objects, rows = named(source.separator, lines) if has_header else numbered(source.separator, lines)
    if not (are_names(persons, MOST_PERSONS) and are_names(objects, MOST_OBJECTS) and are_short(persons, objects) and all(map(is_plain_name, [*titles, *persons, *objects]))):
        return None
    found = mark_in(source.separator, rows)
    cells = found and arrays.cells_of(numpy, rows, len(objects), source.separator, found)
    if not cells or cells.has_mark.any() and not is_mark_sure(numpy, source.separator, cells, found, mark) or not has_header and not cells.is_filled.any(axis=1).all():
        return None
    told = arrays.told_units(numpy, cells, decimals)
    if told is None:
        return None
    decimals, units = told
    return Problem(titles, mark or found, decimals, persons, objects, arrays.arcs_of(numpy, -units if maximise else units, cells.is_filled))


def is_matrix(source, first, form, has_header):
    """Whether the first row alone, or what was said of the form, tells that there is a matrix."""
    if len(first) < 2:
        return False
    try:
        return (form or form_of(Table(source.file, source.separator, [first], [1], []), has_header)) == "matrix"
    except Fault:
        return False


def named(separator, lines):
    """The titles, the names of persons and objects, and the rows without names."""
    first, *objects = lines[0].split(separator)
    parts = [line.partition(separator) for line in lines[1:]]
    return [first or TITLES[0], *TITLES[1:]], [name for name, _, _ in parts], objects, [row for _, _, row in parts]


def numbered(separator, lines):
    """The same of costs alone, whose rows and columns have numbers for names."""
    columns = lines[0].count(separator) + 1
    numbers = [str(number) for number in range(1, max(len(lines), columns) + 1)]
    return TITLES, numbers[: len(lines)], numbers[:columns], lines


def are_names(names, most):
    return 0 < len(names) <= most and "" not in names and len(set(names)) == len(names)


def mark_in(separator, rows):
    """The mark that the rows have before decimals, or the usual one; None where both are there."""
    has_points, has_commas = (separator != mark and any(mark in row for row in rows) for mark in ".,")
    if has_points and has_commas:
        return None
    return "." if has_points else "," if has_commas else USUAL_MARK.get(separator, ".")


def is_mark_sure(numpy, separator, cells, found, said):
    """Whether decimals stand behind the mark that was found."""
    if said:
        return said == found
    return arrays.tells_mark(numpy, cells) if separator == ";" else found == "."
