"""The form of a table: whether it lists pairs, or has a row for each person and a column for each object. What may be either is a fault."""
import re

from .faults import quoted
from .gap_words import gap_said, is_word

# What no name is: a number in whatever notation, with a unit or without letters, and what stands for one that isn't there.
EXPONENT = re.compile(r"(?<=[0-9.,])[eE](?=[+\-\u2212]?[0-9])")
NO_NUMBERS = re.compile(r"[+\-\u2212]?(inf|infinity|nan)|[\-\u2010-\u2015\u2212]+", re.IGNORECASE)
# What a table may be that has three columns.
EITHER = "the table has three columns: it may be a list of person, object and cost"
# Words that planners write where there is no cost.
NO_COSTS = {"n/a", "na", "n.a.", "none", "null", "nil", "no", "nein", "never", "?"}


def form_of(table, has_header):
    """Whether a table lists pairs or is a matrix, where no word says it."""
    if not has_header:
        return form_without_header(table)
    look_for_header(table)
    first, rest = table.rows[0], table.rows[1:]
    if len(first) != 3 or not first[0]:
        look_for_more_columns(table)
        return "matrix"
    second = [cells[1] for cells in rest if len(cells) > 1]
    if are_names_of_objects(second):
        return "pairs"
    # A pair has an object, so that a gap is a pair that isn't allowed. Below a row that may itself be a pair it may be
    # a name that was forgotten.
    if "" in second and not any(map(is_name, second)) and not may_be_cost(first[2]):
        return "matrix"
    raise table.fault_of_row(0, unclear(first))


def are_names_of_objects(cells):
    """Whether the second column of a table lists objects, since none of its cells may stand in a column of costs. That
    a person is there twice proves nothing: in a matrix it may be a slip."""
    return all(map(is_name, cells))


def is_name(cell):
    return cell != "" and not may_be_cost(cell)


def may_be_cost(cell):
    """Whether a cell may stand for a cost: a number, one with a unit, or what is written in place of one that isn't
    there."""
    return looks_like_number(cell) or is_number(cell) or cell.startswith("#") or cell.casefold() in NO_COSTS


def unclear(first):
    """What can't be told of a table of three columns, in its own words: the end of a sentence."""
    matrix = f"a table with two objects, {quoted(first[1])} and {quoted(first[2])}"
    return f"{EITHER}, or {matrix}; say --pairs or --matrix"


def look_for_more_columns(table):
    """A column without a number, after the first one, is none of costs: so the table has more columns than a matrix,
    and which ones are to be taken has to be said."""
    rest = table.rows[1:]
    for column, cell in enumerate(rest[0] if len(rest) > 1 else [], 0):
        if not column or not cell or cell in table.not_possible or is_number(cell) or looks_like_number(cell):
            continue
        cells = [cells[column] for cells in rest if column < len(cells)]
        if not any(map(is_number, cells)):
            gap = f", or {gap_said(cell)} if it stands for a pair that isn't allowed" if set(cells) == {cell} and is_word(cell) else ""
            told = f"{quoted(cell)} is no cost, nor is another cell of this column"
            raise table.fault(1, column, f"{told}; say --columns with the titles of person, object and cost, or --ignore-column with the title of this one{gap}")


def look_for_header(table):
    """A first row of numbers alone may be names or costs, and nothing in the table tells which. Where its first cell is empty, it is over a column of names."""
    first = table.rows[0]
    if not first[0] or not all(is_number(cell) for cell in first if cell):
        return
    pairs = ", or --pairs where each row is a person, an object and a cost" if len(first) == 3 else ""
    words = "say --matrix where it names the objects, --matrix --no-header where the table is costs alone"
    raise table.fault_of_row(0, f"the first row is all numbers, which may be names or costs: put a header on top, or {words}{pairs}")


def form_without_header(table):
    """The form of a table whose first row is like all others: a matrix is costs alone then, so names are those of pairs."""
    if len(table.rows[0]) != 3:
        return "matrix"
    if any(are_names_of_objects([cells[column] for cells in table.rows if len(cells) > column]) for column in (0, 1)):
        return "pairs"
    raise table.fault_of_row(0, f"{EITHER}, or costs alone with three objects; say --pairs or --matrix")


def is_title(cell):
    """Whether a cell may stand over a column of costs: it is none of them, nor what is written in place of one."""
    return is_name(cell)


def looks_like_number(cell):
    return cell[:1].isdigit() or cell[:1] in tuple("+-.,\u2212")


def is_number(cell):
    """Whether a cell is a number for a reader, though it may be none that is taken as a cost: digits and signs without a letter."""
    if NO_NUMBERS.fullmatch(cell):
        return True
    return any(map(str.isdigit, cell)) and not any(map(str.isalpha, EXPONENT.sub("", cell)))
