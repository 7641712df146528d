"""Where a table begins: titles above its header, an empty column in front of it, and a header of two levels. What is left out
or put together is noted; where it isn't sure, the table stays as it is, and whoever reads it tells what is wrong."""
import re

from .faults import quoted
from .forms import is_name

# So many rows are looked at for the header.
MOST_ABOVE = 30
DATE = re.compile(r"[0-9]{4}-[0-9]{1,2}-[0-9]{1,2}|[0-9]{1,2}[./][0-9]{1,2}[./]?(?:[0-9]{4}|[0-9]{2})?|[0-9]{1,2}:[0-5][0-9]")


def from_header(table):
    """The table from its header on, which is one row."""
    front = empty_columns(table.rows)
    table = table.without_columns(front) if front else table
    rows = [trimmed(cells) for cells in table.rows[: MOST_ABOVE + 1]]
    place = next((row for row in range(len(rows)) if is_header(table, rows, row)), None)
    if place is None:
        return table
    upper, lower = levels_of(table, rows, place)
    above = lower if upper is None else upper
    if lower + 1 >= len(table.rows) or not are_titles(rows[:above], len(rows[lower])):
        return table
    if upper is not None and not repeats(rows[lower][1:]):
        # The lower level alone tells the columns apart, and so the upper one is a title.
        upper, above = None, lower
    notes = [*table.notes, *note_of_titles(table, above)]
    if upper is None:
        return table.without_rows(above)._replace(notes=notes) if above else table
    header = joined(rows[upper], rows[lower])
    levels = f"{table.line_word}s {table.lines[upper]} and {table.lines[lower]}"
    notes.append(f"{table.file}: {levels} are read as a header of two levels, with names such as {quoted(header[1])}")
    table = table.without_rows(lower)
    return table._replace(rows=[header, *table.rows[1:]], notes=notes)


def levels_of(table, rows, place):
    """The places of the rows that a header has: of its upper level, or None, and of the lower one."""
    if is_upper_level(table, rows, place):
        return place, place + 1
    return (place - 1 if is_lower_level(rows, place) else None), place


def are_titles(rows, width):
    """Whether rows above a header of so many columns have few cells with something in them."""
    return all(2 * sum(map(bool, cells)) <= max(width, 2) for cells in rows)


def empty_columns(rows):
    """How many columns in front have nothing in them, and stand before a column of names. Before costs names may have
    been forgotten."""
    if any(cells[0] for cells in rows):
        return 0
    count = min(next(place for place, cell in enumerate(cells) if cell) for cells in rows)
    has_names = len(rows) > 1 and all(is_name(cells[count]) for cells in rows[1:] if len(cells) > count and cells[count])
    return count if has_names and any(cells[count : count + 1] != [""] for cells in rows[1:]) else 0


def trimmed(cells):
    """A row without the empty cells at its end."""
    end = len(cells)
    while end and not cells[end - 1]:
        end -= 1
    return cells[:end]


def is_header(table, rows, place):
    """Whether a row may be the header: names stand in all its columns, but in the first one perhaps, and no row below it
    is longer."""
    header = rows[place]
    if len(header) < 2 or not all(map(may_head, header[1:])):
        return False
    return all(len(cells) <= len(header) or not any(cells[len(header) :]) for cells in table.rows[place + 1 :])


def may_head(cell):
    """Whether a cell may stand above a column of costs: a name, or a date or a time."""
    return is_name(cell) or DATE.fullmatch(cell) is not None


def repeats(names):
    return len(set(names)) < len(names)


def is_upper_level(table, rows, place):
    """Whether a row whose names repeat stands above another one that may be a header."""
    return repeats(rows[place][1:]) and place + 1 < len(rows) and len(rows[place + 1]) == len(rows[place]) and is_header(table, rows, place + 1)


def is_lower_level(rows, place):
    """Whether a row whose names repeat stands below one that has a name above the first of its columns, and for some of
    the others."""
    if not place or not repeats(rows[place][1:]) or len(rows[place - 1]) > len(rows[place]):
        return False
    upper = rows[place - 1]
    return len(upper) > 2 and bool(upper[1]) and sum(map(bool, upper[1:])) > 1 and all(may_head(cell) for cell in upper[1:] if cell)


def joined(upper, lower):
    """The names of two levels as one: an empty cell of the upper one goes on with the cell before it."""
    names, group = [lower[0] or upper[0] if lower else ""], ""
    for place in range(1, len(lower)):
        group = upper[place] if place < len(upper) and upper[place] else group
        names.append(f"{group} {lower[place]}".strip())
    return names


def note_of_titles(table, count):
    """A note on the rows above the header, if there are any."""
    if not count:
        return []
    first, last = table.lines[0], table.lines[count - 1]
    told = f"{table.line_word} {first} is" if count == 1 else f"{count} {table.line_word}s down to {last} are"
    return [f"{table.file}: {told} above the header, and {'is' if count == 1 else 'are'} left out"]
