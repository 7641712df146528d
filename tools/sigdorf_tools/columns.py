"""Columns by their titles: which ones are person, object and cost, and what others say of persons."""
import csv

from .faults import Fault, quoted
from .tables import below_header, look_at_lengths


def titles_said(words):
    """The titles in a word of the command, which commas part; one with a comma in it stands in double quotes."""
    return [" ".join(title.split()) for title in next(csv.reader([words]), [])]


def picked(table, titles, extras, has_header):
    """The table with the columns of these titles, or where there are none with all but the extra ones; and the extra ones, each as a list of cells. Without a header titles are numbers, from 1 on."""
    table = below_header(table) if has_header else table
    look_at_lengths(table, len(table.rows[0]))
    beside = [place_of(table, title, has_header) for title in extras]
    kept = [place_of(table, title, has_header) for title in titles] if titles else [place for place in range(len(table.rows[0])) if place not in beside]
    if titles and len(titles) != 3:
        raise Fault(f"{table.file}: --columns: three titles are wanted, of the columns of person, object and cost, and there are {len(titles)}")
    rows = [[cells[place] for place in kept] for cells in table.rows]
    columns = [[cells[place] for cells in table.rows] for place in beside]
    # Columns that were named by their titles are below these.
    form = "pairs" if titles and has_header else table.form
    placed = [table.column(place) for place in kept]
    return table._replace(rows=rows, columns=placed, gaps=[], form=form), columns, [table.column(place) for place in beside]


def place_of(table, title, has_header):
    """The place of the column with a title."""
    first = table.rows[0]
    titles = first if has_header else [str(number) for number in range(1, len(first) + 1)]
    places = [place for place, name in enumerate(titles) if name == title]
    if len(places) != 1:
        found = "there is no column" if not places else f"there are {len(places)} columns"
        listed = ", ".join(f"{quoted(name)}" for name in titles[:20])
        raise table.fault_of_row(0, f"{found} {quoted(title)}; say one of {listed}{', ..' if len(titles) > 20 else ''}")
    return places[0]
