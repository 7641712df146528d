"""A plan as a workbook, by openpyxl: the plan, the same by persons and by objects, a calendar where objects are dates, what was
asked, and why everybody has what he has."""
import datetime
import io
import re
from decimal import Decimal
from typing import NamedTuple

from .clocks import MARK, units_of_clock
from .models import Model
from .plans import by_objects, rows_of_hall_set, rows_of_pairs, rows_of_plan, sentence_of
from .reasons import rows_of_reasons

# A date at the beginning of an object's name, and what follows it.
DATE = re.compile(r"([0-9]{4}-[0-9]{2}-[0-9]{2}|[0-9]{1,2}\.[0-9]{1,2}\.(?:[0-9]{4}|[0-9]{2})?)(?: (.*))?")
AMOUNT = re.compile(r"-?[0-9]+(?:\.[0-9]+)?")
# Reasons of everybody are told where so many pairs are looked at for them at most.
MOST_REASONS = 1_000_000
WIDEST = 60


class Sheet(NamedTuple):
    """A sheet: its rows, of which the first one has titles where there are columns of amounts, by their numbers."""

    title: str
    rows: list
    amounts: set = frozenset()


def workbook_of(names, problem, model, claim, free, asked, summary, time):
    """The bytes of the workbook; the time is that of the plan, as a text."""
    names = names.for_programs()
    told = [["table", names.table], ["planned", time], ["answer", sentence_of(names, claim, asked)], ["", summary], *(["wish", wish] for wish in asked.wishes)]
    if claim.kind == "infeasible":
        return bytes_of(names, [Sheet("No plan", rows_of_hall_set(names, claim, asked)), Sheet("Asked", told)])
    rows = rows_of_plan(names, claim, free, asked)
    sheets = [Sheet("Plan", rows, {3}), Sheet("By person", rows_by_persons(names, claim), {2, 3}), Sheet("By job", by_objects(names, rows), {3})]
    calendar = rows_of_calendar(names, claim)
    sheets += [Sheet("Calendar", calendar, set(range(2, len(calendar[0]) + 1)))] if calendar else []
    sheets += [Sheet("Asked", told)]
    if has_reasons(problem, model, claim, asked):
        sheets += [Sheet("Why", rows_of_all_reasons(names, problem, model, claim), {3, 4, 5, 6})]
    return bytes_of(names, sheets)


def has_reasons(problem, model, claim, asked):
    """Whether the prices are those of a best plan, so that they tell why everybody has what he has, and that takes no long time."""
    looks = len(problem.persons) * sum(arcs.count() for arcs in problem.arcs)
    return isinstance(model, Model) and not asked.changes and (asked.kind, claim.kind) == ("best", "optimal") and looks <= MOST_REASONS


def rows_by_persons(names, claim):
    """A row for each person: how many objects he has, what they cost together, and which ones they are."""
    pairs, units = {name: [] for name in names.persons}, dict.fromkeys(names.persons, 0)
    for person, thing, _ in rows_of_pairs(names, claim):
        pairs[person].append(thing)
    for person, (thing, cost) in zip(names.persons, claim.picks):
        units[person] += cost if thing <= len(names.objects) else 0
    return [[names.titles[0], "number", names.titles[2], names.titles[1]], *([person, str(len(things)), names.amount(units[person]), ", ".join(things)] for person, things in pairs.items())]


def rows_of_calendar(names, claim):
    """A row for each person and a column for each date, if all objects are dates, or begin with one; else nothing."""
    found = [DATE.fullmatch(name) for name in names.objects]
    if not all(found):
        return []
    dates = list(dict.fromkeys(each[1] for each in found))
    days = {name: (each[1], each[2]) for name, each in zip(names.objects, found)}
    cells = {person: {} for person in names.persons}
    for person, thing, cost in rows_of_pairs(names, claim):
        day, more = days[thing]
        cells[person].setdefault(day, []).append(more or cost)
    return [[names.titles[0], *dates], *([person, *(" and ".join(mine.get(day, ())) for day in dates)] for person, mine in cells.items())]


def rows_of_all_reasons(names, problem, model, claim):
    """What `--why` tells of each person, one below the other."""
    rows = []
    for name in problem.persons:
        header, *reasons, (sentence,) = rows_of_reasons(names, problem, model, claim, name)
        rows = rows or [[names.titles[0], *header]]
        rows += [[name, *row] for row in reasons] + [["", sentence], []]
    return rows


def bytes_of(names, sheets):
    """The bytes of a workbook with these sheets."""
    import openpyxl
    from openpyxl.styles import Font
    book = openpyxl.Workbook()
    book.remove(book.active)
    for title, rows, numbers in sheets:
        made, widths = book.create_sheet(title), {}
        for number, row in enumerate(rows, 1):
            for column, text in enumerate(row, 1):
                put(made.cell(number, column), names, text, number > 1 and column in numbers)
                widths[column] = min(max(widths.get(column, 8), (len(text) + 2) * (len(row) > 1)), WIDEST)
        for column, width in widths.items():
            made.column_dimensions[openpyxl.utils.get_column_letter(column)].width = width
        if numbers:
            # The first row has titles.
            made.freeze_panes = "A2"
            for cell in made[1]:
                cell.font = Font(bold=True)
    content = io.BytesIO()
    book.save(content)
    return content.getvalue()


def put(cell, names, text, is_amount):
    """Puts a text into a cell, as a number or a time where it is an amount of the table. No name becomes a formula."""
    clock = units_of_clock(text) if is_amount and names.mark == MARK else None
    if clock:
        cell.value = datetime.timedelta(**{"minutes" if clock[1] == 1 else "seconds": clock[0]})
        cell.number_format = "[h]:mm" if clock[1] == 1 else "[h]:mm:ss"
    elif is_amount and AMOUNT.fullmatch(text):
        fraction = text.partition(".")[2]
        cell.value = Decimal(text)
        cell.number_format = f"0.{'0' * len(fraction)}" if fraction else "0"
    elif text:
        cell.value = text
        cell.data_type = "s"
