"""Objects that have times, as shifts: who has one can't have another one that overlaps it."""
import datetime

from .clocks import units_of_clock
from .faults import quoted

DAY = 24 * 60 * 60
# How a day may be written in front of a time.
FORMS = [f"{day} {time}" for day in ("%Y-%m-%d", "%d.%m.%Y") for time in ("%H:%M", "%H:%M:%S")]
EPOCH = datetime.datetime(1970, 1, 1)


def overlapping(table, numbers):
    """For each object those that overlap it, by rows of an object, when it begins, and when it ends."""
    spans = {}
    for row, cells in enumerate(table.rows):
        if len(cells) != 3 or not all(cells):
            raise table.fault(row, min(len(cells), 2), "an object, when it begins, and when it ends are wanted in three columns")
        if numbers[cells[0]] in spans:
            raise table.fault(row, 0, f"the name {quoted(cells[0])} is there twice; leave one of the rows out")
        spans[numbers[cells[0]]] = span_of(table, row)
    apart, before = [set() for _ in numbers], []
    for (begin, end), place in sorted((span, place) for place, span in spans.items()):
        before = [(other_end, other) for other_end, other in before if other_end > begin]
        for _, other in before:
            apart[other].add(place)
            apart[place].add(other)
        before.append((end, place))
    return apart


def span_of(table, row):
    """When the object of a row begins and ends, in seconds. Without days one that ends no later than it begins ends on the next day."""
    (begin, has_day), (end, also) = (time_of(table, row, column) for column in (1, 2))
    if has_day != also:
        raise table.fault(row, 2, f"{quoted(table.rows[row][2])} has {'a' if also else 'no'} day, and the begin has {'one' if has_day else 'none'}; write both alike")
    if end > begin:
        return begin, end
    if has_day:
        raise table.fault(row, 2, f"{quoted(table.rows[row][2])} is no later than the begin; write when it ends")
    return begin, end + DAY


def time_of(table, row, column):
    """A time in seconds, and whether it has a day."""
    cell = table.rows[row][column]
    if read := units_of_clock(cell):
        units, parts = read
        return units * (60 if parts == 1 else 1), False
    for form in FORMS:
        try:
            return int((datetime.datetime.strptime(cell.replace("T", " "), form) - EPOCH).total_seconds()), True
        except ValueError:
            continue
    raise table.fault(row, column, f"{quoted(cell)} is no time; write it as in 14:30, or with a day as in 2026-11-28 14:30")
