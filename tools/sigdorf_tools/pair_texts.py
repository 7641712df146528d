"""Problems of pairs by the hundred thousand: the rows of a plain text are parted some thousands at a time, so that no more than these are in memory as cells. Whatever else a table
has in it, it is read on the road for all tables, which gives the same problem."""
import array
import itertools
from typing import NamedTuple

from . import arrays
from .arrays import numpy_for
from .cost_cells import cells_of
from .costs import read_costs
from .faults import Fault
from .forms import are_names_of_objects, is_title, look_for_header
from .matrices import USUAL_MARK, is_mark_sure
from .pair_arrays import arcs_by_persons, columns_of
from .problems import MOST_OBJECTS, MOST_PERSONS, TITLES, Arcs, Problem
from .tables import Table
from .text_tables import MOST_CHARACTERS, Text, are_short, is_plain_name

# So many characters are parted at a time.
BATCH = 300_000
# More runs of rows of one person each are those of a table that isn't sorted by persons.
MOST_RUNS = 2 * MOST_PERSONS
# At least so many characters are looked at for the rows of a person.
LEAST_WINDOW = 4_096
# What stands in no text, for the end of a row that the next one of the same person follows.
SAME = "\x01"


class Numbers(dict):
    """The numbers of names, from 1 on as they come."""

    def __missing__(self, name):
        self[name] = len(self) + 1
        return self[name]


class Rows(NamedTuple):
    """The rows of a table in some groups: the numbers of names, for each group the numbers of persons, or the one that all its rows have, and those of objects, and the costs as `Cells`."""

    names: tuple
    persons: list
    objects: list
    costs: list


def problem_of_pairs(source, form, has_header, decimals, maximise, mark):
    """The problem of pairs in a text of many characters; None where it isn't sure that there is one, which the road for all tables has to tell."""
    if not isinstance(source, Text) or len(source.text) < arrays.LEAST_CHARACTERS or '"' in source.text:
        return None
    text = source.text.replace("\r\n", "\n") if "\r" in source.text else source.text
    end = text.find("\n")
    # Elsewhere a carriage return ends a line too.
    if "\r" in text or SAME in text or end < 0:
        return None
    first = text[:end].split(source.separator)
    table = Table(source.file, source.separator, [first], range(1, 2**31), [])
    if len(first) != 3 or not is_sure(table, first, form, has_header):
        return None
    titles, begin = TITLES, 0
    if has_header and is_title(first[2]):
        titles, begin = [cell or title for cell, title in zip(first, TITLES)], end + 1
    if not all(map(is_plain_name, titles)):
        return None

    def are_told(names):
        # A title that stands below too is none, and what may be costs below it may be those of a matrix.
        is_title = titles is TITLES or first[0] not in names[0]
        return are_names(*names) and is_title and (form is not None or are_names_of_objects(names[1]))
    said = decimals, maximise, mark, are_told
    numpy = numpy_for(len(source.text))
    found = numpy and by_arrays(numpy, text, begin, source.separator, *said) or by_texts(table, text, begin, *said)
    return found and Problem(titles, *found)


def by_arrays(numpy, text, begin, separator, decimals, maximise, mark, are_told):
    """The mark, the decimals, the names and the arcs of rows that are plain; None where one isn't."""
    content = (text if text.endswith("\n") else text + "\n").encode()
    read = None if b"\0" in content else columns_of(numpy, content, len(text[:begin].encode()), separator, [each for each in ".," if each != separator], MOST_PERSONS, MOST_OBJECTS)
    if not read:
        return None
    columns, found = read
    if not are_told((columns.persons, columns.objects)):
        return None
    if found and not is_mark_sure(numpy, separator, columns.costs, found, mark):
        return None
    told = arrays.told_units(numpy, columns.costs, decimals)
    if told is None:
        return None
    decimals, units = told
    arcs = arcs_by_persons(numpy, columns, -units[0] if maximise else units[0])
    return arcs and (mark or found or USUAL_MARK.get(separator, "."), decimals, columns.persons, columns.objects, arcs)


def by_texts(table, text, begin, decimals, maximise, mark, are_told):
    """The same by steps of the standard library."""
    rows = rows_by_runs(text, begin, table.separator) or rows_by_batches(text, begin, table.separator)
    if not rows or not rows.costs or max(cells.length for cells in rows.costs) > MOST_CHARACTERS:
        return None
    if not are_told(rows.names):
        return None
    try:
        read = read_costs(table, rows.costs, decimals, maximise, mark)
    except Fault:
        return None
    arcs = by_persons(rows, read.texts)
    return arcs and (read.mark, read.decimals, *map(list, rows.names), arcs)


def is_sure(table, first, form, has_header):
    """Whether the first row tells no other form than pairs."""
    if form == "matrix" or not all(first) or form is None and not has_header:
        return False
    try:
        form or look_for_header(table)
    except Fault:
        return False
    return True


def are_names(persons, objects):
    """Whether names are such that they need no care, and there aren't too many of them."""
    if len(persons) > MOST_PERSONS or len(objects) > MOST_OBJECTS or not are_short(persons, objects):
        return False
    return all(map(is_plain_name, persons)) and all(map(is_plain_name, objects))


def cells_of_costs(costs):
    return cells_of(costs, lambda place: (0, 2))


def rows_by_runs(text, begin, separator):
    """The rows where those of a person stand side by side, as programs write them: his name is looked for as it stands in front of all of them, and what they have behind it is parted at once.
    None where they stand apart, or a row hasn't three cells."""
    end = len(text) - text.endswith("\n")
    rows, size = Rows((Numbers(), Numbers()), [], [], []), LEAST_WINDOW
    before, numbers = None, None
    while begin < end:
        name = text[begin : text.find(separator, begin)]
        body, size = run_of(text, begin + len(name) + 1, end, f"\n{name}{separator}", size)
        cells = body.replace(SAME, f"{separator}{SAME}{separator}").split(separator)
        count = len(cells) // 3
        if len(cells) % 3 != 2 or cells[2::3].count(SAME) != count or "\n" in name or len(rows.costs) == MOST_RUNS:
            return None
        objects, costs = cells[::3], cells[1::3]
        if "" in costs:
            return None
        # The same objects for all, as in a table without gaps, are looked up once.
        if objects != before:
            before, numbers = objects, list(map(rows.names[1].__getitem__, objects))
        rows.persons.append(rows.names[0][name])
        rows.objects.append(numbers)
        rows.costs.append(cells_of_costs(costs))
        begin += len(name) + 1 + len(body) + count * (len(name) + len(separator)) + 1
    return rows


def run_of(text, begin, end, front, size):
    """What the rows of a person have behind his name, the first of which begins there, with a sign in place of their ends and of the front of the next one; and how many characters are to be
    looked at for the next person."""
    while True:
        body = text[begin : min(begin + size, end)].replace(front, SAME)
        stop = body.find("\n")
        if stop >= 0 or begin + size >= end:
            break
        size *= 2
    body = body[:stop] if stop >= 0 else body
    return body, max(LEAST_WINDOW, (len(body) + body.count(SAME) * len(front)) * 5 // 4)


def rows_by_batches(text, begin, separator):
    """The rows in whatever order; None where one hasn't three cells."""
    names, numbers, costs = (Numbers(), Numbers()), ([], []), []
    for *named, cells in batches(text, begin, separator):
        for known, parts, column in zip(names, numbers, named):
            parts.append(array.array("i", map(known.__getitem__, column)))
        if not cells or "" in cells or max(map(len, names)) > MOST_OBJECTS:
            return None
        costs.append(cells_of_costs(cells))
    return Rows(names, *numbers, costs)


def batches(text, begin, separator):
    """The three columns of some thousands of rows at a time; empty ones and no more where a row has more cells or fewer."""
    last = len(text) - text.endswith("\n")
    while begin < last:
        end = text.find("\n", begin + BATCH, last)
        end = last if end < 0 else end
        # The end of each line is a cell of its own, which has to be the fourth one.
        cells = (text[begin:end] + "\n").replace("\n", f"{separator}\n{separator}").split(separator)
        begin = end + 1
        ends = cells[3::4]
        if len(cells) % 4 != 1 or cells[-1] or ends.count("\n") != len(ends):
            yield [], [], []
            return
        yield cells[:-1:4], cells[1::4], cells[2::4]


def by_persons(rows, texts):
    """The arcs of each person; None where a pair is there twice."""
    return of_runs(rows, texts) if isinstance(rows.persons[0], int) else of_batches(rows, texts)


def of_runs(rows, texts):
    parts = [[] for _ in rows.names[0]]
    for person, objects, text in zip(rows.persons, rows.objects, texts):
        parts[person - 1].append((objects, text))
    arcs, before = [], None
    for some in parts:
        objects, text = some[0] if len(some) == 1 else ([thing for things, _ in some for thing in things], "\n".join(text for _, text in some))
        # Objects that many have are looked at once.
        if objects is not before and len(set(objects)) < len(objects):
            return None
        before = objects
        arcs.append(Arcs(objects, text))
    return arcs


def of_batches(rows, texts):
    arcs = [([], []) for _ in range(len(rows.names[0]) + 1)]
    # One number for each object, whichever row it is in.
    numbers = list(range(MOST_OBJECTS + 1))
    for some_persons, some_objects, text in zip(rows.persons, rows.objects, texts):
        for person, thing, cost in zip(some_persons, some_objects, text.split("\n")):
            row = arcs[person]
            row[0].append(numbers[thing])
            row[1].append(cost)
    if any(len(set(things)) < len(things) for things, _ in arcs):
        return None
    return [Arcs(things, "\n".join(costs)) for things, costs in itertools.islice(arcs, 1, None)]
