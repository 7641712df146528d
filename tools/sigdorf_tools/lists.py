"""Lists beside a table: a number for each person or object, and objects that can't go together."""
from .faults import Fault, quoted
from .forms import is_title
from .headers import from_header
from .names_told import unknown
from .notes import note
from .reading import parted_from_sheet
from .shifts import overlapping
from .surroundings import exists
from .tables import columns, read_table

MOST = 10_000


def number_of(place, text, wanted):
    """A whole number that a list or an option says."""
    if not text.isascii() or not text.isdigit() or int(text[:9]) > MOST:
        raise Fault(f"{place}: a {wanted[0]} from 0 to {MOST:,} is wanted, not {quoted(text)}; {wanted[1]}")
    return int(text)


def table_of_list(file):
    """The table of a list, whose notes are told."""
    table = from_header(read_table(file))
    for sentence in table.notes:
        note(sentence)
    return table


def numbers_said(option, word, names, kind, told):
    """The numbers that a word of the command names, each with its place: one for all, which stands at None, or a file
    with a row for each name, which may have titles above. The kind is `person` or `object`, and told says what a row
    tells of it."""
    if word is None:
        return {}
    if word.isdecimal():
        return {None: (f"{option} {word}", word)}
    if word != "-" and not exists(parted_from_sheet(word)[0]):
        wanted = f"a whole number from 0 to {MOST:,} is wanted, or a file of {kind}s and numbers"
        raise Fault(f"{option} {word}: {wanted}, and there is no such file")
    table, found = table_of_list(word), {}
    for row, cells in enumerate(table.rows):
        if len(cells) != 2:
            raise table.fault(row, min(len(cells), 2), f"the row has {columns(len(cells))}, and 2 are wanted; write {told}")
        if row == 0 and is_title(cells[1]) and cells[0] not in names:
            continue
        if cells[0] in found:
            raise table.fault(row, 0, f"the name {quoted(cells[0])} is there twice; leave one of the rows out")
        if cells[0] not in names:
            raise table.fault(row, 0, unknown(kind, cells[0], names))
        found[cells[0]] = table.place(row, 1), cells[1]
    return found


def taken_row(table, option, name):
    """The table without the row of a matrix that an option names, and what its cells say of the objects above them, each
    with its place."""
    rows = [row for row, cells in enumerate(table.rows) if row and cells[0] == name]
    if len(rows) != 1:
        found = "there is no row" if not rows else f"there are {len(rows)} rows"
        raise table.fault_of_row(0, f"--{option.replace('_', '-')} {name}: {found} with this name in front; name one of those below the header")
    taken = rows[0]
    cells = {thing: (table.place(taken, column), cell) for column, (thing, cell) in enumerate(zip(table.rows[0], table.rows[taken])) if column and cell and cell not in table.not_possible}
    return table.without_row(taken), cells


def apart_said(word, objects):
    """For each object the number of its group, of which a person may have one, and pairs of objects that can't go together
    though they are in no group, as a list names them: in each row objects that can't go together, or an object and what it
    shares with those that can't go with it, such as its day, or an object and when it begins and ends."""
    numbers = {name: place for place, name in enumerate(objects)}
    if word is None:
        return list(range(len(objects))), frozenset()
    table = table_of_list(word)
    below = {cell for cells in table.rows[1:] for cell in cells if cell}
    # A first row with an object, or with a cell that stands below too, has no titles.
    table = table if not below or any(cell in numbers or cell in below for cell in table.rows[0]) else table.without_rows(1)
    for row, cells in enumerate(table.rows):
        if cells[0] not in numbers:
            raise table.fault(row, 0, unknown("object", cells[0], objects))
    others = [(row, column, cell) for row, cells in enumerate(table.rows) for column, cell in enumerate(cells) if column and cell]
    if not any(cell in numbers for _, _, cell in others):
        has_times = any(sum(map(bool, cells)) > 2 for cells in table.rows)
        return parted(overlapping(table, numbers)) if has_times else (by_label(table, numbers), frozenset())
    for row, column, cell in others:
        if cell not in numbers:
            raise table.fault(row, column, unknown("object", cell, objects))
    return parted(by_rows(table, numbers))


def by_label(table, numbers):
    """The groups of objects that share a second cell."""
    groups, first, seen = list(range(len(numbers))), {}, set()
    for row, cells in enumerate(table.rows):
        if cells[0] in seen:
            raise table.fault(row, 0, f"the name {quoted(cells[0])} is there twice; leave one of the rows out")
        seen.add(cells[0])
        if len(cells) != 2:
            raise table.fault(row, min(len(cells), 2), f"the row has {columns(len(cells))}, and 2 are wanted; write an object and its day, or objects that can't go together")
        if cells[1]:
            place = numbers[cells[0]]
            groups[place] = groups[first.setdefault(cells[1], place)]
    return groups


def by_rows(table, numbers):
    """For each object those that stand in a row with it."""
    apart = [set() for _ in numbers]
    for cells in table.rows:
        places = {numbers[cell] for cell in cells if cell}
        for place in places:
            apart[place] |= places - {place}
    return apart


def parted(apart):
    """The groups of objects all of which are apart from one another, and pairs that are apart and in no group. Where two
    can't go with a third one, but may go together, not all pairs are in groups."""
    groups, members = [], {}
    for place, others in enumerate(apart):
        before = sorted({groups[other] for other in others if other < place})
        group = next((group for group in before if members[group] <= others), place)
        members.setdefault(group, set()).add(place)
        groups.append(group)
    return groups, frozenset((place + 1, other + 1) for place, others in enumerate(apart) for other in others if place < other and groups[place] != groups[other])
