"""Problems with names: who may take what at which cost, from the rows of a table to the text of an arc file."""
from typing import NamedTuple

from .cost_cells import cells_of
from .costs import read_costs
from .faults import Fault, quoted
from .forms import form_of, is_title
from .json_tables import TITLES
from .tables import below_header, look_at_blanks, look_at_lengths

MOST_PERSONS = 10_000
MOST_OBJECTS = 20_000
MOST_ARCS = 33_554_432
NAME_WANTED = "a name is wanted, and the cell is empty; write one, or leave out what is no part of the table, as by --range"


class Arcs(NamedTuple):
    """The arcs of a person: numbers of objects, from 1 on, and their costs in smallest units, on the scale of the solver, where the least is the best: a text in which line ends part them."""

    objects: list
    text: str

    def count(self):
        return len(self.objects)

    def costs(self):
        return list(map(int, self.text.split("\n"))) if self.objects else []

    def pairs(self):
        """Each object with its cost."""
        return dict(zip(self.objects, self.costs()))

    def up_to(self, most):
        """The arcs that don't cost more."""
        kept = [(thing, cost) for thing, cost in zip(self.objects, self.costs()) if cost <= most]
        return Arcs([thing for thing, _ in kept], "\n".join([str(cost) for _, cost in kept]))

    def without(self, numbers):
        """The arcs to all other objects."""
        if not numbers:
            return self
        kept = [(thing, text) for thing, text in zip(self.objects, self.text.split("\n")) if thing not in numbers]
        return Arcs([thing for thing, _ in kept], "\n".join([text for _, text in kept]))


class Problem(NamedTuple):
    """The names of persons and objects, each at the place of its number less 1; for each person the arcs; how costs are told; and notes on how they were read."""

    titles: list
    mark: str
    decimals: int
    persons: list
    objects: list
    arcs: list
    notes: tuple = ()


def problem_of(table, form, has_header, decimals=None, maximise=False, mark=None, most=None):
    """The problem of a table. The form is `pairs`, `matrix`, or None, where the table tells it; so are decimals and their mark."""
    has_header = has_header or table.form is not None
    # Of costs alone an empty column is an object that nobody may have.
    table = below_header(table) if has_header else table
    form = table.form or form or form_of(table, has_header)

    def costs(groups):
        return read_costs(table._replace(form=form), groups, decimals, maximise, mark, most)
    if form == "pairs":
        return problem_of_pairs(table, has_header, costs)
    return problem_of_matrix(table, costs) if has_header else problem_of_costs(table, costs)


def problem_of_pairs(table, has_header, costs):
    """Three columns: person, object, cost. A first row whose third cell is no number has their titles, unless no header is said to be there."""
    look_for_more_than_pairs(table)
    look_at_lengths(table, 3)
    titles, first = TITLES, 0
    if table.form or has_header and is_title(table.rows[0][2]) and table.rows[0][2] not in table.not_possible:
        titles, first = titles_of(table), 1
    elif has_header and not table.rows[0][2]:
        raise table.fault(0, 2, "the cell is empty, so the row may have titles, or a pair without a cost; write a title or a cost into it, or leave the row out")
    persons, objects, amounts = zip(*table.rows[first:])
    person_names, person_numbers = numbered(table, persons, first, 0, MOST_PERSONS)
    object_names, object_numbers = numbered(table, objects, first, 1, MOST_OBJECTS)
    read, texts = read_amounts(table, costs, amounts, first)
    pairs = [person * MOST_OBJECTS + thing for person, thing in zip(person_numbers, object_numbers)]
    if len(set(pairs)) < len(pairs):
        person_numbers, object_numbers, texts = without_doubles(table, first, pairs, person_numbers, object_numbers, texts)
    rows = [([], []) for _ in person_names]
    for person, thing, text in zip(person_numbers, object_numbers, texts):
        if text:
            row = rows[person - 1]
            row[0].append(thing)
            row[1].append(text)
    return Problem(titles, read.mark, read.decimals, person_names, object_names, [Arcs(things, "\n".join(amounts)) for things, amounts in rows], read.notes)


def read_amounts(table, costs, amounts, first):
    """The costs of a column, and each one's text; of an empty cell, or what stands for one, there is none."""
    rows = [row for row, amount in enumerate(amounts, first) if amount and amount not in table.not_possible]
    if not rows:
        raise table.fault(first, 2, "no row has a cost; write one for each pair that is allowed")
    read = costs([cells_of([table.rows[row][2] for row in rows], lambda place: (rows[place], 2))])
    texts = [""] * len(amounts)
    for row, text in zip(rows, read.texts[0].split("\n")):
        texts[row - first] = text
    return read, texts


def look_for_more_than_pairs(table):
    """Where all rows have more than three columns, which ones are meant has to be said."""
    if min(map(len, table.rows)) > 3:
        raise table.fault(0, 3, "pairs are three columns, and here are more; say --columns with the titles of person, object and cost, or --ignore-column with that of another one")


def without_doubles(table, first, pairs, *columns):
    """The columns without the pairs that stand there before at the same cost. At another cost it is a fault."""
    seen, kept = {}, []
    for place, (pair, *others) in enumerate(zip(pairs, *columns)):
        before, cost = seen.setdefault(pair, (place, others[-1]))
        if cost != others[-1]:
            person, thing, _ = table.rows[first + place]
            told = f"{quoted(person)} and {quoted(thing)} have {'another cost' if cost else 'no cost'} in {table.line_word} {table.lines[first + before]}"
            raise table.fault(first + place, 2, f"{told}; leave out the row that is wrong")
        if before == place:
            kept.append(others)
    return zip(*kept)


def numbered(table, names, first, column, most):
    """The different names of a column, in their order, and for each row the number of its name."""
    look_for_gap(table, names, first, column, NAME_WANTED)
    look_at_blanks(table, names, lambda place: (first + place, column))
    numbers = dict.fromkeys(names)
    if len(numbers) > most:
        name = list(numbers)[most]
        raise table.fault(first + names.index(name), column, f"{quoted(name)} is one name more than the {most:,} that a problem may have; leave some out")
    numbers = {name: number for number, name in enumerate(numbers, 1)}
    return list(numbers), list(map(numbers.__getitem__, names))


def look_for_gap(table, cells, first, column, sentence):
    """Each cell of a column has to have something in it."""
    if "" in cells:
        raise table.fault(first + cells.index(""), column, sentence)


def titles_of(table):
    """The titles of three columns. A row of titles that has a name of the rows below is none, but a row whose cost is no number."""
    first, rest = table.rows[0], table.rows[1:]
    if not rest:
        raise table.fault(0, 2, f"{quoted(first[2])} is no number, and there is no row below it; put the pairs below the titles")
    if not table.form and first[0] in (cells[0] for cells in rest):
        raise table.fault(0, 2, f"{quoted(first[2])} is no number, and {quoted(first[0])} is no title, since it is below too; write a number, or titles above")
    return [cell or title for cell, title in zip(first, TITLES)]


def problem_of_matrix(table, costs):
    """A column for each object with its name on top, and a row for each person with his name in front. An empty cell is a pair that isn't allowed."""
    first, rest = table.rows[0], table.rows[1:]
    look_at_lengths(table, len(first))
    if len(first) == 1:
        raise table.fault_of_row(0, "there is no object, since no column follows the names of the persons; put a column for each object beside them")
    look_at_names(table, first[1:], lambda place: (0, place + 1), MOST_OBJECTS)
    persons = [cells[0] for cells in rest]
    look_at_names(table, persons, lambda place: (place + 1, 0), MOST_PERSONS)
    if not rest:
        raise table.fault_of_row(0, "there is no person, since no row follows the names of the objects; put a row for each person below")
    titles = [first[0] or TITLES[0], *TITLES[1:]]
    rows = without_words([cells[1:] for cells in rest], table.not_possible)
    return problem_of_rows(titles, persons, first[1:], rows, costs, lambda row, column: (row + 1, column + 1))


def without_words(rows, words):
    """The rows of costs, in which empty cells stand for pairs that aren't allowed, in place of such words."""
    return [["" if cell in words else cell for cell in cells] for cells in rows] if words else rows


def look_at_names(table, names, place_of, most):
    """Each name has to stand there once."""
    if "" in names:
        raise table.fault(*place_of(names.index("")), NAME_WANTED)
    if len(names) > most:
        raise table.fault(*place_of(most), f"{quoted(names[most])} is one name more than the {most:,} that a problem may have; leave some out")
    look_at_blanks(table, names, place_of)
    seen = set()
    for place, name in enumerate(names if len(set(names)) < len(names) else ()):
        if name in seen:
            raise table.fault(*place_of(place), f"the name {quoted(name)} is there twice; give each one a name of its own")
        seen.add(name)


def problem_of_rows(titles, persons, objects, rows, costs, place_of):
    """The problem whose costs stand in a row for each person."""
    whole = list(range(1, len(objects) + 1))
    numbers, groups = [], []
    for row, cells in enumerate(rows):
        taken = whole
        if "" in cells:
            taken = [number for number, cell in zip(whole, cells) if cell]
            cells = list(filter(None, cells))
        numbers.append(taken)
        if cells:
            groups.append(cells_of(cells, lambda place, row=row, taken=taken: place_of(row, taken[place] - 1)))
    read = costs(groups)
    texts = iter(read.texts)
    return Problem(titles, read.mark, read.decimals, persons, objects, [Arcs(taken, next(texts) if taken else "") for taken in numbers], read.notes)


def problem_of_costs(table, costs):
    """Costs alone: a row for each person and a column for each object, whose names are the numbers of these, from 1 on."""
    rows, columns = len(table.rows), len(table.rows[0])
    look_at_lengths(table, columns)
    if table.gaps:
        raise Fault(f"{table.file}, {table.line_word} {table.gaps[0]}: the row is empty, and a person is a row here; leave it out, or give it a cost")
    for word, count, most in (("row", rows, MOST_PERSONS), ("column", columns, MOST_OBJECTS)):
        if count > most:
            raise Fault(f"{table.file}: {count:,} {word}s are more than the {most:,} that a problem may have; leave some out")
    numbers = [str(number) for number in range(1, max(rows, columns) + 1)]
    return problem_of_rows(TITLES, numbers[:rows], numbers[:columns], without_words(table.rows, table.not_possible), costs, lambda row, column: (row, column))
