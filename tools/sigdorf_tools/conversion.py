"""From a table to an arc file and its names: what `from_csv` and `plan` have in common."""
import argparse
import os
from typing import NamedTuple

from .amounts import MOST_DECIMALS
from .clocks import MARK
from .columns import picked, titles_said
from .faults import Fault, say
from .headers import from_header
from .lists import taken_row
from .marks import MARKS
from .matrices import problem_by_arrays
from .models import look_at_size, plain_model
from .names import Names, counted
from .notes import note, notes_of_names
from .pair_texts import problem_of_pairs
from .problems import problem_of
from .reading import parted_from_sheet, reading_of
from .tables import read_source, table_of_source
from .text_tables import SEPARATORS
from .wishes import by_names


def add_options(words, is_left_out=False):
    """The words that say how a table is to be read; the table itself may be left out, where that is said."""
    table = "a table with names: person, object and cost in three columns, or a row for each person and a column for each object"
    words.add_argument("file", metavar="FILE", nargs="?" if is_left_out else None, help=f"{table}; CSV, .xlsx, .ods or .json; FILE:SHEET names a sheet of a workbook; `-` is standard input")
    words.add_argument("--decimals", type=number_of_decimals, metavar="D", help="how many decimals of the costs are kept, 0 to 9; left out, as many as the table has")
    words.add_argument("--round", type=number_of_decimals, metavar="N", help="round costs that have more than N decimals, 0 to 9")
    words.add_argument("--decimal-mark", choices=list(MARKS), help="the mark before decimals, where it isn't to be found out")
    words.add_argument("--maximise", "--maximize", action="store_true", help="look for the greatest total, not for the least")
    form = words.add_mutually_exclusive_group()
    form.add_argument("--form", choices=["pairs", "matrix"], help="the form of the table, where it isn't to be found out; --pairs and --matrix say the same")
    form.add_argument("--pairs", dest="form", action="store_const", const="pairs", help="each row is a person, an object and a cost")
    form.add_argument("--matrix", dest="form", action="store_const", const="matrix", help="the first row names the objects, and the first column the persons")
    words.add_argument("--no-header", action="store_true", help="the first row has no names: of pairs it is one, and a matrix is costs alone, whose rows and columns are numbered")
    words.add_argument("--columns", metavar="WHO,WHAT,COST", help="the titles of the columns of person, object and cost, where a table of pairs has more columns; with --no-header their numbers")
    words.add_argument("--ignore-column", metavar="TITLE", action="append", default=[], help="a column that is none of the table's, as one of remarks; with --no-header its number")
    words.add_argument("--gap", metavar="TEXT", action="append", default=[], help="what stands for a pair that isn't allowed, as an empty cell does; it may be said more than once")
    words.add_argument("--range", metavar="B4:E7", help="the cells that are the table, by columns and lines, where it begins or ends elsewhere than the file")
    words.add_argument("--sheet", metavar="NAME", help="the sheet of a workbook, where more than one has cells")
    words.add_argument("--separator", choices=list(SEPARATORS), help="what parts the columns, where it isn't to be found out")
    words.add_argument("--encoding", metavar="NAME", help="how the letters of a text are written, as utf-8, cp1252 or utf-16, where it isn't to be found out")


def number_of_decimals(word):
    if not word.isdecimal() or int(word[:3]) > MOST_DECIMALS:
        raise argparse.ArgumentTypeError(f"a number from 0 to {MOST_DECIMALS} is wanted, not {word!r}")
    return int(word)


class Extras(NamedTuple):
    """Options that name a column which says something of persons, by its title, or of objects; and those that name a row
    of a matrix which does of objects, by its name."""

    of_persons: dict = {}
    of_objects: dict = {}
    rows: dict = {}


def read_problem(words, extras=Extras()):
    """The table that the words name, or its text, its problem, and what each of the extra columns and rows says, by its
    option. Decimals that nobody said are told on standard error, and what may not be meant."""
    if words.round is not None and words.decimals is not None:
        raise Fault(f"--round {words.round}: --decimals {words.decimals} says how many decimals are kept; leave one of them out")
    source, has_header = read_source(words.file, reading_of(words)), not words.no_header
    said = has_header, words.decimals, words.maximise, MARKS.get(words.decimal_mark)
    is_whole = words.columns is None and extras == Extras() and not words.ignore_column
    problem, told = None, {}
    if is_whole and words.range is None and words.round is None and not words.gap:
        problem = problem_by_arrays(source, words.form, *said) or problem_of_pairs(source, words.form, *said)
    if problem is None:
        source, form = table_of_source(source), words.form
        if has_header and source.form is None:
            source = from_header(source)
        has_header = has_header or source.form is not None
        if not is_whole:
            source, told = picked_extras(words, source, extras, has_header)
            form = form if words.columns is None else "pairs"
        problem = problem_of(source, form, *said, words.round)
    tell_of_reading(words, source, problem)
    return source, problem, told


def picked_extras(words, table, extras, has_header):
    """The table with the columns and rows that are its own, and what the others say."""
    titles = titles_said(words.columns) if words.columns is not None else []
    said = [*extras.of_persons.values(), *extras.of_objects.values()]
    table, columns, places = picked(table, titles, [*said, *words.ignore_column], has_header)
    told = {}
    for which, options in enumerate((extras.of_persons, extras.of_objects)):
        for option in options:
            told[option] = by_names(table, columns[len(told)], places[len(told)], 1 if has_header else 0, which)
    for option, name in extras.rows.items():
        table, told[option] = taken_row(table, option, name)
    return table, told


def tell_of_reading(words, source, problem):
    """What was found out of a table, and what may not be meant in it."""
    if problem.mark == MARK:
        say(f"{source.file}: the costs are times")
    elif words.decimals is None and problem.decimals:
        say(f"{source.file}: the costs have {counted(problem.decimals, 'decimal')}")
    told = [f"{source.file}: {each}" for each in (*problem.notes, *notes_of_names(problem))]
    for sentence in [*source.notes, *told]:
        note(sentence)


def names_of(words, table, problem, model):
    """The names of a model's persons and objects."""
    return Names(
        table=os.path.basename(table.file),
        titles=problem.titles,
        separator=table.separator,
        mark=problem.mark,
        decimals=problem.decimals,
        maximise=words.maximise,
        persons=[problem.persons[place] for place in model.owners],
        objects=problem.objects,
        dummy_objects=model.dummies(),
        arcs="",
    )


def converted(words):
    """The text of the arc file, and the names, of the table that the words name."""
    table, problem, _ = read_problem(words)
    model = plain_model(problem)
    look_at_size(table.file, model)
    arcs = "".join(model.lines())
    return arcs, names_of(words, table, problem, model)._replace(arcs=arcs)


def stem_of(file):
    """What the files are called that are made from a table."""
    return "table" if file == "-" else os.path.splitext(os.path.basename(parted_from_sheet(file)[0]))[0]
