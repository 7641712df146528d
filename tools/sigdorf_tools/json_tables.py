"""Tables as JSON: a list of records, a list of rows, or for each person an object with the costs of what he may take; or a record or a row in each line. Numbers are kept as they are written."""
import json

from .faults import Fault, quoted
from .text_encodings import decoded

# What names of files end in, the second ones of those with a value in each line.
ENDING, LINES = ".json", (".jsonl", ".ndjson")
TITLES = ["person", "object", "cost"]
WANTED = "a list of records, a list of rows, or for each person an object of costs is wanted"


def is_json(path, content):
    """Whether a file is JSON, by its name; of standard input by its first character."""
    return path.lower().endswith((ENDING, *LINES)) or path == "-" and content.lstrip()[:1] in (b"[", b"{")


def read_json(file, content, encoding=None, has_lines=False):
    """The rows of the table, the numbers of what they come from, and what that is called; the form where it is known: what is `pairs` then has titles on top; and notes on how the text was read."""
    text, notes = decoded(file, content, encoding)
    numbers = None
    if has_lines or is_of_lines(text):
        numbers, value = values_of_lines(file, text)
    else:
        value = value_of(file, text)
    return *table_of_value(file, value, numbers), notes


def table_of_value(file, value, lines):
    """The rows of a value, with what tells where they come from, and the form; lines are those of its parts, where each has one."""
    if lines is None and isinstance(value, dict) and value and all(isinstance(costs, dict) for costs in value.values()):
        return rows_of_persons(file, value)
    if not isinstance(value, list) or not value:
        raise Fault(f"{file}: no table, since {WANTED}")
    numbers = lines or list(range(1, len(value) + 1))
    if all(isinstance(row, list) for row in value):
        return texts(file, "line" if lines else "row", value, numbers), None
    word = "line" if lines else "record"
    for number, record in zip(numbers, value):
        if not isinstance(record, dict):
            raise Fault(f"{file}, {word} {number}: no record; {WANTED}")
    titles = list(dict.fromkeys(title for record in value for title in record))
    # Fields of a record have no order of their own, so that where they are named so, the names tell which is which.
    titles = TITLES if sorted(titles) == sorted(TITLES) else titles
    rows = [titles, *([record.get(title) for title in titles] for record in value)]
    return texts(file, word, rows, [numbers[0], *numbers]), "pairs"


def is_of_lines(text):
    """Whether a text has a value in each line: its first line is a whole one, and more follow."""
    first, _, rest = text.lstrip().partition("\n")
    if not rest.strip() or first[:1] not in ("{", "["):
        return False
    try:
        json.loads(first)
    except (ValueError, RecursionError):
        return False
    return True


def values_of_lines(file, text):
    """The numbers of the lines that have a value, and the values."""
    lines = [(number, line) for number, line in enumerate(text.split("\n"), 1) if line.strip()]
    return [number for number, _ in lines], [value_of(file, line, number) for number, line in lines]


def rows_of_persons(file, value):
    """The rows of an object that has for each person an object of costs. Pairs tell nothing of a person without a cost, or of an object; where there is one, it is a matrix."""
    objects = dict.fromkeys(thing for costs in value.values() for thing in costs)
    pairs = [[person, thing, cost] for person, costs in value.items() for thing, cost in costs.items() if cost is not None]
    if not pairs:
        raise Fault(f"{file}: nobody has a cost, so that there is no pair; {WANTED}")
    if len({person for person, _, _ in pairs}) == len(value) and len({thing for _, thing, _ in pairs}) == len(objects):
        return texts(file, "pair", [TITLES, *pairs], numbers_below_titles(pairs)), "pairs"
    rows = [[person, *map(costs.get, objects)] for person, costs in value.items()]
    return texts(file, "person", [["person", *objects], *rows], numbers_below_titles(rows)), "matrix"


def numbers_below_titles(rows):
    return [1, *range(1, len(rows) + 1)]


def texts(file, word, rows, numbers):
    """The rows as texts, with the numbers and the word for what they come from."""
    for number, row in zip(numbers, rows):
        for column, value in enumerate(row, 1):
            if isinstance(value, (list, dict)):
                raise Fault(f"{file}, {word} {number}, column {column}: a name or a number is wanted, and this is a list or an object; write one, or leave it out")
    return [["" if value is None else str(value).lower() if isinstance(value, bool) else value for value in row] for row in rows], list(numbers), word


def value_of(file, text, line=1):
    """The value of a text that begins in a line of the file."""
    def record(pairs):
        found = dict(pairs)
        if len(found) < len(pairs):
            name = next(name for place, (name, _) in enumerate(pairs) if name in dict(pairs[:place]))
            raise Fault(f"{file}: the name {quoted(name)} is twice in one object; give each one a name of its own")
        return found
    try:
        return json.loads(text, parse_float=str, parse_int=str, parse_constant=str, object_pairs_hook=record)
    except json.JSONDecodeError as error:
        raise Fault(f"{file}, line {error.lineno + line - 1}, column {error.colno}: no JSON ({error.msg}); write it by a program that knows the format") from None
    except RecursionError:
        raise Fault(f"{file}: no table, since its lists are too deep; {WANTED}") from None
