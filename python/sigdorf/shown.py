"""How results are shown and compared: shortly, and part by part."""
import html

import numpy

# So many pairs, rows or columns are shown in a line, and so many pairs in a table.
MOST_SHOWN, MOST_LINES = 6, 20


def shown_pairs(found):
    """The first pairs of a result, as a dict is shown: by their names where they have some."""
    pairs = found.labels or list(zip(found.rows.tolist(), found.columns.tolist()))
    more = [f"and {len(pairs) - MOST_SHOWN:,} more"] if len(pairs) > MOST_SHOWN else []
    return "{" + ", ".join([f"{row!r}: {column!r}" for row, column in pairs[:MOST_SHOWN]] + more) + "}"


def _html(found):
    """The first pairs of a result with their costs, as notebooks show it."""
    pairs = found.labels or list(zip(found.rows.tolist(), found.columns.tolist()))
    costs = getattr(found, "costs", None)
    costs = [""] * len(pairs) if costs is None else costs.tolist()
    lines = [(*pair, cost) for pair, cost in zip(pairs[:MOST_LINES], costs)]
    lines += [("...", f"{len(pairs) - MOST_LINES:,} more", "")] if len(pairs) > MOST_LINES else []
    cells = "".join(f"<tr>{''.join(f'<td>{html.escape(str(cell))}</td>' for cell in line)}</tr>" for line in lines)
    head = html.escape(repr(found).partition("pairs=")[0].replace("(", " ").rstrip(" ,"))
    return f"<table><caption>{head}</caption><tr><th>row</th><th>column</th><th>cost</th></tr>{cells}</table>"


def shown_list(numbers):
    """The first of some numbers."""
    more = [f"and {len(numbers) - MOST_SHOWN:,} more"] if len(numbers) > MOST_SHOWN else []
    return "[" + ", ".join([str(number) for number in numbers[:MOST_SHOWN]] + more) + "]"


def compared_and_shown(kind):
    """Gives a result's class equality, part by part, a hash that goes with it, and a table in notebooks."""
    kind.__eq__, kind.__ne__, kind.__hash__, kind._repr_html_ = _equal, _unequal, _hashed, _html
    return kind


def _equal(one, other):
    """Whether two results are of one kind and all their parts are the same."""
    return type(one) is type(other) and all(map(_equal_parts, tuple(one), tuple(other)))


def _equal_parts(one, other):
    return numpy.array_equal(one, other) if isinstance(one, numpy.ndarray) else one == other


def _unequal(one, other):
    """What tuples have of their own beside `_equal`."""
    return not one == other


def _hashed(found):
    """What two equal results have in common: their pairs."""
    return hash((tuple(found.rows.tolist()), tuple(found.columns.tolist())))
