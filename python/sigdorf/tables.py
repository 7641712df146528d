"""Tables with names for their rows and columns, such as pandas' DataFrame; pandas itself isn't wanted."""
import typing

from .arguments import attempt
from .costs import look_at_rounding, may_be_rounded
from .nullable import of_nullable


class Names(typing.NamedTuple):
    """Names of all rows and columns, or None for their numbers."""

    rows: list | None = None
    columns: list | None = None

    def told(self, row, column):
        """A row and a column in a sentence."""
        if self.rows is None:
            return f"row {row}, column {column}"
        return f"row {self.rows[row]!r}, column {self.columns[column]!r}"

    def of(self, rows, columns):
        """The names of some rows and of some columns, or None where there are no names."""
        return None if self.rows is None else ([self.rows[row] for row in rows.tolist()], [self.columns[column] for column in columns.tolist()])


NUMBERS = Names()


def named(table):
    """The values of a table and the Names of its rows and columns; what isn't a table of that kind is its own values, and has numbers."""
    parts = attempt(lambda given: (given.to_numpy(), list(given.index), list(given.columns)), table)
    if parts is None or getattr(parts[0], "shape", None) != (len(parts[1]), len(parts[2])):
        return table, NUMBERS
    if may_be_rounded(parts[0]):
        # Columns of whole numbers beside others of floats have become floats.
        look_at_rounding(attempt(lambda given: given.to_numpy(object).tolist(), table) or [], parts[0])
    return of_nullable(table, parts[0]), Names(*parts[1:])
