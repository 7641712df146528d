"""Cells of costs: those of a row or a column of the table, looked at together by their shapes."""
import re
from typing import NamedTuple

from .marks import TO_SHAPE


class Cells(NamedTuple):
    """Costs of a row or a column of the table, none of them empty, parted by line ends; their shapes, where they are more than digits; how many digits the longest one has before its mark, or in
    all; and where each one stands, by its place among them."""

    text: str
    shapes: frozenset
    digits: int
    length: int
    place_of: object

    def each(self):
        """The costs, each with the row and column where it stands."""
        return zip(map(self.place_of, range(self.text.count("\n") + 1)), self.text.split("\n"))


def cells_of(cells, place_of):
    text = "\n".join(cells)
    longest = max(map(len, cells))
    if text.isascii() and "".join(cells).isdigit():
        return Cells(text, frozenset(), longest, longest, place_of)
    shapes = frozenset(text.translate(TO_SHAPE).split("\n"))
    return Cells(text, shapes, max(map(digits_before_mark, shapes)), longest, place_of)


def digits_before_mark(shape):
    """At most how many digits the shape has before the mark of its decimals."""
    return len(re.split("[.,]", shape)[0]) if shape.count(".") + shape.count(",") < 2 else len(shape)
