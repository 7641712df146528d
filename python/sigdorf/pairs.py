"""Pairs that a caller names: by numbers, or by names where the table has them."""
import numpy

from .arguments import MOST_ENTRIES, array_of, attempt

WORDS = "must be a list of pairs, each of a row and a column"


class Pairs:
    """Rows and columns of some pairs. A ValueError names the argument, and the pair that is at fault."""

    def __init__(self, asked, pairs, argument):
        self._argument, self._names = argument, asked.names
        if pairs is None:
            listed = numpy.zeros((0, 2), numpy.int64)
        else:
            listed = self._by_names(pairs) if self._names.rows is not None else self._by_numbers(pairs, asked.sides)
        self.rows, self.columns = listed[:, 0], listed[:, 1]
        self.codes = self.rows * asked.sides[1] + self.columns

    def _by_numbers(self, pairs, sides):
        listed = array_of(pairs, self._argument, MOST_ENTRIES)
        if listed.shape == (0,):
            return numpy.zeros((0, 2), numpy.int64)
        if listed.ndim != 2 or listed.shape[1] != 2 or listed.dtype.kind not in "iu":
            raise ValueError(f"{self._argument} {WORDS}")
        outside = ((listed < 0) | (listed >= numpy.array(sides))).any(axis=1)
        if outside.any():
            row, column = listed[outside.argmax()].tolist()
            raise ValueError(f"{self._argument}: there is no row {row}, column {column}")
        return listed.astype(numpy.int64)

    def _by_names(self, pairs):
        sides = [{name: place for place, name in enumerate(names)} for names in self._names]
        if any(len(side) < len(names) for side, names in zip(sides, self._names)):
            raise ValueError(f"{self._argument}: a row or a column has the name of another one")
        listed = attempt(lambda given: [(row, column) for row, column in given], pairs)
        if listed is None:
            raise ValueError(f"{self._argument} {WORDS}")
        found = numpy.zeros((len(listed), 2), numpy.int64)
        for place, pair in enumerate(listed):
            numbers = attempt(lambda given: [side[name] for side, name in zip(sides, given)], pair)
            if numbers is None:
                raise ValueError(f"{self._argument}: there is no row {pair[0]!r}, column {pair[1]!r}")
            found[place] = numbers
        return found

    def refuse(self, are_wrong, sentence):
        """Raises a ValueError with this sentence about the first pair that is wrong."""
        if are_wrong.any():
            place = are_wrong.argmax()
            raise ValueError(f"{self._argument}: {self._names.told(self.rows[place], self.columns[place])} {sentence}")


def ranks_of(numbers):
    """How many of the same come before each of these numbers."""
    order = numpy.argsort(numbers, kind="stable")
    ranks = numpy.empty(len(numbers), numpy.int64)
    ranks[order] = numpy.arange(len(numbers)) - numpy.searchsorted(numbers[order], numbers[order])
    return ranks
