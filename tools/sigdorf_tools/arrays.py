"""Matrices of millions of cells by numpy, where it is installed: the numbers of thousands of cells are read by one call.

A table that isn't sure to be read as any other is isn't read here at all: those who ask go on without numpy then, and say what is wrong.
"""
from typing import NamedTuple

from .amounts import MOST

# A table of fewer characters is read before numpy is loaded.
LEAST_CHARACTERS = 500_000
# So many characters are looked at by one call: they stay in the processor's cache.
BATCH = 200_000
# As many digits as a number of 64 bits has bytes: the digits of a cell are read as one.
MOST_DIGITS = 8
# An end of a cell in front of the first one, and as many bytes as are read with its last digit.
PADDING = b"0000000\n"
# What is left of the bytes of such a number, so that they are the values of so many digits at its end.
DIGIT_MASKS = [int.from_bytes(b"\0" * (MOST_DIGITS - digits) + b"\x0f" * digits, "little") for digits in range(MOST_DIGITS + 1)]
# How neighbours become one number of twice the digits: by what all are multiplied, how far they are moved, and what is left of them.
STEPS = [(10 * 2**8 + 1, 8, 0x00FF00FF00FF00FF), (100 * 2**16 + 1, 16, 0x0000FFFF0000FFFF), (10_000 * 2**32 + 1, 32, 0x00000000FFFFFFFF)]


def numpy_for(characters):
    """The library, where it is installed and so many characters are worth its while."""
    if characters < LEAST_CHARACTERS:
        return None
    try:
        import numpy
    except ImportError:
        return None
    return numpy


class ArrayArcs:
    """The arcs of a person in two arrays; for the rest as `Arcs`."""

    __slots__ = ("numbers", "units")

    def __init__(self, numbers, units):
        self.numbers, self.units = numbers, units

    @property
    def objects(self):
        return self.numbers.tolist()

    @property
    def text(self):
        return "\n".join(map(str, self.costs()))

    def count(self):
        return len(self.numbers)

    def costs(self):
        return self.units.tolist()

    def pairs(self):
        return dict(zip(self.objects, self.costs()))

    def up_to(self, most):
        return self.only(self.units <= most)

    def without(self, numbers):
        for number in numbers:
            self = self.only(self.numbers != number)
        return self

    def only(self, is_kept):
        return ArrayArcs(self.numbers[is_kept], self.units[is_kept])


class Cells(NamedTuple):
    """Cells as arrays: the number of each one as if it had no mark, how many digits stand behind the mark, whether it has one, and whether anything is in it."""

    numbers: object
    decimals: object
    has_mark: object
    is_filled: object


def cells_of(numpy, rows, columns, separator, mark):
    """The cells of rows of text, by rows and columns; None where one is neither empty nor a plain number of few digits, or a row hasn't so many of them."""
    parts, size = [], BATCH // (len(rows[0]) + 1) + 1
    for begin in range(0, len(rows), size):
        part = rows[begin : begin + size]
        cells = cells_of_text(numpy, part, separator, mark, columns)
        if cells is None:
            return None
        parts.append(cells)
    return Cells(*(numpy.concatenate(part).reshape(len(rows), columns) for part in zip(*parts)))


def cells_of_text(numpy, rows, separator, mark, columns):
    """The cells of some rows, one behind the other."""
    text = PADDING + "\n".join(rows).encode() + b"\n"
    characters = numpy.frombuffer(text, numpy.uint8)
    # All that is no digit: ends of rows and of cells, marks and signs.
    places = numpy.flatnonzero(characters - numpy.uint8(ord("0")) > 9)
    kinds = characters[places]
    ends_row, is_mark, is_sign = (kinds == ord(character) for character in ("\n", mark, "-"))
    ends_cell = ends_row | (kinds == ord(separator))
    if not (ends_cell | is_mark | is_sign).all() or not are_placed(numpy, places, ends_cell, is_mark, is_sign):
        return None
    if not is_even(ends_row[ends_cell][1:], len(rows), columns):
        return None
    return numbers_of(numpy, text, mark.encode(), places, ends_cell, is_mark, is_sign)


def are_placed(numpy, places, ends_cell, is_mark, is_sign):
    """Whether each sign is the first character of its cell, and no cell has two marks."""
    signs = numpy.flatnonzero(is_sign)
    is_first = ends_cell[signs - 1] & (places[signs] == places[signs - 1] + 1)
    return is_first.all() and not (is_mark[1:] & is_mark[:-1]).any()


def is_even(ends_row, rows, columns):
    """Whether each of so many rows has so many cells."""
    return len(ends_row) == rows * columns and ends_row.sum() == rows and ends_row[columns - 1 :: columns].all()


def numbers_of(numpy, text, mark, places, ends_cell, is_mark, is_sign):
    """The cells between ends, where what is no digit stands at its place; None where one has a sign or a mark without a digit, or too many digits."""
    ends, marks, signs = places[ends_cell], numpy.flatnonzero(is_mark), numpy.flatnonzero(is_sign)
    decimals, has_mark, is_negative = (numpy.zeros(len(ends) - 1, kind) for kind in (numpy.int8, bool, bool))
    is_negative[cells_at(numpy, ends_cell, signs)] = True
    if len(marks):
        # What is no digit behind a mark is the cell's end. Without the mark all digits of the cell stand side by side.
        behind = places[marks + 1] - places[marks] - 1
        if behind.max() > MOST_DIGITS:
            return None
        cells = cells_at(numpy, ends_cell, marks)
        decimals[cells], has_mark[cells] = behind, True
        ends[1:] -= numpy.cumsum(has_mark)
        text = text.translate(None, mark)
    digits = numpy.diff(ends) - 1 - is_negative
    is_filled = digits > 0
    if digits.max() > MOST_DIGITS or (~is_filled & (is_negative | has_mark)).any():
        return None
    numbers = numbers_before(numpy, text, ends[1:], digits)
    return Cells(numpy.where(is_negative, -numbers, numbers) if len(signs) else numbers, decimals, has_mark, is_filled)


def cells_at(numpy, ends_cell, found):
    """The cells in which some of the characters stand that are no digits, no two of them in the same one. The first end is in front of all cells."""
    count = numpy.count_nonzero(ends_cell) - 1
    if len(found) in (0, count):
        return slice(0, len(found))
    return numpy.cumsum(ends_cell)[found] - 1


def numbers_before(numpy, text, ends, digits):
    """The numbers with so many digits that end before these places of a text. Eight bytes are read as one number of 64 bits, in which ones become tens, tens hundreds, and so on."""
    words = numpy.ndarray(len(text) - MOST_DIGITS + 1, "<u8", text, strides=(1,))[ends - MOST_DIGITS]
    words &= numpy.array(DIGIT_MASKS, numpy.uint64)[digits]
    for factor, bits, mask in STEPS:
        words *= numpy.uint64(factor)
        words >>= numpy.uint64(bits)
        words &= numpy.uint64(mask)
    return words.astype(numpy.int32)


def tells_mark(numpy, cells):
    """Whether a cell can mean but one number, so that it tells that its mark is before decimals: one that may be a thousand and more doesn't."""
    if not cells.has_mark.any():
        return False
    before = numpy.abs(cells.numbers) // 1_000
    return bool((cells.has_mark & ((cells.decimals != 3) | (before >= 1_000))).any())


def decimals_of(numpy, cells):
    """How many decimals the cells have, without zeros that say nothing."""
    def has_digit(numbers, decimals, place):
        places = decimals.astype(numpy.int64) - place
        return (numpy.abs(numbers) // 10 ** numpy.maximum(places, 0) % 10)[places >= 0].any()
    numbers, decimals = cells.numbers.ravel(), cells.decimals.ravel()
    parts = [slice(begin, begin + BATCH) for begin in range(0, len(numbers), BATCH)]
    for place in range(int(decimals.max()), 0, -1):
        # One of the first cells tells it, as a rule.
        if any(has_digit(numbers[part], decimals[part], place) for part in parts):
            return place
    return 0


def units_of(numpy, cells, decimals):
    """The cells in smallest units, of which one of the table has 10^decimals; no cell has more decimals, but zeros. None where one of them is out of range."""
    missing = decimals - cells.decimals
    if not missing.any():
        return cells.numbers
    missing = missing.astype(numpy.int64)
    signs, numbers = numpy.sign(cells.numbers), numpy.abs(cells.numbers)
    units = numbers // 10 ** numpy.maximum(-missing, 0) * 10 ** numpy.maximum(missing, 0)
    return (signs * units).astype(numpy.int32) if units.max() <= MOST else None


def told_units(numpy, cells, decimals):
    """How many decimals are kept, which are as many as the cells have where none are said, and the cells in smallest units; None where a cell has more, or is out of range."""
    needed = decimals_of(numpy, cells)
    decimals = needed if decimals is None else decimals
    units = units_of(numpy, cells, decimals) if needed <= decimals else None
    return None if units is None else (decimals, units)


def arcs_of(numpy, units, is_filled):
    """The arcs of each person, whose row has the costs."""
    whole = numpy.arange(1, units.shape[1] + 1)
    if is_filled.all():
        return [ArrayArcs(whole, row) for row in units]
    return [ArrayArcs(whole[filled], row[filled]) for row, filled in zip(units, is_filled)]
