"""What parts decimals, and what parts thousands, in the costs of a table. It is told by those that can mean but one number, and never guessed.

Costs are looked at by their shapes: a shape is a cost with a 0 for each digit, and of those a table has few.
"""
import re

from .amounts import THOUSANDS

TO_SHAPE = str.maketrans("123456789", "000000000")
MARKS = {"point": ".", "comma": ","}
OTHER = {".": ",", ",": "."}
SIGN = r"[+\-\u2212]?"
PARTED = re.compile(rf"{SIGN}0{{1,3}}([.,{THOUSANDS}])000(?:\1(?:000))*(?:(?!\1)([.,])0*)?")
ONE_MARK = re.compile(rf"{SIGN}0*([.,])0*")
TWO_MEANINGS = re.compile(rf"{SIGN}0{{1,3}}[.,]000")


def mark_told(cost):
    """The mark that decimals stand behind, as a cost tells it that can mean but one number; None where it tells nothing."""
    shape = cost.translate(TO_SHAPE)
    if found := PARTED.fullmatch(shape):
        parts_thousands, before_decimals = found.groups()
        if before_decimals:
            return before_decimals
        if parts_thousands in THOUSANDS:
            return None
        if shape.count(parts_thousands) > 1:
            return OTHER[parts_thousands]
        # No thousands begin with a zero.
        return parts_thousands if cost.lstrip("+-\u2212").startswith("0") else None
    found = ONE_MARK.fullmatch(shape)
    return found and found[1]


def has_two_meanings(cost):
    """Whether a cost may be one with three decimals, or a thousand and more."""
    return TWO_MEANINGS.fullmatch(cost.translate(TO_SHAPE)) is not None and mark_told(cost) is None


def is_simple(cost):
    """Whether a cost has one point or comma and no thousands that are parted."""
    return ONE_MARK.fullmatch(cost.translate(TO_SHAPE)) is not None


class Marks:
    """Finds the mark of a table from its costs, in their order. In a table with commas between its cells, or tabs, decimals stand behind a point, unless its thousands tell that
    they stand behind a comma; between tabs a cost tells it too, as `3,5`, since nothing else may be meant by its comma. In a table with semicolons a point may be either. Where it is said how many
    decimals there are, a mark is before decimals."""

    def __init__(self, separator, has_decimals):
        self.usual, self.is_free = None if separator == ";" else ".", separator == "\t"
        self.has_decimals = has_decimals
        self.open = None

    def look_at(self, cost):
        """The mark, where this cost tells it."""
        told = mark_told(cost)
        if told and (self.usual in (None, told) or self.is_free or not is_simple(cost)):
            return told
        if told is None and has_two_meanings(cost):
            mark = next(character for character in cost if character in OTHER)
            if self.has_decimals and self.usual in (None, mark):
                return mark
            # A point in a table that isn't parted by semicolons is before decimals.
            if mark != self.usual and self.open is None:
                self.open = cost
        return None
