"""Amounts with decimals, kept exactly: as whole numbers of the smallest unit, and never as floating-point numbers."""
import re
from typing import NamedTuple

from .clocks import MARK, clock_of, units_of_clock

# The most that a cost may be, in smallest units.
MOST = 10**9
MOST_DECIMALS = 9


AMOUNT = re.compile(r"([+\-\u2212]?)([0-9]*)(?:([.,])([0-9]*))?")
# What parts thousands, apart from a point or a comma: blanks and apostrophes.
THOUSANDS = " '\u2019"
DELETE_THOUSANDS = str.maketrans("", "", THOUSANDS)
# An amount whose thousands are parted: by the second group, which is the same between all of them.
GROUPED = re.compile(rf"([+\-\u2212]?)[0-9]{{1,3}}([.,{THOUSANDS}])[0-9]{{3}}(?:\2[0-9]{{3}})*(?:(?!\2)([.,])[0-9]*)?")


class NotAnAmount(ValueError):
    """Why a text is no amount: the end of a sentence that begins with the text."""


class NoNumber(NotAnAmount):
    """The text is no number at all, so that something else may be meant by it."""


class TooManyDecimals(NotAnAmount):
    """The text is an amount, with more decimals than are kept."""


class Parts(NamedTuple):
    """The digits of an amount before its mark and behind it, without the zeros that say nothing, and its sign and mark."""

    sign: str
    whole: str
    mark: str | None
    fraction: str


def ungrouped(text, mark):
    """An amount without what parts its thousands, where decimals stand behind a mark; another text as it is."""
    found = GROUPED.fullmatch(text)
    return text.replace(found[2], "") if found and found[2] != mark and found[3] in (None, mark) else text


def parts_of(text):
    """The parts of an amount, or None where the text is none."""
    found = AMOUNT.fullmatch(text)
    if not found or not (found[2] or found[4]):
        return None
    return Parts(found[1], found[2].lstrip("0"), found[3], (found[4] or "").rstrip("0"))


def parts_with(text, mark):
    """The parts of an amount whose decimals stand behind a mark; a text that is none is a fault."""
    parts = parts_of(ungrouped(text, mark))
    if not parts:
        raise NoNumber("is no number; write digits alone")
    if parts.mark not in (None, mark):
        found, wanted = ("comma", "point") if parts.mark == "," else ("point", "comma")
        raise NotAnAmount(f"has a {found} in it, and decimals of this table come after a {wanted}; write all of them so, or say --decimal-mark {found}")
    return parts


def units_of(text, decimals, mark):
    """How many smallest units an amount is, where a unit of the table has 10^decimals of them, and decimals stand behind a mark. Behind the mark of times stand so many parts of 60."""
    if mark == MARK:
        return units_of_time(text, decimals)
    parts = parts_with(text, mark)
    if len(parts.fraction) > decimals:
        raise TooManyDecimals(f"has more decimals than the {decimals} that are kept")
    if not is_in_range(parts, decimals):
        raise NotAnAmount(f"is out of range: with {decimals} decimals the most is {amount_of(MOST, decimals, '.')}; count in greater units")
    units = int((parts.whole + parts.fraction.ljust(decimals, "0")) or "0")
    return units if parts.sign in ("", "+") else -units


def units_of_time(text, parts):
    """The same of a time."""
    read = units_of_clock(text)
    if read is None or read[1] != parts:
        raise NoNumber(f"is no time, and costs of the table are; write it as in {clock_of(90 * 60 ** (parts - 1), parts)}")
    if abs(read[0]) > MOST:
        raise NotAnAmount(f"is out of range: the most is {clock_of(MOST, parts)}")
    return read[0]


def is_in_range(parts, decimals):
    """Whether the amount is at most 10^9 smallest units, of which 10^decimals are one of the table's, though it may have more decimals."""
    digits = (parts.whole + parts.fraction[:decimals].ljust(decimals, "0")).lstrip("0") or "0"
    if len(digits) > len(str(MOST)):
        return False
    return int(digits) < MOST or int(digits) == MOST and len(parts.fraction) <= decimals


def room_for_decimals(amounts):
    """How many decimals all of the amounts may have, and how many they have; of the first, None where one of them is too great to have any."""
    wanted = max((len(parts.fraction) for parts in amounts), default=0)
    return max((decimals for decimals in range(MOST_DECIMALS + 1) if all(is_in_range(parts, decimals) for parts in amounts)), default=None), wanted


def way_out(texts, mark, is_found):
    """What a planner can do about decimals that aren't kept: the end of a sentence. It holds of all amounts among the texts, so that what it names isn't refused next.
    Where the number of decimals is found in the table, it needn't be said."""
    parts = [parts_of(ungrouped(text, mark)) for text in texts]
    most, wanted = room_for_decimals([each for each in parts if each and each.mark in (None, mark)])
    if most is None:
        return "; round it in the table"
    if wanted <= most:
        return f"; --decimals {wanted} keeps them"
    reason = "no cost can have more" if most == MOST_DECIMALS else "costs as great as these can't have more"
    kept = f"{most} decimal{'s' * (most > 1)}" if most else "whole numbers"
    return f"; round the costs in the table to {kept}{'' if is_found else f' and say --decimals {most}'}, since {reason}; --round {most} does it"


def amount_of(units, decimals, mark):
    """The text of an amount, with all its decimals, or of a time."""
    if mark == MARK:
        return clock_of(units, decimals)
    whole, fraction = divmod(abs(units), 10**decimals)
    sign = "-" if units < 0 else ""
    return f"{sign}{whole}{mark}{fraction:0{decimals}d}" if decimals else f"{sign}{whole}"
