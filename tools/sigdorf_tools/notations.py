"""Costs that are more than digits: times, currency signs, per cent and exponents. They are made plain before they are
read, and what was left out is noted. Cells are looked at one by one only where one of them is such a cost."""
import re
import unicodedata
from typing import NamedTuple

from .clocks import CLOCK_SHAPE, MARK, units_of_clock
from .cost_cells import cells_of
from .faults import quoted
from .gap_words import way_out
from .marks import TO_SHAPE

PLAIN = frozenset("0.,+-\u2212 '\u2019")
PER_CENT = "%"
EXPONENT = re.compile(r"([+\-\u2212]?)([0-9]*)(?:([.,])([0-9]*))?[eE]([+\-\u2212]?)([0-9]{1,2})")


class Read(NamedTuple):
    """The groups of cells as plain amounts; of times how many of their parts are of 60, or nothing; and notes."""

    groups: list
    clock: int = 0
    notes: tuple = ()


def made_plain(table, groups, mark):
    """The costs without what is more than digits; the mark is the one that decimals stand behind, where it is said."""
    odd = {shape for cells in groups for shape in cells.shapes if not PLAIN.issuperset(shape)}
    if not odd:
        return Read(groups)
    if any(map(CLOCK_SHAPE.fullmatch, odd)):
        return by_clock(table, groups)
    signs = sorted({letter for shape in odd for letter in shape if is_sign(letter)})
    plain, seen = without_signs(table, groups, signs) if signs else groups, []
    mark = mark or ("," if table and table.separator == ";" else ".")
    if any("e" in shape or "E" in shape for shape in odd):
        plain = [replaced(cells, lambda cost: expanded(cost, mark, seen)) for cells in plain]
    notes = [f"the sign {quoted(sign)} of costs is left out" for sign in signs if plain is not groups]
    notes += [f"{quoted(seen[0][0])} is read as {seen[0][1]}, and other costs with exponents alike"] if seen else []
    return Read(plain, 0, tuple(notes))


def is_sign(letter):
    return letter == PER_CENT or unicodedata.category(letter) == "Sc"


def replaced(cells, change):
    """The cells with another text each."""
    return cells_of([change(cost) for cost in cells.text.split("\n")], cells.place_of)


def is_like_clock(cost):
    return CLOCK_SHAPE.fullmatch(cost.translate(TO_SHAPE)) is not None


def by_clock(table, groups):
    """Times as numbers of their smallest parts, all of them with as many parts."""
    first, found = None, []
    for cells in groups:
        units = []
        for place, cost in cells.each():
            read = units_of_clock(cost)
            if not is_like_clock(cost):
                other = first or next(text for some in groups for _, text in some.each() if is_like_clock(text))
                raise table.fault(*place, f"{quoted(cost)} is no time, and other costs are, such as {quoted(other)}; {way_out(cost, 'write all of them alike')}")
            if read is None:
                raise table.fault(*place, f"{quoted(cost)} is no time, since minutes and seconds go from 00 to 59; write hours and minutes")
            if first and first.count(MARK) != read[1]:
                raise table.fault(*place, f"{quoted(cost)} has other parts than {quoted(first)}; write all times with seconds, or none")
            first = first or cost
            units.append(str(read[0]))
        found.append((units, cells.place_of))
    return Read([cells_of(units, place_of) for units, place_of in found], first.count(MARK))


def without_signs(table, groups, signs):
    """The costs without a sign in front or at the end. Only one may be there, and per cent stand at all or at none."""
    sign = signs[0]
    for cells in groups:
        for place, cost in cells.each():
            if len(signs) > 1 and signs[1] in cost:
                raise table.fault(*place, f"{quoted(cost)} has another sign than {quoted(sign)}; write all costs in one unit")
            if sign == PER_CENT and PER_CENT not in cost:
                raise table.fault(*place, f"{quoted(cost)} has no {quoted(PER_CENT)}, and other costs have; write all of them alike")
    pattern = re.compile(rf"([+\-\u2212]?) ?{re.escape(sign)} ?([+\-\u2212]?)([^{re.escape(sign)}]*)|([^{re.escape(sign)}]*?) ?{re.escape(sign)}")

    def plain(cost):
        found = pattern.fullmatch(cost)
        if not found or found[1] and found[2]:
            return cost
        return (found[1] or found[2]) + found[3] if found[4] is None else found[4]
    return [replaced(cells, plain) for cells in groups]


def expanded(cost, mark, seen):
    """A cost without its exponent; what it is read as is added to the list."""
    found = EXPONENT.fullmatch(cost)
    if not found or not (found[2] or found[4]):
        return cost
    digits, exponent = found[2] + (found[4] or ""), int(found[6])
    place = len(found[2]) + (-exponent if found[5] not in ("", "+") else exponent)
    whole = (digits[: max(place, 0)] or "0") + "0" * (place - len(digits))
    fraction = "0" * -place + digits[max(place, 0) :]
    plain = found[1] + whole + ((found[3] or mark) + fraction if fraction else "")
    seen.append((cost, plain))
    return plain
