"""The costs of a table, as whole numbers of the smallest unit. A row of them, or a column, is read at once: cells are looked at one by one only where one of them is at fault, or odd."""
import re
from typing import NamedTuple

from .amounts import DELETE_THOUSANDS, MOST, THOUSANDS, NoNumber, NotAnAmount, TooManyDecimals, parts_of, parts_with, room_for_decimals, ungrouped, units_of, way_out
from .clocks import MARK
from .faults import Fault, quoted
from .gap_words import way_out as way_out_of_word
from .marks import OTHER, TO_SHAPE, Marks
from .notations import made_plain
from .rounding import note_of_rounded, rounded

# How many digits a cost may have so that it is in range, whichever they are; and how many so that it is read with others at once.
SURE_DIGITS, MOST_DIGITS = len(str(MOST)) - 1, 18


class Costs(NamedTuple):
    """For each of some cells the costs in smallest units, on the scale of the solver, as texts parted by line ends; and how they are told in the table."""

    texts: list
    decimals: int
    mark: str
    notes: tuple = ()


def read_costs(table, groups, decimals=None, maximise=False, mark=None, most=None):
    """The costs of groups of cells. The decimals and their mark are found, where they aren't given; costs with more decimals than the most are rounded, where that is given."""
    groups, clock, notes = made_plain(table, groups, mark)
    if clock:
        if decimals is not None or most is not None:
            raise Fault(f"{table.file}: {'--decimals' if most is None else '--round'} is said, and costs are times; leave it out")
        # They are whole numbers by now.
        mark, decimals = ".", 0
    is_found = decimals is None
    mark = mark or mark_of(table, groups, not is_found)
    look_at_shapes(table, groups, mark)
    if most is not None:
        groups, count = rounded(groups, most, mark)
        notes = [*notes, *([note_of_rounded(count, most)] if count else [])]
    if is_found:
        decimals = decimals_of(table, groups, mark)
    texts = texts_of(table, groups, decimals, mark, maximise, is_found)
    return Costs(texts, clock or decimals, MARK if clock else mark, tuple(notes))


def look_at_shapes(table, groups, mark):
    is_amount = amounts_with(mark).fullmatch
    for cells in groups:
        if not all(map(is_amount, cells.shapes)):
            raise first_fault(table, [cells], lambda cost: parts_with(cost, mark))


def texts_of(table, groups, decimals, mark, maximise, is_found):
    """For each group the costs in smallest units, as texts parted by line ends."""
    texts = []
    for cells in groups:
        text = units_text(cells, decimals, mark)
        if text is None or cells.digits + decimals > SURE_DIGITS and max(map(abs, map(int, text.split("\n")))) > MOST:
            raise fault_of_amounts(table, groups, decimals, mark, is_found)
        texts.append(canonical(negated(text) if maximise else text))
    return texts


def amounts_with(mark):
    """The shapes of amounts whose decimals stand behind a mark."""
    decimals, parts = re.escape(mark), re.escape(OTHER[mark] + THOUSANDS)
    return re.compile(rf"[+\-\u2212]?(?:0+(?:{decimals}0*)?|{decimals}0+|0{{1,3}}([{parts}])000(?:\1(?:000))*(?:{decimals}0*)?)")


def mark_of(table, groups, has_decimals):
    """The mark that decimals stand behind. Where nothing tells it, it is the one that is usual beside the separator of the table."""
    marks, left_open = Marks(table.separator, has_decimals), None
    for cells in groups:
        if not any("." in shape or "," in shape for shape in cells.shapes):
            continue
        for place, cost in one_of_each_shape(cells):
            if told := marks.look_at(cost):
                return told
            left_open = left_open or marks.open and place
    if left_open:
        raise table.fault(*left_open, f"{quoted(marks.open)} may have three decimals, or be a thousand and more; say --decimal-mark point or --decimal-mark comma")
    return marks.usual or ","


def one_of_each_shape(cells):
    """Costs that stand for all of the same shape; of those with a zero in front one more, which tells more than its shape."""
    seen = set()
    for place, cost in cells.each():
        kind = cost.translate(TO_SHAPE), cost.lstrip("+-\u2212")[:1] == "0"
        if kind not in seen:
            seen.add(kind)
            yield place, cost


def decimals_of(table, groups, mark):
    """How many decimals the costs have, without zeros that say nothing."""
    point, found = re.escape(mark), 0
    for cells in groups:
        longest = max((len(shape.partition(mark)[2]) for shape in cells.shapes), default=0)
        if longest > found:
            # That one has as many as are written is found sooner than that none has.
            has_all = longest <= SURE_DIGITS and re.search(rf"{point}[0-9]{{{longest - 1}}}[1-9]$", cells.text, re.MULTILINE)
            found = longest if has_all else max([found, *map(len, re.findall(rf"{point}([0-9]*[1-9])0*$", cells.text, re.MULTILINE))])
    if found + max((cells.digits for cells in groups), default=0) > SURE_DIGITS and found:
        most, _ = room_for_decimals([parts_of(ungrouped(cost, mark)) for cells in groups for cost in set(cells.text.split("\n"))])
        if most is None or found > most:
            raise fault_of_amounts(table, groups, most or 0, mark, True)
    return found


def units_text(cells, decimals, mark):
    """The costs in smallest units, as texts parted by line ends, with zeros in front; None where one of them has more decimals than are kept, or is far out of range."""
    if cells.length > MOST_DIGITS:
        return units_one_by_one(cells, decimals, mark)
    text, zeros = cells.text, "0" * decimals
    if cells.shapes:
        text = text.translate(DELETE_THOUSANDS).replace(OTHER[mark], "").replace("+", "").replace("\u2212", "-")
    if mark not in text:
        return text.replace("\n", zeros + "\n") + zeros
    lengths = {len(shape.partition(mark)[2]) for shape in cells.shapes}
    if lengths == {decimals}:
        return text.replace(mark, "")
    if max(lengths) > decimals and re.search(rf"{re.escape(mark)}[0-9]{{{decimals}}}[0-9]*[1-9]", text):
        return None
    return "\n".join([whole + (fraction + zeros)[:decimals] for whole, _, fraction in (cost.partition(mark) for cost in text.split("\n"))])


def units_one_by_one(cells, decimals, mark):
    try:
        return "\n".join(str(units_of(cost, decimals, mark)) for cost in cells.text.split("\n"))
    except NotAnAmount:
        return None


def negated(text):
    return ("-" + text.replace("\n", "\n-")).replace("--", "")


def canonical(text):
    """The same numbers without zeros in front, and with no sign at a zero."""
    text = f"\n{text}\n"
    if "\n0" in text:
        text = re.sub("\n0+(?=[0-9])", "\n", text)
    if "\n-0" in text:
        text = re.sub("\n-0+(?=\n)", "\n0", re.sub("\n-0+(?=[1-9])", "\n-", text))
    # No digits are left of `.0` where no decimals are kept.
    for nothing in ("\n-\n", "\n\n"):
        while nothing in text:
            text = text.replace(nothing, "\n0\n")
    return text[1:-1]


def fault_of_amounts(table, groups, decimals, mark, is_found):
    """The fault of the first cost that has more than so many decimals, or is out of range with them."""
    def look(cost):
        try:
            units_of(cost, decimals, mark)
        except TooManyDecimals as why:
            raise NotAnAmount(f"{why}{way_out((text for cells in groups for text in cells.text.split(chr(10))), mark, is_found)}") from None
    return first_fault(table, groups, look)


def first_fault(table, groups, look):
    """The fault of the first cost that can't be looked at."""
    is_of_pairs = table.form == "pairs"
    for cells in groups:
        for (row, column), cost in cells.each():
            try:
                look(cost)
            except NotAnAmount as why:
                return table.fault(row, column, f"{quoted(cost)} {told(cost, why, is_of_pairs)}")
    raise AssertionError("one of the costs is at fault")


def told(cost, why, is_of_pairs):
    """Why a cell is no cost, and what to do."""
    if not isinstance(why, NoNumber):
        return why
    allowed = "leave out the row of a pair that" if is_of_pairs else "leave the cell empty where the pair"
    otherwise = f"write digits alone, or {allowed} isn't allowed"
    return f"is no number; {way_out_of_word(cost, otherwise)}"
