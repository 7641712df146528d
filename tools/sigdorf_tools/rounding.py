"""Costs with more decimals than are wanted, rounded where that is said: a half away from nothing, as by hand."""
import decimal

from .amounts import DELETE_THOUSANDS
from .cost_cells import cells_of
from .marks import OTHER


def rounded(groups, most, mark):
    """The groups of cells with at most so many decimals, and how many costs were rounded."""
    found, count = [], 0
    for cells in groups:
        if max((len(shape.partition(mark)[2]) for shape in cells.shapes), default=0) <= most:
            found.append(cells)
            continue
        costs = []
        for cost in cells.text.split("\n"):
            is_longer = len(cost.partition(mark)[2].rstrip("0")) > most
            count += is_longer
            costs.append(rounded_cost(cost, most, mark) if is_longer else cost)
        found.append(cells_of(costs, cells.place_of))
    return found, count


def rounded_cost(cost, most, mark):
    plain = cost.translate(DELETE_THOUSANDS).replace(OTHER[mark], "").replace("\u2212", "-").replace(mark, ".")
    with decimal.localcontext() as context:
        context.prec = len(plain) + most + 1
        told = decimal.Decimal(plain).quantize(decimal.Decimal(1).scaleb(-most), decimal.ROUND_HALF_UP)
        return format(told, "f").replace(".", mark)


def note_of_rounded(count, most):
    kept = f"{most} decimal{'s' * (most != 1)}" if most else "whole numbers"
    return f"{count} cost{'s are' if count != 1 else ' is'} rounded to {kept}"
