"""Progress of a search: the records that it writes to a pipe, as a bound and a cost in the caller's unit."""
import fractions
import os
import struct

from .amounts import outer_bound

# sigdorf_progress of sigdorf.h, of which cost, lower and known are read, and `scale` of c/levels/levels.h, which stands in the place of one.
RECORD, SCALE = struct.Struct("=qqqQII"), struct.Struct("=qiidqII")
KNOWN, IS_SCALE = 1, 2
HAS_TAILS, IS_SMALL, IS_WHOLE, IS_UNSIGNED = 1, 2, 4, 8
# A pipe takes so much without a reader.
MOST_BYTES = 2**16 // RECORD.size * RECORD.size


class Progress:
    """What is called with the best bound and cost so far, as the solution would have them, whenever one of them is better."""

    def __init__(self, told, maximize):
        self._told, self._sign, self._best = told, -1 if maximize else 1, None
        self._amounts = self._scaled = None

    def expect(self, persons, maximize, shown=None):
        """Says what records come: of a search of so many persons, whose amounts `shown` makes those of the caller."""

        def scaled(record):
            scale = Scale(SCALE.unpack(record), persons, maximize)
            return scale.amounts if shown is None else lambda lower, cost: tuple(map(shown, scale.amounts(lower, cost)))

        self._amounts, self._scaled = None, scaled

    def listen(self, descriptor):
        """Takes records until the other end of the pipe is closed."""
        while records := os.read(descriptor, MOST_BYTES):
            self._take(records)

    def _take(self, records):
        before = self._best
        for place in range(0, len(records), RECORD.size):
            record = records[place : place + RECORD.size]
            cost, lower, *_, known = RECORD.unpack(record)
            if known == IS_SCALE:
                self._amounts = self._scaled(record)
            elif known == KNOWN and self._amounts:
                self._keep(*self._amounts(lower, cost))
        if self._best != before:
            self._told(*self._best)

    def _keep(self, bound, cost):
        if self._best is not None:
            bound = max(bound, self._best[0], key=lambda it: self._sign * it)
            cost = min(cost, self._best[1], key=lambda it: self._sign * it)
        self._best = bound, cost

    def end(self, solution):
        self._told(solution.bound, solution.cost)


class Scale:
    """What records of a search count."""

    def __init__(self, parts, persons, maximize):
        least, unit, spare, gate, self._gate_cost, flags, _ = parts
        self._sign, self._is_whole = -1 if maximize else 1, bool(flags & (IS_SMALL | IS_WHOLE))
        self._one = 1 / fractions.Fraction(2) ** unit
        each = fractions.Fraction(0)
        if flags & IS_WHOLE and not flags & IS_SMALL:
            each = fractions.Fraction(self._sign * (least % 2**64 if flags & IS_UNSIGNED else least))
        elif not flags & IS_SMALL:
            each = least / fractions.Fraction(2) ** (unit + spare)
        self._base = persons * each
        # An assignment has half a unit of tails for each person at most, on either side.
        self._half = fractions.Fraction(persons, 2) if flags & HAS_TAILS else 0
        self._more = fractions.Fraction(gate) - each - self._gate_cost * self._one

    def amounts(self, lower, cost):
        """The bound and the cost as solutions show them, each rounded away from the other.

        A search may end with a bound that is below that of its record by two of the tails, since it adds those of an assignment to them.
        """
        gates = fewest = 0
        if self._gate_cost:
            # All that is no gate costs less than half of one together.
            gates, fewest = cost // self._gate_cost, max(0, -((self._gate_cost // 2 - lower) // self._gate_cost))
        below = self._base + (lower - 3 * self._half) * self._one + fewest * self._more
        above = self._base + (cost + self._half) * self._one + gates * self._more
        maximize = self._sign < 0
        return outer_bound(self._sign * below, maximize, self._is_whole), outer_bound(self._sign * above, not maximize, self._is_whole)
