"""What was changed on the page: costs of a table, and pairs that are fixed or forbidden. A pair is told by the numbers of its person and its
object, from 0 on."""
from typing import NamedTuple

from ..amounts import NotAnAmount, TooManyDecimals, units_of
from ..faults import Fault, quoted
from ..problems import Arcs
from ..wishes import pair_of
from .refusals import Refusal

# So many pairs may be changed between two plans.
MOST = 20_000


class Edits(NamedTuple):
    """The new costs as texts, an empty one where a pair isn't allowed any more; the pairs that are fixed, and those that are forbidden."""

    costs: dict = {}
    fixed: frozenset = frozenset()
    forbidden: frozenset = frozenset()

    def and_then(self, told, problem):
        """These edits and those that a page tells: lists of pairs by `fix`, `forbid` and `free`, and of pairs with a cost by `costs`, where
        no cost stands for the table's own."""
        fix, forbid, free = (frozenset(pair_told(pair, problem) for pair in list_told(told, name)) for name in ("fix", "forbid", "free"))
        costs = dict(self.costs)
        for cell in list_told(told, "costs"):
            if not isinstance(cell, list) or len(cell) != 3 or not isinstance(cell[2], str | None):
                raise Refusal(400, "a cost is given by a person, an object and a text; load the page anew")
            pair, text = pair_told(cell[:2], problem), cell[2]
            costs.pop(pair, None)
            if text is not None:
                costs[pair] = " ".join(text.split())
        return Edits(costs, (self.fixed | fix) - forbid - free, (self.forbidden | forbid) - fix - free)


def edits_said(words, problem):
    """What the words of the command say of pairs, which can be taken back on the page."""
    fixed, forbidden = ([pair_of(f"--{option}", word, problem) for word in getattr(words, option)] for option in ("fix", "forbid"))
    return Edits({}, *(frozenset((person, number - 1) for person, number in pairs) for pairs in (fixed, forbidden)))


def list_told(told, name):
    found = told.get(name, []) if isinstance(told, dict) else None
    if not isinstance(found, list) or len(found) > MOST:
        raise Refusal(400, f"`{name}` has to be a list of at most {MOST:,} pairs; load the page anew")
    return found


def pair_told(pair, problem):
    if isinstance(pair, list) and len(pair) == 2 and all(isinstance(number, int) for number in pair):
        person, thing = pair
        if 0 <= person < len(problem.persons) and 0 <= thing < len(problem.objects):
            return person, thing
    raise Refusal(400, "a pair that the table hasn't; load the page anew")


def with_costs(problem, costs, maximise):
    """The problem of a table with these costs in place of its own."""
    changed = {}
    for (person, thing), text in costs.items():
        changed.setdefault(person, {})[thing + 1] = units_told(problem, person, thing, text, maximise)
    arcs = list(problem.arcs)
    for person, cells in changed.items():
        arcs[person] = arcs_with(arcs[person], cells)
    return problem._replace(arcs=arcs)


def units_told(problem, person, thing, text, maximise):
    """A cost in smallest units, on the scale of the solver; None where the pair isn't allowed."""
    if not text:
        return None
    try:
        units = units_of(text, problem.decimals, problem.mark)
    except NotAnAmount as why:
        way_out = "; say more of them by --decimals" if isinstance(why, TooManyDecimals) else ""
        pair = f"{quoted(problem.persons[person])} and {quoted(problem.objects[thing])}"
        raise Fault(f"{pair}: {quoted(text)} {why}{way_out}") from None
    return -units if maximise else units


def arcs_with(arcs, cells):
    """The arcs of a person with these costs. Of a row of a matrix they stay in the order of the objects."""
    objects = arcs.objects
    pairs = {thing: cost for thing, cost in (arcs.pairs() | cells).items() if cost is not None}
    if objects == sorted(objects):
        pairs = dict(sorted(pairs.items()))
    return Arcs(list(pairs), "\n".join(map(str, pairs.values())))
