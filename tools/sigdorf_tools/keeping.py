"""The plan of yesterday, which is kept as far as it pays: each pair that it doesn't have costs so much more."""
import json
from typing import NamedTuple

from .amounts import MOST, NotAnAmount, units_of
from .faults import Fault, quoted, read_bytes
from .lists import table_of_list
from .names import counted
from .notes import note
from .problems import Arcs


class Changes(NamedTuple):
    """The pairs of the old plan, by names, and what each other one costs more, in smallest units."""

    pairs: frozenset
    cost: int

    def of_plan(self, pairs):
        """The pairs that come and those that go, where these are the new ones."""
        new = [(person, thing) for person, thing, _ in pairs]
        gone = [pair for pair in self.pairs if pair not in set(new)]
        return [pair for pair in new if pair not in self.pairs], gone


def changes_of(words, problem):
    """What the words tell of an old plan, or None."""
    if words.keep is None:
        if words.change_cost is not None:
            raise Fault(f"--change-cost {words.change_cost}: --keep names the plan that is changed, and isn't said; say it too")
        return None
    if words.change_cost is None:
        raise Fault(f"--keep {words.keep}: --change-cost says what each change costs, and isn't said; say it too")
    try:
        cost = units_of(words.change_cost, problem.decimals, problem.mark)
    except NotAnAmount as why:
        raise Fault(f"--change-cost {words.change_cost}: {quoted(words.change_cost)} {why}") from None
    if cost < 0:
        raise Fault(f"--change-cost {words.change_cost}: a change can't be paid for; say 0 or more")
    return Changes(pairs_known(words.keep, problem), cost)


def pairs_known(file, problem):
    """The pairs of an old plan whose names the table has."""
    persons, objects, pairs = set(problem.persons), set(problem.objects), pairs_of_plan(file)
    if pairs and pairs[0][0] not in persons and pairs[0][1] not in objects:
        # Titles, as a rule.
        pairs = pairs[1:]
    known = frozenset(pair for pair in pairs if pair[0] in persons and pair[1] in objects)
    if not known:
        raise Fault(f"{file}: no row has a person and an object of the table; name a plan as it was written, with the person in the first column and the object in the second")
    if left := len(set(pairs)) - len(known):
        note(f"{file}: {counted(left, 'pair')} of the old plan {'has' if left == 1 else 'have'} a name that the table hasn't, and {'is' if left == 1 else 'are'} left out")
    return known


def pairs_of_plan(file):
    """The pairs of a plan as it was written: rows of a person and an object, apart from titles, sums and what is free."""
    if file.lower().endswith(".json"):
        return pairs_of_json(file)
    return [tuple(cells[:2]) for cells in table_of_list(file).rows if len(cells) > 1 and cells[0] and cells[1]]


def pairs_of_json(file):
    try:
        told = json.loads(read_bytes(file))
        return [(str(pair["person"]), str(pair["object"])) for pair in told["pairs"]]
    except (ValueError, TypeError, KeyError, RecursionError):
        raise Fault(f"{file}: no plan, since it is no JSON with `pairs` of `person` and `object`; name one that --json wrote") from None


def with_changes(problem, changes):
    """The problem in which each pair that the old plan doesn't have costs more."""
    numbers = {name: number for number, name in enumerate(problem.objects, 1)}
    kept = {}
    for person, thing in changes.pairs:
        kept.setdefault(person, set()).add(numbers[thing])
    arcs = [dearer(problem, place, kept.get(name, ()), changes.cost) for place, name in enumerate(problem.persons)]
    return problem._replace(arcs=arcs)


def dearer(problem, place, kept, cost):
    arcs = problem.arcs[place]
    costs = [own if thing in kept else own + cost for thing, own in zip(arcs.objects, arcs.costs())]
    if max(costs, default=0) > MOST:
        raise Fault(f"--change-cost: a cost of {quoted(problem.persons[place])} is out of range with it; say less, or count in greater units")
    return Arcs(arcs.objects, "\n".join(map(str, costs)))


def with_own_costs(names, claim, changes):
    """The claim in which each pair has its own cost again; the total has those of changes in it."""
    if claim.kind == "infeasible":
        return claim
    picks = list(claim.picks)
    for copy, person in enumerate(names.persons):
        thing, cost = picks[copy]
        name = names.object(thing) if thing <= len(names.objects) else None
        if name is not None and (person, name) not in changes.pairs:
            picks[copy] = thing, cost - changes.cost
    return claim._replace(picks=picks)
