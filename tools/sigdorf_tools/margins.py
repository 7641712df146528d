"""Margins: how far one cost may change while the prices of a certificate still show that its plan is a best one."""
from math import inf
from typing import NamedTuple

from .plans import MOST_LISTED, listed

# How many contested objects the last sentence names.
MOST_NAMED = 100


class Margin(NamedTuple):
    """An arc of a person, whether it is the one of the plan, and its margin: how far the cost may rise where it is, or fall where it isn't, if no other cost
    changes; None where it may go as far as it likes, since every plan has this arc, or none has."""

    person: int
    arc: tuple
    is_picked: bool
    margin: int | None

    def contests(self):
        """Whether the prices leave open that a best plan has this arc in place of another."""
        return not self.is_picked and self.margin == 0

    def last_cost(self):
        """The cost up to which, or down to which, the plan is a best one for sure; None where there is none."""
        return None if self.margin is None else self.arc[1] + (self.margin if self.is_picked else -self.margin)


class Detours(NamedTuple):
    """What a certificate proves of plans that differ from its own.

    The excess of an arc is how far it is above the least of its person, each at his costs times persons + 1, and prices. The excesses of any plan, and the prices
    of what it leaves over, together, are its cost times persons + 1, less a sum that is the same for all plans. So a plan costs at least as much more than the best one as the excesses that
    it can't do without are above all of the best plan's. Costs are whole, so it is rounded up. A plan without a person's own arc has another one of his.

    Kept are that scale, the excesses of the best plan together, for each object the least excess of another arc of whoever has it, and the least of another person's arc to it, or what it costs
    to leave it over.
    """

    prices: list
    scale: int
    of_plan: int
    leave: list
    take: list

    def excesses(self, objects, costs):
        """The excess of each arc of a person."""
        return excesses_of(objects, costs, self.prices, self.scale)

    def between(self, own, thing):
        """What excess others can't do without where a person changes his own object for another one. Whoever has the other one has to leave it. The own one is taken by somebody else, or, where
        objects are more than persons, it may be left over, which costs its price. Both may be the same arc, so the greater one counts."""
        return 0 if own == thing else max(self.leave[thing], self.take[own])

    def rise(self, excess):
        """How much dearer a plan with so much excess is at least, or None where there is no such plan."""
        return None if excess == inf else -((self.of_plan - excess) // self.scale)


def excesses_of(objects, costs, prices, scale):
    values = [scale * cost + prices[thing - 1] for thing, cost in zip(objects, costs)]
    least = min(values, default=0)
    return [value - least for value in values]


def detours_of(rows, claim):
    """The detours of a claim of a best plan. The rows are those of all persons in turn, each one a person, the objects and the costs; they are looked at once."""
    scale, count = len(claim.picks) + 1, len(claim.prices)
    leave = [0] * (count + 1)
    take = [inf, *claim.prices] if count > len(claim.picks) else [inf] * (count + 1)
    of_plan = 0
    for person, objects, costs in rows:
        own, paid = claim.picks[person - 1]
        least = inf
        for thing, cost, excess in zip(objects, costs, excesses_of(objects, costs, claim.prices, scale)):
            if thing == own:
                of_plan += excess if cost == paid else 0
                continue
            if excess < least:
                least = excess
            if excess < take[thing]:
                take[thing] = excess
        leave[own] = least
    return Detours(claim.prices, scale, of_plan, leave, take)


def margins_of(row, claim, detours):
    """The margins of the arcs of a person, by objects."""
    person, objects, costs = row
    own = claim.picks[person - 1]
    arcs = sorted(zip(objects, costs, detours.excesses(objects, costs)))
    falls = [detours.rise(excess + detours.between(own[0], thing)) for thing, _, excess in arcs]
    rise = min((fall for fall, arc in zip(falls, arcs) if fall is not None and arc[:2] != own), default=None)
    for fall, arc in zip(falls, arcs):
        yield Margin(person, arc[:2], arc[:2] == own, rise if arc[:2] == own else fall)


def rows_of_margins(names, arcs, claim):
    """A row for each arc that has names, and a sentence."""
    unsigned = names._replace(maximise=False)
    contested = set()
    yield [*names.titles, "is", "margin", "holds to"]
    rows = [(person, *zip(*sorted(arcs[person]))) for person in sorted(arcs)]
    detours = detours_of(rows, claim)
    for margin in (margin for row in rows for margin in margins_of(row, claim, detours)):
        person, thing = names.person(margin.person), names.object(margin.arc[0])
        # A dummy has no row.
        if thing is None:
            continue
        contested |= {thing} if margin.contests() else set()
        role = "plan" if margin.is_picked else "contests" if margin.contests() else ""
        amounts = ["any", "any"] if margin.margin is None else [unsigned.amount(margin.margin), names.amount(margin.last_cost())]
        yield [person, thing, names.amount(margin.arc[1]), role, *amounts]
    yield [sentence_of(names, contested)]


def sentence_of(names, contested):
    if not contested:
        return "No object is contested: this is the only best plan."
    told = [name for name in names.objects if name in contested]
    if len(told) <= MOST_LISTED:
        return f"Contested at these prices: {listed(told, 'object')}."
    more = f", and {len(told) - MOST_NAMED} more in rows with `contests`" if len(told) > MOST_NAMED else ""
    return f"Contested at these prices are {len(told)} objects: {', '.join(told[:MOST_NAMED])}{more}."
