"""How much dearer a plan is at least that lacks something of the best one, as the prices of that one prove."""
import heapq
from math import inf
from typing import NamedTuple

from .margins import detours_of

# So many arcs are looked at, all in all; what is left has the bound that its margin tells.
MOST_STEPS = 20_000_000


class Change(NamedTuple):
    """What another plan lacks: a pair, by the place of a person and the number of an object, or that some copies stay free; and the person of the solver whose arc it is."""

    person: int
    pair: tuple | None
    stays: tuple

    def is_lacking(self, model, person, thing):
        """Whether a person of the solver mustn't have an object then."""
        if not 0 < person <= len(model.owners):
            return False
        return (model.owners[person - 1], thing) == self.pair or person - 1 in self.stays and thing == model.objects + person


class Rises:
    """The bounds of a model's changes. First those that margins tell, by a look at each person's arcs; then better ones, by the shortest way around."""

    def __init__(self, model, claim):
        self.model, self.claim = model, claim
        self.detours = detours_of(model.rows(), claim)
        self.of_person = [self.rise_of(row) for row in model.rows()]
        self.holders = {thing: person for person, (thing, _) in enumerate(claim.picks, 1)}
        self.near, self.limit, self.steps = None, None, 0

    def rise_of(self, row):
        """How much dearer a plan is at least in which a person hasn't his own object; None where there is none."""
        person, objects, costs = row
        own, detours = self.claim.picks[person - 1][0], self.detours
        leave, take, least = detours.leave, detours.take[own], inf
        for thing, excess in zip(objects, detours.excesses(objects, costs)):
            if excess < least and thing != own:
                least = min(least, excess + max(leave[thing], take))
        return detours.rise(least)

    def better(self, change, rise, gap):
        """A bound that is nothing less, for one of less than a gap: that of the least excess of a way around, on which each one takes the object of the next, from the person who lacks his own one
        to whoever takes that. Objects that are left over are those of nobody, whose excess for an object is its price."""
        if self.near is None:
            self.limit = (gap - 1) * self.detours.scale + self.detours.of_plan
            prices = sorted((price, thing) for thing, price in enumerate(self.claim.prices, 1) if price <= self.limit and thing in self.holders)
            self.near = [prices, *map(self.near_arcs, self.model.rows())]
        excess = self.way_around(change)
        return rise if excess is None else max(rise, gap if excess > self.limit else self.detours.rise(excess))

    def near_arcs(self, row):
        """The arcs of a person, but for his own one, whose excess may be on a way that matters, the least first."""
        person, objects, costs = row
        own = self.claim.picks[person - 1][0]
        return sorted((excess, thing) for thing, excess in zip(objects, self.detours.excesses(objects, costs)) if excess <= self.limit and thing != own)

    def way_around(self, change):
        """The least excess of a way around, or more than the limit; None where too much was looked at already."""
        target = self.claim.picks[change.person - 1][0]
        waiting, seen = [(0, change.person, 0)], set()
        while waiting and self.steps <= MOST_STEPS:
            excess, person, thing = heapq.heappop(waiting)
            if thing == target:
                return excess
            if person in seen:
                continue
            seen.add(person)
            for more, other in self.near[person]:
                self.steps += 1
                if excess + more > self.limit:
                    break
                holder = self.holders.get(other, 0)
                if (other == target or holder not in seen) and not change.is_lacking(self.model, person, other):
                    heapq.heappush(waiting, (excess + more, holder, other))
        return inf if self.steps <= MOST_STEPS else None
