"""Plans that are asked for by more than their total: the second best one, and the one whose greatest cost is least. Each is made of plans that are judged like any other."""
import bisect
import heapq

from .branching import Branching
from .claims import Claim, with_all_persons
from .faults import Fault
from .network_answers import answer_of_network
from .networks import Network
from .rises import Change, Rises


class Plans:
    """Solves models of one table."""

    def __init__(self, solver, name):
        self.solver, self.name = solver, name

    def answer(self, model, start=None):
        """The answer for a model. Where nobody can be found for all who mustn't stay free, it speaks of them alone."""
        if isinstance(model, Network):
            return Branching(self.solver, self.name, model).answer() if model.demand.apart else answer_of_network(self.solver, self.name, model)
        start = None if model.objects_said() else start
        answer = self.solver.answer(self.name, model.lines(), model.count(), model.objects_said(), start)
        if answer.claim.kind == "infeasible" and model.free:
            return self.answer_of_bound(model, answer)
        return told_whole(model, answer)

    def answer_of_bound(self, model, answer):
        """The answer for those who mustn't stay free, with their numbers in the whole model: they are in the way of a plan."""
        bound = [copy for copy, price in enumerate(model.free) if price is None]
        if len(bound) > model.objects:
            objects = {thing for copy in bound for thing in model.arcs[copy].objects}
            return answer._replace(claim=Claim("infeasible", [], [], None, None, [copy + 1 for copy in bound], sorted(objects)))
        part = model._replace(owners=[model.owners[copy] for copy in bound], arcs=[model.arcs[copy] for copy in bound], free=[], fixed=frozenset())
        found = self.solver.answer(self.name, part.lines(), part.count(), part.objects_said())
        return found._replace(claim=found.claim._replace(persons=[bound[person - 1] + 1 for person in found.claim.persons]))

    def second(self, model, best):
        """The least plan that differs from the best one in a pair, or in who stays free, and the model that it is the
        best one of; None and the model where there is none. It is the least of those without a pair of the best one
        each, and the prices of that one tell how dear each of them is at least. The one that may be least dear is
        looked for, until no other can be less dear than what was found."""
        found, whole, rises = None, model, Rises(model, best.claim)
        waiting = [(rise, place, change) for place, (rise, change) in enumerate(changes(model, best, rises))]
        heapq.heapify(waiting)
        sure = set()
        while waiting:
            rise, place, change = heapq.heappop(waiting)
            gap = found and found.claim.cost - best.claim.cost
            if found and rise >= gap:
                break
            if found and place not in sure:
                # What is found tells how far a better look at the prices has to go.
                sure.add(place)
                heapq.heappush(waiting, (rises.better(change, rise, gap), place, change))
                continue
            part = whole.without(change.pair, change.stays)
            answer = self.answer(part, best.certificate)
            if answer.claim.kind == "bracket":
                raise Fault(f"{self.name}: the search for the second best plan was stopped by --bids or --seconds; say more of them")
            if answer.claim.kind == "optimal" and (found is None or answer.claim.cost < found.claim.cost):
                found, model = answer, part
        return found, model

    def fair(self, model):
        """The plan whose greatest cost is least, and of those the one of the least total, with that cost; or the answer that there is no plan, without one.
        That no plan goes below is judged: it is the answer for the next lower cost, that there is no plan."""
        answer = self.answer(model)
        if answer.claim.kind == "infeasible":
            return answer, None
        # No better plan has a greater cost than this one, so that most arcs of a large table are left out at once.
        picks = enumerate(answer.claim.picks[: len(model.owners)])
        greatest = max(cost for copy, (thing, cost) in picks if thing <= model.objects or model.free and not model.is_spare(copy))
        model = model.up_to(greatest)
        costs = model.costs()
        low, high = bisect.bisect_left(costs, model.least_limit()) - 1, len(costs) - 1
        while high - low > 1:
            middle = (low + high) // 2
            low, high = (low, middle) if self.is_enough(model, costs[middle]) else (middle, high)
        below = self.answer(model.up_to(costs[low])) if low >= 0 else None
        answer = self.answer(model.up_to(costs[high]))
        if below and below.claim.kind != "infeasible" or answer.claim.kind == "infeasible":
            raise Fault(f"{self.name}: the search for an assignment of {self.solver.program} doesn't hold; install the program anew")
        return answer, costs[high]

    def is_enough(self, model, cost):
        part = model.up_to(cost)
        return self.solver.has_full(part.lines(), part.objects_said())


def told_whole(model, answer):
    """An answer in which objects that can't all be given out go to nobody but those who are told."""
    if answer.claim.kind != "infeasible" or not model.dummies():
        return answer
    return answer._replace(claim=with_all_persons(answer.claim, ((person, objects) for person, objects, _ in model.rows())))


def changes(model, best, rises):
    """What makes a plan differ, one thing each, and how much dearer a plan has to be then at least."""
    told = set()
    for copy, owner in enumerate(model.owners):
        thing, rise = best.claim.picks[copy][0], rises.of_person[copy]
        if rise is None:
            continue
        if thing <= model.objects:
            yield rise, Change(copy + 1, (owner, thing), ())
        elif model.free and owner not in told:
            # Copies are alike: one that stays free has to take something, and none that has something may stay free in its place.
            told.add(owner)
            busy = [other for other, his in enumerate(model.owners) if his == owner and best.claim.picks[other][0] <= model.objects]
            yield rise, Change(copy + 1, None, (copy, *busy))
