"""Plans where objects are apart that form no groups, as a with b and b with c, but not a with c. That is no assignment
problem. Without such pairs it is one, whose answer is a bound, as proved as any other.

A plan is found by repair: who has objects that are apart keeps the cheapest ones, the others are taken from him, and it is solved
anew. Then some groups of objects are given out anew, and all others stay where they are, as long as that pays. Then the bound is
raised by branching. Somebody who has objects that are apart either hasn't one of them, or has none that is apart from it: so the
problem is parted in two, and the lesser one of their bounds is one of all. Where no part is left whose bound is below the plan, the
plan is the least.
"""
import heapq
import itertools
import time

from .claims import Claim
from .faults import Fault
from .names import counted
from .network_answers import answer_of_network

# So many assignments are made, all in all.
MOST = 200


class Branching:
    """The search: the best plan that was found, the parts that are left, each with its bound, what it lacks and its
    answer, and the bounds of plans whose own search was stopped."""

    def __init__(self, solver, name, network):
        self.solver, self.name, self.network = solver, name, network
        self.end = None if solver.seconds is None else time.monotonic() + int(solver.seconds)
        self.apart = {thing: set() for thing in range(1, network.objects + 1)}
        for one, other in network.demand.apart:
            self.apart[one].add(other)
            self.apart[other].add(one)
        self.best, self.left, self.loose, self.count, self.looked, self.judges = None, [], [], 0, 0, None

    def answer(self):
        """The answer, with how many assignments show it."""
        gone = frozenset((self.network.owners[copy], other) for copy, (_, thing) in self.network.fixed.items() for other in self.apart[thing])
        root = self.solved(gone)
        if root.claim.kind == "infeasible":
            return root
        self.put(gone, root)
        if not self.is_closed():
            self.repair(gone, root, True)
            self.repair(gone, root, False)
            self.improve(gone)
        if not self.is_closed():
            self.plunge()
            self.improve(gone)
        while not self.is_closed() and not self.is_over():
            self.branch(heapq.heappop(self.left))
        return self.told(root)

    def is_closed(self):
        """Whether no part is left that may have a better plan."""
        return not self.left or self.best is not None and self.left[0][0] >= self.best.claim.cost

    def plunge(self):
        """Branches from the first part on, each time the one of the last two whose bound is less, down to a plan."""
        part = heapq.heappop(self.left)
        while part and not self.is_over():
            part = min(filter(None, self.branch(part)), default=None)
            if part:
                self.left.remove(part)
                heapq.heapify(self.left)
        if part:
            heapq.heappush(self.left, part)

    def branch(self, part):
        """The two parts of a part, or nothing where one has no plan that matters, or is solved."""
        _, _, gone, answer = part
        return [self.put(gone | more, self.solved(gone | more)) for more in self.parts(answer)]

    def is_over(self):
        return self.count >= MOST or self.end is not None and time.monotonic() >= self.end

    def solved(self, gone):
        """The answer without some pairs of a person and an object, which may have others that are apart."""
        network = self.network.without(gone)
        solver = self.solver if self.end is None else self.solver.within(max(1, round(self.end - time.monotonic())))
        answer = answer_of_network(solver, self.name, network, self.looked)
        self.count, self.looked = self.count + 1, self.looked + network.count()
        self.judges = [judge for judge in answer.judges if self.judges is None or judge in self.judges]
        return answer

    def put(self, gone, answer):
        """Keeps a plan that is better than those before, or a part that may have one, which is given back."""
        claim = answer.claim
        if claim.kind == "infeasible" or self.best and claim.lower >= self.best.claim.cost:
            return None
        if self.clashes(answer):
            part = claim.lower, self.count, gone, answer
            heapq.heappush(self.left, part)
            return part
        self.loose += [claim.lower] if claim.kind == "bracket" else []
        self.keep(answer)
        return None

    def keep(self, answer):
        """Keeps a plan, if it is better than those before; whether it is."""
        is_better = self.best is None or answer.claim.cost < self.best.claim.cost
        self.best = answer if is_better else self.best
        return is_better

    def had(self, answer):
        """What each person has, with its cost."""
        found = {}
        for copy, owner in enumerate(self.network.owners):
            thing, cost = answer.claim.picks[copy]
            if thing <= self.network.objects:
                found.setdefault(owner, {})[thing] = cost
        return found

    def clashes(self, answer):
        """What those persons have who have objects that are apart."""
        return {owner: mine for owner, mine in self.had(answer).items() if any(self.apart[thing] & mine.keys() for thing in mine)}

    def parts(self, answer):
        """What the two parts lack of a problem whose answer has a clash: the object that is apart from most others of its
        person, or all that are apart from it."""
        clashes = ((len(self.apart[thing] & mine.keys()), owner, thing) for owner, mine in self.clashes(answer).items() for thing in mine)
        _, owner, thing = max(clashes)
        return {(owner, thing)}, {(owner, other) for other in self.apart[thing]}

    def repair(self, gone, answer, is_firm):
        """Looks for a plan, if there is none yet: each person keeps his cheapest objects, as far as they go together, and the
        others are taken from him; if it is firm, also all that is apart from what he keeps. That ends soon with a plan where
        places may stay open, so there it goes on beyond the limits."""
        is_sure = is_firm and bool(self.network.free)
        while self.best is None and (is_sure or not self.is_over()) and answer.claim.kind != "infeasible":
            for owner, mine in self.clashes(answer).items():
                kept = set()
                for thing in sorted(mine, key=lambda thing: (mine[thing], thing)):
                    if self.apart[thing] & kept:
                        gone |= {(owner, thing)}
                    else:
                        kept.add(thing)
                gone |= {(owner, other) for thing in kept for other in self.apart[thing]} if is_firm else set()
            answer = self.solved(gone)
            if answer.claim.kind != "infeasible" and not self.clashes(answer):
                self.keep(answer)

    def improve(self, gone):
        """Gives out the groups of a class anew, while the others stay where they are: between groups of one class nothing is
        apart. So it is an assignment problem, and the plan is one of its plans."""
        classes = self.classes()
        quiet = 0
        for some in itertools.cycle(classes):
            if self.best is None or self.is_closed() or self.is_over() or quiet == len(classes):
                return
            had = self.had(self.best)
            more = {pair for person, pairs in enumerate(self.network.pairs) for pair in self.kept_out(person, pairs, had.get(person, {}), some)}
            answer = self.solved(gone | more)
            quiet = 0 if answer.claim.kind != "infeasible" and not self.clashes(answer) and self.keep(answer) else quiet + 1

    def kept_out(self, person, pairs, mine, some):
        """What a person mustn't take where only objects of some groups are given out anew."""
        groups = self.network.demand.groups
        stays = {thing for thing in mine if groups[thing - 1] not in some}
        for thing, _ in pairs:
            if self.apart[thing] & stays if groups[thing - 1] in some else thing not in mine:
                yield person, thing

    def classes(self):
        """The groups of objects in classes, such that nothing is apart between two groups of one class."""
        groups, near = self.network.demand.groups, {}
        for one, other in self.network.demand.apart:
            near.setdefault(groups[one - 1], set()).add(groups[other - 1])
            near.setdefault(groups[other - 1], set()).add(groups[one - 1])
        found = []
        for group in dict.fromkeys(groups):
            fitting = next((some for some in found if not near.get(group, set()) & some), None)
            if fitting is None:
                found.append({group})
            else:
                fitting.add(group)
        return found

    def told(self, root):
        """The best plan, with the bound of all parts that are left."""
        if self.best is None and self.left:
            way_out = "say --undone or --leave-free, so that something may stay open"
            raise Fault(f"{self.name}: --apart: no plan was found by {counted(self.count, 'assignment')}, and there may be one; {way_out}")
        if self.best is None:
            return root._replace(claim=Claim("infeasible", [], [], None, None, [], [], False), status=3, judges=self.judges, parts=self.count)
        claim = self.best.claim
        lower = min([claim.cost, *self.loose, *(part[0] for part in self.left)])
        kind, status = ("optimal", 0) if lower >= claim.cost else ("bracket", 4)
        parts, judges = self.count, self.judges
        if root.claim.lower >= lower:
            # The first assignment alone shows it.
            parts, judges = 1, [judge for judge in root.judges if judge in self.best.judges]
        return self.best._replace(claim=claim._replace(kind=kind, lower=lower), status=status, judges=judges, parts=parts)
