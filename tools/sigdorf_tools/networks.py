"""What the solver is given where jobs want several persons, may be left undone at a price, or can't go together, and where persons
are far more than jobs. It is an assignment problem each time, so that its answer is proved like any other.

Each person has as many copies as he may take jobs, and each job as many places as it wants persons. The side of which there are
fewer is that of the solver's persons, so that no dummies are wanted. A person may have a pair but once, and of jobs that can't go
together but one: where his copies are more than one, and the places too, a helper stands between them. It is a person and an object
of the solver. The helper's object is what a copy takes in place of a place; then the helper itself, which else takes its own object,
has to take a place. So one copy at most has one of these places. The copy pays the least of the costs, and the helper what is above
it: so a helper never gains by a place that no copy has.

Where persons may stay free, or places open, each copy has an object of its own for that, and each place a person: it takes the place,
where nobody else does, or the own object of the copy that has it.
"""
from typing import NamedTuple


class Demand(NamedTuple):
    """For each object how many persons it wants, and the number of its group, of which a person may have one; pairs of
    objects, by their numbers, that can't go together though they are in no group; and what a place costs that stays open,
    for each object, with None where none may, or nothing at all where nobody asked."""

    needs: list
    groups: list
    apart: frozenset = frozenset()
    undone: list | None = None

    def are_apart(self, one, other):
        """Whether a person can't have two objects; nobody has the same one twice."""
        return self.groups[one - 1] == self.groups[other - 1] or (min(one, other), max(one, other)) in self.apart


class Network:
    """Persons by the places of their copies, the objects by those of theirs, what may be taken, and the helpers. Persons
    and objects of the solver are numbered from 1 on: copies, then helpers, then what stands for places; and places, then
    helpers, then what stands for copies; or the other way round, where the sides are swapped."""

    def __init__(self, arcs, owners, free, fixed, demand, is_swapped=None):
        """For each person the arcs, without forbidden ones; for each copy its person, and what it costs to stay free, if
        anybody may; which copies stand for fixed pairs, and with which object."""
        self.arcs, self.owners, self.free, self.demand, self.objects = arcs, owners, free, demand, len(demand.needs)
        self.places = [thing for thing, need in enumerate(demand.needs, 1) for _ in range(need)]
        self.is_swapped = len(owners) > len(self.places) and not free if is_swapped is None else is_swapped
        self.open_places = [[] for _ in range(self.objects + 1)]
        for place, thing in enumerate(self.places, 1):
            self.open_places[thing].append(place)
        self.fixed = {copy: (self.open_places[thing].pop(0), thing) for copy, thing in fixed}
        self.copies = [[] for _ in arcs]
        for copy, owner in enumerate(owners):
            if copy not in self.fixed:
                self.copies[owner].append(copy)
        self.has = [set() for _ in arcs]
        for copy, (_, thing) in self.fixed.items():
            self.has[owners[copy]].add(demand.groups[thing - 1])
        self.costs = [arcs[person].pairs() for person in range(len(arcs))]
        self.pairs = [self.pairs_of(person) for person in range(len(arcs))]
        self.helpers, self.helped, self.least = [], {}, []
        for person in range(len(arcs)):
            self.add_helpers(person)

    def pairs_of(self, person):
        """The objects that a person may have beside fixed ones, with their costs."""
        groups, has = self.demand.groups, self.has[person]
        return [(thing, cost) for thing, cost in self.costs[person].items() if groups[thing - 1] not in has and self.open_places[thing]]

    def add_helpers(self, person):
        if len(self.copies[person]) < 2:
            return
        groups = {}
        for thing, cost in self.pairs[person]:
            groups.setdefault(self.demand.groups[thing - 1], []).append((thing, cost))
        for group, pairs in groups.items():
            if sum(len(self.open_places[thing]) for thing, _ in pairs) > 1:
                self.helped[person, group] = len(self.helpers)
                self.helpers.append((person, pairs))
                self.least.append(min(cost for _, cost in pairs))

    def greatest_rest(self):
        """The most that a helper pays for a place, which the solver has to be able to count."""
        return max((cost - least for (_, pairs), least in zip(self.helpers, self.least) for _, cost in pairs), default=0)

    def helper_of(self, person, thing):
        """The number of the helper that stands between a person and an object, from 0 on, or None."""
        return self.helped.get((person, self.demand.groups[thing - 1])) if self.helped else None

    def without(self, pairs):
        """The network in which persons don't have some objects, each pair by the place of the person and the number of the
        object."""
        gone = {}
        for person, thing in pairs:
            gone.setdefault(person, set()).add(thing)
        arcs = [each.without(gone.get(person, ())) for person, each in enumerate(self.arcs)]
        fixed = [(copy, thing) for copy, (_, thing) in self.fixed.items()]
        return Network(arcs, self.owners, self.free, fixed, self.demand, self.is_swapped)

    def part_of_places(self):
        """The network in which just those places have to be taken that mustn't stay open, by whoever there is."""
        fixed = [(copy, thing) for copy, (_, thing) in self.fixed.items()]
        held = [sum(thing == other for _, other in fixed) for thing in range(1, self.objects + 1)]
        needs = [need if self.price_of_open(thing) is None else held[thing - 1] for thing, need in enumerate(self.demand.needs, 1)]
        return Network(self.arcs, self.owners, [], fixed, self.demand._replace(needs=needs), is_swapped=True)

    def part_of(self, copies):
        """The network of these copies alone, who mustn't stay free."""
        fixed = [(place, self.fixed[copy][1]) for place, copy in enumerate(copies) if copy in self.fixed]
        owners = [self.owners[copy] for copy in copies]
        return Network(self.arcs, owners, [], fixed, self.demand, is_swapped=False)

    def pairs_of_copy(self, copy):
        """What a copy may take."""
        owner = self.owners[copy]
        fixed = self.fixed.get(copy)
        return [(fixed[1], self.costs[owner][fixed[1]])] if fixed else self.pairs[owner]

    def persons(self):
        """How many persons the solver has."""
        front = len(self.places) if self.is_swapped else len(self.owners)
        return front + len(self.helpers) + (len(self.places) if self.free else 0)

    def all_objects(self):
        front = len(self.owners) if self.is_swapped else len(self.places)
        return front + len(self.helpers) + (len(self.owners) if self.free else 0)

    def objects_said(self):
        """How many objects there are, where they aren't as many as the persons."""
        return self.all_objects() if self.all_objects() > self.persons() else None

    def dummies(self):
        return 0

    def count(self):
        """How many arcs there are, without a look at each of them."""
        total = len(self.fixed)
        for person, pairs in enumerate(self.pairs):
            places = [len(self.open_places[thing]) for thing, _ in pairs if self.helper_of(person, thing) is None]
            total += len(self.copies[person]) * sum(places)
        for person, pairs in self.helpers:
            total += 1 + len(self.copies[person]) + sum(len(self.open_places[thing]) for thing, _ in pairs)
        if self.free:
            total += sum(price is not None for price in self.free) + len(self.fixed)
            total += sum(self.price_of_open(thing) is not None for thing in self.places)
            total += sum(len(self.copies[person]) * len(self.open_places[thing]) for person, pairs in enumerate(self.pairs) for thing, _ in pairs)
        return total

    def lines(self):
        """The text of the arc file, in pieces."""
        yield f"{self.persons()}\n"
        for person, row in enumerate(self.rows(), 1):
            yield "".join([f"{person} {thing} {cost}\n" for thing, cost in row])

    def rows(self):
        """For each person of the solver the arcs, as pairs of an object and a cost."""
        if self.is_swapped:
            yield from self.rows_of_places()
            for number, (person, _) in enumerate(self.helpers):
                yield [(len(self.owners) + number + 1, 0), *((copy + 1, 0) for copy in self.copies[person])]
            return
        yield from self.rows_of_copies()
        for number, ((_, pairs), least) in enumerate(zip(self.helpers, self.least)):
            yield [(len(self.places) + number + 1, 0), *((place, cost - least) for thing, cost in pairs for place in self.open_places[thing])]
        if self.free:
            yield from self.rows_of_open_places()

    def rows_of_copies(self):
        own = len(self.places) + len(self.helpers) + 1
        for copy, owner in enumerate(self.owners):
            row = [(own + copy, self.free[copy])] if self.free and self.free[copy] is not None else []
            if copy in self.fixed:
                place, thing = self.fixed[copy]
                yield [(place, self.costs[owner][thing])]
                continue
            helpers = {}
            for thing, cost in self.pairs[owner]:
                helper = self.helper_of(owner, thing)
                if helper is None:
                    row += [(place, cost) for place in self.open_places[thing]]
                else:
                    helpers[len(self.places) + helper + 1] = self.least[helper]
            yield row + list(helpers.items())

    def rows_of_places(self):
        """The same from the other side: what each place may take."""
        takers = [[] for _ in range(self.objects + 1)]
        for person, pairs in enumerate(self.pairs):
            for thing, cost in pairs:
                helper = self.helper_of(person, thing)
                numbers = [copy + 1 for copy in self.copies[person]] if helper is None else [len(self.owners) + helper + 1]
                takers[thing] += [(number, cost) for number in numbers]
        fixed = {place: (copy, thing) for copy, (place, thing) in self.fixed.items()}
        for place, thing in enumerate(self.places, 1):
            if place in fixed:
                copy, thing = fixed[place]
                yield [(copy + 1, self.costs[self.owners[copy]][thing])]
            else:
                yield takers[thing]

    def rows_of_open_places(self):
        """What the persons of places may take: their place, or the own object of a copy that may have it."""
        own = len(self.places) + len(self.helpers) + 1
        takers = [[] for _ in range(self.objects + 1)]
        for person, pairs in enumerate(self.pairs):
            for thing, _ in pairs:
                takers[thing] += [(own + copy, 0) for copy in self.copies[person]]
        fixed = {place: copy for copy, (place, _) in self.fixed.items()}
        for place, thing in enumerate(self.places, 1):
            price = self.price_of_open(thing)
            alone = [] if price is None else [(place, price)]
            yield alone + ([(own + fixed[place], 0)] if place in fixed else takers[thing])

    def price_of_open(self, thing):
        """What a place of an object costs that stays open, or None where it mustn't."""
        return 0 if self.demand.undone is None else self.demand.undone[thing - 1]
