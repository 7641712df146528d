"""What the solver is given for a problem and the wishes for its plan: persons with a copy for each object that they may take, and objects for those who stay free."""
import itertools
from typing import NamedTuple

from . import array_lines
from .arrays import ArrayArcs
from .faults import Fault
from .problems import MOST_ARCS, MOST_OBJECTS, MOST_PERSONS

# At most so many copies and objects together are made a square problem.
MOST_SQUARE = MOST_PERSONS


class Model(NamedTuple):
    """For each person of the solver, who is a copy of one of the table's, the place of that one and the arcs; what it costs each copy to stay free,
    or None where it mustn't, and nothing at all where nobody is asked; which copies stand for a fixed pair; and how many objects the table has.

    Where nobody is asked, copies are given to objects as far as both go: where copies are more, each one that isn't fixed may take one of the dummies,
    which cost nothing and are as many as copies are more.

    Where copies may stay free, each has an object of its own for that. These make the objects more than the persons, which the solver is slow with where
    costs are high; so the problem is made square. Persons for the objects alone could take whatever is left, but that is an arc for each of them and each
    object. It is enough that the one for an object takes that object, where nobody else does, or the own object of a copy that may take it: whoever takes an
    object leaves his own one to its person. So there are twice the arcs of the table, and one for each copy and each object. Where these persons would be too
    many for the solver, they are left out.
    """

    owners: list
    arcs: list
    free: list
    fixed: frozenset
    objects: int

    def dummies(self):
        """How many dummies there are."""
        return 0 if self.free else max(len(self.owners) - self.objects, 0)

    def is_square(self):
        """Whether copies may stay free, and there are persons for the objects."""
        return bool(self.free) and len(self.owners) + self.objects <= MOST_SQUARE

    def persons(self):
        """How many persons the solver has."""
        return len(self.owners) + (self.objects if self.is_square() else 0)

    def all_objects(self):
        return len(self.owners) + self.objects if self.free else self.objects + self.dummies()

    def objects_said(self):
        """How many objects there are, where they aren't as many as the persons."""
        return self.all_objects() if self.all_objects() > self.persons() else None

    def count(self):
        """How many arcs there are."""
        total = sum(arcs.count() for arcs in self.arcs)
        if self.free:
            return total + (total + self.objects) * self.is_square() + sum(price is not None for price in self.free)
        return total + self.dummies() * (len(self.owners) - len(self.fixed))

    def lines(self):
        """The text of the arc file, in pieces."""
        yield f"{self.persons()}\n"
        for in_arrays, numbered in itertools.groupby(enumerate(self.arcs, 1), lambda row: isinstance(row[1], ArrayArcs)):
            yield from array_lines.lines_of(numbered) if in_arrays else lines_of(numbered)
        yield from self.lines_of_free() if self.free else self.lines_of_dummies()

    def lines_of_dummies(self):
        form = "".join(f"@ {self.objects + dummy} 0\n" for dummy in range(1, self.dummies() + 1))
        yield from (form.replace("@", str(person)) for person in range(1, len(self.owners) + 1) if form and person - 1 not in self.fixed)

    def lines_of_free(self):
        """The arcs to the own objects, and those of the persons for the objects."""
        copies, count, is_square = len(self.owners), self.objects, self.is_square()
        for copy, (arcs, price) in enumerate(zip(self.arcs, self.free), 1):
            if price is not None:
                yield f"{copy} {count + copy} {price}\n"
            if is_square:
                yield "".join([f"{copies + thing} {count + copy} 0\n" for thing in arcs.objects])
        if is_square:
            yield "".join([f"{copies + thing} {thing} 0\n" for thing in range(1, count + 1)])

    def rows(self):
        """For each person of the solver, in turn, the number, the objects and the costs."""
        copies, count, dummies = len(self.owners), self.objects, [self.objects + dummy for dummy in range(1, self.dummies() + 1)]
        for copy, arcs in enumerate(self.arcs, 1):
            objects, costs = arcs.objects, arcs.costs()
            if self.free and self.free[copy - 1] is not None:
                objects, costs = [*objects, count + copy], [*costs, self.free[copy - 1]]
            elif dummies and copy - 1 not in self.fixed:
                objects, costs = objects + dummies, costs + [0] * len(dummies)
            yield copy, objects, costs
        if self.is_square():
            own = [[thing] for thing in range(1, count + 1)]
            for copy, arcs in enumerate(self.arcs, 1):
                for thing in arcs.objects:
                    own[thing - 1].append(count + copy)
            yield from ((copies + thing, objects, [0] * len(objects)) for thing, objects in enumerate(own, 1))

    def without(self, pair=None, stays=()):
        """The model in which no copy of a person takes an object, which are given by their places and numbers, and some copies don't stay free."""
        arcs = self.arcs
        if pair:
            arcs = [each.without({pair[1]}) if owner == pair[0] else each for owner, each in zip(self.owners, arcs)]
        return self._replace(arcs=arcs, free=[None if copy in stays else price for copy, price in enumerate(self.free)])

    def is_spare(self, copy):
        """Whether a copy isn't the first one of its person. It stays free at no cost, since he has an object by another one, or pays for the first one."""
        return copy > 0 and self.owners[copy - 1] == self.owners[copy]

    def up_to(self, most):
        """The model without all that costs more."""
        arcs = [each.up_to(most) for each in self.arcs]
        return self._replace(arcs=arcs, free=[price if price is None or price <= most or self.is_spare(copy) else None for copy, price in enumerate(self.free)])

    def least_limit(self):
        """A cost below which no plan can stay, since somebody has no arc there; the least of all where that isn't known."""
        if self.free or self.dummies():
            return min(self.costs())
        return max(min(arcs.costs()) for arcs in self.arcs)

    def costs(self):
        """All costs that the plan may have, in rising order."""
        prices = {price for copy, price in enumerate(self.free) if price is not None and not self.is_spare(copy)}
        return sorted({cost for arcs in self.arcs for cost in arcs.costs()} | prices)


def lines_of(numbered):
    """The lines of persons, who come with their numbers and arcs. Those of one are made by one step of the library, from a form with a place for each cost."""
    # The form of a row serves for all that follow with the same objects.
    before, form = None, ""
    for person, arcs in numbered:
        if arcs.objects != before:
            before, form = arcs.objects, "".join([f"@ {number} %s\n" for number in arcs.objects])
        if arcs.objects:
            yield form.replace("@", str(person)) % tuple(arcs.text.split("\n"))


def plain_model(problem):
    """The model of a problem without wishes."""
    return Model(range(len(problem.persons)), problem.arcs, [], frozenset(), len(problem.objects))


def look_at_size(file, model):
    """A problem has to be one that the solver takes."""
    for word, count, most in (("persons", model.persons(), MOST_PERSONS), ("objects", model.all_objects(), MOST_OBJECTS)):
        if count > most:
            raise Fault(f"{file}: with copies and those that stay free the problem has {count:,} {word}, and may have {most:,}; ask for less capacity, or leave pairs out")
    if model.count() > MOST_ARCS:
        raise Fault(f"{file}: the problem has {model.count():,} pairs with those of dummies, and may have {MOST_ARCS:,}; leave out pairs that won't be taken")
