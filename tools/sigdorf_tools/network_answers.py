"""Answers for networks, told of the table's persons and objects: who has what, or who is in the way of a plan."""
from .claims import Claim
from .faults import Fault


def answer_of_network(solver, name, network, looked=0):
    """The answer of the solver, with its claim as it is told of the copies of persons and of the table's objects. So many
    arcs were looked at before for the same answer."""
    answer = solver.answer(name, network.lines(), looked + network.count(), network.objects_said())
    if answer.claim.kind == "infeasible" and network.free:
        return answer_of_bound(solver, name, network, answer)
    return answer._replace(claim=told(network, answer.claim))


def answer_of_bound(solver, name, network, answer):
    """The answer for those who mustn't stay free, with their numbers among all copies; or where all of them can have
    something, for the places that mustn't stay open. One of both is in the way of a plan: where there is a plan for the
    ones and a plan for the others, there is one for both."""
    bound = [copy for copy, price in enumerate(network.free) if price is None]
    part = network.part_of(bound)
    if part.persons() > part.all_objects():
        things = sorted({thing for copy in bound for thing, _ in network.pairs_of_copy(copy)})
        return answer._replace(claim=infeasible([copy + 1 for copy in bound], things, False))
    found = answer_of_network(solver, name, part) if bound else answer
    if bound and found.claim.kind == "infeasible":
        return found._replace(claim=found.claim._replace(persons=[bound[copy - 1] + 1 for copy in found.claim.persons]))
    return answer_of_places(solver, name, network.part_of_places(), answer)


def answer_of_places(solver, name, part, answer):
    """The answer for places that have to be taken, apart from those of fixed pairs."""
    if len(part.places) > len(part.owners):
        things = [thing for thing in range(1, part.objects + 1) for _ in part.open_places[thing]]
        takers = [copy + 1 for mine in part.copies for copy in mine if any(thing in things for thing, _ in part.pairs_of_copy(copy))]
        return answer._replace(claim=infeasible(takers, things, True))
    found = answer_of_network(solver, name, part)
    if found.claim.kind != "infeasible":
        raise Fault(f"{name}: that there is no plan, as {solver.program} says, doesn't hold; install the program anew")
    return found


def told(network, claim):
    """A claim on the solver's persons and objects as one on copies and objects of the table."""
    if claim.kind == "infeasible":
        return hall_of_places(network, claim) if network.is_swapped else hall_of_copies(network, claim)
    picks = picks_of_places(network, claim) if network.is_swapped else picks_of_copies(network, claim)
    return claim._replace(picks=picks, prices=[])


def picks_of_copies(network, claim):
    """For each copy its object and the cost; an object that isn't there for one who stays free."""
    found, count, helpers = [], len(network.places), len(network.helpers)
    for copy in range(len(network.owners)):
        thing, cost = claim.picks[copy]
        if count < thing <= count + helpers:
            # The place is the one that the helper takes, for the rest of the cost.
            thing, more = claim.picks[len(network.owners) + thing - count - 1]
            cost += more
        found.append((network.places[thing - 1], cost) if thing <= count else (network.objects + 1 + copy, cost))
    return found


def picks_of_places(network, claim):
    """The same where the places take copies."""
    found = [(network.objects + 1 + copy, 0) for copy in range(len(network.owners))]
    for place, thing in enumerate(network.places):
        copy, cost = claim.picks[place]
        if copy > len(network.owners):
            # The copy is the one that the helper takes.
            copy, _ = claim.picks[len(network.places) + copy - len(network.owners) - 1]
        found[copy - 1] = thing, cost
    return found


def infeasible(persons, objects, by_objects):
    return Claim("infeasible", [], [], None, None, persons, objects, by_objects)


def hall_of_copies(network, claim):
    """Copies that may take too few places. A helper's object whose helper isn't among them is one place for them."""
    count, copies = len(network.places), len(network.owners)
    inside = {person - copies - 1 for person in claim.persons if person > copies}
    things = [network.places[place - 1] for place in claim.objects if place <= count]
    through = [place - count - 1 for place in claim.objects if place > count]
    more = [thing for helper in through if helper not in inside for thing, _ in network.helpers[helper][1]]
    persons = [person for person in claim.persons if person <= copies]
    return infeasible(persons, sorted(things + [thing for thing in dict.fromkeys(more) if thing not in things]), False)


def hall_of_places(network, claim):
    """Places that too few copies can take."""
    count, copies = len(network.places), len(network.owners)
    inside = {person - count - 1 for person in claim.persons if person > count}
    persons = [copy for copy in claim.objects if copy <= copies]
    owners = {network.owners[copy - 1] for copy in persons}
    for helper in (number - copies - 1 for number in claim.objects if number > copies):
        owner = network.helpers[helper][0]
        if helper not in inside and owner not in owners:
            owners.add(owner)
            persons.append(network.copies[owner][0] + 1)
    return infeasible(sorted(persons), [network.places[place - 1] for place in claim.persons if place <= count], True)
