"""What planners ask of a plan beside its costs: how many objects a person may take, who may stay free at what price, which pairs are fixed, and which forbidden."""
from typing import NamedTuple

from .amounts import NotAnAmount, units_of
from .faults import Fault, quoted
from .lists import number_of, numbers_said
from .models import Model
from .names_told import unknown
from .problems import Arcs

CAPACITY = "capacity", "write how many objects the person may take at most"


class Wishes(NamedTuple):
    """For persons by name the capacity, and the cost of staying free as a text, each with the place where it stands; None stands for all others. Fixed and forbidden pairs are words."""

    capacities: dict
    prices: dict
    fixed: list
    forbidden: list


def capacities_said(word, persons):
    """The capacities that a word of the command names: one number for all, or a file with a row for each person, which may have titles above."""
    return numbers_said("--capacity", word, persons, "person", "a person and how many objects he may take at most")


def by_names(table, cells, column, first, which):
    """What a column says of each name of another one, of persons or of objects: the place and the text. Where a name has more rows they have to agree."""
    found = {}
    for row in range(first, len(table.rows)):
        name, place = table.rows[row][which], f"{table.file}, {table.line_word} {table.lines[row]}, column {column + 1}"
        before = found.setdefault(name, (place, cells[row]))
        if before[1] != cells[row]:
            raise Fault(f"{place}: {quoted(name)} has {quoted(cells[row])} here, and {quoted(before[1])} in another row; write the same in all of them")
    return {name: told for name, told in found.items() if told[1]}


def pair_of(option, word, problem):
    """The place of a person and the number of an object that `Ada=roof` names."""
    persons, objects = {name: place for place, name in enumerate(problem.persons)}, {name: number for number, name in enumerate(problem.objects, 1)}
    parts = [(word[:place].strip(), word[place + 1 :].strip()) for place, character in enumerate(word) if character == "="]
    fitting = [(persons[person], objects[thing]) for person, thing in parts if person in persons and thing in objects]
    if len(fitting) == 1:
        return fitting[0]
    if fitting:
        raise Fault(f"{option} {word}: the names may be parted at more than one `=`; leave out what is meant in the table")
    if not parts:
        raise Fault(f"{option} {word}: a person and an object are wanted, as in Ada=roof")
    person, thing = parts[0]
    known = persons if person not in persons else objects
    raise Fault(f"{option} {word}: {unknown('person' if known is persons else 'object', person if known is persons else thing, known)}")


class Copies(NamedTuple):
    """The persons with a copy for each object that they may take: for each copy the place of its person, the arcs, and what it costs to stay free, if anybody may; which copies stand for a fixed pair, and
    with which object; the fixed pairs as they were said, each with the place of the person; and for each person the arcs, without forbidden ones."""

    owners: list
    arcs: list
    free: list
    fixed: list
    pairs: list
    allowed: list


def copies_of(problem, wishes, maximise):
    """The copies that the wishes for a plan ask for."""
    pairs = [pair_of("--fix", word, problem) for word in wishes.fixed]
    forbidden = {pair_of("--forbid", word, problem): word for word in wishes.forbidden}
    found = Copies([], [], [], [], pairs, [])
    for place, name in enumerate(problem.persons):
        told = wishes.capacities.get(name) or wishes.capacities.get(None)
        capacity = number_of(*told, CAPACITY) if told else 1
        price = price_of(problem, wishes.prices.get(name) or wishes.prices.get(None), maximise, capacity)
        mine = [(word, pair) for word, pair in zip(wishes.fixed, pairs) if pair[0] == place]
        if len(mine) > capacity:
            raise Fault(f"--fix {mine[-1][0]}: {quoted(name)} may take {capacity} and more pairs are fixed; leave one out, or say --capacity")
        found.allowed.append(problem.arcs[place].without({thing for person, thing in forbidden if person == place}))
        for copy in range(capacity):
            if copy < len(mine):
                found.fixed.append((len(found.owners), mine[copy][1][1]))
            found.owners.append(place)
            found.arcs.append(fixed_arc(problem, *mine[copy], forbidden) if copy < len(mine) else found.allowed[place])
            # A person who has an object stays free with his other copies at no cost.
            found.free.append(None if copy < len(mine) else price if copy == 0 else 0)
    if not found.owners:
        raise Fault("--capacity: nobody may take anything; give a person a capacity above 0")
    return found if wishes.prices else found._replace(free=[])


def model_of(problem, wishes, copies):
    """The model of a problem, the wishes for its plan, and the copies of persons that they ask for."""
    look_for_doubles(wishes, copies.pairs)
    return Model(copies.owners, copies.arcs, copies.free, frozenset(copy for copy, _ in copies.fixed), len(problem.objects))


def look_for_doubles(wishes, fixed):
    for place, (_, thing) in enumerate(fixed):
        for before in range(place):
            if fixed[before][1] == thing:
                raise Fault(f"--fix {wishes.fixed[place]}: the object is fixed already, by --fix {wishes.fixed[before]}; leave one of them out")


def fixed_arc(problem, word, pair, forbidden):
    """The one arc of a copy whose pair is fixed."""
    if pair in forbidden:
        raise Fault(f"--fix {word}: --forbid {forbidden[pair]} forbids this pair; leave one of them out")
    costs = problem.arcs[pair[0]].pairs()
    if pair[1] not in costs:
        raise Fault(f"--fix {word}: the table has no cost for this pair; write one into it")
    return Arcs([pair[1]], str(costs[pair[1]]))


def price_of(problem, told, maximise, capacity):
    """What it costs a person to stay free, on the scale of the solver; None where he mustn't."""
    if not told:
        return None
    place, text = told
    try:
        units = units_of(text, problem.decimals, problem.mark)
    except NotAnAmount as why:
        raise Fault(f"{place}: {quoted(text)} {why}" + ("" if "decimals than" not in str(why) else "; say more of them by --decimals")) from None
    units = -units if maximise else units
    if units < 0 and capacity > 1:
        raise Fault(f"{place}: who may take more than one object can't be paid for staying free; take another price, or a capacity of 1")
    return units
