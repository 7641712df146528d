"""What planners ask of jobs: how many persons each one wants, which ones can't go together, and what an undone one costs."""
from .amounts import MOST
from .faults import Fault
from .lists import apart_said, number_of, numbers_said
from .names_told import unknown
from .networks import Demand, Network
from .wishes import price_of

NEED = "need", "write how many persons the object wants"
# What says something of objects, each by itself, by a column or by a row of the table.
OPTIONS = "need", "need_column", "need_row", "apart", "apart_column", "apart_row", "undone", "undone_column", "undone_row"
# From so many arcs of dummies on, where persons are more than objects, the sides are swapped.
MOST_DUMMY_ARCS = 1_000_000


def is_asked(words):
    return any(getattr(words, option) is not None for option in OPTIONS)


def demand_of(words, problem, told={}):
    """The demand for the objects of a problem that the words tell, or columns and rows of the table, by their options."""
    needs = said_by_table(told, "need", problem)
    if needs is None:
        needs = numbers_said("--need", words.need, set(problem.objects), "object", "an object and how many persons it wants")
    needs = [number_of(*(needs.get(name) or needs.get(None) or ("", "1")), NEED) for name in problem.objects]
    if not any(needs):
        raise Fault("--need: nobody is wanted for anything; give an object a need above 0")
    shared = said_by_table(told, "apart", problem)
    apart = apart_said(words.apart, problem.objects) if shared is None else (groups_by(shared, problem.objects), frozenset())
    return Demand(needs, *apart, prices_of_undone(words, problem, said_by_table(told, "undone", problem)))


def groups_by(said, objects):
    """The groups of objects that share what is said of them."""
    first = {}
    return [first.setdefault(said[name][1], place) if name in said else place for place, name in enumerate(objects)]


def said_by_table(told, option, problem):
    """What a column or a row says of objects, or None where there is neither."""
    said = told.get(f"{option}_column", told.get(f"{option}_row"))
    known = set(problem.objects)
    for name in said or ():
        if name not in known:
            raise Fault(f"{said[name][0]}: {unknown('object', name, problem.objects)}")
    return said


def prices_of_undone(words, problem, said):
    """For each object what a place costs that stays open, on the scale of the solver, or None where none may; nothing at
    all where nobody says it."""
    if words.undone is not None:
        said = dict.fromkeys(problem.objects, (f"--undone {words.undone}", words.undone))
    return None if said is None else [price_of(problem, said.get(name), words.maximise, 1) for name in problem.objects]


def network_of(problem, wishes, copies, demand):
    """The network of a problem, the copies of its persons, and the demand for its objects."""
    look_at_fixed(problem, wishes, copies, demand)
    free = copies.free
    if not free and demand.undone is not None:
        # Who pays nothing for it may stay free.
        fixed = {copy for copy, _ in copies.fixed}
        free = [None if copy in fixed else 0 for copy in range(len(copies.owners))]
    network = Network(copies.allowed, copies.owners, free, copies.fixed, demand)
    if network.greatest_rest() > MOST:
        raise Fault("--capacity: with --need or --apart the costs of one person are too far apart to be counted; count in greater units")
    return network


def look_at_fixed(problem, wishes, copies, demand):
    """Pairs that are fixed have to be such that all of them go."""
    counts, things = {}, {}
    for word, (place, thing) in zip(wishes.fixed, copies.pairs):
        counts[thing] = counts.get(thing, 0) + 1
        if counts[thing] > demand.needs[thing - 1]:
            raise Fault(f"--fix {word}: the object wants {demand.needs[thing - 1]}, and more pairs with it are fixed; leave one of them out")
        for before, other in things.setdefault(place, []):
            if demand.are_apart(thing, other):
                told = "this pair is fixed already" if other == thing else f"its object can't go with that of --fix {before}"
                raise Fault(f"--fix {word}: {told}; leave one of them out")
        things[place].append((word, thing))


def is_wide(words, model):
    """Whether persons are so many more than objects that the sides are swapped. What asks for prices has them for
    objects alone."""
    asks = words.why is not None or words.second or words.fair
    arcs = model.dummies() * len(model.owners)
    return not asks and arcs > (MOST_DUMMY_ARCS if not words.html else MOST_DUMMY_ARCS * 30)
