"""Plans: the rows of a table that tell an answer in the words of the planner."""
import collections
import csv
import sys
from typing import NamedTuple

from .claims import read_arcs, read_claim, with_all_persons
from .kinds import Asked, judged_by, rank_of, sentence_of_no_parts, sentence_of_plan
from .names import counted

# How many names a sentence holds.
MOST_LISTED = 5


class Free(NamedTuple):
    """Who stays free beside those whom the solver left so: persons who may take nothing; whether staying free has a price, which is told then; for each object how many persons it wants, where it isn't
    one; and for each object what a place costs that stays open, if anything."""

    absent: list = []
    has_prices: bool = False
    needs: list | None = None
    undone: list | None = None


def rows_of_plan(names, claim, free=Free(), asked=Asked()):
    """The rows for an answer: of a plan those of its pairs, of who and what stays free, and of the total."""
    if claim.kind == "infeasible":
        return rows_of_hall_set(names, claim, asked)
    rows = [names.titles, *rows_of_pairs(names, claim), *rows_of_free(names, claim, free), ["total", "", names.amount(claim.cost)]]
    rows = with_old_objects(rows, names, claim, asked.changes) if asked.changes else rows
    if claim.kind == "bracket":
        rows.append([sentence_of(names, claim, asked)])
    return rows


def by_objects(names, rows):
    """The rows of a plan by objects: the object first, in the order of the table, and who stays free at the end."""
    places = {name: place for place, name in enumerate(names.objects)}
    header, *rest = rows
    end = next(place for place in range(len(rest) - 1, -1, -1) if rest[place][:2] == ["total", ""])
    turned = [[thing, person, *more] for person, thing, *more in rest[:end]]
    turned.sort(key=lambda row: places.get(row[0], len(places)))
    return [[header[1], header[0], *header[2:]], *turned, *rest[end:]]


def with_old_objects(rows, names, claim, changes):
    """The rows of a plan with one more column: in the first row of a person that is new, what he had and has no more."""
    _, gone = changes.of_plan(rows_of_pairs(names, claim))
    had = {}
    for person, thing in sorted(gone):
        had.setdefault(person, []).append(thing)
    told = [[*rows[0], "before"]]
    for person, thing, cost in rows[1:]:
        is_new = (person, thing) not in changes.pairs
        told.append([person, thing, cost, " and ".join(had.pop(person, ())) if is_new else ""])
    # Who keeps one object and loses another one.
    return [*told[:-1], *([person, "", "", " and ".join(things)] for person, things in had.items()), told[-1]]


def rows_of_pairs(names, claim):
    """A row for each pair, by persons and then by objects: whoever takes a dummy stays without."""
    places = {name: place for place, name in enumerate(dict.fromkeys(names.persons))}
    picks = sorted((places[person], thing, cost) for person, (thing, cost) in zip(names.persons, claim.picks) if names.object(thing) is not None)
    persons = list(places)
    return [[persons[place], names.object(thing), names.amount(cost)] for place, thing, cost in picks]


def rows_of_free(names, claim, free=Free()):
    """A row for each person who has no object, and for each object, or each place of one, that nobody has."""
    taken, costs = collections.Counter(thing for _, (thing, _) in zip(names.persons, claim.picks)), {}
    busy = {person for person, (thing, _) in zip(names.persons, claim.picks) if names.object(thing) is not None}
    for person, (_, cost) in zip(names.persons, claim.picks):
        if person not in busy:
            costs[person] = costs.get(person, 0) + cost
    persons = [[person, "", names.amount(cost) if free.has_prices else ""] for person, cost in costs.items()] + [[person, "", ""] for person in free.absent]
    needs, prices = free.needs or [1] * len(names.objects), free.undone or [None] * len(names.objects)
    left = [(name, price) for (number, name), need, price in zip(enumerate(names.objects, 1), needs, prices) for _ in range(need - taken[number])]
    return persons + [["", name, "" if price is None else names.amount(price)] for name, price in left]


def rows_of_hall_set(names, claim, asked=Asked()):
    """A sentence, and then who and what it speaks of."""
    persons, objects = blamed(names, claim)
    rows = [[sentence_of(names, claim, asked)]]
    rows += [["person", name] for name in dict.fromkeys(map(names.person, persons))]
    rows += [["object", name] for name in dict.fromkeys(map(names.object, objects))]
    return rows


def is_by_objects(names, claim):
    """Whether a Hall set is told as one of objects that too few persons may take."""
    return names.dummy_objects > 0 if claim.by_objects is None else claim.by_objects


def blamed(names, claim):
    """Persons who may take too few objects; or, where some persons have to stay without an object, objects that too few persons may take."""
    if claim.by_objects is not None or not names.dummy_objects:
        return claim.persons, claim.objects
    # Each person may take each dummy, so all of them are in the set: what is left of the objects is for the persons who are left.
    persons = sorted(set(range(1, len(names.persons) + 1)) - set(claim.persons))
    return persons, sorted(set(range(1, len(names.objects) + 1)) - set(claim.objects))


def sentence_of(names, claim, asked=Asked()):
    """The answer in one sentence."""
    if claim.kind != "infeasible":
        return sentence_of_plan(names, claim, asked)
    (persons, objects), no_plan = blamed(names, claim), f"No plan{asked.within()} gives"
    if not persons and not objects:
        return sentence_of_no_parts(asked)
    told_persons = listed(with_times(map(names.person, persons)), "person")
    told_objects = listed(with_times(map(names.object, objects)), "object")
    if is_by_objects(names, claim):
        more = ", and to nobody else" if persons else ""
        return f"{no_plan} every object to somebody: {told_objects} can go to {told_persons}{more}."
    more = ", and nothing else" if objects else ""
    return f"{no_plan} every person an object: {told_persons} may take {told_objects}{more}."


def with_times(names):
    """Each name once, with how many times it is there, where that is more than once: so many objects the person would have to take."""
    return [name if times == 1 else f"{name} ({times} times)" for name, times in collections.Counter(names).items()]


def listed(names, word):
    """Some names in a sentence, or how many there are where they are more than it can hold."""
    if len(names) > MOST_LISTED:
        return f"these {len(names)} {word}s"
    if all(name.isdecimal() for name in names):
        word = word if len(names) == 1 else f"{word}s" if names else f"no {word}"
        names = [f"{word} {names[0]}", *names[1:]] if names else [word]
    return names[0] if len(names) == 1 else f"{', '.join(names[:-1])} and {names[-1]}"


def write_plan(names, file, certificate):
    """Writes the plan of a certificate, whose file is named for faults, to standard output, as a table like the one that the names are from."""
    objects = names.number_of_objects()
    arcs = read_arcs(names.table, names.arcs.encode(), objects)
    claim = read_claim(file, certificate, arcs, objects, names.table)
    write_rows(names, rows_of_plan(names, claim_told(names, claim, arcs)))


def claim_told(names, claim, arcs):
    """A claim as it is told: of objects that can't all be given out, with everybody who may take one of them."""
    if claim.kind != "infeasible" or not names.dummy_objects:
        return claim
    return with_all_persons(claim, ((person, [thing for thing, _ in arcs[person]]) for person in sorted(arcs)))


def write_rows(names, rows, output=None):
    """Writes rows as a table that is parted as the one that the names are from, to standard output or where it is said."""
    if output is None:
        output = sys.stdout
        output.reconfigure(encoding="utf-8", newline="")
    csv.writer(output, delimiter=names.separator, lineterminator="\n").writerows(rows)


def summary_of(names, claim, judges, asked=Asked()):
    """What an answer says, and who checked it, in half a sentence."""
    if claim.kind == "infeasible":
        return f"there is no plan{asked.within()}; {judged_by(judges, asked)}"
    rows = rows_of_pairs(names, claim)
    changed = ""
    if asked.changes:
        new, _ = asked.changes.of_plan(rows)
        each = names._replace(maximise=False).amount(asked.changes.cost)
        changed = f" with {counted(len(new), 'change')} at {each} each"
    return f"{counted(len(rows), 'pair')}, total {names.amount(claim.cost)}{changed}, {rank_of(names, claim, asked)}; {judged_by(judges, asked)}"
