"""Notes on what may not be meant in a table, or in a plan. Nothing changes by them: each is one line on standard
error."""
import re

from .faults import quoted, say
from .plans import rows_of_pairs

# What spreadsheets have below or beside a table, in small letters: no names of persons or objects.
SUMS = set(
    "total totals subtotal sum sums average mean need needed demand required"
    " summe summen gesamt gesamtsumme insgesamt durchschnitt mittelwert bedarf ben\u00f6tigt \u03c3 \u2211".split()
) | {"grand total"}
# Titles of columns that say something of persons, and are no objects.
BESIDE = set("team group crew department id nr no number capacity gruppe abteilung kapazit\u00e4t anzahl".split())
# From how many times the next greatest one on a cost may stand for a pair that isn't allowed.
FAR = 100
# What tells one copy of an object from the other ones.
COPY = re.compile(r" ?\([0-9]+\)$")


def note(sentence):
    say(f"note: {sentence}")


def notes_of_names(problem):
    """Sums that are taken for a person or an object, since they stand last in the table, and columns that may be of
    persons."""
    for word, names in (("person", problem.persons), ("object", problem.objects)):
        if names and names[-1].rstrip(" :").casefold() in SUMS:
            told = f"{quoted(names[-1])}, the last {word} of the table"
            yield f"{told}, is planned like any other; leave it out if it is none"
    for name in problem.objects:
        if name.rstrip(" .:").casefold() in BESIDE:
            yield f"{quoted(name)} is planned like any other object; say --ignore-column with its title if it is none"


def notes_of_plan(names, problem, claim):
    """What stands out in a plan: costs far above all others, and persons who have two copies of one object."""
    if claim.kind != "infeasible":
        yield from notes_of_costs(names, problem, claim)
        yield from notes_of_copies(rows_of_pairs(names, claim))


def notes_of_costs(names, problem, claim):
    """A note on the pairs whose costs are far above those of all others, if these are the fewer ones: a huge cost may
    stand for a pair that isn't allowed."""
    picks = zip(names.persons, claim.picks)
    pairs = [(abs(cost), cost, person, thing) for person, (thing, cost) in picks if names.object(thing) is not None]
    pairs.sort(reverse=True)
    for place, (size, cost, person, thing) in enumerate(pairs[: max(len(pairs) // 2, 1)]):
        if not size:
            return
        below = pairs[place + 1][0] if place + 1 < len(pairs) else 0
        # Where all others cost nothing, the person's other pairs tell what is usual.
        below = below or greatest_below(size, problem.arcs[problem.persons.index(person)].costs())
        if below and size >= FAR * below:
            more = f", and {place} more pair{'s cost' if place > 1 else ' costs'} as much or more" if place else ""
            pair = f"{quoted(person)} and {quoted(names.object(thing))} cost {names.amount(cost)}{more}"
            usual = names._replace(maximise=False).amount(below)
            yield f"{pair}, where {usual} is the next greatest cost; leave a pair that isn't allowed out of the table"
            return


def greatest_below(size, costs):
    return max((abs(cost) for cost in costs if abs(cost) < size), default=0)


def notes_of_copies(rows):
    """A note on persons who have two copies of one object, which a plan with capacities may give them."""
    twice = persons_with_copies(rows)
    if not twice:
        return
    person, *things = twice[0]
    count = len(twice) - 1
    more = f", and {count} more person{'s have' if count > 1 else ' has'} copies of one object" if count else ""
    way_out = "write it once and say --need, or forbid such pairs"
    told = f"{quoted(person)} has {' and '.join(map(quoted, things))}{more}"
    yield f"{told}; who may take more than one object may take all its copies: {way_out}"


def persons_with_copies(rows):
    """Each person who has copies of one object, with two of them."""
    found, seen = {}, {}
    for person, thing, _ in rows:
        before = seen.setdefault((person, COPY.sub("", thing)), thing)
        if before != thing and COPY.search(before) and COPY.search(thing):
            found.setdefault(person, (person, before, thing))
    return list(found.values())
